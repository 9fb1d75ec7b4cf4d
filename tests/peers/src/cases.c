#include "cases.h"

#include "instructions.h"

/* SplitMix64. */
static uint64_t random_next(struct random *random)
{
    uint64_t z = random->state += 0x9E3779B97F4A7C15u;
    z = (z ^ z >> 30) * 0xBF58476D1CE4E5B9u;
    z = (z ^ z >> 27) * 0x94D049BB133111EBu;
    return z ^ z >> 31;
}

unsigned random_below(struct random *random, unsigned bound)
{
    return (random_next(random) >> 32) * bound >> 32;
}

static uint8_t edge_byte(struct random *random)
{
    static const uint8_t edges[] = { 0x00, 0x01, 0x0F, 0x10, 0x7F, 0x80, 0x99, 0x9A, 0xFE, 0xFF };
    return edges[random_below(random, sizeof edges)];
}

static uint8_t any_byte(struct random *random)
{
    return random_below(random, 2) ? edge_byte(random) : random_below(random, 256);
}

/* An address in page zero above the registers. */
static uint8_t zero_page_memory(struct random *random)
{
    return 0x40 + random_below(random, 0xC0);
}

static void put(struct test_case *c, uint8_t *memory, uint16_t address, uint8_t value)
{
    memory[address] = value;
    c->address[c->bytes++] = address;
}

/* Where the instruction is: anywhere, at a page's end or start, in page zero, at the end of memory, under the stack. */
static uint16_t code_address(struct random *random, uint8_t sp, int pushes)
{
    if (pushes && random_below(random, 3) == 0)
        return (uint8_t)(sp + random_below(random, 6) - 4);
    switch (random_below(random, 10)) {
    case 0:
    case 1:
        return random_below(random, 256) << 8 | (0xFD + random_below(random, 3));
    case 2:
        return random_below(random, 256) << 8 | random_below(random, 3);
    case 3:
        return zero_page_memory(random);
    case 4:
        return 0xFFF0 + random_below(random, 16);
    case 5:
        return (uint8_t)(sp + random_below(random, 6) - 4);
    default:
        return random_below(random, 65536);
    }
}

/* An address to which the index is added: anywhere, or so that the sum is in the instruction itself, in page zero, at
 * the end of memory, or past it; or with a low byte at an edge. */
static uint16_t base_address(struct random *random, uint16_t pc, uint8_t index)
{
    switch (random_below(random, 12)) {
    case 0:
        return pc + random_below(random, 4) - index;
    case 1:
        return zero_page_memory(random) - index;
    case 2:
        return 0xFF00 + random_below(random, 256);
    case 3:
        return 0xFF80 + random_below(random, 256) - index;
    case 4:
    case 5:
    case 6:
        return random_below(random, 256) << 8 | edge_byte(random);
    case 7:
        return edge_byte(random) << 8 | edge_byte(random);
    default:
        return random_below(random, 65536);
    }
}

/* The same within page zero. */
static uint8_t zero_page_base(struct random *random, uint16_t pc, uint8_t index)
{
    switch (random_below(random, 8)) {
    case 0:
        return edge_byte(random);
    case 1:
        return pc + random_below(random, 4) - index;
    case 2:
        return edge_byte(random) - index;
    default:
        return zero_page_memory(random) - index;
    }
}

static void put_pointer(struct test_case *c, uint8_t *memory, uint8_t address, uint16_t value)
{
    put(c, memory, address, value);
    put(c, memory, (uint8_t)(address + 1), value >> 8);
}

/* The operand, and what it leads to: data and pointers. They are put before the opcode and the operand, which stay as
 * they are meant where the two overlap. */
static uint16_t put_operand(struct random *random, struct test_case *c, uint8_t opcode, uint8_t *memory)
{
    const struct peer_registers *r = &c->registers;
    uint16_t operand, value;
    switch (instructions[opcode].mode) {
    case IMMEDIATE:
    case RELATIVE:
        return any_byte(random);
    case ZERO_PAGE:
        operand = zero_page_base(random, r->pc, 0);
        put(c, memory, operand, any_byte(random));
        return operand;
    case ZERO_PAGE_X:
        operand = zero_page_base(random, r->pc, r->x);
        put(c, memory, (uint8_t)(operand + r->x), any_byte(random));
        return operand;
    case ZERO_PAGE_Y:
        operand = zero_page_base(random, r->pc, r->y);
        put(c, memory, (uint8_t)(operand + r->y), any_byte(random));
        return operand;
    case ZERO_PAGE_RELATIVE:
        operand = zero_page_base(random, r->pc, 0);
        put(c, memory, operand, any_byte(random));
        return operand | any_byte(random) << 8;
    case INDEXED_INDIRECT:
        operand = zero_page_base(random, r->pc, r->x);
        value = base_address(random, r->pc, 0);
        put(c, memory, value, any_byte(random));
        put_pointer(c, memory, operand + r->x, value);
        return operand;
    case INDIRECT_INDEXED:
        operand = zero_page_base(random, r->pc, 0);
        value = base_address(random, r->pc, r->y);
        put(c, memory, value + r->y, any_byte(random));
        put_pointer(c, memory, operand, value);
        return operand;
    case ABSOLUTE:
        operand = base_address(random, r->pc, 0);
        put(c, memory, operand, any_byte(random));
        return operand;
    case ABSOLUTE_X:
        operand = base_address(random, r->pc, r->x);
        put(c, memory, operand + r->x, any_byte(random));
        return operand;
    case ABSOLUTE_Y:
        operand = base_address(random, r->pc, r->y);
        put(c, memory, operand + r->y, any_byte(random));
        return operand;
    case INDIRECT:
        operand = base_address(random, r->pc, 0);
        if (random_below(random, 3) == 0)
            operand |= 0xFF;
        put(c, memory, operand, any_byte(random));
        put(c, memory, operand + 1, any_byte(random));
        /* The high byte is at the start of the page where the pointer is at its end (document 02, U5). */
        put(c, memory, (operand & 0xFF00) | (uint8_t)(operand + 1), any_byte(random));
        return operand;
    default:
        return 0;
    }
}

struct test_case make_case(struct random *random, uint8_t opcode, uint8_t *memory)
{
    const struct instruction *instruction = &instructions[opcode];
    int pushes = opcode == JSR_OPCODE || opcode == BRK_OPCODE || opcode == PHA_OPCODE || opcode == PHP_OPCODE;
    int pulls = opcode == RTI_OPCODE || opcode == RTS_OPCODE || opcode == PLA_OPCODE || opcode == PLP_OPCODE;
    struct test_case c = { .bytes = 0 };
    struct peer_registers *r = &c.registers;
    r->a = any_byte(random);
    r->x = any_byte(random);
    r->y = any_byte(random);
    r->sp = random_below(random, 2) ? zero_page_memory(random) : any_byte(random);
    r->p = random_below(random, 256) & 0xCF;
    r->pc = code_address(random, r->sp, pushes);

    if (pulls)
        for (unsigned i = 1; i <= 3; i++)
            put(&c, memory, (uint8_t)(r->sp + i), any_byte(random));
    if (opcode == BRK_OPCODE)
        for (unsigned i = 0; i < 2; i++)
            put(&c, memory, 0xFFFE + i, any_byte(random));
    uint16_t operand = put_operand(random, &c, opcode, memory);
    put(&c, memory, r->pc, opcode);
    if (instruction->bytes > 1)
        put(&c, memory, r->pc + 1, operand);
    if (instruction->bytes > 2)
        put(&c, memory, r->pc + 2, operand >> 8);
    return c;
}

const char *const verdict_words[VERDICTS] = {
    [REGULAR] = "compared",
    [REGISTER_ACCESS] = "register",
};

static int touches_registers(unsigned count, const struct peer_access *access)
{
    for (unsigned i = 0; i < count; i++)
        if (access[i].address < 0x40)
            return 1;
    return 0;
}

enum verdict verdict(const struct peer_record *record)
{
    /* 0000h to 003Fh are the chip's registers, and memory to the peer. */
    if (touches_registers(record->reads, record->read) || touches_registers(record->writes, record->write))
        return REGISTER_ACCESS;
    return REGULAR;
}

int jumps_at_page_end(uint8_t opcode, const struct peer_record *record)
{
    return opcode == JMP_INDIRECT && record->read[1].value == 0xFF;
}
