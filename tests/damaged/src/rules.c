#include "rules.h"

#include <string.h>

static int well_formed_waiting(const r6501q_cpu *c)
{
    if (c->waiting.there == 0)
        return c->waiting.address == 0 && c->waiting.value == 0;
    return c->waiting.there == 1 && c->wait > 0;
}

int well_formed(const r6501q_state *s)
{
    const r6501q_peripherals *p = &s->peripherals;
    return (s->cpu.p & 0x30) == 0
        && s->cpu.wait <= 6
        && well_formed_waiting(&s->cpu)
        && s->due.reset <= 1
        && s->due.nmi <= 1
        && p->counterb.turnc <= 1
        && (p->control.ifr & 0xC0) == 0
        && p->transmitter.left <= 12
        && p->transmitter.phase <= 15
        && p->transmitter.register_ <= 0xFFF
        && p->receiver.subinterval <= 7
        && p->receiver.half <= 1
        && p->receiver.left <= 11
        && p->receiver.register_ <= 0x7FF
        && s->external.nmi <= 1
        && s->external.res <= 1
        && s->last.nmi <= 1
        && s->last.res <= 1;
}

static int same_levels(const r6501q_levels *l, const r6501q_levels *m)
{
    return l->ports == m->ports && l->nmi == m->nmi && l->res == m->res;
}

static int same_peripherals(const r6501q_peripherals *p, const r6501q_peripherals *q)
{
    return p->ports.a == q->ports.a
        && p->ports.b == q->ports.b
        && p->ports.c == q->ports.c
        && p->ports.d == q->ports.d
        && p->countera.count == q->countera.count
        && p->countera.latch == q->countera.latch
        && p->counterb.count == q->counterb.count
        && p->counterb.latchb == q->counterb.latchb
        && p->counterb.latchc == q->counterb.latchc
        && p->counterb.turnc == q->counterb.turnc
        && p->control.ifr == q->control.ifr
        && p->control.ier == q->control.ier
        && p->control.mcr == q->control.mcr
        && p->control.sccr == q->control.sccr
        && p->control.scsr == q->control.scsr
        && p->serial.sent == q->serial.sent
        && p->serial.received == q->serial.received
        && p->transmitter.left == q->transmitter.left
        && p->transmitter.phase == q->transmitter.phase
        && p->transmitter.register_ == q->transmitter.register_
        && p->receiver.subinterval == q->receiver.subinterval
        && p->receiver.half == q->receiver.half
        && p->receiver.left == q->receiver.left
        && p->receiver.register_ == q->receiver.register_;
}

int same_state(const r6501q_state *s, const r6501q_state *t)
{
    return s->cpu.a == t->cpu.a
        && s->cpu.x == t->cpu.x
        && s->cpu.y == t->cpu.y
        && s->cpu.sp == t->cpu.sp
        && s->cpu.p == t->cpu.p
        && s->cpu.pc == t->cpu.pc
        && s->cpu.wait == t->cpu.wait
        && s->cpu.waiting.there == t->cpu.waiting.there
        && s->cpu.waiting.address == t->cpu.waiting.address
        && s->cpu.waiting.value == t->cpu.waiting.value
        && s->due.reset == t->due.reset
        && s->due.nmi == t->due.nmi
        && same_peripherals(&s->peripherals, &t->peripherals)
        && same_levels(&s->external, &t->external)
        && same_levels(&s->last, &t->last)
        && s->clock == t->clock;
}

static unsigned pin_of(uint8_t code)
{
    return code % 64;
}

/* "Clocks never fall; within one clock pins rise strictly. The first clock is above the state's." */
static int pins_right(const given *g)
{
    size_t i;
    for (i = 0; i < g->input_clocks_length; i++) {
        if (g->input_codes[i] >= 128 || pin_of(g->input_codes[i]) > R6501Q_PIN_RES)
            return 0;
        if (i == 0) {
            if (g->input_clocks[0] <= g->state.clock)
                return 0;
        } else if (g->input_clocks[i] < g->input_clocks[i - 1]) {
            return 0;
        } else if (g->input_clocks[i] == g->input_clocks[i - 1]
            && pin_of(g->input_codes[i]) <= pin_of(g->input_codes[i - 1])) {
            return 0;
        }
    }
    return 1;
}

int refusal(const given *g)
{
    if (g->memory_length != 65536)
        return 1;
    if (g->with_sums && g->sums_length != 256)
        return 13;
    if (!well_formed(&g->state))
        return 2;
    if (g->input_clocks_length != g->input_codes_length || g->output_clocks_length != g->output_words_length)
        return 3;
    if ((uint64_t)g->state.clock + g->n > UINT64_C(4294967295))
        return 4;
    if (!pins_right(g))
        return 5;
    return 0;
}

static long page_sum(const uint8_t *memory, size_t page)
{
    long sum = 0;
    size_t i;
    for (i = 0; i < 256; i++)
        sum += memory[256 * page + i];
    return sum;
}

void change_sums(uint16_t *sums, const uint8_t *memory_before, const uint8_t *memory)
{
    size_t page;
    for (page = 0; page < 256; page++) {
        const long changed = sums[page] + page_sum(memory, page) - page_sum(memory_before, page);
        sums[page] = (uint16_t)((changed + 65536) % 65536);
    }
}

void right_sums(uint16_t *sums, const uint8_t *memory)
{
    size_t page;
    for (page = 0; page < 256; page++)
        sums[page] = (uint16_t)page_sum(memory, page);
}

r6501q_total_result total_of(const uint16_t *sums, size_t sums_length)
{
    r6501q_total_result result = {13, 0};
    unsigned long total = 0;
    size_t i;
    if (sums_length != 256)
        return result;
    for (i = 0; i < 256; i++)
        total += sums[i];
    result.number = 0;
    result.total = (uint16_t)(total % 65536);
    return result;
}

size_t entries_up_to(const given *g, uint32_t clock)
{
    size_t i = 0;
    while (i < g->input_clocks_length && g->input_clocks[i] <= clock)
        i++;
    return i;
}

int res_stays_high(const given *g, size_t entries)
{
    size_t i;
    for (i = 0; i < entries; i++)
        if (g->input_codes[i] == R6501Q_PIN_RES)
            return 0;
    return g->state.external.res == 1;
}

r6501q_levels levels_after(const given *g, size_t entries)
{
    r6501q_levels l = g->state.external;
    size_t i;
    for (i = 0; i < entries; i++) {
        const unsigned pin = pin_of(g->input_codes[i]);
        const uint8_t high = g->input_codes[i] >= R6501Q_HIGH;
        if (pin == R6501Q_PIN_NMI)
            l.nmi = high;
        else if (pin == R6501Q_PIN_RES)
            l.res = high;
        else if (high)
            l.ports |= UINT32_C(1) << pin;
        else
            l.ports &= ~(UINT32_C(1) << pin);
    }
    return l;
}

uint32_t driven_word(const r6501q_state *s)
{
    const r6501q_peripherals *p = &s->peripherals;
    uint32_t a = p->ports.a;
    const uint32_t d = p->control.mcr & 0x20 ? p->ports.d : 0xFF;
    if (p->control.sccr & 0x80) {
        /* The transmitter's line, high when idle, in either mode. */
        const int sends = p->transmitter.left > 0;
        const uint32_t line = sends ? p->transmitter.register_ & 1 : 1;
        a = (a & ~UINT32_C(0x40)) | line << 6;
        if (p->control.sccr & 0x20) {
            /* Document 02, U1: "PA4's drive is its clock, low at even phases while bits are left, else high". */
            const uint32_t clock = sends ? p->transmitter.phase & 1 : 1;
            a = (a & ~UINT32_C(0x10)) | clock << 4;
        }
    }
    return a | (uint32_t)p->ports.b << 8 | (uint32_t)p->ports.c << 16 | d << 24;
}

/* The opcodes of the 6502; those of the four bit instructions follow a rule. */
static const uint8_t of_the_6502[151] = {
    0x00, 0x01, 0x05, 0x06, 0x08, 0x09, 0x0A, 0x0D, 0x0E, 0x10, 0x11, 0x15, 0x16, 0x18, 0x19, 0x1D, 0x1E,
    0x20, 0x21, 0x24, 0x25, 0x26, 0x28, 0x29, 0x2A, 0x2C, 0x2D, 0x2E, 0x30, 0x31, 0x35, 0x36, 0x38, 0x39, 0x3D, 0x3E,
    0x40, 0x41, 0x45, 0x46, 0x48, 0x49, 0x4A, 0x4C, 0x4D, 0x4E, 0x50, 0x51, 0x55, 0x56, 0x58, 0x59, 0x5D, 0x5E,
    0x60, 0x61, 0x65, 0x66, 0x68, 0x69, 0x6A, 0x6C, 0x6D, 0x6E, 0x70, 0x71, 0x75, 0x76, 0x78, 0x79, 0x7D, 0x7E,
    0x81, 0x84, 0x85, 0x86, 0x88, 0x8A, 0x8C, 0x8D, 0x8E, 0x90, 0x91, 0x94, 0x95, 0x96, 0x98, 0x99, 0x9A, 0x9D,
    0xA0, 0xA1, 0xA2, 0xA4, 0xA5, 0xA6, 0xA8, 0xA9, 0xAA, 0xAC, 0xAD, 0xAE,
    0xB0, 0xB1, 0xB4, 0xB5, 0xB6, 0xB8, 0xB9, 0xBA, 0xBC, 0xBD, 0xBE,
    0xC0, 0xC1, 0xC4, 0xC5, 0xC6, 0xC8, 0xC9, 0xCA, 0xCC, 0xCD, 0xCE, 0xD0, 0xD1, 0xD5, 0xD6, 0xD8, 0xD9, 0xDD, 0xDE,
    0xE0, 0xE1, 0xE4, 0xE5, 0xE6, 0xE8, 0xE9, 0xEA, 0xEC, 0xED, 0xEE, 0xF0, 0xF1, 0xF5, 0xF6, 0xF8, 0xF9, 0xFD, 0xFE};

int is_defined(uint8_t opcode)
{
    static uint8_t defined[256];
    static int made;
    if (!made) {
        size_t i;
        for (i = 0; i < sizeof of_the_6502; i++)
            defined[of_the_6502[i]] = 1;
        /* RMB 07h, SMB 87h, BBR 0Fh, BBS 8Fh, each + 10h x m. */
        for (i = 0; i < 8; i++) {
            defined[0x07 + 0x10 * i] = 1;
            defined[0x87 + 0x10 * i] = 1;
            defined[0x0F + 0x10 * i] = 1;
            defined[0x8F + 0x10 * i] = 1;
        }
        made = 1;
    }
    return defined[opcode];
}

uint16_t counted(uint16_t count, uint16_t latch, uint32_t n)
{
    if (n <= count)
        return (uint16_t)(count - n);
    return (uint16_t)(latch - (n - count - 1) % ((uint32_t)latch + 1));
}

/* The value of so many digits, or -1 where one is missing or wrong. */
static long digits(const uint8_t *tape, size_t tape_length, size_t from, int number)
{
    long value = 0;
    int i;
    for (i = 0; i < number; i++) {
        const size_t at = from + (size_t)i;
        if (at >= tape_length)
            return -1;
        if (tape[at] >= '0' && tape[at] <= '9')
            value = value * 16 + (tape[at] - '0');
        else if (tape[at] >= 'A' && tape[at] <= 'F')
            value = value * 16 + (tape[at] - 'A' + 10);
        else
            return -1;
    }
    return value;
}

r6501q_load_result loaded_from(const uint8_t *tape, size_t tape_length, uint8_t *memory, size_t memory_length)
{
    static uint8_t stored[65536];
    r6501q_load_result result = {1, 0};
    size_t at = 0;
    long records = 0;
    if (memory_length != 65536)
        return result;
    memcpy(stored, memory, 65536);
    for (;;) {
        long count, address, check, sum, i;
        while (at < tape_length && tape[at] != ';')
            at++;
        result.place = at;
        result.number = 10;
        if (at == tape_length)
            return result;
        records++;

        result.number = 8;
        count = digits(tape, tape_length, at + 1, 2);
        address = digits(tape, tape_length, at + 3, 4);
        if (count < 0 || address < 0 || count > 0x18 || address + count > 65536)
            return result;
        sum = count + address / 256 + address % 256;
        for (i = 0; i < count; i++) {
            const long byte = digits(tape, tape_length, at + 7 + 2 * (size_t)i, 2);
            if (byte < 0)
                return result;
            sum += byte;
            if (address + i >= 0x40)
                stored[address + i] = (uint8_t)byte;
        }
        check = digits(tape, tape_length, at + 7 + 2 * (size_t)count, 4);
        if (check < 0)
            return result;

        result.number = 9;
        if (check != sum % 65536)
            return result;

        if (count == 0) {
            result.number = 10;
            if (address != records)
                return result;
            memcpy(memory, stored, 65536);
            result.number = 0;
            result.place = at + 11;
            return result;
        }
        at += 11 + 2 * (size_t)count;
    }
}
