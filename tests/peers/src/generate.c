/* Writes the data of the program `test_instructions`, a file for each group of instructions and one of sums.
 * Arguments: directory, cases for each opcode, seed. */
#include <stdio.h>
#include <stdlib.h>

#include "arguments.h"
#include "cases.h"
#include "instructions.h"
#include "peer.h"

static uint8_t memory[65536];

static FILE *open_file(const char *directory, const char *name)
{
    char path[4096];
    snprintf(path, sizeof path, "%s/%s", directory, name);
    FILE *file = fopen(path, "w");
    if (!file) {
        perror(path);
        exit(1);
    }
    return file;
}

static void close_file(FILE *file)
{
    if (ferror(file) || fclose(file)) {
        perror("generate");
        exit(1);
    }
}

static void write_group_line(FILE *file, uint8_t opcode)
{
    fprintf(file, "=%02X %s %s\n", opcode, instructions[opcode].name, mode_words[instructions[opcode].mode]);
}

static void write_registers(FILE *file, const struct peer_registers *r)
{
    fprintf(file, "%02X %02X %02X %02X %02X %04X", r->a, r->x, r->y, r->sp, r->p, r->pc);
}

static void write_accesses(FILE *file, unsigned count, const struct peer_access *access)
{
    fprintf(file, " %02X", count);
    for (unsigned i = 0; i < count; i++)
        fprintf(file, " %04X%02X", access[i].address, access[i].value);
}

static int has(unsigned count, const struct peer_access *access, uint16_t address)
{
    for (unsigned i = 0; i < count; i++)
        if (access[i].address == address)
            return 1;
    return 0;
}

/* The bytes that the instruction finds in memory: those read and not written by itself before, each once. JSR alone may
 * read what it has written, its last byte under the stack; BRK reads a vector after its pushes, but no push is there.
 * */
static unsigned found(uint8_t opcode, const struct peer_record *record, struct peer_access *bytes)
{
    unsigned count = 0;
    for (unsigned i = 0; i < record->reads; i++) {
        uint16_t address = record->read[i].address;
        int own = opcode == JSR_OPCODE && i == record->reads - 1 && has(record->writes, record->write, address);
        if (!own && !has(count, bytes, address))
            bytes[count++] = record->read[i];
    }
    return count;
}

static void write_cases(FILE *file, uint8_t opcode, unsigned cases, struct random *random)
{
    write_group_line(file, opcode);
    while (cases) {
        struct test_case c = make_case(random, opcode, memory);
        struct peer_registers after = c.registers;
        struct peer_record record;
        struct peer_access bytes[PEER_ACCESSES];
        peer_step(&after, memory, &record);
        if (verdict(&record) == REGULAR) {
            fputc(':', file);
            write_registers(file, &c.registers);
            write_accesses(file, found(opcode, &record, bytes), bytes);
            fputc(' ', file);
            write_registers(file, &after);
            fprintf(file, " %02X", record.clocks);
            write_accesses(file, record.writes, record.write);
            fputc('\n', file);
            cases--;
        }
        for (unsigned i = 0; i < c.bytes; i++)
            memory[c.address[i]] = 0;
        for (unsigned i = 0; i < record.writes; i++)
            memory[record.write[i].address] = 0;
    }
}

/* FNV-1a, 32 bits. */
static uint32_t add_to_sum(uint32_t sum, uint8_t byte)
{
    return (sum ^ byte) * 16777619u;
}

static uint32_t sum_of_operands(uint8_t opcode, uint8_t p, uint8_t a)
{
    const uint16_t pc = 0x0200;
    uint32_t sum = 2166136261u;
    for (unsigned operand = 0; operand < 256; operand++) {
        struct peer_registers registers = { .a = a, .p = p, .pc = pc };
        struct peer_record record;
        memory[pc] = opcode;
        memory[pc + 1] = operand;
        peer_step(&registers, memory, &record);
        sum = add_to_sum(add_to_sum(sum, registers.a), registers.p);
    }
    memory[pc] = memory[pc + 1] = 0;
    return sum;
}

static void write_sums(FILE *file, uint8_t opcode)
{
    static const uint8_t flags[] = { 0x00, 0x01, 0x08, 0x09 };
    write_group_line(file, opcode);
    for (unsigned i = 0; i < sizeof flags; i++)
        for (unsigned a = 0; a < 256; a++)
            fprintf(file, "+%02X %02X %08X\n", flags[i], a, sum_of_operands(opcode, flags[i], a));
}

int main(int count, char **arguments)
{
    uint64_t cases, seed;
    if (count != 4 || !read_number(arguments[2], 1, UINT32_MAX, &cases)
        || !read_number(arguments[3], 0, UINT64_MAX, &seed)) {
        fprintf(stderr, "usage: generate directory cases seed; cases for each opcode, from 1 up\n");
        return 2;
    }
    const char *directory = arguments[1];
    struct random random = { seed };
    for (unsigned g = 0; g < GROUPS; g++) {
        FILE *file = open_file(directory, groups[g].name);
        fprintf(file, "# %s: cases run by VICE's cores, written by tests/peers/generate.\n", groups[g].instructions);
        for (unsigned opcode = 0; opcode < 256; opcode++)
            if (in_group(&groups[g], &instructions[opcode]))
                write_cases(file, opcode, cases, &random);
        close_file(file);
    }
    FILE *file = open_file(directory, "sums");
    fprintf(file, "# Sums over all operands by VICE's 6510 core, written by tests/peers/generate.\n");
    write_sums(file, ADC_IMMEDIATE);
    write_sums(file, SBC_IMMEDIATE);
    close_file(file);
    return 0;
}
