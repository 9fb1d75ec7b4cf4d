/* Compares the chip, through the library's calls, with VICE's cores in the same process: for each of the 183 opcodes,
 * so many random states; for ADC and SBC, all operands; and runs of instructions. Ends with 1 at the first difference.
 * Arguments: cases for each opcode (20000), seed (1). */
#include <stdio.h>
#include <stdlib.h>
#include <string.h>

#include "arguments.h"
#include "cases.h"
#include "chip.h"
#include "instructions.h"
#include "peer.h"
#include "r6501q.h"
#include "runs.h"

static uint8_t ours[R6501Q_MEMORY_LENGTH], peers[R6501Q_MEMORY_LENGTH];

/* Cases of JMP indirect with its pointer at a page's end that were compared. */
static unsigned long page_ends;

/* The first clock, which releases the chip. */
static r6501q_call_result step(r6501q_state state)
{
    return r6501q_step(state, ours, sizeof ours, release_clocks, 1, release_codes, 1, 0, 0, 0, 0, R6501Q_NO_HALT);
}

static r6501q_call_result run(r6501q_state state, unsigned clocks)
{
    return r6501q_run(state, ours, sizeof ours, 0, 0, 0, 0, 0, 0, 0, 0, clocks, R6501Q_NO_HALT);
}

static void print_accesses(const char *kind, unsigned count, const struct peer_access *access)
{
    printf("  peer's %s:", kind);
    for (unsigned i = 0; i < count; i++)
        printf(" %04X=%02X", access[i].address, access[i].value);
    printf("\n");
}

static void print_difference(uint8_t opcode, const struct peer_registers *before, const struct peer_registers *after,
    const struct peer_record *record, const r6501q_call_result *first, const r6501q_call_result *rest)
{
    printf("difference: %02X %s %s\n", opcode, instructions[opcode].name, mode_words[instructions[opcode].mode]);
    print_registers("before", before);
    printf("\n");
    print_registers("peer", after);
    printf(" clocks %u\n", record->clocks);
    print_result(first);
    print_result(rest);
    print_accesses("reads", record->reads, record->read);
    print_accesses("writes", record->writes, record->write);
    print_memory_differences(peers, ours);
}

static int same_result(const r6501q_call_result *result, const r6501q_state *expected, size_t read)
{
    return result->number == R6501Q_DONE && result->leaps == 1 && result->read == read && result->written == 0
        && same_state(&result->state, expected);
}

/* Runs ours where the peer has run, and compares all that there is: after the first clock registers, wait and the byte
 * that a store leaves waiting, whose place in memory is as it was; after the last one memory too. A push is in memory
 * after the first. One leap is the start; the rest of the instruction is another, be its last clock that of a store or
 * not. */
static void compare_with(uint8_t opcode, const struct peer_registers *before, const struct peer_registers *after,
    const struct peer_record *record)
{
    const int stores = writes_last(&instructions[opcode]);
    const struct peer_access *write = &record->write[0];
    r6501q_call_result first = step(chip_start(before));
    r6501q_state started = chip_after(after, 1, record->clocks - 1), ended = chip_after(after, record->clocks, 0);
    int right = 1;
    if (stores) {
        started.cpu.waiting = (r6501q_waiting){.there = 1, .address = write->address, .value = write->value};
        right = record->writes == 1 && ours[write->address] == write->before;
    } else {
        right = memcmp(ours, peers, sizeof ours) == 0;
    }
    r6501q_call_result rest = run(first.state, record->clocks - 1);
    if (!right || !same_result(&first, &started, 1) || !same_result(&rest, &ended, 0)
        || memcmp(ours, peers, sizeof ours) != 0) {
        print_difference(opcode, before, after, record, &first, &rest);
        exit(1);
    }
}

/* One random state; the memories are equal before and after. */
static enum verdict compare_case(struct random *random, uint8_t opcode)
{
    struct test_case c = make_case(random, opcode, peers);
    for (unsigned i = 0; i < c.bytes; i++)
        ours[c.address[i]] = peers[c.address[i]];
    struct peer_registers after = c.registers;
    struct peer_record record;
    peer_step(&after, peers, &record);
    enum verdict v = verdict(&record);
    if (v == REGISTER_ACCESS) {
        peer_undo(peers, &record);
    } else {
        compare_with(opcode, &c.registers, &after, &record);
        page_ends += jumps_at_page_end(opcode, &record);
    }
    return v;
}

/* Every A, operand and carry, in both modes. Gives their number. */
static unsigned compare_operands(uint8_t opcode)
{
    const uint16_t pc = 0x0200;
    unsigned number = 0;
    for (unsigned flags = 0; flags < 4; flags++)
        for (unsigned a = 0; a < 256; a++)
            for (unsigned operand = 0; operand < 256; operand++) {
                struct peer_registers before = {.a = a, .p = (flags & 1) | (flags & 2) << 2, .pc = pc};
                struct peer_registers after = before;
                struct peer_record record;
                ours[pc] = peers[pc] = opcode;
                ours[pc + 1] = peers[pc + 1] = operand;
                peer_step(&after, peers, &record);
                compare_with(opcode, &before, &after, &record);
                number++;
            }
    return number;
}

struct counts {
    unsigned opcodes;
    unsigned long verdicts[VERDICTS];
};

static struct counts compare_group(const struct group *group, unsigned cases, struct random *random)
{
    struct counts counts = {0};
    for (unsigned opcode = 0; opcode < 256; opcode++)
        if (in_group(group, &instructions[opcode])) {
            counts.opcodes++;
            for (unsigned done = 0; done < cases;) {
                enum verdict v = compare_case(random, opcode);
                counts.verdicts[v]++;
                done += v == REGULAR;
            }
        }
    return counts;
}

static void print_counts(const char *name, const struct counts *counts)
{
    printf("%-14s%8u", name, counts->opcodes);
    for (unsigned v = 0; v < VERDICTS; v++)
        printf("%12lu", counts->verdicts[v]);
    printf("\n");
}

static void compare_groups(unsigned cases, struct random *random)
{
    struct counts all = {0};
    printf("%-14s%8s", "", "opcodes");
    for (unsigned v = 0; v < VERDICTS; v++)
        printf("%12s", verdict_words[v]);
    printf("\n");
    for (unsigned g = 0; g < GROUPS; g++) {
        struct counts counts = compare_group(&groups[g], cases, random);
        print_counts(groups[g].name, &counts);
        all.opcodes += counts.opcodes;
        for (unsigned v = 0; v < VERDICTS; v++)
            all.verdicts[v] += counts.verdicts[v];
    }
    print_counts("all", &all);
}

int main(int count, char **arguments)
{
    uint64_t cases = 20000, seed = 1;
    if (count > 3 || (count > 1 && !read_number(arguments[1], 1, UINT32_MAX, &cases))
        || (count > 2 && !read_number(arguments[2], 0, UINT64_MAX, &seed))) {
        fprintf(stderr, "usage: compare [cases [seed]]; cases for each opcode, from 1 up\n");
        return 2;
    }
    struct random random = {seed};

    setvbuf(stdout, 0, _IOLBF, 0);
    for (unsigned i = 0; i < sizeof ours; i++)
        ours[i] = peers[i] = random_below(&random, 256);
    compare_groups(cases, &random);
    printf("JMP indirect, pointer at a page's end: %lu\n", page_ends);
    printf("ADC, all operands, both modes: %u\n", compare_operands(ADC_IMMEDIATE));
    printf("SBC, all operands, both modes: %u\n", compare_operands(SBC_IMMEDIATE));
    compare_runs(cases, &random);
    return 0;
}
