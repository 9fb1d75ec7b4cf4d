#include "runs.h"

#include <stdio.h>
#include <stdlib.h>
#include <string.h>

#include "chip.h"
#include "instructions.h"

static uint8_t ours[R6501Q_MEMORY_LENGTH], peers[R6501Q_MEMORY_LENGTH], loops[R6501Q_MEMORY_LENGTH];

/* A run that goes in a circle is cut; the counters would underflow after 65,536 clocks. */
#define LONGEST 1000

struct run {
    struct peer_registers before, after;
    unsigned instructions, clocks;
    unsigned stores; /* instructions that write on their last clock */
    int last_stores; /* the last one does */
    int r65c02; /* has one of RMB, SMB, BBR, BBS */
};

/* A memory of defined opcodes, each as likely as the other; with or without those that the 6502 has not. */
static void fill_memory(struct random *random, int r65c02)
{
    uint8_t defined[256];
    unsigned count = 0;
    for (unsigned opcode = 0; opcode < 256; opcode++)
        if (instructions[opcode].name && (r65c02 || !instructions[opcode].r65c02))
            defined[count++] = opcode;
    for (unsigned i = 0; i < sizeof peers; i++)
        ours[i] = peers[i] = defined[random_below(random, count)];
}

/* Runs the peer up to the first instruction that is undefined or that the two need not agree on. */
static struct run run_peer(struct random *random)
{
    struct run run = {.before = {.pc = random_below(random, 65536)}};
    run.before.a = random_below(random, 256);
    run.before.x = random_below(random, 256);
    run.before.y = random_below(random, 256);
    run.before.sp = random_below(random, 256);
    run.before.p = random_below(random, 256) & 0xCF;
    run.after = run.before;
    while (run.instructions < LONGEST) {
        uint8_t opcode = peers[run.after.pc];
        struct peer_registers next = run.after;
        struct peer_record record;
        if (!instructions[opcode].name)
            break;
        peer_step(&next, peers, &record);
        if (verdict(&record) != REGULAR) {
            peer_undo(peers, &record);
            break;
        }
        run.after = next;
        run.clocks += record.clocks;
        run.r65c02 |= instructions[opcode].r65c02;
        run.last_stores = writes_last(&instructions[opcode]);
        run.stores += run.last_stores;
        run.instructions++;
    }
    return run;
}

/* Each instruction's start is an event clock, and the last clock of each that writes there. Where the run's last clock
 * is none, it is a leap more. */
static unsigned leaps_of(const struct run *run)
{
    return run->instructions + run->stores + (run->instructions > 0 && !run->last_stores);
}

/* As many clocks of ours. */
static void compare_run(const struct run *run)
{
    r6501q_call_result result = r6501q_run(chip_start(&run->before), ours, sizeof ours, release_clocks, 1,
        release_codes, 1, 0, 0, 0, 0, run->clocks, R6501Q_NO_HALT);
    r6501q_state expected = run->clocks ? chip_after(&run->after, run->clocks, 0) : chip_start(&run->before);
    unsigned leaps = leaps_of(run);
    if (result.number == R6501Q_DONE && result.leaps == leaps && result.read == (run->clocks > 0) && result.written == 0
        && same_state(&result.state, &expected) && memcmp(ours, peers, sizeof ours) == 0)
        return;
    printf("difference: a run of %u instructions\n", run->instructions);
    print_registers("before", &run->before);
    printf("\n");
    print_registers("peer", &run->after);
    printf(" wait 0, clock %u, number 0, leaps %u, read %d, written 0\n", run->clocks, leaps, run->clocks > 0);
    print_result(&result);
    print_memory_differences(peers, ours);
    exit(1);
}

/* The 6510 core's loops, which the benchmark times, against its steps. */
typedef uint64_t loop(struct peer_registers *registers, uint8_t *memory, uint64_t clocks);
static void compare_loop(loop *loop, const char *name, const uint8_t *memory, const struct run *run)
{
    struct peer_registers after = run->before;
    memcpy(loops, memory, sizeof loops);
    uint64_t clocks = loop(&after, loops, run->clocks);
    if (clocks == run->clocks && after.a == run->after.a && after.x == run->after.x && after.y == run->after.y
        && after.sp == run->after.sp && after.p == run->after.p && after.pc == run->after.pc
        && memcmp(loops, peers, sizeof loops) == 0)
        return;
    printf("difference: %s, %u instructions, clocks %lu\n", name, run->instructions, (unsigned long)clocks);
    print_registers("before", &run->before);
    printf("\n");
    print_registers("steps", &run->after);
    printf("\n");
    print_registers("loop", &after);
    printf("\n");
    exit(1);
}

void compare_runs(unsigned runs, struct random *random)
{
    unsigned long total_instructions = 0, total_clocks = 0, total_stores = 0;
    unsigned longest = 0, looped = 0;
    for (unsigned i = 0; i < runs; i++) {
        if (i % 32 == 0)
            fill_memory(random, i / 32 % 2);
        struct run run = run_peer(random);
        if (!run.r65c02) {
            compare_loop(peer_6510_run_from, "peer_6510_run_from", ours, &run);
            compare_loop(peer_6510_machine_run_from, "peer_6510_machine_run_from", ours, &run);
            looped++;
        }
        compare_run(&run);
        total_instructions += run.instructions;
        total_clocks += run.clocks;
        total_stores += run.stores;
        longest = run.instructions > longest ? run.instructions : longest;
    }
    printf("runs: %u, instructions %lu, at most %u in one, that write on their last clock %lu, clocks %lu\n", runs,
        total_instructions, longest, total_stores, total_clocks);
    printf("runs of the peer's loops against its steps: %u\n", looped);
}
