/* Calls made on lists between guards, and what they hand back judged by the rules. A fault ends the program with 1. */
#ifndef JUDGE_H
#define JUDGE_H

#include "library.h"

/* How many calls were made, and how often each number came back. */
typedef struct tally {
    unsigned long calls;
    unsigned long numbers[14];
} tally;

/* Makes the lists ready. A call that is not back after so many seconds is a fault. */
void judge_begin(library calls, uint64_t seed, unsigned seconds);

/* A run or a step on random state, memory, lists and count, with page sums or lacking them. */
void judge_run(tally *t);

/* A run or a step with lengths above 4,294,967,295 that a refusal rules out. */
void judge_overlong(tally *t);

/* A run of very many clocks with RES low. */
void judge_long(tally *t);

/* A run of very many clocks that an undefined opcode stops soon, or before it a full list or a halt. */
void judge_early_stop(tally *t);

/* A load of a random tape, with page sums or lacking them. */
void judge_load(tally *t);

/* A load of a tape with so many records. */
void judge_load_of(tally *t, size_t records);

/* The total of a page list of any length. */
void judge_total(tally *t);

/* A state asked whether it is well-formed. */
void judge_well_formed(tally *t);

#endif
