/* States, memories, lists and tapes: random, good, and good ones damaged. */
#ifndef MAKE_H
#define MAKE_H

#include "r6501q.h"

/* Random bytes. */
r6501q_state any_state(void);

/* Well-formed, and random in that. */
r6501q_state good_state(void);

/* A fresh chip, held by RES, or with RES high in both its levels. */
r6501q_state fresh_state(void);

/* A good state with one field out of its range. */
r6501q_state damaged_state(void);

/* Bytes for a memory: zeros, undefined opcodes, random bytes, defined opcodes, or stores to registers. */
void make_memory(uint8_t *memory, size_t length);

/* An input list that keeps the rule, for a state's clock. */
void good_inputs(uint32_t *input_clocks, uint8_t *input_codes, size_t length, uint32_t clock);

/* One entry of a list changed; it may still keep the rule. */
void damage_inputs(uint32_t *input_clocks, uint8_t *input_codes, size_t length);

enum { MOST_TAPE = 1 << 20 };

/* A tape of at most so many bytes: good, damaged or random. Gives its length. */
size_t make_tape(uint8_t *tape, size_t most);

/* A tape of so many records, the last one included, with that count in the last one modulo 65,536. */
size_t tape_of(uint8_t *tape, size_t records);

#endif
