/* What documents 01 and 02 say of a call before it does anything, and of what it hands back: written from the papers,
 * apart from the library. */
#ifndef RULES_H
#define RULES_H

#include "r6501q.h"

/* What a run is given. Lengths are in entries. */
typedef struct given {
    r6501q_state state;
    size_t memory_length;
    const uint32_t *input_clocks;
    size_t input_clocks_length;
    const uint8_t *input_codes;
    size_t input_codes_length;
    size_t output_clocks_length;
    size_t output_words_length;
    uint32_t n;
    uint32_t halt; /* above 65,535: none */
    int with_sums; /* whether the call is one with page sums */
    size_t sums_length;
} given;

/* Document 01, "Machine state": every field within its range; document 02, U6: "A byte waiting with wait 0 isn't
 * well-formed", and none is one value. */
int well_formed(const r6501q_state *s);

/* The same in every field. Bytes between fields do not count. */
int same_state(const r6501q_state *s, const r6501q_state *t);

/* Document 01, "What is handed back", 1 to 5; document 02, U7: 13, "like 1 and directly after it". 0 where none holds.
 */
int refusal(const given *g);

/* Document 02, U7: each sum "by exactly what its page's bytes change, modulo 65,536". The sums of 256 pages change as
 * these 65,536 bytes do. */
void change_sums(uint16_t *sums, const uint8_t *memory_before, const uint8_t *memory);

/* The right sums of 65,536 bytes. */
void right_sums(uint16_t *sums, const uint8_t *memory);

/* The total of page sums; 13 where they are not 256. */
r6501q_total_result total_of(const uint16_t *sums, size_t sums_length);

/* The input entries whose clock is at most this one. */
size_t entries_up_to(const given *g, uint32_t clock);

/* Whether RES is high at the start and stays so while the first so many inputs are read. */
int res_stays_high(const given *g, size_t entries);

/* The external levels once the first so many inputs are read. */
r6501q_levels levels_after(const given *g, size_t entries);

/* Document 01, "Pin lists", and document 02, U1: the driven word. */
uint32_t driven_word(const r6501q_state *s);

/* Document 01, "Instructions". */
int is_defined(uint8_t opcode);

/* A count after n clocks in interval mode. */
uint16_t counted(uint16_t count, uint16_t latch, uint32_t n);

/* Document 01, "Tape": what a load hands back, and what it leaves in a memory of 65,536 bytes. */
r6501q_load_result loaded_from(const uint8_t *tape, size_t tape_length, uint8_t *memory, size_t memory_length);

#endif
