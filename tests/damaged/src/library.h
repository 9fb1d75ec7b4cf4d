/* The library's calls as they are under test: the library's own, or wrong ones that the test must see through. */
#ifndef LIBRARY_H
#define LIBRARY_H

#include "r6501q.h"

/* A struct that is handed back goes through a pointer, so that it can lie between pages that trap. By the calling
 * convention of x86-64 Linux these are the very calls of r6501q.h: the pointer to such a struct is the hidden first
 * argument. */
typedef r6501q_call_result *run_call(r6501q_call_result *result, r6501q_state state, uint8_t *memory,
    size_t memory_length, const uint32_t *input_clocks, size_t input_clocks_length, const uint8_t *input_codes,
    size_t input_codes_length, uint32_t *output_clocks, size_t output_clocks_length, uint32_t *output_words,
    size_t output_words_length, uint32_t n, uint32_t halt);
typedef r6501q_call_result *step_call(r6501q_call_result *result, r6501q_state state, uint8_t *memory,
    size_t memory_length, const uint32_t *input_clocks, size_t input_clocks_length, const uint8_t *input_codes,
    size_t input_codes_length, uint32_t *output_clocks, size_t output_clocks_length, uint32_t *output_words,
    size_t output_words_length, uint32_t halt);
typedef r6501q_load_result load_call(const uint8_t *tape, size_t tape_length, uint8_t *memory, size_t memory_length);
typedef uint8_t well_formed_call(r6501q_state state);

/* The calls with page sums (document 02, U7). */
typedef r6501q_call_result *run_with_sums_call(r6501q_call_result *result, r6501q_state state, uint8_t *memory,
    size_t memory_length, uint16_t *sums, size_t sums_length, const uint32_t *input_clocks, size_t input_clocks_length,
    const uint8_t *input_codes, size_t input_codes_length, uint32_t *output_clocks, size_t output_clocks_length,
    uint32_t *output_words, size_t output_words_length, uint32_t n, uint32_t halt);
typedef r6501q_call_result *step_with_sums_call(r6501q_call_result *result, r6501q_state state, uint8_t *memory,
    size_t memory_length, uint16_t *sums, size_t sums_length, const uint32_t *input_clocks, size_t input_clocks_length,
    const uint8_t *input_codes, size_t input_codes_length, uint32_t *output_clocks, size_t output_clocks_length,
    uint32_t *output_words, size_t output_words_length, uint32_t halt);
typedef r6501q_load_result load_with_sums_call(const uint8_t *tape, size_t tape_length, uint8_t *memory,
    size_t memory_length, uint16_t *sums, size_t sums_length);
typedef r6501q_total_result total_call(const uint16_t *sums, size_t sums_length);

typedef struct library {
    run_call *run;
    step_call *step;
    load_call *load;
    well_formed_call *well_formed;
    run_with_sums_call *run_with_sums;
    step_with_sums_call *step_with_sums;
    load_with_sums_call *load_with_sums;
    total_call *total;
} library;

/* The library itself. */
extern const library right;

/* Wrong ones, numbered from 1. */
library wrong_library(int which);

#endif
