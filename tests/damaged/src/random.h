/* Random numbers that a seed decides. */
#ifndef RANDOM_H
#define RANDOM_H

#include <stddef.h>
#include <stdint.h>

/* From a seed on, the same numbers. */
void random_seed(uint64_t seed);

uint64_t random_word(void);

/* From 0 to n - 1. n is above 0. */
uint64_t below(uint64_t n);

/* Yes in so many of a hundred cases. */
int chance(unsigned percent);

void random_bytes(void *to, size_t length);

/* A length of a list: mostly short, often 0, now and then as long as the most. */
size_t random_length(size_t most);

#endif
