#include "random.h"

#include <string.h>

static uint64_t state;

void random_seed(uint64_t seed)
{
    state = seed;
}

uint64_t random_word(void)
{
    uint64_t z = state += UINT64_C(0x9E3779B97F4A7C15);
    z = (z ^ z >> 30) * UINT64_C(0xBF58476D1CE4E5B9);
    z = (z ^ z >> 27) * UINT64_C(0x94D049BB133111EB);
    return z ^ z >> 31;
}

uint64_t below(uint64_t n)
{
    return random_word() % n;
}

int chance(unsigned percent)
{
    return below(100) < percent;
}

void random_bytes(void *to, size_t length)
{
    uint8_t *bytes = to;
    while (length > 0) {
        const uint64_t word = random_word();
        const size_t part = length < sizeof word ? length : sizeof word;
        memcpy(bytes, &word, part);
        bytes += part;
        length -= part;
    }
}

size_t random_length(size_t most)
{
    switch (below(10)) {
    case 0:
    case 1:
        return 0;
    case 2:
        return below(most + 1);
    case 3:
        return 1;
    default:
        return below((most < 40 ? most : 40) + 1);
    }
}
