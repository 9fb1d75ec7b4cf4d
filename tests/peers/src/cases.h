/* Random states in which to run one instruction, edges favored. */
#ifndef CASES_H
#define CASES_H

#include <stdint.h>

#include "peer.h"

struct random {
    uint64_t state;
};
unsigned random_below(struct random *random, unsigned bound);

/* A case: registers, and the bytes put into memory for it. */
struct test_case {
    struct peer_registers registers;
    unsigned bytes;
    uint16_t address[16];
};
struct test_case make_case(struct random *random, uint8_t opcode, uint8_t *memory);

/* Whether the chip and the peer must agree on a case, or why not. */
enum verdict { REGULAR, REGISTER_ACCESS, VERDICTS };
extern const char *const verdict_words[VERDICTS];
enum verdict verdict(const struct peer_record *record);

/* Whether an instruction was JMP indirect with its pointer at a page's end. */
int jumps_at_page_end(uint8_t opcode, const struct peer_record *record);

#endif
