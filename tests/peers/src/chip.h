/* The chip's side of a comparison: a fresh chip whose reset is done, released, with no other input, no interrupt and
 * every level high, so that nothing but the CPU and the counters moves. */
#ifndef CHIP_H
#define CHIP_H

#include "peer.h"
#include "r6501q.h"

/* The input that releases it: RES high on clock 1 (document 02, U8). */
extern const uint32_t release_clocks[1];
extern const uint8_t release_codes[1];

/* The state with these registers, before its first clock. */
r6501q_state chip_start(const struct peer_registers *registers);

/* The state that so many clocks from there, 1 or more, must leave, with so many still to wait and no byte waiting. */
r6501q_state chip_after(const struct peer_registers *registers, unsigned clocks, unsigned wait);

struct peer_registers chip_registers(const r6501q_state *state);
int same_state(const r6501q_state *x, const r6501q_state *y);

/* How a difference is printed. */
void print_registers(const char *who, const struct peer_registers *registers);
void print_result(const r6501q_call_result *result);
void print_memory_differences(const uint8_t *peers, const uint8_t *ours);

#endif
