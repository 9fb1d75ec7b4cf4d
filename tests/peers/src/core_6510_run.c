/* VICE's 6510 core in a loop over plain memory, as fast as it goes: nothing recorded, no idle access made, opcode and
 * operand fetched as one word where that does not reach past the memory. */
#include "peer.h"
#include "registers.h"

#define LOAD(address) (memory[(address) & 0xffff])
#define LOAD_ZERO(address) (memory[(address) & 0xff])
#define LOAD_ADDR(address) pointer(memory, (address))
#define LOAD_ZERO_ADDR(address) zero_page_pointer(memory, (address))
#define STORE(address, value) (memory[(address) & 0xffff] = (value))
#define STORE_ZERO(address, value) (memory[(address) & 0xff] = (value))
#define PUSH(value) (memory[reg_sp--] = (value))
#define PULL() (memory[++reg_sp])
#define LOAD_DUMMY(address) ((void)(address))
#define LOAD_ZERO_DUMMY(address) ((void)(address))
#define STORE_DUMMY(address, value) ((void)(address), (void)(value))

static inline unsigned pointer(const uint8_t *memory, unsigned address)
{
    return LOAD(address) + 256 * LOAD(address + 1);
}

static inline unsigned zero_page_pointer(const uint8_t *memory, unsigned address)
{
    return LOAD_ZERO(address) + 256 * LOAD_ZERO(address + 1);
}

uint64_t peer_6510_run_from(struct peer_registers *registers, uint8_t *memory, uint64_t clocks)
{
    CORE_VARIABLES;
    CORE_REGISTERS_IN(registers);
    bank_limit = 0x10000 - 3;
    while (clock < clocks) {
#include "6510core.c"
    }
    CORE_REGISTERS_OUT(registers);
    return clock;
}
