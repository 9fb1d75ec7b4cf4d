/* One instruction of VICE's 6510 core over recorded memory. */
#include "instructions.h"
#include "recording.h"
#include "registers.h"

/* The core fetches two bytes of every instruction, and three where it has three, before it executes; JSR's third comes
 * after its pushes. A fetch past the instruction is idle, and so is the one read by which RTS goes past the address
 * pulled. */
static inline uint8_t load(uint8_t *memory, struct peer_record *record, uint8_t code, unsigned number, unsigned address)
{
    int idle = number == 2 ? instructions[code].bytes < 2 : number > 2 && code == RTS_OPCODE;
    return idle ? memory[address & 0xffff] : READ(address);
}

void peer_6510_step(struct peer_registers *registers, uint8_t *memory, struct peer_record *record)
{
    CORE_VARIABLES;
    const uint8_t code = memory[registers->pc];
    unsigned loads = 0;

    CORE_REGISTERS_IN(registers);
    record->reads = record->writes = 0;

#define LOAD(address) load(memory, record, code, ++loads, (address))
#include "6510core.c"

    record->clocks = clock;
    CORE_REGISTERS_OUT(registers);
}
