#include "peer.h"

#include "instructions.h"

void peer_step(struct peer_registers *registers, uint8_t *memory, struct peer_record *record)
{
    if (instructions[memory[registers->pc]].r65c02)
        peer_r65c02_step(registers, memory, record);
    else
        peer_6510_step(registers, memory, record);
}

void peer_undo(uint8_t *memory, const struct peer_record *record)
{
    for (unsigned i = record->writes; i-- > 0;)
        memory[record->write[i].address] = record->write[i].before;
}

static const struct peer_registers at_reset = { .sp = 0xFF, .p = 0x04 };

uint64_t peer_6510_run(uint8_t *memory, uint16_t pc, uint64_t clocks)
{
    struct peer_registers registers = at_reset;
    registers.pc = pc;
    return peer_6510_run_from(&registers, memory, clocks);
}

uint64_t peer_6510_machine_run(uint8_t *memory, uint16_t pc, uint64_t clocks)
{
    struct peer_registers registers = at_reset;
    registers.pc = pc;
    return peer_6510_machine_run_from(&registers, memory, clocks);
}
