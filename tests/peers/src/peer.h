/* The peer: VICE's 6510 core for the 151 opcodes of the 6502, its R65C02 core for RMB, SMB, BBR and BBS. The stack is
 * in page zero. Registers are as document 01 has them: bits 4 and 5 of P are 0. A memory has 65,536 bytes. */
#ifndef PEER_H
#define PEER_H

#include <stdint.h>

struct peer_registers {
    uint8_t a, x, y, sp, p;
    uint16_t pc;
};

struct peer_access {
    uint16_t address;
    uint8_t value;
    uint8_t before; /* what a write replaced */
};

/* No instruction reads more than 6 bytes or writes more than 3; the cores read some of them twice. */
#define PEER_ACCESSES 12

/* What one instruction did. Idle accesses are left out: dummy reads and writes, the byte behind an instruction of one
 * byte, the byte behind BRK's opcode, RTS's read at the address pulled. */
struct peer_record {
    unsigned clocks;
    unsigned reads, writes;
    struct peer_access read[PEER_ACCESSES], write[PEER_ACCESSES];
};

/* One instruction, by the core that has its opcode. */
void peer_step(struct peer_registers *registers, uint8_t *memory, struct peer_record *record);

/* Takes its writes back. */
void peer_undo(uint8_t *memory, const struct peer_record *record);

/* The cores' own steps. */
void peer_6510_step(struct peer_registers *registers, uint8_t *memory, struct peer_record *record);
void peer_r65c02_step(struct peer_registers *registers, uint8_t *memory, struct peer_record *record);

/* The 6510 core over plain memory, nothing recorded: whole instructions until at least so many clocks are done. Gives
 * the clocks done. */
uint64_t peer_6510_run_from(struct peer_registers *registers, uint8_t *memory, uint64_t clocks);

/* The same with what VICE's machines put around the core: accesses by a function for each page, idle ones too, and a
 * look for interrupts and alarms before each instruction. */
uint64_t peer_6510_machine_run_from(struct peer_registers *registers, uint8_t *memory, uint64_t clocks);

/* Both from A, X, Y 0, SP FFh and P with I set alone. */
uint64_t peer_6510_run(uint8_t *memory, uint16_t pc, uint64_t clocks);
uint64_t peer_6510_machine_run(uint8_t *memory, uint16_t pc, uint64_t clocks);

#endif
