/* The 183 opcodes (document 01, Instructions): the 151 of the 6502, and RMB, SMB, BBR, BBS. */
#ifndef INSTRUCTIONS_H
#define INSTRUCTIONS_H

enum mode {
    UNDEFINED,
    IMPLIED,
    ACCUMULATOR,
    IMMEDIATE,
    ZERO_PAGE,
    ZERO_PAGE_X,
    ZERO_PAGE_Y,
    INDEXED_INDIRECT,
    INDIRECT_INDEXED,
    ABSOLUTE,
    ABSOLUTE_X,
    ABSOLUTE_Y,
    INDIRECT,
    RELATIVE,
    ZERO_PAGE_RELATIVE,
    MODES
};

struct instruction {
    const char *name;
    enum mode mode;
    unsigned bytes; /* read as opcode and operand; BRK does not read its second byte */
    int r65c02; /* not of the 6502: RMB, SMB, BBR, BBS */
};

extern const struct instruction instructions[256];
extern const char *const mode_words[MODES];

/* Groups of instructions, by the first three letters of their names. */
#define GROUPS 14
extern const struct group {
    const char *name;
    const char *instructions;
} groups[GROUPS];
int in_group(const struct group *group, const struct instruction *instruction);

/* Whether an instruction writes its byte on its last clock: a store or a read-modify-write one (document 02, U6). All
 * others that write push. */
int writes_last(const struct instruction *instruction);

/* The opcodes that some rule names. */
#define BRK_OPCODE 0x00
#define PHP_OPCODE 0x08
#define JSR_OPCODE 0x20
#define PLP_OPCODE 0x28
#define RTI_OPCODE 0x40
#define PHA_OPCODE 0x48
#define RTS_OPCODE 0x60
#define PLA_OPCODE 0x68
#define JMP_INDIRECT 0x6C
#define ADC_IMMEDIATE 0x69
#define SBC_IMMEDIATE 0xE9

#endif
