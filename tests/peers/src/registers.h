/* The variables that a core works on, and the two representations of P: a core keeps N and Z apart, and document 01 has
 * bits 4 and 5 of P as 0. */
#ifndef REGISTERS_H
#define REGISTERS_H

#include "surroundings.h"

#define CORE_VARIABLES                                                     \
    uint8_t reg_a, reg_x, reg_y, reg_sp, reg_p, flag_n, flag_z;            \
    unsigned int reg_pc;                                                   \
    unsigned int last_opcode_info = 0, last_opcode_addr = 0, rmw_flag = 0; \
    uint8_t *bank_base = memory;                                           \
    int bank_start = 0, bank_limit = 0;                                    \
    CLOCK clock = 0;                                                       \
    mos6510_regs_t exported = { 0 };                                       \
    struct interrupts interrupts = NO_INTERRUPTS;                          \
    (void)last_opcode_addr, (void)rmw_flag, (void)bank_start, (void)exported

#define CLK clock
#define RMW_FLAG rmw_flag
#define LAST_OPCODE_INFO last_opcode_info
#define LAST_OPCODE_ADDR last_opcode_addr
#define GLOBAL_REGS exported
#define JUMP(address) (reg_pc = (address) & 0xffff)

#define CORE_REGISTERS_IN(r) \
    (reg_a = (r)->a,         \
        reg_x = (r)->x,      \
        reg_y = (r)->y,      \
        reg_sp = (r)->sp,    \
        reg_pc = (r)->pc,    \
        CORE_P_IN((r)->p))
#define CORE_REGISTERS_OUT(r) (*(r) = (struct peer_registers){ reg_a, reg_x, reg_y, reg_sp, CORE_P_OUT(), reg_pc })

#define P_OUTSIDE (P_BREAK | P_UNUSED)
#define CORE_P_IN(p)                               \
    (reg_p = (p) & ~(P_SIGN | P_ZERO | P_OUTSIDE), \
        flag_n = (p),                              \
        flag_z = !((p) & P_ZERO))
#define CORE_P_OUT() ((reg_p & ~(P_SIGN | P_ZERO | P_OUTSIDE)) | (flag_n & P_SIGN) | (flag_z ? 0 : P_ZERO))

#endif
