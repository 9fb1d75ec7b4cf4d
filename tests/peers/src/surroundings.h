/* What VICE's cores ask of the program around them, for a CPU alone: nothing interrupts it, nothing has alarms, no
 * monitor looks on, no opcode is a trap. The names are the cores'. Memory and registers are left to the file that
 * includes a core. */
#ifndef SURROUNDINGS_H
#define SURROUNDINGS_H

#include <stdint.h>

#include "6510core.h"
#include "debug.h"
#include "interrupt.h"
#include "mos6510.h"
#include "types.h"

/* Alarms and traps. */
#define CYCLE_EXACT_ALARM
#define ROM_TRAP_ALLOWED() 0
#define ROM_TRAP_HANDLER() ((uint32_t)-1)

/* An opcode that stops the CPU is no opcode of the chip; it is left where it is. */
#define JAM() ((void)0)

/* Interrupts: never one pending, so that what follows is never reached. */
struct interrupts {
    unsigned int global_pending_int;
    CLOCK irq_clk, nmi_clk, irq_pending_clk;
};
#define NO_INTERRUPTS { IK_NONE, 0, 0, 0 }
#define CPU_INT_STATUS (&interrupts)
#define interrupt_check_irq_delay(status, clock) 0
#define interrupt_check_nmi_delay(status, clock) 0
#define interrupt_ack_irq(status) ((void)0)
#define interrupt_ack_nmi(status) ((void)0)
#define interrupt_ack_reset(status) ((void)0)
#define interrupt_ack_dma(status) ((void)0)
#define interrupt_do_trap(status, address) ((void)0)
#define cpu_reset() ((void)0)
#define DMA_FUNC ((void)0)
#define DMA_ON_RESET ((void)0)

/* The monitor. */
enum { NO_MONITOR, MI_BREAK, MI_WATCH, MI_STEP };
static const unsigned int monitor_mask[1] = { NO_MONITOR };
#define CALLER 0
#define monitor_check_icount_interrupt() ((void)0)
#define monitor_check_icount(address) ((void)0)
#define monitor_check_breakpoints(caller, address) 0
#define monitor_check_watchpoints(last, address) ((void)0)
#define monitor_force_import(caller) 0
#define monitor_startup(caller) ((void)0)

#endif
