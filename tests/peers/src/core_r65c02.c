/* One instruction of VICE's R65C02 core over recorded memory: RMB, SMB, BBR or BBS. */
#include "recording.h"
#include "registers.h"

/* Of these instructions the core reads the opcode, the bytes behind it, and the byte in page zero. What it reads at PC
 * once PC is past the instruction is idle. */
static inline uint8_t load(uint8_t *memory, struct peer_record *record, unsigned start, unsigned pc, unsigned address)
{
    int idle = pc != start && address == pc;
    return idle ? memory[address & 0xffff] : READ(address);
}

void peer_r65c02_step(struct peer_registers *registers, uint8_t *memory, struct peer_record *record)
{
    enum { CPU_WDC65C02, CPU_R65C02, CPU_65SC02 };
    const int cpu_type = CPU_R65C02;
    CORE_VARIABLES;
    const unsigned start = registers->pc;

    CORE_REGISTERS_IN(registers);
    record->reads = record->writes = 0;

#define LOAD(address) load(memory, record, start, reg_pc, (address))
#define WDC_STP() ((void)0)
#define WDC_WAI() ((void)0)
#include "65c02core.c"

    record->clocks = clock;
    CORE_REGISTERS_OUT(registers);
}
