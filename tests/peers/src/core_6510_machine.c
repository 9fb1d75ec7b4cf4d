/* VICE's 6510 core in a loop with what VICE's own machines put around it: each access, idle ones too, by a function
 * that a table of pages names; the clock and the pending interrupts in memory that these functions might change; an
 * alarm looked for before each instruction. */
#include "peer.h"
#include "registers.h"

/* Not static, so that the compiler cannot know what they hold. */
typedef uint8_t page_read(uint16_t address);
typedef void page_write(uint16_t address, uint8_t value);
page_read *peer_page_read[257];
page_write *peer_page_write[257];
CLOCK peer_clock, peer_alarm;
struct interrupts peer_interrupts = NO_INTERRUPTS;

#undef CYCLE_EXACT_ALARM
#define alarm_context_next_pending_clk(context) peer_alarm
#define alarm_context_dispatch(context, time) (peer_alarm = CLOCK_MAX)
#undef CLK
#define CLK peer_clock
#undef CPU_INT_STATUS
#define CPU_INT_STATUS (&peer_interrupts)

#define LOAD(address) peer_page_read[(address) >> 8](address)
#define LOAD_ZERO(address) peer_page_read[0]((address) & 0xff)
#define LOAD_ADDR(address) pointer(address)
#define LOAD_ZERO_ADDR(address) zero_page_pointer(address)
#define STORE(address, value) peer_page_write[(address) >> 8]((address), (value))
#define STORE_ZERO(address, value) peer_page_write[0]((address) & 0xff, (value))
#define PUSH(value) STORE(reg_sp, (value)), reg_sp--
#define PULL() (++reg_sp, LOAD(reg_sp))
#define LOAD_DUMMY LOAD
#define LOAD_ZERO_DUMMY LOAD_ZERO
#define STORE_DUMMY STORE

static uint8_t *plain;

static uint8_t read_plain(uint16_t address)
{
    return plain[address];
}

static void write_plain(uint16_t address, uint8_t value)
{
    plain[address] = value;
}

static inline unsigned pointer(unsigned address)
{
    unsigned low = LOAD(address);
    return low + 256 * LOAD(address + 1);
}

static inline unsigned zero_page_pointer(unsigned address)
{
    unsigned low = LOAD_ZERO(address);
    return low + 256 * LOAD_ZERO(address + 1);
}

uint64_t peer_6510_machine_run_from(struct peer_registers *registers, uint8_t *memory, uint64_t clocks)
{
    CORE_VARIABLES;
    CORE_REGISTERS_IN(registers);
    bank_limit = 0x10000 - 3;
    plain = memory;
    for (unsigned page = 0; page < 257; page++) {
        peer_page_read[page] = read_plain;
        peer_page_write[page] = write_plain;
    }
    peer_clock = 0;
    peer_alarm = CLOCK_MAX;
    while (peer_clock < clocks) {
#include "6510core.c"
    }
    CORE_REGISTERS_OUT(registers);
    return peer_clock;
}
