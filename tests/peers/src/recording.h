/* Memory whose accesses are recorded, for a core's step. */
#ifndef RECORDING_H
#define RECORDING_H

#include <stdlib.h>

#include "peer.h"

static inline uint8_t recorded_read(uint8_t *memory, struct peer_record *record, unsigned address)
{
    address &= 0xffff;
    if (record->reads == PEER_ACCESSES)
        abort();
    record->read[record->reads++] = (struct peer_access){ address, memory[address], memory[address] };
    return memory[address];
}

static inline void recorded_write(uint8_t *memory, struct peer_record *record, unsigned address, uint8_t value)
{
    address &= 0xffff;
    if (record->writes == PEER_ACCESSES)
        abort();
    record->write[record->writes++] = (struct peer_access){ address, value, memory[address] };
    memory[address] = value;
}

/* Page zero is indexed within 8 bits, and the stack is in it (document 01, Machine state). */
#define READ(address) recorded_read(memory, record, (address))
#define LOAD_ZERO(address) READ((address) & 0xff)
#define LOAD_ZERO_ADDR(address) zero_page_pointer(memory, record, (address))
#define LOAD_ADDR(address) pointer(memory, record, (address))
#define STORE(address, value) recorded_write(memory, record, (address), (value))
#define STORE_ZERO(address, value) STORE((address) & 0xff, (value))
#define PUSH(value) STORE(reg_sp--, (value))
#define PULL() READ(++reg_sp)

/* Idle accesses happen in neither (document 01, One clock, 4). */
#define LOAD_DUMMY(address) ((void)(address))
#define LOAD_ZERO_DUMMY(address) ((void)(address))
#define STORE_DUMMY(address, value) ((void)(address), (void)(value))

static inline unsigned zero_page_pointer(uint8_t *memory, struct peer_record *record, unsigned address)
{
    unsigned low = LOAD_ZERO(address);
    return low | LOAD_ZERO(address + 1) << 8;
}

static inline unsigned pointer(uint8_t *memory, struct peer_record *record, unsigned address)
{
    unsigned low = READ(address);
    return low | READ(address + 1) << 8;
}

#endif
