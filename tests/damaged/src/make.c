#include "make.h"
#include "random.h"
#include "rules.h"

#include <string.h>

r6501q_state any_state(void)
{
    r6501q_state s;
    random_bytes(&s, sizeof s);
    return s;
}

static uint32_t random_clock(void)
{
    switch (below(6)) {
    case 0:
        return 0;
    case 1:
        return (uint32_t)random_word();
    case 2:
        return UINT32_MAX - (uint32_t)below(300);
    default:
        return (uint32_t)below(100000);
    }
}

/* RES is mostly high, so that the CPU runs. */
static void reduce_levels(r6501q_levels *l)
{
    l->nmi %= 2;
    l->res = !chance(15);
}

/* A byte waiting, mostly for a register or page zero. */
static r6501q_waiting some_byte(void)
{
    r6501q_waiting w;
    w.there = 1;
    w.address = (uint16_t)below(chance(50) ? 0x20 : chance(50) ? 0x100 : 65536);
    w.value = (uint8_t)random_word();
    return w;
}

r6501q_state good_state(void)
{
    static const r6501q_waiting none = {0, 0, 0};
    r6501q_state s = any_state();
    r6501q_peripherals *p = &s.peripherals;
    s.cpu.p &= 0xCF;
    s.cpu.wait %= 7;
    s.cpu.waiting = s.cpu.wait > 0 && chance(50) ? some_byte() : none;
    s.due.reset = chance(30);
    s.due.nmi = chance(20);
    p->counterb.turnc %= 2;
    p->control.ifr %= 64;
    p->transmitter.left %= 13;
    p->transmitter.phase %= 16;
    p->transmitter.register_ %= 4096;
    p->receiver.subinterval %= 8;
    p->receiver.half %= 2;
    p->receiver.left %= 12;
    p->receiver.register_ %= 2048;
    /* Counters near 0 and short latches make underflows. */
    if (chance(50)) {
        p->countera.count %= 64;
        p->counterb.count %= 64;
        p->countera.latch %= 8;
        p->counterb.latchb %= 8;
        p->counterb.latchc %= 8;
    }
    if (chance(50))
        p->control.ier = 0;
    reduce_levels(&s.external);
    reduce_levels(&s.last);
    s.clock = random_clock();
    return s;
}

r6501q_state fresh_state(void)
{
    r6501q_state s = r6501q_fresh();
    s.external.res = s.last.res = chance(60);
    return s;
}

/* A byte above the highest, mostly by one. */
static uint8_t above(unsigned highest)
{
    return (uint8_t)(chance(50) ? highest + 1 : highest + 1 + below(255 - highest));
}

r6501q_state damaged_state(void)
{
    r6501q_state s = good_state();
    r6501q_peripherals *p = &s.peripherals;
    switch (below(21)) {
    case 0:
        s.cpu.p |= (uint8_t)(0x10 << below(2));
        break;
    case 1:
        s.cpu.wait = above(6);
        break;
    case 2:
        s.due.reset = above(1);
        break;
    case 3:
        s.due.nmi = above(1);
        break;
    case 4:
        p->counterb.turnc = above(1);
        break;
    case 5:
        p->control.ifr = above(63);
        break;
    case 6:
        p->transmitter.left = above(12);
        break;
    case 7:
        p->transmitter.phase = above(15);
        break;
    case 8:
        p->transmitter.register_ |= (uint16_t)(0x1000 << below(4));
        break;
    case 9:
        p->receiver.subinterval = above(7);
        break;
    case 10:
        p->receiver.half = above(1);
        break;
    case 11:
        p->receiver.left = above(11);
        break;
    case 12:
        p->receiver.register_ |= (uint16_t)(0x800 << below(5));
        break;
    case 13:
        s.external.nmi = above(1);
        break;
    case 14:
        s.external.res = above(1);
        break;
    case 15:
        s.last.nmi = above(1);
        break;
    case 16:
        s.last.res = above(1);
        break;
    case 17: /* a byte waiting with wait 0 */
        s.cpu.wait = 0;
        s.cpu.waiting = some_byte();
        break;
    case 18:
        s.cpu.wait = 1 + (uint8_t)below(6);
        s.cpu.waiting.there = above(1);
        break;
    case 19: /* a none that has an address */
        s.cpu.waiting.there = s.cpu.waiting.value = 0;
        s.cpu.waiting.address = (uint16_t)(1 << below(16));
        break;
    default: /* a none that has a value */
        s.cpu.waiting.there = 0;
        s.cpu.waiting.address = 0;
        s.cpu.waiting.value = (uint8_t)(1 << below(8));
    }
    return s;
}

static uint8_t defined_opcode(void)
{
    uint8_t opcode;
    do
        opcode = (uint8_t)random_word();
    while (!is_defined(opcode));
    return opcode;
}

/* LDA #, STA of a register; now and then another instruction. */
static void make_stores(uint8_t *memory, size_t length)
{
    size_t i;
    for (i = 0; i + 4 <= length; i += 4) {
        const uint64_t r = random_word();
        if (r % 8 == 0) {
            memory[i] = defined_opcode();
            memory[i + 1] = (uint8_t)(r >> 8);
            memory[i + 2] = (uint8_t)(r >> 16);
            memory[i + 3] = 0xEA;
        } else {
            memory[i] = 0xA9;
            memory[i + 1] = (uint8_t)(r >> 8);
            memory[i + 2] = r >> 24 & 1 ? 0x85 : 0xE6; /* STA or INC */
            memory[i + 3] = (uint8_t)((r >> 32) % (r >> 25 & 1 ? 4 : 32));
        }
    }
}

void make_memory(uint8_t *memory, size_t length)
{
    size_t i;
    switch (below(8)) {
    case 0:
        memset(memory, 0, length);
        break;
    case 1:
        memset(memory, 0x02, length);
        break;
    case 2:
        random_bytes(memory, length);
        break;
    case 3:
    case 4:
        random_bytes(memory, length);
        for (i = 0; i < length; i++)
            if (!is_defined(memory[i]))
                memory[i] ^= 0x04;
        break;
    default:
        memset(memory, 0xEA, length);
        make_stores(memory, length);
    }
}

void good_inputs(uint32_t *input_clocks, uint8_t *input_codes, size_t length, uint32_t clock)
{
    const uint32_t spread = chance(50) ? 3 : chance(50) ? 100 : 10000;
    uint32_t at = clock;
    unsigned pin = 34;
    size_t i;
    for (i = 0; i < length; i++) {
        /* A pin above the last one stays in its clock, if there is one; else the next clock. */
        const unsigned next = pin + 1 + (unsigned)below(20);
        if (i > 0 && next <= 33 && chance(60)) {
            pin = next;
        } else {
            const uint32_t further = 1 + (uint32_t)below(spread);
            at = at > UINT32_MAX - further ? UINT32_MAX : at + further;
            pin = (unsigned)below(chance(30) ? 34 : 8);
        }
        input_clocks[i] = at;
        input_codes[i] = (uint8_t)(pin + (chance(50) ? 64 : 0));
        /* RES mostly rises again. */
        if (pin == 33 && chance(60))
            input_codes[i] = 33 + 64;
    }
}

void damage_inputs(uint32_t *input_clocks, uint8_t *input_codes, size_t length)
{
    const size_t i = chance(40) ? length - 1 : below(length);
    switch (below(6)) {
    case 0:
        input_codes[i] = (uint8_t)random_word();
        break;
    case 1:
        input_codes[i] ^= (uint8_t)(1 << below(8));
        break;
    case 2:
        input_clocks[i] = (uint32_t)random_word();
        break;
    case 3:
        input_clocks[i]--;
        break;
    case 4:
        if (i > 0) {
            input_clocks[i] = input_clocks[i - 1];
            input_codes[i] = input_codes[i - 1] ^ (uint8_t)(chance(50) ? 64 : 0);
        }
        break;
    default:
        input_clocks[i] ^= UINT32_C(1) << below(32);
    }
}

static const char hex[] = "0123456789ABCDEF";

static uint8_t *put_byte(uint8_t *to, unsigned byte)
{
    *to++ = (uint8_t)hex[byte / 16 % 16];
    *to++ = (uint8_t)hex[byte % 16];
    return to;
}

/* A record with its check sum; at most 59 bytes. */
static uint8_t *put_record(uint8_t *to, unsigned count, unsigned address, const uint8_t *data)
{
    unsigned sum = count + address / 256 + address % 256;
    unsigned i;
    *to++ = ';';
    to = put_byte(to, count);
    to = put_byte(to, address / 256);
    to = put_byte(to, address % 256);
    for (i = 0; i < count; i++) {
        to = put_byte(to, data[i]);
        sum += data[i];
    }
    to = put_byte(to, sum / 256);
    return put_byte(to, sum % 256);
}

/* Anything but `;`; at most 12 bytes. */
static uint8_t *put_noise(uint8_t *to)
{
    unsigned i = (unsigned)below(13);
    while (i-- > 0) {
        *to = (uint8_t)random_word();
        if (*to == ';')
            *to = '\n';
        to++;
    }
    return to;
}

static unsigned random_address(unsigned count)
{
    switch (below(6)) {
    case 0:
        return (unsigned)below(0x50);
    case 1:
        return 65536 - count - (unsigned)below(4);
    default:
        return (unsigned)below(65536 - count + 1) % 65536;
    }
}

enum { LONGEST_RECORD = 59, LONGEST_NOISE = 12 };

/* A good tape of so many records, the last one included. Some have a fault that their check sum does not show. */
static size_t put_tape(uint8_t *tape, size_t records)
{
    uint8_t *to = tape;
    size_t i;
    for (i = 1; i < records; i++) {
        uint8_t data[0x18];
        const unsigned count = 1 + (unsigned)below(0x18);
        const unsigned address = random_address(count);
        random_bytes(data, sizeof data);
        if (chance(30))
            to = put_noise(to);
        if (chance(1))
            to = put_record(to, 0, (unsigned)i, data); /* a last record that comes early, and is right */
        else if (chance(1))
            to = put_record(to, 0x18, 65536 - (unsigned)below(0x18), data); /* past the last address, or not */
        else
            to = put_record(to, count, address, data);
    }
    if (chance(30))
        to = put_noise(to);
    to = put_record(to, 0, (unsigned)(records % 65536), NULL);
    if (chance(50)) {
        to = put_noise(to);
        if (chance(30))
            *to++ = ';';
    }
    return (size_t)(to - tape);
}

static size_t damage_tape(uint8_t *tape, size_t length)
{
    static const char near[] = "/:@G`agAF09; \n";
    const size_t i = below(length);
    switch (below(6)) {
    case 0:
        tape[i] = (uint8_t)near[below(sizeof near - 1)];
        return length;
    case 1:
        tape[i] = (uint8_t)random_word();
        return length;
    case 2:
        tape[i] = (uint8_t)hex[below(16)];
        return length;
    case 3:
        return i;
    case 4:
        memmove(tape + i, tape + i + 1, length - i - 1);
        return length - 1;
    default:
        memmove(tape + i + 1, tape + i, length - i - 1);
        tape[i] = (uint8_t)hex[below(16)];
        return length;
    }
}

/* Random bytes: of all, or of those that records are made of. */
static size_t put_random(uint8_t *tape, size_t length)
{
    static const char few[] = ";000000000123456789ABCDEF";
    size_t i;
    random_bytes(tape, length);
    if (chance(60))
        for (i = 0; i < length; i++)
            tape[i] = (uint8_t)few[tape[i] % (sizeof few - 1)];
    return length;
}

/* A short record of a wrong count or of a count too high, with a right check sum. */
static size_t put_faulty(uint8_t *tape)
{
    uint8_t data[256];
    uint8_t *to = tape;
    random_bytes(data, sizeof data);
    switch (below(4)) {
    case 0:
        to = put_record(to, above(0x18), (unsigned)below(60000), data);
        break;
    case 1:
        to = put_record(to, 0, (unsigned)below(4), data);
        break;
    case 2:
        to = put_record(to, 1 + (unsigned)below(0x18), 65530 + (unsigned)below(6), data);
        break;
    default:
        to = put_record(to, 1, 0x3F + (unsigned)below(2), data);
    }
    to = put_record(to, 0, 2, data);
    return (size_t)(to - tape);
}

size_t make_tape(uint8_t *tape, size_t most)
{
    const size_t records_most = most / (LONGEST_RECORD + LONGEST_NOISE + 2) - 1;
    size_t length, times;
    switch (below(10)) {
    case 0:
        return put_random(tape, random_length(most < 5000 ? most : 5000));
    case 1:
        return put_random(tape, below(80));
    case 2:
        return put_faulty(tape);
    default:
        length = put_tape(tape, 1 + (chance(95) ? below(12) : below(records_most < 2000 ? records_most : 2000)));
    }
    for (times = chance(40) ? 0 : 1 + below(3); times > 0 && length > 0; times--)
        length = damage_tape(tape, length);
    return length;
}

size_t tape_of(uint8_t *tape, size_t records)
{
    uint8_t *to = tape;
    size_t i;
    for (i = 1; i < records; i++) {
        const uint8_t data = (uint8_t)i;
        to = put_record(to, 1, (unsigned)(i % 65536), &data);
    }
    to = put_record(to, 0, (unsigned)(records % 65536), NULL);
    return (size_t)(to - tape);
}
