/* Calls the library through include/r6501q.h and compares what comes back with literal outcomes. The header asserts the
 * layout that it declares; here each field is distinguished from its neighbors by what the library does with it. Builds
 * as C99 and as C++. */
#include "r6501q.h"

#include <stdio.h>
#include <stdlib.h>
#include <string.h>

static int faults;

#define SAME(got, expected) same(#got, (unsigned long long)(got), (unsigned long long)(expected), __LINE__)

static void same(const char *what, unsigned long long got, unsigned long long expected, int line)
{
    if (got != expected) {
        printf("check.c:%d: %s is %llXh, not %llXh\n", line, what, got, expected);
        faults++;
    }
}

static uint8_t memory[R6501Q_MEMORY_LENGTH];
static uint32_t output_clocks[100];
static uint32_t output_words[100];

/* A memory of zeros but for the program at 0200h and the reset vector to it. */
static void place(const uint8_t *program, size_t length)
{
    memset(memory, 0, sizeof memory);
    memcpy(memory + 0x200, program, length);
    memory[0xFFFD] = 2;
}

static r6501q_call_result run(r6501q_state state, uint32_t n)
{
    return r6501q_run(state, memory, sizeof memory, NULL, 0, NULL, 0, output_clocks, 100, output_words, 100, n,
        R6501Q_NO_HALT);
}

/* The input that releases a fresh chip: RES high on clock 1 (document 02, U8). */
static const uint32_t release_clocks[] = {1};
static const uint8_t release_codes[] = {R6501Q_PIN_RES + R6501Q_HIGH};

/* A fresh chip, released, with space for so many records. */
static r6501q_call_result start(size_t records, uint32_t n, uint32_t halt)
{
    return r6501q_run(r6501q_fresh(), memory, sizeof memory, release_clocks, 1, release_codes, 1, output_clocks,
        records, output_words, records, n, halt);
}

/* Fresh but for RES, which is high in both its levels. */
static r6501q_state unheld(void)
{
    r6501q_state s = r6501q_fresh();
    s.external.res = 1;
    s.last.res = 1;
    return s;
}

/* Document 01, "Fresh"; document 02, U8: RES is low in both its levels. */
static void check_fresh(void)
{
    const r6501q_state s = r6501q_fresh();
    SAME(s.cpu.a, 0);
    SAME(s.cpu.x, 0);
    SAME(s.cpu.y, 0);
    SAME(s.cpu.sp, 0xFF);
    SAME(s.cpu.p, 4);
    SAME(s.cpu.pc, 0);
    SAME(s.cpu.wait, 0);
    SAME(s.cpu.waiting.there, 0);
    SAME(s.cpu.waiting.address, 0);
    SAME(s.cpu.waiting.value, 0);
    SAME(s.due.reset, 1);
    SAME(s.due.nmi, 0);
    SAME(s.peripherals.ports.a, 0xFF);
    SAME(s.peripherals.ports.b, 0xFF);
    SAME(s.peripherals.ports.c, 0xFF);
    SAME(s.peripherals.ports.d, 0xFF);
    SAME(s.peripherals.countera.count, 0xFFFF);
    SAME(s.peripherals.countera.latch, 0xFFFF);
    SAME(s.peripherals.counterb.count, 0xFFFF);
    SAME(s.peripherals.counterb.latchb, 0xFFFF);
    SAME(s.peripherals.counterb.latchc, 0xFFFF);
    SAME(s.peripherals.counterb.turnc, 1);
    SAME(s.peripherals.control.ifr, 0);
    SAME(s.peripherals.control.ier, 0);
    SAME(s.peripherals.control.mcr, 0);
    SAME(s.peripherals.control.sccr, 0);
    SAME(s.peripherals.control.scsr, 0x40);
    SAME(s.peripherals.serial.sent, 0);
    SAME(s.peripherals.serial.received, 0);
    SAME(s.peripherals.transmitter.left, 0);
    SAME(s.peripherals.transmitter.phase, 0);
    SAME(s.peripherals.transmitter.register_, 0);
    SAME(s.peripherals.receiver.subinterval, 0);
    SAME(s.peripherals.receiver.half, 0);
    SAME(s.peripherals.receiver.left, 0);
    SAME(s.peripherals.receiver.register_, 0);
    SAME(s.external.ports, 0xFFFFFFFF);
    SAME(s.external.nmi, 1);
    SAME(s.external.res, 0);
    SAME(s.last.ports, 0xFFFFFFFF);
    SAME(s.last.nmi, 1);
    SAME(s.last.res, 0);
    SAME(s.clock, 0);
    SAME(r6501q_well_formed(s), 1);
}

/* Each field with a range: its highest value is well-formed, the next one is refused. */
static void check_ranges(void)
{
    r6501q_state s;
#define RANGE(field, highest) \
    do { \
        s = r6501q_fresh(); \
        s.field = (highest); \
        SAME(r6501q_well_formed(s), 1); \
        s.field = (highest) + 1; \
        SAME(r6501q_well_formed(s), 0); \
        SAME(run(s, 1).number, 2); \
        SAME(run(s, 1).state.field, (highest) + 1); \
    } while (0)
    RANGE(cpu.p, 0x0F);
    RANGE(cpu.p, 0xCF);
    RANGE(cpu.wait, 6);
    RANGE(due.reset, 1);
    RANGE(due.nmi, 1);
    RANGE(peripherals.counterb.turnc, 1);
    RANGE(peripherals.control.ifr, 63);
    RANGE(peripherals.transmitter.left, 12);
    RANGE(peripherals.transmitter.phase, 15);
    RANGE(peripherals.transmitter.register_, 4095);
    RANGE(peripherals.receiver.subinterval, 7);
    RANGE(peripherals.receiver.half, 1);
    RANGE(peripherals.receiver.left, 11);
    RANGE(peripherals.receiver.register_, 2047);
    RANGE(external.nmi, 1);
    RANGE(external.res, 1);
    RANGE(last.nmi, 1);
    RANGE(last.res, 1);
#undef RANGE
}

/* Document 02, U6: a byte waiting, or none, which is one value. */
static void check_waiting(void)
{
    static const struct {
        uint8_t wait, there;
        uint16_t address;
        uint8_t value, well_formed;
    } states[] = {
        {1, 1, 0x1234, 0x56, 1}, {6, 1, 0xFFFF, 0xFF, 1}, {1, 1, 0, 0, 1}, {0, 0, 0, 0, 1}, {6, 0, 0, 0, 1},
        {0, 1, 0x1234, 0x56, 0}, {0, 1, 0, 0, 0}, /* a byte waiting with wait 0 */
        {1, 0, 1, 0, 0}, {1, 0, 0x0100, 0, 0}, {1, 0, 0, 1, 0}, {0, 0, 0, 0x80, 0}, /* none, and yet a byte */
        {1, 2, 0x1234, 0x56, 0}, {1, 2, 0, 0, 0}, {1, 255, 0x1234, 0x56, 0}, {7, 1, 0x1234, 0x56, 0}
    };
    r6501q_call_result result;
    size_t i;
    for (i = 0; i < sizeof states / sizeof *states; i++) {
        r6501q_state s = unheld();
        s.cpu.wait = states[i].wait;
        s.cpu.waiting.there = states[i].there;
        s.cpu.waiting.address = states[i].address;
        s.cpu.waiting.value = states[i].value;
        memset(memory, 0, sizeof memory);
        SAME(r6501q_well_formed(s), states[i].well_formed);
        result = run(s, 0);
        SAME(result.number, states[i].well_formed ? R6501Q_DONE : R6501Q_STATE_NOT_WELL_FORMED);
        SAME(result.state.cpu.wait, states[i].wait);
        SAME(result.state.cpu.waiting.there, states[i].there);
        SAME(result.state.cpu.waiting.address, states[i].address);
        SAME(result.state.cpu.waiting.value, states[i].value);
        SAME(memory[0x1234], 0);
        if (!states[i].well_formed || states[i].address != 0x1234)
            continue;
        result = run(s, states[i].wait);
        SAME(result.number, R6501Q_DONE);
        SAME(result.leaps, 1);
        SAME(result.state.cpu.wait, 0);
        SAME(result.state.cpu.waiting.there, 0);
        SAME(result.state.cpu.waiting.address, 0);
        SAME(result.state.cpu.waiting.value, 0);
        SAME(memory[0x1234], 0x56);
    }
}

/* A program that puts a value of its own into each register that has a field. */
static void check_registers(void)
{
    static const uint8_t program[] = {
        0xA2, 0x11, /* LDX #11h */
        0xA0, 0x92, /* LDY #92h: N */
        0xA9, 0xA1, 0x85, 0x00, /* port A */
        0xA9, 0xB2, 0x85, 0x01, /* port B */
        0xA9, 0xC3, 0x85, 0x02, /* port C */
        0xA9, 0xD4, 0x85, 0x03, /* port D */
        0xA9, 0x0F, 0x85, 0x12, /* IER */
        0xA9, 0x20, 0x85, 0x14, /* MCR: port D is an output, both counters in interval mode */
        0xA9, 0x43, 0x85, 0x15, /* SCCR: receiver on, even parity */
        0xA9, 0x34, 0x85, 0x1C, /* lower latch B */
        0xA9, 0x12, 0x85, 0x1D, /* upper latch B, and latch C from B */
        0xA9, 0x78, 0x85, 0x1C, /* lower latch B */
        0xA9, 0x56, 0x85, 0x1E, /* upper latch B, counter B loaded */
        0xA9, 0xBC, 0x85, 0x18, /* lower latch A */
        0xA9, 0x9A, 0x85, 0x1A, /* upper latch A, counter A loaded */
        0xA9, 0x5A, 0x85, 0x17, /* serial data: SCSR6 falls */
        0xA9, 0x30, 0x85, 0x16, /* SCSR4, SCSR5 */
        0x48, /* PHA: SP is FEh */
        0xA9, 0x66, /* LDA #66h */
        0x4C, 0x43, 0x02 /* JMP here */
    };
    r6501q_call_result result;
    r6501q_state s;
    place(program, sizeof program);
    /* Reset 7, LDX and LDY 4, fifteen pairs of LDA and STA 75, PHA 3, LDA 2, and the first clock of JMP. */
    result = start(100, 7 + 4 + 75 + 3 + 2 + 1, R6501Q_NO_HALT);
    SAME(result.number, 0);
    SAME(result.read, 1);
    s = result.state;
    SAME(s.clock, 92);
    SAME(s.cpu.a, 0x66);
    SAME(s.cpu.x, 0x11);
    SAME(s.cpu.y, 0x92);
    SAME(s.cpu.sp, 0xFE);
    SAME(s.cpu.p, 4); /* I; N is clear after LDA #66h */
    SAME(s.cpu.pc, 0x243);
    SAME(s.cpu.wait, 2);
    SAME(s.cpu.waiting.there, 0);
    SAME(memory[0xFF], 0x30);
    SAME(s.due.reset, 0);
    SAME(s.due.nmi, 0);
    SAME(s.peripherals.ports.a, 0xA1);
    SAME(s.peripherals.ports.b, 0xB2);
    SAME(s.peripherals.ports.c, 0xC3);
    SAME(s.peripherals.ports.d, 0xD4);
    SAME(s.peripherals.control.ifr, 0x0C); /* PA2, PA3 fell with port A's A1h */
    SAME(s.peripherals.control.ier, 0x0F);
    SAME(s.peripherals.control.mcr, 0x20);
    SAME(s.peripherals.control.sccr, 0x43);
    SAME(s.peripherals.control.scsr, 0x30);
    SAME(s.peripherals.serial.sent, 0x5A);
    SAME(s.peripherals.serial.received, 0);
    /* Counter A is loaded on clock 76, the last of its STA: 16 clocks counted. B on clock 66: 26. */
    SAME(s.peripherals.countera.latch, 0x9ABC);
    SAME(s.peripherals.countera.count, 0x9ABC - 16);
    SAME(s.peripherals.counterb.latchb, 0x5678);
    SAME(s.peripherals.counterb.latchc, 0x1234);
    SAME(s.peripherals.counterb.count, 0x5678 - 26);
    SAME(s.peripherals.counterb.turnc, 1);
    SAME(s.external.ports, 0xFFFFFFFF);
    SAME(s.last.ports, 0xD4C3B2A1);
    /* Port A on clock 16, B on 21, C on 26; D's latch shows once MCR5 is set, on 41. */
    SAME(result.written, 4);
    SAME(output_clocks[0], 16);
    SAME(output_words[0], 0xFFFFFFA1);
    SAME(output_clocks[1], 21);
    SAME(output_words[1], 0xFFFFB2A1);
    SAME(output_clocks[2], 26);
    SAME(output_words[2], 0xFFC3B2A1);
    SAME(output_clocks[3], 41);
    SAME(output_words[3], 0xD4C3B2A1);
}

/* The serial halves' progress, the turn, NMI due and a byte waiting: from a state that is lent, one clock on. */
static void check_progress(void)
{
    r6501q_state s = unheld();
    r6501q_call_result result;
    memset(memory, 0, sizeof memory);
    s.due.reset = 0;
    s.due.nmi = 1;
    s.cpu.wait = 5;
    s.cpu.waiting.there = 1;
    s.cpu.waiting.address = 0xBA98;
    s.cpu.waiting.value = 0x76;
    s.peripherals.control.sccr = 0xC0; /* both halves on: 8 bits, no parity */
    s.peripherals.control.mcr = 0x04; /* B in pulse mode */
    s.peripherals.countera.count = 0; /* a tick */
    s.peripherals.countera.latch = 9;
    s.peripherals.counterb.count = 0;
    s.peripherals.counterb.latchb = 0x1111;
    s.peripherals.counterb.latchc = 0x2222;
    s.peripherals.transmitter.left = 5;
    s.peripherals.transmitter.phase = 15;
    s.peripherals.transmitter.register_ = 0xABC;
    s.peripherals.receiver.subinterval = 7;
    s.peripherals.receiver.half = 1;
    s.peripherals.receiver.left = 3;
    s.peripherals.receiver.register_ = 0x2AA;
    s.peripherals.serial.received = 0x77;
    s.clock = 1000;
    result = run(s, 1);
    SAME(result.number, 0);
    SAME(result.leaps, 1);
    s = result.state;
    SAME(s.clock, 1001);
    SAME(s.cpu.wait, 4);
    SAME(s.cpu.waiting.there, 1);
    SAME(s.cpu.waiting.address, 0xBA98);
    SAME(s.cpu.waiting.value, 0x76);
    SAME(memory[0xBA98], 0);
    SAME(s.due.reset, 0);
    SAME(s.due.nmi, 1);
    SAME(s.peripherals.control.ifr, 0x30); /* both underflows */
    SAME(s.peripherals.countera.count, 9);
    SAME(s.peripherals.counterb.count, 0x2222);
    SAME(s.peripherals.counterb.turnc, 0);
    SAME(s.peripherals.ports.a, 0xDF); /* the pulse inverts PA5's latch */
    SAME(s.peripherals.transmitter.left, 4);
    SAME(s.peripherals.transmitter.phase, 0);
    SAME(s.peripherals.transmitter.register_, 0x55E);
    SAME(s.peripherals.receiver.subinterval, 0);
    SAME(s.peripherals.receiver.half, 0);
    SAME(s.peripherals.receiver.left, 2);
    SAME(s.peripherals.receiver.register_, 0x555); /* PA7 high comes in at bit 10 */
    SAME(s.peripherals.serial.received, 0x77);
    /* The line was ABCh's bit 0, low, and is 55Eh's, low; PA5 fell: one record. */
    SAME(result.written, 1);
    SAME(output_clocks[0], 1001);
    SAME(output_words[0], 0xFFFFFF9F);
}

/* Inputs: levels before and after, NMI due, RES low. */
static void check_inputs(void)
{
    static const uint32_t input_clocks[] = {1, 3, 3, 5, 200};
    static const uint8_t input_codes[]
        = {R6501Q_PIN_RES + R6501Q_HIGH, R6501Q_PIN_PD7, R6501Q_PIN_NMI, R6501Q_PIN_RES, R6501Q_PIN_PD7 + R6501Q_HIGH};
    r6501q_call_result result;
    memset(memory, 0, sizeof memory);
    result = r6501q_run(r6501q_fresh(), memory, sizeof memory, input_clocks, 5, input_codes, 5, output_clocks, 0,
        output_words, 0, 3, R6501Q_NO_HALT);
    SAME(result.number, 0);
    SAME(result.read, 3);
    SAME(result.state.external.ports, 0x7FFFFFFF);
    SAME(result.state.last.ports, 0x7FFFFFFF);
    SAME(result.state.external.nmi, 0);
    SAME(result.state.last.nmi, 0);
    SAME(result.state.external.res, 1);
    SAME(result.state.last.res, 1);
    SAME(result.state.due.reset, 0);
    SAME(result.state.due.nmi, 1);
    result = r6501q_run(result.state, memory, sizeof memory, input_clocks + 3, 2, input_codes + 3, 2, output_clocks, 0,
        output_words, 0, 2, R6501Q_NO_HALT);
    SAME(result.number, 0);
    SAME(result.read, 1);
    SAME(result.state.external.res, 0);
    SAME(result.state.last.res, 0);
    SAME(result.state.due.reset, 1);
    SAME(result.state.due.nmi, 0);
    SAME(result.state.cpu.wait, 0);
}

/* Document 01's example, by a run, by single clocks and with damage. */
static void check_example(void)
{
    static const char text[] = ";070200A95585004C040201DE\n;02FFFC000201FF\n;0000030003\n";
    char damaged[sizeof text];
    r6501q_load_result loaded;
    r6501q_call_result result;
    int clock;

    memset(memory, 0, sizeof memory);
    loaded = r6501q_load((const uint8_t *)text, strlen(text), memory, sizeof memory);
    SAME(loaded.number, R6501Q_DONE);
    SAME(loaded.place, 53);
    SAME(memory[0x1FF], 0);
    SAME(memory[0x200], 0xA9);
    SAME(memory[0x206], 0x02);
    SAME(memory[0x207], 0);
    SAME(memory[0xFFFD], 2);

    memset(output_clocks, 0xEE, sizeof output_clocks);
    memset(output_words, 0xEE, sizeof output_words);
    result = start(100, 100, R6501Q_NO_HALT);
    SAME(result.number, R6501Q_DONE);
    SAME(result.state.clock, 100);
    SAME(result.read, 1);
    SAME(result.written, 1);
    SAME(output_clocks[0], 12);
    SAME(output_words[0], 0xFFFFFF55);
    SAME(output_clocks[1], 0xEEEEEEEE);
    SAME(output_words[1], 0xEEEEEEEE);
    /* Starts: reset 1, LDA 8, STA 10, JMP on 13, 16, .. 100; the byte of STA is put on clock 12. */
    SAME(result.leaps, 34);

    result.state = r6501q_fresh();
    for (clock = 1; clock <= 100; clock++) {
        const size_t inputs = clock == 1;
        result = r6501q_step(result.state, memory, sizeof memory, release_clocks, inputs, release_codes, inputs,
            output_clocks, 1, output_words, 1, R6501Q_NO_HALT);
        SAME(result.number, R6501Q_DONE);
        SAME(result.read, inputs);
        SAME(result.state.clock, clock);
        SAME(result.leaps, 1);
        SAME(result.state.cpu.waiting.there, clock == 10 || clock == 11);
        SAME(result.written, clock == 12);
    }
    SAME(result.state.cpu.pc, 0x204);
    SAME(result.state.cpu.wait, 2);

    result = start(0, 100, R6501Q_NO_HALT);
    SAME(result.number, R6501Q_NO_FREE_RECORD);
    SAME(result.state.clock, 11);
    SAME(result.state.cpu.wait, 1);
    SAME(result.state.cpu.waiting.there, 1);
    SAME(result.state.cpu.waiting.address, 0x0000);
    SAME(result.state.cpu.waiting.value, 0x55);

    memcpy(damaged, text, sizeof text);
    damaged[40] = '0'; /* the second record's check sum */
    memset(memory, 0x99, sizeof memory);
    loaded = r6501q_load((const uint8_t *)damaged, strlen(text), memory, sizeof memory);
    SAME(loaded.number, R6501Q_WRONG_CHECK_SUM);
    SAME(loaded.place, 26);
    SAME(memory[0x200], 0x99);
    loaded = r6501q_load((const uint8_t *)text, strlen(text) - 2, memory, sizeof memory);
    SAME(loaded.number, R6501Q_MALFORMED_RECORD);
    SAME(loaded.place, 42);
    loaded = r6501q_load((const uint8_t *)text, 42, memory, sizeof memory);
    SAME(loaded.number, R6501Q_WRONG_LAST_RECORD);
    SAME(loaded.place, 42);
    loaded = r6501q_load((const uint8_t *)text, strlen(text), memory, sizeof memory - 1);
    SAME(loaded.number, R6501Q_WRONG_MEMORY_LENGTH);
    SAME(loaded.place, 0);
}

/* Each refusal of a run, and the order; a halt address makes no difference to them. */
static void check_refusals(void)
{
    static const uint32_t input_clocks[] = {7, 6};
    static const uint8_t input_codes[] = {1, 2};
    r6501q_state s = r6501q_fresh();
    memset(memory, 0, sizeof memory);
#define REFUSED(memory_length, clocks_length, codes_length, free_clocks, free_words, n, expected) \
    SAME(r6501q_run(s, memory, (memory_length), input_clocks, (clocks_length), input_codes, (codes_length), \
             output_clocks, (free_clocks), output_words, (free_words), (n), 0xFF).number, (expected))
    REFUSED(65535, 2, 1, 2, 2, 5, R6501Q_WRONG_MEMORY_LENGTH);
    REFUSED(65536, 2, 1, 2, 2, 5, R6501Q_UNEQUAL_LISTS);
    REFUSED(65536, 2, 2, 1, 2, 5, R6501Q_UNEQUAL_LISTS);
    REFUSED(65536, 2, 2, 2, 2, 5, R6501Q_WRONG_PIN_LIST);
    s.clock = 0xFFFFFFF0;
    REFUSED(65536, 2, 2, 2, 2, 16, R6501Q_CLOCK_TOO_HIGH);
    REFUSED(65536, 0, 0, 2, 2, 7, R6501Q_DONE); /* not refused: held by RES */
    s.external.res = 1;
    REFUSED(65536, 0, 0, 2, 2, 7, R6501Q_DONE); /* not refused: the reset entry, which pushes nothing */
    s.due.nmi = 2;
    REFUSED(65536, 2, 1, 2, 2, 16, R6501Q_STATE_NOT_WELL_FORMED);
#undef REFUSED
    memory[0xFFFD] = 2;
    memory[0x200] = 2;
    SAME(start(100, 7, R6501Q_NO_HALT).number, R6501Q_DONE);
    SAME(start(100, 8, R6501Q_NO_HALT).number, R6501Q_UNDEFINED_OPCODE);
    SAME(run(r6501q_fresh(), 8).number, R6501Q_DONE);
}

/* Document 02, U4 and U6: STA port A of 55h, put on clock 12, JSR on clock 13 with pushes at FFh and FEh, a store at
 * 3Fh, which no register takes, put on clock 21, one at FFFFh put on clock 25. */
static void check_halts(void)
{
    static const uint8_t program[]
        = {0xA9, 0x55, 0x85, 0x00, 0x20, 0x07, 0x02, 0x85, 0x3F, 0x8D, 0xFF, 0xFF, 0x4C, 0x0C, 0x02};
    static const struct {
        uint32_t halt, clock;
    } halts[] = {{0x0000, 12}, {0x00FF, 13}, {0x00FE, 13}, {0x003F, 21}, {0xFFFF, 25}};
    static const uint32_t nowhere[] = {R6501Q_NO_HALT, 65536, 65536 + 0x00FF, 0x0000FFFFu + 65536, 0x7FFFFFFF,
        0x80000000u, 0xFFFF0000u, 0x0001, 0x00FD, 0x0200, 0xFFFC};
    r6501q_call_result result;
    size_t i;
    for (i = 0; i < sizeof halts / sizeof *halts; i++) {
        place(program, sizeof program);
        result = start(100, 40, halts[i].halt);
        SAME(result.number, R6501Q_HALTED_AT_WRITE);
        SAME(result.state.clock, halts[i].clock);
        SAME(result.written, 1);
        result = r6501q_run(result.state, memory, sizeof memory, NULL, 0, NULL, 0, output_clocks, 100, output_words,
            100, 40, halts[i].halt);
        SAME(result.number, R6501Q_DONE);
        SAME(result.state.clock, halts[i].clock + 40);
        place(program, sizeof program);
        result = start(100, halts[i].clock - 1, R6501Q_NO_HALT);
        result = r6501q_step(result.state, memory, sizeof memory, NULL, 0, NULL, 0, output_clocks, 100, output_words,
            100, halts[i].halt);
        SAME(result.number, R6501Q_HALTED_AT_WRITE);
        SAME(result.leaps, 1);
    }
    for (i = 0; i < sizeof nowhere / sizeof *nowhere; i++) {
        place(program, sizeof program);
        result = start(100, 40, nowhere[i]);
        SAME(result.number, R6501Q_DONE);
        SAME(result.state.clock, 40);
    }
    place(program, sizeof program);
    result = start(0, 100, 0x0000);
    SAME(result.number, R6501Q_NO_FREE_RECORD);
    SAME(result.state.clock, 11);
}

/* Document 02, U8: a fresh chip without inputs stays held, its counters counting. */
static void check_held(void)
{
    static const uint32_t clocks[] = {0, 1, 65535, 65536, 65537, 65538, 131072, 0xFFFFFFFFu};
    static const uint32_t leaps[] = {0, 1, 1, 1, 2, 3, 3, 131071};
    size_t i;
    for (i = 0; i < sizeof clocks / sizeof *clocks; i++) {
        const uint32_t n = clocks[i];
        r6501q_call_result result;
        memset(memory, 0x48, sizeof memory); /* PHA everywhere */
        result = run(r6501q_fresh(), n);
        SAME(result.number, R6501Q_DONE);
        SAME(result.leaps, leaps[i]);
        SAME(result.read, 0);
        SAME(result.written, 0);
        SAME(result.state.clock, n);
        SAME(result.state.cpu.pc, 0);
        SAME(result.state.cpu.wait, 0);
        SAME(result.state.due.reset, 1);
        SAME(result.state.peripherals.countera.count, 65535 - n % 65536);
        SAME(result.state.peripherals.counterb.count, 65535 - n % 65536);
        SAME(result.state.peripherals.control.ifr, n > 0 && n % 65536 == 0 ? 0x30 : 0);
        SAME(memory[0xFF], 0x48);
    }
}

/* Document 02's two examples of U2, and its limits. */
static void check_latch(void)
{
    r6501q_latch_result result;
#define LATCH(clock_rate, bit_rate, tolerance, expected_number, expected_found, expected_value) \
    do { \
        result = r6501q_latch((clock_rate), (bit_rate), (tolerance)); \
        SAME(result.number, (expected_number)); \
        SAME(result.found, (expected_found)); \
        SAME(result.value, (expected_value)); \
    } while (0)
    LATCH(1000000, 62500, 0, R6501Q_DONE, 1, 0);
    LATCH(1000000, 9600, 20, R6501Q_DONE, 0, 0);
    LATCH(1048576, 1, 0, R6501Q_DONE, 1, 65535);
    LATCH(1048592, 1, 0, R6501Q_DONE, 0, 0);
    LATCH(R6501Q_HIGHEST_RATE, 625000, R6501Q_HIGHEST_TOLERANCE - 1000, R6501Q_DONE, 1, 0);
    LATCH(R6501Q_HIGHEST_RATE + 1, 625000, 0, R6501Q_RATE_OUT_OF_LIMITS, 0, 0);
    LATCH(1000000, R6501Q_HIGHEST_RATE + 1, 0, R6501Q_RATE_OUT_OF_LIMITS, 0, 0);
    LATCH(1000000, 62500, R6501Q_HIGHEST_TOLERANCE + 1, R6501Q_RATE_OUT_OF_LIMITS, 0, 0);
    LATCH(0, 62500, 0, R6501Q_RATE_OUT_OF_LIMITS, 0, 0);
    LATCH(1000000, 0, 0, R6501Q_RATE_OUT_OF_LIMITS, 0, 0);
    LATCH(0xFFFFFFFF, 0xFFFFFFFF, 0xFFFFFFFF, R6501Q_RATE_OUT_OF_LIMITS, 0, 0);
#undef LATCH
}

static uint16_t sums[R6501Q_SUMS_LENGTH + 1];

/* All sums are 0 but for these of two pages. */
static void same_sums(unsigned page, uint16_t sum, unsigned other, uint16_t other_sum)
{
    unsigned i;
    for (i = 0; i < R6501Q_SUMS_LENGTH; i++)
        SAME(sums[i], i == page ? sum : i == other ? other_sum : 0);
}

/* A fresh chip, released, with sums. */
static r6501q_call_result start_with_sums(size_t records, uint32_t n, uint32_t halt)
{
    return r6501q_run_with_sums(r6501q_fresh(), memory, sizeof memory, sums, R6501Q_SUMS_LENGTH, release_clocks, 1,
        release_codes, 1, output_clocks, records, output_words, records, n, halt);
}

/* Document 02, U7: STA 1234h of 05h over 10h, put on clock 13; STA port A, put on clock 16; JSR on clock 17, which
 * pushes 02h and 09h at FFh and FEh; STA FFFFh over FFh, put on clock 26. */
static void check_sums(void)
{
    static const uint8_t program[] = {0xA9, 0x05, 0x8D, 0x34, 0x12, 0x85, 0x00, 0x20, 0x0A, 0x02, 0x8D, 0xFF, 0xFF,
        0x4C, 0x0D, 0x02};
    static const struct {
        uint32_t clocks;
        uint16_t zero, twelve, last;
    } changes[] = {{0, 0, 0, 0}, {12, 0, 0, 0}, {13, 0, 65525, 0}, {16, 0, 65525, 0}, {17, 11, 65525, 0},
        {25, 11, 65525, 0}, {26, 11, 65525, 65286}, {100, 11, 65525, 65286}};
    r6501q_call_result result;
    uint32_t clock;
    size_t i;
    for (i = 0; i < sizeof changes / sizeof *changes; i++) {
        place(program, sizeof program);
        memory[0x1234] = 0x10;
        memory[0xFFFF] = 0xFF;
        memset(sums, 0, sizeof sums);
        result = start_with_sums(100, changes[i].clocks, R6501Q_NO_HALT);
        SAME(result.number, R6501Q_DONE);
        SAME(result.state.clock, changes[i].clocks);
        SAME(result.written, changes[i].clocks >= 16);
        SAME(sums[0x00], changes[i].zero);
        SAME(sums[0xFF], changes[i].last);
        sums[0x00] = sums[0xFF] = 0;
        same_sums(0x12, changes[i].twelve, 0x34, 0);
        SAME(sums[R6501Q_SUMS_LENGTH], 0);
    }
    /* By single clocks, from other sums: each changes by as much. */
    place(program, sizeof program);
    memory[0x1234] = 0x10;
    memory[0xFFFF] = 0xFF;
    memset(sums, 0, sizeof sums);
    sums[0x00] = 65535;
    sums[0x12] = 11;
    result.state = r6501q_fresh();
    for (clock = 1; clock <= 30; clock++) {
        const size_t inputs = clock == 1;
        result = r6501q_step_with_sums(result.state, memory, sizeof memory, sums, R6501Q_SUMS_LENGTH, release_clocks,
            inputs, release_codes, inputs, output_clocks, 1, output_words, 1, R6501Q_NO_HALT);
        SAME(result.number, R6501Q_DONE);
        SAME(result.leaps, 1);
        SAME(sums[0x00], clock < 17 ? 65535 : 10);
        SAME(sums[0x12], clock < 13 ? 11 : 0);
        SAME(sums[0xFF], clock < 26 ? 0 : 65286);
    }
    /* Stops: by the clocks done. */
    place(program, sizeof program);
    memory[0x1234] = 0x10;
    memset(sums, 0, sizeof sums);
    result = start_with_sums(100, 100, 0x1234);
    SAME(result.number, R6501Q_HALTED_AT_WRITE);
    SAME(result.state.clock, 13);
    same_sums(0x12, 65525, 0x12, 65525);
    result = start_with_sums(0, 100, R6501Q_NO_HALT);
    SAME(result.number, R6501Q_NO_FREE_RECORD);
    SAME(result.state.clock, 15);
    same_sums(0x12, 65525, 0x12, 65525); /* the byte was 05h already */
    memory[0x020A] = 0x02;
    result = start_with_sums(100, 100, R6501Q_NO_HALT);
    SAME(result.number, R6501Q_UNDEFINED_OPCODE);
    same_sums(0x00, 11, 0x12, 65525);
}

/* 13 has its place between 1 and 2, for flags above 1 too; everything stays as it is. */
static void check_sums_length(void)
{
    static const size_t lengths[] = {0, 1, 255, 257};
    static const uint8_t tape[] = ";01020055";
    r6501q_state s = unheld();
    r6501q_call_result result;
    r6501q_load_result loaded;
    size_t i;
    memset(memory, 0x48, sizeof memory); /* PHA everywhere */
    memset(sums, 0x77, sizeof sums);
    s.clock = 0xFFFFFFF0;
    s.cpu.a = 0x99;
    s.due.reset = 0;
#define NUMBER(memory_length, sums_length, input_codes_length, n, expected) \
    do { \
        result = r6501q_run_with_sums(s, memory, (memory_length), sums, (sums_length), release_clocks, 1, \
            release_codes, (input_codes_length), output_clocks, 0, output_words, 0, (n), R6501Q_NO_HALT); \
        SAME(result.number, (expected)); \
        SAME(result.state.clock, 0xFFFFFFF0); \
        SAME(result.state.cpu.a, 0x99); \
        SAME(result.state.due.nmi, s.due.nmi); \
        SAME(result.leaps, 0); \
        SAME(result.read, 0); \
        SAME(result.written, 0); \
        result = r6501q_step_with_sums(s, memory, (memory_length), sums, (sums_length), release_clocks, 1, \
            release_codes, (input_codes_length), output_clocks, 0, output_words, 0, R6501Q_NO_HALT); \
        if ((expected) != R6501Q_CLOCK_TOO_HIGH) \
            SAME(result.number, (expected)); \
    } while (0)
    for (i = 0; i < sizeof lengths / sizeof *lengths; i++) {
        s.due.nmi = 0;
        NUMBER(65535, lengths[i], 0, 100, R6501Q_WRONG_MEMORY_LENGTH);
        NUMBER(65536, lengths[i], 1, 0, R6501Q_WRONG_SUMS_LENGTH);
        NUMBER(65536, lengths[i], 1, 100, R6501Q_WRONG_SUMS_LENGTH);
        NUMBER(65536, lengths[i], 0, 100, R6501Q_WRONG_SUMS_LENGTH);
        s.due.nmi = 2;
        NUMBER(65536, lengths[i], 0, 100, R6501Q_WRONG_SUMS_LENGTH);
        s.due.nmi = 0;
        s.cpu.wait = 7;
        NUMBER(65536, lengths[i], 0, 100, R6501Q_WRONG_SUMS_LENGTH);
        s.cpu.wait = 0;
        loaded = r6501q_load_with_sums(tape, strlen((const char *)tape), memory, 65536, sums, lengths[i]);
        SAME(loaded.number, R6501Q_WRONG_SUMS_LENGTH);
        SAME(loaded.place, 0);
        loaded = r6501q_load_with_sums(tape, strlen((const char *)tape), memory, 65535, sums, lengths[i]);
        SAME(loaded.number, R6501Q_WRONG_MEMORY_LENGTH);
        SAME(loaded.place, 0);
        SAME(r6501q_total(sums, lengths[i]).number, R6501Q_WRONG_SUMS_LENGTH);
        SAME(r6501q_total(sums, lengths[i]).total, 0);
    }
    NUMBER(65535, 256, 0, 100, R6501Q_WRONG_MEMORY_LENGTH);
    NUMBER(65536, 256, 0, 100, R6501Q_UNEQUAL_LISTS);
    NUMBER(65536, 256, 1, 100, R6501Q_CLOCK_TOO_HIGH);
    NUMBER(65536, 256, 1, 15, R6501Q_WRONG_PIN_LIST);
    s.due.nmi = 2;
    NUMBER(65536, 256, 0, 100, R6501Q_STATE_NOT_WELL_FORMED);
#undef NUMBER
    for (i = 0; i < sizeof memory; i++)
        SAME(memory[i], 0x48);
    for (i = 0; i < sizeof sums / sizeof *sums; i++)
        SAME(sums[i], 0x7777);
}

/* A tape into a memory of zeros beside zeros: the sums are right. */
static void check_summed_tape(void)
{
    static const char text[] = ";070200A95585004C040201DE ;02FFFC000201FF ;04003E01020304004C ;0000040004";
    char damaged[sizeof text];
    r6501q_load_result loaded;
    uint16_t total = 0;
    size_t i;
    memset(memory, 0, sizeof memory);
    memset(sums, 0, sizeof sums);
    loaded = r6501q_load_with_sums((const uint8_t *)text, strlen(text), memory, sizeof memory, sums, 256);
    SAME(loaded.number, R6501Q_DONE);
    SAME(loaded.place, strlen(text));
    SAME(sums[0x00], 3 + 4); /* those for 3Eh and 3Fh are dropped */
    SAME(sums[0x02], 0xA9 + 0x55 + 0x85 + 0x4C + 0x04 + 0x02);
    sums[0x00] = 0;
    same_sums(0x02, 469, 0xFF, 2);
    sums[0x00] = 7;
    SAME(r6501q_total(sums, 256).number, R6501Q_DONE);
    SAME(r6501q_total(sums, 256).total, 478);
    for (i = 0; i < sizeof memory; i++)
        total = (uint16_t)(total + memory[i]);
    SAME(total, 478);
    /* Once more: no byte changes, and no sum. A damaged one neither. */
    loaded = r6501q_load_with_sums((const uint8_t *)text, strlen(text), memory, sizeof memory, sums, 256);
    SAME(loaded.number, R6501Q_DONE);
    SAME(r6501q_total(sums, 256).total, 478);
    memset(memory, 0, sizeof memory);
    memcpy(damaged, text, sizeof text);
    damaged[40] = '0'; /* the second record's check sum */
    loaded = r6501q_load_with_sums((const uint8_t *)damaged, strlen(text), memory, sizeof memory, sums, 256);
    SAME(loaded.number, R6501Q_WRONG_CHECK_SUM);
    SAME(loaded.place, 26);
    SAME(memory[0x200], 0);
    SAME(sums[0x02], 469);
    /* Entries that make more than 65,535, the last one among them. */
    for (i = 0; i < R6501Q_SUMS_LENGTH; i++)
        sums[i] = (uint16_t)(65535 - i);
    SAME(r6501q_total(sums, 256).total, 65536 - (256 + 255 * 128) % 65536);
    sums[255]++;
    SAME(r6501q_total(sums, 256).total, 65536 - (256 + 255 * 128) % 65536 + 1);
}

int main(void)
{
    check_fresh();
    check_ranges();
    check_waiting();
    check_registers();
    check_progress();
    check_inputs();
    check_example();
    check_refusals();
    check_halts();
    check_held();
    check_latch();
    check_sums();
    check_sums_length();
    check_summed_tape();
    if (faults != 0) {
        printf("%d faults\n", faults);
        return EXIT_FAILURE;
    }
    return EXIT_SUCCESS;
}
