/* The R6501Q, clock by clock: the library `libr6501q.a` for programs in C and C++.
 *
 * The library holds nothing between calls: the caller keeps the chip's state, its memory and its lists, and lends them
 * to each call. A struct goes by value. A lent list is a pointer and then its length in entries; with a length of 0 the
 * pointer is not used. Every call comes back, whatever state, memory, lists and counts it is given, good or damaged,
 * and touches nothing outside the lists that it is lent. What is left to the caller: a pointer whose list is not empty
 * is aligned for its type, the lengths are true, the lists do not overlap, `output_clocks`, `output_words`, `memory`
 * and `sums` may be written (not so r6501q_total's), and while a call goes on nobody else writes any of the lists, the
 * memory or the tape, or reads those four.
 *
 * Rules and numbers are those of document 01, those of a store's last clock, of the halt address, of page sums and of
 * r6501q_latch document 02's. Hexadecimal ends in h.
 */
#ifndef R6501Q_H
#define R6501Q_H

#include <stddef.h>
#include <stdint.h>

#ifdef __cplusplus
extern "C" {
#endif

/* The bytes of a memory. */
#define R6501Q_MEMORY_LENGTH 65536

/* The sums of a page list, one for each 256 bytes of a memory. */
#define R6501Q_SUMS_LENGTH 256

/* The pins. The port pins' numbers are their bits in the driven word. */
#define R6501Q_PIN_PA0 0
#define R6501Q_PIN_PA1 1
#define R6501Q_PIN_PA2 2
#define R6501Q_PIN_PA3 3
#define R6501Q_PIN_PA4 4
#define R6501Q_PIN_PA5 5
#define R6501Q_PIN_PA6 6
#define R6501Q_PIN_PA7 7
#define R6501Q_PIN_PB0 8
#define R6501Q_PIN_PB1 9
#define R6501Q_PIN_PB2 10
#define R6501Q_PIN_PB3 11
#define R6501Q_PIN_PB4 12
#define R6501Q_PIN_PB5 13
#define R6501Q_PIN_PB6 14
#define R6501Q_PIN_PB7 15
#define R6501Q_PIN_PC0 16
#define R6501Q_PIN_PC1 17
#define R6501Q_PIN_PC2 18
#define R6501Q_PIN_PC3 19
#define R6501Q_PIN_PC4 20
#define R6501Q_PIN_PC5 21
#define R6501Q_PIN_PC6 22
#define R6501Q_PIN_PC7 23
#define R6501Q_PIN_PD0 24
#define R6501Q_PIN_PD1 25
#define R6501Q_PIN_PD2 26
#define R6501Q_PIN_PD3 27
#define R6501Q_PIN_PD4 28
#define R6501Q_PIN_PD5 29
#define R6501Q_PIN_PD6 30
#define R6501Q_PIN_PD7 31
#define R6501Q_PIN_NMI 32
#define R6501Q_PIN_RES 33

/* Added to a pin's number in an input code where the new level is high. */
#define R6501Q_HIGH 64

/* A halt address that is none. So is any other above 65,535. */
#define R6501Q_NO_HALT 0xFFFFFFFFu

/* The highest clock rate and bit rate, and the highest tolerance in thousandths, of r6501q_latch. */
#define R6501Q_HIGHEST_RATE 10000000
#define R6501Q_HIGHEST_TOLERANCE 1000

/* Why a call ended, its field `number` (document 01, "What is handed back"; document 02). */
enum r6501q_number {
    /* Run and step: all clocks done. Load: the tape is in memory. Total: taken. */
    R6501Q_DONE = 0,

    /* Refused. The state given comes back, nothing is read, counted or changed. Of several, the lowest is given; but
     * 13, below, comes directly after 1. */
    R6501Q_WRONG_MEMORY_LENGTH = 1, /* memory is not 65,536 bytes (the only one of these five that a load has) */
    R6501Q_STATE_NOT_WELL_FORMED = 2, /* a field of the state is out of its range, or a byte waits
                                         * with wait 0, or none is there and its address or value is not 0 */
    R6501Q_UNEQUAL_LISTS = 3, /* the two input lists, or the two output lists, differ in length */
    R6501Q_CLOCK_TOO_HIGH = 4, /* clock + n is above 4,294,967,295 */
    R6501Q_WRONG_PIN_LIST = 5, /* the input list breaks its rule somewhere, be it past the last clock */

    /* Stopped before the clock after the state's. State, memory and lists are as reached; that clock's inputs stay
     * unread. */
    R6501Q_UNDEFINED_OPCODE = 6, /* the clock would start an undefined opcode */
    R6501Q_NO_FREE_RECORD = 7, /* the clock needs an output record and none is free */

    /* A refused tape. Memory is unchanged; `place` is the index of the faulty record's `;`. */
    R6501Q_MALFORMED_RECORD = 8, /* a digit missing or wrong, a count above 18h, or an address + count above 65,536 */
    R6501Q_WRONG_CHECK_SUM = 9, /* the record's check sum is not the sum of its bytes */
    R6501Q_WRONG_LAST_RECORD = 10, /* the last record's count is wrong; or it is missing, `place` the tape's length */

    /* A refused latch call (document 02, U2). */
    R6501Q_RATE_OUT_OF_LIMITS = 11, /* a rate is 0, or a rate or the tolerance is above its limit */

    /* Halted after the state's clock (document 02, U4), a stop like 6 and 7: state, memory and lists are as reached,
     * that clock done, its inputs read and its record written. */
    R6501Q_HALTED_AT_WRITE = 12, /* the clock wrote at the halt address */

    /* Refused like 1, directly after it and before 2, by the calls with sums and by the total (document 02, U7). */
    R6501Q_WRONG_SUMS_LENGTH = 13 /* a page list is not of 256 sums */
};

/* The machine state (document 01, "Machine state"). The range of a field is that of its type where none is given. */

/* The byte that a store or a read-modify-write instruction still has to put, with its address, or none (document 02,
 * U6). It is put on the last clock of the instruction, where wait goes from 1 to 0; RES low drops it. None is one
 * value: there, address and value 0. */
typedef struct r6501q_waiting {
    uint8_t there; /* 0 or 1 */
    uint16_t address; /* 0 where none is there */
    uint8_t value; /* 0 where none is there */
} r6501q_waiting;

/* The CPU's registers, the clocks that the present instruction or entry (reset, NMI, IRQ) still takes, and its byte
 * waiting. */
typedef struct r6501q_cpu {
    uint8_t a;
    uint8_t x;
    uint8_t y;
    uint8_t sp;
    uint8_t p; /* bits 4 and 5 are 0 */
    uint16_t pc;
    uint8_t wait; /* 0 to 6; above 0 where a byte is waiting */
    r6501q_waiting waiting;
} r6501q_cpu;

/* The entries that are due. */
typedef struct r6501q_due {
    uint8_t reset; /* 0 or 1 */
    uint8_t nmi; /* 0 or 1 */
} r6501q_due;

/* The port output latches. */
typedef struct r6501q_ports {
    uint8_t a;
    uint8_t b;
    uint8_t c;
    uint8_t d;
} r6501q_ports;

/* Counter A and its latch. */
typedef struct r6501q_counter_a {
    uint16_t count;
    uint16_t latch;
} r6501q_counter_a;

/* Counter B, latches B and C, and whether the next reload in mode 01 takes latch C. */
typedef struct r6501q_counter_b {
    uint16_t count;
    uint16_t latchb;
    uint16_t latchc;
    uint8_t turnc; /* 0 or 1 */
} r6501q_counter_b;

/* Interrupt flags and enables, mode control, serial control and status. */
typedef struct r6501q_control {
    uint8_t ifr; /* bits 0 to 5; bits 6 and 7 follow from scsr and are 0 here */
    uint8_t ier;
    uint8_t mcr;
    uint8_t sccr;
    uint8_t scsr;
} r6501q_control;

/* The serial data to be sent and the data received. */
typedef struct r6501q_serial_data {
    uint8_t sent;
    uint8_t received;
} r6501q_serial_data;

/* The bits left of the frame or byte that is sent, the phase (a bit lasts 16 ticks, in shift-register mode 2), and the
 * bits, the present one lowest. */
typedef struct r6501q_transmitter {
    uint8_t left; /* 0 to 12 */
    uint8_t phase; /* 0 to 15 */
    uint16_t register_; /* 12 bits; `register` is a word of the language */
} r6501q_transmitter;

/* The sub-interval, whether the next tick makes a look at PA7, the bits left of the frame or byte, and the bits, the
 * last in bit 10. In shift-register mode PA7 is taken at each rise of PA4, and the first two stay as they are. */
typedef struct r6501q_receiver {
    uint8_t subinterval; /* 0 to 7 */
    uint8_t half; /* 0 or 1 */
    uint8_t left; /* 0 to 11 */
    uint16_t register_; /* 11 bits */
} r6501q_receiver;

/* All that stands behind the registers at 0 to 3Fh. */
typedef struct r6501q_peripherals {
    r6501q_ports ports;
    r6501q_counter_a countera;
    r6501q_counter_b counterb;
    r6501q_control control;
    r6501q_serial_data serial;
    r6501q_transmitter transmitter;
    r6501q_receiver receiver;
} r6501q_peripherals;

/* The levels of the 34 pins: PA0 in bit 0 of ports, PD7 in bit 31. */
typedef struct r6501q_levels {
    uint32_t ports;
    uint8_t nmi; /* 0 or 1 */
    uint8_t res; /* 0 or 1 */
} r6501q_levels;

/* The whole chip. */
typedef struct r6501q_state {
    r6501q_cpu cpu;
    r6501q_due due;
    r6501q_peripherals peripherals;
    r6501q_levels external; /* what the inputs have set */
    r6501q_levels last; /* the levels of the last clock done */
    uint32_t clock; /* the clocks done since fresh; any value is well-formed */
} r6501q_state;

/* What a run or a step hands back. */
typedef struct r6501q_call_result {
    uint8_t number; /* R6501Q_DONE, or 1 to 7 or 12 of enum r6501q_number, with sums also 13 */
    r6501q_state state;
    uint32_t leaps; /* event clocks done, and 1 more where the last clock done is none; 0 if no clock is done */
    size_t read; /* the input entries read: the first so many of input_clocks and input_codes */
    size_t written; /* the records written: the first so many of output_clocks and output_words */
} r6501q_call_result;

/* What a load hands back. */
typedef struct r6501q_load_result {
    uint8_t number; /* R6501Q_DONE, 1, or 8 to 10 of enum r6501q_number, with sums also 13 */
    size_t place;
} r6501q_load_result;

/* What the latch call hands back. */
typedef struct r6501q_latch_result {
    uint8_t number; /* R6501Q_DONE or R6501Q_RATE_OUT_OF_LIMITS */
    uint8_t found; /* 1 where a latch value fits, else 0 */
    uint16_t value; /* the latch value, 0 where none is found */
} r6501q_latch_result;

/* What the total of page sums hands back. */
typedef struct r6501q_total_result {
    uint8_t number; /* R6501Q_DONE or R6501Q_WRONG_SUMS_LENGTH */
    uint16_t total; /* 0 where the page list is not of 256 sums */
} r6501q_total_result;

/* A chip that has not run yet: reset due, clock 0, no byte waiting, RES low in both its levels, all other levels high.
 * Always well-formed. It is held, its counters counting, until an input makes RES high (document 02, U8): with clock 1
 * and R6501Q_PIN_RES + R6501Q_HIGH, behind that clock's other inputs, its reset entry begins on clock 1. */
r6501q_state r6501q_fresh(void);

/* 1 where every field of the state is within its range, 0 where one is not. The rules across fields are those of a
 * byte waiting: with one there, wait is above 0; with none, address and value are 0. */
uint8_t r6501q_well_formed(r6501q_state state);

/* n clocks, by leaps from event to event.
 *
 * In:   state          any; one that is not well-formed is refused with 2
 *       memory         the 65,536 bytes; those at 0 to 3Fh, the registers' addresses, are never read or written
 *       input_clocks   absolute clocks of the inputs. They never fall, and the first is above the state's
 *       input_codes    for each a pin's number, plus R6501Q_HIGH where its new level is high. Within a clock pins rise
 *                      strictly. Inputs past the last clock are checked too and stay unread
 *       output_clocks  space for records: the clock after which the driven word differs
 *       output_words   for each the driven word, PA0 in bit 0, PD7 in bit 31
 *       n              how many clocks; with 0 all checks are made and nothing is done
 *       halt           the halt address, 0 to 65,535; none where it is above (R6501Q_NO_HALT). Every write of the CPU
 *                      counts: pushes, those of the NMI and IRQ entries too, on the first clock, the byte of a store on
 *                      its last, also one that waits in the state given; and writes of registers, also of one that
 *                      ignores the byte
 *
 * Back: 0              all n clocks done: state, memory and records are those of n single clocks
 *       1 to 5         refused: the state given, leaps, read and written 0, everything unchanged
 *       6, 7           stopped: state, memory, leaps, read and written as reached
 *       12             halted: the last clock done wrote at the halt address, be it the last of the n or not; state,
 *                      memory, leaps, read and written as reached, with that clock. 6 and 7 for that clock come first,
 *                      and the clock behind it is not looked at
 *
 * A run that ends within a store leaves memory without its byte: the state carries it, and the next call puts it.
 * Entries of the output lists from `written` on are never changed. The next call is lent the rest, input_clocks + read
 * and output_clocks + written with their pairs, and the state handed back; after a halt it goes on behind the write and
 * does not halt for it again. Where no call is refused and all are given the same halt address, or none, all but the
 * leaps come out the same however a stretch of clocks, up to its first stop, is cut into calls.
 */
r6501q_call_result r6501q_run(r6501q_state state,
    uint8_t *memory, size_t memory_length,
    const uint32_t *input_clocks, size_t input_clocks_length,
    const uint8_t *input_codes, size_t input_codes_length,
    uint32_t *output_clocks, size_t output_clocks_length,
    uint32_t *output_words, size_t output_words_length,
    uint32_t n,
    uint32_t halt);

/* A single clock: what r6501q_run hands back and leaves for n = 1, `leaps` 1 where the clock is done (0 or 12) and else
 * 0. */
r6501q_call_result r6501q_step(r6501q_state state,
    uint8_t *memory, size_t memory_length,
    const uint32_t *input_clocks, size_t input_clocks_length,
    const uint8_t *input_codes, size_t input_codes_length,
    uint32_t *output_clocks, size_t output_clocks_length,
    uint32_t *output_words, size_t output_words_length,
    uint32_t halt);

/* A paper tape into memory (document 01, "Tape"). The tape is checked whole before a byte is stored.
 *
 * In:   tape       the text, any bytes; characters between records and behind the last one are skipped
 *       memory     the 65,536 bytes; bytes of the tape for 0 to 3Fh are dropped
 *
 * Back: 0          loaded; place is the index past the last record
 *       1          memory is not 65,536 bytes; place 0, memory unchanged
 *       8, 9, 10   refused for the earliest faulty record, its faults in this order; place is the index of its `;`, or
 *                  the tape's length where the last record is missing; memory unchanged
 */
r6501q_load_result r6501q_load(const uint8_t *tape, size_t tape_length, uint8_t *memory, size_t memory_length);

/* Page sums beside the memory (document 02, U7), kept up to date by the three calls below.
 *
 * Entry p of `sums` belongs to the bytes 256 * p to 256 * p + 255 of `memory` as they stand, page 0 with those at 0 to
 * 3Fh. It is right where it is the sum of these bytes. No call fills the list: 256 zeros beside a memory of zeros are
 * right. Each call changes each entry, right or wrong before, by exactly what its page's bytes change, modulo 65,536:
 * by the new sum of the page less the old one. So a right entry stays right, a wrong one stays wrong by as much, and
 * where the bytes of a page stay as they are its entry does. A register written changes no byte and no sum. A store's
 * byte counts on the store's last clock, a pushed one on the first; one that still waits, or that RES low drops, does
 * not. On a stop (6, 7, 12) the entries have changed by the clocks done, with 12 by that of the write too. On a refusal
 * (1 to 5, 13, of a tape 1, 13, 8 to 10) and with n = 0 no entry changes.
 *
 * In:   sums           the 256 sums, any values; a list of another length is refused with 13, directly after 1 and
 *                      before 2, also before a flag above 1
 *       all others     as r6501q_run, r6501q_step and r6501q_load are given them
 *
 * Back: 13             the page list is not of 256 sums, memory being 65,536 bytes. Run and step: the state given,
 *                      leaps, read and written 0; load: place 0, whatever the tape; everything unchanged
 *       any other      what the call lacking sums hands back; and it leaves memory and lists as that call does
 */
r6501q_call_result r6501q_run_with_sums(r6501q_state state,
    uint8_t *memory, size_t memory_length,
    uint16_t *sums, size_t sums_length,
    const uint32_t *input_clocks, size_t input_clocks_length,
    const uint8_t *input_codes, size_t input_codes_length,
    uint32_t *output_clocks, size_t output_clocks_length,
    uint32_t *output_words, size_t output_words_length,
    uint32_t n,
    uint32_t halt);

r6501q_call_result r6501q_step_with_sums(r6501q_state state,
    uint8_t *memory, size_t memory_length,
    uint16_t *sums, size_t sums_length,
    const uint32_t *input_clocks, size_t input_clocks_length,
    const uint8_t *input_codes, size_t input_codes_length,
    uint32_t *output_clocks, size_t output_clocks_length,
    uint32_t *output_words, size_t output_words_length,
    uint32_t halt);

r6501q_load_result r6501q_load_with_sums(const uint8_t *tape, size_t tape_length,
    uint8_t *memory, size_t memory_length,
    uint16_t *sums, size_t sums_length);

/* The total of 256 page sums. Where all are right it is the sum of all 65,536 bytes of the memory modulo 65,536, in
 * whatever order the pages stand.
 *
 * Back: 0              total is the sum of the 256 entries modulo 65,536
 *       13             the page list is not of 256 sums; total 0
 */
r6501q_total_result r6501q_total(const uint16_t *sums, size_t sums_length);

/* The smallest latch value for counter A that makes a wanted bit rate of asynchronous frames (document 02, U2 and U9;
 * in shift-register mode a sender takes an eighth of the ticks for a bit, and a receiver none).
 *
 * In:   clock_rate   clocks a second, 1 to R6501Q_HIGHEST_RATE
 *       bit_rate     bits a second, 1 to R6501Q_HIGHEST_RATE
 *       tolerance    thousandths of the bit rate that the rate made may differ by, 0 to R6501Q_HIGHEST_TOLERANCE
 *
 * Back: 0, found 1   value N is the smallest that fits: |clock_rate - 16 * bit_rate * (N + 1)| * 1000 is at most
 *                    tolerance * 16 * bit_rate * (N + 1), in exact arithmetic
 *       0, found 0   no value of 0 to 65,535 fits
 *       11           a rate is 0, or a figure is above its limit; found and value are 0
 */
r6501q_latch_result r6501q_latch(uint32_t clock_rate, uint32_t bit_rate, uint32_t tolerance);

/* The layout that the library was built with, on x86-64 Linux. */
#if defined(__cplusplus) && __cplusplus >= 201103L
#define R6501Q_ASSERT(name, holds) static_assert(holds, #name)
#elif defined(__STDC_VERSION__) && __STDC_VERSION__ >= 201112L
#define R6501Q_ASSERT(name, holds) _Static_assert(holds, #name)
#else
#define R6501Q_ASSERT(name, holds) typedef char r6501q_assert_##name[(holds) ? 1 : -1]
#endif
#define R6501Q_SIZE(type, bytes) R6501Q_ASSERT(size_of_##type, sizeof(r6501q_##type) == (bytes))
#define R6501Q_AT(type, field, bytes) R6501Q_ASSERT(type##_##field, offsetof(r6501q_##type, field) == (bytes))

R6501Q_ASSERT(size_of_a_length, sizeof(size_t) == 8);
R6501Q_ASSERT(size_of_a_pointer, sizeof(void *) == 8);

R6501Q_SIZE(waiting, 6);
R6501Q_AT(waiting, there, 0);
R6501Q_AT(waiting, address, 2);
R6501Q_AT(waiting, value, 4);

R6501Q_SIZE(cpu, 16);
R6501Q_AT(cpu, a, 0);
R6501Q_AT(cpu, x, 1);
R6501Q_AT(cpu, y, 2);
R6501Q_AT(cpu, sp, 3);
R6501Q_AT(cpu, p, 4);
R6501Q_AT(cpu, pc, 6);
R6501Q_AT(cpu, wait, 8);
R6501Q_AT(cpu, waiting, 10);

R6501Q_SIZE(due, 2);
R6501Q_AT(due, reset, 0);
R6501Q_AT(due, nmi, 1);

R6501Q_SIZE(ports, 4);
R6501Q_AT(ports, a, 0);
R6501Q_AT(ports, b, 1);
R6501Q_AT(ports, c, 2);
R6501Q_AT(ports, d, 3);

R6501Q_SIZE(counter_a, 4);
R6501Q_AT(counter_a, count, 0);
R6501Q_AT(counter_a, latch, 2);

R6501Q_SIZE(counter_b, 8);
R6501Q_AT(counter_b, count, 0);
R6501Q_AT(counter_b, latchb, 2);
R6501Q_AT(counter_b, latchc, 4);
R6501Q_AT(counter_b, turnc, 6);

R6501Q_SIZE(control, 5);
R6501Q_AT(control, ifr, 0);
R6501Q_AT(control, ier, 1);
R6501Q_AT(control, mcr, 2);
R6501Q_AT(control, sccr, 3);
R6501Q_AT(control, scsr, 4);

R6501Q_SIZE(serial_data, 2);
R6501Q_AT(serial_data, sent, 0);
R6501Q_AT(serial_data, received, 1);

R6501Q_SIZE(transmitter, 4);
R6501Q_AT(transmitter, left, 0);
R6501Q_AT(transmitter, phase, 1);
R6501Q_AT(transmitter, register_, 2);

R6501Q_SIZE(receiver, 6);
R6501Q_AT(receiver, subinterval, 0);
R6501Q_AT(receiver, half, 1);
R6501Q_AT(receiver, left, 2);
R6501Q_AT(receiver, register_, 4);

R6501Q_SIZE(peripherals, 34);
R6501Q_AT(peripherals, ports, 0);
R6501Q_AT(peripherals, countera, 4);
R6501Q_AT(peripherals, counterb, 8);
R6501Q_AT(peripherals, control, 16);
R6501Q_AT(peripherals, serial, 21);
R6501Q_AT(peripherals, transmitter, 24);
R6501Q_AT(peripherals, receiver, 28);

R6501Q_SIZE(levels, 8);
R6501Q_AT(levels, ports, 0);
R6501Q_AT(levels, nmi, 4);
R6501Q_AT(levels, res, 5);

R6501Q_SIZE(state, 72);
R6501Q_AT(state, cpu, 0);
R6501Q_AT(state, due, 16);
R6501Q_AT(state, peripherals, 18);
R6501Q_AT(state, external, 52);
R6501Q_AT(state, last, 60);
R6501Q_AT(state, clock, 68);

R6501Q_SIZE(call_result, 96);
R6501Q_AT(call_result, number, 0);
R6501Q_AT(call_result, state, 4);
R6501Q_AT(call_result, leaps, 76);
R6501Q_AT(call_result, read, 80);
R6501Q_AT(call_result, written, 88);

R6501Q_SIZE(load_result, 16);
R6501Q_AT(load_result, number, 0);
R6501Q_AT(load_result, place, 8);

R6501Q_SIZE(latch_result, 4);
R6501Q_AT(latch_result, number, 0);
R6501Q_AT(latch_result, found, 1);
R6501Q_AT(latch_result, value, 2);

R6501Q_SIZE(total_result, 4);
R6501Q_AT(total_result, number, 0);
R6501Q_AT(total_result, total, 2);

#undef R6501Q_AT
#undef R6501Q_SIZE
#undef R6501Q_ASSERT

#ifdef __cplusplus
}
#endif

#endif
