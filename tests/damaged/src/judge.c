#define _DEFAULT_SOURCE
#include "judge.h"
#include "lent.h"
#include "make.h"
#include "random.h"
#include "rules.h"

#include <signal.h>
#include <stdarg.h>
#include <stdio.h>
#include <stdlib.h>
#include <string.h>
#include <sys/mman.h>
#include <unistd.h>

enum {
    MEMORY = 65536,
    MOST_MEMORY = 3 * 65536,
    PAGES = 256,
    MOST_SUMS = 1000,
    MOST_INPUTS = 100000,
    MOST_RECORDS = 100000,
    MOST_CLOCKS = 60000
};

static library lib;
static uint64_t seed;
static unsigned patience;
static unsigned long calls_made;

/* What is lent, and the place of what is handed back. Of a call lacking sums they are open with no entry. */
static lent memory, sums, input_clocks, input_codes, output_clocks, output_words, tape, result_place;

/* Whether the call at hand is one with page sums. */
static int with_sums;

/* The state and the memory that the last accepted call left. */
static r6501q_state kept_state;
static uint8_t kept_memory[MEMORY];

static void fault(const char *what, ...)
{
    va_list values;
    printf("seed %llu, call %lu: ", (unsigned long long)seed, calls_made);
    va_start(values, what);
    vprintf(what, values);
    va_end(values);
    printf("\n");
    exit(1);
}

#define DEMAND(holds, ...) \
    do { \
        if (!(holds)) \
            fault(__VA_ARGS__); \
    } while (0)

static void trapped(int signal, siginfo_t *information, void *context)
{
    static char text[200];
    const lent *l = lent_at(information->si_addr);
    int length;
    (void)context;
    if (signal == SIGALRM)
        length = snprintf(text, sizeof text, "seed %llu, call %lu: not back after %u seconds\n",
            (unsigned long long)seed, calls_made, patience);
    else if (l != NULL)
        length = snprintf(text, sizeof text, "seed %llu, call %lu: touched %s at byte %ld of %lu\n",
            (unsigned long long)seed, calls_made, l->name, (long)((uint8_t *)information->si_addr - l->data),
            (unsigned long)l->length);
    else
        length = snprintf(text, sizeof text, "seed %llu, call %lu: touched %p\n", (unsigned long long)seed, calls_made,
            information->si_addr);
    if (write(STDOUT_FILENO, text, (size_t)length) < 0)
        _exit(3);
    _exit(1);
}

void judge_begin(library calls, uint64_t from, unsigned seconds)
{
    struct sigaction action;
    lib = calls;
    seed = from;
    patience = seconds;
    random_seed(from);
    lent_make(&memory, "memory", MOST_MEMORY);
    lent_make(&sums, "sums", 2 * MOST_SUMS);
    lent_make(&input_clocks, "input clocks", 4 * MOST_INPUTS);
    lent_make(&input_codes, "input codes", MOST_INPUTS);
    lent_make(&output_clocks, "output clocks", 4 * MOST_RECORDS);
    lent_make(&output_words, "output words", 4 * MOST_RECORDS);
    lent_make(&tape, "tape", MOST_TAPE);
    lent_make(&result_place, "the place of what is handed back", sizeof(r6501q_call_result));
    kept_state = fresh_state();
    memset(&action, 0, sizeof action);
    action.sa_sigaction = trapped;
    action.sa_flags = SA_SIGINFO;
    sigaction(SIGSEGV, &action, NULL);
    sigaction(SIGBUS, &action, NULL);
    sigaction(SIGALRM, &action, NULL);
}

/* Before each call of the library, and after it. */
static void before_call(tally *t)
{
    calls_made++;
    t->calls++;
    alarm(patience);
}

static void after_call(void)
{
    alarm(0);
}

/* A pointer to lend: of an empty list now and then none. */
static void *pointer_of(const lent *l)
{
    return l->length == 0 && chance(30) ? NULL : l->data;
}

static int unchanged(const lent *l)
{
    return memcmp(l->data, l->before, l->length) == 0;
}

static r6501q_state random_state(void)
{
    switch (below(10)) {
    case 0:
        return any_state();
    case 1:
        return damaged_state();
    case 2:
        return fresh_state();
    case 3:
    case 4:
        return kept_state;
    default:
        return good_state();
    }
}

static void open_memory(void)
{
    static const size_t wrong[] = {0, 1, 64, 256, 65535, 65537, 65536 + 4096, 2 * 65536, 3 * 65536};
    size_t length = MEMORY;
    if (chance(5))
        length = chance(20) ? below(MOST_MEMORY) : wrong[below(sizeof wrong / sizeof *wrong)];
    lent_open(&memory, length, chance(50));
    if (length == MEMORY && chance(75))
        memcpy(memory.data, kept_memory, MEMORY);
    else
        make_memory(memory.data, length);
}

/* Page sums for the open memory, or none for a call lacking them: right ones, or any. */
static void open_sums(void)
{
    static const size_t wrong[] = {0, 0, 1, 255, 255, 257, 257, 512};
    uint16_t *entries;
    size_t length = PAGES, i;
    with_sums = chance(50);
    if (!with_sums)
        length = 0;
    else if (chance(8))
        length = chance(20) ? below(MOST_SUMS) : wrong[below(sizeof wrong / sizeof *wrong)];
    lent_open(&sums, 2 * length, chance(50));
    entries = (uint16_t *)sums.data;
    random_bytes(entries, sums.length);
    if (chance(30)) /* near both ends of the range */
        for (i = 0; i < length; i++)
            entries[i] = (uint16_t)(below(8) - 4);
    if (length == PAGES && memory.length == MEMORY && chance(40))
        right_sums(entries, memory.data);
}

/* A length that is another one in a few cases. */
static size_t other_length(size_t length, size_t most)
{
    if (!chance(3))
        return length;
    if (chance(50))
        return random_length(most);
    return length > 0 && chance(50) ? length - 1 : length < most ? length + 1 : length;
}

static void open_inputs(uint32_t clock)
{
    const size_t length = random_length(chance(1) ? MOST_INPUTS : 2000);
    const size_t input_codes_length = other_length(length, 2000);
    const size_t both = length < input_codes_length ? length : input_codes_length;
    lent_open(&input_clocks, 4 * length, chance(50));
    lent_open(&input_codes, input_codes_length, chance(50));
    random_bytes(input_clocks.data, input_clocks.length);
    random_bytes(input_codes.data, input_codes.length);
    if (chance(5))
        return;
    good_inputs((uint32_t *)input_clocks.data, input_codes.data, both, clock);
    if (both > 0 && chance(10))
        damage_inputs((uint32_t *)input_clocks.data, input_codes.data, both);
}

static void open_outputs(void)
{
    const size_t length = random_length(chance(1) ? MOST_RECORDS : 3000);
    lent_open(&output_clocks, 4 * length, chance(50));
    lent_open(&output_words, 4 * other_length(length, 3000), chance(50));
    random_bytes(output_clocks.data, output_clocks.length);
    random_bytes(output_words.data, output_words.length);
}

static uint32_t random_count(void)
{
    switch (below(14)) {
    case 0:
        return 0;
    case 1:
        return 1;
    case 2:
        return (uint32_t)random_word();
    case 3:
        return (uint32_t)below(MOST_CLOCKS) / 8;
    case 4:
        return UINT32_MAX - (uint32_t)below(3);
    case 5:
    case 6: /* about as many as an instruction has */
        return 1 + (uint32_t)below(7);
    default:
        return (uint32_t)below(300);
    }
}

/* A halt address near what firmware writes: that of a byte waiting, the stack, the registers, page zero, anywhere; or
 * none, with such an address in its lower half. */
static uint32_t random_halt(const r6501q_state *s)
{
    uint32_t address;
    if (s->cpu.waiting.there == 1 && chance(25))
        return s->cpu.waiting.address;
    switch (below(8)) {
    case 0:
    case 1:
    case 2:
        address = (uint8_t)(s->cpu.sp - below(6));
        break;
    case 3:
    case 4:
        address = (uint32_t)below(0x40);
        break;
    case 5:
        address = (uint32_t)below(0x100);
        break;
    case 6:
        address = chance(50) ? 0x0000 : 0xFFFF;
        break;
    default:
        address = (uint32_t)below(65536);
    }
    if (chance(20))
        return R6501Q_NO_HALT;
    return chance(20) ? address + 65536 * (1 + (uint32_t)below(65535)) : address;
}

/* A count that lets an accepted call end soon, whatever the firmware. */
static void reduce_count(given *g)
{
    if (refusal(g) == 0 && g->n > MOST_CLOCKS)
        g->n %= 1 + MOST_CLOCKS / (1 + (uint32_t)below(100));
}

/* Lends each list for the use that the rules leave it; in half of the refused calls memory and output space may be
 * written, so that a change would show. */
static void lend_all(const given *g, int expected)
{
    const int idle = expected != 0 || g->n == 0;
    const int strict = chance(50);
    const enum use inputs = expected != 0 && expected != 5 && strict ? UNTOUCHED : READ;
    const enum use rest = idle && strict ? UNTOUCHED : WRITTEN;
    lent_lend(&memory, rest);
    lent_lend(&sums, rest);
    lent_lend(&input_clocks, inputs);
    lent_lend(&input_codes, inputs);
    lent_lend(&output_clocks, rest);
    lent_lend(&output_words, rest);
    if (rest == WRITTEN) {
        /* "Its bytes at 0 to 3Fh, the registers, are never touched." */
        if (memory.length >= 0x40)
            lent_bar(&memory, 0, 0x40);
        lent_blank(&output_clocks);
        lent_blank(&output_words);
    }
    lent_open(&result_place, sizeof(r6501q_call_result), chance(50));
    random_bytes(result_place.data, result_place.length);
    lent_lend(&result_place, WRITTEN);
}

static void return_all(void)
{
    lent *const all[] = {&memory, &sums, &input_clocks, &input_codes, &output_clocks, &output_words, &result_place};
    size_t i;
    for (i = 0; i < sizeof all / sizeof *all; i++)
        DEMAND(lent_return(all[i]), "guard bytes of %s changed", all[i]->name);
    DEMAND(unchanged(&input_clocks), "input clocks changed");
    DEMAND(unchanged(&input_codes), "input codes changed");
}

static void close_all(void)
{
    lent *const all[] = {&memory, &sums, &input_clocks, &input_codes, &output_clocks, &output_words, &result_place};
    size_t i;
    for (i = 0; i < sizeof all / sizeof *all; i++)
        lent_close(all[i]);
}

static r6501q_call_result call_lent(tally *t, const given *g, int single)
{
    r6501q_call_result *const place = (r6501q_call_result *)result_place.data;
    r6501q_call_result *back;
    before_call(t);
    if (single && g->with_sums)
        back = lib.step_with_sums(place, g->state, pointer_of(&memory), g->memory_length, pointer_of(&sums),
            g->sums_length, pointer_of(&input_clocks), g->input_clocks_length, pointer_of(&input_codes),
            g->input_codes_length, pointer_of(&output_clocks), g->output_clocks_length, pointer_of(&output_words),
            g->output_words_length, g->halt);
    else if (g->with_sums)
        back = lib.run_with_sums(place, g->state, pointer_of(&memory), g->memory_length, pointer_of(&sums),
            g->sums_length, pointer_of(&input_clocks), g->input_clocks_length, pointer_of(&input_codes),
            g->input_codes_length, pointer_of(&output_clocks), g->output_clocks_length, pointer_of(&output_words),
            g->output_words_length, g->n, g->halt);
    else if (single)
        back = lib.step(place, g->state, pointer_of(&memory), g->memory_length, pointer_of(&input_clocks),
            g->input_clocks_length, pointer_of(&input_codes), g->input_codes_length, pointer_of(&output_clocks),
            g->output_clocks_length, pointer_of(&output_words), g->output_words_length, g->halt);
    else
        back = lib.run(place, g->state, pointer_of(&memory), g->memory_length, pointer_of(&input_clocks),
            g->input_clocks_length, pointer_of(&input_codes), g->input_codes_length, pointer_of(&output_clocks),
            g->output_clocks_length, pointer_of(&output_words), g->output_words_length, g->n, g->halt);
    after_call();
    DEMAND(back == place, "what is handed back is elsewhere");
    return *place;
}

/* Document 01: "1 to 5 give back the state given, everything unchanged", "with nothing read or counted". Document 02,
 * U7: 13, "like 1". */
static void judge_refused(const given *g, const r6501q_call_result *result)
{
    DEMAND(same_state(&result->state, &g->state), "refused with %d, and the state is another", result->number);
    DEMAND(result->leaps == 0 && result->read == 0 && result->written == 0, "refused with %d, and counted",
        result->number);
    DEMAND(unchanged(&memory), "refused with %d, and memory changed", result->number);
    DEMAND(unchanged(&sums), "refused with %d, and sums changed", result->number);
    DEMAND(unchanged(&output_clocks) && unchanged(&output_words), "refused with %d, and output space changed",
        result->number);
}

/* The records: clocks rise within the clocks done, each word differs from the one before, the last is the state's. */
static void judge_records(const given *g, const r6501q_call_result *result)
{
    const uint32_t *const at = (const uint32_t *)output_clocks.data;
    const uint32_t *const word = (const uint32_t *)output_words.data;
    uint32_t last_clock = g->state.clock;
    uint32_t last_word = driven_word(&g->state);
    size_t i;
    DEMAND(result->written <= g->output_words_length, "%zu records in space for %zu", result->written,
        g->output_words_length);
    for (i = 0; i < result->written; i++) {
        DEMAND(at[i] > last_clock, "record %zu: clocks do not rise", i);
        DEMAND(at[i] <= result->state.clock, "record %zu is past the last clock done", i);
        DEMAND(word[i] != last_word, "record %zu: the word does not differ", i);
        last_clock = at[i];
        last_word = word[i];
    }
    DEMAND(last_word == driven_word(&result->state), "the last word is not the state's");
    DEMAND(memcmp(output_clocks.data + 4 * i, output_clocks.before + 4 * i, output_clocks.length - 4 * i) == 0,
        "an unused output clock changed");
    DEMAND(memcmp(output_words.data + 4 * i, output_words.before + 4 * i, output_words.length - 4 * i) == 0,
        "an unused output word changed");
}

/* What is known of a state some clocks on, whatever the firmware. */
static void judge_state(const given *g, const r6501q_call_result *result)
{
    const r6501q_state *const s = &result->state;
    const r6501q_levels external = levels_after(g, result->read);
    const uint32_t done = s->clock - g->state.clock;
    DEMAND(well_formed(s), "the state is not well-formed");
    DEMAND(lib.well_formed(*s) == 1, "the library finds its own state not well-formed");
    DEMAND(s->clock >= g->state.clock && done <= g->n, "%u clocks done of %u", done, g->n);
    if (result->number == 12)
        DEMAND(done > 0, "halted, and no clock is done");
    else
        DEMAND((result->number == 0) == (done == g->n), "number %d and %u clocks done of %u", result->number, done,
            g->n);
    DEMAND(result->read == entries_up_to(g, s->clock), "%zu inputs read up to clock %u", result->read, s->clock);
    DEMAND(s->external.ports == external.ports && s->external.nmi == external.nmi && s->external.res == external.res,
        "the external levels are not as the inputs set them");
    DEMAND(result->leaps <= done && (result->leaps == 0) == (done == 0), "%u leaps in %u clocks", result->leaps, done);
    if (done == 0) {
        DEMAND(same_state(s, &g->state), "no clock done, and the state is another");
        return;
    }
    DEMAND((s->last.ports & ~s->external.ports) == 0, "a last level is high on a pin that is held low");
    DEMAND(s->last.nmi == s->external.nmi && s->last.res == s->external.res, "last levels of NMI and RES");
    DEMAND(
        s->last.res == 1 || (s->cpu.wait == 0 && s->due.reset == 1 && s->due.nmi == 0), "RES low, and no reset is due");
    DEMAND(s->last.res == 1 || s->cpu.waiting.there == 0, "RES low, and a byte is waiting");
}

/* Document 02, U6: a byte that was given waiting, RES being high all along. Up to its last clock it waits, nothing is
 * written and nothing halts; its last clock puts it, and halts where it is for the halt address. */
static void judge_waiting(const given *g, const r6501q_call_result *result)
{
    static uint8_t expected[MEMORY];
    const r6501q_cpu *const c = &g->state.cpu;
    const r6501q_cpu *const d = &result->state.cpu;
    const r6501q_waiting *const w = &c->waiting;
    const uint32_t done = result->state.clock - g->state.clock;
    if (w->there == 0 || !res_stays_high(g, result->read))
        return;
    DEMAND(done <= c->wait || g->halt != w->address, "no halt where a byte was put");
    if (done > c->wait)
        return;
    memcpy(expected, memory.before, MEMORY);
    if (done < c->wait) {
        DEMAND(d->waiting.there == 1 && d->waiting.address == w->address && d->waiting.value == w->value,
            "the byte waiting is another, or gone");
        DEMAND(result->number != 12, "halted before the byte was put");
    } else {
        DEMAND(d->waiting.there == 0, "a byte waits on");
        DEMAND((result->number == 12) == (g->halt == w->address), "number %d at a put", result->number);
        if (w->address >= 0x40)
            expected[w->address] = w->value;
    }
    DEMAND(d->wait == c->wait - done, "wait %u after %u clocks", d->wait, done);
    DEMAND(memcmp(memory.data, expected, MEMORY) == 0, "another memory %u clocks on from wait %u", done, c->wait);
}

/* Whether the next clock puts a byte: wait is 1, a byte waits, and RES is high on that clock. */
static int puts_next(const given *g, const r6501q_call_result *result)
{
    const r6501q_state *const s = &result->state;
    const r6501q_levels next = levels_after(g, entries_up_to(g, s->clock + 1));
    return s->cpu.wait == 1 && s->cpu.waiting.there == 1 && next.res == 1;
}

/* The single clock behind a halt. Behind a push it is one of its instruction or entry, which writes no more. Behind the
 * put of a byte it starts something: an undefined opcode stops it, and a push may halt again. */
static void judge_behind_halt(const r6501q_call_result *result, const r6501q_call_result *again)
{
    const r6501q_state *const s = &result->state;
    if (again->number == 4) {
        DEMAND(s->clock == UINT32_MAX, "4 behind a halt");
    } else if (again->number == 6) {
        DEMAND(s->cpu.wait == 0 && same_state(&again->state, s), "6 behind a halt");
    } else {
        DEMAND(again->number == 0 || (again->number == 12 && s->cpu.wait == 0 && again->state.cpu.wait > 0),
            "12, and then %d", again->number);
        DEMAND(again->state.clock == s->clock + 1, "12, and the next clock is not done");
    }
}

/* A single clock from where a call stopped, with one entry where space was missing: after 6 it stops again and nothing
 * is done; after 7 it is done, puts a byte that waits for it, and may be the clock of a halt. */
static void judge_stop(tally *t, const given *g, const r6501q_call_result *result)
{
    static uint8_t copy[MEMORY];
    uint32_t time = 0, word = 0;
    const size_t r = result->read, left = g->input_clocks_length - result->read;
    const int space = result->number != 6;
    r6501q_call_result again;
    if (result->number == 6) {
        const uint16_t pc = result->state.cpu.pc;
        DEMAND(result->state.cpu.wait == 0 && result->state.due.reset == 0 && result->state.due.nmi == 0,
            "6 where nothing starts");
        DEMAND(pc < 0x40 || !is_defined(memory.data[pc]), "6 at a defined opcode");
    } else if (result->number == 12) {
        /* Pushes come with a start, and a put leaves wait 0; neither leaves a byte waiting. */
        DEMAND(g->halt <= 0xFFFF, "12 with no halt address");
        DEMAND(result->state.last.res == 1 && result->state.cpu.waiting.there == 0, "12 where nothing is written");
    } else {
        DEMAND(result->written == g->output_words_length, "7 with space left");
    }
    memcpy(copy, memory.data, MEMORY);
    before_call(t);
    lib.step(&again, result->state, copy, MEMORY, (const uint32_t *)input_clocks.data + r, left, input_codes.data + r,
        left, &time, space, &word, space, g->halt);
    after_call();
    if (result->number == 6) {
        DEMAND(again.number == 6 && same_state(&again.state, &result->state), "6, and then not 6");
        DEMAND(memcmp(copy, memory.data, MEMORY) == 0, "a stopped clock changed memory");
    } else if (result->number == 12) {
        judge_behind_halt(result, &again);
    } else {
        DEMAND((again.number == 0 || again.number == 12) && again.written == 1,
            "7, and no record is written where there is space");
        DEMAND(time == result->state.clock + 1 && word == driven_word(&again.state), "the record that had no space");
        if (puts_next(g, result)) {
            const r6501q_waiting w = result->state.cpu.waiting;
            DEMAND(again.state.cpu.wait == 0 && again.state.cpu.waiting.there == 0, "7, and then a byte waits on");
            DEMAND(w.address < 0x40 || copy[w.address] == w.value, "7, and then a byte is not put");
            DEMAND((again.number == 12) == (g->halt == w.address), "7, and then %d at a put", again.number);
        }
    }
}

/* Whether a single clock that ends with this number is done. */
static uint32_t clock_done(int number)
{
    return number == 0 || number == 12;
}

/* The same clocks, up to a halt, with no halt address, from copies: all is the same, but a halt is 0. */
static void judge_without_halt(tally *t, const given *g, const r6501q_call_result *result)
{
    static uint8_t copy[MEMORY];
    static uint32_t output_clocks_copy[MOST_RECORDS], output_words_copy[MOST_RECORDS];
    const int halted = result->number == 12;
    const uint32_t none = 65536 + (chance(50) ? g->halt : (uint32_t)below(UINT32_MAX - 65536));
    r6501q_call_result whole;
    memcpy(copy, memory.before, MEMORY);
    memcpy(output_clocks_copy, output_clocks.before, output_clocks.length);
    memcpy(output_words_copy, output_words.before, output_words.length);
    before_call(t);
    lib.run(&whole, g->state, copy, MEMORY, g->input_clocks, g->input_clocks_length, g->input_codes,
        g->input_codes_length, output_clocks_copy, g->output_clocks_length, output_words_copy, g->output_words_length,
        halted ? result->state.clock - g->state.clock : g->n, none);
    after_call();
    DEMAND(whole.number == (halted ? 0 : result->number), "without the halt: number %d", whole.number);
    DEMAND(same_state(&whole.state, &result->state), "without the halt: another state");
    DEMAND(whole.leaps == result->leaps, "without the halt: %u leaps, not %u", whole.leaps, result->leaps);
    DEMAND(whole.read == result->read && whole.written == result->written, "without the halt: other counts");
    DEMAND(memcmp(copy, memory.data, MEMORY) == 0, "without the halt: another memory");
    DEMAND(memcmp(output_clocks_copy, output_clocks.data, output_clocks.length) == 0
            && memcmp(output_words_copy, output_words.data, output_words.length) == 0,
        "without the halt: other records");
}

/* Document 02, U7: each sum has changed, "right or wrong before, by exactly what its page's bytes change". */
static void judge_sums(void)
{
    uint16_t expected[PAGES];
    const uint16_t *const entries = (const uint16_t *)sums.data;
    size_t page;
    memcpy(expected, sums.before, sizeof expected);
    change_sums(expected, memory.before, memory.data);
    for (page = 0; page < PAGES; page++)
        DEMAND(entries[page] == expected[page], "sum of page %zu: %u, not %u", page, entries[page], expected[page]);
}

/* "Unless 13 refuses it, a run with sums moves the machine just as a run lacking them": the same call lacking them,
 * from copies. */
static void judge_lacking(tally *t, const given *g, const r6501q_call_result *result, int single)
{
    static uint8_t copy[MEMORY];
    static uint32_t output_clocks_copy[MOST_RECORDS], output_words_copy[MOST_RECORDS];
    r6501q_call_result plain;
    memcpy(copy, memory.before, MEMORY);
    memcpy(output_clocks_copy, output_clocks.before, output_clocks.length);
    memcpy(output_words_copy, output_words.before, output_words.length);
    before_call(t);
    if (single)
        lib.step(&plain, g->state, copy, MEMORY, g->input_clocks, g->input_clocks_length, g->input_codes,
            g->input_codes_length, output_clocks_copy, g->output_clocks_length, output_words_copy,
            g->output_words_length, g->halt);
    else
        lib.run(&plain, g->state, copy, MEMORY, g->input_clocks, g->input_clocks_length, g->input_codes,
            g->input_codes_length, output_clocks_copy, g->output_clocks_length, output_words_copy,
            g->output_words_length, g->n, g->halt);
    after_call();
    DEMAND(plain.number == result->number, "lacking sums: number %d, not %d", plain.number, result->number);
    DEMAND(same_state(&plain.state, &result->state), "lacking sums: another state");
    DEMAND(plain.leaps == result->leaps, "lacking sums: %u leaps, not %u", plain.leaps, result->leaps);
    DEMAND(plain.read == result->read && plain.written == result->written, "lacking sums: other counts");
    DEMAND(memcmp(copy, memory.data, MEMORY) == 0, "lacking sums: another memory");
    DEMAND(memcmp(output_clocks_copy, output_clocks.data, output_clocks.length) == 0
            && memcmp(output_words_copy, output_words.data, output_words.length) == 0,
        "lacking sums: other records");
}

/* The same clocks by calls of random lengths, from copies: all but the leaps must be the same. The parts of a call with
 * sums may lack them; else their changes add up. */
static void judge_cut(tally *t, const given *g, const r6501q_call_result *result)
{
    static uint8_t copy[MEMORY];
    static uint32_t output_clocks_copy[MOST_RECORDS], output_words_copy[MOST_RECORDS];
    uint16_t sums_copy[PAGES];
    const int summed = g->with_sums && chance(70);
    r6501q_call_result part;
    uint32_t left = g->n;
    size_t read = 0, written = 0;
    if (g->with_sums)
        memcpy(sums_copy, sums.before, sizeof sums_copy);
    memcpy(copy, memory.before, MEMORY);
    memcpy(output_clocks_copy, output_clocks.before, output_clocks.length);
    memcpy(output_words_copy, output_words.before, output_words.length);
    part.state = g->state;
    do {
        const int single = left > 0 && chance(70);
        const uint32_t n = single ? 1 : (uint32_t)below((uint64_t)left + 1);
        before_call(t);
        if (single && summed)
            lib.step_with_sums(&part, part.state, copy, MEMORY, sums_copy, PAGES, g->input_clocks + read,
                g->input_clocks_length - read, g->input_codes + read, g->input_codes_length - read,
                output_clocks_copy + written, g->output_clocks_length - written, output_words_copy + written,
                g->output_words_length - written, g->halt);
        else if (summed)
            lib.run_with_sums(&part, part.state, copy, MEMORY, sums_copy, PAGES, g->input_clocks + read,
                g->input_clocks_length - read, g->input_codes + read, g->input_codes_length - read,
                output_clocks_copy + written, g->output_clocks_length - written, output_words_copy + written,
                g->output_words_length - written, n, g->halt);
        else if (single)
            lib.step(&part, part.state, copy, MEMORY, g->input_clocks + read, g->input_clocks_length - read,
                g->input_codes + read, g->input_codes_length - read, output_clocks_copy + written,
                g->output_clocks_length - written, output_words_copy + written, g->output_words_length - written,
                g->halt);
        else
            lib.run(&part, part.state, copy, MEMORY, g->input_clocks + read, g->input_clocks_length - read,
                g->input_codes + read, g->input_codes_length - read, output_clocks_copy + written,
                g->output_clocks_length - written, output_words_copy + written, g->output_words_length - written, n,
                g->halt);
        after_call();
        DEMAND(!single || part.leaps == clock_done(part.number), "%u leaps in a single clock", part.leaps);
        read += part.read;
        written += part.written;
        left -= n;
    } while (left > 0 && part.number == 0);
    DEMAND(part.number == result->number, "cut into calls: number %d, not %d", part.number, result->number);
    DEMAND(same_state(&part.state, &result->state), "cut into calls: another state");
    DEMAND(read == result->read && written == result->written, "cut into calls: other counts");
    DEMAND(memcmp(copy, memory.data, MEMORY) == 0, "cut into calls: another memory");
    DEMAND(memcmp(output_clocks_copy, output_clocks.data, output_clocks.length) == 0,
        "cut into calls: other output clocks");
    DEMAND(
        memcmp(output_words_copy, output_words.data, output_words.length) == 0, "cut into calls: other output words");
    DEMAND(!summed || memcmp(sums_copy, sums.data, sizeof sums_copy) == 0, "cut into calls: other sums");
}

static void judge_accepted(tally *t, const given *g, const r6501q_call_result *result, int single)
{
    DEMAND(result->number == 0 || result->number == 6 || result->number == 7 || result->number == 12,
        "number %d of an accepted call", result->number);
    judge_state(g, result);
    judge_waiting(g, result);
    judge_records(g, result);
    DEMAND(memcmp(memory.data, memory.before, 0x40) == 0, "memory below 40h changed");
    if (g->with_sums)
        judge_sums();
    DEMAND(!single || result->leaps == clock_done(result->number), "%u leaps in a single clock", result->leaps);
    if (result->number != 0)
        judge_stop(t, g, result);
    if (result->number != 12 && g->halt >= 0x40 && g->halt <= 0xFFFF)
        DEMAND(memory.data[g->halt] == memory.before[g->halt], "the byte at the halt address changed without a halt");
    if (g->halt <= 0xFFFF && result->state.clock - g->state.clock <= 300 && g->n <= MOST_CLOCKS && chance(30))
        judge_without_halt(t, g, result);
    if (g->with_sums && g->n <= 300 && chance(30))
        judge_lacking(t, g, result, single);
    if (g->n <= 300 && chance(10))
        judge_cut(t, g, result);
    kept_state = result->state;
    memcpy(kept_memory, memory.data, MEMORY);
}

/* Lends what is open, calls, and judges. */
static r6501q_call_result judge_call(tally *t, const given *g, int single)
{
    const int expected = refusal(g);
    r6501q_call_result result;
    lend_all(g, expected);
    result = call_lent(t, g, single);
    return_all();
    DEMAND(result.number <= 13, "number %d", result.number);
    t->numbers[result.number]++;
    if (expected != 0) {
        DEMAND(result.number == expected, "number %d, not %d", result.number, expected);
        judge_refused(g, &result);
    } else {
        judge_accepted(t, g, &result, single);
    }
    return result;
}

/* The open lists as they are given. */
static given given_lists(r6501q_state state, uint32_t n)
{
    given g;
    g.state = state;
    g.memory_length = memory.length;
    g.input_clocks = (const uint32_t *)input_clocks.data;
    g.input_clocks_length = input_clocks.length / 4;
    g.input_codes = input_codes.data;
    g.input_codes_length = input_codes.length;
    g.output_clocks_length = output_clocks.length / 4;
    g.output_words_length = output_words.length / 4;
    g.n = n;
    g.halt = random_halt(&state);
    g.with_sums = with_sums;
    g.sums_length = sums.length / 2;
    return g;
}

void judge_run(tally *t)
{
    const int single = chance(15);
    const r6501q_state state = random_state();
    given g;
    open_memory();
    open_sums();
    open_inputs(state.clock);
    open_outputs();
    g = given_lists(state, single ? 1 : random_count());
    reduce_count(&g);
    judge_call(t, &g, single);
    close_all();
}

/* Addresses for lists of 4,294,967,296 entries and some more; a touch traps. */
static uint8_t *reserved(void)
{
    static uint8_t *addresses;
    if (addresses == NULL) {
        addresses = mmap(
            NULL, ((size_t)1 << 34) + 65536 + 4096, PROT_NONE, MAP_PRIVATE | MAP_ANONYMOUS | MAP_NORESERVE, -1, 0);
        DEMAND(addresses != MAP_FAILED, "no addresses for overlong lists");
    }
    return addresses;
}

void judge_overlong(tally *t)
{
    const size_t beyond = (size_t)1 << 32;
    uint8_t *const here = reserved();
    uint32_t *const list = (uint32_t *)(void *)here;
    const size_t k = below(5);
    const uint32_t n = (uint32_t)below(300);
    r6501q_state state = good_state();
    given g;
    r6501q_call_result result;
    memset(&g, 0, sizeof g);
    g.n = n;
    g.halt = random_halt(&state);
    g.memory_length = MEMORY;
    g.with_sums = chance(40);
    g.sums_length = PAGES;
    switch (below(7)) {
    case 0:
        g.memory_length = beyond + MEMORY;
        break;
    case 6:
        g.with_sums = 1;
        g.sums_length = beyond + PAGES;
        break;
    case 1:
        g.input_clocks_length = beyond + k;
        g.input_codes_length = k;
        break;
    case 2:
        g.input_clocks_length = k;
        g.input_codes_length = beyond + k;
        break;
    case 3:
        g.output_clocks_length = beyond + k;
        g.output_words_length = k;
        break;
    case 4:
        g.output_clocks_length = k;
        g.output_words_length = beyond + k;
        break;
    default:
        g.input_clocks_length = g.input_codes_length = g.output_clocks_length = g.output_words_length = beyond + k;
        g.n = UINT32_MAX;
        state.clock |= 1;
    }
    g.state = state;
    before_call(t);
    if (g.with_sums)
        lib.run_with_sums(&result, state, here, g.memory_length, (uint16_t *)(void *)here, g.sums_length, list,
            g.input_clocks_length, here, g.input_codes_length, list, g.output_clocks_length, list,
            g.output_words_length, g.n, g.halt);
    else
        lib.run(&result, state, here, g.memory_length, list, g.input_clocks_length, here, g.input_codes_length, list,
            g.output_clocks_length, list, g.output_words_length, g.n, g.halt);
    after_call();
    DEMAND(result.number == refusal(&g), "overlong: number %d, not %d", result.number, refusal(&g));
    DEMAND(same_state(&result.state, &state), "overlong: another state");
    DEMAND(result.leaps == 0 && result.read == 0 && result.written == 0, "overlong: counted");
    t->numbers[result.number]++;
}

/* No inputs, space for so many records, and as many clocks as there are, or a few less. */
static given open_long(r6501q_state state, size_t records)
{
    const uint32_t most = UINT32_MAX - state.clock;
    const uint32_t less = (uint32_t)below(3);
    lent_open(&memory, MEMORY, chance(50));
    with_sums = chance(50);
    lent_open(&sums, with_sums ? 2 * PAGES : 0, 1);
    random_bytes(sums.data, sums.length);
    lent_open(&input_clocks, 0, 1);
    lent_open(&input_codes, 0, 1);
    lent_open(&output_clocks, 4 * records, 1);
    lent_open(&output_words, 4 * records, 1);
    return given_lists(state, most > less ? most - less : most);
}

void judge_long(tally *t)
{
    r6501q_state state = good_state();
    r6501q_peripherals *const p = &state.peripherals;
    r6501q_call_result result;
    given g;
    state.external.res = 0;
    state.last.res = 0;
    if (chance(50))
        state.clock = (uint32_t)below(10);
    p->countera.latch |= 0x8000;
    p->counterb.latchb |= 0x8000;
    g = open_long(state, 1);
    make_memory(memory.data, MEMORY);
    result = judge_call(t, &g, 0);
    /* A drive that RES low changes is one record; from then on only the counters move, in interval mode. */
    DEMAND(result.number == 0, "RES low: number %d", result.number);
    DEMAND(unchanged(&memory), "RES low, and memory changed");
    DEMAND(result.state.peripherals.countera.count == counted(p->countera.count, p->countera.latch, g.n),
        "RES low: counter A");
    DEMAND(result.state.peripherals.counterb.count == counted(p->counterb.count, p->counterb.latchb, g.n),
        "RES low: counter B");
    close_all();
}

void judge_early_stop(tally *t)
{
    r6501q_state state = good_state();
    r6501q_call_result result;
    given g;
    state.external.res = 1;
    state.cpu.pc |= 0x0200; /* not among the registers, which may hold any opcode */
    state.cpu.waiting.address %= 4; /* a port, where a byte waits: not among the opcodes or vectors */
    state.clock = (uint32_t)below(UINT32_MAX / 2);
    if (chance(50)) {
        /* Counter A in pulse mode: an underflow changes the driven word. */
        state.peripherals.control.mcr = 0x01;
        state.peripherals.control.sccr = 0;
        state.peripherals.countera.count = 0;
    }
    g = open_long(state, below(2));
    memset(memory.data, 0x02, MEMORY);
    result = judge_call(t, &g, 0);
    /* What is left of an instruction, then at most an entry for each cause. */
    DEMAND(result.number == 6 || result.number == 7 || result.number == 12, "early stop: number %d", result.number);
    DEMAND(
        result.state.clock - state.clock <= 6 + 3 * 7, "early stop after %u clocks", result.state.clock - state.clock);
    close_all();
}

/* Lends the open tape, memory and sums, calls, and judges: number, place, the whole memory and the sums. */
static void judge_tape(tally *t)
{
    static uint8_t expected_memory[MOST_MEMORY];
    r6501q_load_result expected, loaded;
    enum use rest;
    memcpy(expected_memory, memory.data, memory.length);
    if (with_sums && memory.length == MEMORY && sums.length != 2 * PAGES) {
        expected.number = 13;
        expected.place = 0;
    } else {
        expected = loaded_from(tape.data, tape.length, expected_memory, memory.length);
    }
    lent_lend(&tape, expected.number == 1 || expected.number == 13 ? UNTOUCHED : READ);
    rest = expected.number != 0 && chance(50) ? UNTOUCHED : WRITTEN;
    lent_lend(&memory, rest);
    lent_lend(&sums, rest);
    before_call(t);
    if (with_sums)
        loaded = lib.load_with_sums(pointer_of(&tape), tape.length, pointer_of(&memory), memory.length,
            pointer_of(&sums), sums.length / 2);
    else
        loaded = lib.load(pointer_of(&tape), tape.length, pointer_of(&memory), memory.length);
    after_call();
    DEMAND(lent_return(&tape) && lent_return(&memory) && lent_return(&sums), "guard bytes changed by a load");
    DEMAND(loaded.number == expected.number, "tape: number %d, not %d", loaded.number, expected.number);
    DEMAND(loaded.place == expected.place, "tape: place %zu, not %zu", loaded.place, expected.place);
    DEMAND(unchanged(&tape), "the tape changed");
    DEMAND(memcmp(memory.data, expected_memory, memory.length) == 0, "tape: another memory after number %d",
        loaded.number);
    if (with_sums && loaded.number == 0)
        judge_sums();
    else
        DEMAND(unchanged(&sums), "tape: other sums after number %d", loaded.number);
    t->numbers[loaded.number]++;
    lent_close(&tape);
    lent_close(&memory);
    lent_close(&sums);
}

void judge_load(tally *t)
{
    static uint8_t text[MOST_TAPE];
    const size_t length = make_tape(text, sizeof text);
    open_memory();
    open_sums();
    lent_open(&tape, length, chance(70));
    memcpy(tape.data, text, length);
    judge_tape(t);
}

void judge_load_of(tally *t, size_t records)
{
    static uint8_t text[MOST_TAPE];
    const size_t length = tape_of(text, records);
    lent_open(&memory, MEMORY, 1);
    make_memory(memory.data, MEMORY);
    open_sums();
    lent_open(&tape, length, 1);
    memcpy(tape.data, text, length);
    judge_tape(t);
}

/* An entry of a page list, high ones more often. */
static uint16_t random_sum(void)
{
    return (uint16_t)(chance(30) ? 0 : chance(30) ? 65535 - below(3) : random_word());
}

void judge_total(tally *t)
{
    static const size_t wrong[] = {0, 1, 128, 255, 257, 512};
    const size_t alone = below(PAGES);
    uint16_t *entries;
    r6501q_total_result expected, result;
    size_t length = PAGES, i;
    if (chance(30))
        length = chance(50) ? below(MOST_SUMS) : wrong[below(sizeof wrong / sizeof *wrong)];
    lent_open(&sums, 2 * length, chance(50));
    entries = (uint16_t *)sums.data;
    if (chance(50))
        for (i = 0; i < length; i++)
            entries[i] = random_sum();
    else /* one page alone has a sum */
        for (i = 0; i < length; i++)
            entries[i] = i == alone ? random_sum() : 0;
    expected = total_of(entries, length);
    lent_lend(&sums, expected.number == 0 ? READ : UNTOUCHED);
    before_call(t);
    result = lib.total(pointer_of(&sums), length);
    after_call();
    DEMAND(lent_return(&sums), "guard bytes of sums changed");
    DEMAND(unchanged(&sums), "sums changed by their total");
    DEMAND(result.number == expected.number, "total: number %d, not %d", result.number, expected.number);
    DEMAND(result.total == expected.total, "total: %u, not %u", result.total, expected.total);
    t->numbers[result.number]++;
    lent_close(&sums);
}

void judge_well_formed(tally *t)
{
    const r6501q_state s = chance(40) ? good_state() : chance(60) ? damaged_state() : any_state();
    const int expected = well_formed(&s);
    uint8_t result;
    before_call(t);
    result = lib.well_formed(s);
    after_call();
    DEMAND(result == expected, "well-formed: %d, not %d", result, expected);
    t->numbers[result]++;
}
