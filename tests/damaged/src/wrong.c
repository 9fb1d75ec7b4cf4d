/* Wrong libraries: each does what the library does but for one fault. The test must refuse every one of them. The last
 * two faults show under valgrind alone. */
#include "library.h"
#include "rules.h"

#include <stdlib.h>
#include <string.h>

enum fault {
    STATE_BEFORE_MEMORY = 1,
    MEMORY_MODULO_2_TO_32,
    WAIT_OF_SEVEN,
    FLAG_OF_TWO,
    OUTPUT_LISTS_UNEQUAL,
    INPUT_LISTS_UNEQUAL,
    CLOCK_WRAPS,
    LAST_INPUT_UNCHECKED,
    NO_CHECKS_FOR_NO_CLOCKS,
    REFUSED_CALL_CHANGES_MEMORY,
    REFUSED_CALL_CHANGES_STATE,
    REFUSED_CALL_READS,
    READS_BEHIND_CLOCKS,
    READS_BEFORE_MEMORY,
    WRITES_BEHIND_WORDS,
    WRITES_BEHIND_TOLD,
    WRITES_A_CODE,
    WRITES_AN_UNUSED_ENTRY,
    WRITES_A_REGISTERS_BYTE,
    ONE_READ_TOO_MANY,
    ONE_RECORD_TOO_FEW,
    NO_LEAPS,
    WORD_OF_THE_CLOCK_BEFORE,
    STATE_OUT_OF_RANGE,
    STOPS_EARLY,
    DOES_NOT_COME_BACK,
    LOWER_CASE_DIGITS,
    PLACE_OF_THE_COUNT,
    STORES_BELOW_40H,
    STORES_A_REFUSED_TAPE,
    READS_BEHIND_TAPE,
    WELL_FORMED_BUT_FOR_A_LEVEL,
    HALT_MODULO_2_TO_16,
    NO_HALT_IN_PAGE_ZERO,
    NO_HALT_ON_THE_LAST_CLOCK,
    HALTS_A_CLOCK_LATE,
    HALTED_CLOCK_IS_NO_LEAP,
    HALT_WITHOUT_ITS_RECORD,
    BYTE_WAITING_WITH_WAIT_0,
    BYTE_THERE_TWICE,
    NONE_WITH_AN_ADDRESS,
    BYTE_LOST_AT_A_CUT,
    BYTE_PUT_EARLY,
    BYTE_LOST_BY_A_FULL_LIST,
    HALTS_BEFORE_THE_PUT,
    WELL_FORMED_BUT_FOR_THE_BYTE,
    OLD_BYTE_NOT_TAKEN_OFF,
    PAGE_BY_THE_LOW_BYTE,
    SUMS_MADE_RIGHT,
    REGISTER_WRITE_SUMMED,
    REFUSED_TAPE_SUMMED,
    SUMS_LENGTH_BEFORE_MEMORY,
    SUMS_LENGTH_AFTER_STATE,
    SUMS_LENGTH_AFTER_A_FLAG,
    SUMS_LENGTH_AFTER_THE_LISTS,
    TOTAL_WITHOUT_MODULO,
    TOTAL_WITHOUT_THE_LAST_PAGE,
    LAST_PAGE_NOT_SUMMED,
    SUMS_NOT_MODULO,
    SECOND_BYTE_OF_A_PAGE_NOT_SUMMED,
    WAITING_BYTE_SUMMED,
    STOPPED_RUN_NOT_SUMMED,
    REFUSED_CALL_CHANGES_A_SUM,
    SUMS_OF_257,
    SUMS_LENGTH_MODULO_2_TO_32,
    WRITES_BEHIND_SUMS,
    TAPE_SUMS_LENGTH_BEFORE_MEMORY,
    TAPE_SUMS_LENGTH_AFTER_A_RECORD,
    PLACE_OF_THE_SUMS_LENGTH,
    LEAPS_OF_SINGLE_CLOCKS_WITH_SUMS,
    READS_A_REGISTERS_BYTE,
    DECIDES_BY_FREE_SPACE
};

static enum fault fault;

/* What a read is for. */
static volatile uint32_t seen;

/* Memory and page sums before a call that is not refused. */
static uint8_t memory_before[65536];
static uint16_t sums_before[256];

static void keep_before(const uint8_t *memory, const uint16_t *sums)
{
    /* The registers' bytes may not be touched. */
    memcpy(memory_before + 0x40, memory + 0x40, sizeof memory_before - 0x40);
    memcpy(sums_before, sums, sizeof sums_before);
}

static int flag_above_1(const r6501q_state *s)
{
    return s->due.reset > 1 || s->due.nmi > 1 || s->peripherals.counterb.turnc > 1 || s->cpu.waiting.there > 1
        || s->external.nmi > 1 || s->external.res > 1 || s->last.nmi > 1 || s->last.res > 1;
}

/* The page sums after a run or a step that is not refused, by the fault. */
static void damage_sums_of_run(const r6501q_state *before, const r6501q_call_result *result, const uint8_t *memory,
    uint16_t *sums)
{
    const r6501q_waiting *const given_byte = &before->cpu.waiting;
    const r6501q_waiting *const waiting = &result->state.cpu.waiting;
    const int put = given_byte->there == 1 && result->state.clock - before->clock >= before->cpu.wait
        && result->state.last.res == 1;
    if (fault == REGISTER_WRITE_SUMMED && put && given_byte->address < 0x40)
        sums[0] = (uint16_t)(sums[0] + given_byte->value - memory[given_byte->address]);
    if (fault == STOPPED_RUN_NOT_SUMMED && result->number != 0)
        memcpy(sums, sums_before, sizeof sums_before);
    if (fault == WAITING_BYTE_SUMMED && waiting->there == 1 && waiting->address >= 0x40) {
        const unsigned page = waiting->address / 256;
        sums[page] = (uint16_t)(sums[page] + waiting->value - memory[waiting->address]);
    }
}

/* The page sums after n clocks or a load, not refused, by the fault. */
static void damage_sums(const uint8_t *memory, uint16_t *sums, uint32_t n)
{
    long unwrapped[256];
    unsigned last_page = 256, i;
    if (fault == SUMS_MADE_RIGHT)
        right_sums(sums, memory);
    for (i = 0; i < 256; i++)
        unwrapped[i] = sums_before[i];
    for (i = 0x40; i < 65536; i++) {
        const uint16_t change = (uint16_t)(memory[i] - memory_before[i]);
        const unsigned page = i / 256;
        if (change == 0)
            continue;
        unwrapped[page] += memory[i] - memory_before[i];
        if (fault == OLD_BYTE_NOT_TAKEN_OFF)
            sums[page] = (uint16_t)(sums[page] + memory_before[i]);
        if (fault == PAGE_BY_THE_LOW_BYTE) {
            sums[page] = (uint16_t)(sums[page] - change);
            sums[i % 256] = (uint16_t)(sums[i % 256] + change);
        }
        if (fault == LAST_PAGE_NOT_SUMMED && page == 255)
            sums[page] = sums_before[page];
        if (fault == SECOND_BYTE_OF_A_PAGE_NOT_SUMMED && n == 1 && page == last_page)
            sums[page] = (uint16_t)(sums[page] - change);
        last_page = page;
    }
    for (i = 0; i < 256; i++)
        if (fault == SUMS_NOT_MODULO && unwrapped[i] != sums[i])
            sums[i] = unwrapped[i] < 0 ? 0 : 65535;
}

/* A call with page sums, or lacking them. */
static r6501q_call_result *wrong_call(r6501q_call_result *result, r6501q_state state, uint8_t *memory,
    size_t memory_length, int with_sums, uint16_t *sums, size_t sums_length, const uint32_t *input_clocks,
    size_t input_clocks_length, const uint8_t *input_codes, size_t input_codes_length, uint32_t *output_clocks,
    size_t output_clocks_length, uint32_t *output_words, size_t output_words_length, uint32_t n, uint32_t halt)
{
    static const r6501q_waiting none = {0, 0, 0};
    const r6501q_state given_state = state;
    size_t inputs = input_clocks_length;
    switch (fault) {
    case STATE_BEFORE_MEMORY:
        if (memory_length != 65536 && !well_formed(&state))
            return right.run(result, state, NULL, 65536, NULL, 0, NULL, 0, NULL, 0, NULL, 0, 0, halt);
        break;
    case MEMORY_MODULO_2_TO_32:
        memory_length = (uint32_t)memory_length;
        break;
    case WAIT_OF_SEVEN:
        state.cpu.wait = state.cpu.wait == 7 ? 6 : state.cpu.wait;
        break;
    case FLAG_OF_TWO:
        state.due.nmi = state.due.nmi != 0;
        break;
    case OUTPUT_LISTS_UNEQUAL:
        output_clocks_length = output_words_length
            = output_clocks_length < output_words_length ? output_clocks_length : output_words_length;
        break;
    case INPUT_LISTS_UNEQUAL:
        input_clocks_length = input_codes_length
            = input_clocks_length < input_codes_length ? input_clocks_length : input_codes_length;
        break;
    case CLOCK_WRAPS:
        n = n > UINT32_MAX - state.clock ? UINT32_MAX - state.clock : n;
        break;
    case LAST_INPUT_UNCHECKED:
        if (input_clocks_length == input_codes_length && input_clocks_length > 0)
            input_clocks_length = input_codes_length = input_clocks_length - 1;
        break;
    case NO_CHECKS_FOR_NO_CLOCKS:
        if (n == 0)
            input_clocks_length = input_codes_length = output_clocks_length = output_words_length = 0;
        break;
    case READS_BEHIND_CLOCKS:
        if (input_clocks_length > 0)
            seen = input_clocks[input_clocks_length];
        break;
    case READS_BEFORE_MEMORY:
        if (memory_length > 0)
            seen = memory[-1];
        break;
    case STOPS_EARLY:
        n = n > 20 ? n - 1 : n;
        break;
    case HALT_MODULO_2_TO_16:
        halt %= 65536;
        break;
    case NO_HALT_IN_PAGE_ZERO:
        halt = halt < 0x100 ? R6501Q_NO_HALT : halt;
        break;
    case DOES_NOT_COME_BACK:
        while (n == 17)
            seen = n;
        break;
    case BYTE_WAITING_WITH_WAIT_0:
        state.cpu.wait = state.cpu.waiting.there == 1 && state.cpu.wait == 0 ? 1 : state.cpu.wait;
        break;
    case BYTE_THERE_TWICE:
        state.cpu.waiting.there = state.cpu.waiting.there != 0;
        break;
    case NONE_WITH_AN_ADDRESS:
        state.cpu.waiting.address = state.cpu.waiting.there == 0 ? 0 : state.cpu.waiting.address;
        break;
    case SUMS_LENGTH_BEFORE_MEMORY:
        if (with_sums && sums_length != 256)
            memory_length = 65536;
        break;
    case SUMS_LENGTH_AFTER_STATE:
        if (with_sums && !well_formed(&state))
            sums_length = 256;
        break;
    case SUMS_LENGTH_AFTER_A_FLAG:
        if (with_sums && flag_above_1(&state))
            sums_length = 256;
        break;
    case SUMS_LENGTH_AFTER_THE_LISTS:
        if (with_sums && (input_clocks_length != input_codes_length || output_clocks_length != output_words_length))
            sums_length = 256;
        break;
    case SUMS_OF_257:
        sums_length = sums_length == 257 ? 256 : sums_length;
        break;
    case SUMS_LENGTH_MODULO_2_TO_32:
        sums_length = (uint32_t)sums_length;
        break;
    default:
        break;
    }
    if (with_sums) {
        const given g = {state, memory_length, input_clocks, input_clocks_length, input_codes, input_codes_length,
            output_clocks_length, output_words_length, n, halt, 1, sums_length};
        /* Only a call that moves may touch memory and sums. */
        const int moves = refusal(&g) == 0 && n > 0;
        if (moves)
            keep_before(memory, sums);
        right.run_with_sums(result, state, memory, memory_length, sums, sums_length, input_clocks, input_clocks_length,
            input_codes, input_codes_length, output_clocks, output_clocks_length, output_words, output_words_length, n,
            halt);
        if (moves) {
            damage_sums(memory, sums, n);
            damage_sums_of_run(&given_state, result, memory, sums);
        }
        if (fault == REFUSED_CALL_CHANGES_A_SUM && result->number == 5)
            sums[255]++;
        if (fault == WRITES_BEHIND_SUMS && moves)
            sums[256] = 0;
        if (fault == LEAPS_OF_SINGLE_CLOCKS_WITH_SUMS && result->number == 0)
            result->leaps = n;
    } else {
        right.run(result, state, memory, memory_length, input_clocks, input_clocks_length, input_codes,
            input_codes_length, output_clocks, output_clocks_length, output_words, output_words_length, n, halt);
    }
    switch (fault) {
    case REFUSED_CALL_CHANGES_MEMORY:
        if (result->number >= 1 && result->number <= 5 && memory_length > 0)
            memory[memory_length - 1] ^= 1;
        break;
    case REFUSED_CALL_CHANGES_STATE:
        if (result->number == 5)
            result->state.peripherals.serial.received ^= 1;
        break;
    case REFUSED_CALL_READS:
        if (result->number == 5)
            result->read = inputs;
        break;
    case WRITES_BEHIND_WORDS:
        if (output_words_length > 0)
            output_words[output_words_length] = 0;
        break;
    case WRITES_BEHIND_TOLD:
        ((volatile uint8_t *)result)[sizeof *result] = 0;
        break;
    case WRITES_A_CODE:
        if (input_codes_length > 0 && result->number == 0)
            *(volatile uint8_t *)(uintptr_t)input_codes = input_codes[0];
        break;
    case WRITES_AN_UNUSED_ENTRY:
        if (result->written < output_words_length && result->written > 0)
            output_words[result->written] ^= 1;
        break;
    case WRITES_A_REGISTERS_BYTE:
        if (result->number == 0 && result->state.clock != given_state.clock)
            memory[0x3F] ^= 1;
        break;
    case ONE_READ_TOO_MANY:
        if (result->read < inputs && result->number == 0)
            result->read++;
        break;
    case ONE_RECORD_TOO_FEW:
        if (result->written > 0)
            result->written--;
        break;
    case NO_LEAPS:
        result->leaps = 0;
        break;
    case WORD_OF_THE_CLOCK_BEFORE:
        if (result->written > 1)
            output_words[result->written - 1] = output_words[result->written - 2];
        break;
    case STATE_OUT_OF_RANGE:
        if (result->number == 0)
            result->state.cpu.p |= 0x20;
        break;
    case NO_HALT_ON_THE_LAST_CLOCK:
        if (result->number == 12 && result->state.clock - given_state.clock == n)
            result->number = 0;
        break;
    case HALTS_A_CLOCK_LATE:
        if (result->number == 12 && result->state.clock - given_state.clock < n) {
            const r6501q_call_result first = *result;
            right.step(result, first.state, memory, memory_length, input_clocks + first.read, inputs - first.read,
                input_codes + first.read, inputs - first.read, output_clocks + first.written,
                output_clocks_length - first.written, output_words + first.written, output_words_length - first.written,
                halt);
            result->number = 12;
            result->leaps += first.leaps;
            result->read += first.read;
            result->written += first.written;
        }
        break;
    case HALTED_CLOCK_IS_NO_LEAP:
        if (result->number == 12 && result->leaps > 1)
            result->leaps--;
        break;
    case HALT_WITHOUT_ITS_RECORD:
        if (result->number == 12 && result->written > 0)
            result->written--;
        break;
    case BYTE_LOST_AT_A_CUT:
        if (result->number == 0)
            result->state.cpu.waiting = none;
        break;
    case BYTE_PUT_EARLY:
        if (result->number == 0 && n > 0 && result->state.cpu.waiting.there == 1)
            memory[result->state.cpu.waiting.address] = result->state.cpu.waiting.value;
        break;
    case BYTE_LOST_BY_A_FULL_LIST:
        if (result->number == 7)
            result->state.cpu.waiting = none;
        break;
    case HALTS_BEFORE_THE_PUT:
        if (result->number == 0 && n > 0 && result->state.cpu.waiting.there == 1
            && result->state.cpu.waiting.address == halt)
            result->number = 12;
        break;
    case READS_A_REGISTERS_BYTE:
        if (result->number == 0 && n > 0)
            seen = memory[0x3F];
        break;
    case DECIDES_BY_FREE_SPACE:
        if (result->number == 0 && n > 0 && result->written < output_words_length && output_words[result->written] == 0)
            seen = 0;
        break;
    default:
        break;
    }
    return result;
}

static r6501q_call_result *wrong_run(r6501q_call_result *result, r6501q_state state, uint8_t *memory,
    size_t memory_length, const uint32_t *input_clocks, size_t input_clocks_length, const uint8_t *input_codes,
    size_t input_codes_length, uint32_t *output_clocks, size_t output_clocks_length, uint32_t *output_words,
    size_t output_words_length, uint32_t n, uint32_t halt)
{
    return wrong_call(result, state, memory, memory_length, 0, NULL, 0, input_clocks, input_clocks_length, input_codes,
        input_codes_length, output_clocks, output_clocks_length, output_words, output_words_length, n, halt);
}

static r6501q_call_result *wrong_step(r6501q_call_result *result, r6501q_state state, uint8_t *memory,
    size_t memory_length, const uint32_t *input_clocks, size_t input_clocks_length, const uint8_t *input_codes,
    size_t input_codes_length, uint32_t *output_clocks, size_t output_clocks_length, uint32_t *output_words,
    size_t output_words_length, uint32_t halt)
{
    return wrong_call(result, state, memory, memory_length, 0, NULL, 0, input_clocks, input_clocks_length, input_codes,
        input_codes_length, output_clocks, output_clocks_length, output_words, output_words_length, 1, halt);
}

static r6501q_call_result *wrong_run_with_sums(r6501q_call_result *result, r6501q_state state, uint8_t *memory,
    size_t memory_length, uint16_t *sums, size_t sums_length, const uint32_t *input_clocks, size_t input_clocks_length,
    const uint8_t *input_codes, size_t input_codes_length, uint32_t *output_clocks, size_t output_clocks_length,
    uint32_t *output_words, size_t output_words_length, uint32_t n, uint32_t halt)
{
    return wrong_call(result, state, memory, memory_length, 1, sums, sums_length, input_clocks, input_clocks_length,
        input_codes, input_codes_length, output_clocks, output_clocks_length, output_words, output_words_length, n,
        halt);
}

static r6501q_call_result *wrong_step_with_sums(r6501q_call_result *result, r6501q_state state, uint8_t *memory,
    size_t memory_length, uint16_t *sums, size_t sums_length, const uint32_t *input_clocks, size_t input_clocks_length,
    const uint8_t *input_codes, size_t input_codes_length, uint32_t *output_clocks, size_t output_clocks_length,
    uint32_t *output_words, size_t output_words_length, uint32_t halt)
{
    return wrong_call(result, state, memory, memory_length, 1, sums, sums_length, input_clocks, input_clocks_length,
        input_codes, input_codes_length, output_clocks, output_clocks_length, output_words, output_words_length, 1,
        halt);
}

static r6501q_load_result wrong_load(const uint8_t *tape, size_t tape_length, uint8_t *memory, size_t memory_length)
{
    uint8_t below_40h[0x40];
    r6501q_load_result loaded;
    uint8_t *upper = NULL;
    size_t i;
    if (fault == LOWER_CASE_DIGITS && tape_length > 0) {
        upper = malloc(tape_length);
        for (i = 0; i < tape_length; i++)
            upper[i] = (uint8_t)(tape[i] >= 'a' && tape[i] <= 'f' ? tape[i] - 'a' + 'A' : tape[i]);
        tape = upper;
    }
    if (fault == READS_BEHIND_TAPE && tape_length > 0)
        seen = tape[tape_length];
    if (fault == STORES_BELOW_40H && memory_length == 65536)
        memset(below_40h, 0x11, sizeof below_40h);
    loaded = right.load(tape, tape_length, memory, memory_length);
    if (fault == PLACE_OF_THE_COUNT && loaded.number == 10 && loaded.place < tape_length)
        loaded.place++;
    if (fault == STORES_BELOW_40H && loaded.number == 0)
        memcpy(memory, below_40h, sizeof below_40h);
    if (fault == STORES_A_REFUSED_TAPE && loaded.number == 9)
        memory[0x200] ^= 1;
    free(upper);
    return loaded;
}

static uint8_t wrong_well_formed(r6501q_state state)
{
    if (fault == WELL_FORMED_BUT_FOR_A_LEVEL)
        state.last.res = state.last.res != 0;
    if (fault == WELL_FORMED_BUT_FOR_THE_BYTE && state.cpu.waiting.there == 1 && state.cpu.wait == 0)
        state.cpu.wait = 1;
    return right.well_formed(state);
}

static r6501q_load_result wrong_load_with_sums(const uint8_t *tape, size_t tape_length, uint8_t *memory,
    size_t memory_length, uint16_t *sums, size_t sums_length)
{
    static uint8_t tried[65536];
    r6501q_load_result loaded = {13, 0};
    const int lengths_right = memory_length == 65536 && sums_length == 256;
    int loads;
    if (fault == TAPE_SUMS_LENGTH_BEFORE_MEMORY && sums_length != 256)
        return loaded;
    if (fault == TAPE_SUMS_LENGTH_AFTER_A_RECORD && memory_length == 65536 && sums_length != 256) {
        const r6501q_load_result faulty = loaded_from(tape, tape_length, tried, sizeof tried);
        return faulty.number == 0 ? loaded : faulty;
    }
    loads = lengths_right && loaded_from(tape, tape_length, tried, sizeof tried).number == 0;
    if (loads)
        keep_before(memory, sums);
    loaded = right.load_with_sums(tape, tape_length, memory, memory_length, sums, sums_length);
    if (loads)
        damage_sums(memory, sums, 1);
    if (fault == REFUSED_TAPE_SUMMED && loaded.number == 9)
        sums[2]++;
    if (fault == PLACE_OF_THE_SUMS_LENGTH && loaded.number == 13)
        loaded.place = tape_length;
    return loaded;
}

static r6501q_total_result wrong_total(const uint16_t *sums, size_t sums_length)
{
    r6501q_total_result result = right.total(sums, sums_length);
    unsigned long total = 0;
    size_t i;
    if (result.number != 0)
        return result;
    for (i = 0; i < 256; i++)
        total += sums[i];
    if (fault == TOTAL_WITHOUT_MODULO && total > 65535)
        result.total = 65535;
    if (fault == TOTAL_WITHOUT_THE_LAST_PAGE)
        result.total = (uint16_t)(result.total - sums[255]);
    return result;
}

library wrong_library(int which)
{
    const library wrong = {wrong_run, wrong_step, wrong_load, wrong_well_formed, wrong_run_with_sums,
        wrong_step_with_sums, wrong_load_with_sums, wrong_total};
    fault = (enum fault)which;
    return wrong;
}
