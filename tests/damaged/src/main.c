/* Damaged and random inputs to every call of the library. usage: damaged seed runs tapes states long-runs
 * [wrong-library] All are decimal numbers; runs, tapes, states and wrong-library from 1 up; there are as many totals as
 * tapes. Prints a line for each part. A fault is printed and ends the program with 1. */
#include "judge.h"
#include "rules.h"

#include <ctype.h>
#include <errno.h>
#include <stdio.h>
#include <stdlib.h>

static void usage(void)
{
    fprintf(stderr, "usage: damaged seed runs tapes states long-runs [wrong-library]\n");
    exit(2);
}

/* The argument as a number from `least` up, digits alone; anything else ends the program with 2. */
static unsigned long number(const char *argument, unsigned long least)
{
    char *end;
    unsigned long value;
    errno = 0;
    value = strtoul(argument, &end, 10);
    if (!isdigit((unsigned char)*argument) || *end != '\0' || errno != 0 || value < least)
        usage();
    return value;
}

/* The numbers that came back, each with how often. */
static void print_tally(const char *part, const tally *t)
{
    int number;
    printf("%s: %lu calls;", part, t->calls);
    for (number = 0; number <= 13; number++)
        if (t->numbers[number] > 0)
            printf(" %d: %lu", number, t->numbers[number]);
    printf("\n");
}

/* A part in which a number never came back has not tried it: the program ends with 2. */
static void demand_met(const char *part, const tally *t, int first, int last)
{
    int number;
    for (number = first; number <= last; number++)
        if (t->numbers[number] == 0) {
            printf("%s: number %d never came back\n", part, number);
            exit(2);
        }
}

static void runs(unsigned long count)
{
    tally t = {0, {0}};
    unsigned long i;
    for (i = 0; i < count; i++) {
        judge_run(&t);
        if (i % 50 == 0)
            judge_overlong(&t);
    }
    print_tally("runs and steps", &t);
    demand_met("runs and steps", &t, 0, 7);
    demand_met("runs and steps", &t, 12, 13);
}

static void tapes(unsigned long count)
{
    tally t = {0, {0}};
    unsigned long i;
    for (i = 0; i < count; i++)
        judge_load(&t);
    /* 65,535 records are the most that a last record can count. */
    judge_load_of(&t, 65535);
    judge_load_of(&t, 65536);
    judge_load_of(&t, 65537);
    print_tally("tapes", &t);
    demand_met("tapes", &t, 0, 1);
    demand_met("tapes", &t, 8, 10);
    demand_met("tapes", &t, 13, 13);
}

static void totals(unsigned long count)
{
    tally t = {0, {0}};
    unsigned long i;
    for (i = 0; i < count; i++)
        judge_total(&t);
    print_tally("totals", &t);
    demand_met("totals", &t, 0, 0);
    demand_met("totals", &t, 13, 13);
}

static void states(unsigned long count)
{
    tally t = {0, {0}};
    unsigned long i;
    for (i = 0; i < count; i++)
        judge_well_formed(&t);
    printf("states: %lu calls; well-formed: %lu\n", t.calls, t.numbers[1]);
    demand_met("states", &t, 0, 1);
}

static void long_runs(unsigned long count)
{
    tally t = {0, {0}};
    unsigned long i;
    for (i = 0; i < count; i++)
        judge_long(&t);
    for (i = 0; i < 100 * count; i++)
        judge_early_stop(&t);
    print_tally("runs of up to 4,294,967,295 clocks", &t);
    demand_met("runs of up to 4,294,967,295 clocks", &t, 0, 0);
    demand_met("runs of up to 4,294,967,295 clocks", &t, 6, 7);
    demand_met("runs of up to 4,294,967,295 clocks", &t, 12, 12);
}

int main(int arguments, char **argument)
{
    unsigned long seed, count_of_runs, count_of_tapes, count_of_states, count_of_long_runs;
    library calls = right;
    int wrong, opcode, defined = 0;
    if (arguments < 6 || arguments > 7)
        usage();
    seed = number(argument[1], 0);
    count_of_runs = number(argument[2], 1);
    count_of_tapes = number(argument[3], 1);
    count_of_states = number(argument[4], 1);
    count_of_long_runs = number(argument[5], 0);
    wrong = arguments > 6 ? (int)number(argument[6], 1) : 0;
    if (wrong > 0)
        calls = wrong_library(wrong);
    for (opcode = 0; opcode < 256; opcode++)
        defined += is_defined((uint8_t)opcode);
    if (defined != 183) {
        printf("%d opcodes are defined, not 183\n", defined);
        return 1;
    }
    judge_begin(calls, seed, wrong > 0 ? 3 : 300);
    runs(count_of_runs);
    tapes(count_of_tapes);
    totals(count_of_tapes);
    states(count_of_states);
    if (count_of_long_runs > 0)
        long_runs(count_of_long_runs);
    return 0;
}
