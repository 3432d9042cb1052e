/* Brings about each number and each outcome that the header names, and calls every function with NULL where it lends nothing.
 * Compiled as C and as C++. */
#include "../rows.h"
#include <stdio.h>

#define BUDGET 20

static uint8_t lines[FINURAHO_MAX_HARDENED_BYTES];
static uint16_t trace[BUDGET];
static uint16_t counters[FINURAHO_COUNTER_WORDS];
static const uint16_t values[FINURAHO_VARIABLES] = {0, 1};
static int checked;
static int failed;

static void expect(const char *what, size_t got, size_t must)
{
    checked++;
    if (got == must)
        return;
    failed++;
    printf("%s: %zu, must be %zu\n", what, got, must);
}

static size_t put_hardened(void)
{
    finuraho_wrote wrote = finuraho_harden(rows, length, lines, sizeof lines);
    expect("hardening", wrote.number, FINURAHO_ACCEPTED);
    return wrote.length;
}

/* One function: so many dos. */
static void put_dos(int count)
{
    length = 0;
    put(FINURAHO_ROW_FUNCTION, 0, 0, 0, 0);
    put_many(count, FINURAHO_ROW_DO);
    put(FINURAHO_ROW_END, 0, 0, 0, 0);
}

#include "refusals.h"

static finuraho_ran run(size_t lines_len, uint16_t budget, uint16_t step, uint16_t place)
{
    finuraho_ran ran = finuraho_run_hardened(lines, lines_len, values, budget, step, place, trace, BUDGET, counters,
                                             FINURAHO_COUNTER_WORDS);
    expect("number of a run", ran.number, FINURAHO_ACCEPTED);
    return ran;
}

/* A function that calls itself. */
static void put_recursion(void)
{
    length = 0;
    put(FINURAHO_ROW_FUNCTION, 0, 0, 0, 0);
    put(FINURAHO_ROW_CALL, 0, 0, 0, 0);
    put(FINURAHO_ROW_END, 0, 0, 0, 0);
}

/* 01's cases (B), (C), (F), (G); no jump, whatever the place; a function that calls itself. */
static void outcomes(void)
{
    size_t lines_len;
    put_example();
    lines_len = put_hardened();
    expect("(B)", run(lines_len, BUDGET, FINURAHO_NO_JUMP, 8).outcome, FINURAHO_FINISHED);
    expect("(C)", run(lines_len, BUDGET, 4, 6).outcome, FINURAHO_ALARM);
    expect("(F)", run(lines_len, BUDGET, 0, 8).outcome, FINURAHO_BEYOND);
    expect("(G)", run(lines_len, 11, FINURAHO_NO_JUMP, 0).outcome, FINURAHO_BUDGET_SPENT);
    put_recursion();
    lines_len = put_hardened();
    expect("a 17th open", run(lines_len, BUDGET, FINURAHO_NO_JUMP, 0).outcome, FINURAHO_TOO_MANY_OPEN);
    expect("its step", run(lines_len, BUDGET, FINURAHO_NO_JUMP, 0).steps, FINURAHO_MAX_OPEN);
}

/* One function: v0 = v0 + v1, or v0 - v1. */
static void put_one_do(uint8_t op)
{
    length = 0;
    put(FINURAHO_ROW_FUNCTION, 0, 0, 0, 0);
    put(FINURAHO_ROW_DO, op, 0, 1, 0);
    put(FINURAHO_ROW_END, 0, 0, 0, 0);
}

static void expect_do(const char *what, uint8_t op, uint16_t v0, uint16_t v1, uint8_t outcome, uint16_t result)
{
    const uint16_t given[FINURAHO_VARIABLES] = {v0, v1};
    finuraho_ran ran;
    put_one_do(op);
    ran = finuraho_run_source(rows, length, given, BUDGET, trace, BUDGET);
    expect(what, ran.outcome, outcome);
    expect(what, ran.steps, outcome == FINURAHO_FINISHED ? 2 : 1);
    expect(what, ran.traced, outcome == FINURAHO_FINISHED);
    expect(what, ran.variables[0], result);
    ran = finuraho_run_hardened(lines, put_hardened(), given, BUDGET, FINURAHO_NO_JUMP, 0, trace, BUDGET, counters,
                                FINURAHO_COUNTER_WORDS);
    expect(what, ran.outcome, outcome);
    expect(what, ran.steps, outcome == FINURAHO_FINISHED ? 3 : 1);
    expect(what, ran.variables[0], result);
}

/* The last sum and difference that fit, the first that do not, and the strike of 01's table before its difference. */
static void overflows(void)
{
    finuraho_ran ran;
    expect_do("65534 + 1", FINURAHO_DO_ADD, 65534, 1, FINURAHO_FINISHED, 65535);
    expect_do("65535 + 1", FINURAHO_DO_ADD, 65535, 1, FINURAHO_OVERFLOW, 65535);
    expect_do("1 - 1", FINURAHO_DO_SUBTRACT, 1, 1, FINURAHO_FINISHED, 0);
    expect_do("1 - 2", FINURAHO_DO_SUBTRACT, 1, 2, FINURAHO_OVERFLOW, 1);
    put_example();
    ran = run(put_hardened(), BUDGET, 0, 3);
    expect("struck before 0 - 1, outcome", ran.outcome, FINURAHO_OVERFLOW);
    expect("struck before 0 - 1, steps", ran.steps, 1);
    expect("struck before 0 - 1, trace", ran.traced, 0);
}

/* Every kind of row but a switch's, and every op: v0 = 3, v1 = v0 + v0 + v0 - v0; a loop whose if breaks, an if that calls. */
static void put_each_kind(void)
{
    length = 0;
    put(FINURAHO_ROW_FUNCTION, 0, 0, 0, 0);
    put(FINURAHO_ROW_DO, FINURAHO_DO_NUMBER, 0, 0, 3);
    put(FINURAHO_ROW_DO, FINURAHO_DO_VARIABLE, 1, 0, 0);
    put(FINURAHO_ROW_DO, FINURAHO_DO_ADD, 1, 0, 0);
    put(FINURAHO_ROW_DO, FINURAHO_DO_ADD, 1, 0, 0);
    put(FINURAHO_ROW_DO, FINURAHO_DO_SUBTRACT, 1, 0, 0);
    put(FINURAHO_ROW_LOOP, FINURAHO_TEST_LESS, 0, 1, 0);
    put(FINURAHO_ROW_IF, FINURAHO_TEST_EQUAL, 0, 0, 3);
    put(FINURAHO_ROW_BREAK, 0, 0, 0, 0);
    put(FINURAHO_ROW_ELSE, 0, 0, 0, 0);
    put(FINURAHO_ROW_CONTINUE, 0, 0, 0, 0);
    put_many(2, FINURAHO_ROW_END);
    put(FINURAHO_ROW_IF, FINURAHO_TEST_DIFFERS, 0, 0, 5);
    put(FINURAHO_ROW_CALL, 0, 0, 0, 1);
    put_many(2, FINURAHO_ROW_END);
    put(FINURAHO_ROW_FUNCTION, 0, 0, 0, 0);
    put(FINURAHO_ROW_END, 0, 0, 0, 0);
}

static const uint8_t EACH_KIND[] = {
    FINURAHO_LINE_DO,   FINURAHO_LINE_TICK,  FINURAHO_LINE_DO,    FINURAHO_LINE_TICK, FINURAHO_LINE_DO,  FINURAHO_LINE_TICK,
    FINURAHO_LINE_DO,   FINURAHO_LINE_TICK,  FINURAHO_LINE_DO,    FINURAHO_LINE_TICK, FINURAHO_LINE_TEST, FINURAHO_LINE_TEST,
    FINURAHO_LINE_OUT,  FINURAHO_LINE_LEAVE, FINURAHO_LINE_OUT,   FINURAHO_LINE_LEAVE, FINURAHO_LINE_LEAVE, FINURAHO_LINE_TEST,
    FINURAHO_LINE_CALL, FINURAHO_LINE_BACK,  FINURAHO_LINE_LEAVE, FINURAHO_LINE_RET,  FINURAHO_LINE_RET,
};

/* 13 steps: five dos, the loop's test, the if's, the break, the second if, the call, the callee's end, that if's end, the end. */
static void kinds(void)
{
    size_t lines_len, line;
    finuraho_ran ran;
    put_each_kind();
    lines_len = put_hardened();
    expect("lines of each kind", lines_len, sizeof EACH_KIND * FINURAHO_LINE_BYTES);
    for (line = 0; line < sizeof EACH_KIND; line++)
        expect("kind of a line", lines[line * FINURAHO_LINE_BYTES], EACH_KIND[line]);
    ran = finuraho_run_source(rows, length, values, BUDGET, trace, BUDGET);
    expect("each op, outcome", ran.outcome, FINURAHO_FINISHED);
    expect("each op, steps", ran.steps, 13);
    expect("each op, v0", ran.variables[0], 3);
    expect("each op, v1", ran.variables[1], 6);
}

/* The chain of two cases with a do in the second. */
static const uint8_t CHAIN[] = {
    FINURAHO_ROW_FUNCTION, FINURAHO_ROW_IF,  FINURAHO_ROW_ELSE, FINURAHO_ROW_IF,  FINURAHO_ROW_DO,
    FINURAHO_ROW_ELSE,     FINURAHO_ROW_END, FINURAHO_ROW_END,  FINURAHO_ROW_END,
};

/* v0 is 0: the if, its else, the function's end. v0 is 1: both ifs, the do, the second if's else, the first if's end, the end. */
static void switches(void)
{
    static const uint16_t second[FINURAHO_VARIABLES] = {1};
    size_t row;
    finuraho_ran ran;
    put_switch(2, 1);
    ran = finuraho_run_source(rows, length, values, BUDGET, trace, BUDGET);
    expect("case 0, outcome", ran.outcome, FINURAHO_FINISHED);
    expect("case 0, steps", ran.steps, 3);
    ran = finuraho_run_source(rows, length, second, BUDGET, trace, BUDGET);
    expect("case 1, steps", ran.steps, 6);
    expect("case 1, trace", trace[0], 4);
    expect("the chain's bytes", finuraho_read_back(lines, put_hardened(), rows, sizeof rows).length, sizeof CHAIN * FINURAHO_ROW_BYTES);
    for (row = 0; row < sizeof CHAIN; row++)
        expect("kind of a row of the chain", rows[row * FINURAHO_ROW_BYTES], CHAIN[row]);
}

/* The table that is there: its figures, and that hardening needs just as much room. */
static void measure(const char *what, size_t lines_count, size_t regions, size_t value)
{
    size_t room = lines_count * FINURAHO_LINE_BYTES;
    expect_figures(what, length, FINURAHO_ACCEPTED, lines_count, regions, value);
    expect(what, finuraho_harden(rows, length, lines, room).length, room);
    expect(what, finuraho_harden(rows, length, lines, room - 1).number, FINURAHO_SHORT_OUTPUT);
}

/* Values: of each region 1 and what its direct rows take. */
static void figures(void)
{
    put_dos(0);
    measure("figures, function and end", 1, 1, 2);
    put_example();
    measure("figures, 01's table", 7, 2, 4 + 3);
    put_each_kind();
    measure("figures, each kind", sizeof EACH_KIND, 5, 11 + 3 + 2 + 2 + 3 + 2);
    /* test, leave, test, do, tick, leave, leave, leave, ret */
    put_switch(2, 1);
    measure("figures, two cases and a default", 9, 5, 4 + 1 + 3 + 2 + 1);
    put_dos(FINURAHO_MAX_ROWS - 2);
    measure("figures, 1,022 dos", 2045, 1, 1024);
    check_functions(FINURAHO_MAX_FUNCTIONS);
    measure("figures, 32 functions", 32, 1, 64);
    check_regions(FINURAHO_MAX_REGIONS);
    measure("figures, 64 regions", 127, FINURAHO_MAX_REGIONS, 128 + 63);
}

/* A run of the table that is there, then its hardened run: so many steps, and with one less its budget is spent. */
static void expect_steps(const char *what, uint16_t calls, uint16_t must)
{
    finuraho_ran source = finuraho_run_source(rows, length, values, BUDGET, trace, BUDGET);
    uint32_t steps = finuraho_hardened_steps(source.steps, source.traced, calls);
    size_t lines_len = put_hardened();
    expect(what, source.outcome, FINURAHO_FINISHED);
    expect(what, steps, must);
    expect(what, run(lines_len, must, FINURAHO_NO_JUMP, 0).outcome, FINURAHO_FINISHED);
    expect(what, run(lines_len, must, FINURAHO_NO_JUMP, 0).steps, must);
    expect(what, run(lines_len, (uint16_t)(must - 1), FINURAHO_NO_JUMP, 0).outcome, FINURAHO_BUDGET_SPENT);
}

/* 01's cases (A) and (B); 13 steps with 5 dos and a call; sums past 16 bits. */
static void hardened_steps(void)
{
    put_example();
    expect_steps("steps, 01's table", 0, 12);
    put_each_kind();
    expect_steps("steps, each kind", 1, 19);
    expect("steps, 65,535 and a call", finuraho_hardened_steps(65535, 0, 1), 65536);
    expect("steps, the most", finuraho_hardened_steps(65535, 65535, 65535), 196605);
}

#include "sweeps.h"

static void versions(void)
{
    char spelt[20];
    snprintf(spelt, sizeof spelt, "%d.%d.%d", FINURAHO_VERSION / 10000, FINURAHO_VERSION / 100 % 100, FINURAHO_VERSION % 100);
    expect("the version's string", (size_t)strcmp(spelt, FINURAHO_VERSION_STRING), 0);
}

static void short_buffers(void)
{
    size_t lines_len;
    put_example();
    lines_len = put_hardened();
    expect("exact output", finuraho_harden(rows, length, lines, lines_len).number, FINURAHO_ACCEPTED);
    expect("output one byte short", finuraho_harden(rows, length, lines, lines_len - 1).number, FINURAHO_SHORT_OUTPUT);
    expect("one slot fewer than the budget", finuraho_run_source(rows, length, values, BUDGET, trace, BUDGET - 1).number,
           FINURAHO_SHORT_ROOM);
    expect("one counter word fewer",
           finuraho_run_hardened(lines, lines_len, values, BUDGET, FINURAHO_NO_JUMP, 0, trace, BUDGET, counters,
                                 FINURAHO_COUNTER_WORDS - 1).number,
           FINURAHO_SHORT_ROOM);
    expect("all bytes but one", finuraho_check_hardened(lines, lines_len - 1), FINURAHO_NOT_HARDENED);
}

/* A table of no bytes. */
static void null_tables(void)
{
    finuraho_ran ran;
    expect("check, NULL", finuraho_check(NULL, 0), FINURAHO_NO_WHOLE_ROWS);
    expect("fault, NULL", finuraho_fault(NULL, 0).number, FINURAHO_NO_WHOLE_ROWS);
    expect("its row", finuraho_fault(NULL, 0).row, 0);
    expect("measure, NULL", finuraho_measure(NULL, 0).number, FINURAHO_NO_WHOLE_ROWS);
    expect("check_hardened, NULL", finuraho_check_hardened(NULL, 0), FINURAHO_NOT_HARDENED);
    expect("harden, all NULL", finuraho_harden(NULL, 0, NULL, 0).number, FINURAHO_NO_WHOLE_ROWS);
    expect("read_back, all NULL", finuraho_read_back(NULL, 0, NULL, 0).number, FINURAHO_NOT_HARDENED);
    expect("run_source, all NULL", finuraho_run_source(NULL, 0, values, 0, NULL, 0).number, FINURAHO_NO_WHOLE_ROWS);
    ran = finuraho_run_hardened(NULL, 0, values, 0, FINURAHO_NO_JUMP, 0, NULL, 0, NULL, 0);
    expect("run_hardened, all NULL", ran.number, FINURAHO_NOT_HARDENED);
    expect("its v1", ran.variables[1], 1);
    expect("sweep, all NULL", finuraho_sweep(NULL, 0, values, 0, NULL, 0, NULL, 0).number, FINURAHO_NOT_HARDENED);
    expect("sweep_other, all NULL", finuraho_sweep_other(NULL, 0, values, 0, NULL, 0, NULL, 0).number, FINURAHO_NOT_HARDENED);
}

/* A good table, and nothing lent to write to. */
static void null_outputs(void)
{
    size_t lines_len;
    finuraho_ran ran;
    put_example();
    lines_len = put_hardened();
    expect("harden to NULL", finuraho_harden(rows, length, NULL, 0).number, FINURAHO_SHORT_OUTPUT);
    expect("read_back to NULL", finuraho_read_back(lines, lines_len, NULL, 0).number, FINURAHO_SHORT_OUTPUT);
    expect("run_source, budget 0", finuraho_run_source(rows, length, values, 0, NULL, 0).number, FINURAHO_ACCEPTED);
    expect("run_source, budget 1", finuraho_run_source(rows, length, values, 1, NULL, 0).number, FINURAHO_SHORT_ROOM);
    ran = finuraho_run_hardened(lines, lines_len, values, 0, 0, 6, NULL, 0, counters, FINURAHO_COUNTER_WORDS);
    expect("run_hardened, budget 0", ran.number, FINURAHO_ACCEPTED);
    expect("its outcome", ran.outcome, FINURAHO_BUDGET_SPENT);
    ran = finuraho_run_hardened(lines, lines_len, values, 0, 0, 6, NULL, 0, NULL, 0);
    expect("run_hardened, no counters", ran.number, FINURAHO_SHORT_ROOM);
    expect("sweep, budget 0, NULL", finuraho_sweep(lines, lines_len, values, 0, NULL, 0, counters, FINURAHO_COUNTER_WORDS).number,
           FINURAHO_NOT_FINISHED);
    expect("sweep, no counters", finuraho_sweep(lines, lines_len, values, 0, NULL, 0, NULL, 0).number, FINURAHO_SHORT_ROOM);
    expect("sweep_other, no counters", finuraho_sweep_other(lines, lines_len, values, 0, NULL, 0, NULL, 0).number, FINURAHO_SHORT_ROOM);
}

int main(void)
{
    too_many_rows();
    wrong_or_misplaced();
    found_rows();
    too_many_parts();
    wrong_switches();
    outcomes();
    overflows();
    kinds();
    switches();
    figures();
    hardened_steps();
    sweeps();
    versions();
    short_buffers();
    null_tables();
    null_outputs();
    printf("%d checked, %d wrong\n", checked, failed);
    return failed != 0;
}
