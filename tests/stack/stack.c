/* Runs each call of the header on a painted stack and sees how far down it is written, for small, large, deep and refused tables. No
 * call may take more than the header says. */
#define _XOPEN_SOURCE 700
#include "../rows.h"
#include <stdio.h>
#include <ucontext.h>

#define BUDGET 5000

static uint8_t lines[FINURAHO_MAX_HARDENED_BYTES];
static size_t lines_length;
static uint8_t out[FINURAHO_MAX_HARDENED_BYTES];
static uint16_t trace[BUDGET];
static uint16_t counters[FINURAHO_COUNTER_WORDS];
static const uint16_t values[FINURAHO_VARIABLES] = {0, 1};

/* ---- the calls */

static void call_nothing(void)
{
}

static void call_check(void)
{
    finuraho_check(rows, length);
}

static void call_fault(void)
{
    finuraho_fault(rows, length);
}

static void call_measure(void)
{
    finuraho_measure(rows, length);
}

static void call_harden(void)
{
    finuraho_harden(rows, length, out, sizeof out);
}

static void call_check_hardened(void)
{
    finuraho_check_hardened(lines, lines_length);
}

static void call_read_back(void)
{
    finuraho_read_back(lines, lines_length, out, sizeof out);
}

static void call_run_source(void)
{
    finuraho_run_source(rows, length, values, BUDGET, trace, BUDGET);
}

static void call_run_hardened(void)
{
    finuraho_run_hardened(lines, lines_length, values, BUDGET, 40, 1, trace, BUDGET, counters, FINURAHO_COUNTER_WORDS);
}

static void call_hardened_steps(void)
{
    finuraho_hardened_steps(65535, 65535, 65535);
}

static void call_sweep(void)
{
    finuraho_sweep(lines, lines_length, values, BUDGET, trace, BUDGET, counters, FINURAHO_COUNTER_WORDS);
}

static void call_sweep_other(void)
{
    finuraho_sweep_other(lines, lines_length, values, BUDGET, trace, BUDGET, counters, FINURAHO_COUNTER_WORDS);
}

struct measured {
    const char *name;
    void (*call)(void);
    size_t allowed;
    size_t most;
};

static struct measured calls[] = {
    {"check", call_check, FINURAHO_STACK_CHECK, 0},
    {"fault", call_fault, FINURAHO_STACK_FAULT, 0},
    {"measure", call_measure, FINURAHO_STACK_MEASURE, 0},
    {"harden", call_harden, FINURAHO_STACK_HARDEN, 0},
    {"check_hardened", call_check_hardened, FINURAHO_STACK_CHECK_HARDENED, 0},
    {"read_back", call_read_back, FINURAHO_STACK_READ_BACK, 0},
    {"run_source", call_run_source, FINURAHO_STACK_RUN_SOURCE, 0},
    {"run_hardened", call_run_hardened, FINURAHO_STACK_RUN_HARDENED, 0},
    {"hardened_steps", call_hardened_steps, FINURAHO_STACK_HARDENED_STEPS, 0},
    {"sweep", call_sweep, FINURAHO_STACK_SWEEP, 0},
    {"sweep_other", call_sweep_other, FINURAHO_STACK_SWEEP_OTHER, 0},
};

#define CALLS (sizeof calls / sizeof calls[0])

/* ---- the painted stack */

#define STACK (256 * 1024)

static uint8_t stack[STACK];
static ucontext_t here, there;

/* No two bytes near each other are alike, and the two paints differ everywhere: a byte that is written shows in one of them. */
static uint8_t paint(size_t i, int which)
{
    return (uint8_t)(i * 151 + i / 256 + (which ? 101 : 0));
}

static size_t written(void (*call)(void), int which)
{
    size_t i;
    for (i = 0; i < STACK; i++)
        stack[i] = paint(i, which);
    getcontext(&there);
    there.uc_stack.ss_sp = stack;
    there.uc_stack.ss_size = STACK;
    there.uc_link = &here;
    makecontext(&there, call, 0);
    swapcontext(&here, &there);
    for (i = 0; i < STACK && stack[i] == paint(i, which); i++)
        ;
    return STACK - i;
}

static size_t taken(void (*call)(void))
{
    size_t one = written(call, 0), other = written(call, 1);
    return one > other ? one : other;
}

static void measure(void)
{
    size_t i, nothing = taken(call_nothing);
    for (i = 0; i < CALLS; i++) {
        size_t bytes = taken(calls[i].call) - nothing;
        if (bytes > calls[i].most)
            calls[i].most = bytes;
    }
}

/* ---- the tables */

/* Measures the table that is there, then its hardening with one byte changed. */
static void measure_table(void)
{
    finuraho_wrote wrote = finuraho_harden(rows, length, lines, sizeof lines);
    lines_length = wrote.length;
    measure();
    if (lines_length == 0)
        return;
    lines[lines_length - 8]++;
    measure();
}

static void tiny(void)
{
    length = 0;
    put(FINURAHO_ROW_FUNCTION, 0, 0, 0, 0);
    put(FINURAHO_ROW_END, 0, 0, 0, 0);
    measure_table();
}

static void example(void)
{
    put_example();
    measure_table();
}

/* 1,024 rows in 32 functions, each of which calls the next. */
static void mostly_dos(void)
{
    uint16_t function, i;
    length = 0;
    for (function = 0; function < FINURAHO_MAX_FUNCTIONS; function++) {
        put(FINURAHO_ROW_FUNCTION, 0, 0, 0, 0);
        for (i = 0; i < 29; i++)
            put(FINURAHO_ROW_DO, 2, 0, 1, 0);
        put(FINURAHO_ROW_CALL, 0, 0, 0, (uint16_t)((function + 1) % FINURAHO_MAX_FUNCTIONS));
        put(FINURAHO_ROW_END, 0, 0, 0, 0);
    }
    measure_table();
}

/* 1,024 rows in 16 functions, each of which calls the next. The run finishes, so it is swept. */
static void sixteen_functions(void)
{
    uint16_t function;
    length = 0;
    for (function = 0; function < FINURAHO_MAX_OPEN; function++) {
        put(FINURAHO_ROW_FUNCTION, 0, 0, 0, 0);
        put_many(61, FINURAHO_ROW_DO);
        if (function < FINURAHO_MAX_OPEN - 1)
            put(FINURAHO_ROW_CALL, 0, 0, 0, (uint16_t)(function + 1));
        else
            put(FINURAHO_ROW_DO, 0, 0, 0, 0);
        put(FINURAHO_ROW_END, 0, 0, 0, 0);
    }
    measure_table();
}

/* One function of 1,022 dos, the one with the most places. */
static void one_function(void)
{
    length = 0;
    put(FINURAHO_ROW_FUNCTION, 0, 0, 0, 0);
    put_many(FINURAHO_MAX_ROWS - 2, FINURAHO_ROW_DO);
    put(FINURAHO_ROW_END, 0, 0, 0, 0);
    measure_table();
}

/* A function that calls itself until 16 are open. No jump leads to another trace, so neither sweep stops early; with the do left out a
 * 17th would open. */
static void recursion(void)
{
    length = 0;
    put(FINURAHO_ROW_FUNCTION, 0, 0, 0, 0);
    put(FINURAHO_ROW_IF, FINURAHO_TEST_DIFFERS, 0, 0, FINURAHO_MAX_OPEN - 1);
    put(FINURAHO_ROW_DO, FINURAHO_DO_ADD, 0, 1, 0);
    put(FINURAHO_ROW_CALL, 0, 0, 0, 0);
    put_many(2, FINURAHO_ROW_END);
    measure_table();
}

/* A loop, an if, an if's else part or a switch's case. */
static void put_opening(char way)
{
    if (way == 's') {
        put(FINURAHO_ROW_SWITCH, 0, 1, 0, 0);
        put(FINURAHO_ROW_CASE, 0, 0, 0, 1);
        return;
    }
    put(way == 'l' ? FINURAHO_ROW_LOOP : FINURAHO_ROW_IF, 1, 1, 0, 0);
    if (way == 'e')
        put(FINURAHO_ROW_ELSE, 0, 0, 0, 0);
}

/* Constructs inside each other to the limit, in every way: `ways` says what the next is. */
static void put_nest(const char *ways, int depth)
{
    int i, k = (int)strlen(ways);
    for (i = 0; i < depth; i++)
        put_opening(ways[i % k]);
    put(FINURAHO_ROW_DO, 2, 0, 1, 0);
    put_many(depth, FINURAHO_ROW_END);
}

static const char *const WAYS[] = {"l", "i", "e", "le", "il", "iel", "s", "sle"};

static void nested(int depth)
{
    size_t way;
    int function;
    for (way = 0; way < sizeof WAYS / sizeof WAYS[0]; way++) {
        length = 0;
        for (function = 0; function < 18; function++) {
            put(FINURAHO_ROW_FUNCTION, 0, 0, 0, 0);
            put_nest(WAYS[way], depth);
            put(FINURAHO_ROW_END, 0, 0, 0, 0);
        }
        measure_table();
    }
}

/* In each function one switch of so many cases, with a default. */
static void switches(uint16_t cases)
{
    uint16_t function, i;
    length = 0;
    for (function = 0; function < 18; function++) {
        put(FINURAHO_ROW_FUNCTION, 0, 0, 0, 0);
        put(FINURAHO_ROW_SWITCH, 0, 1, 0, 0);
        for (i = 0; i < cases; i++)
            put(FINURAHO_ROW_CASE, 0, 0, 0, i);
        put(FINURAHO_ROW_DEFAULT, 0, 0, 0, 0);
        put_many(2, FINURAHO_ROW_END);
    }
    measure_table();
}

/* A row too many at the end of a table, and a table of too many rows. */
static void refused(void)
{
    mostly_dos();
    length -= FINURAHO_ROW_BYTES;
    put(FINURAHO_ROW_BREAK, 0, 0, 0, 0);
    measure_table();
    put(FINURAHO_ROW_END, 0, 0, 0, 0);
    measure_table();
    length = 0;
    measure_table();
}

int main(void)
{
    size_t i;
    int failed = 0;
    tiny();
    example();
    mostly_dos();
    sixteen_functions();
    one_function();
    recursion();
    nested(FINURAHO_MAX_CONSTRUCTS);
    nested(FINURAHO_MAX_CONSTRUCTS + 1);
    switches(FINURAHO_MAX_CONSTRUCTS);
    switches(FINURAHO_MAX_CONSTRUCTS + 1);
    refused();
    for (i = 0; i < CALLS; i++) {
        /* A figure that is twice what was measured says nothing, and nor does a measurement that met nothing. */
        int wrong = calls[i].most > calls[i].allowed || 2 * calls[i].most < calls[i].allowed;
        printf("%s: %zu bytes of stack, at most %zu%s\n", calls[i].name, calls[i].most, calls[i].allowed, wrong ? ": WRONG" : "");
        failed += wrong;
    }
    return failed != 0;
}
