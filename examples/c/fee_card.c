/* Document 01's example program, measured, hardened and run: unstruck, struck by a jump that the counters catch, and by one that they
 * cannot; then swept by every single jump. Then a tariff by bands, written as a switch, the same way, for three numbers of hives. */
#include <finuraho.h>
#include <stdio.h>
#include <stdlib.h>

#define BUDGET 20

/* v0 = 2; while v0 differs from 0: v0 = v0 - v1. */
static const uint8_t ROWS[] = {
    FINURAHO_ROW_FUNCTION, 0, 0, 0, 0, 0,                 /* row 0 */
    FINURAHO_ROW_DO, FINURAHO_DO_NUMBER, 0, 0, 2, 0,      /* row 1: v0 = 2 */
    FINURAHO_ROW_LOOP, FINURAHO_TEST_DIFFERS, 0, 0, 0, 0, /* row 2: while v0 differs from 0 */
    FINURAHO_ROW_DO, FINURAHO_DO_SUBTRACT, 0, 1, 0, 0,    /* row 3: v0 = v0 - v1 */
    FINURAHO_ROW_END, 0, 0, 0, 0, 0,                      /* row 4: of the loop */
    FINURAHO_ROW_END, 0, 0, 0, 0, 0,                      /* row 5: of the function */
};

/* The fee v1 by the hives v0. */
static const uint8_t BANDS[] = {
    FINURAHO_ROW_FUNCTION, 0, 0, 0, 0, 0,
    FINURAHO_ROW_SWITCH, 0, 0, 0, 0, 0,                   /* on v0 */
    FINURAHO_ROW_CASE, 0, 0, 0, 10, 0,                    /* 10: */
    FINURAHO_ROW_DO, FINURAHO_DO_NUMBER, 1, 0, 0x84, 3,   /* v1 = 900 */
    FINURAHO_ROW_CASE, 0, 0, 0, 50, 0,                    /* 50: */
    FINURAHO_ROW_DO, FINURAHO_DO_NUMBER, 1, 0, 0xbc, 2,   /* v1 = 700 */
    FINURAHO_ROW_DEFAULT, 0, 0, 0, 0, 0,                  /* any other: */
    FINURAHO_ROW_DO, FINURAHO_DO_NUMBER, 1, 0, 0x90, 1,   /* v1 = 400 */
    FINURAHO_ROW_END, 0, 0, 0, 0, 0,                      /* of the switch */
    FINURAHO_ROW_END, 0, 0, 0, 0, 0,                      /* of the function */
};

static const uint16_t VALUES[FINURAHO_VARIABLES] = {0, 1};

static const char *const OUTCOMES[] = {"budget spent", "finished", "alarm", "too many open functions", "place beyond the last",
                                       "overflow"};

static void stop_if_refused(uint8_t number)
{
    if (number == FINURAHO_ACCEPTED)
        return;
    printf("refused %u\n", number);
    exit(EXIT_FAILURE);
}

struct table {
    uint8_t *lines;
    size_t length;
};

/* A hardened table, in exactly the memory that it takes. The caller frees its lines. */
static struct table harden(const uint8_t *rows, size_t rows_len)
{
    finuraho_measured measured = finuraho_measure(rows, rows_len);
    struct table table;
    stop_if_refused(measured.number);
    table.length = (size_t)measured.lines * FINURAHO_LINE_BYTES;
    printf("%u lines, %zu bytes, %u regions, values up to %u\n", measured.lines, table.length, measured.regions, measured.value);
    table.lines = malloc(table.length);
    if (table.lines == NULL) {
        fprintf(stderr, "no memory for %zu bytes\n", table.length);
        exit(EXIT_FAILURE);
    }
    stop_if_refused(finuraho_harden(rows, rows_len, table.lines, table.length).number);
    return table;
}

static void print_lines(struct table table)
{
    size_t at;
    for (at = 0; at < table.length; at++) {
        printf("%02x", table.lines[at]);
        if (at % FINURAHO_LINE_BYTES == FINURAHO_LINE_BYTES - 1)
            printf("\n");
    }
}

static void print_run(const char *what, finuraho_ran ran, const uint16_t *trace)
{
    size_t slot;
    stop_if_refused(ran.number);
    printf("%s: %s, %u steps, v0 = %u, trace", what, OUTCOMES[ran.outcome], ran.steps, ran.variables[0]);
    for (slot = 0; slot < ran.traced; slot++)
        printf(" %u", trace[slot]);
    printf(ran.traced == 0 ? " empty\n" : "\n");
}

static void run_source(void)
{
    uint16_t trace[BUDGET];
    finuraho_ran ran = finuraho_run_source(ROWS, sizeof ROWS, VALUES, BUDGET, trace, BUDGET);
    print_run("source", ran, trace);
    /* Its dos are its trace's length; the table has no call. */
    printf("hardened it takes %lu steps\n", (unsigned long)finuraho_hardened_steps(ran.steps, ran.traced, 0));
}

static void run_hardened(const char *what, struct table table, uint16_t step, uint16_t place)
{
    uint16_t trace[BUDGET];
    uint16_t counters[FINURAHO_COUNTER_WORDS];
    finuraho_ran ran = finuraho_run_hardened(table.lines, table.length, VALUES, BUDGET, step, place, trace, BUDGET, counters,
                                             FINURAHO_COUNTER_WORDS);
    print_run(what, ran, trace);
}

/* What comes of every single jump. One that ends with another trace goes unseen. */
static void sweep(struct table table, const uint16_t values[FINURAHO_VARIABLES])
{
    uint16_t trace[BUDGET];
    uint16_t counters[FINURAHO_COUNTER_WORDS];
    finuraho_swept swept = finuraho_sweep(table.lines, table.length, values, BUDGET, trace, BUDGET, counters, FINURAHO_COUNTER_WORDS);
    stop_if_refused(swept.number);
    printf("single jumps: %lu alarms, %lu with the same trace, ", (unsigned long)swept.alarms, (unsigned long)swept.same);
    printf("%lu with another, %lu unfinished\n", (unsigned long)swept.other, (unsigned long)swept.unfinished);
}

static void quote(struct table table, uint16_t hives)
{
    const uint16_t values[FINURAHO_VARIABLES] = {hives};
    uint16_t trace[BUDGET];
    uint16_t counters[FINURAHO_COUNTER_WORDS];
    finuraho_ran ran = finuraho_run_hardened(table.lines, table.length, values, BUDGET, FINURAHO_NO_JUMP, 0, trace, BUDGET, counters,
                                             FINURAHO_COUNTER_WORDS);
    stop_if_refused(ran.number);
    printf("%u hives: %s, %u steps, fee %u\n", hives, OUTCOMES[ran.outcome], ran.steps, ran.variables[1]);
    sweep(table, values);
}

static void run_example(void)
{
    struct table table = harden(ROWS, sizeof ROWS);
    print_lines(table);
    run_source();
    run_hardened("hardened", table, FINURAHO_NO_JUMP, 0);
    /* From inside the loop to the return, over the guards between: caught before v0 = 1 is taken for the result. */
    run_hardened("jump before step 4 to place 6", table, 4, 6);
    /* Over line 0 alone, a do: no guard lies between, so the run goes on as if nothing had happened, without row 1. */
    run_hardened("jump before step 0 to place 1", table, 0, 1);
    /* Over guards, to the do that takes v1 = 1 from v0, which is 0 yet: the difference is no fee, and the run ends there. */
    run_hardened("jump before step 0 to place 3", table, 0, 3);
    sweep(table, VALUES);
    free(table.lines);
}

static void quote_bands(void)
{
    struct table table = harden(BANDS, sizeof BANDS);
    quote(table, 10);
    quote(table, 50);
    quote(table, 200);
    free(table.lines);
}

int main(void)
{
    run_example();
    quote_bands();
    return 0;
}
