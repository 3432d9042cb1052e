/* Finuraho: checks, measures and hardens fee-card programs, reads hardened ones back, runs both, and counts what every single jump does
 * to a hardened run.
 *
 * The rules are document 01, "Counter-hardened statement tables for fee cards", and of document 02 No. 1, switches, No. 2, figures,
 * No. 4, the sweep, No. 5, sums that overflow, and No. 6, the small jump. What each call gives back, for all bytes, numbers and buffers,
 * is proved (crates/finuraho_c/src/lib.rt) to be what Calls.antt, Fault.antt, Measure.antt, Steps.antt and SweepCall.antt of
 * crates/rules/specs say. That this header fits the library is not proved: tests/header/run tests it.
 *
 * examples/library makes target/staticlib/libfinuraho.a, the library to link: into programs for x86-64 Linux. Of the C library it needs
 * memcpy and memset. docs/FORMAT.md has rows, lines, figures, limits and numbers on one page.
 *
 * What a caller must keep, in every call:
 *   - A pointer followed by a length is valid for that many elements, bytes or 16-bit words, until the call returns. With the
 *     length 0 it may be NULL.
 *   - `variables` is not NULL: it is valid for 16 words.
 *   - A pointer to words is aligned as uint16_t is.
 *   - A buffer that is lent to be written (out, trace, counters) overlaps no other buffer of that call. Buffers that are only read
 *     may overlap each other.
 *   - No other thread writes to a buffer of the call, or reads one that is lent to be written, until the call returns.
 * Nothing else is asked: any bytes, any numbers and any lengths get an answer. A call allocates nothing and keeps nothing for the
 * next one, so threads may call at the same time with buffers of their own.
 */
#ifndef FINURAHO_H
#define FINURAHO_H

#include <stddef.h>
#include <stdint.h>

#ifdef __cplusplus
extern "C" {
#endif

/* The version of this header and of the library that it came with: 10,000 x major + 100 x minor + patch. */
#define FINURAHO_VERSION 10600
#define FINURAHO_VERSION_STRING "1.6.0"

/* The number of a call: 0, or why it was turned away. After any number but 0 every lent buffer is as it was. */
#define FINURAHO_ACCEPTED 0
#define FINURAHO_NO_WHOLE_ROWS 1      /* the bytes are no whole rows, or there are none */
#define FINURAHO_TOO_MANY_ROWS 2      /* over 1,024 rows, as given or as the chain that they stand for */
#define FINURAHO_WRONG_FIELD 3        /* a kind, op, p, q or an unused field is wrong */
#define FINURAHO_MISPLACED 4          /* a row stands where it may not, or something is left open at the end */
#define FINURAHO_TOO_MANY_FUNCTIONS 5 /* a 33rd function */
#define FINURAHO_TOO_MANY_PARTS 6     /* a 17th open if or loop, each case of an open switch being an if, or a 65th region */
#define FINURAHO_NO_SUCH_FUNCTION 7   /* a call of a function that is not there */
#define FINURAHO_SHORT_OUTPUT 8       /* `out` is shorter than the answer */
#define FINURAHO_SHORT_ROOM 9         /* fewer trace slots than the budget, or fewer than 1,024 counter words */
#define FINURAHO_NOT_HARDENED 10      /* no source table hardens to these bytes */
#define FINURAHO_REPEATED_CASE 11     /* a case with the number of another case of its switch */
#define FINURAHO_NOT_FINISHED 13      /* the run without a jump, which a sweep strikes, does not finish in the budget */

/* The outcome of an accepted run. The step that ends in an alarm, in too many open functions or in an overflow is counted. */
#define FINURAHO_BUDGET_SPENT 0  /* exactly the budget was taken */
#define FINURAHO_FINISHED 1
#define FINURAHO_ALARM 2
#define FINURAHO_TOO_MANY_OPEN 3 /* a call with 16 functions open; it is not made */
#define FINURAHO_BEYOND 4        /* the jump's place is beyond the function's last; the step struck is not taken */
#define FINURAHO_OVERFLOW 5      /* a do's sum is over 65,535 or its difference below 0; it changes neither variables nor trace */

/* Sizes. A row hardens to at most 2 lines, so 40 bytes for each row always suffice for its hardened table; a case to at most 3, its
 * else, its test and its end, so with switches it is 60 bytes for each row as given. 40,960 bytes suffice for every table.
 * finuraho_measure is exact: it says how many lines a table hardens to. */
#define FINURAHO_ROW_BYTES 6
#define FINURAHO_LINE_BYTES 20
#define FINURAHO_MAX_ROWS 1024
#define FINURAHO_MAX_LINES 2048
#define FINURAHO_MAX_SOURCE_BYTES 6144    /* every source table fits: 1,024 rows of 6 bytes */
#define FINURAHO_MAX_HARDENED_BYTES 40960 /* every hardened table fits: 2,048 lines of 20 bytes */
#define FINURAHO_VARIABLES 16
#define FINURAHO_COUNTER_WORDS 1024       /* words of 16 bits: 2,048 bytes */
#define FINURAHO_MAX_BUDGET 65535         /* as many trace slots, 131,070 bytes, are enough for every run */

/* A row's bytes are kind, op, p, q, n low, n high. Its kind: */
#define FINURAHO_ROW_FUNCTION 0x01
#define FINURAHO_ROW_DO 0x02
#define FINURAHO_ROW_IF 0x03
#define FINURAHO_ROW_ELSE 0x04
#define FINURAHO_ROW_LOOP 0x05
#define FINURAHO_ROW_END 0x06      /* of a function, an if, a loop or a switch */
#define FINURAHO_ROW_BREAK 0x07
#define FINURAHO_ROW_CONTINUE 0x08
#define FINURAHO_ROW_CALL 0x09     /* n is the function's number */
#define FINURAHO_ROW_SWITCH 0x0a   /* on vp */
#define FINURAHO_ROW_CASE 0x0b     /* n is the value of vp */
#define FINURAHO_ROW_DEFAULT 0x0c  /* behind all cases */

/* A switch stands for a chain of ifs in elses: its first case for the row of an if that tests vp = n, each later case for an else and
 * such an if, a default behind a case for an else, a default alone for no row, and its end for as many ends as it has cases. An empty
 * switch stands for no rows. Such a table is hardened and run as its chain: row numbers in a trace, steps, regions and limits are the
 * chain's, and reading back gives the chain. Rows that finuraho_fault names are those given. */

/* The op of a do. */
#define FINURAHO_DO_NUMBER 0   /* vp = n */
#define FINURAHO_DO_VARIABLE 1 /* vp = vq */
#define FINURAHO_DO_ADD 2      /* vp = vp + vq; over 65,535 it ends a run with FINURAHO_OVERFLOW */
#define FINURAHO_DO_SUBTRACT 3 /* vp = vp - vq; below 0 likewise */

/* The op of an if or a loop. */
#define FINURAHO_TEST_EQUAL 0   /* vp = n */
#define FINURAHO_TEST_DIFFERS 1 /* vp differs from n */
#define FINURAHO_TEST_LESS 2    /* vp less than vq */

/* A hardened line's bytes are kind, op, p, q, n (2), r, s, t, 0, e (2), a (2), b (2), c (2), go (2), low bytes first. Its kind: */
#define FINURAHO_LINE_DO 0x21
#define FINURAHO_LINE_TICK 0x22
#define FINURAHO_LINE_TEST 0x23
#define FINURAHO_LINE_LEAVE 0x24
#define FINURAHO_LINE_OUT 0x25
#define FINURAHO_LINE_CALL 0x26
#define FINURAHO_LINE_BACK 0x27
#define FINURAHO_LINE_RET 0x28

/* The other limits of a table and of a run. */
#define FINURAHO_MAX_FUNCTIONS 32  /* in a table */
#define FINURAHO_MAX_CONSTRUCTS 16 /* ifs and loops open at one row, each case of an open switch being an if */
#define FINURAHO_MAX_REGIONS 64    /* in a function, its body among them */
#define FINURAHO_MAX_OPEN 16       /* functions open in a run, the first among them */

/* The bytes of stack that each call takes at most, whatever it is given. They are measured (tests/stack/run) and not proved. */
#define FINURAHO_STACK_CHECK 10000
#define FINURAHO_STACK_FAULT 2600
#define FINURAHO_STACK_MEASURE 10000
#define FINURAHO_STACK_HARDEN 28000
#define FINURAHO_STACK_CHECK_HARDENED 32000
#define FINURAHO_STACK_READ_BACK 32000
#define FINURAHO_STACK_RUN_SOURCE 26000
#define FINURAHO_STACK_RUN_HARDENED 32800
#define FINURAHO_STACK_HARDENED_STEPS 16
#define FINURAHO_STACK_SWEEP 37000
#define FINURAHO_STACK_SWEEP_OTHER 37000

/* The step number that means no jump, whatever the place. */
#define FINURAHO_NO_JUMP 65535

/* The answer of a call that writes a table. */
typedef struct finuraho_wrote {
    uint8_t number; /* 0, or why the call was turned away */
    size_t length;  /* the answer's bytes, from the front of `out`; 0 where the call was turned away */
} finuraho_wrote;

/* The answer of the call that finds a table's fault. */
typedef struct finuraho_found {
    uint8_t number; /* 0, or why the table is turned away: 1 to 7 or 11, as the check gives it */
    size_t row;     /* the row that the number is about, from 0, among those given */
} finuraho_found;

/* The answer of the call that measures a table: the figures of its hardened table. Turned away: they are 0. */
typedef struct finuraho_measured {
    uint8_t number;  /* 0, or why the table is turned away: 1 to 7 or 11 */
    uint8_t regions; /* the most regions that a function has */
    uint16_t lines;  /* 20 bytes each */
    uint16_t value;  /* the highest counter value that a line names */
} finuraho_measured;

/* The answer of a run. Turned away: outcome, steps and traced are 0 and the variables are those given. */
typedef struct finuraho_ran {
    uint8_t number;                         /* 0, or why the call was turned away */
    uint8_t outcome;                        /* how the run ended: 0 to 5; it means nothing where number is not 0 */
    uint16_t steps;                         /* the steps taken: at most the budget */
    uint16_t traced;                        /* the trace's length: that many slots from the front of `trace` */
    uint16_t variables[FINURAHO_VARIABLES]; /* v0 to v15 as the run left them */
} finuraho_ran;

/* The answer of a sweep: how many of its struck runs ended each way. Turned away: the counts are 0. */
typedef struct finuraho_swept {
    uint8_t number;      /* 0, or why the call was turned away: 9, 10 or 13 */
    uint32_t alarms;     /* with an alarm */
    uint32_t same;       /* finished, with the trace of the run without a jump */
    uint32_t other;      /* finished, with another trace: jumps that change it unseen */
    uint32_t unfinished; /* any other way: the budget spent, too many open functions, or an overflow */
} finuraho_swept;

/* The answer of the call that only asks whether the sweep's `other` is above 0. */
typedef struct finuraho_any_other {
    uint8_t number; /* 0, or why the call was turned away: 9, 10 or 13 */
    uint8_t other;  /* 1 where it is, else 0; 0 where the call was turned away */
} finuraho_any_other;

/* Checks a source table.
 * rows, rows_len: its bytes, 6 a row; only read.
 * Returns 0, or 1 to 7 or 11. */
uint8_t finuraho_check(const uint8_t *rows, size_t rows_len);

/* Finds the fault of a source table.
 * rows, rows_len: its bytes, 6 a row; only read.
 * Returns the number of the check, and the row that it is about:
 *     1: the row that is not whole, 0 where there are no bytes;
 *     2: 1024, the first row that is one too many, or the first row with which the chain has over 1,024;
 *     3, 5, 6, 7, 11: the first such row; 4: the first such row, or the number of rows where something is left open at the end;
 *     0: the number of rows, since there is no fault. */
finuraho_found finuraho_fault(const uint8_t *rows, size_t rows_len);

/* Measures a source table: how much its hardened table takes. No table is written.
 * rows, rows_len: its bytes, 6 a row; only read.
 * Returns the figures of the table that finuraho_harden gives for these rows. An output of 20 x `lines` bytes is exactly enough for
 *     that call, and one byte less meets 8.
 * Turned away with 1 to 7 or 11, as finuraho_harden is. */
finuraho_measured finuraho_measure(const uint8_t *rows, size_t rows_len);

/* Hardens a source table.
 * rows, rows_len: its bytes, 6 a row; only read.
 * out, out_len: room for the answer, in bytes; what it holds before does not matter. Accepted: the hardened table, 20 bytes a line,
 *     stands at its front, and the bytes beyond `length` are as they were. Turned away: all bytes are as they were.
 * Turned away with 1 to 7 or 11, or with 8 where out_len is less than the answer's bytes; equal is enough. */
finuraho_wrote finuraho_harden(const uint8_t *rows, size_t rows_len, uint8_t *out, size_t out_len);

/* Checks a hardened table.
 * lines, lines_len: its bytes, 20 a line; only read.
 * Returns 0 where some source table hardens to exactly these bytes, else 10. */
uint8_t finuraho_check_hardened(const uint8_t *lines, size_t lines_len);

/* Reads a hardened table back.
 * lines, lines_len: its bytes, 20 a line; only read.
 * out, out_len: room for the answer, in bytes; what it holds before does not matter. Accepted: the source table, 6 bytes a row and
 *     switches as their chains, stands at its front, and the bytes beyond `length` are as they were. Turned away: all bytes are as
 *     they were.
 * Turned away with 10, or 8 where out_len is less than the answer's bytes; equal is enough. */
finuraho_wrote finuraho_read_back(const uint8_t *lines, size_t lines_len, uint8_t *out, size_t out_len);

/* Runs a source table.
 * rows, rows_len: its bytes, 6 a row; only read.
 * variables: the first values of v0 to v15; only read, the last values are in the answer.
 * budget: the most steps that the run may take.
 * trace, trace_len: slots for the trace, in words; what they hold before does not matter. Accepted: the row numbers of the dos done,
 *     in order, stand at its front, and the slots beyond `traced` are as they were. Turned away: all slots are as they were.
 * Turned away with 1 to 7 or 11, or with 9 where trace_len is less than the budget, whatever the run would need; equal is enough. */
finuraho_ran finuraho_run_source(const uint8_t *rows, size_t rows_len, const uint16_t variables[FINURAHO_VARIABLES],
                                 uint16_t budget, uint16_t *trace, size_t trace_len);

/* Runs a hardened table, with one jump or none.
 * lines, lines_len: its bytes, 20 a line; only read.
 * variables, budget, trace, trace_len: as for a source run.
 * step, place: before step `step`, from 0, the running function goes to its place `place`, counted from its first line.
 *     FINURAHO_NO_JUMP as the step is no jump. A run that ends before that step, or has it as its budget, is not struck.
 *     What a jump that strikes comes to, exactly: beyond the function's last place FINURAHO_BEYOND; across a guard (any line but a do) the
 *     alarm in that step or the next, if the budget holds it, or FINURAHO_OVERFLOW where it lands before a do that overflows; with no
 *     guard between, the source's run with one do left out this once (from before it to before its tick) or done twice (back), and to the
 *     place where the run stands nothing.
 * counters, counters_len: at least 1,024 words for the run's counters; what they hold before does not matter. Accepted: the first
 *     1,024 are 0, those beyond are as they were. Turned away: all words are as they were.
 * Turned away with 10, or 9 where trace_len is less than the budget or counters_len less than 1,024. */
finuraho_ran finuraho_run_hardened(const uint8_t *lines, size_t lines_len, const uint16_t variables[FINURAHO_VARIABLES],
                                   uint16_t budget, uint16_t step, uint16_t place, uint16_t *trace, size_t trace_len,
                                   uint16_t *counters, size_t counters_len);

/* Gives the steps of a hardened run without a jump, from its source's run.
 * steps, dos, calls: of a source run that finished: its steps, its `traced`, and the calls that it made. No answer carries the calls:
 *     the program `run source` prints them, in the line `calls N`.
 * Returns the sum of the three, whole. The hardened run of the same table and values finishes in exactly so many steps where its
 *     budget holds them. A sum past 65,535 is no run's: no budget lets the hardened run finish. Nothing is turned away. */
uint32_t finuraho_hardened_steps(uint16_t steps, uint16_t dos, uint16_t calls);

/* Sweeps a hardened table: strikes its run before each step with each place of the function running then, the place where it stands
 * included, and counts how the struck runs end. Steps and functions are those of the run without a jump; a function of m lines has the
 * places 0 to m.
 * lines, lines_len: its bytes, 20 a line; only read.
 * variables, budget: as for a run; every run of the sweep has the same.
 * trace, trace_len: slots, in words; what they hold before does not matter. Accepted: the trace of the run without a jump stands at its
 *     front, and the slots beyond are as they were; `traced` of that run is its length. Turned away: all slots are as they were.
 * counters, counters_len: as for a hardened run.
 * Returns the four counts. They add up to the sum, over the steps, of the places of the function running then.
 * Turned away with 10, or 9 where trace_len is less than the budget or counters_len less than 1,024, or 13 where the run without a
 *     jump does not finish in the budget.
 * It takes a test for each step and place, and for each step before a do or before its tick a run of at most the budget that is left:
 *     microseconds for a small program, seconds for one of 60,000 steps. */
finuraho_swept finuraho_sweep(const uint8_t *lines, size_t lines_len, const uint16_t variables[FINURAHO_VARIABLES], uint16_t budget,
                              uint16_t *trace, size_t trace_len, uint16_t *counters, size_t counters_len);

/* Says only whether the sweep's `other` is above 0, and stops at the first such jump.
 * It is given, leaves in the buffers and is turned away with the same as the sweep. */
finuraho_any_other finuraho_sweep_other(const uint8_t *lines, size_t lines_len, const uint16_t variables[FINURAHO_VARIABLES],
                                        uint16_t budget, uint16_t *trace, size_t trace_len, uint16_t *counters, size_t counters_len);

#ifdef __cplusplus
}
#endif

#endif
