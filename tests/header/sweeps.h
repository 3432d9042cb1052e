/* The sweeps of named.c: the four counts, the numbers in their order, and what the buffers hold afterwards. */
/* What slots and counter words hold before a sweep. */
#define FILL 43690

static void fill(void)
{
    size_t i;
    for (i = 0; i < BUDGET; i++)
        trace[i] = FILL;
    for (i = 0; i < FINURAHO_COUNTER_WORDS; i++)
        counters[i] = FILL;
}

/* Accepted: the trace at the front of the slots, and words of 0. Turned away: all as they were. */
static void expect_lent(const char *what, uint8_t number, const uint16_t *dos, size_t traced)
{
    size_t i, held = 0;
    if (number != FINURAHO_ACCEPTED)
        traced = 0;
    for (i = 0; i < BUDGET; i++)
        expect(what, trace[i], i < traced ? dos[i] : FILL);
    for (i = 0; i < FINURAHO_COUNTER_WORDS; i++)
        held += counters[i] == (number == FINURAHO_ACCEPTED ? 0 : FILL);
    expect(what, held, FINURAHO_COUNTER_WORDS);
}

/* A sweep: by how many bytes the table is too short, what is lent, and what must come back. */
struct sweep {
    const char *what;
    size_t cut;
    uint16_t budget;
    size_t slots;
    size_t words;
    finuraho_swept must;
};

/* Both calls on the table that is there; `dos` is the trace of its run without a jump. */
static void expect_sweep(struct sweep sweep, const uint16_t *dos, size_t traced)
{
    size_t lines_len = put_hardened() - sweep.cut;
    finuraho_swept must = sweep.must, swept;
    finuraho_any_other any;
    fill();
    swept = finuraho_sweep(lines, lines_len, values, sweep.budget, trace, sweep.slots, counters, sweep.words);
    expect(sweep.what, swept.number, must.number);
    expect(sweep.what, swept.alarms, must.alarms);
    expect(sweep.what, swept.same, must.same);
    expect(sweep.what, swept.other, must.other);
    expect(sweep.what, swept.unfinished, must.unfinished);
    expect_lent(sweep.what, must.number, dos, traced);
    fill();
    any = finuraho_sweep_other(lines, lines_len, values, sweep.budget, trace, sweep.slots, counters, sweep.words);
    expect(sweep.what, any.number, must.number);
    expect(sweep.what, any.other, must.other > 0);
    expect_lent(sweep.what, must.number, dos, traced);
}

#define WORDS FINURAHO_COUNTER_WORDS

/* 01's table: 12 steps of 8 places. Of the numbers 10 comes first, then 9, then 13. */
static const struct sweep EXAMPLE[] = {
    {"sweep, budget 20", 0, 20, 20, WORDS, {FINURAHO_ACCEPTED, 74, 15, 2, 5}},
    {"sweep, budget 12", 0, 12, 12, WORDS, {FINURAHO_ACCEPTED, 73, 13, 1, 9}},
    {"sweep, budget 11", 0, 11, 20, WORDS, {FINURAHO_NOT_FINISHED, 0, 0, 0, 0}},
    {"sweep, budget 0", 0, 0, 0, WORDS, {FINURAHO_NOT_FINISHED, 0, 0, 0, 0}},
    {"sweep, one slot fewer", 0, 20, 19, WORDS, {FINURAHO_SHORT_ROOM, 0, 0, 0, 0}},
    {"sweep, one word fewer", 0, 20, 20, WORDS - 1, {FINURAHO_SHORT_ROOM, 0, 0, 0, 0}},
    {"sweep, budget 11, one slot fewer", 0, 11, 10, WORDS, {FINURAHO_SHORT_ROOM, 0, 0, 0, 0}},
    {"sweep, budget 11, one word fewer", 0, 11, 11, WORDS - 1, {FINURAHO_SHORT_ROOM, 0, 0, 0, 0}},
    {"sweep, all bytes but one", 1, 20, 20, WORDS, {FINURAHO_NOT_HARDENED, 0, 0, 0, 0}},
    {"sweep, all bytes but one, budget 11", 1, 11, 11, WORDS, {FINURAHO_NOT_HARDENED, 0, 0, 0, 0}},
    {"sweep, all bytes but one, one slot fewer", 1, 20, 19, WORDS, {FINURAHO_NOT_HARDENED, 0, 0, 0, 0}},
};

/* One step of 2 places. 18 steps of 23 places and one of 2, with 5 dos to leave out or to do twice; before steps 1 and 2, with v0 = 3 and
 * v1 = 1, a jump before v1 = v1 - v0 overflows. Runs that end, but not by finishing. */
static const struct sweep NOTHING = {"sweep, function and end", 0, 1, 1, WORDS, {FINURAHO_ACCEPTED, 1, 1, 0, 0}};
static const struct sweep EACH = {"sweep, each kind", 0, 20, 20, WORDS, {FINURAHO_ACCEPTED, 385, 19, 10, 2}};
static const struct sweep DEEP = {"sweep, a 17th open", 0, 20, 20, WORDS, {FINURAHO_NOT_FINISHED, 0, 0, 0, 0}};
static const struct sweep OVER = {"sweep, 0 - 1", 0, 20, 20, WORDS, {FINURAHO_NOT_FINISHED, 0, 0, 0, 0}};

static void sweeps(void)
{
    static const uint16_t dos[] = {1, 3, 3}, each[] = {1, 2, 3, 4, 5};
    size_t i;
    put_example();
    for (i = 0; i < sizeof EXAMPLE / sizeof EXAMPLE[0]; i++)
        expect_sweep(EXAMPLE[i], dos, 3);
    put_dos(0);
    expect_sweep(NOTHING, NULL, 0);
    put_each_kind();
    expect_sweep(EACH, each, 5);
    put_recursion();
    expect_sweep(DEEP, NULL, 0);
    put_one_do(FINURAHO_DO_SUBTRACT);
    expect_sweep(OVER, NULL, 0);
}
