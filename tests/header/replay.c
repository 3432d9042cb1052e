/* Puts each line of standard input to the library through include/finuraho.h and prints what comes back, every lent buffer included.
 * tests/independent/README.md has the form of the lines and of the answers. */
#include <finuraho.h>
#include <stdio.h>
#include <stdlib.h>
#include <string.h>

/* What lent buffers hold before a call. */
#define OUT_FILL 0xa5
#define SLOT_FILL 43690
#define WORD_FILL 21845

/* Elements behind each lent buffer that no call may touch. */
#define SPARE 8

#define LINE_ROOM 400000
#define OUT_ROOM 65536
#define SLOT_ROOM 65536
#define WORD_ROOM 2048

static char line[LINE_ROOM];
static uint8_t bytes[LINE_ROOM / 2];
static size_t bytes_len;
static uint8_t out[OUT_ROOM + SPARE];
static uint16_t trace[SLOT_ROOM + SPARE];
static uint16_t counters[WORD_ROOM + SPARE];
static uint16_t variables[FINURAHO_VARIABLES];

static void stop(const char *why)
{
    fprintf(stderr, "replay: %s\n", why);
    exit(EXIT_FAILURE);
}

static size_t number_at(const char *at, char **end, size_t most)
{
    unsigned long number = strtoul(at, end, 10);
    if (*end == at || number > most)
        stop("not a number that fits here");
    return number;
}

/* A number and the space or comma behind it. */
static size_t take_number(const char **at, size_t most)
{
    char *end;
    size_t number = number_at(*at, &end, most);
    if (*end != ' ' && *end != ',')
        stop("no space or comma behind a number");
    *at = end + 1;
    return number;
}

/* The last word of a line, a number. */
static size_t last_number(const char *at, size_t most)
{
    char *end;
    size_t number = number_at(at, &end, most);
    if (*end != '\0')
        stop("more than a number at the end");
    return number;
}

static void take_variables(const char **at)
{
    size_t v;
    for (v = 0; v < FINURAHO_VARIABLES; v++)
        variables[v] = (uint16_t)take_number(at, 65535);
}

static uint8_t digit(char c)
{
    const char *digits = "0123456789abcdef";
    const char *found = c == '\0' ? NULL : strchr(digits, c);
    if (found == NULL)
        stop("not a digit");
    return (uint8_t)(found - digits);
}

/* The last word of a line: two digits a byte, `-` for none. */
static void take_bytes(const char *at)
{
    bytes_len = 0;
    if (strcmp(at, "-") == 0)
        return;
    while (*at != '\0') {
        bytes[bytes_len++] = (uint8_t)(16 * digit(at[0]) + digit(at[1]));
        at += 2;
    }
}

static void fill(uint16_t *words, size_t length, uint16_t value)
{
    size_t at;
    for (at = 0; at < length; at++)
        words[at] = value;
}

static int all_are(const uint16_t *words, size_t length, uint16_t value)
{
    size_t at;
    for (at = 0; at < length; at++)
        if (words[at] != value)
            return 0;
    return 1;
}

/* The header says that a buffer of length 0 may be NULL, so here it always is. */
static uint8_t *bytes_or_null(uint8_t *these, size_t length)
{
    return length == 0 ? NULL : these;
}

static uint16_t *words_or_null(uint16_t *these, size_t length)
{
    return length == 0 ? NULL : these;
}

static void print_bytes(const uint8_t *these, size_t length)
{
    size_t at;
    for (at = 0; at < length; at++)
        printf("%02x", these[at]);
    printf(length == 0 ? "-" : "");
}

static void print_words(const uint16_t *these, size_t length)
{
    size_t at;
    for (at = 0; at < length; at++)
        printf(at == 0 ? "%u" : ",%u", these[at]);
    printf(length == 0 ? "-" : "");
}

static void print_wrote(finuraho_wrote wrote, size_t out_len)
{
    size_t at;
    printf("%u %zu ", wrote.number, wrote.length);
    print_bytes(out, out_len);
    for (at = out_len; at < out_len + SPARE; at++)
        if (out[at] != OUT_FILL)
            stop("bytes behind the output were changed");
}

static void print_slots(size_t slots)
{
    printf(" ");
    print_words(trace, slots);
    if (!all_are(trace + slots, SPARE, SLOT_FILL))
        stop("words behind the trace were changed");
}

static void print_ran(finuraho_ran ran, size_t slots)
{
    printf("%u %u %u %u ", ran.number, ran.outcome, ran.steps, ran.traced);
    print_words(ran.variables, FINURAHO_VARIABLES);
    print_slots(slots);
}

static const char *counters_after(size_t words)
{
    size_t beyond = words - FINURAHO_COUNTER_WORDS;
    if (!all_are(counters + words, SPARE, WORD_FILL))
        stop("words behind the counters were changed");
    if (all_are(counters, words, WORD_FILL))
        return "kept";
    if (words < FINURAHO_COUNTER_WORDS || !all_are(counters, FINURAHO_COUNTER_WORDS, 0))
        return "other";
    return all_are(counters + FINURAHO_COUNTER_WORDS, beyond, WORD_FILL) ? "zero" : "other";
}

/* `check ROWS` */
static void check(const char *at)
{
    take_bytes(at);
    printf("%u", finuraho_check(bytes_or_null(bytes, bytes_len), bytes_len));
}

/* `fault ROWS`; the number is also that of the check. */
static void fault(const char *at)
{
    const uint8_t *rows;
    finuraho_found found;
    take_bytes(at);
    rows = bytes_or_null(bytes, bytes_len);
    found = finuraho_fault(rows, bytes_len);
    printf("%u %zu", found.number, found.row);
    if (finuraho_check(rows, bytes_len) != found.number)
        stop("check and fault differ");
}

/* `measure ROWS`; the number is also that of the check, and the lines are those that hardening takes room for, not a byte less. */
static void measure(const char *at)
{
    const uint8_t *rows;
    finuraho_measured measured;
    size_t room;
    take_bytes(at);
    rows = bytes_or_null(bytes, bytes_len);
    measured = finuraho_measure(rows, bytes_len);
    printf("%u %u %u %u", measured.number, measured.lines, measured.regions, measured.value);
    if (finuraho_check(rows, bytes_len) != measured.number)
        stop("check and measure differ");
    if (measured.number != FINURAHO_ACCEPTED)
        return;
    room = (size_t)measured.lines * FINURAHO_LINE_BYTES;
    if (finuraho_harden(rows, bytes_len, out, room).length != room ||
        finuraho_harden(rows, bytes_len, out, room - 1).number != FINURAHO_SHORT_OUTPUT)
        stop("measure and harden differ");
}

/* `total STEPS DOS CALLS` */
static void total(const char *at)
{
    uint16_t steps = (uint16_t)take_number(&at, 65535);
    uint16_t dos = (uint16_t)take_number(&at, 65535);
    uint16_t calls = (uint16_t)last_number(at, 65535);
    printf("%lu", (unsigned long)finuraho_hardened_steps(steps, dos, calls));
}

/* `harden OUTLEN ROWS`; the number is also that of the check, but where the output is too short. */
static void harden(const char *at)
{
    size_t out_len = take_number(&at, OUT_ROOM);
    const uint8_t *rows;
    finuraho_wrote wrote;
    take_bytes(at);
    rows = bytes_or_null(bytes, bytes_len);
    memset(out, OUT_FILL, out_len + SPARE);
    wrote = finuraho_harden(rows, bytes_len, bytes_or_null(out, out_len), out_len);
    print_wrote(wrote, out_len);
    if (finuraho_check(rows, bytes_len) != (wrote.number == FINURAHO_SHORT_OUTPUT ? FINURAHO_ACCEPTED : wrote.number))
        stop("check and harden differ");
}

/* `read OUTLEN LINES`; no line asks for the check of hardened bytes, so it is made here. */
static void read_back(const char *at)
{
    size_t out_len = take_number(&at, OUT_ROOM);
    const uint8_t *lines;
    finuraho_wrote wrote;
    take_bytes(at);
    lines = bytes_or_null(bytes, bytes_len);
    memset(out, OUT_FILL, out_len + SPARE);
    wrote = finuraho_read_back(lines, bytes_len, bytes_or_null(out, out_len), out_len);
    print_wrote(wrote, out_len);
    if (finuraho_check_hardened(lines, bytes_len) != (wrote.number == FINURAHO_SHORT_OUTPUT ? FINURAHO_ACCEPTED : wrote.number))
        stop("check_hardened and read_back differ");
}

/* `source BUDGET SLOTS VALUES ROWS` */
static void run_source(const char *at)
{
    uint16_t budget = (uint16_t)take_number(&at, FINURAHO_MAX_BUDGET);
    size_t slots = take_number(&at, SLOT_ROOM);
    take_variables(&at);
    take_bytes(at);
    fill(trace, slots + SPARE, SLOT_FILL);
    print_ran(finuraho_run_source(bytes_or_null(bytes, bytes_len), bytes_len, variables, budget, words_or_null(trace, slots), slots),
              slots);
}

/* `hardened BUDGET STEP PLACE SLOTS WORDS VALUES LINES` */
static void run_hardened(const char *at)
{
    uint16_t budget = (uint16_t)take_number(&at, FINURAHO_MAX_BUDGET);
    uint16_t step = (uint16_t)take_number(&at, 65535);
    uint16_t place = (uint16_t)take_number(&at, 65535);
    size_t slots = take_number(&at, SLOT_ROOM);
    size_t words = take_number(&at, WORD_ROOM);
    take_variables(&at);
    take_bytes(at);
    fill(trace, slots + SPARE, SLOT_FILL);
    fill(counters, words + SPARE, WORD_FILL);
    print_ran(finuraho_run_hardened(bytes_or_null(bytes, bytes_len), bytes_len, variables, budget, step, place,
                                    words_or_null(trace, slots), slots, words_or_null(counters, words), words),
              slots);
    printf(" %s", counters_after(words));
}

/* What both sweeps are given: `BUDGET SLOTS WORDS VALUES LINES` */
struct given {
    const uint8_t *lines;
    uint16_t budget;
    uint16_t *trace;
    size_t slots;
    uint16_t *counters;
    size_t words;
};

static struct given take_sweep(const char *at)
{
    struct given given;
    given.budget = (uint16_t)take_number(&at, FINURAHO_MAX_BUDGET);
    given.slots = take_number(&at, SLOT_ROOM);
    given.words = take_number(&at, WORD_ROOM);
    take_variables(&at);
    take_bytes(at);
    fill(trace, given.slots + SPARE, SLOT_FILL);
    fill(counters, given.words + SPARE, WORD_FILL);
    given.lines = bytes_or_null(bytes, bytes_len);
    given.trace = words_or_null(trace, given.slots);
    given.counters = words_or_null(counters, given.words);
    return given;
}

static void print_lent(struct given given)
{
    print_slots(given.slots);
    printf(" %s", counters_after(given.words));
}

/* `whole BUDGET SLOTS WORDS VALUES LINES` */
static void sweep(const char *at)
{
    struct given given = take_sweep(at);
    finuraho_swept swept = finuraho_sweep(given.lines, bytes_len, variables, given.budget, given.trace, given.slots, given.counters,
                                          given.words);
    printf("%u %lu %lu ", swept.number, (unsigned long)swept.alarms, (unsigned long)swept.same);
    printf("%lu %lu", (unsigned long)swept.other, (unsigned long)swept.unfinished);
    print_lent(given);
}

/* `other BUDGET SLOTS WORDS VALUES LINES` */
static void sweep_other(const char *at)
{
    struct given given = take_sweep(at);
    finuraho_any_other any = finuraho_sweep_other(given.lines, bytes_len, variables, given.budget, given.trace, given.slots,
                                                  given.counters, given.words);
    printf("%u %u", any.number, any.other);
    print_lent(given);
}

static void answer(void)
{
    static const struct {
        const char *word;
        void (*make)(const char *at);
    } calls[] = {
        {"check ", check},    {"fault ", fault},       {"measure ", measure},       {"harden ", harden},
        {"read ", read_back}, {"source ", run_source}, {"hardened ", run_hardened}, {"total ", total},
        {"whole ", sweep},    {"other ", sweep_other},
    };
    size_t call;
    for (call = 0; call < sizeof calls / sizeof calls[0]; call++) {
        size_t length = strlen(calls[call].word);
        if (strncmp(line, calls[call].word, length) == 0) {
            calls[call].make(line + length);
            printf("\n");
            return;
        }
    }
    stop("no such call");
}

int main(void)
{
    while (fgets(line, LINE_ROOM, stdin) != NULL) {
        char *end = strchr(line, '\n');
        if (end == NULL)
            stop("a line is too long or has no end");
        *end = '\0';
        answer();
    }
    return 0;
}
