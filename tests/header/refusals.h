/* The source tables of named.c that are turned away: the number of each, its row, and that it has no figures. */
static void too_many_rows(void)
{
    put_dos(FINURAHO_MAX_ROWS - 2);
    expect("bytes of 1,024 rows", length, FINURAHO_MAX_SOURCE_BYTES);
    expect("1,024 rows", finuraho_check(rows, length), FINURAHO_ACCEPTED);
    expect("lines within their room", put_hardened() <= FINURAHO_MAX_LINES * FINURAHO_LINE_BYTES, 1);
    put_dos(FINURAHO_MAX_ROWS - 1);
    expect("1,025 rows", finuraho_check(rows, length), FINURAHO_TOO_MANY_ROWS);
}

static void wrong_or_misplaced(void)
{
    put_example();
    expect("half a row", finuraho_check(rows, length - 3), FINURAHO_NO_WHOLE_ROWS);
    rows[0] = 0x0d;
    expect("no such kind", finuraho_check(rows, length), FINURAHO_WRONG_FIELD);
    put_example();
    expect("a lone function row", finuraho_check(rows, FINURAHO_ROW_BYTES), FINURAHO_MISPLACED);
    length = 0;
    put(FINURAHO_ROW_FUNCTION, 0, 0, 0, 0);
    put(FINURAHO_ROW_CALL, 0, 0, 0, 1);
    put(FINURAHO_ROW_END, 0, 0, 0, 0);
    expect("no such function", finuraho_check(rows, length), FINURAHO_NO_SUCH_FUNCTION);
}

static void expect_figures(const char *what, size_t rows_len, uint8_t number, size_t lines_count, size_t regions, size_t value)
{
    finuraho_measured measured = finuraho_measure(rows, rows_len);
    expect(what, measured.number, number);
    expect(what, measured.lines, lines_count);
    expect(what, measured.regions, regions);
    expect(what, measured.value, value);
}

/* A table that has a fault has no figures. */
static void expect_fault(const char *what, size_t rows_len, uint8_t number, size_t row)
{
    finuraho_found found = finuraho_fault(rows, rows_len);
    expect(what, found.number, number);
    expect(what, found.row, row);
    if (number != FINURAHO_ACCEPTED)
        expect_figures(what, rows_len, number, 0, 0, 0);
}

/* The row of each number, as the header says. */
static void found_rows(void)
{
    put_dos(FINURAHO_MAX_ROWS - 1);
    expect_fault("fault, 1,025 rows", length, FINURAHO_TOO_MANY_ROWS, FINURAHO_MAX_ROWS);
    put_example();
    expect_fault("fault, none", length, FINURAHO_ACCEPTED, 6);
    expect_fault("fault, half a row", length - 3, FINURAHO_NO_WHOLE_ROWS, 5);
    expect_fault("fault, left open", length - FINURAHO_ROW_BYTES, FINURAHO_MISPLACED, 5);
    rows[3 * FINURAHO_ROW_BYTES] = 0x0d;
    expect_fault("fault, no such kind", length, FINURAHO_WRONG_FIELD, 3);
    put_example();
    put(FINURAHO_ROW_DO, 0, 0, 0, 0);
    expect_fault("fault, outside a function", length, FINURAHO_MISPLACED, 6);
    length = 0;
    put(FINURAHO_ROW_FUNCTION, 0, 0, 0, 0);
    put(FINURAHO_ROW_CALL, 0, 0, 0, 0);
    put(FINURAHO_ROW_CALL, 0, 0, 0, 1);
    put(FINURAHO_ROW_END, 0, 0, 0, 0);
    expect_fault("fault, no such function", length, FINURAHO_NO_SUCH_FUNCTION, 2);
}

static uint8_t check_functions(int count)
{
    int i;
    length = 0;
    for (i = 0; i < count; i++) {
        put(FINURAHO_ROW_FUNCTION, 0, 0, 0, 0);
        put(FINURAHO_ROW_END, 0, 0, 0, 0);
    }
    return finuraho_check(rows, length);
}

static uint8_t check_open(int count)
{
    length = 0;
    put(FINURAHO_ROW_FUNCTION, 0, 0, 0, 0);
    put_many(count, FINURAHO_ROW_IF);
    put_many(count + 1, FINURAHO_ROW_END);
    return finuraho_check(rows, length);
}

/* The body is a region, and each if has one. */
static uint8_t check_regions(int count)
{
    int i;
    length = 0;
    put(FINURAHO_ROW_FUNCTION, 0, 0, 0, 0);
    for (i = 1; i < count; i++) {
        put(FINURAHO_ROW_IF, 0, 0, 0, 0);
        put(FINURAHO_ROW_END, 0, 0, 0, 0);
    }
    put(FINURAHO_ROW_END, 0, 0, 0, 0);
    return finuraho_check(rows, length);
}

static void too_many_parts(void)
{
    expect("32 functions", check_functions(FINURAHO_MAX_FUNCTIONS), FINURAHO_ACCEPTED);
    expect("33 functions", check_functions(FINURAHO_MAX_FUNCTIONS + 1), FINURAHO_TOO_MANY_FUNCTIONS);
    expect_fault("fault, 33 functions", length, FINURAHO_TOO_MANY_FUNCTIONS, 2 * FINURAHO_MAX_FUNCTIONS);
    expect("16 open", check_open(FINURAHO_MAX_CONSTRUCTS), FINURAHO_ACCEPTED);
    expect("17 open", check_open(FINURAHO_MAX_CONSTRUCTS + 1), FINURAHO_TOO_MANY_PARTS);
    expect_fault("fault, 17 open", length, FINURAHO_TOO_MANY_PARTS, FINURAHO_MAX_CONSTRUCTS + 1);
    expect("64 regions", check_regions(FINURAHO_MAX_REGIONS), FINURAHO_ACCEPTED);
    expect("65 regions", check_regions(FINURAHO_MAX_REGIONS + 1), FINURAHO_TOO_MANY_PARTS);
    expect_fault("fault, 65 regions", length, FINURAHO_TOO_MANY_PARTS, 2 * FINURAHO_MAX_REGIONS - 1);
}

/* One function with a switch on v0: so many cases, 0, 1 and on, so many dos in the last of them, and a default. */
static void put_switch(int cases, int dos)
{
    int i;
    length = 0;
    put(FINURAHO_ROW_FUNCTION, 0, 0, 0, 0);
    put(FINURAHO_ROW_SWITCH, 0, 0, 0, 0);
    for (i = 0; i < cases; i++)
        put(FINURAHO_ROW_CASE, 0, 0, 0, (uint16_t)i);
    put_many(dos, FINURAHO_ROW_DO);
    put(FINURAHO_ROW_DEFAULT, 0, 0, 0, 0);
    put_many(2, FINURAHO_ROW_END);
}

/* With two cases the chain has one row more than is given. */
static void wrong_switches(void)
{
    put_switch(2, 1);
    rows[3 * FINURAHO_ROW_BYTES + 4] = 0;
    expect("case 0 again", finuraho_check(rows, length), FINURAHO_REPEATED_CASE);
    expect_fault("fault, case 0 again", length, FINURAHO_REPEATED_CASE, 3);
    put_switch(FINURAHO_MAX_CONSTRUCTS, 0);
    expect("16 cases", finuraho_check(rows, length), FINURAHO_ACCEPTED);
    put_switch(FINURAHO_MAX_CONSTRUCTS + 1, 0);
    expect("17 cases", finuraho_check(rows, length), FINURAHO_TOO_MANY_PARTS);
    expect_fault("fault, 17 cases", length, FINURAHO_TOO_MANY_PARTS, FINURAHO_MAX_CONSTRUCTS + 2);
    put_switch(2, FINURAHO_MAX_ROWS - 8);
    expect("a chain of 1,024 rows", finuraho_check(rows, length), FINURAHO_ACCEPTED);
    put_switch(2, FINURAHO_MAX_ROWS - 7);
    expect("bytes of 1,024 rows with a switch", length, FINURAHO_MAX_SOURCE_BYTES);
    expect("a chain of 1,025 rows", finuraho_check(rows, length), FINURAHO_TOO_MANY_ROWS);
    expect_fault("fault, a chain of 1,025 rows", length, FINURAHO_TOO_MANY_ROWS, FINURAHO_MAX_ROWS - 1);
}
