/* A table that a test in C makes row by row. */
#ifndef ROWS_H
#define ROWS_H

#include <finuraho.h>
#include <string.h>

/* Sixteen rows beyond the largest table, for one that is refused. */
static uint8_t rows[FINURAHO_MAX_SOURCE_BYTES + 16 * FINURAHO_ROW_BYTES];
static size_t length;

static void put(uint8_t kind, uint8_t op, uint8_t p, uint8_t q, uint16_t n)
{
    const uint8_t row[FINURAHO_ROW_BYTES] = {kind, op, p, q, (uint8_t)(n % 256), (uint8_t)(n / 256)};
    memcpy(rows + length, row, sizeof row);
    length += sizeof row;
}

static void put_many(int count, uint8_t kind)
{
    int i;
    for (i = 0; i < count; i++)
        put(kind, 0, 0, 0, 0);
}

/* 01's example: v0 = 2, then v1 is taken away from it until it is 0. */
static void put_example(void)
{
    length = 0;
    put(FINURAHO_ROW_FUNCTION, 0, 0, 0, 0);
    put(FINURAHO_ROW_DO, FINURAHO_DO_NUMBER, 0, 0, 2);
    put(FINURAHO_ROW_LOOP, FINURAHO_TEST_DIFFERS, 0, 0, 0);
    put(FINURAHO_ROW_DO, FINURAHO_DO_SUBTRACT, 0, 1, 0);
    put_many(2, FINURAHO_ROW_END);
}

#endif
