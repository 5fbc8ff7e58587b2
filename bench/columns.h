/*
 * The columns that pairs are chosen for, in cost.c and looked.c: 16,384 values, the same on every machine.
 *
 *     prices      two decimals around 100, each near the one before: ./demo's
 *     random      any bits
 *     constant    1.25 all along
 */
#ifndef COLUMNS_H
#define COLUMNS_H

#include <stdint.h>
#include <stdio.h>
#include <stdlib.h>
#include <string.h>

enum { VALUES = 16384 };

static uint32_t column32[VALUES];
static uint64_t column64[VALUES];

static void fail(const char *what)
{
    fprintf(stderr, "bench: %s\n", what);
    exit(2);
}

static int is(const char *word, const char *other)
{
    return strcmp(word, other) == 0;
}

/* Numbers without a pattern: xorshift. */
static uint64_t any(void)
{
    static uint64_t state = 88172645463325252u;
    state ^= state << 13;
    state ^= state >> 7;
    state ^= state << 17;
    return state;
}

/* The next price in hundredths: up or down by at most 20. */
static int next_price(void)
{
    static uint32_t seed = 1;
    static int price = 10000;
    seed = (seed * 1103515245u + 12345u) % 2147483648u;
    price += (int)((seed >> 16) % 41) - 20;
    return price;
}

/* The value at a place in both kinds. */
static void put_value(size_t place, double value)
{
    const float single = (float)value;
    memcpy(&column32[place], &single, sizeof single);
    memcpy(&column64[place], &value, sizeof value);
}

static void make_named_column(const char *name)
{
    size_t i;
    for (i = 0; i < VALUES; i++) {
        if (is(name, "prices")) put_value(i, next_price() / 100.0);
        else if (is(name, "constant")) put_value(i, 1.25);
        else if (is(name, "random")) column64[i] = any(), column32[i] = (uint32_t)any();
        else fail("no such column");
    }
}

#endif
