/*
 * How many values choosing looks at, said by a model, and a column for it to look at: looked 32|64 COLUMN (columns.h).
 *
 * The pairs are chosen for each 1,024 values of the column, which lie alone in one block of the heap: bench/looked has the reads of that block
 * counted. Printed are the model's count of looks, and how many a search would take that looks at all values with each pair.
 *
 * The model shares no code with the library, only the rule by which that is said to leave a pair: before each eighth value, from the first on,
 * the pair is left if metadata, the packed part for the range seen so far and the exceptions seen so far are no fewer bytes than the best so
 * far. The first pair, 0 and 0, is looked at in full, and its stand-in is looked for before that, as measuring a page does. What the model
 * chooses has to be what the library chooses.
 */
#include "columns.h"
#include "strahnuk.h"

#include <math.h>

enum { VECTOR = 1024 };

/* A pair tried on some values: how many were seen, how many of those are exceptions, and the range of the others' whole numbers. */
struct seen {
    size_t values, exceptions;
    int64_t smallest, largest;
};

static unsigned kind;
static double tens[19], tenths[19]; /* 10^0 to 10^18, and the kind's floats nearest to 10^-0 to 10^-18 */

/* A product, rounded once in the kind: that of two 32-bit floats is exact in 64 bits. */
static double times(double a, double b)
{
    return kind == 32 ? (double)(float)(a * b) : a * b;
}

/* A sum, rounded once in the kind: of two 32-bit floats 64 bits keep so many digits that rounding twice is as rounding once. */
static double plus(double a, double b)
{
    return kind == 32 ? (double)(float)(a + b) : a + b;
}

static void make_tens(void)
{
    char text[8];
    int k;
    for (k = 0; k <= 18; k++) {
        snprintf(text, sizeof text, "1e%d", k);
        tens[k] = strtod(text, NULL);
        snprintf(text, sizeof text, "1e-%d", k);
        tenths[k] = kind == 32 ? (double)strtof(text, NULL) : strtod(text, NULL);
    }
}

/* The value at a place; widening a 32-bit one keeps it, but for a NaN, which is an exception either way. */
static double value_at(size_t place)
{
    float single;
    double value;
    memcpy(&single, &column32[place], sizeof single);
    memcpy(&value, &column64[place], sizeof value);
    return kind == 32 ? (double)single : value;
}

/* Whether a value is no exception with a pair, by document 01's rule with the fast rounding of T-05, and its whole number: a large constant is
   added and taken away again, and the conversion drops a fraction that is left. */
static int whole(double value, int e, int f, int64_t *number)
{
    const double largest = kind == 32 ? 2147483520.0 : 9223372036854774784.0;
    const double constant = kind == 32 ? 12582912.0 : 6755399441055744.0;
    const double scaled = times(times(value, tens[e]), tenths[f]);
    const double rounded = plus(plus(scaled, constant), -constant);
    double back;
    if (isnan(value) || isinf(value) || (value == 0 && signbit(value)) || !(fabs(scaled) <= largest)) return 0;
    if (fabs(rounded) > largest) return 0;
    *number = (int64_t)rounded;
    back = times(times(kind == 32 ? (double)(float)*number : (double)*number, tens[f]), tenths[e]);
    return memcmp(&back, &value, sizeof back) == 0;
}

static void see(struct seen *seen, double value, int e, int f)
{
    int64_t number;
    const int is_first = seen->values == seen->exceptions;
    seen->values++;
    if (!whole(value, e, f, &number)) {
        seen->exceptions++;
        return;
    }
    if (is_first || number < seen->smallest) seen->smallest = number;
    if (is_first || number > seen->largest) seen->largest = number;
}

/* The bytes of a vector of which this was seen, as if the rest cost nothing. */
static size_t bytes(const struct seen *seen)
{
    uint64_t range = (uint64_t)seen->largest - (uint64_t)seen->smallest;
    size_t width = 0;
    for (; range != 0; range >>= 1) width++;
    return 5 + kind / 8 + (VECTOR * width + 7) / 8 + seen->exceptions * (2 + kind / 8);
}

/* How many values are looked at until one is no exception with the first pair. */
static size_t looks_for_stand_in(size_t first)
{
    size_t looks = 0;
    int64_t number;
    while (looks < VECTOR && !whole(value_at(first + looks++), 0, 0, &number)) continue;
    return looks;
}

/* Chooses by the rule for the vector that begins there, and gives how many values it looked at. */
static size_t model(size_t first, int *exponent, int *factor)
{
    const int most = kind == 32 ? STRAHNUK_LARGEST_EXPONENT32 : STRAHNUK_LARGEST_EXPONENT64;
    size_t looks = looks_for_stand_in(first), best = SIZE_MAX;
    int e, f;
    for (e = 0; e <= most; e++)
        for (f = 0; f <= e; f++) {
            struct seen seen = {0, 0, 0, 0};
            while (seen.values < VECTOR && (seen.values % 8 != 0 || bytes(&seen) < best))
                see(&seen, value_at(first + seen.values), e, f);
            looks += seen.values;
            if (bytes(&seen) < best) best = bytes(&seen), *exponent = e, *factor = f;
        }
    return looks;
}

int main(int count, char **words)
{
    size_t first, looks = 0;
    void *lent;
    if (count != 3 || (!is(words[1], "32") && !is(words[1], "64"))) fail("looked 32|64 COLUMN");
    kind = (unsigned)atoi(words[1]);
    make_tens();
    make_named_column(words[2]);
    lent = malloc(VALUES * (kind / 8));
    if (lent == NULL) fail("no memory");
    memcpy(lent, kind == 32 ? (const void *)column32 : (const void *)column64, VALUES * (kind / 8));
    for (first = 0; first < VALUES; first += VECTOR) {
        const strahnuk_choice choice =
            kind == 32 ? alp_choose32((const uint32_t *)lent + first, VECTOR) : alp_choose64((const uint64_t *)lent + first, VECTOR);
        int e = 0, f = 0;
        looks += model(first, &e, &f);
        if (choice.answer.number != STRAHNUK_DONE || choice.exponent != e || choice.factor != f) fail("the model chooses another pair");
    }
    free(lent);
    printf("%lu %lu\n", (unsigned long)looks, (unsigned long)VALUES * (kind == 32 ? 66 : 190));
    return 0;
}
