/*
 * Links the archive from C and tells one story: recorded columns of both kinds are measured, written, examined and read, whole and by the
 * vector, pairs are chosen for them, refusals come where they should, and the helpers for the floating-point environment do their work.
 * Every byte and every bit is compared with what stands written here. The first thing that fails is named on standard error and ends the
 * program with status 1.
 *
 * The Rust program rust/strahnuk/examples/recording.rs tells the same story in the same words; link/run compares the two.
 */
#define _GNU_SOURCE /* feenableexcept */
#include "strahnuk.h"

#include <fenv.h>
#include <stdio.h>
#include <stdlib.h>
#include <string.h>

#define COUNT(array) (sizeof(array) / sizeof((array)[0]))

/* More than any page or column here needs, so that there is something behind each that must stay as it came. */
#define ROOM 256
#define UNTOUCHED_BYTE 0xA5
/* The longest column here, and the most vectors. */
#define MOST_VALUES 11
#define MOST_VECTORS 2
#define MOST_IN_VECTOR (1 << STRAHNUK_LARGEST_S)

static unsigned shown; /* how many lines were printed; a story that stops short is told from a whole one by the count */

/* ---- what is recorded ---- */

/* A column, its settings, the pairs that are chosen for it, and its page. The values of the 32-bit kind stand here in 64 bits too, so that
   both kinds share the story. */
typedef struct recording {
    const char *name;
    int bits;
    uint8_t s;
    size_t vectors;
    uint8_t pairs[2 * MOST_VECTORS], chosen[2 * MOST_VECTORS];
    size_t count;
    uint64_t values[MOST_VALUES];
    size_t length;
    uint8_t page[96];
} recording;

/* link/run compiles this program a second time with a recorded byte changed, and then it has to fail. */
#ifdef LINK_WRONG_BYTE
#define LAST_OF_R2 0x3F
#else
#define LAST_OF_R2 0x3E
#endif

static const recording recordings[] = {
    {"R1", 32, 10, 1, {2, 0}, {2, 0}, 4, {0x3F9D70A4, 0x4091EB85, 0x40FC7AE1, 0x3DF5C28F}, 26,
     {0x01, 0x00, 0x00, 0x0A, 0x04, 0x00, 0x00, 0x00, 0x04, 0x00, 0x00, 0x00, 0x02, 0x00, 0x00, 0x00, 0x0C, 0x00, 0x00, 0x00, 0x0A,
      0x6F, 0xF0, 0x96, 0x30, 0x00}},
    {"R2", 32, 10, 1, {1, 0}, {1, 0}, 4, {0x3FC00000, 0x7FC00000, 0x40200000, 0x3EAAAAAB}, 35,
     {0x01, 0x00, 0x00, 0x0A, 0x04, 0x00, 0x00, 0x00, 0x04, 0x00, 0x00, 0x00, 0x01, 0x00, 0x02, 0x00, 0x0F, 0x00, 0x00, 0x00, 0x04,
      0x00, 0x0A, 0x01, 0x00, 0x03, 0x00, 0x00, 0x00, 0xC0, 0x7F, 0xAB, 0xAA, 0xAA, LAST_OF_R2}},
    /* negative zero, a NaN with a payload, both infinities, 1.5, the smallest subnormal: all but 1.5 are exceptions */
    {"specials", 32, 3, 1, {1, 0}, {1, 0}, 6, {0x80000000, 0x7FA12345, 0x7F800000, 0xFF800000, 0x3FC00000, 0x00000001}, 51,
     {0x01, 0x00, 0x00, 0x03, 0x06, 0x00, 0x00, 0x00, 0x04, 0x00, 0x00, 0x00, 0x01, 0x00, 0x05, 0x00, 0x0F, 0x00, 0x00, 0x00, 0x00,
      0x00, 0x00, 0x01, 0x00, 0x02, 0x00, 0x03, 0x00, 0x05, 0x00, 0x00, 0x00, 0x00, 0x80, 0x45, 0x23, 0xA1, 0x7F, 0x00, 0x00, 0x80,
      0x7F, 0x00, 0x00, 0x80, 0xFF, 0x01, 0x00, 0x00, 0x00}},
    /* 0.0 to 5.0 by halves, but for a negative zero in the second vector, whose other values are whole */
    {"halves", 32, 3, 2, {1, 0, 1, 0}, {1, 0, 0, 0}, 11,
     {0x00000000, 0x3F000000, 0x3F800000, 0x3FC00000, 0x40000000, 0x40200000, 0x40400000, 0x40600000, 0x40800000, 0x80000000,
      0x40A00000}, 48,
     {0x01, 0x00, 0x00, 0x03, 0x0B, 0x00, 0x00, 0x00, 0x08, 0x00, 0x00, 0x00, 0x17, 0x00, 0x00, 0x00, 0x01, 0x00, 0x00, 0x00, 0x00,
      0x00, 0x00, 0x00, 0x06, 0x40, 0xA1, 0x3C, 0x54, 0xE6, 0x8D, 0x01, 0x00, 0x01, 0x00, 0x28, 0x00, 0x00, 0x00, 0x04, 0x00, 0x0A,
      0x01, 0x00, 0x00, 0x00, 0x00, 0x80}},
    /* R8's 4,194,305.0, 2^22 + 1, is an exception, since the fast rounding ends on even numbers there; 4,194,306.0 and -4,194,305.0 are none */
    {"rounding", 32, 10, 1, {0, 0}, {1, 0}, 3, {0x4A800002, 0x4A800004, 0xCA800002}, 36,
     {0x01, 0x00, 0x00, 0x0A, 0x03, 0x00, 0x00, 0x00, 0x04, 0x00, 0x00, 0x00, 0x00, 0x00, 0x01, 0x00, 0xFF, 0xFF, 0xBF, 0xFF, 0x18,
      0x03, 0x00, 0x80, 0x03, 0x00, 0x80, 0x00, 0x00, 0x00, 0x00, 0x00, 0x02, 0x00, 0x80, 0x4A}},
    {"R7", 64, 10, 1, {1, 0}, {1, 0}, 1, {0x3FF8000000000000}, 25,
     {0x01, 0x00, 0x00, 0x0A, 0x01, 0x00, 0x00, 0x00, 0x04, 0x00, 0x00, 0x00, 0x01, 0x00, 0x00, 0x00, 0x0F, 0x00, 0x00, 0x00, 0x00,
      0x00, 0x00, 0x00, 0x00}},
    {"specials", 64, 3, 1, {1, 0}, {1, 0}, 6,
     {0x8000000000000000, 0xFFF123456789ABCD, 0x7FF0000000000000, 0xFFF0000000000000, 0x3FF8000000000000, 0x0000000000000001}, 75,
     {0x01, 0x00, 0x00, 0x03, 0x06, 0x00, 0x00, 0x00, 0x04, 0x00, 0x00, 0x00, 0x01, 0x00, 0x05, 0x00, 0x0F, 0x00, 0x00, 0x00, 0x00,
      0x00, 0x00, 0x00, 0x00, 0x00, 0x00, 0x01, 0x00, 0x02, 0x00, 0x03, 0x00, 0x05, 0x00, 0x00, 0x00, 0x00, 0x00, 0x00, 0x00, 0x00,
      0x80, 0xCD, 0xAB, 0x89, 0x67, 0x45, 0x23, 0xF1, 0xFF, 0x00, 0x00, 0x00, 0x00, 0x00, 0x00, 0xF0, 0x7F, 0x00, 0x00, 0x00, 0x00,
      0x00, 0x00, 0xF0, 0xFF, 0x01, 0x00, 0x00, 0x00, 0x00, 0x00, 0x00, 0x00}},
    {"halves", 64, 3, 2, {1, 0, 1, 0}, {1, 0, 0, 0}, 11,
     {0x0000000000000000, 0x3FE0000000000000, 0x3FF0000000000000, 0x3FF8000000000000, 0x4000000000000000, 0x4004000000000000,
      0x4008000000000000, 0x400C000000000000, 0x4010000000000000, 0x8000000000000000, 0x4014000000000000}, 60,
     {0x01, 0x00, 0x00, 0x03, 0x0B, 0x00, 0x00, 0x00, 0x08, 0x00, 0x00, 0x00, 0x1B, 0x00, 0x00, 0x00, 0x01, 0x00, 0x00, 0x00, 0x00,
      0x00, 0x00, 0x00, 0x00, 0x00, 0x00, 0x00, 0x06, 0x40, 0xA1, 0x3C, 0x54, 0xE6, 0x8D, 0x01, 0x00, 0x01, 0x00, 0x28, 0x00, 0x00,
      0x00, 0x00, 0x00, 0x00, 0x00, 0x04, 0x00, 0x0A, 0x01, 0x00, 0x00, 0x00, 0x00, 0x00, 0x00, 0x00, 0x00, 0x80}},
    /* the same from 2^51 on */
    {"rounding", 64, 10, 1, {0, 0}, {2, 1}, 3, {0x4320000000000002, 0x4320000000000004, 0xC320000000000002}, 55,
     {0x01, 0x00, 0x00, 0x0A, 0x03, 0x00, 0x00, 0x00, 0x04, 0x00, 0x00, 0x00, 0x00, 0x00, 0x01, 0x00, 0xFF, 0xFF, 0xFF, 0xFF, 0xFF,
      0xFF, 0xF7, 0xFF, 0x35, 0x03, 0x00, 0x00, 0x00, 0x00, 0x00, 0x70, 0x00, 0x00, 0x00, 0x00, 0x00, 0x00, 0x02, 0x00, 0x00, 0x00,
      0x00, 0x00, 0x00, 0x00, 0x00, 0x02, 0x00, 0x00, 0x00, 0x00, 0x00, 0x20, 0x43}}};

/* Tenths and hundredths whose way there and back rounds to nearest; rounded upward some come back with other bits. */
static const double hundredths[] = {0.1, 0.7, 1.23, 4.56, 7.89, 0.29, 1.1, 2.2};

/* ---- saying what was seen ---- */

static void fail(const char *name, int bits, const char *what)
{
    fflush(stdout);
    fprintf(stderr, "recording: %s, %d-bit: %s\n", name, bits, what);
    exit(1);
}

static void expect(int holds, const recording *r, const char *what)
{
    if (!holds)
        fail(r->name, r->bits, what);
}

static void expect_answer(strahnuk_answer answer, uint64_t number, uint64_t vector, uint64_t place, const recording *r, const char *what)
{
    char line[200];
    if (answer.number == number && answer.vector == vector && answer.place == place)
        return;
    snprintf(line, sizeof line, "%s answers %llu %llu %llu (%s), not %llu %llu %llu", what, (unsigned long long)answer.number,
             (unsigned long long)answer.vector, (unsigned long long)answer.place, strahnuk_sentence(answer.number),
             (unsigned long long)number, (unsigned long long)vector, (unsigned long long)place);
    fail(r->name, r->bits, line);
}

static void show(const recording *r, const char *what)
{
    printf("%s, %d-bit: %s\n", r->name, r->bits, what);
    shown++;
}

static void show_vector(const recording *r, size_t number, size_t count, const char *what)
{
    printf("%s, %d-bit, vector %lu, count %lu: %s\n", r->name, r->bits, (unsigned long)number, (unsigned long)count, what);
    shown++;
}

/* ---- one call for both kinds ---- */

static void narrow(const recording *r, uint32_t *values)
{
    size_t i;
    for (i = 0; i < r->count; i++)
        values[i] = (uint32_t)r->values[i];
}

static strahnuk_answer measured(const recording *r)
{
    uint32_t values[MOST_VALUES];
    narrow(r, values);
    return r->bits == 32 ? alp_measure32(values, r->count, r->s, r->pairs, 2 * r->vectors)
                         : alp_measure64(r->values, r->count, r->s, r->pairs, 2 * r->vectors);
}

static strahnuk_answer written(const recording *r, uint8_t *out, size_t length)
{
    uint32_t values[MOST_VALUES];
    narrow(r, values);
    return r->bits == 32 ? alp_write32(values, r->count, r->s, r->pairs, 2 * r->vectors, out, length)
                         : alp_write64(r->values, r->count, r->s, r->pairs, 2 * r->vectors, out, length);
}

/* The values of the vector of this number: where they begin, and how many they are. */
static size_t first_of(const recording *r, size_t number)
{
    return number << r->s;
}

static size_t count_of(const recording *r, size_t number)
{
    const size_t left = r->count - first_of(r, number), full = (size_t)1 << r->s;
    return left < full ? left : full;
}

static strahnuk_choice chosen(const recording *r, size_t number)
{
    uint32_t values[MOST_VALUES];
    narrow(r, values);
    return r->bits == 32 ? alp_choose32(values + first_of(r, number), count_of(r, number))
                         : alp_choose64(r->values + first_of(r, number), count_of(r, number));
}

static strahnuk_answer examined(const recording *r, const uint8_t *page, size_t length)
{
    return r->bits == 32 ? alp_examine32(page, length) : alp_examine64(page, length);
}

/* Reads the page, or where `number` is not NULL that vector alone, into the first `length` of ROOM lent values, and gives all ROOM in 64
   bits. */
static strahnuk_answer got(const recording *r, const uint8_t *page, size_t page_length, const size_t *number, uint64_t *out,
                           size_t length)
{
    uint32_t values[ROOM];
    strahnuk_answer answer;
    size_t i;
    memset(values, UNTOUCHED_BYTE, sizeof values);
    memset(out, UNTOUCHED_BYTE, ROOM * sizeof *out);
    if (r->bits == 64)
        return number ? alp_read_vector64(page, page_length, *number, out, length) : alp_read64(page, page_length, out, length);
    answer = number ? alp_read_vector32(page, page_length, *number, values, length) : alp_read32(page, page_length, values, length);
    for (i = 0; i < ROOM; i++)
        out[i] = values[i];
    return answer;
}

static int untouched_bytes(const uint8_t *from, const uint8_t *end)
{
    while (from < end)
        if (*from++ != UNTOUCHED_BYTE)
            return 0;
    return 1;
}

static int untouched_values(const recording *r, const uint64_t *from, const uint64_t *end)
{
    uint64_t mark = r->bits == 32 ? 0xA5A5A5A5 : 0xA5A5A5A5A5A5A5A5;
    while (from < end)
        if (*from++ != mark)
            return 0;
    return 1;
}

/* Reading gives `count` values, those from `first` on, and what lies past them stays. */
static void expect_values(const recording *r, const uint8_t *page, const size_t *number, size_t first, size_t count, const char *what)
{
    uint64_t values[ROOM];
    size_t i;
    expect_answer(got(r, page, r->length, number, values, ROOM), STRAHNUK_DONE, 0, count, r, what);
    for (i = 0; i < count; i++)
        expect(values[i] == r->values[first + i], r, "a value comes back with other bits");
    expect(untouched_values(r, values + count, values + ROOM), r, "a value past those read was changed");
}

/* Reading into `room` values is refused with this row and vector, and the output stays. */
static void expect_unread(const recording *r, const uint8_t *page, size_t page_length, const size_t *number, size_t room, uint64_t row,
                          uint64_t vector, const char *what)
{
    uint64_t values[ROOM];
    expect_answer(got(r, page, page_length, number, values, room), row, vector, 0, r, what);
    expect(untouched_values(r, values, values + ROOM), r, "a refused read changed the output");
}

/* ---- the story ---- */

/* Document 01's bound: no page of so many values and vectors is longer. */
static size_t upper_limit(const recording *r)
{
    const size_t metadata = r->bits == 32 ? 9 : 13;
    return 8 + r->vectors * (4 + metadata) + r->count * (size_t)(2 * r->bits / 8 + 2);
}

static void tell_written(const recording *r, uint8_t *page)
{
    char line[3 * ROOM + 80];
    size_t i, at;
    expect_answer(measured(r), STRAHNUK_DONE, 0, r->length, r, "measure");
    expect(r->length <= upper_limit(r), r, "the page is longer than any may be");

    memset(page, UNTOUCHED_BYTE, ROOM);
    expect_answer(written(r, page, ROOM), STRAHNUK_DONE, 0, r->length, r, "write");
    for (i = 0; i < r->length; i++)
        if (page[i] != r->page[i]) {
            snprintf(line, sizeof line, "byte %lu of the page is %02X, not %02X", (unsigned long)i, page[i], r->page[i]);
            fail(r->name, r->bits, line);
        }
    expect(untouched_bytes(page + r->length, page + ROOM), r, "a byte past the page was changed");
    at = (size_t)snprintf(line, sizeof line, "count %lu, page %lu as measured, at most %lu:", (unsigned long)r->count,
                          (unsigned long)r->length, (unsigned long)upper_limit(r));
    for (i = 0; i < r->length; i++)
        at += (size_t)snprintf(line + at, sizeof line - at, " %02X", page[i]);
    show(r, line);
}

/* Every length is lent, from nothing to more than the upper limit: the page's own alone decides. */
static void tell_rooms(const recording *r, const uint8_t *page)
{
    uint8_t out[ROOM];
    size_t length;
    expect(upper_limit(r) < ROOM, r, "the rooms end below the upper limit");
    for (length = 0; length <= ROOM; length++) {
        memset(out, UNTOUCHED_BYTE, ROOM);
        if (length < r->length) {
            expect_answer(written(r, out, length), STRAHNUK_OUTPUT_TOO_SHORT, 0, 0, r, "write with room shorter than the page");
            expect(untouched_bytes(out, out + ROOM), r, "a refused write changed the output");
        } else {
            expect_answer(written(r, out, length), STRAHNUK_DONE, 0, r->length, r, "write with room for the page");
            expect(memcmp(out, page, ROOM) == 0, r, "with other room the page is another, or a byte past it was changed");
        }
    }
    show(r, "15, the lent output is too short, by one byte and by more; the output stays");
    show(r, "the page's own length is room enough, and so is every longer one");
}

static void tell_read(const recording *r, const uint8_t *page)
{
    expect_answer(examined(r, page, r->length), STRAHNUK_DONE, 0, r->count, r, "examine");
    show(r, "examined, it is a page");
    expect_values(r, page, NULL, 0, r->count, "read");
    show(r, "every bit comes back, and what lies past the page and the column stays");
}

/* Offsets here are below 256, so each is changed by its first byte. */
static void tell_vector(const recording *r, const uint8_t *page, size_t number)
{
    uint8_t changed[ROOM];
    const size_t first = first_of(r, number), count = count_of(r, number), last = number + 1 == r->vectors;
    expect_values(r, page, &number, first, count, "read vector");
    show_vector(r, number, count, "every bit comes back, and what lies past it stays");
    expect_unread(r, page, r->length, &number, count - 1, STRAHNUK_OUTPUT_TOO_SHORT, 0, "read vector with room one value short");
    show_vector(r, number, count, "15, the lent output is too short, by one value; the output stays");

    memcpy(changed, page, ROOM);
    changed[8 + 4 * number] = (uint8_t)(4 * r->vectors - 1);
    expect_unread(r, changed, r->length, &number, ROOM, STRAHNUK_OFFSET, number, "read vector with its start inside the offsets");
    memcpy(changed, page, ROOM);
    if (!last)
        changed[8 + 4 * (number + 1)]++;
    expect_unread(r, changed, r->length + last, &number, ROOM, STRAHNUK_OFFSET, number, "read vector with a byte behind it");
    show_vector(r, number, count, "8, an offset differs from the layout's, at its start or at its end; the output stays");
}

static void tell_vectors(const recording *r, const uint8_t *page)
{
    const size_t none[] = {r->vectors, SIZE_MAX};
    size_t i;
    for (i = 0; i < r->vectors; i++)
        tell_vector(r, page, i);
    for (i = 0; i < COUNT(none); i++)
        expect_unread(r, page, r->length, &none[i], ROOM, STRAHNUK_NO_SUCH_VECTOR, 0, "read vector that is not there");
    show(r, "30, there is no vector of that number, behind the last; the output stays");
}

/* Each pair is the one that stands written here, and the page with the chosen ones is no longer. */
static void tell_chosen(const recording *r)
{
    recording best = *r;
    char line[80];
    size_t i;
    strahnuk_answer length;
    for (i = 0; i < r->vectors; i++) {
        const strahnuk_choice choice = chosen(r, i);
        expect_answer(choice.answer, STRAHNUK_DONE, 0, count_of(r, i), r, "choose");
        best.pairs[2 * i] = choice.exponent, best.pairs[2 * i + 1] = choice.factor;
        snprintf(line, sizeof line, "exponent %u and factor %u are chosen", choice.exponent, choice.factor);
        show_vector(r, i, count_of(r, i), line);
    }
    expect(memcmp(best.pairs, r->chosen, 2 * r->vectors) == 0, r, "another pair is chosen");
    length = measured(&best);
    expect(length.number == STRAHNUK_DONE && length.place <= r->length, r, "the page with the chosen pairs is longer");
    snprintf(line, sizeof line, "with the chosen pairs the page has %lu bytes", (unsigned long)length.place);
    show(r, line);
}

static void tell_refused(const recording *r, const uint8_t *page)
{
    uint8_t longer[ROOM];
    expect_unread(r, page, r->length, NULL, r->count - 1, STRAHNUK_OUTPUT_TOO_SHORT, 0, "read with room one value short");
    show(r, "15, the lent output is too short, by one value; the output stays");

    memcpy(longer, page, r->length);
    longer[r->length] = 0;
    expect_answer(examined(r, longer, r->length + 1), STRAHNUK_BYTES_AFTER, 0, 0, r, "examine with one byte more");
    expect_unread(r, longer, r->length + 1, NULL, ROOM, STRAHNUK_BYTES_AFTER, 0, "read with one byte more");
    show(r, "14, bytes after the last vector, by one byte; the output stays");
}

/* Empty slices come as NULL here: the header says that any pointer will do. */
static void tell_empty(int bits)
{
    static const uint8_t header[8] = {0x01, 0x00, 0x00, 0x0A, 0x00, 0x00, 0x00, 0x00};
    recording none = {"nothing", 0, 10, 0, {0}, {0}, 0, {0}, 0, {0}};
    uint8_t page[ROOM];
    none.bits = bits;
    memset(page, UNTOUCHED_BYTE, ROOM);
    expect_answer(bits == 32 ? alp_measure32(NULL, 0, 10, NULL, 0) : alp_measure64(NULL, 0, 10, NULL, 0),
                  STRAHNUK_DONE, 0, 8, &none, "measure");
    expect_answer(bits == 32 ? alp_write32(NULL, 0, 10, NULL, 0, NULL, 0) : alp_write64(NULL, 0, 10, NULL, 0, NULL, 0),
                  STRAHNUK_OUTPUT_TOO_SHORT, 0, 0, &none, "write into nothing");
    expect_answer(bits == 32 ? alp_write32(NULL, 0, 10, NULL, 0, page, 7) : alp_write64(NULL, 0, 10, NULL, 0, page, 7),
                  STRAHNUK_OUTPUT_TOO_SHORT, 0, 0, &none, "write with room one byte short");
    expect(untouched_bytes(page, page + ROOM), &none, "a refused write changed the output");
    expect_answer(bits == 32 ? alp_write32(NULL, 0, 10, NULL, 0, page, 8) : alp_write64(NULL, 0, 10, NULL, 0, page, 8),
                  STRAHNUK_DONE, 0, 8, &none, "write");
    expect(memcmp(page, header, sizeof header) == 0, &none, "the page is not the header alone");
    expect(untouched_bytes(page + 8, page + ROOM), &none, "a byte past the page was changed");
    expect_answer(bits == 32 ? alp_read32(page, 8, NULL, 0) : alp_read64(page, 8, NULL, 0), STRAHNUK_DONE, 0, 0, &none, "read");
    expect_answer(examined(&none, page, 8), STRAHNUK_DONE, 0, 0, &none, "examine");
    show(&none, "no values give the header alone, and come back");
    expect_answer(bits == 32 ? alp_read_vector32(page, 8, 0, NULL, 0) : alp_read_vector64(page, 8, 0, NULL, 0),
                  STRAHNUK_NO_SUCH_VECTOR, 0, 0, &none, "read vector");
    show(&none, "30, there is no vector of that number, not even 0");
    expect_answer(examined(&none, NULL, 0), STRAHNUK_FEW_BYTES, 0, 0, &none, "examine");
    expect_answer(bits == 32 ? alp_read32(NULL, 0, NULL, 0) : alp_read64(NULL, 0, NULL, 0), STRAHNUK_FEW_BYTES, 0, 0, &none, "read");
    expect_answer(bits == 32 ? alp_read_vector32(NULL, 0, 0, NULL, 0) : alp_read_vector64(NULL, 0, 0, NULL, 0),
                  STRAHNUK_FEW_BYTES, 0, 0, &none, "read vector");
    show(&none, "1, fewer than 8 bytes");
}

/* No values, and one more than a vector has. */
static void tell_unchosen(int bits)
{
    static const uint32_t zeros32[MOST_IN_VECTOR + 1];
    static const uint64_t zeros64[MOST_IN_VECTOR + 1];
    static const size_t counts[] = {0, MOST_IN_VECTOR + 1, MOST_IN_VECTOR};
    recording zeros = {"zeros", 0, 10, 0, {0}, {0}, 0, {0}, 0, {0}};
    size_t i;
    zeros.bits = bits;
    for (i = 0; i < COUNT(counts); i++) {
        const strahnuk_choice choice = bits == 32 ? alp_choose32(counts[i] ? zeros32 : NULL, counts[i])
                                                  : alp_choose64(counts[i] ? zeros64 : NULL, counts[i]);
        const int done = counts[i] == MOST_IN_VECTOR;
        expect_answer(choice.answer, done ? STRAHNUK_DONE : STRAHNUK_NOT_ONE_VECTOR, 0, done ? counts[i] : 0, &zeros, "choose");
        expect(choice.exponent == 0 && choice.factor == 0, &zeros, "the pair is not 0, 0");
    }
    show(&zeros, "31, no values, or more than 1,024, when choosing; of 1,024 the pair is 0, 0");
}

/* Two fields, 0 and 1, above the largest whole number of the kind: the second sum is one too large. With a frame one less both are read. */
static void tell_beyond(int bits)
{
    static const uint8_t start[16] = {0x01, 0x00, 0x00, 0x0A, 0x02, 0x00, 0x00, 0x00, 0x04};
    recording beyond = {"beyond", 0, 10, 1, {0}, {0}, 2, {0}, 0, {0}};
    const size_t first = 0, word = (size_t)bits / 8, length = sizeof start + word + 2;
    const size_t *numbers[] = {NULL, &first};
    uint8_t page[ROOM];
    uint64_t values[ROOM];
    size_t i;
    beyond.bits = bits;
    memcpy(page, start, sizeof start);
    memset(page + sizeof start, 0xFF, word);
    page[length - 3] = 0x7F, page[length - 2] = 1, page[length - 1] = 2; /* the frame's last byte, the width, the packed fields */
    for (i = 0; i < COUNT(numbers); i++) {
        expect_answer(got(&beyond, page, length, numbers[i], values, ROOM), STRAHNUK_SUM_OUT_OF_RANGE, 0, 1, &beyond, "read beyond");
        expect(untouched_values(&beyond, values, values + ROOM), &beyond, "a refused read changed the output");
    }
    expect_answer(examined(&beyond, page, length), STRAHNUK_SUM_OUT_OF_RANGE, 0, 1, &beyond, "examine beyond");
    show(&beyond, "17, frame plus field leaves the kind's signed range, by one at position 1; the output stays");
    page[sizeof start]--;
    for (i = 0; i < COUNT(numbers); i++)
        expect_answer(got(&beyond, page, length, numbers[i], values, ROOM), STRAHNUK_DONE, 0, 2, &beyond, "read the largest");
    show(&beyond, "the largest whole number is read");
}

/* The float nearest to 0.1 lies above it, so 0.1 x 10 is 1 to nearest and more upward. `volatile`: the processor multiplies here. */
static int rounds_upward(void)
{
    volatile double tenth = 0.1, ten = 10.0, product;
    product = tenth * ten;
    return product > 1.0;
}

static void tell_floats(const recording *r)
{
    uint64_t values[COUNT(hundredths)], back[COUNT(hundredths)], alone[COUNT(hundredths)];
    uint8_t plain[ROOM], upward[ROOM];
    strahnuk_answer first, second, third, fourth;
    strahnuk_choice plainly, fifth;
    int rounding, traps;
    uint32_t was;
    memcpy(values, hundredths, sizeof values);
    memset(plain, UNTOUCHED_BYTE, ROOM);
    memset(upward, UNTOUCHED_BYTE, ROOM);
    first = alp_write64(values, COUNT(values), 3, r->pairs, 2, plain, ROOM);
    plainly = alp_choose64(values, COUNT(values));

    expect(!rounds_upward(), r, "the program does not start with rounding to nearest");
    expect(fesetround(FE_UPWARD) == 0 && rounds_upward(), r, "upward rounding can't be set");
    feclearexcept(FE_ALL_EXCEPT);
    expect(feenableexcept(FE_ALL_EXCEPT) != -1, r, "traps can't be set");
    was = strahnuk_floats_plain();
    second = alp_write64(values, COUNT(values), 3, r->pairs, 2, upward, ROOM);
    third = alp_read64(upward, (size_t)second.place, back, COUNT(back));
    fourth = alp_read_vector64(upward, (size_t)second.place, 0, alone, COUNT(alone));
    fifth = alp_choose64(values, COUNT(values));
    strahnuk_floats_restore(was);
    rounding = fegetround();
    traps = fegetexcept();
    fedisableexcept(FE_ALL_EXCEPT);
    expect(fetestexcept(FE_ALL_EXCEPT) == 0, r, "the calls left a sticky flag");
    expect(fesetround(FE_TONEAREST) == 0, r, "rounding to nearest can't be set again");

    expect(rounding == FE_UPWARD && traps == FE_ALL_EXCEPT, r, "the helpers did not restore the environment");
    expect(first.number == STRAHNUK_DONE && first.place > 8 && second.place == first.place, r, "the pages differ in length");
    expect(memcmp(plain, upward, ROOM) == 0, r, "the pages differ");
    expect_answer(third, STRAHNUK_DONE, 0, COUNT(values), r, "read");
    expect_answer(fourth, STRAHNUK_DONE, 0, COUNT(values), r, "read vector");
    expect_answer(fifth.answer, STRAHNUK_DONE, 0, COUNT(values), r, "choose");
    expect(fifth.exponent == plainly.exponent && fifth.factor == plainly.factor, r, "another pair is chosen");
    expect(memcmp(values, back, sizeof values) == 0 && memcmp(values, alone, sizeof values) == 0, r, "a value comes back with other bits");
    show(r, "upward rounding and traps of the host change no byte, and stand afterwards");
}

/* The header's sentences, so that the comparison with the Rust program covers them too. */
static void tell_sentences(void)
{
    const char *none = strahnuk_sentence(UINT64_MAX);
    unsigned number;
    for (number = 1; number < 100; number++)
        if (strcmp(strahnuk_sentence(number), none) != 0) {
            printf("row %u: %s\n", number, strahnuk_sentence(number));
            shown++;
        }
}

int main(void)
{
    static const recording floats = {"floats", 64, 3, 1, {2, 0}, {2, 0}, 0, {0}, 0, {0}};
    uint8_t page[ROOM];
    size_t i;
    for (i = 0; i < COUNT(recordings); i++) {
        tell_written(&recordings[i], page);
        tell_rooms(&recordings[i], page);
        tell_read(&recordings[i], page);
        tell_vectors(&recordings[i], page);
        tell_chosen(&recordings[i]);
        tell_refused(&recordings[i], page);
    }
    tell_empty(32);
    tell_empty(64);
    tell_unchosen(32);
    tell_unchosen(64);
    tell_beyond(32);
    tell_beyond(64);
    tell_floats(&floats);
    tell_sentences();
    printf("%u things shown\n", shown);
    return 0;
}
