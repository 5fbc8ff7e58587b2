/*
 * One call on one page of 16,384 values, so that its instructions can be counted (bench/run): cost CALL 32|64 WIDTH EVERY S.
 *
 *     read, vector, examine    read the page, or one vector of it, or examine it
 *     measure                  how long the page is
 *     write                    write it into what measuring gives
 *     choose                   choose the pairs, one call for each vector; WIDTH is the name of a column (columns.h), and EVERY is not used
 *
 * The page has vectors of 2^S whole numbers, each with fields of exactly WIDTH bits. One value in EVERY is an exception, none where EVERY is
 * 0. All that is checked; and what is read back has to be the column, bit for bit: a count of a call that does something else would mean
 * nothing.
 */
#include "columns.h"
#include "strahnuk.h"

enum { MOST_VECTORS = VALUES / 8, ASKED = 7, HEADER = 8, MOST_BYTES = 400000 };

/* An archive from before choosing can still be linked, to count its other calls. */
#pragma weak alp_choose32
#pragma weak alp_choose64

static uint8_t page[MOST_BYTES];
static uint32_t back32[VALUES];
static uint64_t back64[VALUES];
static uint8_t pairs[2 * MOST_VECTORS]; /* exponent 0 and factor 0 for each vector, unless they are chosen */
static uint8_t s;
static size_t vector, vectors; /* how many values one has, and how many there are */

static size_t done(strahnuk_answer answer, const char *call)
{
    if (answer.number != STRAHNUK_DONE) fail(call);
    return (size_t)answer.place;
}

/*
 * The whole number at a place, where a vector's fields take `width` bits: its first field is 0 and its second the largest. Where they are wider
 * than the float's own `digits`, all are multiples of one power of two, so that each is a float exactly, and inside the limits of the kind.
 *
 * Row 17 costs most at the full width. The frame is -half + step there, so a field of all ones would leave the kind's signed range, by step, and
 * frame and width alone do not say that none does: each field is looked at once more. At every other width here they say so.
 */
static int64_t whole(unsigned digits, unsigned width, size_t place)
{
    uint64_t half, step, most, field;
    if (width == 0) return 7;
    half = (uint64_t)1 << (width - 1);
    step = width <= digits ? 0 : (uint64_t)1 << (width - digits);
    most = 2 * half - (width <= digits ? 1 : 2 * step);
    field = place % vector == 0 ? 0 : place % vector == 1 ? most : any() & most;
    return (int64_t)(field - half + step);
}

/* One value in `every` is an exception, but neither of a vector's first two, which give its fields their width. */
static int is_exception(size_t place, unsigned every)
{
    return every != 0 && place % vector % every == every - 1;
}

/* The exceptions are tenths: only their way back from a whole number shows what they are, as with most exceptions of real columns. */
static void make_column(unsigned kind, unsigned width, unsigned every)
{
    size_t i;
    for (i = 0; i < VALUES; i++) {
        const int64_t number = whole(kind == 32 ? 24 : 53, width, i);
        if (kind == 32) {
            const float value = is_exception(i, every) ? 0.1f : (float)number;
            memcpy(&column32[i], &value, sizeof value);
        } else {
            const double value = is_exception(i, every) ? 0.1 : (double)number;
            memcpy(&column64[i], &value, sizeof value);
        }
    }
}

static size_t measured(unsigned kind)
{
    return kind == 32 ? done(alp_measure32(column32, VALUES, s, pairs, 2 * vectors), "measure32")
                      : done(alp_measure64(column64, VALUES, s, pairs, 2 * vectors), "measure64");
}

static size_t make_page(unsigned kind, size_t room)
{
    return kind == 32 ? done(alp_write32(column32, VALUES, s, pairs, 2 * vectors, page, room), "write32")
                      : done(alp_write64(column64, VALUES, s, pairs, 2 * vectors, page, room), "write64");
}

static uint32_t number_at(const uint8_t *bytes)
{
    return (uint32_t)bytes[0] | (uint32_t)bytes[1] << 8 | (uint32_t)bytes[2] << 16 | (uint32_t)bytes[3] << 24;
}

/* A vector begins with exponent, factor, two bytes of how many exceptions, the frame and the width. */
static void check_vectors(unsigned kind, unsigned width, unsigned every)
{
    const unsigned exceptions = every == 0 ? 0 : (unsigned)vector / every;
    size_t v;
    for (v = 0; v < vectors; v++) {
        const uint8_t *vector = page + HEADER + number_at(page + HEADER + 4 * v);
        if (vector[2] + 256u * vector[3] != exceptions) fail("the page has more or fewer exceptions");
        if (vector[4 + kind / 8] != width) fail("the page has another width");
    }
}

static void read_page(unsigned kind, size_t length)
{
    if (kind == 32) {
        done(alp_read32(page, length, back32, VALUES), "read32");
        if (memcmp(back32, column32, sizeof column32) != 0) fail("the column came back changed");
    } else {
        done(alp_read64(page, length, back64, VALUES), "read64");
        if (memcmp(back64, column64, sizeof column64) != 0) fail("the column came back changed");
    }
}

static void read_one_vector(unsigned kind, size_t length)
{
    if (kind == 32) {
        done(alp_read_vector32(page, length, ASKED, back32, vector), "read_vector32");
        if (memcmp(back32, column32 + ASKED * vector, vector * sizeof *column32) != 0) fail("the vector came back changed");
    } else {
        done(alp_read_vector64(page, length, ASKED, back64, vector), "read_vector64");
        if (memcmp(back64, column64 + ASKED * vector, vector * sizeof *column64) != 0) fail("the vector came back changed");
    }
}

static void choose_pairs(unsigned kind)
{
    size_t v;
    for (v = 0; v < vectors; v++) {
        const strahnuk_choice choice = kind == 32 ? alp_choose32(column32 + v * vector, vector) : alp_choose64(column64 + v * vector, vector);
        if (done(choice.answer, "choose") != vector) fail("choosing took more or fewer values");
        pairs[2 * v] = choice.exponent, pairs[2 * v + 1] = choice.factor;
    }
}

/* The page with the chosen pairs has to fit where the one with the pairs 0, 0 does, and to read back. */
static void choose_for(unsigned kind, const char *name)
{
    size_t room;
    if (!alp_choose32 || !alp_choose64) fail("the archive can't choose");
    make_named_column(name);
    room = measured(kind);
    choose_pairs(kind);
    read_page(kind, make_page(kind, room));
}

/* The call that is counted; a page that was written is read back instead, since writing it was the one call to count. */
static void make_call(const char *call, unsigned kind, size_t length)
{
    if (is(call, "read") || is(call, "write")) read_page(kind, length);
    else if (is(call, "vector")) read_one_vector(kind, length);
    else if (is(call, "examine")) done(kind == 32 ? alp_examine32(page, length) : alp_examine64(page, length), "examine");
    else if (!is(call, "measure")) fail("no such call");
    else if (measured(kind) < length) fail("the page is longer than was measured"); /* an older archive measures a bound */
}

/* A number among the words, from 0 to `most`. */
static unsigned number(const char *word, unsigned most)
{
    const int n = atoi(word);
    if (n < 0 || (unsigned)n > most) fail("a number is out of range");
    return (unsigned)n;
}

int main(int count, char **words)
{
    unsigned kind, width, every;
    size_t length;
    if (count != 6) fail("cost read|vector|examine|measure|write|choose 32|64 WIDTH EVERY S");
    kind = number(words[2], 64);
    if (kind != 32 && kind != 64) fail("no such kind");
    s = (uint8_t)number(words[5], 10);
    if (s < 3) fail("no such vector size");
    vector = (size_t)1 << s;
    vectors = VALUES / vector;
    if (is(words[1], "choose")) return choose_for(kind, words[3]), 0;
    width = number(words[3], kind);
    every = number(words[4], VALUES);
    if (every == 1 || every == 2) fail("a vector's first two values can't be exceptions");
    make_column(kind, width, every);
    length = make_page(kind, is(words[1], "write") ? measured(kind) : sizeof page);
    check_vectors(kind, width, every);
    make_call(words[1], kind, length);
    return 0;
}
