/*
 * The public calls of Strahnuk for C99 and C++: pages of ALP-encoded floats, written, read and examined, and the pairs to write them with.
 *
 * Link with the archive that link/archive makes, target/staticlib/libabi.a. It is for x86-64 under the System V calling convention
 * (Linux), and needs nothing but memset and memcpy.
 *
 * Values are bit patterns: a double goes in and comes out as the uint64_t that memcpy makes of it. A vector holds 2^s values, and every
 * vector is full but perhaps the last. `pairs` has two bytes per vector, exponent then factor. Every call ends with an answer, whatever
 * the values, settings, bytes and lengths are. A refusal leaves everything lent as it came; a call that succeeds writes the first bytes
 * or values of its output, as many as the answer says, and leaves the rest.
 *
 * What the caller owes. The proofs are about what is lent, and C can lend anything, so these are not checked:
 *  - a pointer is valid for the whole length given, and aligned for its type; a length counts elements, and the length times the size of
 *    an element is at most PTRDIFF_MAX. With length 0 any pointer will do, NULL too: the calls reach nothing through it;
 *  - the output overlaps nothing else that is lent to the same call;
 *  - during the call no other thread writes what is lent, and none reads the output;
 *  - the floating-point environment is the plain one (below).
 * The calls keep no state, so several may run at once on several threads.
 *
 * The floating-point environment. The proofs take multiplication, addition and subtraction as IEEE 754 has them, rounded to nearest, with no
 * trap and no flushing of subnormals: MXCSR is 0x1F80 but for its sticky flags, as at the start of a program. Code that rounds another way
 * (interval pricing), traps exceptions (feenableexcept) or flushes subnormals (a program linked with -ffast-math starts so) sets the plain
 * environment around the calls, with the two helpers at the end of this file. Without them no proof speaks of the calls: upward rounding
 * gives other pages, silently, and a trap ends the program.
 */
#ifndef STRAHNUK_H
#define STRAHNUK_H

#if !defined(__x86_64__) || defined(__ILP32__) || defined(_WIN32)
#error "strahnuk.h: the archive is for x86-64 under the System V calling convention"
#endif

#include <stddef.h>
#include <stdint.h>

#ifdef __cplusplus
extern "C" {
#endif

/* A page holds at most this many values. */
#define STRAHNUK_MOST_VALUES 16384
/* A vector holds 2^s values, s from the smallest to the largest. */
#define STRAHNUK_SMALLEST_S 3
#define STRAHNUK_LARGEST_S 10
/* The largest exponent of each kind; a factor is at most its exponent. */
#define STRAHNUK_LARGEST_EXPONENT32 10
#define STRAHNUK_LARGEST_EXPONENT64 18

/*
 * What every call answers: STRAHNUK_DONE or the number of the row that refuses, a vector number and a place. Vectors, positions and list
 * indexes count from 0. Vector and place are 0 unless the row below says otherwise; done has vector 0, and each call says what done's
 * place is.
 */
typedef struct strahnuk_answer {
    uint64_t number;
    uint64_t vector;
    uint64_t place;
} strahnuk_answer;

/* What choosing answers: the answer as of every call, and the pair, which is 0 and 0 where it refuses. */
typedef struct strahnuk_choice {
    strahnuk_answer answer;
    uint8_t exponent;
    uint8_t factor;
} strahnuk_choice;

/* The numbers. After each: given when, by which calls, and what vector and place are if they are not 0. */
enum strahnuk_row {
    /* nothing is refused; all calls */
    STRAHNUK_DONE = 0,
    /* fewer than 8 bytes; read, read vector, examine */
    STRAHNUK_FEW_BYTES = 1,
    /* the version is not 1; read, read vector, examine */
    STRAHNUK_VERSION = 2,
    /* the mode is not 0; read, read vector, examine */
    STRAHNUK_MODE = 3,
    /* the integer encoding is not 0; read, read vector, examine */
    STRAHNUK_INTEGER_ENCODING = 4,
    /* s is below 3 or above 10; all calls but choose */
    STRAHNUK_VECTOR_SIZE = 5,
    /* more than 16,384 values; all calls but choose */
    STRAHNUK_TOO_MANY_VALUES = 6,
    /* the offsets, a vector's metadata or its data run past the end; read, read vector, examine; vector: 0 for the offsets, else that
       vector */
    STRAHNUK_PAST_END = 7,
    /* an offset differs from the layout's; read, read vector, examine; vector: that offset's, but for read vector the one asked for */
    STRAHNUK_OFFSET = 8,
    /* the exponent is above the kind's largest; all calls but choose; vector: that vector */
    STRAHNUK_EXPONENT = 9,
    /* the factor is above the exponent; all calls but choose; vector: that vector */
    STRAHNUK_FACTOR = 10,
    /* more exceptions than values in the vector; read, read vector, examine; vector: that vector */
    STRAHNUK_TOO_MANY_EXCEPTIONS = 11,
    /* the width is above the kind's; read, read vector, examine; vector: that vector */
    STRAHNUK_WIDTH = 12,
    /* a position is not below the vector's count, or not above the one before; read, read vector, examine; vector: that vector; place:
       the position's index in the list */
    STRAHNUK_POSITION = 13,
    /* bytes after the last vector; read, examine */
    STRAHNUK_BYTES_AFTER = 14,
    /* the lent output is too short: shorter than the page, or than the values that are read; write, read, read vector */
    STRAHNUK_OUTPUT_TOO_SHORT = 15,
    /* the pairs are not one per vector; measure, write */
    STRAHNUK_PAIRS = 16,
    /* frame plus field leaves the kind's signed range, -2^31 to 2^31 - 1 or -2^63 to 2^63 - 1, at a listed position or another; read, read
       vector, examine; vector: that vector; place: the first such position in it */
    STRAHNUK_SUM_OUT_OF_RANGE = 17,
    /* an unused packed bit is 1; examine; vector: that vector */
    STRAHNUK_UNUSED_BIT = 20,
    /* an unlisted whole number comes back as a value that is an exception, or that turns into another whole number; examine; vector: that
       vector; place: the position in it */
    STRAHNUK_UNLISTED = 21,
    /* a listed value is no exception; examine; vector: that vector; place: the position in it */
    STRAHNUK_LISTED = 22,
    /* a listed position does not hold the stand-in; examine; vector: that vector; place: the position in it */
    STRAHNUK_STAND_IN = 23,
    /* the frame is not the smallest, or the width is not the fewest bits; examine; vector: that vector */
    STRAHNUK_FRAME_OR_WIDTH = 24,
    /* there is no vector of that number; read vector */
    STRAHNUK_NO_SUCH_VECTOR = 30,
    /* no values, or more than 1,024; choose */
    STRAHNUK_NOT_ONE_VECTOR = 31
};

/*
 * Measure: the exact length of the page that writing these values with these settings gives. Done's place: that length in bytes. Nothing is
 * written, but every value is looked at: it costs as much as the first of the passes that writing makes over the values.
 * Rows in order: 5, 6, 16, then 9 and 10 vector by vector.
 *
 * Who would rather not measure lends the upper limit: no page is longer than 8 + vectors x (4 + metadata) + values x (2 x value size + 2)
 * bytes, where metadata is 9 bytes (32-bit) or 13 (64-bit).
 */
strahnuk_answer alp_measure32(const uint32_t *values, size_t values_length, uint8_t s, const uint8_t *pairs, size_t pairs_length);
strahnuk_answer alp_measure64(const uint64_t *values, size_t values_length, uint8_t s, const uint8_t *pairs, size_t pairs_length);

/*
 * Write: the page of these values with these settings, into `out`. Done's place: the page's length in bytes.
 * Rows in order: 5, 6, 16, then 9 and 10 vector by vector, then 15 if `out` is shorter than the page. No byte is written before that is
 * known, and `out` may have any length from the page's on: a longer one makes writing neither quicker nor slower.
 */
strahnuk_answer alp_write32(const uint32_t *values, size_t values_length, uint8_t s, const uint8_t *pairs, size_t pairs_length,
                            uint8_t *out, size_t out_length);
strahnuk_answer alp_write64(const uint64_t *values, size_t values_length, uint8_t s, const uint8_t *pairs, size_t pairs_length,
                            uint8_t *out, size_t out_length);

/*
 * Read: the values of a page, into `out`. The kind does not stand in the page: it is the caller's to know. Done's place: the count of
 * values. No more than STRAHNUK_MOST_VALUES are ever written.
 * Rows in order: 1 to 6; 7 for the offsets; then each vector in turn 8, 7 for its metadata, 9 to 12, 7 for its data, 13, 17; then 14; then
 * 15 if `out` is shorter than the count of values.
 * Of pages that no write gave, forged or damaged ones, some that read before T-06 are refused now, by 17: docs/OLDER-PAGES.md.
 */
strahnuk_answer alp_read32(const uint8_t *page, size_t page_length, uint32_t *out, size_t out_length);
strahnuk_answer alp_read64(const uint8_t *page, size_t page_length, uint64_t *out, size_t out_length);

/*
 * Read vector: the values of one vector of a page, by its number, into `out`. Where read accepts the page, they are the stretch of its
 * values that begins at number x 2^s. Only the header, the vector's own offset, the next one and the vector itself are looked at: that is
 * the whole cost, and a fault anywhere else is not seen. Done's place: the vector's count of values, never more than
 * 1 << STRAHNUK_LARGEST_S.
 * Rows in order: 1 to 6; 30 if `number` is not below the count of vectors, so always on a page of no values; 7 for the offsets; 8 if the
 * vector starts before their end; 7 for its metadata, also if it starts past the page's end; 9 to 12; 7 for its data; 8 if it does not end
 * where the next offset says, or the last vector at the page's end; 13; 17; then 15 if `out` is shorter than the vector's count of values.
 */
strahnuk_answer alp_read_vector32(const uint8_t *page, size_t page_length, size_t number, uint32_t *out, size_t out_length);
strahnuk_answer alp_read_vector64(const uint8_t *page, size_t page_length, size_t number, uint64_t *out, size_t out_length);

/*
 * Examine: whether these bytes are a page that write gives for some values and settings. Done's place: the count of values.
 * Rows in order: as for read without 15; then 20 to 24 of the first vector at fault, in it the lowest row, in that the first position.
 * Of pages written before the fast rounding of T-05, which all read as ever, some are refused now, by 21 or 22: docs/OLDER-PAGES.md.
 */
strahnuk_answer alp_examine32(const uint8_t *page, size_t page_length);
strahnuk_answer alp_examine64(const uint8_t *page, size_t page_length);

/*
 * Choose: the pair that gives one vector of these values the fewest bytes; of several, the first, exponent rising, then factor rising. Done's
 * place: the count of values. Nothing is written. The two bytes go into `pairs` as they are: who chooses for each 2^s values of a column
 * writes its shortest page of that s.
 * Every pair is tried, 66 (32-bit) or 190 (64-bit), and left once it can't be better. Of 64-bit values a full vector takes some 350 instructions
 * a value where all are the same, 2,600 where they are prices, 6,100 where they are random bits; to write prices takes some 150.
 * Row: 31 if there are no values, or more than 1 << STRAHNUK_LARGEST_S.
 */
strahnuk_choice alp_choose32(const uint32_t *values, size_t values_length);
strahnuk_choice alp_choose64(const uint64_t *values, size_t values_length);

#ifdef __cplusplus
}
#endif

/* The sentence of an answer's number, for a message. It is in this header and not in the archive. */
static inline const char *strahnuk_sentence(uint64_t number)
{
    switch (number) {
    case STRAHNUK_DONE: return "done";
    case STRAHNUK_FEW_BYTES: return "fewer than 8 bytes";
    case STRAHNUK_VERSION: return "the version is not 1";
    case STRAHNUK_MODE: return "the mode is not 0";
    case STRAHNUK_INTEGER_ENCODING: return "the integer encoding is not 0";
    case STRAHNUK_VECTOR_SIZE: return "s is below 3 or above 10";
    case STRAHNUK_TOO_MANY_VALUES: return "more than 16,384 values";
    case STRAHNUK_PAST_END: return "the offsets, a vector's metadata or its data run past the end";
    case STRAHNUK_OFFSET: return "an offset differs from the layout's";
    case STRAHNUK_EXPONENT: return "the exponent is above the kind's largest";
    case STRAHNUK_FACTOR: return "the factor is above the exponent";
    case STRAHNUK_TOO_MANY_EXCEPTIONS: return "more exceptions than values in the vector";
    case STRAHNUK_WIDTH: return "the width is above the kind's";
    case STRAHNUK_POSITION: return "a position is not below the vector's count, or not above the one before";
    case STRAHNUK_BYTES_AFTER: return "bytes after the last vector";
    case STRAHNUK_OUTPUT_TOO_SHORT: return "the lent output is too short";
    case STRAHNUK_PAIRS: return "the pairs are not one per vector";
    case STRAHNUK_SUM_OUT_OF_RANGE: return "frame plus field leaves the kind's signed range";
    case STRAHNUK_UNUSED_BIT: return "an unused packed bit is 1";
    case STRAHNUK_UNLISTED:
        return "an unlisted whole number comes back as a value that is an exception, or that turns into another whole number";
    case STRAHNUK_LISTED: return "a listed value is no exception";
    case STRAHNUK_STAND_IN: return "a listed position does not hold the stand-in";
    case STRAHNUK_FRAME_OR_WIDTH: return "the frame is not the smallest, or the width is not the fewest bits";
    case STRAHNUK_NO_SUCH_VECTOR: return "there is no vector of that number";
    case STRAHNUK_NOT_ONE_VECTOR: return "no values, or more than 1,024";
    default: return "not a row of the table";
    }
}

#if defined(__GNUC__)
/*
 * For a host whose environment is not the plain one:
 *
 *     uint32_t was = strahnuk_floats_plain();
 *     strahnuk_answer answer = alp_write64(...);
 *     strahnuk_floats_restore(was);
 *
 * Both are of the calling thread alone. Between the two stand only calls of this header: the compiler doesn't know that the environment
 * changes, and may move arithmetic of the host's own past them. What comes back is the whole of MXCSR as it was, so no sticky flag that
 * the calls raised is left. The x87 unit is not touched; the archive doesn't use it.
 */
static inline uint32_t strahnuk_floats_plain(void)
{
    const uint32_t plain = 0x1F80u; /* nearest, all exceptions masked, nothing flushed, no sticky flag */
    uint32_t was;
    __asm__ __volatile__("stmxcsr %0" : "=m"(was) : : "memory");
    __asm__ __volatile__("ldmxcsr %0" : : "m"(plain) : "memory");
    return was;
}

static inline void strahnuk_floats_restore(uint32_t was)
{
    __asm__ __volatile__("ldmxcsr %0" : : "m"(was) : "memory");
}
#endif

#endif
