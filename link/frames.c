/*
 * Answers framed requests (docs/FRAMES.md) by the archive's calls, as the proved program `calls` does: so the second program can compare
 * the archive as customers link it, every answer and every byte. Each part of a request lies in memory of exactly its length.
 */
#include "strahnuk.h"

#include <stdio.h>
#include <stdlib.h>

enum call { MEASURE = 1, WRITE = 2, READ = 3, EXAMINE = 4, READ_VECTOR = 5, CHOOSE = 6 };

enum { MOST_VALUES = 16400, MOST_BYTES = 400000, MOST_PAIRS = 4200, NUMBER_BYTES = 8, PAIR_BYTES = 2 };

/* A request's numbers: the call, the kind, s, and the three lengths. */
struct request {
    uint8_t call, kind, s;
    uint32_t a, b, c;
};

/* What a request brings, and how many bytes each part has. The middle part is the pairs, or a vector's number. */
struct parts {
    void *input, *middle, *output;
    size_t input_size, middle_size, output_size;
};

static uint32_t number_at(const uint8_t *bytes)
{
    return (uint32_t)bytes[0] | (uint32_t)bytes[1] << 8 | (uint32_t)bytes[2] << 16 | (uint32_t)bytes[3] << 24;
}

static size_t vector_number(const uint8_t *bytes)
{
    return (size_t)number_at(bytes) | (size_t)number_at(bytes + 4) << 32;
}

/* Whether the input is of values, and not a page's bytes. */
static int takes_values(const struct request *r)
{
    return r->call <= WRITE || r->call == CHOOSE;
}

/* Whether the output is of values, and not of bytes. */
static int gives_values(const struct request *r)
{
    return r->call == READ || r->call == READ_VECTOR;
}

/* Whether the shape is one that docs/FRAMES.md allows. */
static int sound(const struct request *r, uint8_t zero)
{
    if (r->call < MEASURE || r->call > CHOOSE || zero != 0 || (r->kind != 32 && r->kind != 64)) return 0;
    if (r->call <= WRITE) return r->a <= MOST_VALUES && r->b <= MOST_PAIRS && r->c <= (r->call == WRITE ? MOST_BYTES : 0);
    if (r->b != (r->call == READ_VECTOR ? NUMBER_BYTES : 0)) return 0;
    return r->a <= (takes_values(r) ? MOST_VALUES : MOST_BYTES) && r->c <= (gives_values(r) ? MOST_VALUES : 0);
}

static int take(void *to, size_t size)
{
    return fread(to, 1, size, stdin) == size;
}

static int give(const void *from, size_t size)
{
    return fwrite(from, 1, size, stdout) == size;
}

static strahnuk_answer answer32(const struct request *r, const struct parts *p)
{
    switch (r->call) {
    case MEASURE: return alp_measure32(p->input, r->a, r->s, p->middle, r->b);
    case WRITE: return alp_write32(p->input, r->a, r->s, p->middle, r->b, p->output, r->c);
    case READ: return alp_read32(p->input, r->a, p->output, r->c);
    case READ_VECTOR: return alp_read_vector32(p->input, r->a, vector_number(p->middle), p->output, r->c);
    default: return alp_examine32(p->input, r->a);
    }
}

static strahnuk_answer answer64(const struct request *r, const struct parts *p)
{
    switch (r->call) {
    case MEASURE: return alp_measure64(p->input, r->a, r->s, p->middle, r->b);
    case WRITE: return alp_write64(p->input, r->a, r->s, p->middle, r->b, p->output, r->c);
    case READ: return alp_read64(p->input, r->a, p->output, r->c);
    case READ_VECTOR: return alp_read_vector64(p->input, r->a, vector_number(p->middle), p->output, r->c);
    default: return alp_examine64(p->input, r->a);
    }
}

/* What choosing answers goes out without the padding behind the pair. */
static int give_choice(const struct request *r, const struct parts *p)
{
    const strahnuk_choice choice = r->kind == 32 ? alp_choose32(p->input, r->a) : alp_choose64(p->input, r->a);
    const uint8_t pair[PAIR_BYTES] = {choice.exponent, choice.factor};
    return give(&choice.answer, sizeof choice.answer) && give(pair, sizeof pair);
}

static int give_answer(const struct request *r, const struct parts *p)
{
    const strahnuk_answer answer = r->kind == 32 ? answer32(r, p) : answer64(r, p);
    return give(&answer, sizeof answer) && give(p->output, p->output_size);
}

/* Answers a request of a sound shape; whether all of it came, and the answer went out. x86-64 is little-endian, as frames are. */
static int serve(const struct request *r)
{
    const size_t word = r->kind / 8;
    struct parts p;
    int done = 0;
    p.input_size = takes_values(r) ? r->a * word : r->a;
    p.middle_size = r->b;
    p.output_size = gives_values(r) ? r->c * word : r->c;
    p.input = malloc(p.input_size);
    p.middle = malloc(p.middle_size);
    p.output = malloc(p.output_size);
    if (take(p.input, p.input_size) && take(p.middle, p.middle_size) && take(p.output, p.output_size))
        done = (r->call == CHOOSE ? give_choice(r, &p) : give_answer(r, &p)) && fflush(stdout) == 0;
    free(p.input);
    free(p.middle);
    free(p.output);
    return done;
}

int main(void)
{
    static const strahnuk_answer broken = {255, 0, 0};
    uint8_t head[16];
    size_t got;
    while ((got = fread(head, 1, sizeof head, stdin)) > 0) {
        struct request r;
        r.call = head[0], r.kind = head[1], r.s = head[2];
        r.a = number_at(head + 4), r.b = number_at(head + 8), r.c = number_at(head + 12);
        if (got < sizeof head || !sound(&r, head[3]) || !serve(&r)) {
            give(&broken, sizeof broken);
            return fflush(stdout) == 0 ? 0 : 1;
        }
    }
    return 0;
}
