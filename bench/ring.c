/*
 * Times the ring's products and bit strings beside portable C that uses the same methods.
 */
#include <stdio.h>
#include <stdlib.h>
#include <string.h>

#include "ring_calls.h"
#include "ring_ref.h"
#include "timing.h"

#define COUNT(array) (sizeof(array) / sizeof((array)[0]))

static uint16_t a[REF_MOST], b[REF_MOST], acc[REF_MOST], coefficients[REF_MOST];
static int32_t integers[REF_MOST], numbers[REF_MOST];
static uint32_t sizes[2];
static uint8_t bytes[2 * REF_MOST], packed[2 * REF_MOST];

/* How many coefficients a piece of work has, and how wide they are where that matters. */
struct size {
    size_t n;
    uint32_t w;
};

/* A call that refuses does no work, and a figure of it says nothing. */
static void accepted(uint32_t answer)
{
    if (answer != 0) {
        fprintf(stderr, "bench: a call was refused\n");
        exit(1);
    }
}

static size_t bytes_for(const struct size *s)
{
    return (s->w * s->n + 7) / 8;
}

static void ours_product(void *arg)
{
    const struct size *s = arg;

    accepted(ring_multiply_add(acc, s->n, a, s->n, b, s->n));
}

static void c_product(void *arg)
{
    const struct size *s = arg;

    ref_multiply_add(acc, a, b, s->n);
}

/* Values of 3 bits, less 4, as secrets and errors are. */
static void ours_signed(void *arg)
{
    const struct size *s = arg;

    accepted(ring_signed_product(s->w, 4, bytes, bytes_for(s), bytes + REF_MOST, bytes_for(s), integers, s->n));
}

static void c_signed(void *arg)
{
    const struct size *s = arg;

    ref_signed_product(s->w, 4, bytes, bytes + REF_MOST, bytes_for(s), integers, s->n);
}

static void ours_sizes(void *arg)
{
    const struct size *s = arg;

    sizes[0] = ring_sizes(numbers, s->n, -4096, 4096, &sizes[1]);
}

static void c_sizes(void *arg)
{
    const struct size *s = arg;

    sizes[0] = ref_sizes(numbers, s->n, -4096, 4096, &sizes[1]);
}

static void ours_pack(void *arg)
{
    const struct size *s = arg;

    accepted(ring_pack(s->w, a, s->n, packed, bytes_for(s)));
}

static void c_pack(void *arg)
{
    const struct size *s = arg;

    ref_pack(s->w, a, s->n, packed);
}

static void ours_unpack(void *arg)
{
    const struct size *s = arg;

    accepted(ring_unpack(s->w, bytes, bytes_for(s), coefficients, s->n));
}

static void c_unpack(void *arg)
{
    const struct size *s = arg;

    ref_unpack(s->w, bytes, bytes_for(s), coefficients, s->n);
}

/* A piece of work, and the memory that has its result. */
static const struct work {
    const char *name;
    void (*ours)(void *arg), (*c)(void *arg);
    struct size size;
    void *result;
    size_t result_size;
} works[] = {
    { "product modulo 2^16, n = 256", ours_product, c_product, { 256, 0 }, acc, sizeof acc },
    { "product modulo 2^16, n = 512", ours_product, c_product, { 512, 0 }, acc, sizeof acc },
    { "signed product, n = 256", ours_signed, c_signed, { 256, 3 }, integers, sizeof integers },
    { "signed product, n = 512", ours_signed, c_signed, { 512, 3 }, integers, sizeof integers },
    { "sizes of 512 numbers", ours_sizes, c_sizes, { 512, 0 }, sizes, sizeof sizes },
    { "pack 512 coefficients in 14 bits", ours_pack, c_pack, { 512, 14 }, packed, sizeof packed },
    { "pack 512 coefficients in 2 bits", ours_pack, c_pack, { 512, 2 }, packed, sizeof packed },
    { "unpack 512 coefficients of 14 bits", ours_unpack, c_unpack, { 512, 14 }, coefficients, sizeof coefficients },
    { "unpack 512 coefficients of 2 bits", ours_unpack, c_unpack, { 512, 2 }, coefficients, sizeof coefficients },
};

static void fill(void)
{
    size_t i;

    for (i = 0; i < REF_MOST; i++) {
        a[i] = (uint16_t)(i * 40503 + (i >> 3) * 77 + 12345);
        b[i] = (uint16_t)(i * 25173 + (i >> 2) * 91 + 13849);
        numbers[i] = (int32_t)(a[i] % 8191) - 4095;
    }
    ref_store(b, bytes, REF_MOST);
}

/* A figure of two programs that do different things says nothing. */
static void check(const struct work *work)
{
    static uint8_t expected[sizeof integers];
    struct size size = work->size;

    memset(work->result, 0x5a, work->result_size);
    work->c(&size);
    memcpy(expected, work->result, work->result_size);
    memset(work->result, 0x5a, work->result_size);
    work->ours(&size);
    if (memcmp(work->result, expected, work->result_size) != 0) {
        fprintf(stderr, "bench: %s: ours differs from C\n", work->name);
        exit(1);
    }
}

static void row(const struct work *work)
{
    struct size size = work->size;
    struct candidate candidates[2];
    double ns[2];

    candidates[0].run = work->ours;
    candidates[1].run = work->c;
    candidates[0].arg = candidates[1].arg = &size;
    time_candidates(candidates, 2, ns);
    table_row(work->name, ns, 2, ns[0] / ns[1]);
}

int main(void)
{
    static const char *const names[2] = { "ours", "C" };
    size_t i;

    fill();
    for (i = 0; i < COUNT(works); i++)
        check(&works[i]);
    table_head("ns a call of the ring", names, 2);
    for (i = 0; i < COUNT(works); i++)
        row(&works[i]);
    return 0;
}
