#include "ring_ref.h"

#include <string.h>

/* Adds the rows of four neighbouring coefficients; row has the other factor, shifted for the last. */
static void add_rows(uint16_t *restrict acc, const uint16_t *restrict row, size_t n, const uint16_t *a)
{
    uint32_t a0 = a[0], a1 = a[1], a2 = a[2], a3 = a[3];
    size_t k;

    for (k = 0; k < n; k++)
        acc[k] = (uint16_t)(acc[k] + a0 * row[k + 3] + a1 * row[k + 2] + a2 * row[k + 1] + a3 * row[k]);
}

void ref_multiply_add(uint16_t *acc, const uint16_t *a, const uint16_t *b, size_t n)
{
    uint16_t row[2 * REF_MOST];
    size_t i;

    /* -b and then b: from place n - i on stand the coefficients of X^i times b. */
    for (i = 0; i < n; i++) {
        row[i] = (uint16_t)(0u - b[i]);
        row[n + i] = b[i];
    }
    for (i = 0; i < n; i += 4)
        add_rows(acc, row + n - i - 3, n, a + i);
}

/* Writes the low bytes of v, as far as there is room. */
static void put(uint8_t *dst, size_t room, uint32_t v)
{
    size_t i;

    if (room >= 4) {
        dst[0] = (uint8_t)v;
        dst[1] = (uint8_t)(v >> 8);
        dst[2] = (uint8_t)(v >> 16);
        dst[3] = (uint8_t)(v >> 24);
        return;
    }
    for (i = 0; i < room; i++)
        dst[i] = (uint8_t)(v >> (8 * i));
}

void ref_pack(uint32_t w, const uint16_t *src, size_t n, uint8_t *dst)
{
    size_t size = (w * n + 7) / 8, at = 0, i;
    uint32_t mask = (UINT32_C(1) << w) - 1, pending = 0, count = 0;

    for (i = 0; i < n; i++) {
        uint32_t bits = pending + ((src[i] & mask) << count);
        uint32_t whole = (count + w) / 8;

        put(dst + at, size - at, bits);
        pending = bits >> (8 * whole);
        count = (count + w) % 8;
        at += whole;
    }
}

/* The first 32 bits; those past the end are 0. */
static uint32_t low_word(const uint8_t *src, size_t left)
{
    uint32_t v = 0;
    size_t i;

    if (left >= 4)
        return (uint32_t)src[0] | (uint32_t)src[1] << 8 | (uint32_t)src[2] << 16 | (uint32_t)src[3] << 24;
    for (i = 0; i < left; i++)
        v |= (uint32_t)src[i] << (8 * i);
    return v;
}

void ref_unpack(uint32_t w, const uint8_t *src, size_t src_len, uint16_t *dst, size_t n)
{
    uint32_t mask = (UINT32_C(1) << w) - 1, shift = 0;
    size_t at = 0, i;

    for (i = 0; i < n; i++) {
        dst[i] = (uint16_t)(low_word(src + at, src_len - at) >> shift & mask);
        at += (shift + w) / 8;
        shift = (shift + w) % 8;
    }
}

static int32_t dot(const int16_t *restrict a, const int16_t *restrict b, size_t n)
{
    int32_t total = 0;
    size_t i;

    for (i = 0; i < n; i++)
        total += (int32_t)a[i] * b[i];
    return total;
}

static void centre(uint32_t w, uint16_t p, const uint8_t *bytes, size_t size, int16_t *xs, size_t n)
{
    uint16_t values[REF_MOST];
    size_t i;

    ref_unpack(w, bytes, size, values, n);
    for (i = 0; i < n; i++)
        xs[i] = (int16_t)(values[i] - p);
}

void ref_signed_multiply_add(int32_t *acc, const int16_t *a, const int16_t *b, size_t n)
{
    int16_t row[2 * REF_MOST];
    size_t i, k;

    /* b and then -b, both from the last coefficient down: a part of n stands for each place. */
    for (i = 0; i < n; i++) {
        row[i] = b[n - 1 - i];
        row[n + i] = (int16_t)-b[n - 1 - i];
    }
    for (k = 0; k < n; k++)
        acc[k] += dot(a, row + n - 1 - k, n);
}

void ref_signed_product(uint32_t w, uint16_t p, const uint8_t *a, const uint8_t *b, size_t size, int32_t *product, size_t n)
{
    int16_t xs[REF_MOST], ys[REF_MOST];

    centre(w, p, a, size, xs, n);
    centre(w, p, b, size, ys, n);
    memset(product, 0, n * sizeof product[0]);
    ref_signed_multiply_add(product, xs, ys, n);
}

uint32_t ref_sizes(const int32_t *xs, size_t n, int32_t low, int32_t high, uint32_t *most)
{
    uint32_t m = 0, all = 1;
    size_t i;

    for (i = 0; i < n; i++) {
        uint32_t size = xs[i] < 0 ? 0u - (uint32_t)xs[i] : (uint32_t)xs[i];

        m = m < size ? size : m;
        all &= (uint32_t)(low < xs[i]) & (uint32_t)(xs[i] < high);
    }
    *most = m;
    return all;
}

void ref_store(const uint16_t *src, uint8_t *dst, size_t n)
{
    size_t i;

    for (i = 0; i < n; i++) {
        dst[2 * i] = (uint8_t)src[i];
        dst[2 * i + 1] = (uint8_t)(src[i] >> 8);
    }
}
