#include "kindi_ref.h"

#include <math.h>
#include <string.h>

#include "keccak_ref.h"
#include "ring_ref.h"

/* The greatest of each figure over the sets. */
#define MOST_N 512
#define MOST_L 3
#define MOST_COINS 64
#define MOST_STREAM 7488
#define MOST_PADDED 576
#define MOST_PUBLIC_KEY 2368
#define MOST_CIPHERTEXT 3328

/* How far past the end of a bit string its last coefficients are read. */
#define SLACK 8

typedef void shake_fn(const uint8_t *input, size_t input_len, uint8_t *output, size_t output_len);

/* n, l, p, t and k of the scheme; the widths of a value below p and of one below 2p; lengths in bytes. */
static const struct set {
    size_t n, l;
    int16_t p;
    uint32_t t, k, width_p, width_2p;
    size_t seed, coins;
    shake_fn *shake;
} sets[] = {
    { 256, 3, 4, 2, 14, 2, 3, 32, 32, ref_shake128 },
    { 512, 2, 2, 2, 13, 1, 2, 64, 64, ref_shake256 },
    { 512, 2, 4, 1, 14, 2, 3, 64, 64, ref_shake256 },
    { 512, 3, 2, 1, 13, 1, 2, 64, 64, ref_shake256 },
};

/* A polynomial's values at the n / 2 roots of X^(n/2) = i; at the others, of -i, they are the conjugates. */
struct values {
    double re[MOST_N / 2], im[MOST_N / 2];
};

/*
 * The transform takes a polynomial modulo X^m - c to its remainders modulo X^(m/4) less each fourth root of c,
 * until m is 1. The remainders of one m are its blocks, and block b of 2^d is node 2^d + b. With c = i at node
 * 1, c at a node is the same for every n. The tables have a fourth root of it and its powers.
 */
#define NODES (MOST_N / 4)

static double root_re[NODES], root_im[NODES];
static double square_re[NODES], square_im[NODES];
static double cube_re[NODES], cube_im[NODES];

void ref_start(void)
{
    static double turn[NODES];
    const double whole = 8 * atan(1);
    size_t i;

    turn[1] = 0.25;
    for (i = 2; i < NODES; i++)
        turn[i] = turn[i / 2] / 2 + (double)(i % 2) / 2;
    for (i = 1; i < NODES; i++) {
        double angle = whole * turn[i] / 4;

        root_re[i] = cos(angle), root_im[i] = sin(angle);
        square_re[i] = cos(2 * angle), square_im[i] = sin(2 * angle);
        cube_re[i] = cos(3 * angle), cube_im[i] = sin(3 * angle);
    }
}

/* One block to four of length len, from the four parts of its coefficients. */
static void split(size_t node, size_t len, double *restrict re0, double *restrict re1, double *restrict re2,
    double *restrict re3, double *restrict im0, double *restrict im1, double *restrict im2, double *restrict im3)
{
    double ar = root_re[node], br = square_re[node], cr = cube_re[node];
    double ai = root_im[node], bi = square_im[node], ci = cube_im[node];
    size_t j;

    for (j = 0; j < len; j++) {
        double x1r = re1[j] * ar - im1[j] * ai, x1i = re1[j] * ai + im1[j] * ar;
        double x2r = re2[j] * br - im2[j] * bi, x2i = re2[j] * bi + im2[j] * br;
        double x3r = re3[j] * cr - im3[j] * ci, x3i = re3[j] * ci + im3[j] * cr;
        double t0r = re0[j] + x2r, t0i = im0[j] + x2i, t1r = re0[j] - x2r, t1i = im0[j] - x2i;
        double t2r = x1r + x3r, t2i = x1i + x3i, t3r = x1r - x3r, t3i = x1i - x3i;

        re0[j] = t0r + t2r, im0[j] = t0i + t2i;
        re1[j] = t0r - t2r, im1[j] = t0i - t2i;
        re2[j] = t1r - t3i, im2[j] = t1i + t3r;
        re3[j] = t1r + t3i, im3[j] = t1i - t3r;
    }
}

/* The inverse of split, times 4. */
static void join(size_t node, size_t len, double *restrict re0, double *restrict re1, double *restrict re2,
    double *restrict re3, double *restrict im0, double *restrict im1, double *restrict im2, double *restrict im3)
{
    double ar = root_re[node], br = square_re[node], cr = cube_re[node];
    double ai = root_im[node], bi = square_im[node], ci = cube_im[node];
    size_t j;

    for (j = 0; j < len; j++) {
        double t0r = re0[j] + re1[j], t0i = im0[j] + im1[j], t1r = re2[j] + re3[j], t1i = im2[j] + im3[j];
        double t2r = re0[j] - re1[j], t2i = im0[j] - im1[j], t3r = im2[j] - im3[j], t3i = re3[j] - re2[j];
        double x1r = t2r + t3r, x1i = t2i + t3i;
        double x2r = t0r - t1r, x2i = t0i - t1i;
        double x3r = t2r - t3r, x3i = t2i - t3i;

        re0[j] = t0r + t1r, im0[j] = t0i + t1i;
        re1[j] = x1r * ar + x1i * ai, im1[j] = x1i * ar - x1r * ai;
        re2[j] = x2r * br + x2i * bi, im2[j] = x2i * br - x2r * bi;
        re3[j] = x3r * cr + x3i * ci, im3[j] = x3i * cr - x3r * ci;
    }
}

/* Node 1 to two blocks of length len: the first step where n / 2 is no power of 4. */
static void split_two(size_t len, double *restrict re0, double *restrict re1, double *restrict im0,
    double *restrict im1)
{
    double br = square_re[1], bi = square_im[1];
    size_t j;

    for (j = 0; j < len; j++) {
        double xr = re1[j] * br - im1[j] * bi, xi = re1[j] * bi + im1[j] * br;

        re1[j] = re0[j] - xr, im1[j] = im0[j] - xi;
        re0[j] += xr, im0[j] += xi;
    }
}

/* The inverse of split_two, times 2. */
static void join_two(size_t len, double *restrict re0, double *restrict re1, double *restrict im0,
    double *restrict im1)
{
    double br = square_re[1], bi = square_im[1];
    size_t j;

    for (j = 0; j < len; j++) {
        double xr = re0[j] - re1[j], xi = im0[j] - im1[j];

        re0[j] += re1[j], im0[j] += im1[j];
        re1[j] = xr * br + xi * bi, im1[j] = xi * br - xr * bi;
    }
}

static void transform(const int16_t *f, size_t n, struct values *v)
{
    double *re = v->re, *im = v->im;
    size_t half = n / 2, len = half, node = 1, i;

    for (i = 0; i < half; i++) {
        re[i] = f[i];
        im[i] = f[half + i];
    }
    if (half == 128) {
        len /= 2;
        split_two(len, re, re + len, im, im + len);
        node = 2;
    }
    /* The nodes of a step are as many as the number of its first, and the next step has four times as many. */
    for (len /= 4; len > 0; len /= 4, node *= 2) {
        for (i = 0; i < half; i += 4 * len, node++)
            split(node, len, re + i, re + i + len, re + i + 2 * len, re + i + 3 * len,
                im + i, im + i + len, im + i + 2 * len, im + i + 3 * len);
    }
}

/* The polynomial of its values times n / 2, in their place: the lower half of its coefficients, then the upper. */
static void join_all(struct values *v, size_t n)
{
    double *re = v->re, *im = v->im;
    size_t half = n / 2, len, node, i;

    for (len = 1; 4 * len <= half; len *= 4) {
        node = half / (4 * len);
        for (i = 0; i < half; i += 4 * len, node++)
            join(node, len, re + i, re + i + len, re + i + 2 * len, re + i + 3 * len,
                im + i, im + i + len, im + i + 2 * len, im + i + 3 * len);
    }
    if (len < half)
        join_two(len, re, re + len, im, im + len);
}

/*
 * The polynomial modulo 2^16 of its values, which are lost. Its coefficients are below 2^27 in size: a sum of
 * at most 3 * 512 products of one below 2^14 and one of size up to 4. Above 2^27 nothing is negative, and the
 * nearest integer is what the conversion leaves.
 */
static void inverse(struct values *v, size_t n, uint16_t *f)
{
    const double above = 134217728.5, scale = 2 / (double)n;
    size_t half = n / 2, i;

    join_all(v, n);
    for (i = 0; i < half; i++) {
        f[i] = (uint16_t)(int32_t)(v->re[i] * scale + above);
        f[half + i] = (uint16_t)(int32_t)(v->im[i] * scale + above);
    }
}

/* The same over the integers. */
static void signed_inverse(struct values *v, size_t n, int32_t *f)
{
    const double above = 134217728.5, scale = 2 / (double)n;
    size_t half = n / 2, i;

    join_all(v, n);
    for (i = 0; i < half; i++) {
        f[i] = (int32_t)(v->re[i] * scale + above) - (1 << 27);
        f[half + i] = (int32_t)(v->im[i] * scale + above) - (1 << 27);
    }
}

static void multiply_add(struct values *restrict sum, const struct values *restrict a,
    const struct values *restrict b, size_t n)
{
    size_t i;

    for (i = 0; i < n / 2; i++) {
        sum->re[i] += a->re[i] * b->re[i] - a->im[i] * b->im[i];
        sum->im[i] += a->re[i] * b->im[i] + a->im[i] * b->re[i];
    }
}

static uint64_t load(const uint8_t *p)
{
    return (uint64_t)p[0] | (uint64_t)p[1] << 8 | (uint64_t)p[2] << 16 | (uint64_t)p[3] << 24
        | (uint64_t)p[4] << 32 | (uint64_t)p[5] << 40 | (uint64_t)p[6] << 48 | (uint64_t)p[7] << 56;
}

static void store(uint8_t *p, uint64_t v, size_t count)
{
    size_t i;

    for (i = 0; i < count; i++)
        p[i] = (uint8_t)(v >> (8 * i));
}

/*
 * Reads n coefficients of w bits, w up to 15, each less the centre, and returns the place after them. Eight
 * take w bytes, and the last four of the eight start at a whole or a half byte.
 */
static const uint8_t *unpack(const uint8_t *src, uint32_t w, int16_t centre, int16_t *dst, size_t n)
{
    const uint64_t mask = (UINT64_C(1) << w) - 1;
    size_t i;

    for (i = 0; i < n; i += 8, src += w) {
        uint64_t low = load(src), high = load(src + w / 2) >> (4 * (w % 2));

        dst[i] = (int16_t)((int16_t)(low & mask) - centre);
        dst[i + 1] = (int16_t)((int16_t)(low >> w & mask) - centre);
        dst[i + 2] = (int16_t)((int16_t)(low >> 2 * w & mask) - centre);
        dst[i + 3] = (int16_t)((int16_t)(low >> 3 * w & mask) - centre);
        dst[i + 4] = (int16_t)((int16_t)(high & mask) - centre);
        dst[i + 5] = (int16_t)((int16_t)(high >> w & mask) - centre);
        dst[i + 6] = (int16_t)((int16_t)(high >> 2 * w & mask) - centre);
        dst[i + 7] = (int16_t)((int16_t)(high >> 3 * w & mask) - centre);
    }
    return src;
}

/* Writes n coefficients below 2^w, w up to 15, and returns the place after them. */
static uint8_t *pack(uint8_t *dst, uint32_t w, const uint16_t *src, size_t n)
{
    size_t i;

    for (i = 0; i < n; i += 8, dst += w) {
        uint64_t low = (uint64_t)src[i] | (uint64_t)src[i + 1] << w | (uint64_t)src[i + 2] << 2 * w
            | (uint64_t)src[i + 3] << 3 * w;
        uint64_t high = (uint64_t)src[i + 4] | (uint64_t)src[i + 5] << w | (uint64_t)src[i + 6] << 2 * w
            | (uint64_t)src[i + 7] << 3 * w;

        if (w < 8) {
            store(dst, low | high << 4 * w, w);
        } else {
            store(dst, low | high << 4 * w, 8);
            store(dst + 8, high >> (64 - 4 * w), w - 8);
        }
    }
    return dst;
}

/* The bytes of some polynomials of w bits a coefficient. */
static size_t size_of(const struct set *s, size_t count, uint32_t w)
{
    return count * s->n * w / 8;
}

/* Where gamma is in a secret key, and mu before it: the public key's length. */
static size_t public_size(const struct set *s)
{
    return size_of(s, s->l, s->k - s->t) + s->seed;
}

static size_t padded_size(const struct set *s)
{
    return size_of(s, s->l + 1, s->width_2p);
}

static size_t ciphertext_size(const struct set *s)
{
    return size_of(s, s->l + 1, s->k);
}

/* The matrix's bit string. */
static void expand_matrix(const struct set *s, const uint8_t *mu, uint8_t *stream)
{
    s->shake(mu, s->seed, stream, size_of(s, s->l * s->l, s->k));
}

/* The first count of r_1 to r_l, r'_1 to r'_l. */
static void expand_gamma(const struct set *s, const uint8_t *gamma, size_t count, int16_t (*secrets)[MOST_N])
{
    uint8_t stream[MOST_STREAM + SLACK];
    const uint8_t *at = stream;
    size_t i;

    s->shake(gamma, s->seed, stream, size_of(s, count, s->width_2p));
    for (i = 0; i < count; i++)
        at = unpack(at, s->width_2p, s->p, secrets[i], s->n);
}

/* b_1 to b_l from mu, and r and r'; r is left transformed too. */
static void public_value(const struct set *s, const uint8_t *mu, int16_t (*secrets)[MOST_N], struct values *r,
    uint16_t (*b)[MOST_N])
{
    uint8_t stream[MOST_STREAM + SLACK];
    const uint8_t *at = stream;
    int16_t f[MOST_N], *low = secrets[s->l];
    struct values a, sum;
    size_t i, j;

    for (i = 0; i < s->l; i++)
        transform(secrets[i], s->n, &r[i]);
    expand_matrix(s, mu, stream);
    for (i = 0; i < s->l; i++, low += MOST_N) {
        memset(&sum, 0, sizeof sum);
        for (j = 0; j < s->l; j++) {
            at = unpack(at, s->k, 0, f, s->n);
            transform(f, s->n, &a);
            multiply_add(&sum, &a, &r[j], s->n);
        }
        inverse(&sum, s->n, b[i]);
        for (j = 0; j < s->n; j++)
            b[i][j] = (uint16_t)((uint32_t)(b[i][j] + low[j]) & ((1u << s->k) - 1));
    }
}

/* The public key. */
static void store_public(const struct set *s, uint16_t (*b)[MOST_N], const uint8_t *mu, uint8_t *public_key)
{
    uint16_t high[MOST_N];
    size_t i, j;

    for (i = 0; i < s->l; i++) {
        for (j = 0; j < s->n; j++)
            high[j] = (uint16_t)(b[i][j] >> s->t);
        public_key = pack(public_key, s->k - s->t, high, s->n);
    }
    memcpy(public_key, mu, s->seed);
}

void ref_keygen(uint32_t set, const uint8_t *mu, const uint8_t *gamma, const uint8_t *z, uint8_t *public_key,
    uint8_t *secret_key)
{
    const struct set *s = &sets[set - 1];
    int16_t secrets[2 * MOST_L][MOST_N];
    struct values r[MOST_L];
    uint16_t b[MOST_L][MOST_N];

    expand_gamma(s, gamma, 2 * s->l, secrets);
    public_value(s, mu, secrets, r, b);
    store_public(s, b, mu, public_key);
    memcpy(secret_key, public_key, public_size(s));
    memcpy(secret_key + public_size(s), gamma, s->seed);
    memcpy(secret_key + public_size(s) + s->seed, z, s->seed);
}

/* What the coins of an encryption give. */
struct parts {
    int16_t w[MOST_L][MOST_N], s[MOST_L][MOST_N];
    uint8_t mask[MOST_PADDED];
};

static void expand_coins(const struct set *s, const uint8_t *coins, struct parts *parts)
{
    uint8_t stream[MOST_STREAM + SLACK];
    const uint8_t *at = stream;
    int16_t bits[MOST_N], *first = parts->s[0];
    size_t i;

    s->shake(coins, s->coins, stream, size_of(s, s->l, s->t) + padded_size(s) + size_of(s, 1, s->width_p)
        + size_of(s, s->l - 1, s->width_2p));
    for (i = 0; i < s->l; i++)
        at = unpack(at, s->t, (int16_t)(1 << (s->t - 1)), parts->w[i], s->n);
    memcpy(parts->mask, at, padded_size(s));
    at = unpack(at + padded_size(s), s->width_p, 0, first, s->n);
    for (i = 0; i < s->n; i++)
        bits[i] = coins[i / 8] >> (i % 8) & 1;
    for (i = 0; i < s->n; i++)
        first[i] = (int16_t)(bits[i] + 2 * first[i] - s->p);
    for (i = 1; i < s->l; i++)
        at = unpack(at, s->width_2p, s->p, parts->s[i], s->n);
}

/* Exclusive or with the mask, to a padded message and back. */
static void add_mask(const struct set *s, const struct parts *parts, uint8_t *padded)
{
    size_t i, count = padded_size(s);

    for (i = 0; i < count; i++)
        padded[i] ^= parts->mask[i];
}

/* The message, one byte 01, then zeros. */
static void pad(const uint8_t *message, size_t message_len, uint8_t *padded)
{
    memset(padded, 0, MOST_PADDED);
    if (message_len > 0)
        memcpy(padded, message, message_len);
    padded[message_len] = 1;
}

/* e_1 to e_(l+1). */
static void errors(const struct set *s, const struct parts *parts, const uint8_t *message, size_t message_len,
    int16_t (*e)[MOST_N])
{
    uint8_t padded[MOST_PADDED + SLACK];
    const uint8_t *u = padded;
    size_t i;

    pad(message, message_len, padded);
    add_mask(s, parts, padded);
    for (i = 0; i < s->l + 1; i++)
        u = unpack(u, s->width_2p, s->p, e[i], s->n);
}

/* Adds A_ij * s_i to sums[j] for every i and j. */
static void add_matrix(const struct set *s, const uint8_t *mu, const struct values *secrets, struct values *sums)
{
    uint8_t stream[MOST_STREAM + SLACK];
    const uint8_t *at = stream;
    int16_t f[MOST_N];
    struct values a;
    size_t i, j;

    expand_matrix(s, mu, stream);
    for (i = 0; i < s->l; i++) {
        for (j = 0; j < s->l; j++) {
            at = unpack(at, s->k, 0, f, s->n);
            transform(f, s->n, &a);
            multiply_add(&sums[j], &a, &secrets[i], s->n);
        }
    }
}

/* Adds P_i * s_i to sum for every i. */
static const uint8_t *add_key(const struct set *s, const uint8_t *key, const struct parts *parts,
    const struct values *secrets, struct values *sum)
{
    int16_t f[MOST_N];
    struct values a;
    size_t i, j;

    for (i = 0; i < s->l; i++) {
        key = unpack(key, s->k - s->t, 0, f, s->n);
        for (j = 0; j < s->n; j++)
            f[j] = (int16_t)((f[j] << s->t) + parts->w[i][j]);
        if (i == 0)
            f[0] = (int16_t)(f[0] + (1 << (s->k - 1)));
        transform(f, s->n, &a);
        multiply_add(sum, &a, &secrets[i], s->n);
    }
    return key;
}

/* C_1 to C_l, then D, modulo 2^16, before their errors are added. */
static void without_errors(const struct set *s, const uint8_t *public_key, const struct parts *parts,
    uint16_t (*c)[MOST_N])
{
    struct values sums[MOST_L + 1], secrets[MOST_L];
    const uint8_t *mu;
    size_t i;

    memset(sums, 0, sizeof sums);
    for (i = 0; i < s->l; i++)
        transform(parts->s[i], s->n, &secrets[i]);
    mu = add_key(s, public_key, parts, secrets, &sums[s->l]);
    add_matrix(s, mu, secrets, sums);
    for (i = 0; i < s->l + 1; i++)
        inverse(&sums[i], s->n, c[i]);
}

void ref_encrypt(uint32_t set, const uint8_t *public_key, const uint8_t *coins, const uint8_t *message,
    size_t message_len, uint8_t *ciphertext)
{
    const struct set *s = &sets[set - 1];
    int16_t e[MOST_L + 1][MOST_N];
    uint16_t c[MOST_L + 1][MOST_N];
    struct parts parts;
    size_t i, j;

    expand_coins(s, coins, &parts);
    errors(s, &parts, message, message_len, e);
    without_errors(s, public_key, &parts, c);
    for (i = 0; i < s->l + 1; i++) {
        for (j = 0; j < s->n; j++)
            c[i][j] = (uint16_t)((uint32_t)(c[i][j] + e[i][j]) & ((1u << s->k) - 1));
        ciphertext = pack(ciphertext, s->k, c[i], s->n);
    }
}

/* The message of a shared key. */
static void digest_of(const struct set *s, const uint8_t *coins, uint8_t *digest)
{
    uint8_t bytes[MOST_COINS + 1];

    memcpy(bytes, coins, s->coins);
    bytes[s->coins] = 4;
    s->shake(bytes, s->coins + 1, digest, s->coins);
}

static void shared_key(const struct set *s, const uint8_t *coins, const uint8_t *ciphertext, uint8_t *key)
{
    uint8_t bytes[MOST_COINS + MOST_CIPHERTEXT];

    memcpy(bytes, coins, s->coins);
    memcpy(bytes + s->coins, ciphertext, ciphertext_size(s));
    s->shake(bytes, s->coins + ciphertext_size(s), key, s->coins);
}

void ref_encaps(uint32_t set, const uint8_t *public_key, const uint8_t *coins, uint8_t *key, uint8_t *ciphertext)
{
    const struct set *s = &sets[set - 1];
    uint8_t digest[MOST_COINS];

    digest_of(s, coins, digest);
    ref_encrypt(set, public_key, coins, digest, s->coins, ciphertext);
    shared_key(s, coins, ciphertext, key);
}

/* The coins found by rounding, from C and D. */
static void recover_coins(const struct set *s, const uint8_t *gamma, int16_t (*c)[MOST_N], uint8_t *coins)
{
    int16_t r[MOST_L][MOST_N];
    struct values sum, x, y;
    uint16_t product[MOST_N], bits[MOST_N];
    size_t i;

    expand_gamma(s, gamma, s->l, r);
    memset(&sum, 0, sizeof sum);
    for (i = 0; i < s->l; i++) {
        transform(c[i], s->n, &x);
        transform(r[i], s->n, &y);
        multiply_add(&sum, &x, &y, s->n);
    }
    inverse(&sum, s->n, product);
    for (i = 0; i < s->n; i++)
        bits[i] = (uint32_t)(c[s->l][i] - product[i] + (1 << (s->k - 2))) >> (s->k - 1) & 1;
    pack(coins, 1, bits, s->n);
}

/* The recovered coins and the padded message; whether every error is in its range. */
static int open_padded(const struct set *s, const uint8_t *secret_key, const uint8_t *ciphertext, uint8_t *coins,
    uint8_t *padded)
{
    uint8_t bytes[MOST_CIPHERTEXT + SLACK];
    const uint8_t *at = bytes;
    int16_t c[MOST_L + 1][MOST_N];
    uint16_t rest[MOST_L + 1][MOST_N], any = 0;
    uint8_t *u = padded;
    struct parts parts;
    size_t i, j;

    memcpy(bytes, ciphertext, ciphertext_size(s));
    for (i = 0; i < s->l + 1; i++)
        at = unpack(at, s->k, 0, c[i], s->n);
    recover_coins(s, secret_key + public_size(s), c, coins);
    expand_coins(s, coins, &parts);
    without_errors(s, secret_key, &parts, rest);
    for (i = 0; i < s->l + 1; i++) {
        for (j = 0; j < s->n; j++) {
            rest[i][j] = (uint16_t)((uint32_t)(c[i][j] - rest[i][j] + s->p) & ((1u << s->k) - 1));
            any |= rest[i][j];
        }
        u = pack(u, s->width_2p, rest[i], s->n);
    }
    add_mask(s, &parts, padded);
    return any < 2 * s->p;
}

uint32_t ref_decrypt(uint32_t set, const uint8_t *secret_key, const uint8_t *ciphertext, uint8_t *coins,
    uint8_t *message, size_t *message_len)
{
    const struct set *s = &sets[set - 1];
    uint8_t found[MOST_COINS], padded[MOST_PADDED];
    size_t end = padded_size(s);

    *message_len = 0;
    if (!open_padded(s, secret_key, ciphertext, found, padded))
        return 5;
    while (end > 0 && padded[end - 1] == 0)
        end--;
    if (end == 0 || padded[end - 1] != 1)
        return 6;
    memcpy(coins, found, s->coins);
    padded[end - 1] = 0;
    memcpy(message, padded, padded_size(s) - 1);
    *message_len = end - 1;
    return 0;
}

uint32_t ref_decaps(uint32_t set, const uint8_t *secret_key, const uint8_t *ciphertext, uint8_t *key)
{
    const struct set *s = &sets[set - 1];
    uint8_t coins[MOST_COINS], digest[MOST_COINS], padded[MOST_PADDED], expected[MOST_PADDED];

    if (!open_padded(s, secret_key, ciphertext, coins, padded))
        return 5;
    digest_of(s, coins, digest);
    pad(digest, s->coins, expected);
    if (memcmp(padded, expected, padded_size(s)) != 0)
        return 7;
    shared_key(s, coins, ciphertext, key);
    return 0;
}

/* What the noise takes of a secret key: r_1 to r_l, r'_1 to r'_l, r transformed, and b. */
struct key_parts {
    int16_t secrets[2 * MOST_L][MOST_N];
    struct values r[MOST_L];
    uint16_t b[MOST_L][MOST_N];
};

/* Whether the stored public key is what the seeds give. */
static int open_key(const struct set *s, const uint8_t *secret_key, struct key_parts *key)
{
    const uint8_t *mu = secret_key + public_size(s) - s->seed;
    uint8_t public_key[MOST_PUBLIC_KEY];

    expand_gamma(s, mu + s->seed, 2 * s->l, key->secrets);
    public_value(s, mu, key->secrets, key->r, key->b);
    store_public(s, key->b, mu, public_key);
    return memcmp(public_key, secret_key, public_size(s)) == 0;
}

/* Whether coins and a message are clear, and the largest absolute value of the noise. */
static uint32_t measure(const struct set *s, const struct key_parts *key, const uint8_t *coins,
    const uint8_t *message, size_t message_len, uint32_t *largest)
{
    int16_t e[MOST_L + 1][MOST_N], x[MOST_N];
    int32_t noise[MOST_N], quarter = 1 << (s->k - 2);
    struct parts parts;
    struct values sum, a, b;
    size_t i, j;

    expand_coins(s, coins, &parts);
    errors(s, &parts, message, message_len, e);
    memset(&sum, 0, sizeof sum);
    for (i = 0; i < s->l; i++) {
        for (j = 0; j < s->n; j++) {
            x[j] = (int16_t)(parts.w[i][j] + key->secrets[s->l + i][j] - (key->b[i][j] & ((1 << s->t) - 1)));
            e[i][j] = (int16_t)-e[i][j];
        }
        transform(x, s->n, &a);
        transform(parts.s[i], s->n, &b);
        multiply_add(&sum, &a, &b, s->n);
        transform(e[i], s->n, &a);
        multiply_add(&sum, &a, &key->r[i], s->n);
    }
    signed_inverse(&sum, s->n, noise);
    for (j = 0; j < s->n; j++)
        noise[j] += e[s->l][j];
    return ref_sizes(noise, s->n, -quarter, quarter, largest);
}

uint32_t ref_noise(uint32_t set, const uint8_t *secret_key, const uint8_t *coins, const uint8_t *message,
    size_t message_len, uint32_t *clear, uint32_t *largest)
{
    const struct set *s = &sets[set - 1];
    struct key_parts key;

    *clear = *largest = 0;
    if (!open_key(s, secret_key, &key))
        return 8;
    *clear = measure(s, &key, coins, message, message_len, largest);
    return 0;
}

uint32_t ref_choose(uint32_t set, const uint8_t *secret_key, const uint8_t *message, size_t message_len,
    const uint8_t *coins_list, size_t count, uint32_t *place)
{
    const struct set *s = &sets[set - 1];
    struct key_parts key;
    uint32_t found = 0, largest;
    size_t i;

    *place = 0;
    if (!open_key(s, secret_key, &key))
        return 8;
    /* All are measured, as the library does, so that the time does not tell which is clear. */
    for (i = count; i-- > 0;) {
        if (measure(s, &key, coins_list + i * s->coins, message, message_len, &largest)) {
            *place = (uint32_t)i;
            found = 1;
        }
    }
    return found ? 0 : 9;
}
