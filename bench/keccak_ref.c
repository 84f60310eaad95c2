#include "keccak_ref.h"

#include <string.h>

#define LANES 25
#define ROUNDS 24

/* FIPS 202, algorithms 5 and 6. */
static const uint64_t round_constants[ROUNDS] = {
    UINT64_C(0x0000000000000001), UINT64_C(0x0000000000008082), UINT64_C(0x800000000000808a),
    UINT64_C(0x8000000080008000), UINT64_C(0x000000000000808b), UINT64_C(0x0000000080000001),
    UINT64_C(0x8000000080008081), UINT64_C(0x8000000000008009), UINT64_C(0x000000000000008a),
    UINT64_C(0x0000000000000088), UINT64_C(0x0000000080008009), UINT64_C(0x000000008000000a),
    UINT64_C(0x000000008000808b), UINT64_C(0x800000000000008b), UINT64_C(0x8000000000008089),
    UINT64_C(0x8000000000008003), UINT64_C(0x8000000000008002), UINT64_C(0x8000000000000080),
    UINT64_C(0x000000000000800a), UINT64_C(0x800000008000000a), UINT64_C(0x8000000080008081),
    UINT64_C(0x8000000000008080), UINT64_C(0x0000000080000001), UINT64_C(0x8000000080008008),
};

#define ROTL(v, n) (((v) << (n)) | ((v) >> (64 - (n))))

/* Chi on one row. */
#define CHI(o0, o1, o2, o3, o4) \
    o0 = b0 ^ (~b1 & b2);       \
    o1 = b1 ^ (~b2 & b3);       \
    o2 = b2 ^ (~b3 & b4);       \
    o3 = b3 ^ (~b4 & b0);       \
    o4 = b4 ^ (~b0 & b1)

/*
 * One round from the lanes i0 to i24 to the lanes o0 to o24. Row y of the output reads the input lane
 * (x + 3y, x) in column x, which is pi, each rotated by rho's offset for the lane that is read.
 */
#define ROUND(i, o, constant)                        \
    c0 = i##0 ^ i##5 ^ i##10 ^ i##15 ^ i##20;        \
    c1 = i##1 ^ i##6 ^ i##11 ^ i##16 ^ i##21;        \
    c2 = i##2 ^ i##7 ^ i##12 ^ i##17 ^ i##22;        \
    c3 = i##3 ^ i##8 ^ i##13 ^ i##18 ^ i##23;        \
    c4 = i##4 ^ i##9 ^ i##14 ^ i##19 ^ i##24;        \
    d0 = c4 ^ ROTL(c1, 1);                           \
    d1 = c0 ^ ROTL(c2, 1);                           \
    d2 = c1 ^ ROTL(c3, 1);                           \
    d3 = c2 ^ ROTL(c4, 1);                           \
    d4 = c3 ^ ROTL(c0, 1);                           \
    b0 = i##0 ^ d0;                                  \
    b1 = i##6 ^ d1, b1 = ROTL(b1, 44);               \
    b2 = i##12 ^ d2, b2 = ROTL(b2, 43);              \
    b3 = i##18 ^ d3, b3 = ROTL(b3, 21);              \
    b4 = i##24 ^ d4, b4 = ROTL(b4, 14);              \
    CHI(o##0, o##1, o##2, o##3, o##4);               \
    o##0 ^= (constant);                              \
    b0 = i##3 ^ d3, b0 = ROTL(b0, 28);               \
    b1 = i##9 ^ d4, b1 = ROTL(b1, 20);               \
    b2 = i##10 ^ d0, b2 = ROTL(b2, 3);               \
    b3 = i##16 ^ d1, b3 = ROTL(b3, 45);              \
    b4 = i##22 ^ d2, b4 = ROTL(b4, 61);              \
    CHI(o##5, o##6, o##7, o##8, o##9);               \
    b0 = i##1 ^ d1, b0 = ROTL(b0, 1);                \
    b1 = i##7 ^ d2, b1 = ROTL(b1, 6);                \
    b2 = i##13 ^ d3, b2 = ROTL(b2, 25);              \
    b3 = i##19 ^ d4, b3 = ROTL(b3, 8);               \
    b4 = i##20 ^ d0, b4 = ROTL(b4, 18);              \
    CHI(o##10, o##11, o##12, o##13, o##14);          \
    b0 = i##4 ^ d4, b0 = ROTL(b0, 27);               \
    b1 = i##5 ^ d0, b1 = ROTL(b1, 36);               \
    b2 = i##11 ^ d1, b2 = ROTL(b2, 10);              \
    b3 = i##17 ^ d2, b3 = ROTL(b3, 15);              \
    b4 = i##23 ^ d3, b4 = ROTL(b4, 56);              \
    CHI(o##15, o##16, o##17, o##18, o##19);          \
    b0 = i##2 ^ d2, b0 = ROTL(b0, 62);               \
    b1 = i##8 ^ d3, b1 = ROTL(b1, 55);               \
    b2 = i##14 ^ d4, b2 = ROTL(b2, 39);              \
    b3 = i##15 ^ d0, b3 = ROTL(b3, 41);              \
    b4 = i##21 ^ d1, b4 = ROTL(b4, 2);               \
    CHI(o##20, o##21, o##22, o##23, o##24)

void ref_keccak_f1600(uint64_t state[LANES])
{
    uint64_t a0 = state[0], a1 = state[1], a2 = state[2], a3 = state[3], a4 = state[4];
    uint64_t a5 = state[5], a6 = state[6], a7 = state[7], a8 = state[8], a9 = state[9];
    uint64_t a10 = state[10], a11 = state[11], a12 = state[12], a13 = state[13], a14 = state[14];
    uint64_t a15 = state[15], a16 = state[16], a17 = state[17], a18 = state[18], a19 = state[19];
    uint64_t a20 = state[20], a21 = state[21], a22 = state[22], a23 = state[23], a24 = state[24];
    uint64_t e0, e1, e2, e3, e4, e5, e6, e7, e8, e9, e10, e11, e12;
    uint64_t e13, e14, e15, e16, e17, e18, e19, e20, e21, e22, e23, e24;
    uint64_t b0, b1, b2, b3, b4, c0, c1, c2, c3, c4, d0, d1, d2, d3, d4;
    int round;

    /* Two rounds a turn, so that no round has to copy its output back to where its input was. */
    for (round = 0; round < ROUNDS; round += 2) {
        ROUND(a, e, round_constants[round]);
        ROUND(e, a, round_constants[round + 1]);
    }

    state[0] = a0, state[1] = a1, state[2] = a2, state[3] = a3, state[4] = a4;
    state[5] = a5, state[6] = a6, state[7] = a7, state[8] = a8, state[9] = a9;
    state[10] = a10, state[11] = a11, state[12] = a12, state[13] = a13, state[14] = a14;
    state[15] = a15, state[16] = a16, state[17] = a17, state[18] = a18, state[19] = a19;
    state[20] = a20, state[21] = a21, state[22] = a22, state[23] = a23, state[24] = a24;
}

static uint64_t load_lane(const uint8_t *p)
{
    return (uint64_t)p[0] | (uint64_t)p[1] << 8 | (uint64_t)p[2] << 16 | (uint64_t)p[3] << 24
        | (uint64_t)p[4] << 32 | (uint64_t)p[5] << 40 | (uint64_t)p[6] << 48 | (uint64_t)p[7] << 56;
}

static void store_lane(uint8_t *p, uint64_t v)
{
    p[0] = (uint8_t)v;
    p[1] = (uint8_t)(v >> 8);
    p[2] = (uint8_t)(v >> 16);
    p[3] = (uint8_t)(v >> 24);
    p[4] = (uint8_t)(v >> 32);
    p[5] = (uint8_t)(v >> 40);
    p[6] = (uint8_t)(v >> 48);
    p[7] = (uint8_t)(v >> 56);
}

static void xor_block(uint64_t state[LANES], const uint8_t *block, size_t lanes)
{
    size_t i;

    for (i = 0; i < lanes; i++)
        state[i] ^= load_lane(block + 8 * i);
}

/* The sponge of FIPS 202, section 4, with SHAKE's suffix 1111 and the padding 10*1. */
static void shake(size_t rate, const uint8_t *input, size_t input_len, uint8_t *output, size_t output_len)
{
    uint64_t state[LANES] = { 0 };
    uint8_t block[LANES * 8] = { 0 };
    size_t lanes = rate / 8, i;

    for (; input_len >= rate; input += rate, input_len -= rate) {
        xor_block(state, input, lanes);
        ref_keccak_f1600(state);
    }
    if (input_len > 0)
        memcpy(block, input, input_len);
    block[input_len] = 0x1f;
    block[rate - 1] |= 0x80;
    xor_block(state, block, lanes);

    for (; output_len >= rate; output += rate, output_len -= rate) {
        ref_keccak_f1600(state);
        for (i = 0; i < lanes; i++)
            store_lane(output + 8 * i, state[i]);
    }
    if (output_len > 0) {
        ref_keccak_f1600(state);
        for (i = 0; i < (output_len + 7) / 8; i++)
            store_lane(block + 8 * i, state[i]);
        memcpy(output, block, output_len);
    }
}

void ref_shake128(const uint8_t *input, size_t input_len, uint8_t *output, size_t output_len)
{
    shake(168, input, input_len, output, output_len);
}

void ref_shake256(const uint8_t *input, size_t input_len, uint8_t *output, size_t output_len)
{
    shake(136, input, input_len, output, output_len);
}
