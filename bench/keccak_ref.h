/*
 * keccak_ref.h: SHAKE128 and SHAKE256 in portable C, the baseline of the benchmark. It is written from
 * FIPS 202 and shares nothing with the library that it is compared with.
 */
#ifndef KECCAK_REF_H
#define KECCAK_REF_H

#include <stddef.h>
#include <stdint.h>

/* The permutation Keccak-f[1600]; lane (x, y) is state[x + 5 * y]. */
void ref_keccak_f1600(uint64_t state[25]);

/* The arguments and the answer are those of the library's calls; input and output do not overlap. */
void ref_shake128(const uint8_t *input, size_t input_len, uint8_t *output, size_t output_len);
void ref_shake256(const uint8_t *input, size_t input_len, uint8_t *output, size_t output_len);

#endif
