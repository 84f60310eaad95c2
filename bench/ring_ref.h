/*
 * ring_ref.h: the ring in portable C, the baseline of the benchmark: the same methods as the library's,
 * so that a ratio is about the compilers and not about the methods. No two slices of a call overlap.
 */
#ifndef RING_REF_H
#define RING_REF_H

#include <stddef.h>
#include <stdint.h>

/* Most coefficients of a product. */
#define REF_MOST 512

/* acc + a·b modulo X^n + 1 and 2^16; n is a multiple of 4. */
void ref_multiply_add(uint16_t *acc, const uint16_t *a, const uint16_t *b, size_t n);

/* acc + a·b over the integers modulo X^n + 1; every sum fits 32 bits. */
void ref_signed_multiply_add(int32_t *acc, const int16_t *a, const int16_t *b, size_t n);

/* The product over the integers modulo X^n + 1 of two strings of n values of w bits, each less p. */
void ref_signed_product(uint32_t w, uint16_t p, const uint8_t *a, const uint8_t *b, size_t size, int32_t *product, size_t n);

/* The largest absolute value of the numbers, and whether all lie strictly between low and high. */
uint32_t ref_sizes(const int32_t *xs, size_t n, int32_t low, int32_t high, uint32_t *most);

/* The low w bits of each of n coefficients, w up to 16, in (w * n + 7) / 8 bytes. */
void ref_pack(uint32_t w, const uint16_t *src, size_t n, uint8_t *dst);

/* The first n coefficients of w bits, w up to 16, in src_len bytes. */
void ref_unpack(uint32_t w, const uint8_t *src, size_t src_len, uint16_t *dst, size_t n);

/* n coefficients of two bytes each, low byte first. */
void ref_store(const uint16_t *src, uint8_t *dst, size_t n);

#endif
