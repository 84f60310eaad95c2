/*
 * ring_calls.h: the calls of the ring that the tests and the benchmark make, in the archive
 * libring_calls.a. They are no part of the library's interface, include/kindi.h.
 *
 * Each slice is a pointer and its number of elements; NULL goes with 0; the slices of one call do not
 * overlap. Each call but ring_sizes answers 0, or 1 where the lengths, the width, the byte, the bit or p do not
 * fit, and then writes nothing.
 */
#ifndef RING_CALLS_H
#define RING_CALLS_H

#include <stddef.h>
#include <stdint.h>

/* acc + a·b modulo X^n + 1 and 2^16: three slices of n elements, n a multiple of 4 up to 512. */
uint32_t ring_multiply_add(uint16_t *acc, size_t acc_len, const uint16_t *a, size_t a_len,
    const uint16_t *b, size_t b_len);

/* The low w bits of each coefficient, w up to 16, in exactly as many bytes as they fill; at most 65,536 of them. */
uint32_t ring_pack(uint32_t w, const uint16_t *src, size_t src_len, uint8_t *dst, size_t dst_len);

/* The first coefficients of w bits in src, w up to 16, as many as dst has elements, at most 65,536. */
uint32_t ring_unpack(uint32_t w, const uint8_t *src, size_t src_len, uint16_t *dst, size_t dst_len);

/* The same from a bit, 0 to 7, of a byte of src on, or from its end on where no bits are read; the byte and the bit
 * after the last coefficient. next_byte and next_bit are not NULL. */
uint32_t ring_unpack_from(uint32_t w, size_t byte, uint32_t bit, const uint8_t *src, size_t src_len,
    uint16_t *dst, size_t dst_len, size_t *next_byte, uint32_t *next_bit);

/* The product over the integers modulo X^n + 1 of two strings of n values of w bits, w up to 10, each less p,
 * p up to 1,024; n is the number of elements of product, up to 512. */
uint32_t ring_signed_product(uint32_t w, uint16_t p, const uint8_t *a, size_t a_len, const uint8_t *b, size_t b_len,
    int32_t *product, size_t product_len);

/* The largest absolute value of the numbers; the answer is 1 where all lie strictly between low and high, else 0. */
uint32_t ring_sizes(const int32_t *xs, size_t xs_len, int32_t low, int32_t high, uint32_t *most);

#endif
