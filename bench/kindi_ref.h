/*
 * kindi_ref.h: the calls of the scheme in portable C, the baseline of the benchmark. All products are by a
 * complex transform in double precision, as in the reference implementation of KINDI, so a ratio is about
 * the methods too. It is written for itself and shares nothing with the library.
 */
#ifndef KINDI_REF_H
#define KINDI_REF_H

#include <stddef.h>
#include <stdint.h>

/* Makes the tables of the transform, before any other call. */
void ref_start(void);

/*
 * The arguments and the answers are those of the library's calls, less what it checks: set is 1 to 4,
 * every buffer has its set's length, the message fits, and no two buffers overlap.
 */
void ref_keygen(uint32_t set, const uint8_t *mu, const uint8_t *gamma, const uint8_t *z, uint8_t *public_key,
    uint8_t *secret_key);
void ref_encrypt(uint32_t set, const uint8_t *public_key, const uint8_t *coins, const uint8_t *message,
    size_t message_len, uint8_t *ciphertext);
uint32_t ref_decrypt(uint32_t set, const uint8_t *secret_key, const uint8_t *ciphertext, uint8_t *coins,
    uint8_t *message, size_t *message_len);
void ref_encaps(uint32_t set, const uint8_t *public_key, const uint8_t *coins, uint8_t *key, uint8_t *ciphertext);
uint32_t ref_decaps(uint32_t set, const uint8_t *secret_key, const uint8_t *ciphertext, uint8_t *key);
uint32_t ref_noise(uint32_t set, const uint8_t *secret_key, const uint8_t *coins, const uint8_t *message,
    size_t message_len, uint32_t *clear, uint32_t *largest);

/* count is how many coins are in the list. */
uint32_t ref_choose(uint32_t set, const uint8_t *secret_key, const uint8_t *message, size_t message_len,
    const uint8_t *coins_list, size_t count, uint32_t *place);

#endif
