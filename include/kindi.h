/*
 * kindi.h: the C interface of the KINDI library.
 *
 * KINDI is a post-quantum encryption scheme. This header declares every call that the static library
 * exports. It is for whoever links the library; README.md says how to choose a parameter set, and what is
 * proved and what is not.
 *
 * The library is code for x86-64 with SSE2, by the System V calling convention, and is compiled and tested for no
 * other processor today. The proofs speak of the source with a size_t of 64 bits.
 * The stack is aligned to 16 bytes at a call. The code uses the xmm registers, and the 128 bytes below the stack
 * pointer that the convention gives to a function: an interrupt handler on the same stack has to leave both as
 * they were. The library needs memcpy and memset and nothing else of a C library. It is position independent
 * (shared objects, static-pie), has a section for each function (--gc-sections: a program that calls kindi_keygen
 * alone takes about 22 KB of code), allocates nothing and has no data that is written.
 *
 * What holds for each call:
 *
 *   - Its answer is fixed by its arguments: no call reads a clock, a random source or memory that its
 *     arguments do not name, and none keeps anything from one call to the next. So any number of
 *     threads may call at the same time, as long as no thread writes a buffer that another's call
 *     uses.
 *   - A byte slice is passed as two arguments: a pointer to its first byte, then its length in bytes.
 *     The pointer may be NULL where the length is 0; otherwise that many bytes are there to read, and
 *     to write where the slice is an output or the work area.
 *   - No two buffers of one call overlap, not even two inputs.
 *   - A call writes its output slices, its work area and the values that it returns through pointers, and
 *     nothing else of the caller's. Such a pointer is not NULL.
 */
#ifndef KINDI_H
#define KINDI_H

#include <stddef.h>
#include <stdint.h>

#ifdef __cplusplus
extern "C" {
#endif

/* The version: each of the makers' change requests raises the minor number (docs/changes/). */
#define KINDI_VERSION_MAJOR 0
#define KINDI_VERSION_MINOR 4
#define KINDI_VERSION_PATCH 0

/* A status that is not looked at is a warning, where the compiler can give one: the outputs of a refused call
 * are what they were before. */
#if defined(__cplusplus) && __cplusplus >= 201703L
#define KINDI_CHECK_STATUS [[nodiscard]]
#elif defined(__STDC_VERSION__) && __STDC_VERSION__ >= 202311L
#define KINDI_CHECK_STATUS [[nodiscard]]
#elif defined(__GNUC__)
#define KINDI_CHECK_STATUS __attribute__((warn_unused_result))
#else
#define KINDI_CHECK_STATUS
#endif

/* How far the SHAKE calls give the output of SHAKE: what they are asked for ends here at the latest. */
#define KINDI_SHAKE_LIMIT 1048576u

/*
 * SHAKE128 and SHAKE256 of FIPS 202, from any place of their output.
 *
 * Each fills output with the bytes of SHAKE of the input from a place on, as many as the output is long: byte j of
 * the output is byte place + j of SHAKE's, counted from 0. So place 0 gives SHAKE's first bytes, and a long output
 * can be had in parts, each from where the one before it ended. There is one check, that place plus output_len is
 * not over KINDI_SHAKE_LIMIT, and nothing overflows, whatever the two are. The bytes before the place are computed
 * and written to no buffer: the time grows with place plus output_len, the memory does not. Each call begins at
 * the start of the output again, so many short parts take far longer than one call.
 *
 *   input    of any length
 *   place    that of the first byte wanted, from 0
 *   output   output, of any length up to KINDI_SHAKE_LIMIT less the place
 *
 * Returns KINDI_OK or KINDI_PAST_LIMIT.
 */
KINDI_CHECK_STATUS uint32_t kindi_shake128(const uint8_t *input, size_t input_len, size_t place, uint8_t *output,
    size_t output_len);
KINDI_CHECK_STATUS uint32_t kindi_shake256(const uint8_t *input, size_t input_len, size_t place, uint8_t *output,
    size_t output_len);

/*
 * Parameter sets, by number. A key, a ciphertext and a shared key belong to one set, and the set is
 * part of no buffer: the two sides agree on it.
 *
 *   set   n-l-p-t     q      hash
 *   1     256-3-4-2   2^14   SHAKE128
 *   2     512-2-2-2   2^13   SHAKE256
 *   3     512-2-4-1   2^14   SHAKE256
 *   4     512-3-2-1   2^13   SHAKE256
 *
 * Lengths are in bytes. Each macro takes the number of a set, which it may evaluate more than
 * once, and gives 0 for a number that is no set. With a constant set it is a constant, fit for the size
 * of an array and for #if; with a variable it is computed where it stands.
 */
#define KINDI_BY_SET(set, len1, len2, len3, len4) \
    ((set) == 1 ? (len1) : (set) == 2 ? (len2) : (set) == 3 ? (len3) : (set) == 4 ? (len4) : 0u)

/* Each of the three seeds of a key pair: mu, gamma and z. */
#define KINDI_SEED_LEN(set) KINDI_BY_SET(set, 32u, 64u, 64u, 64u)

/* The coins of one encryption. */
#define KINDI_COINS_LEN(set) KINDI_BY_SET(set, 32u, 64u, 64u, 64u)

#define KINDI_PUBLIC_KEY_LEN(set) KINDI_BY_SET(set, 1184u, 1472u, 1728u, 2368u)
#define KINDI_SECRET_KEY_LEN(set) KINDI_BY_SET(set, 1248u, 1600u, 1856u, 2496u)
#define KINDI_CIPHERTEXT_LEN(set) KINDI_BY_SET(set, 1792u, 2496u, 2688u, 3328u)

/* A shared key. */
#define KINDI_KEY_LEN(set) KINDI_BY_SET(set, 32u, 64u, 64u, 64u)

/* The longest message that one ciphertext holds; the shortest is empty. The message output of kindi_decrypt has
 * exactly this length. */
#define KINDI_MESSAGE_MAX_LEN(set) KINDI_BY_SET(set, 383u, 383u, 575u, 511u)

/* The least work area of each call. */
#define KINDI_KEYGEN_WORK_LEN(set) KINDI_BY_SET(set, 576u, 832u, 896u, 832u)
#define KINDI_ENCRYPT_WORK_LEN(set) KINDI_BY_SET(set, 832u, 832u, 1024u, 1024u)
#define KINDI_ENCRYPT_EACH_WORK_LEN(set) KINDI_BY_SET(set, 832u, 832u, 1024u, 1024u)
#define KINDI_DECRYPT_WORK_LEN(set) KINDI_BY_SET(set, 1024u, 1472u, 1600u, 1536u)
#define KINDI_ENCAPS_WORK_LEN(set) KINDI_BY_SET(set, 832u, 832u, 1024u, 1024u)
#define KINDI_DECAPS_WORK_LEN(set) KINDI_BY_SET(set, 1024u, 1472u, 1600u, 1536u)
#define KINDI_NOISE_WORK_LEN(set) KINDI_BY_SET(set, 1408u, 1344u, 1792u, 1792u)
#define KINDI_CHOOSE_WORK_LEN(set) KINDI_BY_SET(set, 1408u, 1344u, 1792u, 1792u)

/* The longest of them: an area of this length does for every call with this set, and that of set 4 for all sets. */
#define KINDI_MOST_WORK_LEN(set) KINDI_BY_SET(set, 1408u, 1472u, 1792u, 1792u)

/* The most recipients that kindi_encrypt_each takes. */
#define KINDI_MAX_RECIPIENTS 12u

/* The most coins that kindi_choose takes. */
#define KINDI_CHOOSE_MAX_COINS 8u

/* The most bytes of stack that a call takes, its arguments and its return address included. */
#define KINDI_STACK_LEN 18336u

/*
 * What the calls return: 0 for success, otherwise the number of a refusal. A call of the scheme makes its checks
 * in the order in which they are listed here, which is not that of their numbers: 1, 13, 2, 3, 4, 14, 5, 6,
 * 7, 8, 9. Where several things are wrong, the first of the list that applies to the call is returned. The SHAKE
 * calls have one check, 15, and no other call has it.
 *
 * A refusal leaves every output slice as it was, and a value that is returned through a pointer is then 0.
 * The work area is scratch memory that the caller lends, with any content and at any address. One that
 * is long enough for the call is all zeros to its very end after every call, refused or not, so no secret
 * stays in it; only KINDI_NO_SUCH_SET leaves it as it was. One that is too short is left as it was.
 * Nothing is allocated.
 *
 * The stack is not cleared, and secrets stay there. After kindi_encaps and kindi_decaps the whole shared key lies
 * in what the call took of it, and after kindi_decrypt and kindi_decaps all of the coins, also where kindi_decaps
 * refuses with KINDI_WRONG_DIGEST. After the other calls of the scheme values lie there from which secrets
 * follow: the key's secret vector after kindi_keygen, a good part of it after kindi_noise and kindi_choose, and one
 * that gives the coins after kindi_encrypt and kindi_encrypt_each. After a SHAKE call the sponge lies there, which
 * gives the rest of the output and, where the input is shorter than a block, the input. A caller who shares the
 * stack with code that is not trusted clears KINDI_STACK_LEN bytes of it after each call, refused or not, as
 * examples/clear_stack.h does.
 */
enum kindi_status {
    KINDI_OK = 0,
    KINDI_NO_SUCH_SET = 1,      /* the set's number is not 1 to 4 */
    KINDI_WRONG_COUNT = 13,     /* the number of recipients is 0 or over KINDI_MAX_RECIPIENTS */
    KINDI_WRONG_INPUT_LEN = 2,  /* a seed, coins, a key, a ciphertext or a list of them has the wrong length */
    KINDI_MESSAGE_TOO_LONG = 3, /* a message has more than KINDI_MESSAGE_MAX_LEN bytes */
    KINDI_WRONG_OUTPUT_LEN = 4, /* an output has not its exact length, or the work area is too short */
    KINDI_EQUAL_COINS = 14,     /* two recipients have the same coins */
    KINDI_ERROR_TOO_LARGE = 5,  /* an error of the ciphertext is out of range: altered, of another key, not clear */
    KINDI_WRONG_PADDING = 6,    /* what was encrypted is no padded message */
    KINDI_WRONG_DIGEST = 7,     /* what was encrypted is not what kindi_encaps encrypts */
    KINDI_WRONG_PUBLIC_KEY = 8, /* the secret key holds a public key that its seeds mu and gamma do not give */
    KINDI_NONE_CLEAR = 9,       /* none of the coins to choose from is clear */
    KINDI_PAST_LIMIT = 15       /* what is asked of SHAKE ends past KINDI_SHAKE_LIMIT */
};

/*
 * Makes a key pair from three seeds.
 *
 * The seeds are fresh, uniformly random bytes for each key pair, and are drawn by the caller. mu is
 * public: it is the end of the public key. gamma is the secret that the key pair rests on, and z a
 * second secret that the secret key only stores; whoever knows gamma and the public key can decrypt.
 * Seeds that a caller keeps make the same key pair again.
 *
 *   mu, gamma, z   KINDI_SEED_LEN bytes each
 *   public_key     output, KINDI_PUBLIC_KEY_LEN bytes
 *   secret_key     output, KINDI_SECRET_KEY_LEN bytes: the public key, gamma, z. Keep it secret
 *   work           KINDI_KEYGEN_WORK_LEN bytes or more
 *
 * Returns KINDI_OK, KINDI_NO_SUCH_SET, KINDI_WRONG_INPUT_LEN or KINDI_WRONG_OUTPUT_LEN.
 */
KINDI_CHECK_STATUS uint32_t kindi_keygen(uint32_t set, const uint8_t *mu, size_t mu_len, const uint8_t *gamma,
    size_t gamma_len, const uint8_t *z, size_t z_len, uint8_t *public_key, size_t public_key_len,
    uint8_t *secret_key, size_t secret_key_len, uint8_t *work, size_t work_len);

/*
 * Encrypts a message to a public key.
 *
 * The coins are fresh, uniformly random and secret bytes for each ciphertext, drawn by the caller and
 * never used again: two ciphertexts of the same coins and public key show where their messages differ,
 * and whoever knows the coins can read the message, as whoever decrypts learns the coins. A ciphertext
 * has one length for messages of every length. Any public key of the right length is taken; none is
 * checked.
 *
 *   public_key   KINDI_PUBLIC_KEY_LEN bytes
 *   coins        KINDI_COINS_LEN bytes
 *   message      0 to KINDI_MESSAGE_MAX_LEN bytes
 *   ciphertext   output, KINDI_CIPHERTEXT_LEN bytes
 *   work         KINDI_ENCRYPT_WORK_LEN bytes or more
 *
 * Returns KINDI_OK, KINDI_NO_SUCH_SET, KINDI_WRONG_INPUT_LEN, KINDI_MESSAGE_TOO_LONG or
 * KINDI_WRONG_OUTPUT_LEN.
 */
KINDI_CHECK_STATUS uint32_t kindi_encrypt(uint32_t set, const uint8_t *public_key, size_t public_key_len,
    const uint8_t *coins, size_t coins_len, const uint8_t *message, size_t message_len,
    uint8_t *ciphertext, size_t ciphertext_len, uint8_t *work, size_t work_len);

/*
 * Encrypts one message to several recipients, each with a public key and coins of its own.
 *
 * Part i of the output is the ciphertext that kindi_encrypt gives for public key i, coins i and the message.
 * It depends on no other recipient's key or coins, and recipient i decrypts it as any other ciphertext. The
 * coins are drawn as for kindi_encrypt, for each recipient anew: coins that two recipients share are refused,
 * wherever the two stand, since each recipient learns its coins when it decrypts. A public key may stand
 * there twice. No part is written unless all inputs pass.
 *
 *   count         1 to KINDI_MAX_RECIPIENTS, the number of recipients
 *   public_keys   count keys of KINDI_PUBLIC_KEY_LEN bytes, one after another
 *   coins_list    count coins of KINDI_COINS_LEN bytes, one after another, in the order of the keys
 *   message       0 to KINDI_MESSAGE_MAX_LEN bytes
 *   ciphertexts   output, count ciphertexts of KINDI_CIPHERTEXT_LEN bytes, in the order of the keys
 *   work          KINDI_ENCRYPT_EACH_WORK_LEN bytes or more, whatever the count
 *
 * Returns KINDI_OK, KINDI_NO_SUCH_SET, KINDI_WRONG_COUNT, KINDI_WRONG_INPUT_LEN, KINDI_MESSAGE_TOO_LONG,
 * KINDI_WRONG_OUTPUT_LEN or KINDI_EQUAL_COINS.
 */
KINDI_CHECK_STATUS uint32_t kindi_encrypt_each(uint32_t set, uint32_t count, const uint8_t *public_keys,
    size_t public_keys_len, const uint8_t *coins_list, size_t coins_list_len, const uint8_t *message,
    size_t message_len, uint8_t *ciphertexts, size_t ciphertexts_len, uint8_t *work, size_t work_len);

/*
 * Decrypts a message.
 *
 * The answer is coins and a message only where encrypting this message with these coins to the public
 * key in the secret key gives this very ciphertext. What was encrypted comes back where it is clear (see
 * kindi_noise) and the key pair is one of kindi_keygen.
 *
 * A ciphertext that was altered on its way may decrypt to another message with the same coins. Of all
 * single-bit alterations of one ciphertext, of a message of 300 bytes, 1,757 of 14,336 did in set 1, 1,582 of
 * 19,968 in set 2, 1,906 of 21,504 in set 3 and 1,593 of 26,624 in set 4: one in 8, 13, 11 and 17; of the
 * longest message one in 7, 10, 7 and 10. So carry a tag in the message, as examples/tagged.c does, or share a
 * key by kindi_encaps, of whose ciphertexts none so altered was taken, and authenticate the message with it.
 *
 * Whoever alters ciphertexts must not learn which refusal they met, nor, without a tag, whether one was taken:
 * from some thousands of altered copies and such answers they can work out the coins and the message. And
 * whoever encrypts can choose coins and message, and so the noise: if they learn of some thousands of their
 * own messages only whether each was taken, tag or not, they can work out the secret key. So messages are for
 * senders that the link has authenticated (README.md, "What stays with the caller").
 *
 *   secret_key    KINDI_SECRET_KEY_LEN bytes
 *   ciphertext    KINDI_CIPHERTEXT_LEN bytes
 *   coins         output, KINDI_COINS_LEN bytes: the coins of the encryption. Keep them secret
 *   message       output, KINDI_MESSAGE_MAX_LEN bytes: the message, then zeros
 *   message_len   output, the length of the message; 0 after a refusal
 *   work          KINDI_DECRYPT_WORK_LEN bytes or more
 *
 * Returns KINDI_OK, KINDI_NO_SUCH_SET, KINDI_WRONG_INPUT_LEN, KINDI_WRONG_OUTPUT_LEN,
 * KINDI_ERROR_TOO_LARGE or KINDI_WRONG_PADDING.
 */
KINDI_CHECK_STATUS uint32_t kindi_decrypt(uint32_t set, const uint8_t *secret_key, size_t secret_key_len,
    const uint8_t *ciphertext, size_t ciphertext_len, uint8_t *coins, size_t coins_len, uint8_t *message,
    size_t message_room, size_t *message_len, uint8_t *work, size_t work_len);

/*
 * Makes a shared key, and the ciphertext that takes it to the owner of a public key.
 *
 * The coins are fresh, uniformly random and secret bytes for each shared key, drawn by the caller and
 * never used again, not for kindi_encrypt either: whoever knows the coins has the shared key. Any public
 * key of the right length is taken; none is checked.
 *
 *   public_key   KINDI_PUBLIC_KEY_LEN bytes
 *   coins        KINDI_COINS_LEN bytes
 *   key          output, KINDI_KEY_LEN bytes: the shared key. Keep it secret
 *   ciphertext   output, KINDI_CIPHERTEXT_LEN bytes
 *   work         KINDI_ENCAPS_WORK_LEN bytes or more
 *
 * Returns KINDI_OK, KINDI_NO_SUCH_SET, KINDI_WRONG_INPUT_LEN or KINDI_WRONG_OUTPUT_LEN.
 */
KINDI_CHECK_STATUS uint32_t kindi_encaps(uint32_t set, const uint8_t *public_key, size_t public_key_len,
    const uint8_t *coins, size_t coins_len, uint8_t *key, size_t key_len, uint8_t *ciphertext,
    size_t ciphertext_len, uint8_t *work, size_t work_len);

/*
 * Takes a shared key out of its ciphertext.
 *
 * The answer is a key only where kindi_encaps of the ciphertext's coins to the public key in the secret
 * key gives this key and this very ciphertext. So a ciphertext that was altered is refused, unless it is
 * another that kindi_encaps makes; so is one of kindi_encrypt. Whoever sends ciphertexts must not learn
 * which refusal they met: from some thousands of altered copies, and of each whether it was refused with
 * KINDI_ERROR_TOO_LARGE, they can work out the coins and the shared key.
 *
 *   secret_key   KINDI_SECRET_KEY_LEN bytes
 *   ciphertext   KINDI_CIPHERTEXT_LEN bytes
 *   key          output, KINDI_KEY_LEN bytes: the shared key. Keep it secret
 *   work         KINDI_DECAPS_WORK_LEN bytes or more
 *
 * Returns KINDI_OK, KINDI_NO_SUCH_SET, KINDI_WRONG_INPUT_LEN, KINDI_WRONG_OUTPUT_LEN,
 * KINDI_ERROR_TOO_LARGE or KINDI_WRONG_DIGEST.
 */
KINDI_CHECK_STATUS uint32_t kindi_decaps(uint32_t set, const uint8_t *secret_key, size_t secret_key_len,
    const uint8_t *ciphertext, size_t ciphertext_len, uint8_t *key, size_t key_len, uint8_t *work,
    size_t work_len);

/*
 * Measures the noise of an encryption to one's own key pair: by how much the value that decryption rounds is
 * off from the one that stands for the coins. It has to be small for them to come back.
 *
 * The coins and the message are clear where every coefficient of the noise is strictly between -q/4 and
 * q/4. What is clear comes back when its ciphertext is decrypted, and under one key pair no two clear pairs
 * share a ciphertext. The noise depends on the secret key: tell nobody the largest value.
 *
 *   secret_key   KINDI_SECRET_KEY_LEN bytes, of kindi_keygen
 *   coins        KINDI_COINS_LEN bytes
 *   message      0 to KINDI_MESSAGE_MAX_LEN bytes
 *   clear        output, 1 where the coins and the message are clear, else 0; 0 after a refusal
 *   largest      output, the largest absolute value of the noise; 0 after a refusal
 *   work         KINDI_NOISE_WORK_LEN bytes or more
 *
 * Returns KINDI_OK, KINDI_NO_SUCH_SET, KINDI_WRONG_INPUT_LEN, KINDI_MESSAGE_TOO_LONG,
 * KINDI_WRONG_OUTPUT_LEN or KINDI_WRONG_PUBLIC_KEY.
 */
KINDI_CHECK_STATUS uint32_t kindi_noise(uint32_t set, const uint8_t *secret_key, size_t secret_key_len,
    const uint8_t *coins, size_t coins_len, const uint8_t *message, size_t message_len, uint32_t *clear,
    uint32_t *largest, uint8_t *work, size_t work_len);

/*
 * Chooses coins that are clear with a message, for an encryption to one's own key pair. All of the list are
 * drawn as for kindi_encrypt.
 *
 *   secret_key   KINDI_SECRET_KEY_LEN bytes, of kindi_keygen
 *   message      0 to KINDI_MESSAGE_MAX_LEN bytes
 *   coins_list   1 to KINDI_CHOOSE_MAX_COINS coins of KINDI_COINS_LEN bytes, one after another; another
 *                length is KINDI_WRONG_INPUT_LEN
 *   place        output, the place in the list, from 0, of some coins that are clear; 0 after a refusal.
 *                Where several are clear, which of them it is may change from one release to another
 *   work         KINDI_CHOOSE_WORK_LEN bytes or more
 *
 * Returns KINDI_OK, KINDI_NO_SUCH_SET, KINDI_WRONG_INPUT_LEN, KINDI_MESSAGE_TOO_LONG,
 * KINDI_WRONG_OUTPUT_LEN, KINDI_WRONG_PUBLIC_KEY or KINDI_NONE_CLEAR.
 */
KINDI_CHECK_STATUS uint32_t kindi_choose(uint32_t set, const uint8_t *secret_key, size_t secret_key_len,
    const uint8_t *message, size_t message_len, const uint8_t *coins_list, size_t coins_list_len,
    uint32_t *place, uint8_t *work, size_t work_len);

#ifdef __cplusplus
}
#endif

#endif
