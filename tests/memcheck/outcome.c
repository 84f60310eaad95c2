/*
 * Calls encrypt_each, decrypt, decaps, noise and choose on secrets that memcheck takes for undefined: it then
 * reports every branch and every address that depends on them. Secret are gamma and z in the secret key, and
 * the coins and the message in encrypt_each, noise and choose; public keys and ciphertexts are public.
 *
 * The outcome of these calls depends on the secrets, and a call branches on it once it is decided. So the
 * reports of each call are counted as they happen, and no call has more of them than outcomes to decide:
 * encrypt_each whether any two coins are equal, and nothing where the coins are known; decrypt and decaps
 * their status; noise whether the stored public key is that of its seeds, and nothing where its seeds are
 * known; choose that, and whether some coins are clear. All that comes before such a branch has been run
 * without a report, and in encrypt_each all that comes after it. What decrypt does after it has accepted,
 * copying a message whose length is then no secret from the caller, is run with reports turned off; its
 * refusals 5 and 6 end at the branch and so show all that comes before.
 *
 * With an argument the program itself branches on a shared key, which has to be counted: exit 9, as for
 * every report that is one too many.
 */
#include "kindi.h"
#include "secrets.h"

#define REPORTED 9

/* A key pair of a set, what is encrypted to it, and room for the outputs. */
static uint8_t *public_key, *secret_key, *coins, *message, *encrypted, *shared, *key;

/* The lengths in the set at hand. */
static size_t seed_len, public_key_len, secret_key_len, coins_len, message_len, ciphertext_len, key_len;

static unsigned reports;

/* Before a call: its work area, undefined as memory that nobody wrote. */
static uint8_t *start(size_t work_len)
{
    uint8_t *work = buffer(work_len, 1);

    reports = VALGRIND_COUNT_ERRORS;
    return work;
}

/* After a call: its reports, its status, which is known from now on, and its work area. */
static void finish(const char *call, uint32_t set, unsigned outcomes, uint32_t status, uint32_t expected,
    uint8_t *work, size_t work_len)
{
    if (VALGRIND_COUNT_ERRORS - reports > outcomes) {
        printf("FAILED: %s of set %lu: %u reports\n", call, (unsigned long)set, VALGRIND_COUNT_ERRORS - reports);
        exit(REPORTED);
    }
    (void)VALGRIND_MAKE_MEM_DEFINED(&status, sizeof status);
    if (status != expected)
        fail(call, set, "another status than expected");
    wiped(call, set, work, work_len);
    free(work);
}

/* Encrypts to the most recipients, whose coins at two places are equal where the places differ. The message is
 * secret, and the coins where there is an outcome that depends on them. */
static void encrypt_each(uint32_t set, unsigned outcomes, size_t one, size_t other)
{
    size_t keys_len = KINDI_MAX_RECIPIENTS * public_key_len, list_len = KINDI_MAX_RECIPIENTS * coins_len;
    size_t output_len = KINDI_MAX_RECIPIENTS * ciphertext_len, work_len = KINDI_ENCRYPT_EACH_WORK_LEN(set), i;
    uint32_t expected = one == other ? KINDI_OK : KINDI_EQUAL_COINS, status;
    uint8_t *keys = buffer(keys_len, 0), *list = buffer(list_len, 0), *output = buffer(output_len, 0);
    uint8_t *before = buffer(output_len, 0), *work = start(work_len);

    for (i = 0; i < coins_len; i++)
        list[other * coins_len + i] = list[one * coins_len + i];
    if (outcomes > 0)
        (void)VALGRIND_MAKE_MEM_UNDEFINED(list, list_len);
    status = kindi_encrypt_each(set, KINDI_MAX_RECIPIENTS, keys, keys_len, list, list_len, message, message_len,
        output, output_len, work, work_len);
    finish("encrypt_each", set, outcomes, status, expected, work, work_len);
    for (i = 0; i < KINDI_MAX_RECIPIENTS && expected == KINDI_OK; i++)
        depends("encrypt_each", set, output + i * ciphertext_len, outcomes > 0 ? ciphertext_len : 1);
    for (i = 0; i < output_len && expected != KINDI_OK; i++)
        if (marked(output + i) != 0 || output[i] != before[i])
            fail("encrypt_each", set, "a refusal wrote the output");
    free(keys), free(list), free(output), free(before);
}

/* Coins that all differ, and equal ones at the first two places, the last two, the first and the last, and two
 * in between. */
static void recipients(uint32_t set)
{
    size_t last = KINDI_MAX_RECIPIENTS - 1;

    encrypt_each(set, 0, 0, 0);
    encrypt_each(set, 1, 0, 0);
    encrypt_each(set, 1, 0, 1);
    encrypt_each(set, 1, last - 1, last);
    encrypt_each(set, 1, 0, last);
    encrypt_each(set, 1, 3, 7);
}

/* Adds to the first coefficient of a ciphertext, which has 14 bits in the sets 1 and 3, else 13. */
static void raise_first(uint32_t set, uint8_t *ciphertext, unsigned change)
{
    unsigned mask = set % 2 == 1 ? 0x3fff : 0x1fff, bits = ciphertext[0] | (unsigned)ciphertext[1] << 8;

    bits = (bits & ~mask) | ((bits + change) & mask);
    ciphertext[0] = (uint8_t)bits;
    ciphertext[1] = (uint8_t)(bits >> 8);
}

/* Decrypts the ciphertext of the message, of which nothing is counted where it is accepted. */
static void decrypt(uint32_t set, uint32_t expected)
{
    size_t work_len = KINDI_DECRYPT_WORK_LEN(set), len = 1;
    uint8_t *work = start(work_len), *found = buffer(coins_len, 0), *text = buffer(message_len, 0);
    uint32_t status;

    if (expected == KINDI_OK)
        VALGRIND_DISABLE_ERROR_REPORTING;
    status = kindi_decrypt(set, secret_key, secret_key_len, encrypted, ciphertext_len, found, coins_len, text,
        message_len, &len, work, work_len);
    if (expected == KINDI_OK)
        VALGRIND_ENABLE_ERROR_REPORTING;
    finish("decrypt", set, 1, status, expected, work, work_len);
    if (expected == KINDI_OK)
        depends("decrypt", set, found, coins_len);
    (void)VALGRIND_MAKE_MEM_DEFINED(&len, sizeof len);
    if (len != 0)
        fail("decrypt", set, "another length than that of the empty message");
    free(found), free(text);
}

static void decaps(uint32_t set, const uint8_t *ciphertext, uint32_t expected, int branch)
{
    size_t work_len = KINDI_DECAPS_WORK_LEN(set);
    uint8_t *work = start(work_len);
    uint32_t status = kindi_decaps(set, secret_key, secret_key_len, ciphertext, ciphertext_len, key, key_len, work,
        work_len);

    if (branch && key[0] > 127)
        printf("the first byte of the key is large\n");
    finish("decaps", set, 1, status, expected, work, work_len);
    if (expected == KINDI_OK)
        depends("decaps", set, key, key_len);
}

static void noise(uint32_t set, unsigned outcomes, uint32_t expected)
{
    size_t work_len = KINDI_NOISE_WORK_LEN(set);
    uint32_t clear = 0, largest = 0, status;
    uint8_t *work = start(work_len);

    status = kindi_noise(set, secret_key, secret_key_len, coins, coins_len, message, message_len, &clear, &largest,
        work, work_len);
    finish("noise", set, outcomes, status, expected, work, work_len);
    if (expected == KINDI_OK && marked((const uint8_t *)&largest) == 0)
        fail("noise", set, "the largest value does not count as made from the secrets");
    (void)VALGRIND_MAKE_MEM_DEFINED(&clear, sizeof clear);
    if (clear != (expected == KINDI_OK))
        fail("noise", set, "clear is not what it should be");
}

static void choose(uint32_t set, unsigned outcomes, uint32_t expected)
{
    size_t work_len = KINDI_CHOOSE_WORK_LEN(set), list_len = KINDI_CHOOSE_MAX_COINS * coins_len;
    uint8_t *list = buffer(list_len, 1), *work = start(work_len);
    uint32_t place = 0, status;

    status = kindi_choose(set, secret_key, secret_key_len, message, message_len, list, list_len, &place, work,
        work_len);
    finish("choose", set, outcomes, status, expected, work, work_len);
    (void)VALGRIND_MAKE_MEM_DEFINED(&place, sizeof place);
    if (place >= KINDI_CHOOSE_MAX_COINS)
        fail("choose", set, "no place of the list");
    free(list);
}

/* Makes the key pair and the two ciphertexts, of an empty message and of a shared key. */
static void make(uint32_t set)
{
    size_t work_len = KINDI_NOISE_WORK_LEN(set);
    uint8_t *seed, *work = buffer(work_len, 0);

    seed_len = KINDI_SEED_LEN(set), public_key_len = KINDI_PUBLIC_KEY_LEN(set), key_len = KINDI_KEY_LEN(set);
    secret_key_len = KINDI_SECRET_KEY_LEN(set), coins_len = KINDI_COINS_LEN(set);
    message_len = KINDI_MESSAGE_MAX_LEN(set), ciphertext_len = KINDI_CIPHERTEXT_LEN(set);
    public_key = buffer(public_key_len, 0), secret_key = buffer(secret_key_len, 0), coins = buffer(coins_len, 0);
    message = buffer(message_len, 0), encrypted = buffer(ciphertext_len, 0), shared = buffer(ciphertext_len, 0);
    key = buffer(key_len, 0), seed = buffer(seed_len, 0);
    if (kindi_keygen(set, seed, seed_len, seed, seed_len, seed, seed_len, public_key, public_key_len, secret_key,
            secret_key_len, work, work_len) != KINDI_OK
        || kindi_encrypt(set, public_key, public_key_len, coins, coins_len, message, 0, encrypted, ciphertext_len, work,
            work_len) != KINDI_OK
        || kindi_encaps(set, public_key, public_key_len, coins, coins_len, key, key_len, shared, ciphertext_len, work,
            work_len) != KINDI_OK)
        fail("keygen, encrypt or encaps", set, "refused");
    free(seed), free(work);
}

/* An empty message of which one error is another that is in its range: no padded message. */
static void break_padding(uint32_t set)
{
    size_t work_len = KINDI_DECRYPT_WORK_LEN(set), len;
    uint8_t *work = buffer(work_len, 0), *found = buffer(coins_len, 0), *text = buffer(message_len, 0);

    raise_first(set, encrypted, 1);
    if (kindi_decrypt(set, secret_key, secret_key_len, encrypted, ciphertext_len, found, coins_len, text, message_len,
            &len, work, work_len) == KINDI_ERROR_TOO_LARGE)
        raise_first(set, encrypted, 0u - 2);
    free(work), free(found), free(text);
}

static void decryptions(uint32_t set, int branch)
{
    break_padding(set);
    (void)VALGRIND_MAKE_MEM_UNDEFINED(secret_key + public_key_len, 2 * seed_len);
    decrypt(set, KINDI_WRONG_PADDING);
    decaps(set, encrypted, KINDI_WRONG_DIGEST, 0);
    raise_first(set, encrypted, 8);
    decrypt(set, KINDI_ERROR_TOO_LARGE);
    decaps(set, encrypted, KINDI_ERROR_TOO_LARGE, 0);
    decaps(set, shared, KINDI_OK, branch);
}

int main(int argc, char **argv)
{
    uint32_t set;

    (void)argv;
    under_valgrind();
    for (set = 1; set <= SETS; set++) {
        make(set);
        (void)VALGRIND_MAKE_MEM_UNDEFINED(coins, coins_len);
        (void)VALGRIND_MAKE_MEM_UNDEFINED(message, message_len);
        recipients(set);
        noise(set, 0, KINDI_OK);
        (void)VALGRIND_MAKE_MEM_UNDEFINED(secret_key + public_key_len, 2 * seed_len);
        decrypt(set, KINDI_OK);
        noise(set, 1, KINDI_OK);
        choose(set, 2, KINDI_OK);
        secret_key[0] ^= 1;
        noise(set, 1, KINDI_WRONG_PUBLIC_KEY);
        choose(set, 1, KINDI_WRONG_PUBLIC_KEY);
        secret_key[0] ^= 1;
        (void)VALGRIND_MAKE_MEM_DEFINED(secret_key, secret_key_len);
        decryptions(set, argc > 1 && set == SETS);
        free(public_key), free(secret_key), free(coins), free(message), free(encrypted), free(shared), free(key);
    }
    return 0;
}
