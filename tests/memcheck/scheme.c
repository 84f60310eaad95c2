/*
 * Calls keygen, encrypt and encaps on secrets that memcheck takes for undefined: it then reports every
 * branch and every address that depends on them. Secret are gamma and z in keygen, the coins and the
 * message in encrypt, the coins in encaps; mu and the public key are public. The outputs and the work area
 * are undefined at entry too, as memory that nobody wrote, and each buffer has its exact length, so that
 * memcheck sees a read or a write beside it. With an argument the program itself branches on a ciphertext,
 * which memcheck must report, so that a silent run means something.
 */
#include "kindi.h"
#include "secrets.h"

/* What is secret in an encryption. */
enum { COINS = 1, MESSAGE = 2 };

/* Accepted, which is known without the secrets. */
static void accepted(const char *call, uint32_t set, uint32_t status, const uint8_t *work, size_t work_len)
{
    if (VALGRIND_CHECK_MEM_IS_DEFINED(&status, sizeof status) != 0)
        fail(call, set, "the status depends on a secret");
    if (status != KINDI_OK)
        fail(call, set, "refused");
    wiped(call, set, work, work_len);
}

static void keygen(uint32_t set)
{
    size_t seed = KINDI_SEED_LEN(set), work_len = KINDI_KEYGEN_WORK_LEN(set);
    size_t public_key_len = KINDI_PUBLIC_KEY_LEN(set), secret_key_len = KINDI_SECRET_KEY_LEN(set);
    uint8_t *mu = buffer(seed, 0), *gamma = buffer(seed, 1), *z = buffer(seed, 1), *work = buffer(work_len, 1);
    uint8_t *public_key = buffer(public_key_len, 1), *secret_key = buffer(secret_key_len, 1);
    uint32_t status = kindi_keygen(set, mu, seed, gamma, seed, z, seed, public_key, public_key_len, secret_key,
        secret_key_len, work, work_len);

    accepted("keygen", set, status, work, work_len);
    depends("keygen", set, public_key, public_key_len - seed);
    depends("keygen", set, secret_key + public_key_len, 2 * seed);
    /* mu is public, and comes out as such. */
    if (marked(public_key + public_key_len - 1) != 0 || marked(secret_key + public_key_len - 1) != 0)
        fail("keygen", set, "mu counts as made from the secrets");
    free(mu), free(gamma), free(z), free(work), free(public_key), free(secret_key);
}

/* With either or both of the coins and the longest message secret. */
static void encrypt(uint32_t set, int secret)
{
    size_t public_key_len = KINDI_PUBLIC_KEY_LEN(set), coins_len = KINDI_COINS_LEN(set);
    size_t message_len = KINDI_MESSAGE_MAX_LEN(set), ciphertext_len = KINDI_CIPHERTEXT_LEN(set);
    size_t work_len = KINDI_ENCRYPT_WORK_LEN(set);
    uint8_t *public_key = buffer(public_key_len, 0), *coins = buffer(coins_len, secret & COINS);
    uint8_t *message = buffer(message_len, secret & MESSAGE), *ciphertext = buffer(ciphertext_len, 1);
    uint8_t *work = buffer(work_len, 1);
    uint32_t status = kindi_encrypt(set, public_key, public_key_len, coins, coins_len, message, message_len,
        ciphertext, ciphertext_len, work, work_len);

    accepted("encrypt", set, status, work, work_len);
    if (secret & COINS)
        depends("encrypt", set, ciphertext, ciphertext_len);
    else if (marked(ciphertext) == 0)
        fail("encrypt", set, "the ciphertext does not count as made from the message");
    free(public_key), free(coins), free(message), free(ciphertext), free(work);
}

static void encaps(uint32_t set, int branch)
{
    size_t public_key_len = KINDI_PUBLIC_KEY_LEN(set), coins_len = KINDI_COINS_LEN(set);
    size_t key_len = KINDI_KEY_LEN(set), ciphertext_len = KINDI_CIPHERTEXT_LEN(set);
    size_t work_len = KINDI_ENCAPS_WORK_LEN(set);
    uint8_t *public_key = buffer(public_key_len, 0), *coins = buffer(coins_len, 1), *key = buffer(key_len, 1);
    uint8_t *ciphertext = buffer(ciphertext_len, 1), *work = buffer(work_len, 1);
    uint32_t status = kindi_encaps(set, public_key, public_key_len, coins, coins_len, key, key_len, ciphertext,
        ciphertext_len, work, work_len);

    accepted("encaps", set, status, work, work_len);
    depends("encaps", set, key, key_len);
    depends("encaps", set, ciphertext, ciphertext_len);
    if (branch && ciphertext[0] > 127)
        printf("the first byte of the ciphertext is large\n");
    free(public_key), free(coins), free(key), free(ciphertext), free(work);
}

int main(int argc, char **argv)
{
    uint32_t set;

    (void)argv;
    under_valgrind();
    for (set = 1; set <= SETS; set++) {
        keygen(set);
        encrypt(set, COINS);
        encrypt(set, MESSAGE);
        encrypt(set, COINS | MESSAGE);
        encaps(set, argc > 1 && set == SETS);
    }
    return 0;
}
