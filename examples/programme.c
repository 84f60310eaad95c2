/*
 * An oven makes a key pair; a shared key and a baking programme are encrypted to it and come back, and a
 * copy of the programme that was altered on its way is refused. The programme is the first argument, or one
 * of its own where there is none. Prints what happened, and exits with 1 where a call does not answer as
 * it should.
 */
#include "shown.h"

#define SET 3

static uint8_t public_key[KINDI_PUBLIC_KEY_LEN(SET)], secret_key[KINDI_SECRET_KEY_LEN(SET)];
static uint8_t coins[KINDI_COINS_LEN(SET)], ciphertext[KINDI_CIPHERTEXT_LEN(SET)];
static uint8_t key[KINDI_KEY_LEN(SET)], oven_key[KINDI_KEY_LEN(SET)];
static uint8_t message[KINDI_MESSAGE_MAX_LEN(SET)], message_coins[KINDI_COINS_LEN(SET)];

/* One area serves all calls, one after another. */
static uint8_t work[KINDI_MOST_WORK_LEN(SET)];

static int make_keys(void)
{
    uint8_t mu[KINDI_SEED_LEN(SET)], gamma_seed[KINDI_SEED_LEN(SET)], z[KINDI_SEED_LEN(SET)];

    draw("seed mu", mu, sizeof mu);
    draw("seed gamma", gamma_seed, sizeof gamma_seed);
    draw("seed z", z, sizeof z);
    if (!answers("keygen", kindi_keygen(SET, mu, sizeof mu, gamma_seed, sizeof gamma_seed, z, sizeof z, public_key,
            sizeof public_key, secret_key, sizeof secret_key, work, sizeof work), KINDI_OK))
        return 0;
    print("public key", public_key, sizeof public_key);
    print("secret key", secret_key, sizeof secret_key);
    return 1;
}

static int share_key(void)
{
    draw("coins of the shared key", coins, sizeof coins);
    if (!answers("encaps", kindi_encaps(SET, public_key, sizeof public_key, coins, sizeof coins, key, sizeof key,
            ciphertext, sizeof ciphertext, work, sizeof work), KINDI_OK))
        return 0;
    print("shared key", key, sizeof key);
    print("its ciphertext", ciphertext, sizeof ciphertext);
    return answers("decaps", kindi_decaps(SET, secret_key, sizeof secret_key, ciphertext, sizeof ciphertext, oven_key,
        sizeof oven_key, work, sizeof work), KINDI_OK) && memcmp(key, oven_key, sizeof key) == 0;
}

static int encrypt(const char *programme)
{
    draw("coins of the programme", coins, sizeof coins);
    if (!answers("encrypt", kindi_encrypt(SET, public_key, sizeof public_key, coins, sizeof coins,
            (const uint8_t *)programme, strlen(programme), ciphertext, sizeof ciphertext, work, sizeof work), KINDI_OK))
        return 0;
    print("its ciphertext", ciphertext, sizeof ciphertext);
    return 1;
}

/* Whoever has the secret key can tell beforehand that the programme will come back. */
static int measure(const char *programme)
{
    uint32_t clear, largest;

    if (!answers("noise", kindi_noise(SET, secret_key, sizeof secret_key, coins, sizeof coins,
            (const uint8_t *)programme, strlen(programme), &clear, &largest, work, sizeof work), KINDI_OK))
        return 0;
    printf("  %s: the largest is %lu\n", clear ? "clear" : "not clear", (unsigned long)largest);
    return 1;
}

static int decrypt(const char *call, uint32_t expected)
{
    size_t len;
    uint32_t status = kindi_decrypt(SET, secret_key, sizeof secret_key, ciphertext, sizeof ciphertext, message_coins,
        sizeof message_coins, message, sizeof message, &len, work, sizeof work);

    if (!answers(call, status, expected))
        return 0;
    if (status == KINDI_OK)
        printf("  %.*s\n", (int)len, (const char *)message);
    return 1;
}

int main(int argc, char **argv)
{
    const char *programme = argc > 1 ? argv[1] : "rye, 2 kg: 250 C with steam for 10 min; 200 C for 50 min";

    printf("parameter set %d\n", SET);
    if (!make_keys() || !share_key())
        return 1;
    printf("programme\n  %s\n", programme);
    if (!encrypt(programme) || !measure(programme) || !decrypt("decrypt", KINDI_OK)
        || memcmp(message, programme, strlen(programme)) != 0)
        return 1;
    ciphertext[sizeof ciphertext / 2] ^= 0x40;
    return decrypt("decrypt, altered copy", KINDI_ERROR_TOO_LARGE) ? 0 : 1;
}
