/*
 * A caller that clears the stack after its calls: an oven makes a key pair, and a shared key and a baking programme
 * are encrypted to it and come back. Each function that makes a call calls clear_stack right after it, whatever the
 * call answered: that, and clear_stack.h, is what to copy. clear_stack does not reach the variables of the function
 * that calls it, so none of these has a secret in a local one. Prints what happened, and exits with 1 where a call
 * does not answer as it should.
 */
#include "clear_stack.h"
#include "shown.h"

#define SET 3

static uint8_t mu[KINDI_SEED_LEN(SET)], gamma_seed[KINDI_SEED_LEN(SET)], z[KINDI_SEED_LEN(SET)];
static uint8_t public_key[KINDI_PUBLIC_KEY_LEN(SET)], secret_key[KINDI_SECRET_KEY_LEN(SET)];
static uint8_t coins[KINDI_COINS_LEN(SET)], ciphertext[KINDI_CIPHERTEXT_LEN(SET)];
static uint8_t key[KINDI_KEY_LEN(SET)], oven_key[KINDI_KEY_LEN(SET)];
static uint8_t message[KINDI_MESSAGE_MAX_LEN(SET)], message_coins[KINDI_COINS_LEN(SET)];
static size_t message_len;
static uint8_t work[KINDI_MOST_WORK_LEN(SET)];

static uint32_t make_keys(void)
{
    uint32_t status = kindi_keygen(SET, mu, sizeof mu, gamma_seed, sizeof gamma_seed, z, sizeof z, public_key,
        sizeof public_key, secret_key, sizeof secret_key, work, sizeof work);

    clear_stack();
    return status;
}

static uint32_t share_key(void)
{
    uint32_t status = kindi_encaps(SET, public_key, sizeof public_key, coins, sizeof coins, key, sizeof key,
        ciphertext, sizeof ciphertext, work, sizeof work);

    clear_stack();
    return status;
}

static uint32_t take_key(void)
{
    uint32_t status = kindi_decaps(SET, secret_key, sizeof secret_key, ciphertext, sizeof ciphertext, oven_key,
        sizeof oven_key, work, sizeof work);

    clear_stack();
    return status;
}

static uint32_t encrypt(const char *programme)
{
    uint32_t status = kindi_encrypt(SET, public_key, sizeof public_key, coins, sizeof coins,
        (const uint8_t *)programme, strlen(programme), ciphertext, sizeof ciphertext, work, sizeof work);

    clear_stack();
    return status;
}

static uint32_t decrypt(void)
{
    uint32_t status = kindi_decrypt(SET, secret_key, sizeof secret_key, ciphertext, sizeof ciphertext, message_coins,
        sizeof message_coins, message, sizeof message, &message_len, work, sizeof work);

    clear_stack();
    return status;
}

int main(void)
{
    static const char programme[] = "rye, 2 kg: 250 C with steam for 10 min; 200 C for 50 min";

    printf("parameter set %d; a call takes up to %u bytes of stack\n", SET, KINDI_STACK_LEN);
    draw("seed mu", mu, sizeof mu);
    draw("seed gamma", gamma_seed, sizeof gamma_seed);
    draw("seed z", z, sizeof z);
    draw("coins of the shared key", coins, sizeof coins);
    if (!answers("keygen, cleared", make_keys(), KINDI_OK) || !answers("encaps, cleared", share_key(), KINDI_OK))
        return 1;
    print("its ciphertext", ciphertext, sizeof ciphertext);
    if (!answers("decaps, cleared", take_key(), KINDI_OK) || memcmp(key, oven_key, sizeof key) != 0)
        return 1;
    draw("coins of the programme", coins, sizeof coins);
    if (!answers("encrypt, cleared", encrypt(programme), KINDI_OK) || !answers("decrypt, cleared", decrypt(), KINDI_OK)
        || message_len != strlen(programme) || memcmp(message, programme, message_len) != 0)
        return 1;
    printf("  %.*s\n", (int)message_len, (const char *)message);
    return 0;
}
