/*
 * Times the calls of the scheme in each parameter set beside portable C that multiplies by a
 * double-precision transform; and a call for several recipients beside one call for each of them.
 */
#include <stdio.h>
#include <stdlib.h>
#include <string.h>

#include "kindi.h"
#include "kindi_ref.h"
#include "sets.h"
#include "timing.h"

#define COUNT(array) (sizeof(array) / sizeof((array)[0]))

/* How many inputs of each call are compared before it is timed. */
#define INPUTS 4

/* A call for one recipient takes the first of the public keys and of the coins. */
static uint8_t mu[MOST_SEED], gamma_seed[MOST_SEED], z[MOST_SEED], message[MOST_PADDED - 1];
static uint8_t recipients[RECIPIENTS * MOST_PUBLIC_KEY], coins[RECIPIENTS * MOST_COINS], owner[MOST_SECRET_KEY];
static uint8_t encrypted[MOST_CIPHERTEXT], shared[MOST_CIPHERTEXT], work_area[MOST_WORK];

/* All that a call may write, but a place that is chosen: which of the clear coins it is of, is free. */
static struct outputs {
    uint8_t public_key[MOST_PUBLIC_KEY], secret_key[MOST_SECRET_KEY], key[MOST_COINS];
    uint8_t ciphertexts[RECIPIENTS * MOST_CIPHERTEXT], coins[MOST_COINS], message[MOST_PADDED - 1];
    size_t message_len;
    uint32_t clear, largest;
} out;

/* A call that refuses does no work, and a figure of it says nothing. */
static void accepted(const char *call, uint32_t set, uint32_t answer)
{
    if (answer != 0) {
        fprintf(stderr, "bench: set %lu, %s was refused: %lu\n", (unsigned long)set, call, (unsigned long)answer);
        exit(1);
    }
}

static void ours_keygen(void *arg)
{
    uint32_t set = *(const uint32_t *)arg;
    const struct lengths *len = &set_lengths[set - 1];

    accepted("keygen", set, kindi_keygen(set, mu, len->seed, gamma_seed, len->seed, z, len->seed, out.public_key,
        len->public_key, out.secret_key, len->secret_key, work_area, KINDI_KEYGEN_WORK_LEN(set)));
}

static void c_keygen(void *arg)
{
    ref_keygen(*(const uint32_t *)arg, mu, gamma_seed, z, out.public_key, out.secret_key);
}

static void encrypt_to(uint32_t set, size_t i)
{
    const struct lengths *len = &set_lengths[set - 1];

    accepted("encrypt", set, kindi_encrypt(set, recipients + i * len->public_key, len->public_key,
        coins + i * len->coins, len->coins, message, len->padded - 1, out.ciphertexts + i * len->ciphertext,
        len->ciphertext, work_area, KINDI_ENCRYPT_WORK_LEN(set)));
}

static void ours_encrypt(void *arg)
{
    encrypt_to(*(const uint32_t *)arg, 0);
}

static void c_encrypt(void *arg)
{
    uint32_t set = *(const uint32_t *)arg;

    ref_encrypt(set, recipients, coins, message, set_lengths[set - 1].padded - 1, out.ciphertexts);
}

static void one_call(void *arg)
{
    uint32_t set = *(const uint32_t *)arg;
    const struct lengths *len = &set_lengths[set - 1];

    accepted("encrypt_each", set, kindi_encrypt_each(set, RECIPIENTS, recipients, RECIPIENTS * len->public_key, coins,
        RECIPIENTS * len->coins, message, len->padded - 1, out.ciphertexts, RECIPIENTS * len->ciphertext, work_area,
        KINDI_ENCRYPT_EACH_WORK_LEN(set)));
}

static void single_calls(void *arg)
{
    size_t i;

    for (i = 0; i < RECIPIENTS; i++)
        encrypt_to(*(const uint32_t *)arg, i);
}

static void ours_decrypt(void *arg)
{
    uint32_t set = *(const uint32_t *)arg;
    const struct lengths *len = &set_lengths[set - 1];

    accepted("decrypt", set, kindi_decrypt(set, owner, len->secret_key, encrypted, len->ciphertext, out.coins,
        len->coins, out.message, len->padded - 1, &out.message_len, work_area, KINDI_DECRYPT_WORK_LEN(set)));
}

static void c_decrypt(void *arg)
{
    uint32_t set = *(const uint32_t *)arg;

    accepted("decrypt in C", set, ref_decrypt(set, owner, encrypted, out.coins, out.message, &out.message_len));
}

static void ours_encaps(void *arg)
{
    uint32_t set = *(const uint32_t *)arg;
    const struct lengths *len = &set_lengths[set - 1];

    accepted("encaps", set, kindi_encaps(set, recipients, len->public_key, coins, len->coins, out.key, len->coins,
        out.ciphertexts, len->ciphertext, work_area, KINDI_ENCAPS_WORK_LEN(set)));
}

static void c_encaps(void *arg)
{
    ref_encaps(*(const uint32_t *)arg, recipients, coins, out.key, out.ciphertexts);
}

static void ours_decaps(void *arg)
{
    uint32_t set = *(const uint32_t *)arg;
    const struct lengths *len = &set_lengths[set - 1];

    accepted("decaps", set, kindi_decaps(set, owner, len->secret_key, shared, len->ciphertext, out.key, len->coins,
        work_area, KINDI_DECAPS_WORK_LEN(set)));
}

static void c_decaps(void *arg)
{
    uint32_t set = *(const uint32_t *)arg;

    accepted("decaps in C", set, ref_decaps(set, owner, shared, out.key));
}

static void ours_noise(void *arg)
{
    uint32_t set = *(const uint32_t *)arg;
    const struct lengths *len = &set_lengths[set - 1];

    accepted("noise", set, kindi_noise(set, owner, len->secret_key, coins, len->coins, message, len->padded - 1,
        &out.clear, &out.largest, work_area, KINDI_NOISE_WORK_LEN(set)));
}

static void c_noise(void *arg)
{
    uint32_t set = *(const uint32_t *)arg;

    accepted("noise in C", set, ref_noise(set, owner, coins, message, set_lengths[set - 1].padded - 1, &out.clear,
        &out.largest));
}

static void ours_choose(void *arg)
{
    uint32_t set = *(const uint32_t *)arg, place;
    const struct lengths *len = &set_lengths[set - 1];

    accepted("choose", set, kindi_choose(set, owner, len->secret_key, message, len->padded - 1, coins,
        LIST * len->coins, &place, work_area, KINDI_CHOOSE_WORK_LEN(set)));
}

static void c_choose(void *arg)
{
    uint32_t set = *(const uint32_t *)arg, place;

    accepted("choose in C", set, ref_choose(set, owner, message, set_lengths[set - 1].padded - 1, coins, LIST, &place));
}

/* Two ways to the same outputs. */
struct call {
    const char *name;
    void (*run[2])(void *arg);
};

static const struct call calls[] = {
    { "keygen", { ours_keygen, c_keygen } },
    { "encrypt, longest message", { ours_encrypt, c_encrypt } },
    { "decrypt, longest message", { ours_decrypt, c_decrypt } },
    { "encaps", { ours_encaps, c_encaps } },
    { "decaps", { ours_decaps, c_decaps } },
    { "noise", { ours_noise, c_noise } },
    { "choose, of 8 coins", { ours_choose, c_choose } },
};

static const struct call to_recipients = { "encrypt_each, longest message", { one_call, single_calls } };

static void fill_bytes(uint8_t *bytes, size_t count, uint32_t seed)
{
    size_t i;

    for (i = 0; i < count; i++) {
        seed = seed * 1664525 + 1013904223;
        bytes[i] = (uint8_t)(seed >> 24);
    }
}

/* Inputs of the set, another for each number. */
static void fill(uint32_t set, uint32_t number)
{
    size_t public_key = set_lengths[set - 1].public_key;
    uint32_t i;

    fill_bytes(z, sizeof z, 5 * number + 2);
    fill_bytes(coins, sizeof coins, 5 * number + 3);
    fill_bytes(message, sizeof message, 5 * number + 4);
    /* The first recipient's seeds are the last, and stay. */
    for (i = RECIPIENTS; i-- > 0;) {
        fill_bytes(mu, sizeof mu, 5 * (number + i * INPUTS));
        fill_bytes(gamma_seed, sizeof gamma_seed, 5 * (number + i * INPUTS) + 1);
        c_keygen(&set);
        memcpy(recipients + i * public_key, out.public_key, public_key);
    }
    memcpy(owner, out.secret_key, sizeof owner);
    c_encrypt(&set);
    memcpy(encrypted, out.ciphertexts, sizeof encrypted);
    c_encaps(&set);
    memcpy(shared, out.ciphertexts, sizeof shared);
}

/* A figure of two programs that do different things says nothing. */
static void check(const struct call *call, uint32_t set)
{
    static struct outputs expected;

    memset(&out, 0x5a, sizeof out);
    call->run[1](&set);
    expected = out;
    memset(&out, 0x5a, sizeof out);
    call->run[0](&set);
    if (memcmp(&out, &expected, sizeof out) != 0) {
        fprintf(stderr, "bench: set %lu, %s: the outputs differ\n", (unsigned long)set, call->name);
        exit(1);
    }
}

static void row(const struct call *call, uint32_t set)
{
    struct candidate candidates[2];
    double us[2];
    char label[64];
    int i;

    for (i = 0; i < 2; i++) {
        candidates[i].run = call->run[i];
        candidates[i].arg = &set;
    }
    time_candidates(candidates, 2, us);
    for (i = 0; i < 2; i++)
        us[i] /= 1e3;
    snprintf(label, sizeof label, "set %lu, %s", (unsigned long)set, call->name);
    table_row(label, us, 2, us[0] / us[1]);
}

int main(void)
{
    static const char *const beside_c[2] = { "ours", "C" }, *const beside_single[2] = { "one call", "12 calls" };
    uint32_t set, number;
    size_t i;

    ref_start();
    for (set = 1; set <= SETS; set++) {
        for (number = 0; number < INPUTS; number++) {
            fill(set, number);
            for (i = 0; i < COUNT(calls); i++)
                check(&calls[i], set);
            check(&to_recipients, set);
        }
    }
    table_head("microseconds a call of the scheme", beside_c, 2);
    for (set = 1; set <= SETS; set++) {
        fill(set, 0);
        for (i = 0; i < COUNT(calls); i++)
            row(&calls[i], set);
    }
    table_head("microseconds for 12 recipients", beside_single, 2);
    for (set = 1; set <= SETS; set++) {
        fill(set, 0);
        row(&to_recipients, set);
    }
    return 0;
}
