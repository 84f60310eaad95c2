/*
 * Holds KINDI_STACK_LEN to what calls take of the stack, in every set, some refused calls among them. No call takes
 * more, and the one that takes the most takes less than NEAR bytes less. And each call runs again with just
 * KINDI_STACK_LEN bytes between its caller's frame and a page that nobody may touch, so that one that needs more is
 * a crash. It names each call before that, so that the last line says where a crash was. It has to be built at -O1
 * or above: below that the callers' variables would count too (stack_calls.h).
 */
#define _DEFAULT_SOURCE

#include "stack_calls.h"

#define NEAR 64

static long most;

static uint32_t altered(uint32_t set)
{
    uint32_t status = encrypt(set);

    ciphertexts[set_lengths[set - 1].ciphertext / 2] ^= 0x40;
    return status;
}

static uint32_t equal_coins(uint32_t set)
{
    (void)set;
    memset(coins, 0, sizeof coins);
    return KINDI_OK;
}

static uint32_t other_public_key(uint32_t set)
{
    (void)set;
    secret_key[0] ^= 1;
    return KINDI_OK;
}

static void hold(const struct call *call, uint32_t set)
{
    uint8_t *low = lowest(call, set);
    long takes = (long)(frame - low);

    printf("%s, set %lu, answer %lu: %ld bytes of stack\n", call->name, (unsigned long)set,
        (unsigned long)call->expected, takes);
    if (takes > (long)KINDI_STACK_LEN)
        fail(call->name, set, "it takes more than KINDI_STACK_LEN bytes of stack");
    if (takes > most)
        most = takes;
    /* What lies above the frame has the same length on a shorter stack. */
    run_on_stack(call, set, (size_t)(stack + STACK - frame) + KINDI_STACK_LEN);
    if (frame != stack + KINDI_STACK_LEN)
        fail(call->name, set, "it was not made KINDI_STACK_LEN bytes above the page that nobody may touch");
}

int main(void)
{
    static const struct call refused[] = {
        { "`kindi_decrypt`, altered ciphertext", decrypt, altered, KINDI_ERROR_TOO_LARGE },
        { "`kindi_decaps`, altered ciphertext", decaps, altered, KINDI_ERROR_TOO_LARGE },
        { "`kindi_decaps`, a message's ciphertext", decaps, encrypt, KINDI_WRONG_DIGEST },
        { "`kindi_encrypt_each`, equal coins", encrypt_to_most, equal_coins, KINDI_EQUAL_COINS },
        { "`kindi_noise`, another public key", noise, other_public_key, KINDI_WRONG_PUBLIC_KEY },
        { "`kindi_choose`, another public key", choose, other_public_key, KINDI_WRONG_PUBLIC_KEY },
    };

    setvbuf(stdout, NULL, _IONBF, 0);
    make_stack();
    visit(hash_calls, COUNT(hash_calls), 0, hold);
    visit(set_calls, COUNT(set_calls), SETS, hold);
    visit(refused, COUNT(refused), SETS, hold);
    if (most <= (long)KINDI_STACK_LEN - NEAR) {
        fprintf(stderr, "FAILED: KINDI_STACK_LEN is %u, and no call takes more than %ld\n", KINDI_STACK_LEN, most);
        return 1;
    }
    return 0;
}
