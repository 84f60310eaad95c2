/*
 * stack_calls.h: the library's calls, each made on a stack that was filled with a known byte, for the benchmark and
 * for the tests of what a call takes there and leaves there. What is still so filled was not touched. All that the
 * calls are lent lies elsewhere.
 */
#ifndef STACK_CALLS_H
#define STACK_CALLS_H

#include <stdint.h>
#include <stdio.h>
#include <stdlib.h>
#include <string.h>
#include <sys/mman.h>
#include <ucontext.h>
#include <unistd.h>

#include "kindi.h"
#include "sets.h"

#define STACK (1 << 16)

/* Two bytes to fill it with. */
#define FILL 0xa7
#define OTHER_FILL 0x58

#define COUNT(array) (sizeof(array) / sizeof((array)[0]))

static uint8_t input[1000], output[5000];
static uint8_t mu[MOST_SEED], gamma_seed[MOST_SEED], z[MOST_SEED], message[MOST_PADDED - 1], work[MOST_WORK];
static uint8_t secret_key[MOST_SECRET_KEY], key[MOST_COINS];

/* A call for one recipient takes the first of each. */
static uint8_t public_keys[RECIPIENTS * MOST_PUBLIC_KEY], coins[RECIPIENTS * MOST_COINS];
static uint8_t ciphertexts[RECIPIENTS * MOST_CIPHERTEXT];

/* A call, the one that makes what it takes, besides the keys, and what the call answers. */
struct call {
    const char *name;
    uint32_t (*run)(uint32_t set), (*before)(uint32_t set);
    uint32_t expected;
};

/*
 * Each function that follows makes one call and notes the address of its own frame. From -O1 on it has no variable in that
 * frame, so what lies below the address is what the call takes. Then it does what CLEAR says: nothing, where a
 * program does not define it.
 */
static uint8_t *frame;

#ifndef CLEAR
#define CLEAR() (void)0
#endif
#define CALLED() (frame = __builtin_frame_address(0), CLEAR())

static uint32_t nothing(uint32_t set)
{
    (void)set;
    return 0;
}

/* From a place some blocks on, so that skipping is measured too. */
static uint32_t shake128(uint32_t set)
{
    uint32_t status = kindi_shake128(input, sizeof input, 1000, output, sizeof output);

    (void)set;
    CALLED();
    return status;
}

static uint32_t shake256(uint32_t set)
{
    uint32_t status = kindi_shake256(input, sizeof input, 1000, output, sizeof output);

    (void)set;
    CALLED();
    return status;
}

static uint32_t keygen(uint32_t set)
{
    const struct lengths *len = &set_lengths[set - 1];
    uint32_t status = kindi_keygen(set, mu, len->seed, gamma_seed, len->seed, z, len->seed, public_keys,
        len->public_key, secret_key, len->secret_key, work, KINDI_KEYGEN_WORK_LEN(set));

    CALLED();
    return status;
}

static uint32_t encrypt(uint32_t set)
{
    const struct lengths *len = &set_lengths[set - 1];
    uint32_t status = kindi_encrypt(set, public_keys, len->public_key, coins, len->coins, message, len->padded - 1,
        ciphertexts, len->ciphertext, work, KINDI_ENCRYPT_WORK_LEN(set));

    CALLED();
    return status;
}

/* Recipients have coins that differ; any bytes are a public key. */
static uint32_t make_coins(uint32_t set)
{
    uint8_t i;

    for (i = 0; i < RECIPIENTS; i++)
        coins[i * set_lengths[set - 1].coins] = i;
    return 0;
}

static uint32_t encrypt_each(uint32_t set, uint32_t count)
{
    const struct lengths *len = &set_lengths[set - 1];
    uint32_t status = kindi_encrypt_each(set, count, public_keys, count * len->public_key, coins, count * len->coins,
        message, len->padded - 1, ciphertexts, count * len->ciphertext, work, KINDI_ENCRYPT_EACH_WORK_LEN(set));

    CALLED();
    return status;
}

static uint32_t encrypt_to_one(uint32_t set)
{
    return encrypt_each(set, 1);
}

static uint32_t encrypt_to_most(uint32_t set)
{
    return encrypt_each(set, RECIPIENTS);
}

static uint32_t decrypt(uint32_t set)
{
    static size_t message_len;
    const struct lengths *len = &set_lengths[set - 1];
    uint32_t status = kindi_decrypt(set, secret_key, len->secret_key, ciphertexts, len->ciphertext, coins, len->coins,
        message, len->padded - 1, &message_len, work, KINDI_DECRYPT_WORK_LEN(set));

    CALLED();
    return status;
}

static uint32_t encaps(uint32_t set)
{
    const struct lengths *len = &set_lengths[set - 1];
    uint32_t status = kindi_encaps(set, public_keys, len->public_key, coins, len->coins, key, len->coins, ciphertexts,
        len->ciphertext, work, KINDI_ENCAPS_WORK_LEN(set));

    CALLED();
    return status;
}

static uint32_t decaps(uint32_t set)
{
    const struct lengths *len = &set_lengths[set - 1];
    uint32_t status = kindi_decaps(set, secret_key, len->secret_key, ciphertexts, len->ciphertext, key, len->coins,
        work, KINDI_DECAPS_WORK_LEN(set));

    CALLED();
    return status;
}

static uint32_t noise(uint32_t set)
{
    static uint32_t clear, largest;
    const struct lengths *len = &set_lengths[set - 1];
    uint32_t status = kindi_noise(set, secret_key, len->secret_key, coins, len->coins, message, len->padded - 1,
        &clear, &largest, work, KINDI_NOISE_WORK_LEN(set));

    CALLED();
    return status;
}

static uint32_t choose(uint32_t set)
{
    static uint32_t place;
    const struct lengths *len = &set_lengths[set - 1];
    uint32_t status = kindi_choose(set, secret_key, len->secret_key, message, len->padded - 1, coins,
        LIST * len->coins, &place, work, KINDI_CHOOSE_WORK_LEN(set));

    CALLED();
    return status;
}

/* The calls that have no parameter set, and those that have one. */
static const struct call hash_calls[] = {
    { "`kindi_shake128`", shake128, nothing, KINDI_OK }, { "`kindi_shake256`", shake256, nothing, KINDI_OK },
};
static const struct call set_calls[] = {
    { "`kindi_keygen`", keygen, nothing, KINDI_OK },
    { "`kindi_encrypt`", encrypt, nothing, KINDI_OK },
    { "`kindi_encrypt_each`, 1 recipient", encrypt_to_one, make_coins, KINDI_OK },
    { "`kindi_encrypt_each`, 12 recipients", encrypt_to_most, make_coins, KINDI_OK },
    { "`kindi_decrypt`", decrypt, encrypt, KINDI_OK },
    { "`kindi_encaps`", encaps, nothing, KINDI_OK }, { "`kindi_decaps`", decaps, encaps, KINDI_OK },
    { "`kindi_noise`", noise, nothing, KINDI_OK }, { "`kindi_choose`", choose, nothing, KINDI_OK },
};

static void fail(const char *name, uint32_t set, const char *what)
{
    fprintf(stderr, "FAILED: %s, set %lu: %s\n", name, (unsigned long)set, what);
    exit(1);
}

/* The lowest byte of the stack; nobody may touch the page below. */
static uint8_t *stack;

static void make_stack(void)
{
    size_t page = (size_t)sysconf(_SC_PAGESIZE);
    uint8_t *pages = mmap(NULL, page + STACK, PROT_NONE, MAP_PRIVATE | MAP_ANONYMOUS, -1, 0);

    if (pages == MAP_FAILED || mprotect(pages + page, STACK, PROT_READ | PROT_WRITE) != 0)
        fail("no call", 0, "there is no memory for a stack");
    stack = pages + page;
}

/* The call that runs on the stack, and its answer. */
static const struct call *running;
static uint32_t running_set, answer;
static ucontext_t here, there;

static void start(void)
{
    answer = running->run(running_set);
}

/* Runs a call on the stack's lowest bytes, as many as size says. */
static void run_on_stack(const struct call *call, uint32_t set, size_t size)
{
    running = call, running_set = set;
    if (getcontext(&there) != 0)
        fail(call->name, set, "it cannot be run on a stack of its own");
    there.uc_stack.ss_sp = stack;
    there.uc_stack.ss_size = size;
    there.uc_link = &here;
    makecontext(&there, start, 0);
    if (swapcontext(&here, &there) != 0)
        fail(call->name, set, "it cannot be run on a stack of its own");
    if (answer != call->expected)
        fail(call->name, set, "it did not answer as it should");
}

/* The lowest byte that a call touches of the stack, once that is filled with a byte. */
static uint8_t *touched(const struct call *call, uint32_t set, uint8_t fill)
{
    uint8_t *low = stack;

    memset(stack, fill, STACK);
    run_on_stack(call, set, STACK);
    while (low < stack + STACK && *low == fill)
        low++;
    return low;
}

/* The same, where the lowest byte may be written with the value that it had; it is not in both runs. */
static uint8_t *lowest(const struct call *call, uint32_t set)
{
    uint8_t *low = touched(call, set, FILL), *again = touched(call, set, OTHER_FILL);

    return low < again ? low : again;
}

/*
 * Makes what each call of a list takes, in the sets up to the one given, and passes the call on; where that one is 0
 * the calls have no set, and 0 stands for it.
 */
static void visit(const struct call *calls, size_t count, uint32_t sets,
    void (*visitor)(const struct call *call, uint32_t set))
{
    const struct call *call;
    uint32_t set;

    for (call = calls; call < calls + count; call++)
        for (set = sets > 0; set <= sets; set++) {
            if (set > 0 && (keygen(set) != KINDI_OK || call->before(set) != KINDI_OK))
                fail(call->name, set, "what it takes was refused");
            /* The first call of all has the dynamic linker find memcpy, on the caller's stack. */
            call->run(set);
            visitor(call, set);
        }
}

#endif
