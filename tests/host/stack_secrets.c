/*
 * Which secrets calls leave on the stack, and that clear_stack of examples/clear_stack.h takes them away. Each call
 * runs in each set on a filled stack, which is then searched as a whole: without clearing, with clearing in the
 * function that makes the call, and with clearing in that function's caller.
 *
 * Without clearing the whole shared key is there after encaps and decaps, and all of the coins after decrypt and
 * decaps, also where decaps refuses the digest; otherwise the searches after clearing would show nothing. With
 * clearing no PIECE bytes that follow one another in a secret are there, and all that the call touched is zeros, up
 * to KEPT bytes below the frame of the function that clears.
 */
#define _DEFAULT_SOURCE

#include "../../examples/clear_stack.h"

static int clears_at_once;

#define CLEAR() (clears_at_once ? clear_stack() : (void)0)

#include "stack_calls.h"

#define PIECE 8

/*
 * The return address of clear_stack and what it saves and has for itself. Without optimization the function that
 * clears also has its variables below the address of its frame.
 */
#ifdef __OPTIMIZE__
#define KEPT 64
#else
#define KEPT 256
#endif

/* Clears once the function that made the call has returned. */
static const struct call *inner;

static uint32_t run_and_clear(uint32_t set)
{
    uint32_t status = inner->run(set);

    frame = __builtin_frame_address(0);
    clear_stack();
    return status;
}

/* Whether size bytes that follow one another in a secret do so on the stack. */
static int on_stack(const uint8_t *secret, size_t len, size_t size)
{
    const uint8_t *end = secret + len - size + 1, *at, *same;

    for (at = stack; at <= stack + STACK - size; at++)
        for (same = secret; same < end && (same = memchr(same, *at, (size_t)(end - same))) != NULL; same++)
            if (memcmp(same, at, size) == 0)
                return 1;
    return 0;
}

struct secret {
    const char *name;
    const uint8_t *bytes;
    size_t len;
};

/* Says which secrets have a piece on the stack, and how many have. */
static size_t found(const struct secret *secrets, size_t count)
{
    size_t sum = 0, i;

    for (i = 0; i < count; i++)
        if (on_stack(secrets[i].bytes, secrets[i].len, PIECE)) {
            printf(" %s", secrets[i].name);
            sum++;
        }
    printf(sum > 0 ? "\n" : " nothing\n");
    return sum;
}

static void search(const struct call *call, uint32_t set)
{
    const struct lengths *len = &set_lengths[set - 1];
    const struct secret secrets[] = {
        { "key", key, len->coins }, { "coins", coins, RECIPIENTS * len->coins }, { "gamma", gamma_seed, len->seed },
        { "z", z, len->seed }, { "message", message, len->padded - 1 },
    };
    const struct call later = { call->name, run_and_clear, nothing, call->expected };
    uint8_t *low = lowest(call, set), *at;
    int turn;

    printf("%s, set %lu:", call->name, (unsigned long)set);
    found(secrets, COUNT(secrets));
    if ((call->run == encaps || (call->run == decaps && call->expected == KINDI_OK))
        && !on_stack(key, len->coins, len->coins))
        fail(call->name, set, "without clearing the shared key is not on the stack");
    if ((call->run == decrypt || call->run == decaps) && !on_stack(coins, len->coins, len->coins))
        fail(call->name, set, "without clearing the coins are not on the stack");
    inner = call;
    for (turn = 0; turn < 2; turn++) {
        clears_at_once = turn == 0;
        touched(clears_at_once ? call : &later, set, FILL);
        clears_at_once = 0;
        printf("  cleared %s:", turn == 0 ? "at once" : "by the caller");
        if (found(secrets, COUNT(secrets)) > 0)
            fail(call->name, set, "a piece of a secret is on the stack that was cleared");
        for (at = low; at < frame - KEPT; at++)
            if (*at != 0)
                fail(call->name, set, "the stack that the call touched is not all zeros");
    }
}

int main(void)
{
    static const struct call refused = {
        "`kindi_decaps`, a message's ciphertext", decaps, encrypt, KINDI_WRONG_DIGEST
    };
    /* Bytes of their own, which are found nowhere by chance; the key too, until a call has made one. */
    static const struct filled {
        uint8_t *bytes;
        size_t len;
    } filled[] = { { mu, sizeof mu }, { gamma_seed, sizeof gamma_seed }, { z, sizeof z }, { coins, sizeof coins },
        { message, sizeof message }, { key, sizeof key } };
    uint8_t i;

    for (i = 0; i < COUNT(filled); i++)
        if (kindi_shake256(&i, 1, 0, filled[i].bytes, filled[i].len) != KINDI_OK)
            fail("`kindi_shake256`", 0, "what the calls take was refused");
    make_stack();
    visit(set_calls, COUNT(set_calls), SETS, search);
    visit(&refused, 1, SETS, search);
    return 0;
}
