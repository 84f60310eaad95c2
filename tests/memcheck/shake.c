/*
 * Calls SHAKE, from the start and from places further on, on an input that memcheck takes for undefined: it
 * then reports every branch and every address that depends on the input. With an argument the program itself
 * branches on the output, which memcheck must report, so that a silent run means something.
 */
#include <stdio.h>
#include <string.h>

#include <valgrind/memcheck.h>

#include "kindi.h"

static uint8_t input[700], output[700], seen[700];

static int one_call(uint32_t (*call)(const uint8_t *, size_t, size_t, uint8_t *, size_t), size_t in, size_t place,
    size_t out)
{
    memset(output, 0, sizeof output);
    VALGRIND_MAKE_MEM_UNDEFINED(input, sizeof input);
    if (call(input, in, place, output, out) != KINDI_OK) {
        printf("FAILED: refused\n");
        return 1;
    }
    /* The output has to depend on the input, or memcheck lost track of it. */
    memset(seen, 0, sizeof seen);
    if (VALGRIND_GET_VBITS(output, seen, out) != 1 || seen[0] == 0 || seen[out - 1] == 0) {
        printf("FAILED: the output does not count as made from the input\n");
        return 1;
    }
    return 0;
}

int main(int argc, char **argv)
{
    static const size_t lengths[] = { 1, 32, 64, 135, 136, 137, 167, 168, 169, 500, 700 };
    size_t i, n = sizeof lengths / sizeof lengths[0];

    (void)argv;
    if (!RUNNING_ON_VALGRIND) {
        printf("FAILED: not under valgrind\n");
        return 1;
    }
    for (i = 0; i < n; i++)
        if (one_call(kindi_shake128, lengths[i], 0, lengths[n - 1 - i])
            || one_call(kindi_shake256, lengths[i], 0, lengths[n - 1 - i])
            || one_call(kindi_shake128, lengths[i], lengths[i], lengths[n - 1 - i])
            || one_call(kindi_shake256, lengths[i], lengths[i], lengths[n - 1 - i]))
            return 1;
    if (argc > 1 && output[0] > 127)
        printf("the first bit of the output is set\n");
    return 0;
}
