/*
 * Prints the first 32 bytes of SHAKE128 and of SHAKE256 of a text: the first argument, or a text of its
 * own where there is none. Of SHAKE256 the last 16 of them are then fetched alone.
 */
#include <stdio.h>
#include <string.h>

#include "kindi.h"

static void print(const char *name, const uint8_t *bytes, size_t count)
{
    size_t i;

    printf("%s  ", name);
    for (i = 0; i < count; i++)
        printf("%02x", bytes[i]);
    putchar('\n');
}

int main(int argc, char **argv)
{
    const char *text = argc > 1 ? argv[1] : "The quick brown fox jumps over the lazy dog";
    const uint8_t *input = (const uint8_t *)text;
    uint8_t output[32], last[16];
    size_t len = strlen(text), place = sizeof output - sizeof last;

    printf("text               %s\n", text);
    if (kindi_shake128(input, len, 0, output, sizeof output) != KINDI_OK)
        return 1;
    print("SHAKE128         ", output, sizeof output);
    if (kindi_shake256(input, len, 0, output, sizeof output) != KINDI_OK
        || kindi_shake256(input, len, place, last, sizeof last) != KINDI_OK)
        return 1;
    print("SHAKE256         ", output, sizeof output);
    print("SHAKE256, from 16", last, sizeof last);
    return memcmp(last, output + place, sizeof last) == 0 ? 0 : 1;
}
