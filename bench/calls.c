/*
 * Makes the call that a record on standard input names, again and again, with nothing else that linkcheck
 * does, and prints the nanoseconds of one: what bench/linkcheck.py holds the program against.
 *
 * usage: calls COUNT < RECORD
 */
#include <stdio.h>
#include <stdlib.h>

#include "kindi.h"
#include "sets.h"
#include "timing.h"

#define HEADER 6

static uint8_t record[HEADER + 8192], work[MOST_WORK];
static uint8_t first[MOST_CIPHERTEXT], second[MOST_CIPHERTEXT];

/* The record is one that linkcheck answers, so its lengths are those of its set. */
static uint32_t call(uint32_t kind, uint32_t set, const uint8_t *body, size_t size)
{
    const struct lengths *len = &set_lengths[set - 1];
    const uint8_t *after_key = body + len->public_key;
    size_t message_len;

    switch (kind) {
    case 1:
        return kindi_keygen(set, body, len->seed, body + len->seed, len->seed, body + 2 * len->seed, len->seed,
            first, len->public_key, second, len->secret_key, work, KINDI_KEYGEN_WORK_LEN(set));
    case 2:
        return kindi_encrypt(set, body, len->public_key, after_key, len->coins, after_key + len->coins,
            size - len->public_key - len->coins, first, len->ciphertext, work, KINDI_ENCRYPT_WORK_LEN(set));
    case 3:
        return kindi_decrypt(set, body, len->secret_key, body + len->secret_key, len->ciphertext, first, len->coins,
            second, len->padded - 1, &message_len, work, KINDI_DECRYPT_WORK_LEN(set));
    case 4:
        return kindi_encaps(set, body, len->public_key, after_key, len->coins, first, len->coins, second,
            len->ciphertext, work, KINDI_ENCAPS_WORK_LEN(set));
    default:
        return kindi_decaps(set, body, len->secret_key, body + len->secret_key, len->ciphertext, first, len->coins,
            work, KINDI_DECAPS_WORK_LEN(set));
    }
}

int main(int argc, char **argv)
{
    size_t size = fread(record, 1, sizeof record, stdin);
    long count = argc > 1 ? atol(argv[1]) : 0, i;
    uint32_t kind = record[2], set = record[3], refused = 0;
    double start;

    if (size < HEADER || count < 1 || kind < 1 || kind > 5 || set < 1 || set > SETS) {
        fprintf(stderr, "usage: calls COUNT < RECORD\n");
        return 1;
    }
    start = now_ns();
    for (i = 0; i < count; i++)
        refused |= call(kind, set, record + HEADER, size - HEADER);
    printf("%.1f\n", (now_ns() - start) / (double)count);
    if (refused)
        fprintf(stderr, "bench: set %lu, a record of kind %lu was refused\n", (unsigned long)set, (unsigned long)kind);
    return refused != 0;
}
