/*
 * sets.h: the lengths in bytes that the library's calls take in each parameter set, for the programs of the
 * benchmark and the tests of the stack; those of work areas are in kindi.h.
 */
#ifndef SETS_H
#define SETS_H

#include <stddef.h>

#include "kindi.h"

#define SETS 4

/* The parameter sets in order; padded is a padded message, so a message has at most one byte less. */
static const struct lengths {
    size_t seed, coins, public_key, secret_key, ciphertext, padded;
} set_lengths[SETS] = {
    { 32, 32, 1184, 1248, 1792, 384 },
    { 64, 64, 1472, 1600, 2496, 384 },
    { 64, 64, 1728, 1856, 2688, 576 },
    { 64, 64, 2368, 2496, 3328, 512 },
};

/* The greatest of each over the sets. */
#define MOST_SEED 64
#define MOST_COINS 64
#define MOST_PUBLIC_KEY 2368
#define MOST_SECRET_KEY 2496
#define MOST_CIPHERTEXT 3328
#define MOST_PADDED 576
#define MOST_WORK 1792

#if KINDI_MOST_WORK_LEN(1) > MOST_WORK || KINDI_MOST_WORK_LEN(2) > MOST_WORK || KINDI_MOST_WORK_LEN(3) > MOST_WORK \
    || KINDI_MOST_WORK_LEN(4) > MOST_WORK
#error "the work area is too short"
#endif

/* How many coins the benchmark chooses from: as many as there may be. */
#define LIST 8

/* How many recipients it encrypts one message to: as many as there may be. */
#define RECIPIENTS 12

#endif
