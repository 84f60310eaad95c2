/*
 * secrets.h: what the programs share that call the scheme on secrets that memcheck takes for undefined.
 */
#ifndef SECRETS_H
#define SECRETS_H

#include <stdint.h>
#include <stdio.h>
#include <stdlib.h>

#include <valgrind/memcheck.h>

#define SETS 4

static inline void fail(const char *call, uint32_t set, const char *what)
{
    printf("FAILED: %s of set %lu: %s\n", call, (unsigned long)set, what);
    exit(1);
}

static inline void under_valgrind(void)
{
    if (!RUNNING_ON_VALGRIND) {
        printf("FAILED: not under valgrind\n");
        exit(1);
    }
}

/* A buffer of exactly size bytes, 1 to 251 by turns; one that is secret, or to be written, is undefined. */
static inline uint8_t *buffer(size_t size, int undefined)
{
    uint8_t *made = malloc(size);
    size_t i;

    if (!made) {
        printf("FAILED: no memory\n");
        exit(1);
    }
    for (i = 0; i < size; i++)
        made[i] = (uint8_t)(i % 251 + 1);
    if (undefined)
        (void)VALGRIND_MAKE_MEM_UNDEFINED(made, size);
    return made;
}

/* The bits of a byte that count as made from what was marked. */
static inline uint8_t marked(const uint8_t *byte)
{
    uint8_t bits = 0;

    if (VALGRIND_GET_VBITS(byte, &bits, 1) != 1) {
        printf("FAILED: memcheck has no bits of a byte\n");
        exit(1);
    }
    return bits;
}

/* The work area is zeros, which depend on nothing. */
static inline void wiped(const char *call, uint32_t set, const uint8_t *work, size_t work_len)
{
    size_t i;

    for (i = 0; i < work_len; i++)
        if (marked(work + i) != 0 || work[i] != 0)
            fail(call, set, "the work area is not wiped");
}

/* The first and the last byte depend on the secrets, or memcheck lost track of them. */
static inline void depends(const char *call, uint32_t set, const void *output, size_t size)
{
    const uint8_t *bytes = output;

    if (marked(bytes) == 0 || marked(bytes + size - 1) == 0)
        fail(call, set, "an output does not count as made from the secrets");
}

#endif
