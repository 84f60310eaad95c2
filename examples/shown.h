/*
 * shown.h: what the examples of the scheme share: bytes for seeds and coins, and lines that show what a
 * call answered.
 */
#ifndef SHOWN_H
#define SHOWN_H

#include <stdio.h>
#include <stdlib.h>
#include <string.h>

#include "kindi.h"

/*
 * Stands where a product draws from its random source, and gives the same bytes at each run, which
 * anybody can make. In a product every seed and all coins are fresh, uniformly random and secret, and
 * coins are used for one ciphertext only.
 */
static void draw(const char *label, uint8_t *bytes, size_t count)
{
    if (kindi_shake256((const uint8_t *)label, strlen(label), 0, bytes, count) != KINDI_OK)
        exit(1);
}

/* Prints what a call answered; whether it is what was expected. */
static int answers(const char *call, uint32_t status, uint32_t expected)
{
    printf("%-26s status %lu%s\n", call, (unsigned long)status, status == KINDI_OK ? "" : ", refused");
    return status == expected;
}

static void print(const char *name, const uint8_t *bytes, size_t count)
{
    size_t i;

    printf("  %-23s %5lu bytes  ", name, (unsigned long)count);
    for (i = 0; i < 16; i++)
        printf("%02x", bytes[i]);
    printf("...\n");
}

#endif
