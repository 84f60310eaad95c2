/*
 * Calls the ring on coefficients that memcheck takes for undefined: it then reports every branch and
 * every address that depends on them. With an argument the program itself branches on a result, which
 * memcheck must report, so that a silent run means something.
 */
#include <stdio.h>

#include <valgrind/memcheck.h>

#include "ring_calls.h"

#define MOST 512

static uint16_t acc[MOST], a[MOST], b[MOST];
static int32_t integers[MOST];
static uint8_t bytes[2 * MOST + 1];

#define HIDE(array) VALGRIND_MAKE_MEM_UNDEFINED(array, sizeof(array))
#define SHOW(array) VALGRIND_MAKE_MEM_DEFINED(array, sizeof(array))

/* Whether some bit of an element counts as made from what was marked. */
static int depends(const uint8_t *element, size_t size)
{
    uint8_t seen[4] = { 0 };

    return VALGRIND_GET_VBITS(element, seen, size) == 1 && (seen[0] | seen[1] | seen[2] | seen[3]) != 0;
}

/* The call was accepted, and its result's first and last element depend on the coefficients. */
static int passed(const char *name, size_t n, uint32_t answer, const void *result, size_t count, size_t size)
{
    const uint8_t *first = result;

    if (answer == 0 && depends(first, size) && depends(first + (count - 1) * size, size))
        return 1;
    printf("FAILED: %s of %lu coefficients: refused, or its result does not count as made from them\n", name,
        (unsigned long)n);
    return 0;
}

/* The product with what is secret in one factor alone, and in both. */
static int products(size_t n)
{
    uint32_t answer;
    int both;

    for (both = 0; both < 2; both++) {
        SHOW(acc), SHOW(a), HIDE(b);
        if (both)
            HIDE(a), HIDE(acc);
        answer = ring_multiply_add(acc, n, a, n, b, n);
        if (!passed("a product", n, answer, acc, n, sizeof acc[0]))
            return 0;
    }
    return 1;
}

/* The signed product of two strings, and the sizes of what comes out. */
static int signed_products(size_t n)
{
    uint32_t most, all, answer;

    HIDE(bytes);
    answer = ring_signed_product(3, 4, bytes, sizeof bytes, bytes, sizeof bytes, integers, n);
    if (!passed("a signed product", n, answer, integers, n, sizeof integers[0]))
        return 0;
    all = ring_sizes(integers, n, -100, 100, &most);
    return passed("the largest number", n, 0, &most, 1, sizeof most) && passed("the interval", n, 0, &all, 1, sizeof all);
}

/* Reading from a bit of a byte on. The place after it is public: this program branches on it. */
static int reading(uint32_t w, size_t n, uint32_t bit)
{
    size_t byte = 0, end = bit + w * n;
    uint32_t answer, rest = 0;

    SHOW(acc), HIDE(bytes);
    answer = ring_unpack_from(w, 0, bit, bytes, (end + 7) / 8, acc, n, &byte, &rest);
    if (byte != end / 8 || rest != end % 8) {
        printf("FAILED: reading from bit %u ends at bit %u of byte %lu\n", (unsigned)bit, (unsigned)rest, (unsigned long)byte);
        return 0;
    }
    return passed("a reading from a bit on", n, answer, acc, n, sizeof acc[0]);
}

static int strings(uint32_t w, size_t n)
{
    size_t size = (w * n + 7) / 8;
    uint32_t answer, bit;

    HIDE(a), SHOW(bytes);
    answer = ring_pack(w, a, n, bytes, size);
    if (!passed("a packing", n, answer, bytes, size, sizeof bytes[0]))
        return 0;
    SHOW(acc), HIDE(bytes);
    answer = ring_unpack(w, bytes, size, acc, n);
    if (!passed("an unpacking", n, answer, acc, n, sizeof acc[0]))
        return 0;
    for (bit = 0; bit < 8; bit++)
        if (!reading(w, n, bit))
            return 0;
    return 1;
}

static void fill(void)
{
    size_t i;

    for (i = 0; i < MOST; i++) {
        a[i] = (uint16_t)(i * 40503 + 1);
        b[i] = (uint16_t)(i * 25173 + 1);
    }
}

int main(int argc, char **argv)
{
    static const size_t counts[] = { 4, 8, 60, 256, 512 };
    size_t i, n = sizeof counts / sizeof counts[0];
    uint32_t w;

    (void)argv;
    if (!RUNNING_ON_VALGRIND) {
        printf("FAILED: not under valgrind\n");
        return 1;
    }
    fill();
    for (i = 0; i < n; i++)
        if (!products(counts[i]) || !signed_products(counts[i]))
            return 1;
    for (w = 1; w <= 16; w++)
        for (i = 0; i < n; i++)
            if (!strings(w, counts[i]) || !strings(w, counts[i] - 1))
                return 1;
    if (argc > 1 && acc[0] > 127)
        printf("the first coefficient is large\n");
    return 0;
}
