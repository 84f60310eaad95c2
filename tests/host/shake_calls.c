/*
 * Calls the two SHAKE functions from C: NIST's example values, empty slices, what lies round the
 * buffers, the same call twice, and what is refused. It names each part as it starts, so that the last
 * line says where a crash was.
 */
#define _DEFAULT_SOURCE

#include <stdio.h>
#include <stdlib.h>
#include <string.h>
#include <sys/mman.h>
#include <unistd.h>

#include "kindi.h"

#define GUARD 64
#define MOST 5000

typedef uint32_t shake_fn(const uint8_t *input, size_t input_len, size_t place, uint8_t *output, size_t output_len);

/* The first 32 bytes of NIST's example values: of no input, and of 200 bytes A3. */
static const struct kind {
    const char *name;
    shake_fn *call;
    size_t rate;
    const char *of_empty, *of_a3;
} kinds[2] = {
    { "kindi_shake128", kindi_shake128, 168,
        "7f9c2ba4e88f827d616045507605853ed73b8093f6efbc88eb1a6eacfa66ef26",
        "131ab8d2b594946b9c81333f9bb6e0ce75c3b93104fa3469d3917457385da037" },
    { "kindi_shake256", kindi_shake256, 136,
        "46b9dd2b0ba88d13233b3feb743eeb243fcd52ea62b81b82b50c27646ed5762f",
        "cd8a920ed141aa0407a22d59288652e9d9f1a7ee0c1e7c1ca699424da84a904d" },
};

static void fail(const struct kind *kind, const char *what, size_t input_len, size_t output_len)
{
    printf("FAILED: %s, %lu bytes of input, %lu of output: %s\n", kind->name, (unsigned long)input_len,
        (unsigned long)output_len, what);
    exit(1);
}

/* A call that is not refused. */
static void give(const struct kind *kind, const uint8_t *input, size_t input_len, size_t place, uint8_t *output,
    size_t output_len)
{
    if (kind->call(input, input_len, place, output, output_len) != KINDI_OK)
        fail(kind, "refused", input_len, output_len);
}

static void fill(uint8_t *p, size_t n, unsigned seed)
{
    size_t i;

    for (i = 0; i < n; i++)
        p[i] = (uint8_t)(seed + i * 167 + (i >> 8));
}

static void expect_hex(const struct kind *kind, const uint8_t *found, size_t input_len, const char *hex)
{
    char text[65];
    int i;

    for (i = 0; i < 32; i++)
        snprintf(text + 2 * i, 3, "%02x", found[i]);
    if (strcmp(text, hex) != 0)
        fail(kind, "not NIST's example value", input_len, 32);
}

/* An output of 32 bytes, with room round it so that a write outside does not reach this program's own. */
static uint8_t room[32 + 2 * GUARD];
static uint8_t *const out32 = room + GUARD;

static void examples(const struct kind *kind)
{
    uint8_t a3[200];

    memset(a3, 0xa3, sizeof a3);
    give(kind, a3, sizeof a3, 0, out32, 32);
    expect_hex(kind, out32, sizeof a3, kind->of_a3);
    give(kind, a3, 0, 0, out32, 32);
    expect_hex(kind, out32, 0, kind->of_empty);
}

static void nulls(const struct kind *kind)
{
    uint8_t in[300], before[300];

    memset(out32, 0, 32);
    give(kind, NULL, 0, 0, out32, 32);
    expect_hex(kind, out32, 0, kind->of_empty);
    fill(in, sizeof in, 1);
    memcpy(before, in, sizeof in);
    give(kind, in, sizeof in, 0, NULL, 0);
    give(kind, in, sizeof in, KINDI_SHAKE_LIMIT, NULL, 0);
    if (memcmp(in, before, sizeof in) != 0)
        fail(kind, "the input was changed", sizeof in, 0);
    give(kind, NULL, 0, 0, NULL, 0);
    give(kind, NULL, 0, kind->rate, NULL, 0);
    if (kind->call(NULL, 0, KINDI_SHAKE_LIMIT + 1u, NULL, 0) != KINDI_PAST_LIMIT)
        fail(kind, "NULL past the limit was not refused", 0, 0);
}

/*
 * One call with known bytes round the output, which begins at some address that is not always a
 * multiple of 8. It is made twice, over two different fillings, so that a byte of the output that the
 * call does not write shows.
 */
static void guarded_call(const struct kind *kind, size_t input_len, size_t place, size_t output_len)
{
    static uint8_t in[MOST], in_before[MOST], first[MOST];
    static uint8_t memory[MOST + 2 * GUARD + 8], before[MOST + 2 * GUARD + 8];
    uint8_t *out = memory + GUARD + output_len % 8;
    size_t end = (size_t)(out - memory) + output_len;
    unsigned turn;

    fill(in, sizeof in, (unsigned)input_len);
    memcpy(in_before, in, sizeof in);
    for (turn = 0; turn < 2; turn++) {
        fill(memory, sizeof memory, 17 + 90 * turn);
        memcpy(before, memory, sizeof memory);
        give(kind, in, input_len, place, out, output_len);
        if (memcmp(memory, before, (size_t)(out - memory)) != 0)
            fail(kind, "a byte before the output was written", input_len, output_len);
        if (memcmp(memory + end, before + end, sizeof memory - end) != 0)
            fail(kind, "a byte after the output was written", input_len, output_len);
        if (memcmp(in, in_before, sizeof in) != 0)
            fail(kind, "the input was changed", input_len, output_len);
        if (turn == 0)
            memcpy(first, out, output_len);
        else if (memcmp(first, out, output_len) != 0)
            fail(kind, "the same call twice gave two answers", input_len, output_len);
    }
}

static void guards(const struct kind *kind)
{
    static const size_t inputs[] = { 0, 1, 32, 135, 136, 137, 167, 168, 169, 400 };
    static const size_t longer[] = { 1344, 1680, 4031, 4032, 4096, MOST - 1, MOST };
    size_t i, n;

    for (n = 0; n <= 400; n++)
        guarded_call(kind, inputs[n % (sizeof inputs / sizeof inputs[0])], n % 3 * kind->rate + n % 2, n);
    for (i = 0; i < sizeof longer / sizeof longer[0]; i++) {
        guarded_call(kind, 64, 0, longer[i]);
        guarded_call(kind, longer[i], longer[i], 64);
    }
}

/* Room for a few pages, and behind them one that nobody may touch. */
static uint8_t *fenced_pages(size_t *size)
{
    size_t page = (size_t)sysconf(_SC_PAGESIZE);
    uint8_t *start;

    *size = (MOST / page + 1) * page;
    start = mmap(NULL, *size + page, PROT_READ | PROT_WRITE, MAP_PRIVATE | MAP_ANONYMOUS, -1, 0);
    if (start == MAP_FAILED || mprotect(start + *size, page, PROT_NONE) != 0) {
        printf("FAILED: no pages to test with\n");
        exit(1);
    }
    return start;
}

/* Both slices end where their pages end, so that a read or a write past either is a crash. */
static void fences(const struct kind *kind)
{
    size_t in_size, out_size, n;
    uint8_t *in = fenced_pages(&in_size), *out = fenced_pages(&out_size);

    for (n = 0; n <= 400; n++) {
        give(kind, in + in_size - n, n, 0, out + out_size - 32, 32);
        give(kind, in + in_size - 32, 32, n, out + out_size - n, n);
        give(kind, in + in_size - n, n, 0, out + out_size - n, n);
    }
    give(kind, in + in_size - MOST, MOST, 0, out + out_size - MOST, MOST);
}

/* Past the limit, also where place and length together are over 2^64: 15, and no byte is written. */
static void refusals(const struct kind *kind)
{
    static uint8_t memory[KINDI_SHAKE_LIMIT + 1 + 2 * GUARD], before[sizeof memory];
    static const size_t lengths[] = { 0, 1, 2, 32, KINDI_SHAKE_LIMIT, KINDI_SHAKE_LIMIT + 1 };
    static const size_t places[] = { KINDI_SHAKE_LIMIT + 1, (size_t)1 << 32, (size_t)1 << 63, SIZE_MAX - KINDI_SHAKE_LIMIT,
        SIZE_MAX - 31, SIZE_MAX - 1, SIZE_MAX };
    size_t i, j, n = sizeof lengths / sizeof lengths[0];

    fill(memory, sizeof memory, 5);
    memcpy(before, memory, sizeof memory);
    for (i = 0; i < n; i++) {
        for (j = 0; j < sizeof places / sizeof places[0]; j++)
            if (kind->call(before, 32, places[j], memory + GUARD, lengths[i]) != KINDI_PAST_LIMIT)
                fail(kind, "not refused, far on", 32, lengths[i]);
        if (lengths[i] <= KINDI_SHAKE_LIMIT
            && kind->call(before, 32, KINDI_SHAKE_LIMIT - lengths[i] + 1, memory + GUARD, lengths[i]) != KINDI_PAST_LIMIT)
            fail(kind, "not refused, one past the limit", 32, lengths[i]);
    }
    if (kind->call(before, 32, 0, memory + GUARD, KINDI_SHAKE_LIMIT + 1) != KINDI_PAST_LIMIT)
        fail(kind, "not refused", 32, KINDI_SHAKE_LIMIT + 1);
    if (memcmp(memory, before, sizeof memory) != 0)
        fail(kind, "a refused call wrote", 32, 0);
    for (i = 0; i < n - 1; i++)
        give(kind, before, 32, KINDI_SHAKE_LIMIT - lengths[i], memory + GUARD, lengths[i]);
    if (memcmp(memory, before, GUARD) != 0
        || memcmp(memory + GUARD + KINDI_SHAKE_LIMIT, before + GUARD + KINDI_SHAKE_LIMIT, GUARD + 1) != 0)
        fail(kind, "a byte outside the output was written", 32, KINDI_SHAKE_LIMIT);
}

int main(void)
{
    static const struct part {
        const char *name;
        void (*run)(const struct kind *kind);
    } parts[] = {
        { "NIST's example values", examples },
        { "NULL with length 0", nulls },
        { "the bytes round the output, the input, one call twice", guards },
        { "slices that end at a page that nobody may touch", fences },
        { "what is refused", refusals },
    };
    size_t k, p;

    setvbuf(stdout, NULL, _IONBF, 0);
    for (k = 0; k < 2; k++) {
        for (p = 0; p < sizeof parts / sizeof parts[0]; p++) {
            printf("%s: %s\n", kinds[k].name, parts[p].name);
            parts[p].run(&kinds[k]);
        }
    }
    return 0;
}
