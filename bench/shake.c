/*
 * Times the library's SHAKE128 and SHAKE256 beside portable C and, where it is installed, OpenSSL's
 * libcrypto (compile with BENCH_OPENSSL defined and link libcrypto).
 */
#include <stdio.h>
#include <stdlib.h>
#include <string.h>

#include "keccak_ref.h"
#include "kindi.h"
#include "timing.h"

#ifdef BENCH_OPENSSL
#include <openssl/evp.h>
#endif

#define LONG ((size_t)1 << 20)
#define CANDIDATES 3

typedef void shake_fn(const uint8_t *input, size_t input_len, uint8_t *output, size_t output_len);

#ifdef BENCH_OPENSSL
static EVP_MD_CTX *context;

static void openssl_shake(const EVP_MD *kind, const uint8_t *input, size_t input_len, uint8_t *output, size_t output_len)
{
    if (!EVP_DigestInit_ex(context, kind, NULL) || !EVP_DigestUpdate(context, input, input_len)
        || !EVP_DigestFinalXOF(context, output, output_len)) {
        fprintf(stderr, "bench: OpenSSL refused a call\n");
        exit(1);
    }
}

static void openssl_shake128(const uint8_t *input, size_t input_len, uint8_t *output, size_t output_len)
{
    openssl_shake(EVP_shake128(), input, input_len, output, output_len);
}

static void openssl_shake256(const uint8_t *input, size_t input_len, uint8_t *output, size_t output_len)
{
    openssl_shake(EVP_shake256(), input, input_len, output, output_len);
}
#else
#define openssl_shake128 NULL
#define openssl_shake256 NULL
#endif

/* The library's calls, from place 0 on. */
static void from_start(uint32_t (*call)(const uint8_t *, size_t, size_t, uint8_t *, size_t), const uint8_t *input,
    size_t input_len, uint8_t *output, size_t output_len)
{
    if (call(input, input_len, 0, output, output_len) != KINDI_OK) {
        fprintf(stderr, "bench: a SHAKE call was refused\n");
        exit(1);
    }
}

static void our_shake128(const uint8_t *input, size_t input_len, uint8_t *output, size_t output_len)
{
    from_start(kindi_shake128, input, input_len, output, output_len);
}

static void our_shake256(const uint8_t *input, size_t input_len, uint8_t *output, size_t output_len)
{
    from_start(kindi_shake256, input, input_len, output, output_len);
}

static const char *const names[CANDIDATES + 1] = { "ours", "C", "OpenSSL", "C bare" };

static const struct kind {
    const char *name;
    size_t rate;
    shake_fn *calls[CANDIDATES];
} kinds[] = {
    { "SHAKE128", 168, { our_shake128, ref_shake128, openssl_shake128 } },
    { "SHAKE256", 136, { our_shake256, ref_shake256, openssl_shake256 } },
};

static const struct size {
    size_t input_len, output_len;
} sizes[] = {
    { 32, LONG }, { LONG, 32 },
    { 32, 448 }, { 32, 832 }, { 32, 896 }, { 32, 4032 },
    { 64, 448 }, { 64, 832 }, { 64, 896 }, { 64, 4032 },
};

#define COUNT(array) (sizeof(array) / sizeof((array)[0]))

static uint8_t input[LONG], output[LONG], expected[LONG];
static uint64_t state[25];

struct work {
    shake_fn *call;
    size_t input_len, output_len;
};

static void run_shake(void *arg)
{
    const struct work *w = arg;

    w->call(input, w->input_len, output, w->output_len);
}

static void run_permutation(void *arg)
{
    ref_keccak_f1600(arg);
}

/* A figure of two programs that do different things says nothing. */
static void check(const struct kind *kind, const struct size *size)
{
    int i;

    kind->calls[1](input, size->input_len, expected, size->output_len);
    for (i = 0; i < CANDIDATES; i++) {
        if (!kind->calls[i])
            continue;
        memset(output, 0, size->output_len);
        kind->calls[i](input, size->input_len, output, size->output_len);
        if (memcmp(output, expected, size->output_len) != 0) {
            fprintf(stderr, "bench: %s of %lu bytes, %lu bytes of output: %s differs from C\n", kind->name,
                (unsigned long)size->input_len, (unsigned long)size->output_len, names[i]);
            exit(1);
        }
    }
}

/* Times the calls of one kind, and after them C's bare permutation where there is room for its figure. */
static void time_size(const struct kind *kind, const struct size *size, double *ns, int count)
{
    struct candidate candidates[CANDIDATES + 1];
    struct work work[CANDIDATES];
    int i;

    for (i = 0; i < CANDIDATES; i++) {
        work[i].call = kind->calls[i];
        work[i].input_len = size->input_len;
        work[i].output_len = size->output_len;
        candidates[i].run = kind->calls[i] ? run_shake : NULL;
        candidates[i].arg = &work[i];
    }
    candidates[CANDIDATES].run = run_permutation;
    candidates[CANDIDATES].arg = state;
    time_candidates(candidates, count, ns);
}

/* The time of a long output divided by its permutations, so that it can be had of every candidate. */
static void permutation_rows(void)
{
    double ns[CANDIDATES + 1];
    char label[64];
    size_t k;
    int i;

    table_head("ns a permutation", names, CANDIDATES + 1);
    for (k = 0; k < COUNT(kinds); k++) {
        size_t permutations = (sizes[0].output_len + kinds[k].rate - 1) / kinds[k].rate;

        time_size(&kinds[k], &sizes[0], ns, CANDIDATES + 1);
        for (i = 0; i < CANDIDATES; i++)
            ns[i] /= (double)permutations;
        snprintf(label, sizeof label, "in %s, %lu bytes out", kinds[k].name, (unsigned long)sizes[0].output_len);
        table_row(label, ns, CANDIDATES + 1, ns[0] / ns[1]);
    }
}

static void throughput_rows(void)
{
    double ns[CANDIDATES], rate[CANDIDATES];
    char label[64];
    size_t k, s;
    int i;

    table_head("MB/s, bytes of input and output together", names, CANDIDATES);
    for (k = 0; k < COUNT(kinds); k++) {
        for (s = 0; s < COUNT(sizes); s++) {
            double bytes = (double)(sizes[s].input_len + sizes[s].output_len);

            time_size(&kinds[k], &sizes[s], ns, CANDIDATES);
            for (i = 0; i < CANDIDATES; i++)
                rate[i] = ns[i] > 0 ? bytes * 1e3 / ns[i] : 0;
            snprintf(label, sizeof label, "%s, %lu bytes in, %lu out", kinds[k].name,
                (unsigned long)sizes[s].input_len, (unsigned long)sizes[s].output_len);
            table_row(label, rate, CANDIDATES, ns[0] / ns[1]);
        }
    }
}

int main(void)
{
    size_t i, k, s;

#ifdef BENCH_OPENSSL
    context = EVP_MD_CTX_new();
    if (!context)
        return 1;
#endif
    for (i = 0; i < LONG; i++)
        input[i] = (uint8_t)(i * 167 + (i >> 8));
    for (k = 0; k < COUNT(kinds); k++)
        for (s = 0; s < COUNT(sizes); s++)
            check(&kinds[k], &sizes[s]);
    printf("Best of several repetitions. MB is 10^6 bytes. Time ratio: ours / C, lower is better.\n");
    permutation_rows();
    throughput_rows();
    return 0;
}
