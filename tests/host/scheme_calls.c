/*
 * Calls the scheme from C, as firmware does: every slice ends at a page that nobody may touch, so that a
 * read or a write past it is a crash, and then begins after one. In every set a call that fits succeeds
 * and gives the same twice, whatever was in the outputs and the work area; a message may be NULL; what is
 * encrypted comes back. It names each part as it starts, so that the last line says where a crash was.
 */
#define _DEFAULT_SOURCE

#include <stdio.h>
#include <stdlib.h>
#include <string.h>
#include <sys/mman.h>
#include <unistd.h>

#include "kindi.h"

#define SETS 4
/* No slice is longer than the ciphertexts of the most recipients. */
#define MOST 40960

/* Each slice's room: whole pages, MOST bytes or more, between two pages that nobody may touch. */
enum { MU, GAMMA, Z, PUBLIC_KEY, SECRET_KEY, COINS, MESSAGE, KEY, CIPHERTEXT, PUBLIC_KEYS, COINS_LIST, CIPHERTEXTS,
    WORK, SLICES };
static uint8_t *rooms[SLICES];
static size_t room_len;

static void fail(const char *what)
{
    printf("FAILED: %s\n", what);
    exit(1);
}

static void make_rooms(void)
{
    size_t page = (size_t)sysconf(_SC_PAGESIZE), i;
    uint8_t *start;

    room_len = (MOST / page + 1) * page;
    for (i = 0; i < SLICES; i++) {
        start = mmap(NULL, room_len + 2 * page, PROT_NONE, MAP_PRIVATE | MAP_ANONYMOUS, -1, 0);
        if (start == MAP_FAILED || mprotect(start + page, room_len, PROT_READ | PROT_WRITE) != 0)
            fail("no pages to test with");
        rooms[i] = start + page;
    }
}

/* The slice of a room: its last bytes, or its first. */
static uint8_t *slice(int which, size_t size, int at_end)
{
    return at_end ? rooms[which] + room_len - size : rooms[which];
}

/* A slice with content that depends on the turn. */
static uint8_t *filled(int which, size_t size, int at_end, unsigned turn)
{
    uint8_t *p = slice(which, size, at_end);
    size_t i;

    for (i = 0; i < size; i++)
        p[i] = (uint8_t)(turn + (unsigned)which * 31 + i * 167 + (i >> 8));
    return p;
}

/* Whether a slice has the content that filled gives it at turn 0. */
static int has_content(int which, const uint8_t *p, size_t size)
{
    size_t i;

    for (i = 0; i < size; i++)
        if (p[i] != (uint8_t)((unsigned)which * 31 + i * 167 + (i >> 8)))
            return 0;
    return 1;
}

/* What was in the outputs and the work area differs by turn, and what is there after the call does not. */
static void same(unsigned turn, uint8_t *first, const uint8_t *output, size_t size)
{
    if (turn == 0)
        memcpy(first, output, size);
    else if (memcmp(first, output, size) != 0)
        fail("the same call twice gave two answers");
}

static void succeeded(uint32_t status, const uint8_t *work, size_t work_len)
{
    size_t i;

    if (status != KINDI_OK)
        fail("refused");
    for (i = 0; i < work_len; i++)
        if (work[i] != 0)
            fail("the work area is not all zeros");
}

static void keygen(uint32_t set, int at_end)
{
    static uint8_t first[2][MOST];
    size_t seed = KINDI_SEED_LEN(set), public_len = KINDI_PUBLIC_KEY_LEN(set);
    size_t secret_len = KINDI_SECRET_KEY_LEN(set), work_len = KINDI_KEYGEN_WORK_LEN(set);
    uint8_t *mu = filled(MU, seed, at_end, 0), *gamma = filled(GAMMA, seed, at_end, 0);
    uint8_t *z = filled(Z, seed, at_end, 0);
    unsigned turn;

    for (turn = 0; turn < 2; turn++) {
        uint8_t *public_key = filled(PUBLIC_KEY, public_len, at_end, turn + 1);
        uint8_t *secret_key = filled(SECRET_KEY, secret_len, at_end, turn + 1);
        uint8_t *work = filled(WORK, work_len, at_end, turn + 1);

        succeeded(kindi_keygen(set, mu, seed, gamma, seed, z, seed, public_key, public_len, secret_key, secret_len,
            work, work_len), work, work_len);
        same(turn, first[0], public_key, public_len);
        same(turn, first[1], secret_key, secret_len);
    }
}

/* With a message of some length; one of length 0 is NULL at the second turn. */
static void encrypt_message(uint32_t set, int at_end, size_t message_len)
{
    static uint8_t first[MOST];
    size_t public_len = KINDI_PUBLIC_KEY_LEN(set), coins_len = KINDI_COINS_LEN(set);
    size_t ciphertext_len = KINDI_CIPHERTEXT_LEN(set), work_len = KINDI_ENCRYPT_WORK_LEN(set);
    uint8_t *public_key = slice(PUBLIC_KEY, public_len, at_end), *coins = filled(COINS, coins_len, at_end, 0);
    uint8_t *message = filled(MESSAGE, message_len, at_end, 0);
    unsigned turn;

    for (turn = 0; turn < 2; turn++) {
        uint8_t *ciphertext = filled(CIPHERTEXT, ciphertext_len, at_end, turn + 1);
        uint8_t *work = filled(WORK, work_len, at_end, turn + 1);

        succeeded(kindi_encrypt(set, public_key, public_len, coins, coins_len,
            turn == 1 && message_len == 0 ? NULL : message, message_len, ciphertext, ciphertext_len, work, work_len),
            work, work_len);
        same(turn, first, ciphertext, ciphertext_len);
    }
}

/* The message that was encrypted comes back, with its coins. */
static void decrypt_message(uint32_t set, int at_end, size_t expected_len)
{
    size_t secret_len = KINDI_SECRET_KEY_LEN(set), ciphertext_len = KINDI_CIPHERTEXT_LEN(set);
    size_t coins_len = KINDI_COINS_LEN(set), room = KINDI_MESSAGE_MAX_LEN(set);
    size_t work_len = KINDI_DECRYPT_WORK_LEN(set), i;
    uint8_t *secret_key = slice(SECRET_KEY, secret_len, at_end);
    uint8_t *ciphertext = slice(CIPHERTEXT, ciphertext_len, at_end);
    unsigned turn;

    for (turn = 0; turn < 2; turn++) {
        uint8_t *coins = filled(COINS, coins_len, at_end, turn + 1);
        uint8_t *message = filled(MESSAGE, room, at_end, turn + 1), *work = filled(WORK, work_len, at_end, turn + 1);
        size_t message_len = room + 1;

        succeeded(kindi_decrypt(set, secret_key, secret_len, ciphertext, ciphertext_len, coins, coins_len, message,
            room, &message_len, work, work_len), work, work_len);
        if (message_len != expected_len || !has_content(MESSAGE, message, message_len)
            || !has_content(COINS, coins, coins_len))
            fail("another message or other coins came back");
        for (i = message_len; i < room; i++)
            if (message[i] != 0)
                fail("the message is not followed by zeros");
    }
}

static void encrypt(uint32_t set, int at_end)
{
    size_t most = KINDI_MESSAGE_MAX_LEN(set), lengths[4], i;

    lengths[0] = 0, lengths[1] = 1, lengths[2] = most - 1, lengths[3] = most;
    for (i = 0; i < 4; i++) {
        encrypt_message(set, at_end, lengths[i]);
        decrypt_message(set, at_end, lengths[i]);
    }
}

/* The last recipient has the key that was made, and decrypts its part; the others' keys are any bytes. A message
 * of length 0 is NULL at the second turn. */
static void encrypt_several(uint32_t set, int at_end, uint32_t count, size_t message_len)
{
    static uint8_t first[MOST];
    size_t public_len = KINDI_PUBLIC_KEY_LEN(set), coins_len = KINDI_COINS_LEN(set);
    size_t ciphertext_len = KINDI_CIPHERTEXT_LEN(set), work_len = KINDI_ENCRYPT_EACH_WORK_LEN(set);
    size_t keys_len = count * public_len, list_len = count * coins_len, output_len = count * ciphertext_len;
    uint8_t *keys = filled(PUBLIC_KEYS, keys_len, at_end, 0), *list = filled(COINS_LIST, list_len, at_end, 0);
    uint8_t *message = filled(MESSAGE, message_len, at_end, 0);
    unsigned turn;

    memcpy(keys + keys_len - public_len, slice(PUBLIC_KEY, public_len, at_end), public_len);
    memcpy(list + list_len - coins_len, filled(COINS, coins_len, at_end, 0), coins_len);
    for (turn = 0; turn < 2; turn++) {
        uint8_t *ciphertexts = filled(CIPHERTEXTS, output_len, at_end, turn + 1);
        uint8_t *work = filled(WORK, work_len, at_end, turn + 1);

        succeeded(kindi_encrypt_each(set, count, keys, keys_len, list, list_len,
            turn == 1 && message_len == 0 ? NULL : message, message_len, ciphertexts, output_len, work, work_len),
            work, work_len);
        same(turn, first, ciphertexts, output_len);
    }
    memcpy(slice(CIPHERTEXT, ciphertext_len, at_end), first + output_len - ciphertext_len, ciphertext_len);
    decrypt_message(set, at_end, message_len);
}

static void encrypt_each(uint32_t set, int at_end)
{
    static const uint32_t counts[] = { 1, 2, KINDI_MAX_RECIPIENTS };
    size_t i;

    for (i = 0; i < sizeof counts / sizeof counts[0]; i++) {
        encrypt_several(set, at_end, counts[i], 0);
        encrypt_several(set, at_end, counts[i], KINDI_MESSAGE_MAX_LEN(set));
    }
}

static void encaps(uint32_t set, int at_end)
{
    static uint8_t first[2][MOST];
    size_t public_len = KINDI_PUBLIC_KEY_LEN(set), coins_len = KINDI_COINS_LEN(set), key_len = KINDI_KEY_LEN(set);
    size_t ciphertext_len = KINDI_CIPHERTEXT_LEN(set), work_len = KINDI_ENCAPS_WORK_LEN(set);
    uint8_t *public_key = slice(PUBLIC_KEY, public_len, at_end), *coins = filled(COINS, coins_len, at_end, 0);
    unsigned turn;

    for (turn = 0; turn < 2; turn++) {
        uint8_t *key = filled(KEY, key_len, at_end, turn + 1);
        uint8_t *ciphertext = filled(CIPHERTEXT, ciphertext_len, at_end, turn + 1);
        uint8_t *work = filled(WORK, work_len, at_end, turn + 1);

        succeeded(kindi_encaps(set, public_key, public_len, coins, coins_len, key, key_len, ciphertext, ciphertext_len,
            work, work_len), work, work_len);
        same(turn, first[0], key, key_len);
        same(turn, first[1], ciphertext, ciphertext_len);
    }
}

/* The shared key that encaps left in its room comes back. */
static void decaps(uint32_t set, int at_end)
{
    static uint8_t made[MOST];
    size_t secret_len = KINDI_SECRET_KEY_LEN(set), ciphertext_len = KINDI_CIPHERTEXT_LEN(set);
    size_t key_len = KINDI_KEY_LEN(set), work_len = KINDI_DECAPS_WORK_LEN(set);
    uint8_t *secret_key = slice(SECRET_KEY, secret_len, at_end);
    uint8_t *ciphertext = slice(CIPHERTEXT, ciphertext_len, at_end);
    unsigned turn;

    memcpy(made, slice(KEY, key_len, at_end), key_len);
    for (turn = 0; turn < 2; turn++) {
        uint8_t *key = filled(KEY, key_len, at_end, turn + 1), *work = filled(WORK, work_len, at_end, turn + 1);

        succeeded(kindi_decaps(set, secret_key, secret_len, ciphertext, ciphertext_len, key, key_len, work, work_len),
            work, work_len);
        if (memcmp(key, made, key_len) != 0)
            fail("another shared key came back");
    }
}

static void noise(uint32_t set, int at_end)
{
    size_t secret_len = KINDI_SECRET_KEY_LEN(set), coins_len = KINDI_COINS_LEN(set);
    size_t message_len = KINDI_MESSAGE_MAX_LEN(set), work_len = KINDI_NOISE_WORK_LEN(set);
    uint8_t *secret_key = slice(SECRET_KEY, secret_len, at_end), *message = filled(MESSAGE, message_len, at_end, 0);
    uint8_t *coins = filled(COINS, coins_len, at_end, 0);
    uint32_t first = 0, turn;

    for (turn = 0; turn < 2; turn++) {
        uint8_t *work = filled(WORK, work_len, at_end, turn + 1);
        uint32_t clear = 77777 + turn, largest = 77777 + turn;

        succeeded(kindi_noise(set, secret_key, secret_len, coins, coins_len, message, message_len, &clear, &largest,
            work, work_len), work, work_len);
        if (clear != 1 || largest == 0 || (turn == 1 && largest != first))
            fail("not clear, or the same call twice gave two answers");
        first = largest;
    }
}

/* From a list that is as long as it may be. */
static void choose(uint32_t set, int at_end)
{
    size_t secret_len = KINDI_SECRET_KEY_LEN(set), list_len = KINDI_CHOOSE_MAX_COINS * KINDI_COINS_LEN(set);
    size_t message_len = KINDI_MESSAGE_MAX_LEN(set), work_len = KINDI_CHOOSE_WORK_LEN(set);
    uint8_t *secret_key = slice(SECRET_KEY, secret_len, at_end), *message = filled(MESSAGE, message_len, at_end, 0);
    uint8_t *list = filled(COINS, list_len, at_end, 0);
    uint32_t first = 0, turn;

    for (turn = 0; turn < 2; turn++) {
        uint8_t *work = filled(WORK, work_len, at_end, turn + 1);
        uint32_t place = 77777 + turn;

        succeeded(kindi_choose(set, secret_key, secret_len, message, message_len, list, list_len, &place, work,
            work_len), work, work_len);
        if (place >= KINDI_CHOOSE_MAX_COINS || (turn == 1 && place != first))
            fail("no place of the list, or the same call twice gave two answers");
        first = place;
    }
}

/* Every slice NULL and empty: refused, and nothing is touched but the values, which are 0. */
static void nulls(uint32_t set, int at_end)
{
    uint32_t wrong = KINDI_WRONG_INPUT_LEN, clear = 1, largest = 1, place = 1;
    size_t message_len = 1;

    (void)at_end;
    if (kindi_keygen(set, NULL, 0, NULL, 0, NULL, 0, NULL, 0, NULL, 0, NULL, 0) != wrong
        || kindi_encrypt(set, NULL, 0, NULL, 0, NULL, 0, NULL, 0, NULL, 0) != wrong
        || kindi_encrypt_each(set, 1, NULL, 0, NULL, 0, NULL, 0, NULL, 0, NULL, 0) != wrong
        || kindi_encrypt_each(set, 0, NULL, 0, NULL, 0, NULL, 0, NULL, 0, NULL, 0) != KINDI_WRONG_COUNT
        || kindi_decrypt(set, NULL, 0, NULL, 0, NULL, 0, NULL, 0, &message_len, NULL, 0) != wrong
        || kindi_encaps(set, NULL, 0, NULL, 0, NULL, 0, NULL, 0, NULL, 0) != wrong
        || kindi_decaps(set, NULL, 0, NULL, 0, NULL, 0, NULL, 0) != wrong
        || kindi_noise(set, NULL, 0, NULL, 0, NULL, 0, &clear, &largest, NULL, 0) != wrong
        || kindi_choose(set, NULL, 0, NULL, 0, NULL, 0, &place, NULL, 0) != wrong
        || message_len != 0 || clear != 0 || largest != 0 || place != 0)
        fail("empty slices are not refused as they should be");
}

int main(void)
{
    static const struct part {
        const char *name;
        void (*run)(uint32_t set, int at_end);
    } parts[] = { { "keygen", keygen }, { "encrypt and decrypt", encrypt }, { "encrypt_each", encrypt_each },
        { "encaps", encaps }, { "decaps", decaps }, { "noise", noise }, { "choose", choose }, { "all NULL", nulls } };
    uint32_t set;
    int at_end;
    size_t p;

    setvbuf(stdout, NULL, _IONBF, 0);
    make_rooms();
    for (set = 1; set <= SETS; set++) {
        for (at_end = 0; at_end < 2; at_end++) {
            /* What a part leaves in its room is what the next one works with: keys, a ciphertext, a shared key. */
            for (p = 0; p < sizeof parts / sizeof parts[0]; p++) {
                printf("set %lu: %s, slices at the %s of their pages\n", (unsigned long)set, parts[p].name,
                    at_end ? "end" : "start");
                parts[p].run(set, at_end);
            }
        }
    }
    return 0;
}
