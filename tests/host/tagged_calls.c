/*
 * The functions of examples/tagged.c, in its set: an empty programme and the longest come back; a tag with any one
 * bit wrong is refused, and so is a message that is shorter than a tag, which whoever has the public key can send.
 * A refusal leaves the programme as it was, and its length is 0.
 */
#define main example
#include "../../examples/tagged.c"
#undef main

#include <stdlib.h>

static uint8_t public_key[KINDI_PUBLIC_KEY_LEN(SET)], secret_key[KINDI_SECRET_KEY_LEN(SET)];
static uint8_t coins[COINS_LEN], ciphertext[KINDI_CIPHERTEXT_LEN(SET)];
static uint8_t programme[PROGRAMME_MAX_LEN], text[PROGRAMME_MAX_LEN], sent[KINDI_MESSAGE_MAX_LEN(SET)];

static void check(int holds, const char *what, size_t which)
{
    if (holds)
        return;
    printf("FAILED: set %d, %s, %lu\n", SET, what, (unsigned long)which);
    exit(1);
}

static void make_keys(void)
{
    static uint8_t seeds[3][KINDI_SEED_LEN(SET)];

    draw("seeds", seeds[0], sizeof seeds);
    draw("coins", coins, sizeof coins);
    draw("text", text, sizeof text);
    check(kindi_keygen(SET, seeds[0], sizeof seeds[0], seeds[1], sizeof seeds[1], seeds[2], sizeof seeds[2], public_key,
        sizeof public_key, secret_key, sizeof secret_key, work, sizeof work) == KINDI_OK, "keygen", 0);
}

static void comes_back(size_t len)
{
    size_t found = len + 1;

    check(encrypt_programme(public_key, coins, text, len, ciphertext) == KINDI_OK, "encrypt a programme", len);
    check(decrypt_programme(secret_key, ciphertext, programme, &found) == KINDI_OK, "decrypt a programme", len);
    check(found == len && memcmp(programme, text, len) == 0, "a programme does not come back", len);
}

/* The message is what was sent, as it stands. */
static void refused(size_t sent_len, const char *what, size_t which)
{
    size_t found = 1, i;

    memset(programme, 0xa5, sizeof programme);
    check(kindi_encrypt(SET, public_key, sizeof public_key, coins, sizeof coins, sent, sent_len, ciphertext,
        sizeof ciphertext, work, sizeof work) == KINDI_OK, "encrypt", which);
    check(decrypt_programme(secret_key, ciphertext, programme, &found) == REFUSED && found == 0, what, which);
    for (i = 0; i < sizeof programme; i++)
        check(programme[i] == 0xa5, "a refusal writes the programme", i);
}

int main(void)
{
    size_t bit, len;

    make_keys();
    comes_back(0);
    comes_back(PROGRAMME_MAX_LEN);
    check(encrypt_programme(public_key, coins, text, PROGRAMME_MAX_LEN + 1, ciphertext) == KINDI_MESSAGE_TOO_LONG,
        "a programme that is too long", PROGRAMME_MAX_LEN + 1);
    tag_of(coins, text, 100, sent);
    memcpy(sent + TAG_LEN, text, 100);
    for (bit = 0; bit < 8 * TAG_LEN; bit++) {
        sent[bit / 8] ^= 1u << bit % 8;
        refused(TAG_LEN + 100, "a bit of the tag is wrong", bit);
        sent[bit / 8] ^= 1u << bit % 8;
    }
    /* The right tag, of no programme, less its end. */
    tag_of(coins, text, 0, sent);
    for (len = 0; len < TAG_LEN; len++)
        refused(len, "a message shorter than a tag", len);
    return 0;
}
