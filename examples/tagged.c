/*
 * The example that a product should start from: a baking programme has a tag in its own message, so that an
 * oven takes no copy that was altered on its way. The message is the tag, then the programme; the tag is the
 * first 32 bytes of SHAKE256 of the coins, a byte 05 and the programme. Who decrypts has the coins, makes the
 * tag again and compares.
 *
 * What this shows: the programme is what somebody encrypted to this public key with these coins, whole. Another
 * ciphertext of the same coins has another message, and is taken only where that begins with the tag of its own
 * rest. Who does not know the coins can only guess that tag, one in 2^256, as far as SHAKE256 is a good hash and
 * the ciphertext keeps its coins secret. Here every single-bit alteration is tried, and none is taken.
 *
 * What it does not show: who encrypted, and when. Whoever has the public key can encrypt a programme of their
 * own, with coins and a tag of their own, and a ciphertext that is sent again is taken again. Who may speak to the
 * oven is the business of the link's certificates, and it matters: a sender who learns of some thousands of their own
 * programmes whether each was taken can work out the oven's secret key (README.md, "What stays with the caller").
 * The tag is no promise of the library: it is tested, not proved.
 *
 * The programme is the first argument, or one of its own where there is none. Prints what happened, and exits
 * with 1 where a call does not answer as it should, an altered copy is taken, or the tag refuses none.
 */
#include "shown.h"

#ifndef SET
#define SET 3
#endif

#define COINS_LEN KINDI_COINS_LEN(SET)
#define TAG_LEN 32u
#define PROGRAMME_MAX_LEN (KINDI_MESSAGE_MAX_LEN(SET) - TAG_LEN)

/* The one refusal of decrypt_programme, whatever was wrong; no number of the library. */
#define REFUSED 100u

/* Shared by the three functions that follow, so one call at a time. They hold secrets: a product wipes them after use. */
static uint8_t message[KINDI_MESSAGE_MAX_LEN(SET)], message_coins[COINS_LEN];
static uint8_t joined[COINS_LEN + 1u + PROGRAMME_MAX_LEN], work[KINDI_MOST_WORK_LEN(SET)];

/* The byte 05 keeps the tag apart from what KINDI itself makes of the coins, alone or with a byte 04. */
static uint32_t tag_of(const uint8_t *coins, const uint8_t *programme, size_t len, uint8_t *tag)
{
    memcpy(joined, coins, COINS_LEN);
    joined[COINS_LEN] = 5;
    memcpy(joined + COINS_LEN + 1, programme, len);
    return kindi_shake256(joined, COINS_LEN + 1 + len, 0, tag, TAG_LEN);
}

/* The sender's side. The coins are fresh random bytes for this ciphertext alone: see draw in shown.h. */
static uint32_t encrypt_programme(const uint8_t *public_key, const uint8_t *coins, const uint8_t *programme,
    size_t len, uint8_t *ciphertext)
{
    uint32_t status;

    if (len > PROGRAMME_MAX_LEN)
        return KINDI_MESSAGE_TOO_LONG;
    status = tag_of(coins, programme, len, message);
    if (status != KINDI_OK)
        return status;
    memcpy(message + TAG_LEN, programme, len);
    return kindi_encrypt(SET, public_key, KINDI_PUBLIC_KEY_LEN(SET), coins, COINS_LEN, message, TAG_LEN + len,
        ciphertext, KINDI_CIPHERTEXT_LEN(SET), work, sizeof work);
}

/*
 * The oven's side: writes the programme, which has room for PROGRAMME_MAX_LEN bytes, only where its tag is right. It
 * does not tell whether the library or the tag refused: who sends altered copies and learns that can work out the
 * coins and read the programme. The two differ in time, by the hash, so an answer goes out at a fixed time, if at all.
 */
static uint32_t decrypt_programme(const uint8_t *secret_key, const uint8_t *ciphertext, uint8_t *programme, size_t *len)
{
    uint8_t tag[TAG_LEN], different = 0;
    size_t message_len, i;
    uint32_t status = kindi_decrypt(SET, secret_key, KINDI_SECRET_KEY_LEN(SET), ciphertext,
        KINDI_CIPHERTEXT_LEN(SET), message_coins, COINS_LEN, message, sizeof message, &message_len, work, sizeof work);

    *len = 0;
    if (status != KINDI_OK || message_len < TAG_LEN
        || tag_of(message_coins, message + TAG_LEN, message_len - TAG_LEN, tag) != KINDI_OK)
        return REFUSED;
    /* All bytes, then one branch: the time does not tell how many are right. */
    for (i = 0; i < TAG_LEN; i++)
        different |= tag[i] ^ message[i];
    if (different != 0)
        return REFUSED;
    *len = message_len - TAG_LEN;
    memcpy(programme, message + TAG_LEN, *len);
    return KINDI_OK;
}

/* Whether the library alone takes a ciphertext, to count what the tag refuses. */
static int library_takes(const uint8_t *secret_key, const uint8_t *ciphertext)
{
    size_t message_len;

    return kindi_decrypt(SET, secret_key, KINDI_SECRET_KEY_LEN(SET), ciphertext, KINDI_CIPHERTEXT_LEN(SET), message_coins,
        COINS_LEN, message, sizeof message, &message_len, work, sizeof work) == KINDI_OK;
}

int main(int argc, char **argv)
{
    static uint8_t public_key[KINDI_PUBLIC_KEY_LEN(SET)], secret_key[KINDI_SECRET_KEY_LEN(SET)];
    static uint8_t seeds[3][KINDI_SEED_LEN(SET)], coins[COINS_LEN], ciphertext[KINDI_CIPHERTEXT_LEN(SET)];
    static uint8_t programme[PROGRAMME_MAX_LEN];
    const char *text = argc > 1 ? argv[1] : "rye, 2 kg: 250 C with steam for 10 min; 200 C for 50 min";
    size_t len, bit, by_tag = 0, taken = 0;

    printf("parameter set %d\nprogramme, at most %u bytes\n  %s\n", SET, PROGRAMME_MAX_LEN, text);
    draw("seeds of the oven", seeds[0], sizeof seeds);
    draw("coins of the programme", coins, sizeof coins);
    if (!answers("keygen", kindi_keygen(SET, seeds[0], sizeof seeds[0], seeds[1], sizeof seeds[1], seeds[2],
            sizeof seeds[2], public_key, sizeof public_key, secret_key, sizeof secret_key, work, sizeof work), KINDI_OK)
        || !answers("encrypt", encrypt_programme(public_key, coins, (const uint8_t *)text, strlen(text), ciphertext),
            KINDI_OK))
        return 1;
    print("its tag", message, TAG_LEN);
    print("its ciphertext", ciphertext, sizeof ciphertext);
    if (!answers("decrypt", decrypt_programme(secret_key, ciphertext, programme, &len), KINDI_OK)
        || len != strlen(text) || memcmp(programme, text, len) != 0)
        return 1;
    printf("  %.*s\n", (int)len, (const char *)programme);
    for (bit = 0; bit < 8 * sizeof ciphertext; bit++) {
        ciphertext[bit / 8] ^= 1u << bit % 8;
        if (decrypt_programme(secret_key, ciphertext, programme, &len) == KINDI_OK)
            taken++;
        else if (library_takes(secret_key, ciphertext))
            by_tag++;
        ciphertext[bit / 8] ^= 1u << bit % 8;
    }
    printf("each bit of the ciphertext changed in turn\n  refused by the library %lu, by the tag %lu; taken %lu\n",
        (unsigned long)(bit - by_tag - taken), (unsigned long)by_tag, (unsigned long)taken);
    return taken == 0 && by_tag > 0 ? 0 : 1;
}
