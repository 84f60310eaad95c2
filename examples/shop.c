/*
 * A shop of eight ovens gets one baking programme: each oven makes a key pair, one call encrypts the
 * programme to all of them, and each decrypts its own part. A part that is given to another oven is refused,
 * and so is a call in which two ovens have the same coins. The programme is the first argument, or one of
 * its own where there is none. Prints what happened, and exits with 1 where a call does not answer as it
 * should.
 */
#include "shown.h"

#define SET 3
#define OVENS 8

/* Keys, coins and parts lie one after another, oven by oven, as the call takes them. */
static uint8_t public_keys[OVENS][KINDI_PUBLIC_KEY_LEN(SET)], secret_keys[OVENS][KINDI_SECRET_KEY_LEN(SET)];
static uint8_t coins[OVENS][KINDI_COINS_LEN(SET)];
static uint8_t parts[OVENS][KINDI_CIPHERTEXT_LEN(SET)], parts_before[OVENS][KINDI_CIPHERTEXT_LEN(SET)];
static uint8_t message[KINDI_MESSAGE_MAX_LEN(SET)], message_coins[KINDI_COINS_LEN(SET)];
static size_t message_len;

/* One area does for any number of ovens, and for all calls. */
static uint8_t work[KINDI_MOST_WORK_LEN(SET)];

/* An oven and what it does, until the next is named. */
static const char *named(int oven, const char *what)
{
    static char name[40];

    snprintf(name, sizeof name, "oven %d, %s", oven + 1, what);
    return name;
}

/* Each oven keeps its secret key and gives the shop its public key. */
static int make_keys(int oven)
{
    uint8_t seeds[3][KINDI_SEED_LEN(SET)];

    draw(named(oven, "mu"), seeds[0], sizeof seeds[0]);
    draw(named(oven, "gamma"), seeds[1], sizeof seeds[1]);
    draw(named(oven, "z"), seeds[2], sizeof seeds[2]);
    return answers(named(oven, "keygen"), kindi_keygen(SET, seeds[0], sizeof seeds[0], seeds[1], sizeof seeds[1],
        seeds[2], sizeof seeds[2], public_keys[oven], sizeof public_keys[oven], secret_keys[oven],
        sizeof secret_keys[oven], work, sizeof work), KINDI_OK);
}

static int encrypt(const char *call, const char *programme, uint32_t expected)
{
    return answers(call, kindi_encrypt_each(SET, OVENS, public_keys[0], sizeof public_keys, coins[0], sizeof coins,
        (const uint8_t *)programme, strlen(programme), parts[0], sizeof parts, work, sizeof work), expected);
}

static uint32_t decrypt(int oven, const uint8_t *part)
{
    return kindi_decrypt(SET, secret_keys[oven], sizeof secret_keys[oven], part, sizeof parts[oven], message_coins,
        sizeof message_coins, message, sizeof message, &message_len, work, sizeof work);
}

/* An oven gets the programme out of its own part, and the coins that were drawn for it. */
static int decrypt_own(int oven, const char *programme)
{
    if (!answers(named(oven, "decrypt"), decrypt(oven, parts[oven]), KINDI_OK))
        return 0;
    printf("  %.*s\n", (int)message_len, (const char *)message);
    return message_len == strlen(programme) && memcmp(message, programme, message_len) == 0
        && memcmp(message_coins, coins[oven], sizeof coins[oven]) == 0;
}

/* An oven learns the coins of its part, so no other part may have them. */
static int refuses_equal_coins(const char *programme)
{
    memcpy(coins[OVENS - 1], coins[0], sizeof coins[0]);
    memcpy(parts_before, parts, sizeof parts);
    if (!encrypt("encrypt_each, equal coins", programme, KINDI_EQUAL_COINS)
        || memcmp(parts, parts_before, sizeof parts) != 0)
        return 0;
    printf("  all parts are as they were\n");
    return 1;
}

int main(int argc, char **argv)
{
    const char *programme = argc > 1 ? argv[1] : "40 rolls: 230 C with steam for 5 min; 210 C for 13 min";
    int oven;

    printf("parameter set %d, a shop of %d ovens\n", SET, OVENS);
    for (oven = 0; oven < OVENS; oven++)
        if (!make_keys(oven))
            return 1;
    printf("programme\n  %s\n", programme);
    draw("coins for each oven", coins[0], sizeof coins);
    if (!encrypt("encrypt_each", programme, KINDI_OK))
        return 1;
    print("all parts", parts[0], sizeof parts);
    for (oven = 0; oven < OVENS; oven++)
        if (!decrypt_own(oven, programme))
            return 1;
    /* That it is refused matters, and not by which check. */
    if (answers(named(1, "the part of oven 1"), decrypt(1, parts[0]), KINDI_OK))
        return 1;
    return refuses_equal_coins(programme) ? 0 : 1;
}
