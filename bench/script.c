// The DES work of the messages that bench/script times, over libcrypto, without anything else that they need.
//
//     script keys TURNS        the key messages: TURNS turns of four
//     script pins FILE ROUNDS  the PIN and card messages: those of FILE, which bench/load.py wrote, ROUNDS times over
//     script made COUNT SEED ROUNDS
//                              the messages that `make COUNT SEED` makes, ROUNDS times over
//
// All are under the test set of LMK pairs. A schedule is made once for each different single part of a key that is used
// in opening or sealing a key, or in enciphering under one, and is kept for no longer: those of the LMKs, which never
// change, could be kept over all messages, and a program that keeps them does less. A block is one single-part DES.
// Three of them in a row, as a key of two parts needs, are done in one call of libcrypto, which is its fastest form.
// The two texts of a key with tag U share the schedule of the wrapping key's first part.
//
//     message                                     schedules                          blocks
//     A0 of 001, U: seal; check value             3 + 2                  = 5         6 + 3          = 9
//     A6 of 001: open ZMK (U), open key (X),
//         seal (U), check value                   3 + 2 + 3 + 2          = 10        6 + 6 + 6 + 3  = 21
//     BU of 001, single: open, check value        2 + 1                  = 3         3 + 1          = 4
//     BU of 002, two parts: open (U), check value 3 + 2                  = 5         6 + 3          = 9
//     CA, CC: open both keys (U), decipher the
//         block, encipher the other one           3 + 3 + 2 + 2          = 10        6 + 6 + 3 + 3  = 18
//     DA, EA: open both keys (U), decipher the
//         block, encipher the validation data     3 + 3 + 2 + 2          = 10        6 + 6 + 3 + 3  = 18
//     DC, EC: open the key (U) and the pair
//         (untagged), decipher the block, PVV     3 + 2 + 2 + 2          = 9         6 + 6 + 3 + 3  = 18
//     CY: open the pair (untagged), one block
//         under its first key, CVV                2 + 2                  = 4         6 + 1 + 3      = 10
//     JA: seal the PIN                            2                      = 2         3              = 3
//
// A turn of key messages has 23 schedules and 43 blocks; the key that A0 draws is stood for by digits that change with
// each turn, since its drawing is no DES work, and the answers to the last three messages are printed, without header.
// Seven PIN and card messages have 62 schedules and 118 blocks. How a PIN is taken out of its block and put into
// another is no DES work: the exclusive-or of the two clear blocks stands in FILE, and so do the blocks that the work
// must come to. The number of messages that came to them is printed.
//
// Of made messages A0, JA and BU need DES: about three of five. What A0 and JA draw is stood for by digits that change.
// The numbers of messages, of those that are answered without an error and of the other ones are printed.
#define OPENSSL_SUPPRESS_DEPRECATED
#include <openssl/des.h>
#include <stdint.h>
#include <stdio.h>
#include <stdlib.h>
#include <string.h>

enum { FIRST_VARIANT = 0xA6, SECOND_VARIANT = 0x5A };

typedef unsigned char Part[8];

static const Part zmk_text[2] = {
    {0x9F, 0x9A, 0x79, 0xDC, 0xD1, 0x06, 0xB3, 0x75}, {0x84, 0xC5, 0xD3, 0xD3, 0xC4, 0x18, 0xF4, 0xAE}};
static const Part given_text[2] = {
    {0x1A, 0x4D, 0x67, 0x2D, 0xCA, 0x6C, 0xB3, 0x35}, {0x1F, 0xD1, 0xB0, 0x2B, 0x23, 0x7A, 0xF9, 0xAE}};
static const Part single_text = {0x04, 0x32, 0xEB, 0x69, 0xFE, 0x76, 0x5A, 0xC4};
static const Part double_text[2] = {
    {0x32, 0x09, 0x8F, 0x00, 0x4A, 0x54, 0x88, 0xDB}, {0xFB, 0xEC, 0xB4, 0x11, 0xDC, 0x94, 0xFF, 0x89}};

// libcrypto reads a block as two words, the first byte of each the least significant one.
static void words_of(const Part bytes, DES_LONG words[2])
{
    for (int half = 0; half < 2; half++) {
        const unsigned char *b = bytes + 4 * half;
        words[half] = (uint32_t)b[0] | (uint32_t)b[1] << 8 | (uint32_t)b[2] << 16 | (uint32_t)b[3] << 24;
    }
}

static void bytes_of(const DES_LONG words[2], Part bytes)
{
    for (int i = 0; i < 8; i++)
        bytes[i] = (unsigned char)(words[i / 4] >> 8 * (i % 4));
}

static void schedule_of(const Part bytes, unsigned char variant, DES_key_schedule *schedule)
{
    DES_cblock key;
    memcpy(key, bytes, 8);
    key[0] ^= variant;
    DES_set_key_unchecked(&key, schedule);
}

// One block under a key of two parts, or its inverse.
static void triple(const Part in, DES_key_schedule *first, DES_key_schedule *second, int enciphers, Part out)
{
    DES_LONG words[2];
    words_of(in, words);
    if (enciphers)
        DES_encrypt3(words, first, second, first);
    else
        DES_decrypt3(words, first, second, first);
    bytes_of(words, out);
}

// Seals or opens a key of two parts by scheme U: 3 schedules and 6 blocks.
static void by_scheme_u(const Part wrapping[2], const Part in[2], int enciphers, Part out[2])
{
    DES_key_schedule first, second, third;
    schedule_of(wrapping[0], 0, &first);
    schedule_of(wrapping[1], FIRST_VARIANT, &second);
    schedule_of(wrapping[1], SECOND_VARIANT, &third);
    triple(in[0], &first, &second, enciphers, out[0]);
    triple(in[1], &first, &third, enciphers, out[1]);
}

// Opens the first parts of a text under the unchanged wrapping key: 2 schedules, and 3 blocks a part.
static void open_plain(const Part wrapping[2], const Part *in, int parts, Part *out)
{
    DES_key_schedule first, second;
    schedule_of(wrapping[0], 0, &first);
    schedule_of(wrapping[1], 0, &second);
    for (int i = 0; i < parts; i++)
        triple(in[i], &first, &second, 0, out[i]);
}

// One block under a key of two parts, or its inverse: 2 schedules and 3 blocks.
static void under_two(const Part key[2], const Part in, int enciphers, Part out)
{
    DES_key_schedule first, second;
    schedule_of(key[0], 0, &first);
    schedule_of(key[1], 0, &second);
    triple(in, &first, &second, enciphers, out);
}

// The zero block under a key of two parts.
static void check_two(const Part key[2], Part out)
{
    const Part zero = {0};
    under_two(key, zero, 1, out);
}

// The zero block under a single part: 1 schedule and 1 block.
static void check_one(const Part key, Part out)
{
    DES_key_schedule schedule;
    DES_LONG words[2] = {0, 0};
    schedule_of(key, 0, &schedule);
    DES_encrypt1(words, &schedule, DES_ENCRYPT);
    bytes_of(words, out);
}

static void print_bytes(const unsigned char *bytes, int count)
{
    for (int i = 0; i < count; i++)
        printf("%02X", bytes[i]);
}

static int key_messages(long turns)
{
    Part pair_of_zmk[2], pair_of_zpk[2], pair_of_tmk[2];
    memset(pair_of_zmk[0], 0x25, 8), memset(pair_of_zmk[1], 0x64, 8);
    memset(pair_of_zpk[0], 0x26, 8), memset(pair_of_zpk[1], 0x67, 8);
    memset(pair_of_tmk[0], 0x2F, 8), memset(pair_of_tmk[1], 0x6E, 8);
    Part drawn[2] = {{1}, {2}}, sealed[2], zmk[2], key[2], single[1], imported[2];
    Part drawn_value, imported_value, single_value, double_value;
    for (long turn = 0; turn < turns; turn++) {
        by_scheme_u(pair_of_zpk, drawn, 1, sealed);
        check_two(drawn, drawn_value);
        memcpy(drawn[0], sealed[0], 8);
        for (int i = 0; i < 8; i++)
            drawn[1][i] = sealed[1][i] ^ drawn_value[i];

        by_scheme_u(pair_of_zmk, zmk_text, 0, zmk);
        open_plain(zmk, given_text, 2, key);
        by_scheme_u(pair_of_zpk, key, 1, imported);
        check_two(key, imported_value);

        open_plain(pair_of_zpk, &single_text, 1, single);
        check_one(single[0], single_value);

        by_scheme_u(pair_of_tmk, double_text, 0, key);
        check_two(key, double_value);
    }
    printf("A700U");
    print_bytes(imported[0], 16);
    print_bytes(imported_value, 3);
    printf("\nBV00");
    print_bytes(single_value, 3);
    printf("\nBV00");
    print_bytes(double_value, 3);
    printf("\n");
    // A use of what A0's part came to, so that no compiler leaves it out.
    return drawn[0][0] == sealed[0][0] ? 0 : 1;
}

static void exclusive_or(Part to, const Part by)
{
    for (int i = 0; i < 8; i++)
        to[i] ^= by[i];
}

// The keys of FILE in their order, and its messages.
enum { PAIR_002, PAIR_001, PAIR_402, TPK, ZPK, OTHER_ZPK, PVK, PVK_PAIR, CVK_PAIR, KEYS };
enum { CA, CC, DA, EA, DC, EC, CY };

typedef struct {
    unsigned char kind;
    Part given, second, wanted[2];
} Message;

typedef struct {
    unsigned char count[4];
    Part keys[KEYS][2];
    Message messages[];
} Load;

// CVV: the first block under the first key of the pair, then its exclusive-or with the second block under both.
static void card_value(const Part pair[2], const Message *message, Part made[2])
{
    DES_key_schedule first, second;
    DES_LONG words[2];
    schedule_of(pair[0], 0, &first);
    schedule_of(pair[1], 0, &second);
    words_of(message->given, words);
    DES_encrypt1(words, &first, DES_ENCRYPT);
    bytes_of(words, made[0]);
    exclusive_or(made[0], message->second);
    triple(made[0], &first, &second, 1, made[1]);
}

// The work of a message: the deciphered block, or what the CVV enciphers last, and what is enciphered at the end.
static void work_of(const Load *load, const Message *message, Part made[2])
{
    const Part(*keys)[2] = load->keys;
    Part key[2], other[2], in;
    if (message->kind == CY) {
        open_plain(keys[PAIR_402], keys[CVK_PAIR], 2, key);
        card_value(key, message, made);
        return;
    }
    if (message->kind == CA || message->kind == DA || message->kind == DC)
        by_scheme_u(keys[PAIR_002], keys[TPK], 0, key);
    else
        by_scheme_u(keys[PAIR_001], keys[ZPK], 0, key);
    if (message->kind == CA || message->kind == CC)
        by_scheme_u(keys[PAIR_001], keys[message->kind == CA ? ZPK : OTHER_ZPK], 0, other);
    else if (message->kind == DA || message->kind == EA)
        by_scheme_u(keys[PAIR_002], keys[PVK], 0, other);
    else
        open_plain(keys[PAIR_002], keys[PVK_PAIR], 2, other);
    under_two(key, message->given, 0, made[0]);
    memcpy(in, message->second, 8);
    if (message->kind == CA || message->kind == CC)
        exclusive_or(in, made[0]);
    under_two(other, in, 1, made[1]);
}

static int pin_messages(const char *name, long rounds)
{
    FILE *file = fopen(name, "rb");
    static unsigned char bytes[1 << 22];
    const size_t size = file ? fread(bytes, 1, sizeof bytes, file) : 0;
    const Load *load = (const Load *)bytes;
    const unsigned char *n = load->count;
    const size_t count = n[0] | (size_t)n[1] << 8 | (size_t)n[2] << 16 | (size_t)n[3] << 24;
    if (size != sizeof(Load) + count * sizeof(Message))
        return 1;
    size_t good = 0;
    for (long round = 0; round < rounds; round++) {
        good = 0;
        for (size_t i = 0; i < count; i++) {
            Part made[2];
            work_of(load, &load->messages[i], made);
            good += memcmp(made, load->messages[i].wanted, sizeof made) == 0;
        }
    }
    printf("%zu\n", good);
    return 0;
}

static int made_messages(long count, long seed, long rounds)
{
    Part pair_of_zpk[2], pair_of_pins[2], drawn[2] = {{1}, {2}}, sealed[2], single[1], value, pin = {3};
    memset(pair_of_zpk[0], 0x26, 8), memset(pair_of_zpk[1], 0x67, 8);
    memset(pair_of_pins[0], 0x23, 8), memset(pair_of_pins[1], 0x62, 8);
    long refused = 0;
    for (long round = 0; round < rounds; round++) {
        uint32_t x = (uint32_t)seed % 0x80000000u;
        refused = 0;
        for (long i = 0; i < count; i++) {
            x = (x * UINT32_C(1103515245) + 12345) % 0x80000000u;
            switch (x / 65536 % 5) {
            case 1:
                by_scheme_u(pair_of_zpk, drawn, 1, sealed);
                check_two(drawn, value);
                memcpy(drawn[0], sealed[0], 8);
                exclusive_or(drawn[1], value);
                break;
            case 2:
                under_two(pair_of_pins, pin, 1, pin);
                break;
            case 3:
                open_plain(pair_of_zpk, &single_text, 1, single);
                check_one(single[0], value);
                break;
            case 4:
                refused++;
            }
        }
    }
    printf("MADE %ld %ld %ld\n", count, count - refused, refused);
    // A use of what was sealed last, so that no compiler leaves it out.
    return drawn[0][0] == sealed[0][0] && pin[0] + 1 ? 0 : 1;
}

int main(int count, char **arguments)
{
    const long times = count > 2 ? strtol(arguments[count - 1], NULL, 10) : 0;
    if (times >= 1 && count == 3 && !strcmp(arguments[1], "keys"))
        return key_messages(times);
    if (times >= 1 && count == 4 && !strcmp(arguments[1], "pins"))
        return pin_messages(arguments[2], times);
    if (times >= 1 && count == 5 && !strcmp(arguments[1], "made"))
        return made_messages(strtol(arguments[2], NULL, 10), strtol(arguments[3], NULL, 10), times);
    return 1;
}
