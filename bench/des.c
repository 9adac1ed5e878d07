// The loads of crates/bench_des over libcrypto's DES: `block`, `schedule`, `two-part`, and `two` and `two-part-two`, whose
// two chains take a block each in turn. Each prints the last block or key of its chain, or the exclusive-or of the last
// blocks of its chains.
#define OPENSSL_SUPPRESS_DEPRECATED
#include <openssl/des.h>
#include <stdint.h>
#include <stdio.h>
#include <string.h>

static const unsigned char first_key[8] = {0x13, 0x34, 0x57, 0x79, 0x9B, 0xBC, 0xDF, 0xF1};
static const unsigned char second_key[8] = {0x01, 0x23, 0x45, 0x67, 0x89, 0xAB, 0xCD, 0xEF};
static const unsigned char third_key[8] = {0x23, 0x45, 0x67, 0x89, 0xAB, 0xCD, 0xEF, 0x01};
static const unsigned char fourth_key[8] = {0x45, 0x67, 0x89, 0xAB, 0xCD, 0xEF, 0x01, 0x23};

// libcrypto reads a block as two words, the first byte of each the least significant one.
static void words_of(const unsigned char bytes[8], DES_LONG words[2])
{
    for (int half = 0; half < 2; half++) {
        const unsigned char *b = bytes + 4 * half;
        words[half] = (uint32_t)b[0] | (uint32_t)b[1] << 8 | (uint32_t)b[2] << 16 | (uint32_t)b[3] << 24;
    }
}

static void bytes_of(const DES_LONG words[2], unsigned char bytes[8])
{
    for (int i = 0; i < 8; i++)
        bytes[i] = (unsigned char)(words[i / 4] >> 8 * (i % 4));
}

static void schedule_of(const unsigned char bytes[8], DES_key_schedule *schedule)
{
    DES_cblock key;
    memcpy(key, bytes, 8);
    DES_set_key_unchecked(&key, schedule);
}

// Ten million blocks, each the one before enciphered.
static void blocks(DES_LONG words[2])
{
    DES_key_schedule schedule;
    schedule_of(first_key, &schedule);
    for (int i = 0; i < 10000000; i++)
        DES_encrypt1(words, &schedule, DES_ENCRYPT);
}

// Ten million keys, each the one before enciphered under itself.
static void schedules(DES_LONG words[2])
{
    unsigned char key[8];
    memcpy(key, first_key, 8);
    for (int i = 0; i < 10000000; i++) {
        DES_key_schedule schedule;
        schedule_of(key, &schedule);
        words_of(key, words);
        DES_encrypt1(words, &schedule, DES_ENCRYPT);
        bytes_of(words, key);
    }
}

// Four million blocks, each the one before enciphered under a key of two parts.
static void two_part_blocks(DES_LONG words[2])
{
    DES_key_schedule first, second;
    schedule_of(first_key, &first);
    schedule_of(second_key, &second);
    for (int i = 0; i < 4000000; i++)
        DES_encrypt3(words, &first, &second, &first);
}

// Ten million blocks in two chains, each under a key of its own, a block of each in turn; the exclusive-or of the last ones.
static void two_chains(DES_LONG words[2])
{
    DES_key_schedule first, second;
    schedule_of(first_key, &first);
    schedule_of(second_key, &second);
    DES_LONG other[2] = {0};
    for (int i = 0; i < 5000000; i++) {
        DES_encrypt1(words, &first, DES_ENCRYPT);
        DES_encrypt1(other, &second, DES_ENCRYPT);
    }
    words[0] ^= other[0];
    words[1] ^= other[1];
}

// Four million blocks in two chains, each under a key of two parts, a block of each in turn; the exclusive-or of the last ones.
static void two_two_part_chains(DES_LONG words[2])
{
    DES_key_schedule first, second, third, fourth;
    schedule_of(first_key, &first);
    schedule_of(second_key, &second);
    schedule_of(third_key, &third);
    schedule_of(fourth_key, &fourth);
    DES_LONG other[2] = {0};
    for (int i = 0; i < 2000000; i++) {
        DES_encrypt3(words, &first, &second, &first);
        DES_encrypt3(other, &third, &fourth, &third);
    }
    words[0] ^= other[0];
    words[1] ^= other[1];
}

int main(int count, char **arguments)
{
    for (int i = 1; i < count; i++) {
        DES_LONG words[2] = {0, 0};
        if (strcmp(arguments[i], "block") == 0)
            blocks(words);
        else if (strcmp(arguments[i], "schedule") == 0)
            schedules(words);
        else if (strcmp(arguments[i], "two-part") == 0)
            two_part_blocks(words);
        else if (strcmp(arguments[i], "two") == 0)
            two_chains(words);
        else if (strcmp(arguments[i], "two-part-two") == 0)
            two_two_part_chains(words);
        else
            continue;
        unsigned char bytes[8];
        bytes_of(words, bytes);
        for (int k = 0; k < 8; k++)
            printf("%02X", bytes[k]);
        printf("\n");
    }
    return 0;
}
