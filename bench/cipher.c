// The loads of crates/bench_cipher over libcrypto's DES, by the same words: in ECB mode block by block
// (`DES_ecb_encrypt`, `DES_ecb3_encrypt`), in CBC mode by `DES_ncbc_encrypt` and `DES_ede3_cbc_encrypt`. It prints the
// exclusive-or of the last message's blocks.
#define OPENSSL_SUPPRESS_DEPRECATED
#include <openssl/des.h>
#include <stdio.h>
#include <stdlib.h>
#include <string.h>

static const unsigned char keys[3][8] = {{0x13, 0x34, 0x57, 0x79, 0x9B, 0xBC, 0xDF, 0xF1},
                                         {0x01, 0x23, 0x45, 0x67, 0x89, 0xAB, 0xCD, 0xEF},
                                         {0x23, 0x45, 0x67, 0x89, 0xAB, 0xCD, 0xEF, 0x01}};

static int chained, direction = DES_ENCRYPT, parts = 1;

static void schedule_of(const unsigned char bytes[8], DES_key_schedule *schedule)
{
    DES_cblock key;
    memcpy(key, bytes, 8);
    DES_set_key_unchecked(&key, schedule);
}

// Enciphers or deciphers a message in its place. A key of two parts ends with its first one.
static void cipher(unsigned char *message, long size)
{
    DES_key_schedule first, second, third;
    DES_cblock chain = {0};
    schedule_of(keys[0], &first);
    if (parts == 1) {
        if (chained) {
            DES_ncbc_encrypt(message, message, size, &first, &chain, direction);
            return;
        }
        for (long at = 0; at < size; at += 8)
            DES_ecb_encrypt((const_DES_cblock *)(message + at), (DES_cblock *)(message + at), &first, direction);
        return;
    }
    schedule_of(keys[1], &second);
    if (parts == 3)
        schedule_of(keys[2], &third);
    else
        third = first;
    if (chained) {
        DES_ede3_cbc_encrypt(message, message, size, &first, &second, &third, &chain, direction);
        return;
    }
    for (long at = 0; at < size; at += 8)
        DES_ecb3_encrypt((const_DES_cblock *)(message + at), (DES_cblock *)(message + at), &first, &second, &third,
                         direction);
}

// So many messages of so many blocks, each made of the one before.
static int messages(int count, long blocks)
{
    unsigned char *message = calloc(blocks, 8), sum[8] = {0};
    if (!message)
        return 1;
    for (long i = 0; i < blocks; i++)
        for (int k = 0; k < 8; k++)
            message[8 * i + k] = (unsigned char)((unsigned long long)i >> (56 - 8 * k));
    for (int turn = 0; turn < count; turn++)
        cipher(message, 8 * blocks);
    for (long at = 0; at < 8 * blocks; at++)
        sum[at % 8] ^= message[at];
    for (int k = 0; k < 8; k++)
        printf("%02X", sum[k]);
    printf("\n");
    free(message);
    return 0;
}

int main(int count, char **arguments)
{
    for (int i = 1; i < count; i++) {
        const char *word = arguments[i];
        if (strcmp(word, "ecb") == 0)
            chained = 0;
        else if (strcmp(word, "cbc") == 0)
            chained = 1;
        else if (strcmp(word, "encrypt") == 0)
            direction = DES_ENCRYPT;
        else if (strcmp(word, "decrypt") == 0)
            direction = DES_DECRYPT;
        else if (strcmp(word, "one") == 0)
            parts = 1;
        else if (strcmp(word, "two") == 0)
            parts = 2;
        else if (strcmp(word, "three") == 0)
            parts = 3;
        else if ((strcmp(word, "8") == 0 && messages(2048, 1024)) || (strcmp(word, "32") == 0 && messages(512, 4096)))
            return 1;
    }
    return 0;
}
