// The loads of crates/bench_mac over libcrypto's DES in CBC mode: `one` and `three`.
// Each prints the last MAC of its chain.
#define OPENSSL_SUPPRESS_DEPRECATED
#include <openssl/des.h>
#include <stdio.h>
#include <stdlib.h>
#include <string.h>

enum { SIZE = 65528, TURNS = 1000 };

static const unsigned char first_key[8] = {0x13, 0x34, 0x57, 0x79, 0x9B, 0xBC, 0xDF, 0xF1};
static const unsigned char second_key[8] = {0x01, 0x23, 0x45, 0x67, 0x89, 0xAB, 0xCD, 0xEF};

static void schedule_of(const unsigned char bytes[8], DES_key_schedule *schedule)
{
    DES_cblock key;
    memcpy(key, bytes, 8);
    DES_set_key_unchecked(&key, schedule);
}

// The MAC of a message: the last block of it enciphered in CBC mode, and for algorithm 3 of ISO 9797-1 that
// block deciphered under the second key and enciphered under the first.
static void mac_of(const unsigned char *message, unsigned char *text, int algorithm, unsigned char mac[8])
{
    DES_key_schedule first, second;
    DES_cblock chain = {0}, clear;
    schedule_of(first_key, &first);
    DES_ncbc_encrypt(message, text, SIZE, &first, &chain, DES_ENCRYPT);
    memcpy(mac, text + SIZE - 8, 8);
    if (algorithm == 3) {
        schedule_of(second_key, &second);
        DES_ecb_encrypt((const_DES_cblock *)mac, &clear, &second, DES_DECRYPT);
        DES_ecb_encrypt(&clear, (DES_cblock *)mac, &first, DES_ENCRYPT);
    }
}

int main(int count, char **arguments)
{
    unsigned char *message = calloc(SIZE, 1), *text = malloc(SIZE);
    if (!message || !text)
        return 1;
    for (int i = 1; i < count; i++) {
        int algorithm = strcmp(arguments[i], "one") == 0 ? 1 : strcmp(arguments[i], "three") == 0 ? 3 : 0;
        if (!algorithm)
            continue;
        unsigned char mac[8] = {0};
        memset(message, 0, SIZE);
        for (int turn = 0; turn < TURNS; turn++) {
            memcpy(message, mac, 8);
            mac_of(message, text, algorithm, mac);
        }
        for (int k = 0; k < 8; k++)
            printf("%02X", mac[k]);
        printf("\n");
    }
    free(message);
    free(text);
    return 0;
}
