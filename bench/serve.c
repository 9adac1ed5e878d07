// A server of seven commands over libcrypto's DES, which bench/serve sets beside ours.
//
//     serve PORT         listens at 127.0.0.1:PORT under LMK set T with headers of four bytes, until it is ended
//     serve PORT keep    the same, and keeps the schedules of kept keys; a connection has at most 64 keys
//
// A thread serves each connection: blocking reads of at most 4,096 bytes, frames of two bytes of length and the message,
// the replies gathered and written before the next read. It answers CA, CC, EA, DC, EC, CY and M6 with the checks of their
// fields, keys and data in the order that docs/COMMANDS.md gives, and anything else with 68. A connection keeps the last
// 64 keys that it opened under the LMK pairs, by their types and texts, in a ring that is searched from its oldest entry.
// A key's schedules are made for each message, or with `keep` once: those of a kept key are copied. Only fills that draw no
// words are written: a reply in format 05 or 47 is no part of this load, and is refused with 68.
#define OPENSSL_SUPPRESS_DEPRECATED
#include <arpa/inet.h>
#include <netinet/tcp.h>
#include <openssl/des.h>
#include <pthread.h>
#include <stdint.h>
#include <stdio.h>
#include <stdlib.h>
#include <string.h>
#include <sys/socket.h>
#include <unistd.h>

enum { HEADER = 4, KEPT = 64, FRAME = 65537, READ = 4096 };
enum { ZPK = 0, PVK = 1, CVK = 2, ZAK = 3, TAK = 4, TYPES = 5 };

typedef unsigned char Byte;

typedef struct {
    DES_key_schedule first, second, third;
} Schedules;

// `kept` are its schedules, or NULL where they are not kept.
typedef struct {
    int parts;
    Byte bytes[24];
    const Schedules *kept;
} Key;

typedef struct {
    int type, length;
    Byte text[49];
    Key key;
    Schedules schedules;
} Entry;

typedef struct {
    Entry entries[KEPT];
    int count, oldest;
} Table;

static int keeps_schedules;

// A text under way: what is left of it. `bad` is the code of the first field of which no text stands.
typedef struct {
    const Byte *at, *end;
    int bad;
} Scan;

// The pair and the variant of each type.
static const Byte pair_of[TYPES] = {3, 7, 7, 13, 8}, variant_of[TYPES] = {0, 0, 0xDE, 0, 0};

static Byte odd(Byte byte) { return (Byte)(byte ^ (__builtin_popcount(byte) % 2 == 0)); }

static void words_of(const Byte *b, DES_LONG words[2])
{
    for (int half = 0; half < 2; half++, b += 4)
        words[half] = (uint32_t)b[0] | (uint32_t)b[1] << 8 | (uint32_t)b[2] << 16 | (uint32_t)b[3] << 24;
}

static void bytes_of(const DES_LONG words[2], Byte *bytes)
{
    for (int i = 0; i < 8; i++)
        bytes[i] = (Byte)(words[i / 4] >> 8 * (i % 4));
}

static void schedule_of(const Byte *bytes, Byte variant, DES_key_schedule *schedule)
{
    DES_cblock key;
    memcpy(key, bytes, 8);
    key[0] ^= variant;
    DES_set_key_unchecked(&key, schedule);
}

static void schedules_of(const Key *key, Schedules *made)
{
    if (key->kept) {
        made->first = key->kept->first;
        made->second = key->kept->second;
        if (key->parts > 2)
            made->third = key->kept->third;
        return;
    }
    schedule_of(key->bytes, 0, &made->first);
    if (key->parts > 1)
        schedule_of(key->bytes + 8, 0, &made->second);
    if (key->parts > 2)
        schedule_of(key->bytes + 16, 0, &made->third);
}

static void cipher(const Key *key, Schedules *s, int enciphers, const Byte *in, Byte *out)
{
    DES_LONG words[2];
    words_of(in, words);
    DES_key_schedule *last = key->parts > 2 ? &s->third : &s->first;
    if (key->parts == 1)
        DES_encrypt1(words, &s->first, enciphers);
    else if (enciphers)
        DES_encrypt3(words, &s->first, &s->second, last);
    else
        DES_decrypt3(words, &s->first, &s->second, last);
    bytes_of(words, out);
}

// Opens a key of a type under LMK set T; false where a part has a byte of even parity.
static int open_key(int type, Byte scheme, const Byte *in, int parts, Key *key)
{
    static const Byte of_two[2] = {0xA6, 0x5A}, of_three[3] = {0x6A, 0xDE, 0x2B};
    Byte left[8], right[8];
    memset(left, odd((Byte)(32 + 2 * pair_of[type])), 8);
    memset(right, odd((Byte)(96 + 2 * pair_of[type])), 8);
    DES_key_schedule first, second;
    schedule_of(left, variant_of[type], &first);
    key->parts = parts;
    key->kept = NULL;
    for (int i = 0; i < parts; i++) {
        DES_LONG words[2];
        if (i == 0 || scheme == 'U' || scheme == 'T')
            schedule_of(right, scheme == 'U' ? of_two[i] : scheme == 'T' ? of_three[i] : 0, &second);
        words_of(in + 8 * i, words);
        DES_decrypt3(words, &first, &second, &first);
        bytes_of(words, key->bytes + 8 * i);
    }
    for (int i = 0; i < 8 * parts; i++)
        if (odd(key->bytes[i]) != key->bytes[i])
            return 0;
    return 1;
}

static int digit_of(Byte c)
{
    return c >= '0' && c <= '9' ? c - '0' : c >= 'A' && c <= 'F' ? c - 'A' + 10 : c >= 'a' && c <= 'f' ? c - 'a' + 10 : -1;
}

static void refuse(Scan *scan, int code)
{
    if (!scan->bad)
        scan->bad = code;
}

// The next count bytes, which satisfy the test, or NULL.
static const Byte *take(Scan *scan, int count, int (*test)(Byte), int code)
{
    if (scan->bad || scan->end - scan->at < count)
        return refuse(scan, code), NULL;
    for (int i = 0; i < count; i++)
        if (!test(scan->at[i]))
            return refuse(scan, code), NULL;
    return (scan->at += count) - count;
}

static int is_decimal(Byte c) { return c >= '0' && c <= '9'; }
static int is_hexadecimal(Byte c) { return digit_of(c) >= 0; }
static int is_any(Byte c) { return (void)c, 1; }

static void unhex(const Byte *text, int count, Byte *bytes)
{
    for (int i = 0; i < count; i++)
        bytes[i] = (Byte)(digit_of(text[2 * i]) << 4 | digit_of(text[2 * i + 1]));
}

// A number of two digits, or -1.
static int two_digits(Scan *scan, int code)
{
    const Byte *text = take(scan, 2, is_decimal, code);
    return text ? 10 * (text[0] - '0') + text[1] - '0' : -1;
}

// A length of 4 to 12.
static int length_field(Scan *scan)
{
    const int length = two_digits(scan, 15);
    if (length < 4 || length > 12)
        refuse(scan, 15);
    return length;
}

static int format_field(Scan *scan)
{
    const int format = two_digits(scan, 23);
    if (format != 1 && format != 3 && format != 5 && format != 47)
        refuse(scan, 23);
    return format;
}

// A digit of a set, or -1.
static int one_of(Scan *scan, const char *set)
{
    const Byte *text = take(scan, 1, is_any, 15);
    if (!text || !strchr(set, *text) || !*text)
        return refuse(scan, 15), -1;
    return *text - '0';
}

typedef struct {
    const Byte *text;
    int length, parts;
    Byte scheme;
    Byte bytes[24];
} KeyText;

// A key's text: `Z`, `U` or `T` and its digits, else as many digits without a tag as `untagged` parts have. A pair has no Z and no T.
static void key_field(Scan *scan, int untagged, KeyText *key)
{
    const Byte *start = scan->at;
    const Byte tag = start < scan->end ? *start : 0;
    const int tagged = tag == 'U' || (untagged == 1 && (tag == 'Z' || tag == 'T'));
    key->scheme = tagged ? tag : untagged == 1 ? 'Z' : 'P';
    key->parts = key->scheme == 'T' ? 3 : key->scheme == 'Z' ? 1 : 2;
    if (tagged)
        scan->at++;
    const Byte *digits = take(scan, 16 * key->parts, is_hexadecimal, 15);
    if (digits)
        unhex(digits, 8 * key->parts, key->bytes);
    key->text = start;
    key->length = (int)(scan->at - start);
}

// What follows the fields: nothing, or 19 and at most 32 bytes.
static void trailer(Scan *scan)
{
    const long left = scan->end - scan->at;
    if (left != 0 && (*scan->at != 0x19 || left > 33))
        refuse(scan, 15);
}

// The opened key: the kept one, or it is opened and kept.
static const Key *key_of(Table *table, int type, const KeyText *given)
{
    for (int i = 0; i < table->count; i++) {
        const Entry *entry = &table->entries[(table->oldest + i) % KEPT];
        if (entry->type == type && entry->length == given->length && !memcmp(entry->text, given->text, (size_t)given->length))
            return &entry->key;
    }
    Key opened;
    if (!open_key(type, given->scheme, given->bytes, given->parts, &opened))
        return NULL;
    Entry *entry = &table->entries[(table->oldest + table->count) % KEPT];
    if (table->count == KEPT)
        table->oldest = (table->oldest + 1) % KEPT;
    else
        table->count++;
    entry->type = type;
    entry->length = given->length;
    memcpy(entry->text, given->text, (size_t)given->length);
    if (keeps_schedules) {
        schedules_of(&opened, &entry->schedules);
        opened.kept = &entry->schedules;
    }
    entry->key = opened;
    return &entry->key;
}

static void nibbles_of(const Byte block[8], Byte nibbles[16])
{
    for (int i = 0; i < 16; i++)
        nibbles[i] = i % 2 ? block[i / 2] & 15 : block[i / 2] >> 4;
}

static void block_of(const Byte nibbles[16], Byte block[8])
{
    for (int i = 0; i < 8; i++)
        block[i] = (Byte)(nibbles[2 * i] << 4 | nibbles[2 * i + 1]);
}

// Reads the PIN of a clear block: its length, or the negative of a code.
static int read_pin(const Byte block[8], int format, const Byte account[12], Byte pin[12])
{
    Byte n[16];
    nibbles_of(block, n);
    int length, start = 2;
    if (format == 3) {
        start = 0;
        for (length = 0; length < 16 && n[length] < 10; length++)
            ;
    } else {
        if (n[0] != (format == 1 ? 0 : format == 5 ? 1 : 3))
            return -20;
        length = n[1];
    }
    if (length < 4 || length > 12)
        return -24;
    if (format == 1 || format == 47)
        for (int i = 0; i < 12; i++)
            n[4 + i] ^= (Byte)(account[i] - '0');
    for (int i = start; i < start + length; i++)
        if (n[i] > 9)
            return -20;
    for (int i = start + length; i < 16; i++)
        if (format == 47 ? n[i] < 10 : format != 5 && n[i] != 15)
            return -20;
    memcpy(pin, n + start, (size_t)length);
    return length;
}

// The clear block of a PIN in format 01 or 03.
static void write_pin(const Byte *pin, int length, int format, const Byte account[12], Byte block[8])
{
    Byte n[16];
    const int start = format == 3 ? 0 : 2;
    memset(n, 15, 16);
    if (start)
        n[0] = 0, n[1] = (Byte)length;
    memcpy(n + start, pin, (size_t)length);
    if (format == 1)
        for (int i = 0; i < 12; i++)
            n[4 + i] ^= (Byte)(account[i] - '0');
    block_of(n, block);
}

// The first count digits that are selected from a block.
static void select_digits(const Byte block[8], int count, Byte *digits)
{
    Byte n[16];
    int made = 0;
    nibbles_of(block, n);
    for (int i = 0; i < 16 && made < count; i++)
        if (n[i] < 10)
            digits[made++] = (Byte)('0' + n[i]);
    for (int i = 0; i < 16 && made < count; i++)
        if (n[i] > 9)
            digits[made++] = (Byte)('0' + n[i] - 10);
}

static Byte *put_hex(Byte *out, const Byte *bytes, int count)
{
    for (int i = 0; i < count; i++) {
        *out++ = (Byte) "0123456789ABCDEF"[bytes[i] >> 4];
        *out++ = (Byte) "0123456789ABCDEF"[bytes[i] & 15];
    }
    return out;
}

static Byte *put_two(Byte *out, int number)
{
    *out++ = (Byte)('0' + number / 10);
    *out++ = (Byte)('0' + number % 10);
    return out;
}

// Each command answers with its code, and with 00 appends its fields. `late` says that a trailer is repeated.
typedef struct {
    Table *table;
    Scan scan;
    Byte *out;
    int late;
} Work;

// The two keys of a command: of the first one 10, of the second one 11 where it has a byte of even parity.
static int two_keys(Work *work, int type, const KeyText *given, int other_type, const KeyText *other, Key *key, Key *second)
{
    work->late = 1;
    const Key *found = key_of(work->table, type, given);
    if (!found)
        return 10;
    *key = *found;
    found = key_of(work->table, other_type, other);
    if (!found)
        return 11;
    *second = *found;
    return 0;
}

static int clear_pin(const Key *key, const Byte *text, int format, const Byte *account, Byte pin[12])
{
    Byte block[8], clear[8];
    Schedules schedules;
    unhex(text, 8, block);
    schedules_of(key, &schedules);
    cipher(key, &schedules, DES_DECRYPT, block, clear);
    return read_pin(clear, format, account, pin);
}

static int translate(Work *work, int source)
{
    Scan *scan = &work->scan;
    KeyText from, to;
    Key key, target;
    Byte pin[12], block[8], made[8];
    key_field(scan, 1, &from);
    key_field(scan, 1, &to);
    const int most = length_field(scan);
    const Byte *text = take(scan, 16, is_hexadecimal, 15);
    const int format = format_field(scan), wanted = format_field(scan);
    const Byte *account = take(scan, 12, is_decimal, 15);
    trailer(scan);
    if (scan->bad)
        return scan->bad;
    if (wanted == 5 || wanted == 47)
        return 68;
    const int fault = two_keys(work, source, &from, ZPK, &to, &key, &target);
    if (fault)
        return fault;
    const int length = clear_pin(&key, text, format, account, pin);
    if (length < 0)
        return -length;
    if (length > most)
        return 24;
    Schedules schedules;
    write_pin(pin, length, wanted, account, block);
    schedules_of(&target, &schedules);
    cipher(&target, &schedules, DES_ENCRYPT, block, made);
    work->out = put_two(work->out, 0);
    work->out = put_two(put_hex(put_two(work->out, length), made, 8), wanted);
    return 0;
}

static int verify_pvv(Work *work, int source)
{
    Scan *scan = &work->scan;
    KeyText from, pair;
    Key key, pvk;
    Byte pin[12], n[16], block[8], made[8], digits[4];
    key_field(scan, 1, &from);
    key_field(scan, 2, &pair);
    const Byte *text = take(scan, 16, is_hexadecimal, 15);
    const int format = format_field(scan);
    const Byte *account = take(scan, 12, is_decimal, 15), *index = take(scan, 1, is_decimal, 15);
    const Byte *given = take(scan, 4, is_decimal, 15);
    trailer(scan);
    if (scan->bad)
        return scan->bad;
    const int fault = two_keys(work, source, &from, PVK, &pair, &key, &pvk);
    if (fault)
        return fault;
    const int length = clear_pin(&key, text, format, account, pin);
    if (length < 0)
        return -length;
    for (int i = 0; i < 11; i++)
        n[i] = (Byte)(account[i + 1] - '0');
    n[11] = (Byte)(*index - '0');
    memcpy(n + 12, pin, 4);
    Schedules schedules;
    block_of(n, block);
    schedules_of(&pvk, &schedules);
    cipher(&pvk, &schedules, DES_ENCRYPT, block, made);
    select_digits(made, 4, digits);
    if (memcmp(digits, given, 4))
        return 1;
    work->out = put_two(work->out, 0);
    return 0;
}

static int verify_offset(Work *work, int source)
{
    Scan *scan = &work->scan;
    KeyText from, other;
    Key key, pvk;
    Byte pin[12], n[16], block[8], made[8];
    key_field(scan, 1, &from);
    key_field(scan, 1, &other);
    const int most = length_field(scan);
    const Byte *text = take(scan, 16, is_hexadecimal, 15);
    const int format = format_field(scan), check = length_field(scan);
    const Byte *account = take(scan, 12, is_decimal, 15), *table = take(scan, 16, is_decimal, 15);
    const Byte *validation = take(scan, 12, is_any, 15), *given = scan->bad ? NULL : take(scan, 12, is_any, 15);
    int places = 0, different = 0;
    for (int i = 0; !scan->bad && i < 12; i++) {
        places += validation[i] == 'N';
        if (validation[i] != 'N' && !is_hexadecimal(validation[i]))
            refuse(scan, 15);
        if (i < check ? !is_decimal(given[i]) : given[i] != 'F')
            refuse(scan, 15);
    }
    if (!scan->bad && places != 1)
        refuse(scan, 15);
    trailer(scan);
    if (scan->bad)
        return scan->bad;
    const int fault = two_keys(work, source, &from, PVK, &other, &key, &pvk);
    if (fault)
        return fault;
    int seen[10] = {0};
    for (int i = 0; i < 16; i++)
        different += seen[table[i] - '0']++ == 0;
    for (int i = 0; i < 10; i++)
        if (seen[i] > 4)
            return 25;
    if (different < 8)
        return 25;
    const int length = clear_pin(&key, text, format, account, pin);
    if (length < 0)
        return -length;
    if (length > most || length < check)
        return 24;
    for (int i = 0, at = 0; i < 12; i++) {
        if (validation[i] != 'N')
            n[at++] = (Byte)digit_of(validation[i]);
        else
            for (int k = 7; k < 12; k++)
                n[at++] = (Byte)(account[k] - '0');
    }
    Schedules schedules;
    block_of(n, block);
    schedules_of(&pvk, &schedules);
    cipher(&pvk, &schedules, DES_ENCRYPT, block, made);
    nibbles_of(made, n);
    for (int i = 0; i < check; i++)
        if ((pin[i] + 10 - (table[n[i]] - '0')) % 10 != given[i] - '0')
            return 1;
    work->out = put_two(work->out, 0);
    return 0;
}

static int verify_cvv(Work *work)
{
    Scan *scan = &work->scan;
    KeyText pair;
    Byte data[32], block[8], second[8], digits[3];
    key_field(scan, 2, &pair);
    const Byte *given = take(scan, 3, is_decimal, 15), *pan = scan->at;
    int length = 0;
    while (!scan->bad && pan + length < scan->end && is_decimal(pan[length]) && length < 20)
        length++;
    if (scan->bad || length < 12 || length > 19 || pan + length == scan->end || pan[length] != ';')
        refuse(scan, 15);
    else
        scan->at += length + 1;
    const Byte *expiry = take(scan, 4, is_decimal, 15), *service = take(scan, 3, is_decimal, 15);
    trailer(scan);
    if (scan->bad)
        return scan->bad;
    work->late = 1;
    const Key *key = key_of(work->table, CVK, &pair);
    if (!key)
        return 10;
    memset(data, '0', 32);
    memcpy(data, pan, (size_t)length);
    memcpy(data + length, expiry, 4);
    memcpy(data + length + 4, service, 3);
    Schedules schedules;
    DES_LONG words[2];
    schedules_of(key, &schedules);
    unhex(data, 8, block);
    unhex(data + 16, 8, second);
    words_of(block, words);
    DES_encrypt1(words, &schedules.first, DES_ENCRYPT);
    bytes_of(words, block);
    for (int i = 0; i < 8; i++)
        block[i] ^= second[i];
    cipher(key, &schedules, DES_ENCRYPT, block, block);
    select_digits(block, 3, digits);
    if (memcmp(digits, given, 3))
        return 1;
    work->out = put_two(work->out, 0);
    return 0;
}

// One block of a MAC: the whole key by algorithm 1, its first part by algorithm 3.
static void mac_block(const Key *key, Schedules *schedules, int algorithm, Byte state[8], const Byte *block)
{
    for (int i = 0; i < 8; i++)
        state[i] ^= block[i];
    if (algorithm == 1) {
        cipher(key, schedules, DES_ENCRYPT, state, state);
    } else {
        DES_LONG words[2];
        words_of(state, words);
        DES_encrypt1(words, &schedules->first, DES_ENCRYPT);
        bytes_of(words, state);
    }
}

static int make_mac(Work *work)
{
    static _Thread_local Byte data[FRAME];
    Scan *scan = &work->scan;
    KeyText given;
    Byte state[8] = {0}, last[16] = {0};
    const int mode = one_of(scan, "0123"), input = one_of(scan, "012"), size = one_of(scan, "01");
    const int algorithm = one_of(scan, "13"), padding = one_of(scan, "0123");
    const Byte *type = take(scan, 3, is_any, 4);
    if (type && memcmp(type, "003", 3) && memcmp(type, "008", 3))
        refuse(scan, 4);
    key_field(scan, 1, &given);
    const Byte *chain = mode >= 2 ? take(scan, 16, is_hexadecimal, 15) : NULL, *count = take(scan, 4, is_hexadecimal, 15);
    int length = 0;
    for (int i = 0; count && i < 4; i++)
        length = 16 * length + digit_of(count[i]);
    const Byte *text = take(scan, length, input == 1 ? is_hexadecimal : is_any, 15);
    if (input == 1 && length % 2)
        refuse(scan, 15);
    trailer(scan);
    if (scan->bad)
        return scan->bad;
    work->late = 1;
    const Key *key = key_of(work->table, memcmp(type, "003", 3) ? ZAK : TAK, &given);
    if (algorithm == 3 && given.parts != 2)
        return 27;
    if (!key)
        return 10;
    if (input == 1)
        unhex(text, length /= 2, data), text = data;
    if (length == 0 || ((mode == 1 || mode == 2 || padding == 0) && length % 8) || (padding == 3 && mode != 0))
        return 80;
    Schedules schedules;
    schedules_of(key, &schedules);
    if (chain)
        unhex(chain, 8, state);
    if (padding == 3) {
        Byte first[8] = {0};
        for (int i = 0; i < 4; i++)
            first[4 + i] = (Byte)((unsigned)length * 8 >> 8 * (3 - i));
        mac_block(key, &schedules, algorithm, state, first);
    }
    const int whole = length / 8;
    for (int i = 0; i < whole; i++)
        mac_block(key, &schedules, algorithm, state, text + 8 * i);
    const int ends = mode == 0 || mode == 3;
    memcpy(last, text + 8 * whole, (size_t)(length % 8));
    if (ends && padding == 2)
        last[length % 8] = 0x80;
    if (ends && (length % 8 || padding == 2))
        mac_block(key, &schedules, algorithm, state, last);
    if (ends && algorithm == 3) {
        DES_LONG words[2];
        words_of(state, words);
        DES_encrypt1(words, &schedules.second, DES_DECRYPT);
        DES_encrypt1(words, &schedules.first, DES_ENCRYPT);
        bytes_of(words, state);
    }
    work->out = put_hex(put_two(work->out, 0), state, ends && size == 0 ? 4 : 8);
    return 0;
}

static int is_code(const Byte *text, const char *code) { return !memcmp(text, code, 2); }

// Appends the frame of the answer to a message of at least six bytes.
static Byte *answer(Table *table, const Byte *message, int length, Byte *out)
{
    const Byte *code = message + HEADER;
    Work work = {table, {code + 2, message + length, 0}, out + 4 + HEADER, 0};
    int ended = 68;
    if (is_code(code, "CA"))
        ended = translate(&work, PVK);
    else if (is_code(code, "CC"))
        ended = translate(&work, ZPK);
    else if (is_code(code, "EA"))
        ended = verify_offset(&work, ZPK);
    else if (is_code(code, "DC"))
        ended = verify_pvv(&work, PVK);
    else if (is_code(code, "EC"))
        ended = verify_pvv(&work, ZPK);
    else if (is_code(code, "CY"))
        ended = verify_cvv(&work);
    else if (is_code(code, "M6"))
        ended = make_mac(&work);
    if (ended)
        work.out = put_two(work.out, ended);
    if (work.late && work.scan.end > work.scan.at) {
        memcpy(work.out, work.scan.at, (size_t)(work.scan.end - work.scan.at));
        work.out += work.scan.end - work.scan.at;
    }
    memcpy(out + 2, message, HEADER);
    out[2 + HEADER] = code[0];
    out[3 + HEADER] = (Byte)(code[1] + 1);
    const int size = (int)(work.out - out) - 2;
    out[0] = (Byte)(size >> 8);
    out[1] = (Byte)size;
    return work.out;
}

static int write_all(int socket, const Byte *bytes, long count)
{
    while (count > 0) {
        const ssize_t done = write(socket, bytes, (size_t)count);
        if (done <= 0)
            return 0;
        bytes += done, count -= done;
    }
    return 1;
}

static void *serve(void *argument)
{
    const int socket = (int)(intptr_t)argument;
    Byte *held = malloc(FRAME + READ), *out = malloc(2 * FRAME);
    Table *table = calloc(1, sizeof *table);
    long count = 0;
    while (held && out && table) {
        const ssize_t got = read(socket, held + count, READ);
        if (got <= 0)
            break;
        count += got;
        Byte *end = out;
        long at = 0;
        int fine = 1;
        while (fine && count - at >= 2) {
            const int length = held[at] << 8 | held[at + 1];
            if (length < HEADER + 2)
                fine = 0;
            else if (count - at < 2 + length)
                break;
            else {
                if (end - out > FRAME)
                    fine = write_all(socket, out, end - out), end = out;
                end = answer(table, held + at + 2, length, end);
                at += 2 + length;
            }
        }
        memmove(held, held + at, (size_t)(count - at));
        count -= at;
        if (!write_all(socket, out, end - out) || !fine)
            break;
    }
    close(socket);
    free(held), free(out), free(table);
    return NULL;
}

int main(int count, char **arguments)
{
    struct sockaddr_in address = {.sin_family = AF_INET, .sin_addr.s_addr = htonl(INADDR_LOOPBACK)};
    const int listener = socket(AF_INET, SOCK_STREAM, 0), on = 1;
    keeps_schedules = count == 3 && !strcmp(arguments[2], "keep");
    if (count != 2 && !keeps_schedules)
        return 2;
    address.sin_port = htons((uint16_t)atoi(arguments[1]));
    setsockopt(listener, SOL_SOCKET, SO_REUSEADDR, &on, sizeof on);
    if (bind(listener, (struct sockaddr *)&address, sizeof address) || listen(listener, 128))
        return 3;
    for (;;) {
        const int socket = accept(listener, NULL, NULL);
        pthread_t thread;
        if (socket < 0)
            return 4;
        setsockopt(socket, IPPROTO_TCP, TCP_NODELAY, &on, sizeof on);
        if (pthread_create(&thread, NULL, serve, (void *)(intptr_t)socket))
            return 4;
        pthread_detach(thread);
    }
}
