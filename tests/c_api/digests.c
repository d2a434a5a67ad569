/* The functions without a book: SHA-256 and coin ids, against a plain SHA-256 in C and the recorded coins, in lent bytes of every length. */
#include <stdio.h>
#include <string.h>
#include "expect.h"
#include "sample.h"
#include "sha256.h"

enum { MESSAGE = 400, FILL = 0xa5, DIGEST = SUBMISSION_BOOK_DIGEST_BYTES };

/* What it writes at the end of `room` bytes, the last of which ends a page. */
typedef uint8_t (*Hash)(const uint8_t *bytes, size_t length, uint8_t *digest, size_t room);

static uint8_t *end;
static uint8_t message[MESSAGE];

static bool filled(const uint8_t *from, size_t length) {
    while (length > 0 && from[length - 1] == FILL) {
        length--;
    }
    return length == 0;
}

/* In `room` bytes: a refusal leaves each, else the digest stands in front and the bytes behind it stay. */
static void hash_in(const char *name, Hash hash, size_t length, size_t room, uint8_t number) {
    uint8_t wanted[DIGEST], *digest = end - room;
    memset(end - ROOM_BYTES, FILL, ROOM_BYTES);
    sha256(message, length, wanted);
    expect_for(name, "answer", hash(message, length, digest, room), number);
    size_t written = number == 0 ? DIGEST : 0;
    expect_for(name, "digest", memcmp(digest, wanted, written) == 0, true);
    expect_for(name, "bytes in front", filled(end - ROOM_BYTES, ROOM_BYTES - room), true);
    expect_for(name, "bytes behind", filled(digest + written, room - written), true);
}

static void test_digest(void) {
    static const uint8_t abc[DIGEST] = {0xba, 0x78, 0x16, 0xbf, 0x8f, 0x01, 0xcf, 0xea, 0x41, 0x41, 0x40, 0xde, 0x5d, 0xae, 0x22, 0x23,
                                        0xb0, 0x03, 0x61, 0xa3, 0x96, 0x17, 0x7a, 0x9c, 0xb4, 0x10, 0xff, 0x61, 0xf2, 0x00, 0x15, 0xad};
    static const uint8_t nothing[DIGEST] = {0xe3, 0xb0, 0xc4, 0x42, 0x98, 0xfc, 0x1c, 0x14, 0x9a, 0xfb, 0xf4, 0xc8, 0x99, 0x6f, 0xb9, 0x24,
                                            0x27, 0xae, 0x41, 0xe4, 0x64, 0x9b, 0x93, 0x4c, 0xa4, 0x95, 0x99, 0x1b, 0x78, 0x52, 0xb8, 0x55};
    uint8_t digest[DIGEST];
    expect("SHA-256 of abc", submission_book_sha256((const uint8_t *)"abc", 3, digest, DIGEST), 0);
    expect("FIPS 180-4's digest of abc", memcmp(digest, abc, DIGEST) == 0, true);
    expect("SHA-256 of nothing", submission_book_sha256(NULL, 0, digest, DIGEST), 0);
    expect("digest of nothing", memcmp(digest, nothing, DIGEST) == 0, true);
    expect("no digest bytes", submission_book_sha256(message, MESSAGE, NULL, 0), 12);
    for (size_t length = 0; length <= MESSAGE; length++) {
        hash_in("sha256", submission_book_sha256, length, DIGEST, 0);
    }
    for (size_t room = 0; room < 3 * DIGEST; room++) {
        hash_in("sha256 in other buffers", submission_book_sha256, 100, room, room < DIGEST ? 12 : 0);
    }
}

static void test_coin_id(void) {
    for (size_t length = 0; length <= 2 * SUBMISSION_BOOK_COIN_BYTES; length++) {
        uint8_t number = length <= SUBMISSION_BOOK_COIN_BYTES ? 0 : 3;
        hash_in("coin_id", submission_book_coin_id, length, DIGEST, number);
        hash_in("coin_id in a short buffer", submission_book_coin_id, length, DIGEST - 1, number == 0 ? 12 : 3);
    }
    for (size_t room = 0; room < 3 * DIGEST; room++) {
        hash_in("coin_id in other buffers", submission_book_coin_id, SUBMISSION_BOOK_COIN_BYTES, room, room < DIGEST ? 12 : 0);
    }
    uint8_t id[DIGEST];
    expect("coin of no bytes", submission_book_coin_id(NULL, 0, id, DIGEST), 0);
    expect("no id bytes", submission_book_coin_id(message, 64, NULL, 0), 12);
    expect("no coin and no id bytes", submission_book_coin_id(message, 74, NULL, 0), 3);
}

/* The bytes of a word in hexadecimal; their number. */
static size_t from_hex(const char *word, uint8_t *bytes) {
    size_t count = strlen(word) / 2;
    for (size_t i = 0; i < count; i++) {
        unsigned byte = 0;
        expect("hexadecimal", sscanf(word + 2 * i, "%2x", &byte) == 1, true);
        bytes[i] = (uint8_t)byte;
    }
    return count;
}

/* The recorded coins, a line each: the amount's bytes, the coin string, its id. The first has no amount bytes. */
static void test_recorded_coins(void) {
    FILE *file = fopen("crates/tool_coin_vectors/stdout", "r");
    char line[400], coin[200], id[100];
    size_t coins = 0;
    expect("recorded coins", file != NULL, true);
    while (file != NULL && fgets(line, sizeof line, file) != NULL) {
        uint8_t bytes[100], wanted[50], got[DIGEST];
        expect("line", sscanf(strchr(line, ' '), "%199s %99s", coin, id) == 2, true);
        size_t length = from_hex(coin, bytes);
        expect("length of an id", from_hex(id, wanted), DIGEST);
        expect("recorded coin", submission_book_coin_id(bytes, length, got, DIGEST), 0);
        expect("its id", memcmp(got, wanted, DIGEST) == 0, true);
        coins++;
    }
    expect("coins", coins, 35);
    if (file != NULL) {
        fclose(file);
    }
}

void test_digests(void) {
    end = guarded_end();
    for (size_t i = 0; i < MESSAGE; i++) {
        message[i] = (uint8_t)(i * 7 + 1);
    }
    test_digest();
    test_coin_id();
    test_recorded_coins();
}
