#include "coins.h"
#include <stdio.h>
#include <stdlib.h>
#include <string.h>

/* No refusal: the buffer has room, and a coin at most 73 bytes. */
static void taken(uint8_t said) {
    if (said != SUBMISSION_BOOK_DONE) {
        fprintf(stderr, "no hash: %s\n", submission_book_refusal_text(said));
        exit(1);
    }
}

submission_book_hash hash_of(const uint8_t *bytes, size_t length) {
    submission_book_hash hash;
    taken(submission_book_sha256(bytes, length, hash.bytes, sizeof hash.bytes));
    return hash;
}

submission_book_hash coin_id_of(const submission_book_coin *coin) {
    submission_book_hash id;
    taken(submission_book_coin_id(coin->bytes, coin->length, id.bytes, sizeof id.bytes));
    return id;
}

bool same_hash(const submission_book_hash *a, const submission_book_hash *b) {
    return memcmp(a->bytes, b->bytes, sizeof a->bytes) == 0;
}

submission_book_coin output_coin(const submission_book_spend *spend, size_t output) {
    return submission_book_coin_from_parts(coin_id_of(&spend->coin), spend->outputs[output].puzzle_hash, spend->outputs[output].amount);
}

uint64_t number_at(const uint8_t *bytes) {
    uint64_t number = 0;
    for (size_t i = 0; i < 8; i++) {
        number = number << 8 | bytes[i];
    }
    return number;
}
