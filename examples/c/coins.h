/* Hashes by the library as values, the coins that a spend makes, numbers in bytes. */
#ifndef COINS_H
#define COINS_H
#include "submission_book_answers.h"

/* SHA-256 */
submission_book_hash hash_of(const uint8_t *bytes, size_t length);
submission_book_hash coin_id_of(const submission_book_coin *coin);
bool same_hash(const submission_book_hash *a, const submission_book_hash *b);
/* The coin that an output of the spend makes: its parent is the coin that is spent. */
submission_book_coin output_coin(const submission_book_spend *spend, size_t output);
/* The number of eight bytes. */
uint64_t number_at(const uint8_t *bytes);

#endif
