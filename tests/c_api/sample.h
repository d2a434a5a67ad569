/* Sample books and arguments for the tests of the C boundary, and each function with arguments that suit the sample book. */
#ifndef SAMPLE_H
#define SAMPLE_H
#include "coins.h"

/* What a call is lent: book, answer, and the number that it may set (place, length or count). */
typedef struct {
    uint8_t *book;
    size_t book_len;
    uint8_t *answer;
    size_t answer_len;
    uint64_t number;
} Lent;

typedef struct {
    const char *name;
    uint8_t (*call)(Lent *lent);
    bool makes_a_book;   /* does not look at what `book` held */
    bool only_looks;     /* its book is const */
    size_t answer_bytes; /* of its answer on the sample book; ANY where that is not told here */
} SampleCall;

/* all functions but the two without a book */
enum { CALL_COUNT = 31, ANY = 1 << 20 };
extern const SampleCall sample_calls[CALL_COUNT];

/* A payment of so many spends and outputs; different seeds give different coins. */
submission_book_delivery sample_delivery(uint8_t seed, size_t spends, size_t outputs);
submission_book_delivery sample_delivery_with_fee(uint8_t seed, size_t spends, size_t outputs);
/* The forms of submission_book_answers.h, at most as long as submission_book.h says; each answers its length. A refusal ends the program. */
size_t delivery_bytes(uint8_t *to, const submission_book_delivery *delivery);
size_t bundle_bytes(uint8_t *to, const submission_book_bundle *bundle);
size_t coin_list_bytes(uint8_t *to, size_t room, const submission_book_coin *coins, size_t count);
/* Queues it, and answers the refusal's number. */
uint8_t queue_delivery(uint8_t *book, size_t book_len, const submission_book_delivery *delivery);

/* Tokens 5, 6 and 7 of submissions 1, 2 and 3: 5 live, its fee open; 6 live and finalised; 7 set aside. Submission 4 has landed. Two deliveries
 * in the queue, a retired id, a replay at height 1000. SUBMISSION_BOOK_BYTES at `book`; false where a call went wrong. */
bool sample_book(uint8_t *book);
/* The longest archive there is: SUBMISSION_BOOK_ARCHIVE_BYTES at `archive`. Answers its length. */
size_t longest_archive(uint8_t *archive);

#endif
