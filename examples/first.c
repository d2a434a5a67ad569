/* The smallest use of the library: a book, one payment, and the token of its first attempt. */
#include "submission_book_answers.h"
#include <stdio.h>

static uint8_t book[SUBMISSION_BOOK_BYTES], answer[SUBMISSION_BOOK_DRAIN_BYTES], payment[SUBMISSION_BOOK_DELIVERY_BYTES];
static submission_book_drain_result drained;

int main(void) {
    /* a real payment has spends; this one has none, no expiry and no fee */
    submission_book_delivery delivery = {.fee_intent = {.kind = SUBMISSION_BOOK_FEE_NONE_CONFIGURED}};
    size_t length = 0;
    uint8_t refused = submission_book_open(book, sizeof book, 5, 1); /* first token, first id */
    if (!refused) refused = submission_book_build_delivery(&delivery, payment, sizeof payment, &length);
    if (!refused) refused = submission_book_queue(book, sizeof book, payment, length);
    if (!refused) refused = submission_book_drain(book, sizeof book, answer, sizeof answer);
    if (!refused) refused = submission_book_answer_drain(answer, sizeof answer, &drained);
    if (refused) {
        printf("refused %d: %s\n", refused, submission_book_refusal_text(refused));
        return 1;
    }
    printf("submissions to deliver: %zu, the first has the id %llu and the token %llu\n", drained.submission_count,
           (unsigned long long)drained.submissions[0].id, (unsigned long long)drained.submissions[0].token);
    return 0;
}
