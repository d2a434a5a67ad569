/* Every size and limit of the header is reached: what it names is taken, a byte less or one more is refused. */
#include "expect.h"
#include "sample.h"
#include <string.h>

enum {
    LEN = SUBMISSION_BOOK_BYTES,
    ROOM = SUBMISSION_BOOK_ARCHIVE_BYTES,
    COINS = SUBMISSION_BOOK_LISTED_COINS_LIMIT,
    IDS = SUBMISSION_BOOK_LISTED_IDS_LIMIT,
    RETAINED = SUBMISSION_BOOK_RETAINED_LIMIT
};

static uint8_t book[LEN], answer[ROOM];
static const uint8_t no_coins[] = {0, 0};

static submission_book_delivery largest(uint8_t seed) {
    submission_book_delivery d = sample_delivery_with_fee(seed, SUBMISSION_BOOK_SPENDS_LIMIT, SUBMISSION_BOOK_OUTPUTS_LIMIT);
    d.expiry = (submission_book_optional){true, 9000};
    return d;
}

static void test_argument_sizes(void) {
    uint8_t bytes[SUBMISSION_BOOK_DELIVERY_BYTES];
    submission_book_delivery d = largest(1);
    d.id = (submission_book_optional){true, 1};
    size_t with_fee = delivery_bytes(bytes, &d);
    expect("a delivery", with_fee, SUBMISSION_BOOK_DELIVERY_BYTES);
    expect("a bundle", bundle_bytes(bytes, &d.bundle), SUBMISSION_BOOK_BUNDLE_BYTES);
    d.fee_intent.kind = SUBMISSION_BOOK_FEE_ALREADY_PAID;
    expect("a fee intent", 1 + with_fee - delivery_bytes(bytes, &d), SUBMISSION_BOOK_FEE_INTENT_BYTES);
    expect("a coin", d.bundle.spends[0].coin.length, SUBMISSION_BOOK_COIN_BYTES);
}

/* As many of the largest payments as a book holds, with the ids from 1 on and the tokens from 5 on; one more is refused. */
static void test_payments(void) {
    static uint8_t kept[LEN];
    submission_book_delivery d = largest(100);
    expect("open", submission_book_open(book, LEN, 5, 1), 0);
    for (uint8_t i = 0; i < SUBMISSION_BOOK_QUEUE_LIMIT; i++) {
        submission_book_delivery next = largest(i);
        expect("queue", queue_delivery(book, LEN, &next), 0);
    }
    expect("one more in the queue", queue_delivery(book, LEN, &d), 10);
    expect("drain", submission_book_drain(book, LEN, answer, SUBMISSION_BOOK_DRAIN_BYTES), 0);
    expect("submissions", answer[0], RETAINED);
    memcpy(kept, book, LEN);
    expect("another", queue_delivery(book, LEN, &d), 0);
    expect("one more submission", submission_book_drain(book, LEN, answer, SUBMISSION_BOOK_DRAIN_BYTES), 10);
    memcpy(book, kept, LEN);
}

static void test_attempt_answers(void) {
    uint8_t joined[SUBMISSION_BOOK_BUNDLE_BYTES];
    submission_book_delivery d = largest(101);
    size_t length = bundle_bytes(joined, &d.bundle), n = SUBMISSION_BOOK_FEE_INTENT_ANSWER_BYTES;
    expect("fee intent, short", submission_book_fee_intent_for_attempt(book, LEN, 5, answer, n - 1), 12);
    expect("fee intent", submission_book_fee_intent_for_attempt(book, LEN, 5, answer, n), 0);
    n = SUBMISSION_BOOK_FINALIZED_BYTES;
    expect("finalise, short", submission_book_finalize_attempt(book, LEN, 5, 1, joined, length, answer, n - 1), 12);
    expect("finalise", submission_book_finalize_attempt(book, LEN, 5, 1, joined, length, answer, n), 0);
    n = SUBMISSION_BOOK_ATTEMPT_BYTES;
    expect("attempt, short", submission_book_attempt(book, LEN, 5, answer, n - 1), 12);
    expect("attempt", submission_book_attempt(book, LEN, 5, answer, n), 0);
    n = SUBMISSION_BOOK_STATUS_BYTES;
    expect("status, short", submission_book_stop_attempt(book, LEN, 6, answer, n - 1), 12);
    expect("status", submission_book_stop_attempt(book, LEN, 6, answer, n), 0);
}

/* The outputs of all submissions, as a coin list. */
static size_t all_outputs(uint8_t *to) {
    static submission_book_coin coins[RETAINED * SUBMISSION_BOOK_SPENDS_LIMIT * SUBMISSION_BOOK_OUTPUTS_LIMIT];
    size_t count = 0;
    for (uint8_t i = 0; i < RETAINED; i++) {
        submission_book_delivery d = largest(i);
        for (size_t k = 0; k < SUBMISSION_BOOK_SPENDS_LIMIT * SUBMISSION_BOOK_OUTPUTS_LIMIT; k++) {
            coins[count++] = output_coin(&d.bundle.spends[k / SUBMISSION_BOOK_OUTPUTS_LIMIT], k % SUBMISSION_BOOK_OUTPUTS_LIMIT);
        }
    }
    return coin_list_bytes(to, SUBMISSION_BOOK_ABSENT_OUTPUTS_BYTES, coins, count);
}

static void test_coin_answers(void) {
    static uint8_t absent[SUBMISSION_BOOK_ABSENT_OUTPUTS_BYTES];
    uint64_t ids[RETAINED], count = 0;
    size_t length = all_outputs(absent), n = SUBMISSION_BOOK_INPUT_COINS_BYTES;
    for (uint64_t i = 0; i < RETAINED; i++) {
        ids[i] = i + 1;
    }
    expect("input coins, short", submission_book_reconciliation_input_coins(book, LEN, no_coins, 2, answer, n - 1, &count), 12);
    expect("input coins", submission_book_reconciliation_input_coins(book, LEN, no_coins, 2, answer, n, &count), 0);
    expect("all of them", count, n);
    n = SUBMISSION_BOOK_ABSENT_OUTPUTS_BYTES;
    expect("absent outputs, short", submission_book_absent_outputs_for_ids(book, LEN, ids, RETAINED, absent, length, answer, n - 1, &count), 12);
    expect("absent outputs", submission_book_absent_outputs_for_ids(book, LEN, ids, RETAINED, absent, length, answer, n, &count), 0);
    expect("all of these", count == n && count == length && memcmp(answer, absent, length) == 0, true);
}

static void test_lists(void) {
    static submission_book_coin coins[COINS];
    static uint8_t list[SUBMISSION_BOOK_COIN_LIST_BYTES + 1 + SUBMISSION_BOOK_COIN_BYTES];
    static const uint8_t spent[(COINS + 1) * SUBMISSION_BOOK_COIN_ID_BYTES];
    static const uint64_t ids[IDS + 1];
    for (size_t i = 0; i < COINS; i++) {
        coins[i].length = SUBMISSION_BOOK_COIN_BYTES;
    }
    expect("a coin list", coin_list_bytes(list, sizeof list, coins, COINS), SUBMISSION_BOOK_COIN_LIST_BYTES);
    expect("coins, coin ids and ids",
           submission_book_reconcile_chain_terminality(book, LEN, list, SUBMISSION_BOOK_COIN_LIST_BYTES, spent, sizeof spent - SUBMISSION_BOOK_COIN_ID_BYTES,
                                                       0, ids, IDS),
           0);
    expect("one coin id", submission_book_reconcile_chain_terminality(book, LEN, no_coins, 2, spent, SUBMISSION_BOOK_COIN_ID_BYTES, 0, NULL, 0), 0);
    expect("one more coin id", submission_book_reconcile_chain_terminality(book, LEN, no_coins, 2, spent, sizeof spent, 0, ids, IDS), 2);
    expect("one more id", submission_book_reconcile_chain_terminality(book, LEN, no_coins, 2, NULL, 0, 0, ids, IDS + 1), 2);
    list[1]++;
    list[SUBMISSION_BOOK_COIN_LIST_BYTES] = SUBMISSION_BOOK_COIN_BYTES;
    expect("one more coin", submission_book_reconcile_chain_terminality(book, LEN, list, sizeof list, NULL, 0, 0, ids, IDS), 2);
}

static void test_replay(void) {
    uint64_t ids[RETAINED], length = 0;
    size_t n = SUBMISSION_BOOK_FLAG_BYTES;
    for (uint64_t i = 0; i < RETAINED; i++) {
        ids[i] = i + 1;
    }
    expect("flag, short", submission_book_begin_replay(book, LEN, 100, answer, n - 1), 12);
    expect("flag", submission_book_begin_replay(book, LEN, 100, answer, n), 0);
    n = SUBMISSION_BOOK_HEIGHT_BYTES;
    expect("height, short", submission_book_replay_rollback_height(book, LEN, answer, n - 1), 12);
    expect("height", submission_book_replay_rollback_height(book, LEN, answer, n), 0);
    expect("replay", submission_book_collect_rollback_replay_ids(book, LEN, ids, RETAINED), 0);
    expect("write", submission_book_write(book, LEN, answer, ROOM, &length), 0);
    /* the last section: a count, then the ids */
    expect("replayed ids", answer[length - 1 - 8 * SUBMISSION_BOOK_REPLAYED_LIMIT], SUBMISSION_BOOK_REPLAYED_LIMIT);
}

static void test_retirements(void) {
    size_t n = SUBMISSION_BOOK_IDS_BYTES;
    for (uint64_t i = 0; i < SUBMISSION_BOOK_RETIREMENTS_LIMIT; i++) {
        expect("retire", submission_book_emit_retirement(book, LEN, 1000 + i), 0);
    }
    expect("one more retirement", submission_book_emit_retirement(book, LEN, 1), 10);
    expect("ids, short", submission_book_drain_retirements(book, LEN, answer, n - 1), 12);
    expect("ids", submission_book_drain_retirements(book, LEN, answer, n), 0);
    expect("all ids", answer[0], SUBMISSION_BOOK_RETIREMENTS_LIMIT);
}

/* Of the longest book, whose submissions have every part. */
static void test_look_answers(void) {
    static uint8_t archive[ROOM];
    uint64_t place = 0;
    size_t n = SUBMISSION_BOOK_LOOK_BYTES;
    expect("read", submission_book_read(book, LEN, archive, longest_archive(archive), &place), 0);
    expect("look, short", submission_book_look(book, LEN, 7, answer, n - 1), 12);
    expect("look", submission_book_look(book, LEN, 7, answer, n), 0);
    n = SUBMISSION_BOOK_SUMMARY_BYTES;
    expect("summary, short", submission_book_summary(book, LEN, answer, n - 1), 12);
    expect("summary", submission_book_summary(book, LEN, answer, n), 0);
}

void test_sizes(void) {
    test_argument_sizes();
    test_payments();
    test_attempt_answers();
    test_coin_answers();
    test_lists();
    test_replay();
    test_retirements();
    test_look_answers();
}
