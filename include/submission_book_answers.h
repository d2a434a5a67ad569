/* Readers of what the functions of submission_book.h answer and builders of what they take, for C11 and C++. They
 * stand in the same library.
 *
 * This part is plain C. It is tested (tests/c_api), not proved.
 *
 * Readers and builders return 0 or the number of a refusal, as the book's functions do, and a refusal leaves every
 * byte that was lent. Nothing is allocated, there is no hidden state, and calls may run at once. Pointers must not be
 * NULL, but where the length behind one is 0. No run that is written may overlap another argument. A drain or a coin
 * list is read on the stack first, which takes up to 25,000 bytes.
 *
 * READERS. `answer` and `answer_len` are the bytes that were lent to the call; nothing behind them is read, and what
 * stands in them behind the answer is not looked at. Parts that an answer does not have are zero.
 * Refusals: 3 the answer is cut short, or a count, mark or kind in it is out of range.
 *
 * BUILDERS. The form is written to the front of `bytes` and its length to *length; nothing behind `bytes_len` is
 * written. The sizes of submission_book.h are enough.
 * Refusals: 3, in lists 2, a count, length or kind is out of range; 12 the form is longer than `bytes_len`. */
#ifndef SUBMISSION_BOOK_ANSWERS_H
#define SUBMISSION_BOOK_ANSWERS_H
#include "submission_book.h"
#include <stdbool.h>

/* the most coins that a call answers: 16 submissions of 4 spends of 4 outputs */
#define SUBMISSION_BOOK_ANSWERED_COINS_LIMIT 256

#ifdef __cplusplus
extern "C" {
#endif

/* SUBMISSION_BOOK_VERSION of the linked library: where it is not that of the header, the program was compiled for
 * another library. */
uint32_t submission_book_version(void);

/* What a number means that a function returned, in a few words; never NULL. */
const char *submission_book_refusal_text(uint8_t number);

/* ==== parts of arguments and answers ==== */

typedef struct {
    uint8_t bytes[32];
} submission_book_hash;

typedef struct {
    bool present;
    uint64_t value;
} submission_book_optional;

typedef struct {
    size_t length; /* at most SUBMISSION_BOOK_COIN_BYTES */
    uint8_t bytes[SUBMISSION_BOOK_COIN_BYTES];
} submission_book_coin;

typedef struct {
    submission_book_hash puzzle_hash;
    uint64_t amount;
} submission_book_output;

typedef struct {
    submission_book_coin coin; /* that is spent */
    submission_book_hash digest;
    bool readable;
    size_t output_count; /* at most SUBMISSION_BOOK_OUTPUTS_LIMIT; not looked at where the run is unreadable */
    submission_book_output outputs[SUBMISSION_BOOK_OUTPUTS_LIMIT];
} submission_book_spend;

typedef struct {
    size_t spend_count; /* at most SUBMISSION_BOOK_SPENDS_LIMIT */
    submission_book_spend spends[SUBMISSION_BOOK_SPENDS_LIMIT];
} submission_book_bundle;

typedef struct {
    uint8_t kind; /* enum submission_book_fee_intent; target and amount are for SUBMISSION_BOOK_FEE_ATTACH */
    submission_book_hash target;
    uint64_t amount;
} submission_book_fee;

typedef struct {
    submission_book_optional id; /* none for a new payment */
    submission_book_bundle bundle;
    submission_book_optional expiry;
    submission_book_fee fee_intent;
    uint8_t trigger; /* enum submission_book_trigger */
    uint8_t goal;    /* enum submission_book_goal */
} submission_book_delivery;

/* The coin with this parent, puzzle hash and amount. */
submission_book_coin submission_book_coin_from_parts(submission_book_hash parent, submission_book_hash puzzle_hash,
    uint64_t amount);

/* ==== builders ==== */

SUBMISSION_BOOK_NODISCARD
uint8_t submission_book_build_delivery(const submission_book_delivery *delivery,
    uint8_t *bytes, size_t bytes_len, size_t *length);

SUBMISSION_BOOK_NODISCARD
uint8_t submission_book_build_bundle(const submission_book_bundle *bundle,
    uint8_t *bytes, size_t bytes_len, size_t *length);

/* The spends of `base` and then those of `fee`, as one bundle: what submission_book_finalize_attempt takes where the
 * wallet's fee is joined. At most SUBMISSION_BOOK_SPENDS_LIMIT in all, else 3. */
SUBMISSION_BOOK_NODISCARD
uint8_t submission_book_build_joined_bundle(const submission_book_bundle *base, const submission_book_bundle *fee,
    uint8_t *bytes, size_t bytes_len, size_t *length);

/* `coins_len` and `coin_ids_len` count elements; at most SUBMISSION_BOOK_LISTED_COINS_LIMIT, else 2. */
SUBMISSION_BOOK_NODISCARD
uint8_t submission_book_build_coin_list(const submission_book_coin *coins, size_t coins_len,
    uint8_t *bytes, size_t bytes_len, size_t *length);

SUBMISSION_BOOK_NODISCARD
uint8_t submission_book_build_coin_ids(const submission_book_hash *coin_ids, size_t coin_ids_len,
    uint8_t *bytes, size_t bytes_len, size_t *length);

/* ==== readers ==== */

typedef struct {
    uint64_t next_token, next_id;
    size_t retained, queued, retired, replayed; /* how many */
    submission_book_optional rollback_height;
} submission_book_summary_result;

/* summary */
SUBMISSION_BOOK_NODISCARD
uint8_t submission_book_answer_summary(const uint8_t *answer, size_t answer_len,
    submission_book_summary_result *summary);

typedef struct {
    uint64_t id, token;
    submission_book_optional predecessor;
    uint8_t relationship; /* enum submission_book_relationship */
    submission_book_bundle bundle;
    submission_book_optional expiry;
    submission_book_fee fee_intent;
} submission_book_drained;

typedef struct {
    uint64_t candidate_index;
    submission_book_optional retained_id, candidate_id;
    submission_book_hash intent_fingerprint;
    uint8_t stage; /* enum submission_book_stage */
} submission_book_failure;

typedef struct {
    size_t submission_count, failure_count;
    submission_book_drained submissions[SUBMISSION_BOOK_QUEUE_LIMIT];
    submission_book_failure failures[SUBMISSION_BOOK_QUEUE_LIMIT];
} submission_book_drain_result;

/* drain */
SUBMISSION_BOOK_NODISCARD
uint8_t submission_book_answer_drain(const uint8_t *answer, size_t answer_len, submission_book_drain_result *result);

typedef struct {
    bool present;
    submission_book_fee fee_intent;
} submission_book_optional_fee;

/* fee_intent_for_attempt */
SUBMISSION_BOOK_NODISCARD
uint8_t submission_book_answer_fee_intent(const uint8_t *answer, size_t answer_len, submission_book_optional_fee *fee);

typedef struct {
    bool present;
    submission_book_bundle bundle;
    uint64_t applied_fee;
    bool warning;
    uint8_t disposition; /* enum submission_book_disposition */
    submission_book_hash variant_fingerprint;
    bool should_broadcast;
} submission_book_finalized;

/* finalize_attempt */
SUBMISSION_BOOK_NODISCARD
uint8_t submission_book_answer_finalized(const uint8_t *answer, size_t answer_len,
    submission_book_finalized *finalized);

/* acknowledge_attempt, stop_attempt, abandon_attempt, relinquish_completed_attempt: enum submission_book_status */
SUBMISSION_BOOK_NODISCARD
uint8_t submission_book_answer_status(const uint8_t *answer, size_t answer_len, uint8_t *status);

typedef struct {
    bool present;
    uint64_t token;
    uint8_t goal; /* enum submission_book_goal */
    submission_book_hash drained_fingerprint;
    bool finalized;
    submission_book_hash finalized_fingerprint;
} submission_book_live_attempt;

/* attempt */
SUBMISSION_BOOK_NODISCARD
uint8_t submission_book_answer_attempt(const uint8_t *answer, size_t answer_len,
    submission_book_live_attempt *attempt);

typedef struct {
    size_t count;
    uint64_t ids[SUBMISSION_BOOK_RETIREMENTS_LIMIT];
} submission_book_ids;

/* retain_submitted, active_ids, drain_retirements, causally_rolled_back_ids */
SUBMISSION_BOOK_NODISCARD
uint8_t submission_book_answer_ids(const uint8_t *answer, size_t answer_len, submission_book_ids *ids);

typedef struct {
    bool present;
    uint8_t chain; /* enum submission_book_chain */
    bool acknowledged;
    uint8_t fee_resolution; /* enum submission_book_resolution */
    uint64_t applied_fee;
    submission_book_optional expiry, live_token, set_aside_token;
} submission_book_look_result;

/* look */
SUBMISSION_BOOK_NODISCARD
uint8_t submission_book_answer_look(const uint8_t *answer, size_t answer_len, submission_book_look_result *look);

typedef struct {
    size_t count;
    submission_book_coin coins[SUBMISSION_BOOK_ANSWERED_COINS_LIMIT];
} submission_book_coins;

/* reconciliation_input_coins, absent_outputs_for_ids */
SUBMISSION_BOOK_NODISCARD
uint8_t submission_book_answer_coins(const uint8_t *answer, size_t answer_len, submission_book_coins *coins);

/* begin_replay */
SUBMISSION_BOOK_NODISCARD
uint8_t submission_book_answer_flag(const uint8_t *answer, size_t answer_len, bool *flag);

/* replay_rollback_height */
SUBMISSION_BOOK_NODISCARD
uint8_t submission_book_answer_height(const uint8_t *answer, size_t answer_len, submission_book_optional *height);

#ifdef __cplusplus
}
#endif
#endif
