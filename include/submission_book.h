/* The submission book, for C11 and C++ on x86-64 Linux: link libsubmission_book.a, which is compiled by rattle-kit-13f.
 * Readers of answers and builders of arguments are in submission_book_answers.h.
 *
 * A submission book queues payments for a wallet. Each payment is a bundle of coin spends. Draining the queue
 * retains each new payment as a submission with an id, and issues a token for one attempt to deliver it. The
 * attempt is finalised (the wallet's fee is joined to it, or not) and acknowledged (the wallet has taken it), or
 * stopped, or abandoned. Reports from the chain say which payments have landed, and after a reorganisation which
 * ones must be delivered again. At any time one attempt of a submission is live at most: it alone can be finalised,
 * acknowledged, stopped or abandoned. A live attempt that is acknowledged or stopped, or whose submission the chain
 * has settled, is set aside; it becomes the predecessor of the submission's next attempt.
 *
 * MEMORY. The caller owns all memory. A function keeps no pointer, allocates nothing and needs nothing but memcpy,
 * memmove and memset. The book is bytes of the caller's: `book` points to them and `book_len` is how many are lent. In
 * front stand 8 bytes with the length of the archive, big-endian, and then the archive itself (docs/ARCHIVE.md).
 * The bytes behind it are the caller's and stay as they are. SUBMISSION_BOOK_BYTES are enough for every book. The
 * bytes may be copied, moved or saved between calls.
 *
 * POINTERS. A pointer and a length (`book`, `book_len`) are a run of so many elements: bytes, or uint64_t for lists
 * of ids, which must be aligned as uint64_t. Where the length is 0 the pointer is not followed and may be NULL.
 * `place`, `length` and `count` must point to a uint64_t and not be NULL. No run that a function may write (not
 * `const`) may overlap another argument of the same call; runs that are only read may overlap each other. Nothing
 * is proved of a call that breaks these rules: an answer that is put over the book destroys it.
 *
 * ANSWERS. Every function returns 0, or the number of the refusal. A value stands at the front of `answer`; its
 * counts and marks say where it ends, and the bytes behind it stay as they are. All numbers in byte runs are
 * big-endian. A mark is one byte, 0 or 1.
 *
 * REFUSALS. A refused call leaves every lent byte, with two exceptions: a 13 sets `place`, and a drain refused 11
 * leaves the book as far as it came. Checks run in this order: 1, then 2, then 3, then what the call's own rules
 * say, then 12. Any call may answer
 *     1   `book` holds no book: fewer than 8 bytes, fewer than its length says, or no archive there
 *         (submission_book_open and submission_book_read do not look, and never answer 1)
 *     12  the answer, or the book as a call that may change it leaves it, is longer than the bytes lent for it (never
 *         with the sizes named below)
 * and these two are not named again with each function.
 *
 * LOOKS. A function whose `book` is `const` only looks: it writes nothing to the book, whatever it returns, so that the
 * book may lie in memory that is mapped read-only or shared. 12 is then about `answer` alone.
 *
 * THREADS. There is no hidden state. Calls on different books may run at once, and so may any number of looks at one
 * book. A call that may change a book (its `book` is not `const`) needs the book for itself: a lock of the caller's, as
 * for any bytes, with the looks as its readers.
 *
 * STACK. A call takes at most SUBMISSION_BOOK_STACK_BYTES (1,000,000) of the calling thread's stack. The usual main
 * thread of 8 MB has room for it; a thread that is made with a smaller stack must have so much and what the caller
 * itself needs, else the program ends with a stack overflow. A call ends for every input, and calls nothing of the
 * caller's. */
#ifndef SUBMISSION_BOOK_H
#define SUBMISSION_BOOK_H
#include <stddef.h>
#include <stdint.h>

/* ---- version: the higher one of two is the greater number */
#define SUBMISSION_BOOK_VERSION_MAJOR 0
#define SUBMISSION_BOOK_VERSION_MINOR 4
#define SUBMISSION_BOOK_VERSION_PATCH 0
#define SUBMISSION_BOOK_VERSION_STRING "0.4.0"
#define SUBMISSION_BOOK_VERSION \
    (SUBMISSION_BOOK_VERSION_MAJOR << 16 | SUBMISSION_BOOK_VERSION_MINOR << 8 | SUBMISSION_BOOK_VERSION_PATCH)

/* In front of a function: the compiler warns where what it returns is not looked at. */
#if defined(__cplusplus) && __cplusplus >= 201703L || defined(__STDC_VERSION__) && __STDC_VERSION__ >= 202311L
#define SUBMISSION_BOOK_NODISCARD [[nodiscard]]
#elif defined(__GNUC__)
#define SUBMISSION_BOOK_NODISCARD __attribute__((warn_unused_result))
#else
#define SUBMISSION_BOOK_NODISCARD
#endif

/* ---- sizes in bytes: enough for every book, argument and answer, and none of them more than can come up but that of
 * a drain */
#define SUBMISSION_BOOK_ARCHIVE_BYTES 57694
#define SUBMISSION_BOOK_BYTES 57702         /* the archive behind its length */
#define SUBMISSION_BOOK_DELIVERY_BYTES 1134 /* argument of queue */
#define SUBMISSION_BOOK_BUNDLE_BYTES 1073
#define SUBMISSION_BOOK_FEE_INTENT_BYTES 41
#define SUBMISSION_BOOK_COIN_BYTES 73
#define SUBMISSION_BOOK_COIN_ID_BYTES 32
#define SUBMISSION_BOOK_DIGEST_BYTES 32
#define SUBMISSION_BOOK_COIN_LIST_BYTES 59202 /* 800 coins of 73 bytes */

/* answers */
#define SUBMISSION_BOOK_DRAIN_BYTES 19330 /* 16 submissions and 16 failures; one drain has 16 of both together */
#define SUBMISSION_BOOK_FINALIZED_BYTES 1117
#define SUBMISSION_BOOK_FEE_INTENT_ANSWER_BYTES 42
#define SUBMISSION_BOOK_ATTEMPT_BYTES 75
#define SUBMISSION_BOOK_STATUS_BYTES 1
#define SUBMISSION_BOOK_FLAG_BYTES 1
#define SUBMISSION_BOOK_HEIGHT_BYTES 9
#define SUBMISSION_BOOK_IDS_BYTES 513 /* 64 ids */
#define SUBMISSION_BOOK_INPUT_COINS_BYTES 4738
#define SUBMISSION_BOOK_ABSENT_OUTPUTS_BYTES 18946
#define SUBMISSION_BOOK_LOOK_BYTES 39
#define SUBMISSION_BOOK_SUMMARY_BYTES 57

/* stack of one call: measured (tests/c_api/stack.c; the largest is about 823,000), not proved */
#define SUBMISSION_BOOK_STACK_BYTES 1000000

/* ---- limits */
#define SUBMISSION_BOOK_RETAINED_LIMIT 16    /* submissions in a book */
#define SUBMISSION_BOOK_QUEUE_LIMIT 16       /* deliveries in the queue */
#define SUBMISSION_BOOK_RETIREMENTS_LIMIT 64 /* retired ids that wait to be collected */
#define SUBMISSION_BOOK_REPLAYED_LIMIT 16    /* replayed ids: each is retained */
#define SUBMISSION_BOOK_LISTED_COINS_LIMIT 800
#define SUBMISSION_BOOK_LISTED_IDS_LIMIT 64
#define SUBMISSION_BOOK_SPENDS_LIMIT 4  /* in a bundle */
#define SUBMISSION_BOOK_OUTPUTS_LIMIT 4 /* of a spend */

/* ---- what a function returns */
enum submission_book_refusal {
    SUBMISSION_BOOK_DONE = 0,
    SUBMISSION_BOOK_NO_BOOK = 1,            /* `book` holds no book */
    SUBMISSION_BOOK_BAD_LIST = 2,           /* a coin list or coin ids out of form, or over 64 submission ids */
    SUBMISSION_BOOK_BAD_VALUE = 3,          /* an argument that stands for no value: a kind, a bundle, a delivery */
    SUBMISSION_BOOK_UNKNOWN_TOKEN = 4,      /* a token that was never issued */
    SUBMISSION_BOOK_ALREADY_FINALIZED = 5,
    SUBMISSION_BOOK_NOT_FINALIZED = 6,
    SUBMISSION_BOOK_INVALID_SUBMISSION = 7, /* the retained submission contradicts itself */
    SUBMISSION_BOOK_STALE_VARIANT = 8,      /* the attempt is of another variant than the submission's current one */
    SUBMISSION_BOOK_UNREQUESTED_FEE = 9,    /* a fee source for a submission whose fee is not open */
    SUBMISSION_BOOK_FULL = 10,              /* a limit would be passed */
    SUBMISSION_BOOK_NO_TOKEN = 11,          /* no token is left; what was done stays */
    SUBMISSION_BOOK_SHORT_BUFFER = 12,
    SUBMISSION_BOOK_NO_ARCHIVE = 13
};

/* ---- kinds, one byte each */
enum submission_book_trigger { /* why a delivery is queued */
    SUBMISSION_BOOK_TRIGGER_PROTOCOL = 0,
    SUBMISSION_BOOK_TRIGGER_FRESH_CHAIN = 1,
    SUBMISSION_BOOK_TRIGGER_ROLLBACK = 2,
    SUBMISSION_BOOK_TRIGGER_PROVIDER_READINESS = 3
};
enum submission_book_goal { /* what a delivery is for */
    SUBMISSION_BOOK_GOAL_ENSURE_BROADCAST = 0,
    SUBMISSION_BOOK_GOAL_FEE_UPGRADE = 1
};
enum submission_book_source { /* what became of the wallet's fee source */
    SUBMISSION_BOOK_SOURCE_NOT_REQUESTED = 0,
    SUBMISSION_BOOK_SOURCE_JOINED = 1,      /* available and joined */
    SUBMISSION_BOOK_SOURCE_JOIN_FAILED = 2, /* available, and the join failed */
    SUBMISSION_BOOK_SOURCE_FAILED = 3
};
enum submission_book_status {
    SUBMISSION_BOOK_STATUS_APPLIED = 0,
    SUBMISSION_BOOK_STATUS_STALE = 1
};
enum submission_book_relationship { /* of a new attempt to its predecessor */
    SUBMISSION_BOOK_RELATIONSHIP_INITIAL = 0,           /* no predecessor */
    SUBMISSION_BOOK_RELATIONSHIP_EXACT = 1,             /* the same bundle */
    SUBMISSION_BOOK_RELATIONSHIP_NEWER_FEE_BEARING = 2, /* a fee upgrade */
    SUBMISSION_BOOK_RELATIONSHIP_OTHER = 3
};
enum submission_book_stage { /* where a candidate of a drain failed */
    SUBMISSION_BOOK_STAGE_FINGERPRINT = 0, /* never comes up */
    SUBMISSION_BOOK_STAGE_RETAINED_STATE = 1,
    SUBMISSION_BOOK_STAGE_EXPECTED_OUTPUTS = 2,
    SUBMISSION_BOOK_STAGE_SUBMISSION_ID = 3
};
enum submission_book_chain { /* what the chain has shown of a submission; stands in the archive and in a look */
    SUBMISSION_BOOK_CHAIN_ACTIVE = 0,
    SUBMISSION_BOOK_CHAIN_INPUT_SPENT = 1,
    SUBMISSION_BOOK_CHAIN_LANDED = 2
};
enum submission_book_resolution { /* what became of the fee of a submission; stands in the archive and in a look */
    SUBMISSION_BOOK_RESOLUTION_UNRESOLVED = 0, /* a fee is asked for and not attached: it is open */
    SUBMISSION_BOOK_RESOLUTION_NOT_REQUESTED = 1,
    SUBMISSION_BOOK_RESOLUTION_ATTACHED = 2 /* it is in the current bundle */
};
enum submission_book_disposition { /* what finalising made of the fee */
    SUBMISSION_BOOK_DISPOSITION_ATTACHED = 0,
    SUBMISSION_BOOK_DISPOSITION_UNUSED = 1,
    SUBMISSION_BOOK_DISPOSITION_NOT_REQUESTED = 2
};
enum submission_book_fee_intent {
    SUBMISSION_BOOK_FEE_ALREADY_PAID = 0,
    SUBMISSION_BOOK_FEE_NONE_CONFIGURED = 1,
    SUBMISSION_BOOK_FEE_ATTACH = 2
};
enum submission_book_run { /* of a spend */
    SUBMISSION_BOOK_RUN_UNREADABLE = 0,
    SUBMISSION_BOOK_RUN_READABLE = 1
};

/* ---- forms of arguments and answers, as in the archive (docs/ARCHIVE.md); lengths in bytes in brackets
 *
 * bundle       count of spends (1, at most 4), then for each spend:
 *                  length of its coin string (1, at most 73), and the coin string
 *                  digest (32), which stands for puzzle, solution and signature
 *                  run (1): 0 unreadable; or 1, then count of outputs (1, at most 4), and for each its puzzle hash
 *                  (32) and amount (8)
 * coin string  parent coin id (32), puzzle hash (32), then the amount as the shortest big-endian two's complement:
 *              nothing for 0, 7f for 127, 00 80 for 128, and so on, so 64 to 73 bytes in all. The book takes any 0 to
 *              73 bytes for a coin string as they are.
 * coin id      SHA-256 (32) of a coin string. The parent of an output's coin is the coin id of the spend's coin.
 * fee intent   0 already paid; 1 no fee configured; or 2 attach, then target (32, the coin id of the input that the
 *              fee goes with) and amount (8)
 * delivery     id (mark, then 8 if 1), bundle, expiry height (mark, then 8 if 1), fee intent, trigger (1), goal (1)
 * attempt      token (8), goal (1), drained fingerprint (32), finalised fingerprint (mark, then 32 if 1)
 * coin list    count (2, at most 800), then for each coin its length (1, at most 73) and its bytes, and nothing
 *              behind them. The empty list is 00 00.
 * coin ids     0 to 800 times 32 bytes, without a count
 * ids          in an argument uint64_t, at most 64, which may repeat; in an answer count (1), then 8 bytes each
 *
 * The variant fingerprint of a bundle is the SHA-256 of its bytes. The intent fingerprint is the SHA-256 of bundle,
 * expiry and fee intent, one behind the other, as a delivery has them. */

#ifdef __cplusplus
extern "C" {
#endif

/* ==== the whole book ==== */

/* Makes an empty book: its first token will be `next_token`, its first submission's id `next_id`. What `book` held
 * before is not looked at. Refusals: 12 fewer than 30 bytes. */
SUBMISSION_BOOK_NODISCARD
uint8_t submission_book_open(uint8_t *book, size_t book_len, uint64_t next_token, uint64_t next_id);

/* Makes the book of an archive, all of whose `archive_len` bytes count. What `book` held before is not looked at.
 * Refusals: 13 the bytes are no archive, and *place is the offset of the first item that is cut short or breaks a
 * rule (docs/ARCHIVE.md); *place stays with any other answer. */
SUBMISSION_BOOK_NODISCARD
uint8_t submission_book_read(uint8_t *book, size_t book_len, const uint8_t *archive, size_t archive_len,
    uint64_t *place);

/* Writes the archive of the book to the front of `archive` and its length to *length. They are the bytes of `book`
 * from the ninth on. Reading them gives this book again. A refusal leaves *length. */
SUBMISSION_BOOK_NODISCARD
uint8_t submission_book_write(const uint8_t *book, size_t book_len, uint8_t *archive, size_t archive_len,
    uint64_t *length);

/* The book in numbers. Changes nothing.
 * Answer, at most SUBMISSION_BOOK_SUMMARY_BYTES (57): next token (8), next id (8), then how many submissions are
 * retained (8), deliveries queued (8), ids retired and not collected (8) and ids replayed (8), then the height at which
 * the running replay began (mark, then 8 if 1). No refusal but 1 and 12. */
SUBMISSION_BOOK_NODISCARD
uint8_t submission_book_summary(const uint8_t *book, size_t book_len, uint8_t *answer, size_t answer_len);

/* ==== the queue ==== */

/* Puts a delivery, `delivery_len` bytes of the form above, at the end of the queue; nothing of it is looked up
 * before the drain. A new payment has no id, trigger 0 and goal 0; with an id it is a further delivery of that
 * submission, and everything else in it must be as it was first queued.
 * Refusals: 3 the bytes are not exactly one delivery; 10 the queue would pass 16 entries. */
SUBMISSION_BOOK_NODISCARD
uint8_t submission_book_queue(uint8_t *book, size_t book_len, const uint8_t *delivery, size_t delivery_len);

/* Offers a retained submission for another delivery: queues its own base bundle, expiry and fee intent under its
 * id. Nothing happens, and 0 is answered, where the id is not retained or is queued already; where the chain has
 * settled the submission; where an attempt is live and `trigger` is 0; where an attempt is live and not finalised,
 * the fee is open and `trigger` is 1 or 3; and where `goal` is 1 and no fee is open.
 * Refusals: 3 `trigger` over 3 or `goal` over 1; 10 the queue would pass 16 entries. */
SUBMISSION_BOOK_NODISCARD
uint8_t submission_book_queue_retained_delivery(uint8_t *book, size_t book_len, uint64_t id, uint8_t trigger,
    uint8_t goal);

/* Offers each listed submission in the list's order, as submission_book_queue_retained_delivery does: with goal 1
 * where its current bundle is acknowledged, else with goal 0. Ids that are not retained are passed over.
 * Refusals, in this order: 2 over 64 ids; 3 `trigger` over 3; 10 the queue would pass 16 entries. */
SUBMISSION_BOOK_NODISCARD
uint8_t submission_book_queue_rebroadcast_epoch(uint8_t *book, size_t book_len, const uint64_t *ids, size_t ids_len,
    uint8_t trigger);

/* The wallet can provide fees now: offers every active submission whose fee is open, with trigger 3 and the goals
 * of submission_book_queue_rebroadcast_epoch.
 * Refusals: 10 the queue would pass 16 entries. */
SUBMISSION_BOOK_NODISCARD
uint8_t submission_book_queue_fee_readiness(uint8_t *book, size_t book_len);

/* Empties the queue and handles its entries in order. An entry without an id is a retained submission if their
 * intent fingerprints are equal, else a new one, which is retained under the next id. Each submission that is to be
 * delivered gets the next token, as a live attempt, once a drain; its live attempt, else its set-aside one, becomes
 * the predecessor and is in no slot any more. A retained submission is to be delivered if the chain has not settled
 * it and, for goal 0, its current bundle is not acknowledged or, for goal 1, its fee is open; its expiry becomes
 * the smaller of both. An entry that does not fit its retained submission fails, and that submission is removed
 * with its queue entries and its id retired.
 * Answer, SUBMISSION_BOOK_DRAIN_BYTES are enough:
 *     count of submissions (1), each: id (8), token (8), predecessor (mark, then 8 if 1), relationship (1), bundle
 *         to deliver, expiry (mark, then 8 if 1), fee intent (2 attach where a fee is open, else 0, also for a
 *         payment that was queued with 1)
 *     count of failures (1), each: index of the entry in the queue, from 0 (8), id of the submission that was
 *         removed (mark, then 8 if 1), id of the candidate (mark, then 8 if 1), intent fingerprint (32), stage (1)
 * Stage 1: the entry's id is not retained, or the entry does not fit the retained submission. Stage 2: a new
 * payment has a run that is unreadable. Stage 3: the next id is taken, or is 2^64 - 1.
 * Refusals: 10 more than 16 submissions or more than 64 retirements would result; 11 a token is needed and the next
 * one is 2^64 - 1: the queue is empty then, `answer` stays, and the book keeps all that was done up to that entry,
 * tokens included (submission_book_active_ids has the ids, and submission_book_look the live token of each). 10 or 11
 * goes by the earlier entry, within one entry 10. */
SUBMISSION_BOOK_NODISCARD
uint8_t submission_book_drain(uint8_t *book, size_t book_len, uint8_t *answer, size_t answer_len);

/* ==== attempts, by token ====
 *
 * A token that was issued and is not live is inactive: set aside, displaced by a later attempt, or gone with its
 * submission. Each of these functions but submission_book_attempt answers 4 for a token that was never issued: not
 * live and not below the next token. */

/* The open fee of a live attempt's submission.
 * Answer, at most SUBMISSION_BOOK_FEE_INTENT_ANSWER_BYTES (42): mark; if 1 the fee intent (2 attach where a fee is
 * open, else 0). Mark 0: the token is inactive. Refusals: 4. */
SUBMISSION_BOOK_NODISCARD
uint8_t submission_book_fee_intent_for_attempt(const uint8_t *book, size_t book_len, uint64_t token,
    uint8_t *answer, size_t answer_len);

/* Settles what is broadcast for a live attempt. With an open fee and source 1 the bundle `joined` becomes the
 * submission's current bundle and the fee is attached; it is taken as it is, and whether it really is the base with
 * the fee is the caller's to see to. With an open fee and any other source the base bundle goes without the fee,
 * and the fee stays open. With no open fee it is the current bundle, and `source` must be 0. `joined` is a bundle
 * for source 1, and has no bytes for any other.
 * Answer, at most SUBMISSION_BOOK_FINALIZED_BYTES (1117): mark; if 1 bundle, applied fee (8), warning (mark; 1 where
 * an open fee was not attached), disposition (1), variant fingerprint of the bundle (32), should-broadcast (mark; 0
 * where this bundle is acknowledged already, or for goal 1 with no fee attached now). Mark 0: the token is inactive,
 * and nothing changed.
 * Refusals, in this order: 3 `source` over 3, or `joined` is not exactly one bundle (source 1) or not empty (any
 * other); 4; 5 finalised before; 7 the submission contradicts itself; 8 its current bundle is not the one that was
 * drained; 9 no fee is open and `source` is not 0. 7 and 8 are for books put together by hand: as far as we know
 * the calls themselves lead to neither. */
SUBMISSION_BOOK_NODISCARD
uint8_t submission_book_finalize_attempt(uint8_t *book, size_t book_len, uint64_t token, uint8_t source,
    const uint8_t *joined, size_t joined_len, uint8_t *answer, size_t answer_len);

/* The wallet has taken what was finalised: the submission's current bundle is acknowledged, the live attempt set
 * aside, and queue entries of this submission are dropped.
 * Answer, 1 byte: 0 applied; 1 stale, the token is inactive and nothing changed.
 * Refusals, in this order: 4; 6 not finalised; 8 the current bundle is not the one that was finalised (as above). */
SUBMISSION_BOOK_NODISCARD
uint8_t submission_book_acknowledge_attempt(uint8_t *book, size_t book_len, uint64_t token,
    uint8_t *answer, size_t answer_len);

/* The attempt is over without an acknowledgement: it is set aside, and nothing else changes.
 * Answer, 1 byte: 0 applied; 1 stale, the token is inactive and nothing changed. Refusals: 4. */
SUBMISSION_BOOK_NODISCARD
uint8_t submission_book_stop_attempt(uint8_t *book, size_t book_len, uint64_t token,
    uint8_t *answer, size_t answer_len);

/* The payment itself is given up: the submission of this live attempt is removed with its queue entries and replay
 * mark, and its id retired.
 * Answer, 1 byte: 0 applied; 1 stale, the token is inactive and nothing changed.
 * Refusals: 4; 10 more than 64 retirements would result. */
SUBMISSION_BOOK_NODISCARD
uint8_t submission_book_abandon_attempt(uint8_t *book, size_t book_len, uint64_t token,
    uint8_t *answer, size_t answer_len);

/* Whether a token is set aside. Changes nothing.
 * Answer, 1 byte: 0 applied, it is set aside; 1 stale, it was issued and is live, displaced or gone. Refusals: 4. */
SUBMISSION_BOOK_NODISCARD
uint8_t submission_book_relinquish_completed_attempt(const uint8_t *book, size_t book_len, uint64_t token,
    uint8_t *answer, size_t answer_len);

/* A live attempt. Changes nothing.
 * Answer, at most SUBMISSION_BOOK_ATTEMPT_BYTES (75): mark; if 1 the attempt. Mark 0: the token is not live, or was
 * never issued. No refusal but 1 and 12. */
SUBMISSION_BOOK_NODISCARD
uint8_t submission_book_attempt(const uint8_t *book, size_t book_len, uint64_t token,
    uint8_t *answer, size_t answer_len);

/* ==== retained submissions and retirements ==== */

/* Removes the listed submissions with their queue entries and replay marks, and retires their ids. Ids that are not
 * retained are passed over. (The Rust's function takes a test of what to keep; this one the ids to remove.)
 * Answer, at most SUBMISSION_BOOK_IDS_BYTES (513): the ids that were removed, rising.
 * Refusals: 2 over 64 ids; 10 more than 64 retirements would result. */
SUBMISSION_BOOK_NODISCARD
uint8_t submission_book_retain_submitted(uint8_t *book, size_t book_len,
    const uint64_t *removed, size_t removed_len, uint8_t *answer, size_t answer_len);

/* The submissions that the chain has not settled. Changes nothing.
 * Answer, at most SUBMISSION_BOOK_IDS_BYTES (513): their ids, in the order in which they were retained. No refusal
 * but 1 and 12. */
SUBMISSION_BOOK_NODISCARD
uint8_t submission_book_active_ids(const uint8_t *book, size_t book_len, uint8_t *answer, size_t answer_len);

/* What a retained submission holds beside its bundles. Changes nothing.
 * Answer, at most SUBMISSION_BOOK_LOOK_BYTES (39): mark; if 1 chain (1), acknowledged (mark; 1 where the current bundle
 * is), resolution of its fee (1), applied fee (8; 0 where the current bundle is the base), expiry (mark, then 8 if
 * 1), token of the live attempt (mark, then 8 if 1), token of the set-aside attempt (mark, then 8 if 1). Mark 0: the id
 * is not retained. No refusal but 1 and 12. */
SUBMISSION_BOOK_NODISCARD
uint8_t submission_book_look(const uint8_t *book, size_t book_len, uint64_t id, uint8_t *answer, size_t answer_len);

/* Retires an id by hand: it is put behind the retirements, unless it is among them.
 * Refusals: 10 more than 64 retirements would result. */
SUBMISSION_BOOK_NODISCARD
uint8_t submission_book_emit_retirement(uint8_t *book, size_t book_len, uint64_t id);

/* Hands out the retired ids, which the wallet should forget, and empties their list.
 * Answer, at most SUBMISSION_BOOK_IDS_BYTES (513): the ids, in the order in which they were retired. No refusal but 1
 * and 12; a 12 keeps them. */
SUBMISSION_BOOK_NODISCARD
uint8_t submission_book_drain_retirements(uint8_t *book, size_t book_len, uint8_t *answer, size_t answer_len);

/* Removes and retires every submission, rising, empties the queue and ends a replay. Earlier retirements and the
 * two next numbers stay.
 * Refusals: 10 more than 64 retirements would result. */
SUBMISSION_BOOK_NODISCARD
uint8_t submission_book_clear_local_artifacts(uint8_t *book, size_t book_len);

/* After a restart of the program that delivers: every live attempt is set aside. No refusal but 1 and 12. */
SUBMISSION_BOOK_NODISCARD
uint8_t submission_book_restore_runtime(uint8_t *book, size_t book_len);

/* ==== what the chain shows ==== */

/* A report of the chain. For each submission: an output of its base bundle is among the `observed` coins (coin
 * list): Landed. Else an input of it is among the `spent` coin ids: InputSpent; but Landed stays where `reorg` is
 * 0. Else, where its id is among `rolled_back`: Active again. In the first two cases it is settled: its replay mark
 * and queue entries go, its live attempt is set aside, and its id is retired.
 * Refusals, in this order: 2 a list out of form, or over 64 ids; 3 `reorg` over 1; 10 more than 64 retirements
 * would result. */
SUBMISSION_BOOK_NODISCARD
uint8_t submission_book_reconcile_chain_terminality(uint8_t *book, size_t book_len,
    const uint8_t *observed, size_t observed_len, const uint8_t *spent, size_t spent_len, uint8_t reorg,
    const uint64_t *rolled_back, size_t rolled_back_len);

/* Which settled submissions a reorganisation has undone: those with InputSpent, and those Landed of which an output
 * is among the `absent` coins (coin list), if every input that the bundle does not itself create is among the coin
 * ids `inputs`, the coins that can be spent again. Changes nothing; hand the ids to the next report as
 * `rolled_back` and to submission_book_collect_rollback_replay_ids.
 * Answer, at most SUBMISSION_BOOK_IDS_BYTES (513): ids, rising. Refusals: 2 a list out of form. */
SUBMISSION_BOOK_NODISCARD
uint8_t submission_book_causally_rolled_back_ids(const uint8_t *book, size_t book_len,
    const uint8_t *absent, size_t absent_len, const uint8_t *inputs, size_t inputs_len,
    uint8_t *answer, size_t answer_len);

/* The input coins to ask the chain about: those of every submission that has not Landed, and of those that have
 * where an output is among `outputs` (coin list). The coins stand in `answer` as a coin list, rising by bytes and
 * without repeats, at most SUBMISSION_BOOK_INPUT_COINS_BYTES (4738); *count is its length in bytes.
 * Refusals: 2 `outputs` out of form. A refusal leaves *count. */
SUBMISSION_BOOK_NODISCARD
uint8_t submission_book_reconciliation_input_coins(const uint8_t *book, size_t book_len,
    const uint8_t *outputs, size_t outputs_len, uint8_t *answer, size_t answer_len, uint64_t *count);

/* Of the listed submissions the outputs that are among the `absent` coins (coin list). They stand in `answer` as a
 * coin list, in retained and output order and with repeats, at most SUBMISSION_BOOK_ABSENT_OUTPUTS_BYTES (18946);
 * *count is its length in bytes.
 * Refusals: 2 `absent` out of form, or over 64 ids. A refusal leaves *count. */
SUBMISSION_BOOK_NODISCARD
uint8_t submission_book_absent_outputs_for_ids(const uint8_t *book, size_t book_len,
    const uint64_t *ids, size_t ids_len, const uint8_t *absent, size_t absent_len,
    uint8_t *answer, size_t answer_len, uint64_t *count);

/* ==== replay after a reorganisation ==== */

/* The chain has fallen back to `height`: a replay begins, with no ids replayed in it.
 * Answer, 1 byte: 1; or 0 where a replay at this very height runs already, and nothing changed. No refusal but 1
 * and 12. */
SUBMISSION_BOOK_NODISCARD
uint8_t submission_book_begin_replay(uint8_t *book, size_t book_len, uint64_t height,
    uint8_t *answer, size_t answer_len);

/* Offers the listed submissions for delivery again (trigger 2, goal 0, under the conditions of
 * submission_book_queue_retained_delivery), in retained order. Those that were not replayed before in this replay
 * are marked, and are Active and unacknowledged again first.
 * Refusals: 2 over 64 ids; 10 the queue would pass 16 entries. */
SUBMISSION_BOOK_NODISCARD
uint8_t submission_book_collect_rollback_replay_ids(uint8_t *book, size_t book_len,
    const uint64_t *ids, size_t ids_len);

/* Ends the replay, and forgets its marks, if `height` is above the height at which it began. No refusal but 1 and
 * 12. */
SUBMISSION_BOOK_NODISCARD
uint8_t submission_book_finish_replay_if_advanced(uint8_t *book, size_t book_len, uint64_t height);

/* The height of the running replay. Changes nothing.
 * Answer, at most SUBMISSION_BOOK_HEIGHT_BYTES (9): mark; if 1 the height (8) at which it began. No refusal but 1 and
 * 12. */
SUBMISSION_BOOK_NODISCARD
uint8_t submission_book_replay_rollback_height(const uint8_t *book, size_t book_len,
    uint8_t *answer, size_t answer_len);

/* ==== hashes: functions without a book ==== */

/* The SHA-256 (FIPS 180-4) of any bytes, to the front of `digest`, SUBMISSION_BOOK_DIGEST_BYTES (32): fingerprints, and
 * digests of the caller's own. Refusals: 12 fewer than 32 bytes lent. */
SUBMISSION_BOOK_NODISCARD
uint8_t submission_book_sha256(const uint8_t *message, size_t message_len, uint8_t *digest, size_t digest_len);

/* The coin id of a coin string, to the front of `id`, SUBMISSION_BOOK_COIN_ID_BYTES (32). The bytes are taken as they are,
 * as the book does; submission_book_coin_from_parts (submission_book_answers.h) makes a coin string of its parts.
 * Refusals, in this order: 3 over 73 bytes, which are no coin string; 12 fewer than 32 bytes lent. */
SUBMISSION_BOOK_NODISCARD
uint8_t submission_book_coin_id(const uint8_t *coin, size_t coin_len, uint8_t *id, size_t id_len);

#ifdef __cplusplus
}
#endif
#endif
