/* Calls through the C boundary, with what each must answer. The Makefile has the command. */
#include <inttypes.h>
#include <stdio.h>
#include <string.h>
#include "expect.h"
#include "sample.h"

static unsigned held, failed;

void expect_for(const char *call, const char *what, uint64_t got, uint64_t wanted) {
    held++;
    if (got != wanted) {
        printf("%s, %s: %" PRIu64 ", not %" PRIu64 "\n", call, what, got, wanted);
        failed++;
    }
}

void expect(const char *what, uint64_t got, uint64_t wanted) {
    expect_for("calls", what, got, wanted);
}

enum { LEN = SUBMISSION_BOOK_BYTES, ROOM = SUBMISSION_BOOK_ARCHIVE_BYTES };
static uint8_t book[LEN], before[LEN], answer[ROOM], answer_before[ROOM];
static submission_book_drain_result drained;
static submission_book_finalized finalized;
static submission_book_ids ids;

/* The bytes before a call that is to be refused, and that they are the same behind it. */
static void keep(void) {
    memset(answer, 0xa5, sizeof answer);
    memcpy(before, book, sizeof book);
    memcpy(answer_before, answer, sizeof answer);
}

static void refused(const char *what, uint8_t said, uint8_t number) {
    expect(what, said, number);
    expect_for(what, "book left", memcmp(before, book, sizeof book) == 0, true);
    expect_for(what, "answer left", memcmp(answer_before, answer, sizeof answer) == 0, true);
}

static void drain(size_t submissions, size_t failures) {
    expect("drain", submission_book_drain(book, LEN, answer, ROOM), 0);
    expect("form of the drain's answer", submission_book_answer_drain(answer, ROOM, &drained), 0);
    expect("drained submissions", drained.submission_count, submissions);
    expect("failures", drained.failure_count, failures);
}

static void finalize(uint64_t token, uint8_t source, const submission_book_bundle *joined) {
    uint8_t bytes[SUBMISSION_BOOK_BUNDLE_BYTES];
    size_t length = joined == NULL ? 0 : bundle_bytes(bytes, joined);
    expect("finalize", submission_book_finalize_attempt(book, LEN, token, source, bytes, length, answer, ROOM), 0);
    expect("form of the finalised submission", submission_book_answer_finalized(answer, ROOM, &finalized), 0);
}

static void expect_ids(const char *what, uint8_t said, size_t count, const uint64_t *wanted) {
    expect(what, said, 0);
    expect_for(what, "form", submission_book_answer_ids(answer, ROOM, &ids), 0);
    expect_for(what, "count", ids.count, count);
    for (size_t i = 0; i < count && i < ids.count; i++) {
        expect_for(what, "id", ids.ids[i], wanted[i]);
    }
}

static void expect_bundle(const submission_book_bundle *got, const submission_book_bundle *wanted) {
    uint8_t a[SUBMISSION_BOOK_BUNDLE_BYTES], b[SUBMISSION_BOOK_BUNDLE_BYTES];
    size_t n = bundle_bytes(a, got), m = bundle_bytes(b, wanted);
    expect("bundle", n == m && memcmp(a, b, n) == 0, true);
}

static bool is_fingerprint_of(const submission_book_hash *fingerprint, const submission_book_bundle *bundle) {
    uint8_t bytes[SUBMISSION_BOOK_BUNDLE_BYTES];
    submission_book_hash digest = hash_of(bytes, bundle_bytes(bytes, bundle));
    return same_hash(&digest, fingerprint);
}

/* An answer of one byte that says applied or stale. */
static void expect_status(const char *what, uint8_t said, uint8_t wanted) {
    uint8_t status = 0;
    expect(what, said, 0);
    expect_for(what, "form", submission_book_answer_status(answer, ROOM, &status), 0);
    expect_for(what, "status", status, wanted);
}

static submission_book_live_attempt live_attempt(uint64_t token) {
    submission_book_live_attempt attempt = {0};
    expect("attempt", submission_book_attempt(book, LEN, token, answer, ROOM), 0);
    expect("form of an attempt", submission_book_answer_attempt(answer, ROOM, &attempt), 0);
    return attempt;
}

static submission_book_optional replay_height(void) {
    submission_book_optional height = {false, 0};
    expect("height", submission_book_replay_rollback_height(book, LEN, answer, ROOM), 0);
    expect("form of a height", submission_book_answer_height(answer, ROOM, &height), 0);
    return height;
}

static submission_book_look_result look_at(uint64_t id) {
    submission_book_look_result look = {0};
    expect("look", submission_book_look(book, LEN, id, answer, ROOM), 0);
    expect("form of a look", submission_book_answer_look(answer, ROOM, &look), 0);
    return look;
}

/* The two attempts of a retained submission; 0 where a slot is empty. */
static void expect_attempts(const char *what, uint64_t id, uint64_t live, uint64_t set_aside) {
    submission_book_look_result look = look_at(id);
    expect_for(what, "retained", look.present, true);
    expect_for(what, "a live token", look.live_token.present, live != 0);
    expect_for(what, "live token", look.live_token.value, live);
    expect_for(what, "a set-aside token", look.set_aside_token.present, set_aside != 0);
    expect_for(what, "set-aside token", look.set_aside_token.value, set_aside);
}

/* Its fee and whether its current bundle is acknowledged. */
static void expect_fee(const char *what, uint64_t id, uint8_t resolution, uint64_t applied, bool acknowledged) {
    submission_book_look_result look = look_at(id);
    expect_for(what, "fee resolution", look.fee_resolution, resolution);
    expect_for(what, "applied fee", look.applied_fee, applied);
    expect_for(what, "acknowledged", look.acknowledged, acknowledged);
}

static submission_book_summary_result summed(void) {
    submission_book_summary_result summary = {0};
    expect("summary", submission_book_summary(book, LEN, answer, ROOM), 0);
    expect("form of a summary", submission_book_answer_summary(answer, ROOM, &summary), 0);
    return summary;
}

static void expect_numbers(const char *what, uint64_t next_token, uint64_t next_id) {
    submission_book_summary_result summary = summed();
    expect_for(what, "next token", summary.next_token, next_token);
    expect_for(what, "next id", summary.next_id, next_id);
}

static void expect_counts(const char *what, size_t retained, size_t queued, size_t retired, size_t replayed) {
    submission_book_summary_result summary = summed();
    expect_for(what, "retained", summary.retained, retained);
    expect_for(what, "queued", summary.queued, queued);
    expect_for(what, "retired", summary.retired, retired);
    expect_for(what, "replayed", summary.replayed, replayed);
}

static bool replay_begun(uint64_t height) {
    bool begun = false;
    expect("begin", submission_book_begin_replay(book, LEN, height, answer, ROOM), 0);
    expect("form of a flag", submission_book_answer_flag(answer, ROOM, &begun), 0);
    return begun;
}

/* ---- the helpers themselves */
static void test_helpers(void) {
    static const submission_book_hash abc = {{0xba, 0x78, 0x16, 0xbf, 0x8f, 0x01, 0xcf, 0xea, 0x41, 0x41, 0x40, 0xde, 0x5d, 0xae, 0x22, 0x23,
                                              0xb0, 0x03, 0x61, 0xa3, 0x96, 0x17, 0x7a, 0x9c, 0xb4, 0x10, 0xff, 0x61, 0xf2, 0x00, 0x15, 0xad}};
    submission_book_hash digest = hash_of((const uint8_t *)"abc", 3);
    expect("SHA-256 of abc", same_hash(&digest, &abc), true);
}

/* ---- a payment from the queue to the acknowledgement */
static void test_payment(void) {
    submission_book_delivery d = sample_delivery(1, 2, 2);
    expect("open", submission_book_open(book, LEN, 5, 1), 0);
    expect("length of an empty book", number_at(book), 22);
    expect("queue", queue_delivery(book, LEN, &d), 0);
    expect("queue it twice", queue_delivery(book, LEN, &d), 0);
    drain(1, 0);
    expect("id", drained.submissions[0].id, 1);
    expect("token", drained.submissions[0].token, 5);
    expect("no predecessor", drained.submissions[0].predecessor.present, false);
    expect("initial", drained.submissions[0].relationship, SUBMISSION_BOOK_RELATIONSHIP_INITIAL);
    expect("no fee open", drained.submissions[0].fee_intent.kind, SUBMISSION_BOOK_FEE_ALREADY_PAID);
    expect_bundle(&drained.submissions[0].bundle, &d.bundle);
    keep();
    refused("acknowledge too early", submission_book_acknowledge_attempt(book, LEN, 5, answer, ROOM), 6);
    refused("a fee that nobody asked for", submission_book_finalize_attempt(book, LEN, 5, 3, NULL, 0, answer, ROOM), 9);
    finalize(5, SUBMISSION_BOOK_SOURCE_NOT_REQUESTED, NULL);
    expect("present", finalized.present, true);
    expect_bundle(&finalized.bundle, &d.bundle);
    expect("fingerprint", is_fingerprint_of(&finalized.variant_fingerprint, &d.bundle), true);
    expect("disposition", finalized.disposition, SUBMISSION_BOOK_DISPOSITION_NOT_REQUESTED);
    expect("broadcast", finalized.should_broadcast, true);
    keep();
    refused("finalise twice", submission_book_finalize_attempt(book, LEN, 5, 0, NULL, 0, answer, ROOM), 5);
    expect_status("acknowledge", submission_book_acknowledge_attempt(book, LEN, 5, answer, ROOM), SUBMISSION_BOOK_STATUS_APPLIED);
    expect_status("again", submission_book_acknowledge_attempt(book, LEN, 5, answer, ROOM), SUBMISSION_BOOK_STATUS_STALE);
    finalize(5, SUBMISSION_BOOK_SOURCE_NOT_REQUESTED, NULL);
    expect("inactive", finalized.present, false);
}

/* ---- a fee that comes later */
static void test_fee_upgrade(void) {
    submission_book_delivery d = sample_delivery_with_fee(1, 1, 1);
    submission_book_bundle joined = sample_delivery(1, 3, 1).bundle;
    submission_book_optional_fee fee = {0};
    expect("open", submission_book_open(book, LEN, 5, 1), 0);
    expect("queue", queue_delivery(book, LEN, &d), 0);
    drain(1, 0);
    expect("fee open", drained.submissions[0].fee_intent.amount, 9);
    expect("fee intent", submission_book_fee_intent_for_attempt(book, LEN, 5, answer, ROOM), 0);
    expect("form of a fee intent", submission_book_answer_fee_intent(answer, ROOM, &fee), 0);
    expect("live", fee.present, true);
    expect("kind", fee.fee_intent.kind, SUBMISSION_BOOK_FEE_ATTACH);
    expect("target", same_hash(&fee.fee_intent.target, &d.fee_intent.target), true);
    expect("amount", fee.fee_intent.amount, 9);
    finalize(5, SUBMISSION_BOOK_SOURCE_JOIN_FAILED, NULL);
    expect("warning", finalized.warning, true);
    expect("unused", finalized.disposition, SUBMISSION_BOOK_DISPOSITION_UNUSED);
    expect("acknowledge", submission_book_acknowledge_attempt(book, LEN, 5, answer, ROOM), 0);
    expect("fee readiness", submission_book_queue_fee_readiness(book, LEN), 0);
    drain(1, 0);
    expect("predecessor", drained.submissions[0].predecessor.value, 5);
    expect("relationship", drained.submissions[0].relationship, SUBMISSION_BOOK_RELATIONSHIP_NEWER_FEE_BEARING);
    finalize(6, SUBMISSION_BOOK_SOURCE_JOINED, &joined);
    expect_bundle(&finalized.bundle, &joined);
    expect("applied fee", finalized.applied_fee, 9);
    expect("attached", finalized.disposition, SUBMISSION_BOOK_DISPOSITION_ATTACHED);
    expect("fingerprint", is_fingerprint_of(&finalized.variant_fingerprint, &joined), true);
    submission_book_live_attempt attempt = live_attempt(6);
    expect("live", attempt.present, true);
    expect("token", attempt.token, 6);
    expect("goal", attempt.goal, SUBMISSION_BOOK_GOAL_FEE_UPGRADE);
    expect("drained as", is_fingerprint_of(&attempt.drained_fingerprint, &d.bundle), true);
    expect("finalised", attempt.finalized, true);
    expect("finalised as", is_fingerprint_of(&attempt.finalized_fingerprint, &joined), true);
}

/* ---- attempts that end in other ways */
static void test_attempts(void) {
    const uint64_t one[] = {1}, two[] = {2}, both[] = {1, 2}, named[] = {9, 2};
    expect("sample book", sample_book(book), true);
    keep();
    refused("never issued", submission_book_stop_attempt(book, LEN, 9, answer, ROOM), 4);
    refused("never issued, finalise", submission_book_finalize_attempt(book, LEN, 9, 0, NULL, 0, answer, ROOM), 4);
    refused("never issued, relinquish", submission_book_relinquish_completed_attempt(book, LEN, 9, answer, ROOM), 4);
    expect_status("relinquish set aside", submission_book_relinquish_completed_attempt(book, LEN, 7, answer, ROOM), SUBMISSION_BOOK_STATUS_APPLIED);
    expect_status("relinquish live", submission_book_relinquish_completed_attempt(book, LEN, 5, answer, ROOM), SUBMISSION_BOOK_STATUS_STALE);
    expect("relinquishing changes nothing", memcmp(before, book, LEN) == 0, true);
    expect_ids("retirements", submission_book_drain_retirements(book, LEN, answer, ROOM), 1, (const uint64_t[]){4});
    expect_status("abandon", submission_book_abandon_attempt(book, LEN, 5, answer, ROOM), SUBMISSION_BOOK_STATUS_APPLIED);
    expect_ids("abandoned", submission_book_drain_retirements(book, LEN, answer, ROOM), 1, one);
    expect_ids("remove", submission_book_retain_submitted(book, LEN, named, 2, answer, ROOM), 1, two);
    expect("emit", submission_book_emit_retirement(book, LEN, 1), 0);
    expect_ids("removed", submission_book_drain_retirements(book, LEN, answer, ROOM), 2, (const uint64_t[]){2, 1});
    expect("sample book", sample_book(book), true);
    expect("restore", submission_book_restore_runtime(book, LEN), 0);
    expect("no longer live", live_attempt(5).present, false);
    expect("clear", submission_book_clear_local_artifacts(book, LEN), 0);
    expect_ids("nothing active", submission_book_active_ids(book, LEN, answer, ROOM), 0, both);
    expect_ids("all retired", submission_book_drain_retirements(book, LEN, answer, ROOM), 4, (const uint64_t[]){4, 1, 2, 3});
    drain(0, 0);
}

/* ---- what the chain shows */
static void test_chain(void) {
    submission_book_delivery d = sample_delivery(1, 1, 1);
    uint8_t outputs[2 + 74], input[32], empty[2] = {0, 0};
    static submission_book_coins coins;
    submission_book_coin coin = output_coin(&d.bundle.spends[0], 0);
    size_t length = coin_list_bytes(outputs, sizeof outputs, &coin, 1), input_length = 0;
    uint64_t count = 0;
    const uint64_t one[] = {1};
    submission_book_hash input_id = coin_id_of(&d.bundle.spends[0].coin);
    expect("coin ids", submission_book_build_coin_ids(&input_id, 1, input, sizeof input, &input_length), 0);
    expect("length of coin ids", input_length, sizeof input);
    expect("open", submission_book_open(book, LEN, 5, 1), 0);
    expect("queue", queue_delivery(book, LEN, &d), 0);
    drain(1, 0);
    expect("landed", submission_book_reconcile_chain_terminality(book, LEN, outputs, length, NULL, 0, 0, NULL, 0), 0);
    expect_ids("none active", submission_book_active_ids(book, LEN, answer, ROOM), 0, one);
    expect_status("set aside", submission_book_relinquish_completed_attempt(book, LEN, 5, answer, ROOM), SUBMISSION_BOOK_STATUS_APPLIED);
    expect("input coins", submission_book_reconciliation_input_coins(book, LEN, empty, 2, answer, ROOM, &count), 0);
    expect("none of what has landed", count, 2);
    expect("input coins of an output", submission_book_reconciliation_input_coins(book, LEN, outputs, length, answer, ROOM, &count), 0);
    expect("form of coins", submission_book_answer_coins(answer, (size_t)count, &coins), 0);
    expect("one", coins.count, 1);
    expect("the coin", memcmp(&coins.coins[0], &d.bundle.spends[0].coin, sizeof coin) == 0, true);
    expect_ids("input spent", submission_book_causally_rolled_back_ids(book, LEN, outputs, length, NULL, 0, answer, ROOM), 0, one);
    expect_ids("rolled back", submission_book_causally_rolled_back_ids(book, LEN, outputs, length, input, 32, answer, ROOM), 1, one);
    expect("absent", submission_book_absent_outputs_for_ids(book, LEN, one, 1, outputs, length, answer, ROOM, &count), 0);
    expect("the output", count == length && memcmp(answer, outputs, length) == 0, true);
    expect("a spent input", submission_book_reconcile_chain_terminality(book, LEN, empty, 2, input, 32, 1, NULL, 0), 0);
    expect_ids("input spent is enough", submission_book_causally_rolled_back_ids(book, LEN, empty, 2, input, 32, answer, ROOM), 1, one);
    expect("back", submission_book_reconcile_chain_terminality(book, LEN, empty, 2, NULL, 0, 1, one, 1), 0);
    expect_ids("active", submission_book_active_ids(book, LEN, answer, ROOM), 1, one);
}

/* ---- replay */
static void test_replay(void) {
    const uint64_t two[] = {2};
    expect("sample book", sample_book(book), true);
    expect("a replay", replay_height().present, true);
    expect("at 1000", replay_height().value, 1000);
    expect("begin again", replay_begun(1000), false);
    expect("begin anew", replay_begun(900), true);
    expect("replay", submission_book_collect_rollback_replay_ids(book, LEN, two, 1), 0);
    drain(3, 0);
    expect("submission 3, queued before", drained.submissions[0].predecessor.value, 7);
    expect("submission 5", drained.submissions[1].id, 5);
    expect("submission 2", drained.submissions[2].predecessor.value, 6);
    expect("exact", drained.submissions[2].relationship, SUBMISSION_BOOK_RELATIONSHIP_EXACT);
    expect("finish", submission_book_finish_replay_if_advanced(book, LEN, 900), 0);
    expect("stays", replay_height().present, true);
    expect("finish", submission_book_finish_replay_if_advanced(book, LEN, 901), 0);
    expect("over", replay_height().present, false);
    expect("offer one", submission_book_queue_retained_delivery(book, LEN, 2, 1, 0), 0);
    expect("offer all", submission_book_queue_rebroadcast_epoch(book, LEN, (const uint64_t[]){3, 2, 8}, 3, 1), 0);
    drain(2, 0);
    expect("first the one", drained.submissions[0].id, 2);
    expect("then the other", drained.submissions[1].id, 3);
}

/* ---- what a look says of a submission, from the queue to its end */
static void test_look_attempts(void) {
    submission_book_delivery d = sample_delivery(1, 1, 1), other = sample_delivery(2, 1, 1);
    d.expiry = (submission_book_optional){true, 77};
    expect("open", submission_book_open(book, LEN, 5, 1), 0);
    expect("queue", queue_delivery(book, LEN, &d), 0);
    expect("queue", queue_delivery(book, LEN, &other), 0);
    expect("queued only", look_at(1).present, false);
    drain(2, 0);
    expect_attempts("drained", 1, 5, 0);
    expect_attempts("the other", 2, 6, 0);
    expect_fee("no fee", 1, SUBMISSION_BOOK_RESOLUTION_NOT_REQUESTED, 0, false);
    expect("active", look_at(1).chain, SUBMISSION_BOOK_CHAIN_ACTIVE);
    expect("an expiry", look_at(1).expiry.present && look_at(1).expiry.value == 77, true);
    expect("no expiry", look_at(2).expiry.present, false);
    expect("an id that comes next", look_at(3).present, false);
    expect("the last id", look_at(UINT64_MAX).present, false);
    expect_status("stop", submission_book_stop_attempt(book, LEN, 5, answer, ROOM), SUBMISSION_BOOK_STATUS_APPLIED);
    expect_attempts("stopped", 1, 0, 5);
    expect("offer again", submission_book_queue_retained_delivery(book, LEN, 1, SUBMISSION_BOOK_TRIGGER_FRESH_CHAIN, 0), 0);
    drain(1, 0);
    expect_attempts("the first is displaced", 1, 7, 0);
    finalize(7, SUBMISSION_BOOK_SOURCE_NOT_REQUESTED, NULL);
    expect_fee("finalised", 1, SUBMISSION_BOOK_RESOLUTION_NOT_REQUESTED, 0, false);
    expect_status("acknowledge", submission_book_acknowledge_attempt(book, LEN, 7, answer, ROOM), SUBMISSION_BOOK_STATUS_APPLIED);
    expect_attempts("acknowledged", 1, 0, 7);
    expect_fee("acknowledged", 1, SUBMISSION_BOOK_RESOLUTION_NOT_REQUESTED, 0, true);
    expect_status("abandon", submission_book_abandon_attempt(book, LEN, 6, answer, ROOM), SUBMISSION_BOOK_STATUS_APPLIED);
    expect("abandoned", look_at(2).present, false);
    expect_ids("remove", submission_book_retain_submitted(book, LEN, (const uint64_t[]){1}, 1, answer, ROOM), 1, (const uint64_t[]){1});
    expect("removed", look_at(1).present, false);
}

/* The base bundle is acknowledged first, and the bundle with the fee later. */
static void test_look_fee(void) {
    submission_book_delivery d = sample_delivery_with_fee(1, 1, 1);
    submission_book_bundle joined = sample_delivery(1, 2, 1).bundle;
    expect("open", submission_book_open(book, LEN, 5, 1), 0);
    expect("queue", queue_delivery(book, LEN, &d), 0);
    drain(1, 0);
    expect_fee("open", 1, SUBMISSION_BOOK_RESOLUTION_UNRESOLVED, 0, false);
    finalize(5, SUBMISSION_BOOK_SOURCE_FAILED, NULL);
    expect("acknowledge", submission_book_acknowledge_attempt(book, LEN, 5, answer, ROOM), 0);
    expect_fee("the base", 1, SUBMISSION_BOOK_RESOLUTION_UNRESOLVED, 0, true);
    expect("fee readiness", submission_book_queue_fee_readiness(book, LEN), 0);
    drain(1, 0);
    finalize(6, SUBMISSION_BOOK_SOURCE_JOINED, &joined);
    expect_fee("attached", 1, SUBMISSION_BOOK_RESOLUTION_ATTACHED, 9, false);
    expect_attempts("attached", 1, 6, 0);
    expect("acknowledge", submission_book_acknowledge_attempt(book, LEN, 6, answer, ROOM), 0);
    expect_fee("with the fee", 1, SUBMISSION_BOOK_RESOLUTION_ATTACHED, 9, true);
    expect("begin", replay_begun(100), true);
    expect("replay", submission_book_collect_rollback_replay_ids(book, LEN, (const uint64_t[]){1}, 1), 0);
    expect_fee("replayed", 1, SUBMISSION_BOOK_RESOLUTION_ATTACHED, 9, false);
}

static void test_look_chain(void) {
    submission_book_delivery d = sample_delivery(1, 1, 1);
    uint8_t outputs[2 + 74], empty[2] = {0, 0};
    submission_book_coin coin = output_coin(&d.bundle.spends[0], 0);
    size_t length = coin_list_bytes(outputs, sizeof outputs, &coin, 1);
    submission_book_hash input = coin_id_of(&d.bundle.spends[0].coin);
    expect("open", submission_book_open(book, LEN, 5, 1), 0);
    expect("queue", queue_delivery(book, LEN, &d), 0);
    drain(1, 0);
    expect("landed", submission_book_reconcile_chain_terminality(book, LEN, outputs, length, NULL, 0, 0, NULL, 0), 0);
    expect("it is", look_at(1).chain, SUBMISSION_BOOK_CHAIN_LANDED);
    expect_attempts("landed", 1, 0, 5);
    expect("an input is spent", submission_book_reconcile_chain_terminality(book, LEN, empty, 2, input.bytes, 32, 1, NULL, 0), 0);
    expect("it is", look_at(1).chain, SUBMISSION_BOOK_CHAIN_INPUT_SPENT);
    expect("rolled back", submission_book_reconcile_chain_terminality(book, LEN, empty, 2, NULL, 0, 1, (const uint64_t[]){1}, 1), 0);
    expect("it is", look_at(1).chain, SUBMISSION_BOOK_CHAIN_ACTIVE);
    expect("clear", submission_book_clear_local_artifacts(book, LEN), 0);
    expect("gone", look_at(1).present, false);
}

/* ---- the book in numbers */
static void test_summary(void) {
    submission_book_delivery first = sample_delivery(1, 1, 1), second = sample_delivery(2, 1, 1);
    expect("open", submission_book_open(book, LEN, 5, 1), 0);
    expect_numbers("opened", 5, 1);
    expect_counts("opened", 0, 0, 0, 0);
    expect("no replay", summed().rollback_height.present, false);
    expect("queue", queue_delivery(book, LEN, &first), 0);
    expect("queue", queue_delivery(book, LEN, &second), 0);
    expect_counts("queued", 0, 2, 0, 0);
    drain(2, 0);
    expect_numbers("drained", 7, 3);
    expect_counts("drained", 2, 0, 0, 0);
    expect("begin", replay_begun(1000), true);
    expect("a replay", summed().rollback_height.present && summed().rollback_height.value == 1000, true);
    expect("replay", submission_book_collect_rollback_replay_ids(book, LEN, (const uint64_t[]){1, 2}, 2), 0);
    expect_counts("replayed", 2, 2, 0, 2);
    expect("emit", submission_book_emit_retirement(book, LEN, 50), 0);
    expect_counts("one retired by hand", 2, 2, 1, 2);
    expect_status("abandon", submission_book_abandon_attempt(book, LEN, 5, answer, ROOM), SUBMISSION_BOOK_STATUS_APPLIED);
    expect_counts("abandoned", 1, 1, 2, 1);
    expect_ids("collect", submission_book_drain_retirements(book, LEN, answer, ROOM), 2, (const uint64_t[]){50, 1});
    expect_counts("collected", 1, 1, 0, 1);
    expect("finish", submission_book_finish_replay_if_advanced(book, LEN, 1001), 0);
    expect("over", summed().rollback_height.present, false);
    expect_counts("over", 1, 1, 0, 0);
    expect_numbers("no number is given twice", 7, 3);
}

/* Every part is there: the longest book has both attempts of each submission. */
static void test_look_longest(void) {
    static uint8_t archive[ROOM];
    uint64_t place = 0;
    expect("read", submission_book_read(book, LEN, archive, longest_archive(archive), &place), 0);
    expect_numbers("longest", 1000, 1000);
    expect_counts("longest", 16, 16, 64, 16);
    expect("its replay", summed().rollback_height.value, 1000);
    for (uint64_t id = 1; id < 16; id++) {
        expect_attempts("both", id, 2 * id, 2 * id + 1);
        expect_fee("its bundle is another than the acknowledged one", id, SUBMISSION_BOOK_RESOLUTION_ATTACHED, 9, false);
        expect("expiry", look_at(id).expiry.value, 77);
    }
    expect("the id 0", look_at(0).present, true);
    expect("no more", look_at(16).present, false);
    keep();
    refused("no book", submission_book_look(book, 7, 1, answer, ROOM), 1);
    refused("no book", submission_book_summary(book, 7, answer, ROOM), 1);
}

/* ---- candidates that fail */
static void test_failures(void) {
    submission_book_delivery misfit = sample_delivery(2, 1, 1), unreadable = sample_delivery(8, 1, 1), stranger = sample_delivery(9, 1, 1);
    misfit.id = (submission_book_optional){true, 1};
    unreadable.bundle.spends[0].readable = false;
    stranger.id = (submission_book_optional){true, 99};
    expect("sample book", sample_book(book), true);
    drain(2, 0);
    expect("queue", queue_delivery(book, LEN, &stranger), 0);
    expect("queue", queue_delivery(book, LEN, &unreadable), 0);
    expect("queue", queue_delivery(book, LEN, &misfit), 0);
    drain(0, 3);
    expect("stranger's index", drained.failures[0].candidate_index, 0);
    expect("stranger removes nothing", drained.failures[0].retained_id.present, false);
    expect("stranger's id", drained.failures[0].candidate_id.value, 99);
    expect("stranger's stage", drained.failures[0].stage, SUBMISSION_BOOK_STAGE_RETAINED_STATE);
    expect("unreadable", drained.failures[1].stage, SUBMISSION_BOOK_STAGE_EXPECTED_OUTPUTS);
    expect("its id would be", drained.failures[1].candidate_id.value, 6);
    expect("misfit's index", drained.failures[2].candidate_index, 2);
    expect("misfit", drained.failures[2].stage, SUBMISSION_BOOK_STAGE_RETAINED_STATE);
    expect("removes", drained.failures[2].retained_id.value, 1);
    expect_ids("retired", submission_book_drain_retirements(book, LEN, answer, ROOM), 2, (const uint64_t[]){4, 1});
    expect("open at the last id", submission_book_open(book, LEN, 5, UINT64_MAX), 0);
    unreadable.bundle.spends[0].readable = true;
    expect("queue", queue_delivery(book, LEN, &unreadable), 0);
    drain(0, 1);
    expect("no id is left", drained.failures[0].stage, SUBMISSION_BOOK_STAGE_SUBMISSION_ID);
}

/* ---- arguments out of form: 2 and 3 */
static void test_arguments(void) {
    static uint8_t long_list[2 + 801], ids_of_coins[801 * 32];
    uint8_t coins[3] = {0, 0, 0}, bundle[1] = {5};
    uint64_t count = 99, many[65] = {0};
    long_list[0] = 801 >> 8;
    long_list[1] = 801 & 0xff;
    expect("sample book", sample_book(book), true);
    keep();
    refused("trigger", submission_book_queue_rebroadcast_epoch(book, LEN, many, 64, 4), 3);
    refused("65 ids", submission_book_queue_rebroadcast_epoch(book, LEN, many, 65, 1), 2);
    refused("no book before 65 ids", submission_book_queue_rebroadcast_epoch(book, 7, many, 65, 4), 1);
    refused("65 ids before a trigger", submission_book_queue_rebroadcast_epoch(book, LEN, many, 65, 4), 2);
    refused("trigger", submission_book_queue_retained_delivery(book, LEN, 1, 4, 0), 3);
    refused("goal", submission_book_queue_retained_delivery(book, LEN, 1, 0, 2), 3);
    refused("no delivery", submission_book_queue(book, LEN, NULL, 0), 3);
    refused("delivery", submission_book_queue(book, LEN, coins, 3), 3);
    refused("source", submission_book_finalize_attempt(book, LEN, 5, 4, NULL, 0, answer, ROOM), 3);
    refused("joined left over", submission_book_finalize_attempt(book, LEN, 5, 0, coins, 1, answer, ROOM), 3);
    refused("5 spends", submission_book_finalize_attempt(book, LEN, 5, 1, bundle, 1, answer, ROOM), 3);
    refused("no joined bundle", submission_book_finalize_attempt(book, LEN, 5, 1, NULL, 0, answer, ROOM), 3);
    refused("reorg", submission_book_reconcile_chain_terminality(book, LEN, coins, 2, NULL, 0, 2, many, 64), 3);
    refused("no book before no coin list", submission_book_reconcile_chain_terminality(book, 7, NULL, 0, NULL, 0, 2, NULL, 0), 1);
    refused("no coin list before reorg", submission_book_reconcile_chain_terminality(book, LEN, NULL, 0, NULL, 0, 2, NULL, 0), 2);
    refused("31 bytes before reorg", submission_book_reconcile_chain_terminality(book, LEN, coins, 2, ids_of_coins, 31, 2, NULL, 0), 2);
    refused("65 ids before reorg", submission_book_reconcile_chain_terminality(book, LEN, coins, 2, NULL, 0, 2, many, 65), 2);
    refused("no coin list", submission_book_reconcile_chain_terminality(book, LEN, NULL, 0, NULL, 0, 1, NULL, 0), 2);
    refused("801 coins", submission_book_reconcile_chain_terminality(book, LEN, long_list, sizeof long_list, NULL, 0, 1, NULL, 0), 2);
    refused("31 bytes", submission_book_reconcile_chain_terminality(book, LEN, coins, 2, ids_of_coins, 31, 1, NULL, 0), 2);
    refused("801 coin ids", submission_book_causally_rolled_back_ids(book, LEN, coins, 2, ids_of_coins, sizeof ids_of_coins, answer, ROOM), 2);
    refused("a byte left over", submission_book_causally_rolled_back_ids(book, LEN, coins, 3, NULL, 0, answer, ROOM), 2);
    refused("65 ids", submission_book_reconcile_chain_terminality(book, LEN, coins, 2, NULL, 0, 1, many, 65), 2);
    refused("65 ids", submission_book_retain_submitted(book, LEN, many, 65, answer, ROOM), 2);
    refused("65 ids", submission_book_collect_rollback_replay_ids(book, LEN, many, 65), 2);
    refused("65 ids", submission_book_absent_outputs_for_ids(book, LEN, many, 65, coins, 2, answer, ROOM, &count), 2);
    refused("coins", submission_book_reconciliation_input_coins(book, LEN, coins, 1, answer, ROOM, &count), 2);
    expect("count left", count, 99);
}

/* ---- lists without elements: NULL and 0, and nothing happens */
static void test_empty_lists(void) {
    uint8_t coins[2] = {0, 0};
    uint64_t count = 99;
    expect("sample book", sample_book(book), true);
    keep();
    expect("no ids to offer", submission_book_queue_rebroadcast_epoch(book, LEN, NULL, 0, 2), 0);
    expect("no ids to replay", submission_book_collect_rollback_replay_ids(book, LEN, NULL, 0), 0);
    expect("nothing seen", submission_book_reconcile_chain_terminality(book, LEN, coins, 2, NULL, 0, 0, NULL, 0), 0);
    expect_ids("no ids to remove", submission_book_retain_submitted(book, LEN, NULL, 0, answer, ROOM), 0, NULL);
    expect_ids("nothing absent", submission_book_causally_rolled_back_ids(book, LEN, coins, 2, NULL, 0, answer, ROOM), 0, NULL);
    expect("no ids to look at", submission_book_absent_outputs_for_ids(book, LEN, NULL, 0, coins, 2, answer, ROOM, &count), 0);
    expect("the empty coin list", count == 2 && answer[0] == 0 && answer[1] == 0, true);
    expect("the book is the same", memcmp(before, book, sizeof book) == 0, true);
}

/* ---- limits: 10, and 11 at the last token */
static void test_full(void) {
    uint64_t all[16];
    expect("open", submission_book_open(book, LEN, 1, 1), 0);
    for (uint8_t i = 0; i < 16; i++) {
        submission_book_delivery d = sample_delivery_with_fee(i, 4, 4);
        d.expiry = (submission_book_optional){true, 77};
        all[i] = 1 + (uint64_t)i;
        expect("queue", queue_delivery(book, LEN, &d), 0);
    }
    submission_book_delivery further = sample_delivery(99, 1, 1);
    keep();
    refused("17th in the queue", queue_delivery(book, LEN, &further), 10);
    drain(16, 0);
    expect("the last of them", drained.submissions[15].token, 16);
    expect("offer all again", submission_book_queue_rebroadcast_epoch(book, LEN, all, 16, SUBMISSION_BOOK_TRIGGER_ROLLBACK), 0);
    drain(16, 0);
    expect("the last of them", drained.submissions[15].predecessor.value, 16);
    size_t longest = 2 + 16 * (8 + 8 + 9 + 1 + SUBMISSION_BOOK_BUNDLE_BYTES + 9 + SUBMISSION_BOOK_FEE_INTENT_BYTES);
    expect("the longest answer of 16 submissions", submission_book_answer_drain(answer, longest, &drained), 0);
    expect("no byte less", submission_book_answer_drain(answer, longest - 1, &drained), 3);
    expect("it fits", longest <= SUBMISSION_BOOK_DRAIN_BYTES, true);
    expect("queue", queue_delivery(book, LEN, &further), 0);
    keep();
    refused("17th retained", submission_book_drain(book, LEN, answer, ROOM), 10);
    for (uint64_t i = 0; i < 64; i++) {
        expect("emit", submission_book_emit_retirement(book, LEN, 100 + i), 0);
    }
    keep();
    refused("65th retirement", submission_book_emit_retirement(book, LEN, 1), 10);
    refused("abandon", submission_book_abandon_attempt(book, LEN, 17, answer, ROOM), 10);
    refused("clear", submission_book_clear_local_artifacts(book, LEN), 10);
    expect("the 64th again", submission_book_emit_retirement(book, LEN, 163), 0);
}

static void test_last_token(void) {
    submission_book_delivery first = sample_delivery(1, 1, 1), second = sample_delivery(2, 1, 1);
    expect("open", submission_book_open(book, LEN, UINT64_MAX - 1, 1), 0);
    expect("queue", queue_delivery(book, LEN, &first), 0);
    expect("queue", queue_delivery(book, LEN, &second), 0);
    keep();
    expect("no token for the second", submission_book_drain(book, LEN, answer, ROOM), 11);
    expect("answer left", memcmp(answer_before, answer, sizeof answer) == 0, true);
    expect("the book moved on", memcmp(before, book, sizeof book) != 0, true);
    expect("next token", number_at(book + 9), UINT64_MAX);
    expect("next id", number_at(book + 17), 3);
    expect("two are retained", book[25], 2);
    expect("the first is live", live_attempt(UINT64_MAX - 1).present, true);
    expect("a look finds its token", look_at(1).live_token.value, UINT64_MAX - 1);
    expect("the second has none", look_at(2).present && !look_at(2).live_token.present, true);
    drain(0, 0);
    memcpy(before, book, sizeof book);
    expect("the second again", queue_delivery(book, LEN, &second), 0);
    expect("no token", submission_book_drain(book, LEN, answer, ROOM), 11);
    expect("the queue alone was emptied", memcmp(before, book, 8 + (size_t)number_at(before)) == 0, true);
    expect("open behind the last token", submission_book_open(book, LEN, UINT64_MAX, 1), 0);
    expect("queue", queue_delivery(book, LEN, &first), 0);
    keep();
    refused("a retained submission is longer", submission_book_drain(book, 8 + (size_t)number_at(book), answer, ROOM), 12);
}

/* ---- archives */
static void test_archives(void) {
    static uint8_t archive[ROOM], again[ROOM], second[LEN];
    uint64_t length = 99, place = 99;
    size_t longest = longest_archive(archive);
    expect("longest archive", longest, ROOM);
    expect("read", submission_book_read(book, LEN, archive, longest, &place), 0);
    expect("place left", place, 99);
    expect("behind its length", number_at(book) == longest && memcmp(book + 8, archive, longest) == 0, true);
    expect("one byte too short", submission_book_read(second, LEN - 1, archive, longest, &place), 12);
    expect("write", submission_book_write(book, LEN, again, ROOM, &length), 0);
    expect("length", length, longest);
    expect("same bytes", memcmp(archive, again, longest) == 0, true);
    expect("sample book", sample_book(book), true);
    expect("write", submission_book_write(book, LEN, archive, ROOM, &length), 0);
    for (uint64_t cut = 0; cut < length; cut++) {
        keep();
        refused("cut", submission_book_read(book, LEN, archive, (size_t)cut, &place), 13);
        expect("place of a cut", place <= cut, true);
    }
    refused("nothing", submission_book_read(book, LEN, NULL, 0, &place), 13);
    expect("place", place, 0);
    archive[length] = 0;
    refused("one byte more", submission_book_read(book, LEN, archive, (size_t)length + 1, &place), 13);
    expect("place of the byte", place, length);
    archive[17] = 17;
    refused("17 retained", submission_book_read(book, LEN, archive, (size_t)length, &place), 13);
    expect("place of the count", place, 17);
}

static void test_calls(void) {
    test_helpers();
    test_payment();
    test_fee_upgrade();
    test_attempts();
    test_chain();
    test_replay();
    test_look_attempts();
    test_look_fee();
    test_look_chain();
    test_look_longest();
    test_summary();
    test_failures();
    test_arguments();
    test_empty_lists();
    test_full();
    test_last_token();
    test_archives();
    test_sizes();
    test_buffers();
    test_looks();
    test_digests();
}

int main(void) {
    test_forms();
    test_answers();
    test_calls();
    printf("%u of %u as expected\n", held - failed, held);
    return failed == 0 ? 0 : 1;
}
