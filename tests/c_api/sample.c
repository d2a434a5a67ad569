#include "sample.h"
#include <stdio.h>
#include <stdlib.h>
#include <string.h>

/* ---- forms */
static size_t built(uint8_t said, size_t length) {
    if (said != SUBMISSION_BOOK_DONE) {
        fprintf(stderr, "a sample's form is refused: %s\n", submission_book_refusal_text(said));
        exit(1);
    }
    return length;
}

size_t delivery_bytes(uint8_t *to, const submission_book_delivery *delivery) {
    size_t length = 0;
    uint8_t said = submission_book_build_delivery(delivery, to, SUBMISSION_BOOK_DELIVERY_BYTES, &length);
    return built(said, length);
}

size_t bundle_bytes(uint8_t *to, const submission_book_bundle *bundle) {
    size_t length = 0;
    uint8_t said = submission_book_build_bundle(bundle, to, SUBMISSION_BOOK_BUNDLE_BYTES, &length);
    return built(said, length);
}

size_t coin_list_bytes(uint8_t *to, size_t room, const submission_book_coin *coins, size_t count) {
    size_t length = 0;
    uint8_t said = submission_book_build_coin_list(coins, count, to, room, &length);
    return built(said, length);
}

/* ---- deliveries */
submission_book_delivery sample_delivery(uint8_t seed, size_t spends, size_t outputs) {
    submission_book_delivery d = {.bundle = {.spend_count = spends}, .fee_intent = {.kind = SUBMISSION_BOOK_FEE_NONE_CONFIGURED}};
    for (size_t i = 0; i < spends; i++) {
        submission_book_spend *spend = &d.bundle.spends[i];
        submission_book_hash parent, puzzle_hash;
        memset(&parent, seed, sizeof parent);
        memset(&puzzle_hash, 0x40 + (int)i, sizeof puzzle_hash);
        spend->coin = submission_book_coin_from_parts(parent, puzzle_hash, UINT64_MAX - i);
        memset(&spend->digest, 0x20 + (int)i, sizeof spend->digest);
        spend->readable = true;
        spend->output_count = outputs;
        for (size_t k = 0; k < outputs; k++) {
            memset(&spend->outputs[k].puzzle_hash, 0x60 + (int)k, 32);
            spend->outputs[k].amount = UINT64_MAX - k;
        }
    }
    return d;
}

submission_book_delivery sample_delivery_with_fee(uint8_t seed, size_t spends, size_t outputs) {
    submission_book_delivery d = sample_delivery(seed, spends, outputs);
    d.fee_intent.kind = SUBMISSION_BOOK_FEE_ATTACH;
    d.fee_intent.target = coin_id_of(&d.bundle.spends[0].coin);
    d.fee_intent.amount = 9;
    return d;
}

uint8_t queue_delivery(uint8_t *book, size_t book_len, const submission_book_delivery *delivery) {
    uint8_t bytes[SUBMISSION_BOOK_DELIVERY_BYTES];
    return submission_book_queue(book, book_len, bytes, delivery_bytes(bytes, delivery));
}

/* ---- the sample book */
static size_t observed_of(uint8_t *to, uint8_t seed) {
    submission_book_delivery d = sample_delivery(seed, 1, 1);
    submission_book_coin coin = output_coin(&d.bundle.spends[0], 0);
    return coin_list_bytes(to, 2 + 74, &coin, 1);
}

bool sample_book(uint8_t *book) {
    static uint8_t answer[SUBMISSION_BOOK_DRAIN_BYTES];
    const size_t n = SUBMISSION_BOOK_BYTES, room = sizeof answer;
    uint8_t observed[2 + 74], said = 0;
    submission_book_delivery first = sample_delivery_with_fee(1, 2, 2), second = sample_delivery(2, 1, 1), third = sample_delivery(3, 1, 1);
    submission_book_delivery fourth = sample_delivery(4, 1, 1), fifth = sample_delivery(5, 1, 1);
    const uint64_t third_id[] = {3};
    said |= submission_book_open(book, n, 5, 1);
    said |= queue_delivery(book, n, &first);
    said |= queue_delivery(book, n, &second);
    said |= queue_delivery(book, n, &third);
    said |= queue_delivery(book, n, &fourth);
    said |= submission_book_drain(book, n, answer, room);
    said |= submission_book_finalize_attempt(book, n, 6, 0, NULL, 0, answer, room);
    said |= submission_book_reconcile_chain_terminality(book, n, observed, observed_of(observed, 4), NULL, 0, 0, NULL, 0);
    said |= submission_book_stop_attempt(book, n, 7, answer, room);
    said |= submission_book_begin_replay(book, n, 1000, answer, room);
    said |= submission_book_collect_rollback_replay_ids(book, n, third_id, 1);
    said |= queue_delivery(book, n, &fifth);
    return said == 0;
}

/* ---- the longest archive */
static size_t put_number(uint8_t *to, uint64_t n) {
    for (size_t i = 0; i < 8; i++) {
        to[i] = (uint8_t)(n >> (56 - 8 * i));
    }
    return 8;
}

static size_t put_run(uint8_t *to, uint8_t byte, size_t length) {
    memset(to, byte, length);
    return length;
}

static size_t put_attempt(uint8_t *to, uint64_t token) {
    size_t at = 0;
    to[at++] = 1;
    at += put_number(to + at, token);
    to[at++] = 0;
    at += put_run(to + at, 0x11, 32);
    to[at++] = 1;
    return at + put_run(to + at, 0x11, 32);
}

static size_t put_submission(uint8_t *to, uint8_t i) {
    submission_book_delivery d = sample_delivery_with_fee(i, 4, 4);
    size_t at = put_number(to, i);
    at += put_attempt(to + at, 2 * (uint64_t)i);
    at += put_attempt(to + at, 2 * (uint64_t)i + 1);
    at += put_run(to + at, 0x12, 32);
    at += bundle_bytes(to + at, &d.bundle);
    to[at++] = 1;
    at += bundle_bytes(to + at, &d.bundle);
    at += put_number(to + at, 9);
    to[at++] = 2;
    to[at++] = SUBMISSION_BOOK_FEE_ATTACH;
    at += put_run(to + at, 0x14, 32);
    at += put_number(to + at, 9);
    to[at++] = 1;
    at += put_run(to + at, 0x13, 32);
    to[at++] = SUBMISSION_BOOK_CHAIN_ACTIVE;
    to[at++] = 1;
    return at + put_number(to + at, 77);
}

size_t longest_archive(uint8_t *archive) {
    size_t at = 0;
    archive[at++] = 2;
    at += put_number(archive + at, 1000);
    at += put_number(archive + at, 1000);
    archive[at++] = 16;
    for (uint8_t i = 0; i < 16; i++) {
        at += put_submission(archive + at, i);
    }
    archive[at++] = 16;
    for (uint8_t i = 0; i < 16; i++) {
        submission_book_delivery d = sample_delivery_with_fee(i, 4, 4);
        d.id = (submission_book_optional){true, i};
        d.expiry = (submission_book_optional){true, 77};
        at += delivery_bytes(archive + at, &d);
    }
    archive[at++] = 64;
    for (uint64_t i = 0; i < 64; i++) {
        at += put_number(archive + at, i);
    }
    archive[at++] = 1;
    at += put_number(archive + at, 1000);
    archive[at++] = 16;
    for (uint64_t i = 0; i < 16; i++) {
        at += put_number(archive + at, i);
    }
    return at;
}

/* ---- each function on the sample book */
static const uint64_t listed[] = {1, 3, 9};

static uint8_t call_open(Lent *l) {
    return submission_book_open(l->book, l->book_len, 7, 9);
}

static uint8_t call_read(Lent *l) {
    static uint8_t archive[SUBMISSION_BOOK_ARCHIVE_BYTES];
    size_t length = longest_archive(archive);
    return submission_book_read(l->book, l->book_len, archive, length, &l->number);
}

static uint8_t call_write(Lent *l) {
    return submission_book_write(l->book, l->book_len, l->answer, l->answer_len, &l->number);
}

static uint8_t call_queue(Lent *l) {
    submission_book_delivery d = sample_delivery_with_fee(6, 4, 4);
    return queue_delivery(l->book, l->book_len, &d);
}

static uint8_t call_queue_retained_delivery(Lent *l) {
    return submission_book_queue_retained_delivery(l->book, l->book_len, 2, SUBMISSION_BOOK_TRIGGER_ROLLBACK, SUBMISSION_BOOK_GOAL_ENSURE_BROADCAST);
}

static uint8_t call_queue_rebroadcast_epoch(Lent *l) {
    return submission_book_queue_rebroadcast_epoch(l->book, l->book_len, listed, 3, SUBMISSION_BOOK_TRIGGER_ROLLBACK);
}

static uint8_t call_queue_fee_readiness(Lent *l) {
    return submission_book_queue_fee_readiness(l->book, l->book_len);
}

static uint8_t call_drain(Lent *l) {
    return submission_book_drain(l->book, l->book_len, l->answer, l->answer_len);
}

static uint8_t call_fee_intent_for_attempt(Lent *l) {
    return submission_book_fee_intent_for_attempt(l->book, l->book_len, 5, l->answer, l->answer_len);
}

static uint8_t call_finalize_attempt(Lent *l) {
    uint8_t joined[SUBMISSION_BOOK_BUNDLE_BYTES];
    submission_book_delivery d = sample_delivery(1, 4, 4);
    size_t length = bundle_bytes(joined, &d.bundle);
    return submission_book_finalize_attempt(l->book, l->book_len, 5, SUBMISSION_BOOK_SOURCE_JOINED, joined, length, l->answer, l->answer_len);
}

static uint8_t call_acknowledge_attempt(Lent *l) {
    return submission_book_acknowledge_attempt(l->book, l->book_len, 6, l->answer, l->answer_len);
}

static uint8_t call_stop_attempt(Lent *l) {
    return submission_book_stop_attempt(l->book, l->book_len, 5, l->answer, l->answer_len);
}

static uint8_t call_abandon_attempt(Lent *l) {
    return submission_book_abandon_attempt(l->book, l->book_len, 6, l->answer, l->answer_len);
}

static uint8_t call_relinquish_completed_attempt(Lent *l) {
    return submission_book_relinquish_completed_attempt(l->book, l->book_len, 7, l->answer, l->answer_len);
}

static uint8_t call_attempt(Lent *l) {
    return submission_book_attempt(l->book, l->book_len, 6, l->answer, l->answer_len);
}

static uint8_t call_retain_submitted(Lent *l) {
    return submission_book_retain_submitted(l->book, l->book_len, listed, 3, l->answer, l->answer_len);
}

static uint8_t call_active_ids(Lent *l) {
    return submission_book_active_ids(l->book, l->book_len, l->answer, l->answer_len);
}

static uint8_t call_emit_retirement(Lent *l) {
    return submission_book_emit_retirement(l->book, l->book_len, 88);
}

static uint8_t call_drain_retirements(Lent *l) {
    return submission_book_drain_retirements(l->book, l->book_len, l->answer, l->answer_len);
}

static uint8_t call_clear_local_artifacts(Lent *l) {
    return submission_book_clear_local_artifacts(l->book, l->book_len);
}

static uint8_t call_restore_runtime(Lent *l) {
    return submission_book_restore_runtime(l->book, l->book_len);
}

/* Submission 2 has landed, an input of submission 1 is spent, and 4 is rolled back. */
static uint8_t call_reconcile_chain_terminality(Lent *l) {
    uint8_t observed[2 + 74];
    const uint64_t rolled_back[] = {4};
    submission_book_hash spent = coin_id_of(&sample_delivery(1, 1, 1).bundle.spends[0].coin);
    size_t length = observed_of(observed, 2);
    return submission_book_reconcile_chain_terminality(l->book, l->book_len, observed, length, spent.bytes, 32, 1, rolled_back, 1);
}

/* The output of submission 4 is absent, and its input live. */
static uint8_t call_causally_rolled_back_ids(Lent *l) {
    uint8_t absent[2 + 74];
    submission_book_hash input = coin_id_of(&sample_delivery(4, 1, 1).bundle.spends[0].coin);
    size_t length = observed_of(absent, 4);
    return submission_book_causally_rolled_back_ids(l->book, l->book_len, absent, length, input.bytes, 32, l->answer, l->answer_len);
}

static uint8_t call_reconciliation_input_coins(Lent *l) {
    uint8_t outputs[2 + 74];
    size_t length = observed_of(outputs, 4);
    return submission_book_reconciliation_input_coins(l->book, l->book_len, outputs, length, l->answer, l->answer_len, &l->number);
}

static uint8_t call_absent_outputs_for_ids(Lent *l) {
    uint8_t absent[2 + 74];
    size_t length = observed_of(absent, 3);
    return submission_book_absent_outputs_for_ids(l->book, l->book_len, listed, 3, absent, length, l->answer, l->answer_len, &l->number);
}

static uint8_t call_begin_replay(Lent *l) {
    return submission_book_begin_replay(l->book, l->book_len, 2000, l->answer, l->answer_len);
}

static uint8_t call_collect_rollback_replay_ids(Lent *l) {
    return submission_book_collect_rollback_replay_ids(l->book, l->book_len, listed, 3);
}

static uint8_t call_finish_replay_if_advanced(Lent *l) {
    return submission_book_finish_replay_if_advanced(l->book, l->book_len, 1001);
}

static uint8_t call_replay_rollback_height(Lent *l) {
    return submission_book_replay_rollback_height(l->book, l->book_len, l->answer, l->answer_len);
}

static uint8_t call_look(Lent *l) {
    return submission_book_look(l->book, l->book_len, 1, l->answer, l->answer_len);
}

static uint8_t call_summary(Lent *l) {
    return submission_book_summary(l->book, l->book_len, l->answer, l->answer_len);
}

const SampleCall sample_calls[CALL_COUNT] = {
    {"open", call_open, true, false, 0},
    {"read", call_read, true, false, 0},
    {"write", call_write, false, true, ANY},
    {"queue", call_queue, false, false, 0},
    {"queue_retained_delivery", call_queue_retained_delivery, false, false, 0},
    {"queue_rebroadcast_epoch", call_queue_rebroadcast_epoch, false, false, 0},
    {"queue_fee_readiness", call_queue_fee_readiness, false, false, 0},
    {"drain", call_drain, false, false, ANY},
    {"fee_intent_for_attempt", call_fee_intent_for_attempt, false, true, SUBMISSION_BOOK_FEE_INTENT_ANSWER_BYTES},
    {"finalize_attempt", call_finalize_attempt, false, false, SUBMISSION_BOOK_FINALIZED_BYTES},
    {"acknowledge_attempt", call_acknowledge_attempt, false, false, SUBMISSION_BOOK_STATUS_BYTES},
    {"stop_attempt", call_stop_attempt, false, false, SUBMISSION_BOOK_STATUS_BYTES},
    {"abandon_attempt", call_abandon_attempt, false, false, SUBMISSION_BOOK_STATUS_BYTES},
    {"relinquish_completed_attempt", call_relinquish_completed_attempt, false, true, SUBMISSION_BOOK_STATUS_BYTES},
    {"attempt", call_attempt, false, true, SUBMISSION_BOOK_ATTEMPT_BYTES},
    {"retain_submitted", call_retain_submitted, false, false, 1 + 2 * 8},
    {"active_ids", call_active_ids, false, true, 1 + 3 * 8},
    {"emit_retirement", call_emit_retirement, false, false, 0},
    {"drain_retirements", call_drain_retirements, false, false, 1 + 8},
    {"clear_local_artifacts", call_clear_local_artifacts, false, false, 0},
    {"restore_runtime", call_restore_runtime, false, false, 0},
    {"reconcile_chain_terminality", call_reconcile_chain_terminality, false, false, 0},
    {"causally_rolled_back_ids", call_causally_rolled_back_ids, false, true, 1 + 8},
    {"reconciliation_input_coins", call_reconciliation_input_coins, false, true, 2 + 5 * 74},
    {"absent_outputs_for_ids", call_absent_outputs_for_ids, false, true, 2 + 74},
    {"begin_replay", call_begin_replay, false, false, SUBMISSION_BOOK_FLAG_BYTES},
    {"collect_rollback_replay_ids", call_collect_rollback_replay_ids, false, false, 0},
    {"finish_replay_if_advanced", call_finish_replay_if_advanced, false, false, 0},
    {"replay_rollback_height", call_replay_rollback_height, false, true, SUBMISSION_BOOK_HEIGHT_BYTES},
    {"look", call_look, false, true, SUBMISSION_BOOK_LOOK_BYTES - 2 * 8}, /* neither an expiry nor a set-aside token */
    {"summary", call_summary, false, true, SUBMISSION_BOOK_SUMMARY_BYTES},
};
