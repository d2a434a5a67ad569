/* Any bytes to every reader of submission_book_answers.h. What a reader takes is laid out again, with the builders where there is one, and must be
 * the very bytes; what it refuses must leave the value. The bytes end at a heap buffer's end, so that AddressSanitizer sees a byte read behind them. */
#include "submission_book_answers.h"
#include <stdio.h>
#include <stdlib.h>
#include <string.h>

/* An answer laid out again. */
static struct {
    uint8_t bytes[SUBMISSION_BOOK_COIN_LIST_BYTES];
    size_t length;
} form;

static void check(bool holds, const char *what) {
    if (!holds) {
        fprintf(stderr, "check failed: %s\n", what);
        abort();
    }
}

static void put_byte(size_t byte) {
    form.bytes[form.length++] = (uint8_t)byte;
}

static void put_number(uint64_t number) {
    for (int shift = 56; shift >= 0; shift -= 8) {
        put_byte(number >> shift & 0xff);
    }
}

static void put_optional(submission_book_optional number) {
    put_byte(number.present);
    if (number.present) {
        put_number(number.value);
    } else {
        check(number.value == 0, "a part that is not there is zero");
    }
}

static void put_hash(const submission_book_hash *hash) {
    memcpy(form.bytes + form.length, hash->bytes, 32);
    form.length += 32;
}

static void put_bundle(const submission_book_bundle *bundle) {
    size_t length = 0;
    check(submission_book_build_bundle(bundle, form.bytes + form.length, sizeof form.bytes - form.length, &length) == 0, "a bundle that was read is built");
    form.length += length;
}

static void put_fee_intent(const submission_book_fee *fee) {
    put_byte(fee->kind);
    if (fee->kind == SUBMISSION_BOOK_FEE_ATTACH) {
        put_hash(&fee->target);
        put_number(fee->amount);
    }
}

static void put_drain(const submission_book_drain_result *result) {
    put_byte(result->submission_count);
    for (size_t i = 0; i < result->submission_count; i++) {
        const submission_book_drained *drained = &result->submissions[i];
        put_number(drained->id);
        put_number(drained->token);
        put_optional(drained->predecessor);
        put_byte(drained->relationship);
        put_bundle(&drained->bundle);
        put_optional(drained->expiry);
        put_fee_intent(&drained->fee_intent);
    }
    put_byte(result->failure_count);
    for (size_t i = 0; i < result->failure_count; i++) {
        const submission_book_failure *failure = &result->failures[i];
        put_number(failure->candidate_index);
        put_optional(failure->retained_id);
        put_optional(failure->candidate_id);
        put_hash(&failure->intent_fingerprint);
        put_byte(failure->stage);
    }
}

static void put_finalized(const submission_book_finalized *finalized) {
    put_byte(finalized->present);
    if (finalized->present) {
        put_bundle(&finalized->bundle);
        put_number(finalized->applied_fee);
        put_byte(finalized->warning);
        put_byte(finalized->disposition);
        put_hash(&finalized->variant_fingerprint);
        put_byte(finalized->should_broadcast);
    }
}

static void put_attempt(const submission_book_live_attempt *attempt) {
    put_byte(attempt->present);
    if (attempt->present) {
        put_number(attempt->token);
        put_byte(attempt->goal);
        put_hash(&attempt->drained_fingerprint);
        put_byte(attempt->finalized);
    }
    if (attempt->finalized) {
        put_hash(&attempt->finalized_fingerprint);
    }
}

static void put_look(const submission_book_look_result *look) {
    put_byte(look->present);
    if (look->present) {
        put_byte(look->chain);
        put_byte(look->acknowledged);
        put_byte(look->fee_resolution);
        put_number(look->applied_fee);
        put_optional(look->expiry);
        put_optional(look->live_token);
        put_optional(look->set_aside_token);
    }
}

static void put_summary(const submission_book_summary_result *summary) {
    put_number(summary->next_token);
    put_number(summary->next_id);
    put_number(summary->retained);
    put_number(summary->queued);
    put_number(summary->retired);
    put_number(summary->replayed);
    put_optional(summary->rollback_height);
}

static void put_ids(const submission_book_ids *ids) {
    put_byte(ids->count);
    for (size_t i = 0; i < ids->count; i++) {
        put_number(ids->ids[i]);
    }
}

static void put_coins(const submission_book_coins *coins) {
    check(submission_book_build_coin_list(coins->coins, coins->count, form.bytes, sizeof form.bytes, &form.length) == 0, "coins that were read are built");
}

static union {
    submission_book_drain_result drain;
    submission_book_optional_fee fee;
    submission_book_finalized finalized;
    uint8_t status;
    submission_book_live_attempt attempt;
    submission_book_ids ids;
    submission_book_coins coins;
    bool flag;
    submission_book_optional height;
    submission_book_look_result look;
    submission_book_summary_result summary;
    uint8_t bytes[1];
} value;

static uint8_t read_kind(unsigned kind, const uint8_t *answer, size_t length) {
    switch (kind) {
    case 0:
        return submission_book_answer_drain(answer, length, &value.drain);
    case 1:
        return submission_book_answer_fee_intent(answer, length, &value.fee);
    case 2:
        return submission_book_answer_finalized(answer, length, &value.finalized);
    case 3:
        return submission_book_answer_status(answer, length, &value.status);
    case 4:
        return submission_book_answer_attempt(answer, length, &value.attempt);
    case 5:
        return submission_book_answer_ids(answer, length, &value.ids);
    case 6:
        return submission_book_answer_coins(answer, length, &value.coins);
    case 7:
        return submission_book_answer_flag(answer, length, &value.flag);
    case 8:
        return submission_book_answer_look(answer, length, &value.look);
    case 9:
        return submission_book_answer_summary(answer, length, &value.summary);
    default:
        return submission_book_answer_height(answer, length, &value.height);
    }
}

static void put_kind(unsigned kind) {
    switch (kind) {
    case 0:
        put_drain(&value.drain);
        break;
    case 1:
        put_byte(value.fee.present);
        if (value.fee.present) {
            put_fee_intent(&value.fee.fee_intent);
        }
        break;
    case 2:
        put_finalized(&value.finalized);
        break;
    case 3:
        put_byte(value.status);
        break;
    case 4:
        put_attempt(&value.attempt);
        break;
    case 5:
        put_ids(&value.ids);
        break;
    case 6:
        put_coins(&value.coins);
        break;
    case 7:
        put_byte(value.flag);
        break;
    case 8:
        put_look(&value.look);
        break;
    case 9:
        put_summary(&value.summary);
        break;
    default:
        put_optional(value.height);
        break;
    }
}

/* The first byte names the reader. */
int LLVMFuzzerTestOneInput(const uint8_t *data, size_t size);
int LLVMFuzzerTestOneInput(const uint8_t *data, size_t size) {
    static uint8_t before[sizeof value];
    if (size == 0) {
        return 0;
    }
    unsigned kind = data[0] % 11;
    size_t length = size - 1;
    uint8_t *answer = malloc(length == 0 ? 1 : length);
    check(answer != NULL, "memory");
    memcpy(answer, data + 1, length);
    memset(&value, 0xa5, sizeof value);
    memset(before, 0xa5, sizeof before);
    form.length = 0;
    uint8_t said = read_kind(kind, length == 0 ? NULL : answer, length);
    if (said == 0) {
        put_kind(kind);
        check(form.length <= length && memcmp(form.bytes, answer, form.length) == 0, "laid out again, it is the same bytes");
        check(read_kind(kind, answer, form.length) == 0, "the answer alone is read");
        check(read_kind(kind, answer, form.length - 1) == 3, "a byte less is refused");
    } else {
        check(said == 3, "refused 3");
        check(memcmp(&value, before, sizeof value) == 0, "a refusal leaves the value");
    }
    free(answer);
    return 0;
}
