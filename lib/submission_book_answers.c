/* Tested, not proved: the C part of the library. */
#include "submission_book_answers.h"
#include <string.h>

uint32_t submission_book_version(void) {
    return SUBMISSION_BOOK_VERSION;
}

const char *submission_book_refusal_text(uint8_t number) {
    switch (number) {
    case SUBMISSION_BOOK_DONE:
        return "done";
    case SUBMISSION_BOOK_NO_BOOK:
        return "the bytes hold no book";
    case SUBMISSION_BOOK_BAD_LIST:
        return "a list is out of form or too long";
    case SUBMISSION_BOOK_BAD_VALUE:
        return "an argument stands for no value";
    case SUBMISSION_BOOK_UNKNOWN_TOKEN:
        return "this token was never issued";
    case SUBMISSION_BOOK_ALREADY_FINALIZED:
        return "the attempt was finalised before";
    case SUBMISSION_BOOK_NOT_FINALIZED:
        return "the attempt is not finalised yet";
    case SUBMISSION_BOOK_INVALID_SUBMISSION:
        return "the retained submission contradicts itself";
    case SUBMISSION_BOOK_STALE_VARIANT:
        return "the submission's current bundle is not the one of this attempt";
    case SUBMISSION_BOOK_UNREQUESTED_FEE:
        return "there is a fee source, but no fee is open";
    case SUBMISSION_BOOK_FULL:
        return "a limit of the book would be passed";
    case SUBMISSION_BOOK_NO_TOKEN:
        return "no token is left; what was done before stays";
    case SUBMISSION_BOOK_SHORT_BUFFER:
        return "a buffer is too short";
    case SUBMISSION_BOOK_NO_ARCHIVE:
        return "the bytes are no archive";
    default:
        return "no such refusal";
    }
}

submission_book_coin submission_book_coin_from_parts(submission_book_hash parent, submission_book_hash puzzle_hash, uint64_t amount) {
    submission_book_coin coin;
    uint8_t wide[9] = {0};
    size_t skip = 0;
    memset(&coin, 0, sizeof coin);
    memcpy(coin.bytes, parent.bytes, 32);
    memcpy(coin.bytes + 32, puzzle_hash.bytes, 32);
    for (size_t i = 0; i < 8; i++) {
        wide[1 + i] = (uint8_t)(amount >> (56 - 8 * i));
    }
    /* A leading zero byte goes, unless the next one would then read as a sign; of the amount 0 nothing is left. */
    while (skip < 8 && wide[skip] == 0 && wide[skip + 1] < 0x80) {
        skip++;
    }
    if (amount == 0) {
        skip = 9;
    }
    memcpy(coin.bytes + 64, wide + skip, 9 - skip);
    coin.length = 64 + 9 - skip;
    return coin;
}

/* ---- building: a first run counts the bytes and looks at ranges, a second one writes */
typedef struct {
    uint8_t *to; /* NULL in the first run */
    size_t at;
    bool bad;
} Writer;

static void put(Writer *w, const uint8_t *from, size_t length) {
    if (w->to != NULL && length > 0) {
        memcpy(w->to + w->at, from, length);
    }
    w->at += length;
}

/* A count, length or kind, at most `most`. Says whether it is. */
static bool put_byte(Writer *w, size_t value, size_t most) {
    uint8_t byte = (uint8_t)value;
    put(w, &byte, 1);
    w->bad = w->bad || value > most;
    return value <= most;
}

static void put_number(Writer *w, uint64_t number) {
    for (size_t i = 0; i < 8; i++) {
        put_byte(w, (number >> (56 - 8 * i)) & 0xff, 0xff);
    }
}

static void put_hash(Writer *w, const submission_book_hash *hash) {
    put(w, hash->bytes, 32);
}

static void put_optional(Writer *w, const submission_book_optional *number) {
    put_byte(w, number->present ? 1 : 0, 1);
    if (number->present) {
        put_number(w, number->value);
    }
}

static void put_coin(Writer *w, const submission_book_coin *coin) {
    if (put_byte(w, coin->length, SUBMISSION_BOOK_COIN_BYTES)) {
        put(w, coin->bytes, coin->length);
    }
}

static void put_spend(Writer *w, const submission_book_spend *spend) {
    put_coin(w, &spend->coin);
    put_hash(w, &spend->digest);
    put_byte(w, spend->readable ? SUBMISSION_BOOK_RUN_READABLE : SUBMISSION_BOOK_RUN_UNREADABLE, SUBMISSION_BOOK_RUN_READABLE);
    if (!spend->readable || !put_byte(w, spend->output_count, SUBMISSION_BOOK_OUTPUTS_LIMIT)) {
        return;
    }
    for (size_t i = 0; i < spend->output_count; i++) {
        put_hash(w, &spend->outputs[i].puzzle_hash);
        put_number(w, spend->outputs[i].amount);
    }
}

static void put_spends(Writer *w, const submission_book_bundle *bundle) {
    for (size_t i = 0; i < bundle->spend_count; i++) {
        put_spend(w, &bundle->spends[i]);
    }
}

static void put_bundle(Writer *w, const void *value) {
    const submission_book_bundle *bundle = (const submission_book_bundle *)value;
    if (put_byte(w, bundle->spend_count, SUBMISSION_BOOK_SPENDS_LIMIT)) {
        put_spends(w, bundle);
    }
}

typedef struct {
    const submission_book_bundle *base, *fee;
} Joined;

static void put_joined(Writer *w, const void *value) {
    const Joined *joined = (const Joined *)value;
    const size_t most = SUBMISSION_BOOK_SPENDS_LIMIT;
    if (joined->base->spend_count > most || joined->fee->spend_count > most) {
        w->bad = true;
    } else if (put_byte(w, joined->base->spend_count + joined->fee->spend_count, most)) {
        put_spends(w, joined->base);
        put_spends(w, joined->fee);
    }
}

static void put_fee_intent(Writer *w, const submission_book_fee *intent) {
    put_byte(w, intent->kind, SUBMISSION_BOOK_FEE_ATTACH);
    if (intent->kind == SUBMISSION_BOOK_FEE_ATTACH) {
        put_hash(w, &intent->target);
        put_number(w, intent->amount);
    }
}

static void put_delivery(Writer *w, const void *value) {
    const submission_book_delivery *delivery = (const submission_book_delivery *)value;
    put_optional(w, &delivery->id);
    put_bundle(w, &delivery->bundle);
    put_optional(w, &delivery->expiry);
    put_fee_intent(w, &delivery->fee_intent);
    put_byte(w, delivery->trigger, SUBMISSION_BOOK_TRIGGER_PROVIDER_READINESS);
    put_byte(w, delivery->goal, SUBMISSION_BOOK_GOAL_FEE_UPGRADE);
}

typedef struct {
    const submission_book_coin *coins;
    const submission_book_hash *coin_ids;
    size_t count;
} List;

static void put_coin_list(Writer *w, const void *value) {
    const List *list = (const List *)value;
    if (list->count > SUBMISSION_BOOK_LISTED_COINS_LIMIT) {
        w->bad = true;
        return;
    }
    put_byte(w, list->count >> 8, 0xff);
    put_byte(w, list->count & 0xff, 0xff);
    for (size_t i = 0; i < list->count; i++) {
        put_coin(w, &list->coins[i]);
    }
}

static void put_coin_ids(Writer *w, const void *value) {
    const List *list = (const List *)value;
    if (list->count > SUBMISSION_BOOK_LISTED_COINS_LIMIT) {
        w->bad = true;
        return;
    }
    for (size_t i = 0; i < list->count; i++) {
        put_hash(w, &list->coin_ids[i]);
    }
}

typedef struct {
    uint8_t *bytes;
    size_t bytes_len;
    size_t *length;
} Lent;

/* `bad` is the refusal of a value that is out of range. */
static uint8_t build(void (*put_form)(Writer *, const void *), const void *value, uint8_t bad, Lent lent) {
    Writer counted = {NULL, 0, false}, written = {lent.bytes, 0, false};
    put_form(&counted, value);
    if (counted.bad) {
        return bad;
    }
    if (counted.at > lent.bytes_len) {
        return SUBMISSION_BOOK_SHORT_BUFFER;
    }
    put_form(&written, value);
    *lent.length = written.at;
    return SUBMISSION_BOOK_DONE;
}

uint8_t submission_book_build_delivery(const submission_book_delivery *delivery, uint8_t *bytes, size_t bytes_len, size_t *length) {
    Lent lent = {bytes, bytes_len, length};
    return build(put_delivery, delivery, SUBMISSION_BOOK_BAD_VALUE, lent);
}

uint8_t submission_book_build_bundle(const submission_book_bundle *bundle, uint8_t *bytes, size_t bytes_len, size_t *length) {
    Lent lent = {bytes, bytes_len, length};
    return build(put_bundle, bundle, SUBMISSION_BOOK_BAD_VALUE, lent);
}

uint8_t submission_book_build_joined_bundle(const submission_book_bundle *base, const submission_book_bundle *fee, uint8_t *bytes, size_t bytes_len,
                                            size_t *length) {
    Joined joined = {base, fee};
    Lent lent = {bytes, bytes_len, length};
    return build(put_joined, &joined, SUBMISSION_BOOK_BAD_VALUE, lent);
}

uint8_t submission_book_build_coin_list(const submission_book_coin *coins, size_t coins_len, uint8_t *bytes, size_t bytes_len, size_t *length) {
    List list = {coins, NULL, coins_len};
    Lent lent = {bytes, bytes_len, length};
    return build(put_coin_list, &list, SUBMISSION_BOOK_BAD_LIST, lent);
}

uint8_t submission_book_build_coin_ids(const submission_book_hash *coin_ids, size_t coin_ids_len, uint8_t *bytes, size_t bytes_len, size_t *length) {
    List list = {NULL, coin_ids, coin_ids_len};
    Lent lent = {bytes, bytes_len, length};
    return build(put_coin_ids, &list, SUBMISSION_BOOK_BAD_LIST, lent);
}

/* ---- reading: once something is cut short or out of range the reader stays bad, and what it hands out is zero */
typedef struct {
    const uint8_t *from;
    size_t length, at;
    bool bad;
} Reader;

static void take(Reader *r, uint8_t *to, size_t length) {
    if (r->bad || r->length - r->at < length) {
        r->bad = true;
        memset(to, 0, length);
    } else if (length > 0) {
        memcpy(to, r->from + r->at, length);
        r->at += length;
    }
}

static uint8_t take_byte(Reader *r, uint8_t most) {
    uint8_t byte = 0;
    take(r, &byte, 1);
    r->bad = r->bad || byte > most;
    return r->bad ? 0 : byte;
}

static bool take_mark(Reader *r) {
    return take_byte(r, 1) == 1;
}

static uint64_t take_number(Reader *r) {
    uint64_t number = 0;
    for (size_t i = 0; i < 8; i++) {
        number = number << 8 | take_byte(r, 0xff);
    }
    return number;
}

/* A count of eight bytes. */
static size_t take_count(Reader *r, size_t most) {
    uint64_t count = take_number(r);
    r->bad = r->bad || count > most;
    return r->bad ? 0 : (size_t)count;
}

static void take_hash(Reader *r, submission_book_hash *hash) {
    take(r, hash->bytes, 32);
}

static void take_optional(Reader *r, submission_book_optional *number) {
    number->present = take_mark(r);
    number->value = number->present ? take_number(r) : 0;
}

static void take_coin(Reader *r, submission_book_coin *coin) {
    coin->length = take_byte(r, SUBMISSION_BOOK_COIN_BYTES);
    take(r, coin->bytes, coin->length);
}

static void take_spend(Reader *r, submission_book_spend *spend) {
    take_coin(r, &spend->coin);
    take_hash(r, &spend->digest);
    spend->readable = take_byte(r, SUBMISSION_BOOK_RUN_READABLE) == SUBMISSION_BOOK_RUN_READABLE;
    spend->output_count = spend->readable ? take_byte(r, SUBMISSION_BOOK_OUTPUTS_LIMIT) : 0;
    for (size_t i = 0; i < spend->output_count; i++) {
        take_hash(r, &spend->outputs[i].puzzle_hash);
        spend->outputs[i].amount = take_number(r);
    }
}

static void take_bundle(Reader *r, submission_book_bundle *bundle) {
    bundle->spend_count = take_byte(r, SUBMISSION_BOOK_SPENDS_LIMIT);
    for (size_t i = 0; i < bundle->spend_count; i++) {
        take_spend(r, &bundle->spends[i]);
    }
}

static void take_fee_intent(Reader *r, submission_book_fee *intent) {
    intent->kind = take_byte(r, SUBMISSION_BOOK_FEE_ATTACH);
    if (intent->kind == SUBMISSION_BOOK_FEE_ATTACH) {
        take_hash(r, &intent->target);
        intent->amount = take_number(r);
    }
}

static void take_drained(Reader *r, submission_book_drained *drained) {
    drained->id = take_number(r);
    drained->token = take_number(r);
    take_optional(r, &drained->predecessor);
    drained->relationship = take_byte(r, SUBMISSION_BOOK_RELATIONSHIP_OTHER);
    take_bundle(r, &drained->bundle);
    take_optional(r, &drained->expiry);
    take_fee_intent(r, &drained->fee_intent);
}

static void take_failure(Reader *r, submission_book_failure *failure) {
    failure->candidate_index = take_number(r);
    take_optional(r, &failure->retained_id);
    take_optional(r, &failure->candidate_id);
    take_hash(r, &failure->intent_fingerprint);
    failure->stage = take_byte(r, SUBMISSION_BOOK_STAGE_SUBMISSION_ID);
}

/* Hands the value out where the answer was whole. */
static uint8_t settle(const Reader *r, void *to, const void *value, size_t size) {
    if (r->bad) {
        return SUBMISSION_BOOK_BAD_VALUE;
    }
    memcpy(to, value, size);
    return SUBMISSION_BOOK_DONE;
}

uint8_t submission_book_answer_summary(const uint8_t *answer, size_t answer_len, submission_book_summary_result *summary) {
    Reader r = {answer, answer_len, 0, false};
    submission_book_summary_result value;
    memset(&value, 0, sizeof value);
    value.next_token = take_number(&r);
    value.next_id = take_number(&r);
    value.retained = take_count(&r, SUBMISSION_BOOK_RETAINED_LIMIT);
    value.queued = take_count(&r, SUBMISSION_BOOK_QUEUE_LIMIT);
    value.retired = take_count(&r, SUBMISSION_BOOK_RETIREMENTS_LIMIT);
    value.replayed = take_count(&r, SUBMISSION_BOOK_REPLAYED_LIMIT);
    take_optional(&r, &value.rollback_height);
    return settle(&r, summary, &value, sizeof value);
}

uint8_t submission_book_answer_drain(const uint8_t *answer, size_t answer_len, submission_book_drain_result *result) {
    Reader r = {answer, answer_len, 0, false};
    submission_book_drain_result value;
    memset(&value, 0, sizeof value);
    value.submission_count = take_byte(&r, SUBMISSION_BOOK_QUEUE_LIMIT);
    for (size_t i = 0; i < value.submission_count; i++) {
        take_drained(&r, &value.submissions[i]);
    }
    value.failure_count = take_byte(&r, SUBMISSION_BOOK_QUEUE_LIMIT);
    for (size_t i = 0; i < value.failure_count; i++) {
        take_failure(&r, &value.failures[i]);
    }
    return settle(&r, result, &value, sizeof value);
}

uint8_t submission_book_answer_fee_intent(const uint8_t *answer, size_t answer_len, submission_book_optional_fee *fee) {
    Reader r = {answer, answer_len, 0, false};
    submission_book_optional_fee value;
    memset(&value, 0, sizeof value);
    value.present = take_mark(&r);
    if (value.present) {
        take_fee_intent(&r, &value.fee_intent);
    }
    return settle(&r, fee, &value, sizeof value);
}

uint8_t submission_book_answer_finalized(const uint8_t *answer, size_t answer_len, submission_book_finalized *finalized) {
    Reader r = {answer, answer_len, 0, false};
    submission_book_finalized value;
    memset(&value, 0, sizeof value);
    value.present = take_mark(&r);
    if (value.present) {
        take_bundle(&r, &value.bundle);
        value.applied_fee = take_number(&r);
        value.warning = take_mark(&r);
        value.disposition = take_byte(&r, SUBMISSION_BOOK_DISPOSITION_NOT_REQUESTED);
        take_hash(&r, &value.variant_fingerprint);
        value.should_broadcast = take_mark(&r);
    }
    return settle(&r, finalized, &value, sizeof value);
}

uint8_t submission_book_answer_status(const uint8_t *answer, size_t answer_len, uint8_t *status) {
    Reader r = {answer, answer_len, 0, false};
    uint8_t value = take_byte(&r, SUBMISSION_BOOK_STATUS_STALE);
    return settle(&r, status, &value, sizeof value);
}

uint8_t submission_book_answer_attempt(const uint8_t *answer, size_t answer_len, submission_book_live_attempt *attempt) {
    Reader r = {answer, answer_len, 0, false};
    submission_book_live_attempt value;
    memset(&value, 0, sizeof value);
    value.present = take_mark(&r);
    if (value.present) {
        value.token = take_number(&r);
        value.goal = take_byte(&r, SUBMISSION_BOOK_GOAL_FEE_UPGRADE);
        take_hash(&r, &value.drained_fingerprint);
        value.finalized = take_mark(&r);
    }
    if (value.finalized) {
        take_hash(&r, &value.finalized_fingerprint);
    }
    return settle(&r, attempt, &value, sizeof value);
}

uint8_t submission_book_answer_ids(const uint8_t *answer, size_t answer_len, submission_book_ids *ids) {
    Reader r = {answer, answer_len, 0, false};
    submission_book_ids value;
    memset(&value, 0, sizeof value);
    value.count = take_byte(&r, SUBMISSION_BOOK_RETIREMENTS_LIMIT);
    for (size_t i = 0; i < value.count; i++) {
        value.ids[i] = take_number(&r);
    }
    return settle(&r, ids, &value, sizeof value);
}

uint8_t submission_book_answer_look(const uint8_t *answer, size_t answer_len, submission_book_look_result *look) {
    Reader r = {answer, answer_len, 0, false};
    submission_book_look_result value;
    memset(&value, 0, sizeof value);
    value.present = take_mark(&r);
    if (value.present) {
        value.chain = take_byte(&r, SUBMISSION_BOOK_CHAIN_LANDED);
        value.acknowledged = take_mark(&r);
        value.fee_resolution = take_byte(&r, SUBMISSION_BOOK_RESOLUTION_ATTACHED);
        value.applied_fee = take_number(&r);
        take_optional(&r, &value.expiry);
        take_optional(&r, &value.live_token);
        take_optional(&r, &value.set_aside_token);
    }
    return settle(&r, look, &value, sizeof value);
}

uint8_t submission_book_answer_coins(const uint8_t *answer, size_t answer_len, submission_book_coins *coins) {
    Reader r = {answer, answer_len, 0, false};
    submission_book_coins value;
    memset(&value, 0, sizeof value);
    size_t count = take_byte(&r, 0xff);
    count = count << 8 | take_byte(&r, 0xff);
    if (count > SUBMISSION_BOOK_ANSWERED_COINS_LIMIT) {
        return SUBMISSION_BOOK_BAD_VALUE;
    }
    value.count = count;
    for (size_t i = 0; i < count; i++) {
        take_coin(&r, &value.coins[i]);
    }
    return settle(&r, coins, &value, sizeof value);
}

uint8_t submission_book_answer_flag(const uint8_t *answer, size_t answer_len, bool *flag) {
    Reader r = {answer, answer_len, 0, false};
    bool value = take_mark(&r);
    return settle(&r, flag, &value, sizeof value);
}

uint8_t submission_book_answer_height(const uint8_t *answer, size_t answer_len, submission_book_optional *height) {
    Reader r = {answer, answer_len, 0, false};
    submission_book_optional value;
    memset(&value, 0, sizeof value);
    take_optional(&r, &value);
    return settle(&r, height, &value, sizeof value);
}
