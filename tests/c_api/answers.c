/* Readers and builders: every kind of answer, made by hand and by real calls, cut short at every length; every builder in buffers of every length;
 * and what was built, taken by the library and read from its answers. Buffers end where memory begins that must not be touched. */
#include <stdio.h>
#include <string.h>
#include "expect.h"
#include "sample.h"

enum { LEN = SUBMISSION_BOOK_BYTES, FILL = 0xa5, NUMBER = 99 };

static uint8_t *memory_end;
static uint8_t book[LEN];

/* ---- every reader behind one type */
typedef struct {
    const char *name;
    uint8_t (*read)(const uint8_t *answer, size_t answer_len, void *value);
    size_t size; /* of the value */
} AnswerReader;

static uint8_t read_drain(const uint8_t *a, size_t n, void *v) {
    return submission_book_answer_drain(a, n, v);
}

static uint8_t read_fee_intent(const uint8_t *a, size_t n, void *v) {
    return submission_book_answer_fee_intent(a, n, v);
}

static uint8_t read_finalized(const uint8_t *a, size_t n, void *v) {
    return submission_book_answer_finalized(a, n, v);
}

static uint8_t read_status(const uint8_t *a, size_t n, void *v) {
    return submission_book_answer_status(a, n, v);
}

static uint8_t read_attempt(const uint8_t *a, size_t n, void *v) {
    return submission_book_answer_attempt(a, n, v);
}

static uint8_t read_ids(const uint8_t *a, size_t n, void *v) {
    return submission_book_answer_ids(a, n, v);
}

static uint8_t read_coins(const uint8_t *a, size_t n, void *v) {
    return submission_book_answer_coins(a, n, v);
}

static uint8_t read_flag(const uint8_t *a, size_t n, void *v) {
    return submission_book_answer_flag(a, n, v);
}

static uint8_t read_height(const uint8_t *a, size_t n, void *v) {
    return submission_book_answer_height(a, n, v);
}

static uint8_t read_look(const uint8_t *a, size_t n, void *v) {
    return submission_book_answer_look(a, n, v);
}

static uint8_t read_summary(const uint8_t *a, size_t n, void *v) {
    return submission_book_answer_summary(a, n, v);
}

static const AnswerReader drain_reader = {"drain", read_drain, sizeof(submission_book_drain_result)};
static const AnswerReader fee_intent_reader = {"fee intent", read_fee_intent, sizeof(submission_book_optional_fee)};
static const AnswerReader finalized_reader = {"finalized", read_finalized, sizeof(submission_book_finalized)};
static const AnswerReader status_reader = {"status", read_status, sizeof(uint8_t)};
static const AnswerReader attempt_reader = {"attempt", read_attempt, sizeof(submission_book_live_attempt)};
static const AnswerReader ids_reader = {"ids", read_ids, sizeof(submission_book_ids)};
static const AnswerReader coins_reader = {"coins", read_coins, sizeof(submission_book_coins)};
static const AnswerReader flag_reader = {"flag", read_flag, sizeof(bool)};
static const AnswerReader height_reader = {"height", read_height, sizeof(submission_book_optional)};
static const AnswerReader look_reader = {"look", read_look, sizeof(submission_book_look_result)};
static const AnswerReader summary_reader = {"summary", read_summary, sizeof(submission_book_summary_result)};

enum { VALUE_BYTES = 1 << 15 };
static uint8_t value[VALUE_BYTES], untouched[VALUE_BYTES];

/* Reads the first `n` of the bytes, behind which no byte may be read. */
static uint8_t read_first(const AnswerReader *reader, const uint8_t *bytes, size_t n) {
    expect_for(reader->name, "room for the value", reader->size <= sizeof value, true);
    memset(value, FILL, sizeof value);
    if (n > 0) {
        memcpy(memory_end - n, bytes, n);
    }
    uint8_t said = reader->read(n > 0 ? memory_end - n : NULL, n, value);
    size_t written = said == 0 ? reader->size : 0;
    expect_for(reader->name, "nothing else is written", memcmp(value + written, untouched, sizeof value - written) == 0, true);
    return said;
}

/* The answer is refused at every length below its own, which is answered. */
static size_t cut_everywhere(const AnswerReader *reader, const uint8_t *bytes, size_t most) {
    size_t n = 0;
    while (n < most && read_first(reader, bytes, n) == SUBMISSION_BOOK_BAD_VALUE) {
        n++;
    }
    expect_for(reader->name, "whole", read_first(reader, bytes, n), 0);
    return n;
}

/* ---- answers made by hand: their bytes, and the greatest value of each byte that has one */
typedef struct {
    uint8_t bytes[4000];
    size_t length;
    size_t limited[400];
    uint8_t most[400];
    size_t limited_count;
} Form;

static void form_byte(Form *f, uint8_t byte, uint8_t most) {
    f->limited[f->limited_count] = f->length;
    f->most[f->limited_count++] = most;
    f->bytes[f->length++] = byte;
}

static uint64_t form_number(Form *f, uint64_t number) {
    for (int shift = 56; shift >= 0; shift -= 8) {
        f->bytes[f->length++] = (uint8_t)(number >> shift);
    }
    return number;
}

/* A count of eight bytes, at most `most`. */
static size_t form_count(Form *f, uint8_t count, uint8_t most) {
    for (size_t i = 0; i < 7; i++) {
        form_byte(f, 0, 0);
    }
    form_byte(f, count, most);
    return count;
}

static void form_run(Form *f, uint8_t first, uint8_t *copy, size_t length) {
    for (size_t i = 0; i < length; i++) {
        copy[i] = (uint8_t)(first + i);
        f->bytes[f->length++] = copy[i];
    }
}

static void form_hash(Form *f, uint8_t first, submission_book_hash *hash) {
    form_run(f, first, hash->bytes, sizeof hash->bytes);
}

static void form_present(Form *f, uint64_t number, submission_book_optional *optional) {
    form_byte(f, 1, 1);
    optional->present = true;
    optional->value = form_number(f, number);
}

static void form_coin(Form *f, uint8_t length, submission_book_coin *coin) {
    form_byte(f, length, 73);
    coin->length = length;
    form_run(f, 0x30, coin->bytes, length);
}

/* Two spends, one with two outputs and one that is unreadable. */
static void form_bundle(Form *f, submission_book_bundle *bundle) {
    submission_book_spend *first = &bundle->spends[0], *second = &bundle->spends[1];
    form_byte(f, 2, 4);
    bundle->spend_count = 2;
    form_coin(f, 73, &first->coin);
    form_hash(f, 0x10, &first->digest);
    form_byte(f, 1, 1);
    first->readable = true;
    form_byte(f, 2, 4);
    first->output_count = 2;
    for (uint8_t i = 0; i < 2; i++) {
        form_hash(f, (uint8_t)(0x50 + i), &first->outputs[i].puzzle_hash);
        first->outputs[i].amount = form_number(f, UINT64_MAX - i);
    }
    form_coin(f, 0, &second->coin);
    form_hash(f, 0x20, &second->digest);
    form_byte(f, 0, 1);
}

static void form_fee_intent(Form *f, submission_book_fee *fee) {
    form_byte(f, 2, 2);
    fee->kind = SUBMISSION_BOOK_FEE_ATTACH;
    form_hash(f, 0x70, &fee->target);
    fee->amount = form_number(f, 0x0102030405060708);
}

/* The form is read as `wanted`, and is refused where it is cut or a byte is over its limit. */
static void check_form(const AnswerReader *reader, const Form *form, const void *wanted) {
    uint8_t bytes[sizeof form->bytes];
    memcpy(bytes, form->bytes, sizeof bytes);
    expect_for(reader->name, "length", cut_everywhere(reader, bytes, sizeof bytes), form->length);
    expect_for(reader->name, "value", memcmp(value, wanted, reader->size) == 0, true);
    memset(bytes + form->length, 0xff, 8);
    expect_for(reader->name, "with bytes behind it", read_first(reader, bytes, form->length + 8), 0);
    expect_for(reader->name, "the same value", memcmp(value, wanted, reader->size) == 0, true);
    for (size_t i = 0; i < form->limited_count; i++) {
        uint8_t *byte = &bytes[form->limited[i]];
        uint8_t before = *byte;
        *byte = (uint8_t)(form->most[i] + 1);
        expect_for(reader->name, "over its limit", read_first(reader, bytes, sizeof bytes), 3);
        *byte = 0xff;
        expect_for(reader->name, "far over its limit", read_first(reader, bytes, sizeof bytes), 3);
        *byte = before;
    }
}

static void test_drains(void) {
    static submission_book_drain_result wanted;
    static Form f;
    submission_book_drained *first = &wanted.submissions[0], *second = &wanted.submissions[1];
    form_byte(&f, 2, 16);
    wanted.submission_count = 2;
    first->id = form_number(&f, 7);
    first->token = form_number(&f, 1 + (uint64_t)UINT32_MAX);
    form_present(&f, 6, &first->predecessor);
    form_byte(&f, 3, 3);
    first->relationship = SUBMISSION_BOOK_RELATIONSHIP_OTHER;
    form_bundle(&f, &first->bundle);
    form_present(&f, 9000, &first->expiry);
    form_fee_intent(&f, &first->fee_intent);
    second->id = form_number(&f, 8);
    second->token = form_number(&f, 9);
    form_byte(&f, 0, 1); /* no predecessor */
    form_byte(&f, 0, 3);
    form_byte(&f, 0, 4); /* no spends */
    form_byte(&f, 0, 1); /* no expiry */
    form_byte(&f, 1, 2);
    second->fee_intent.kind = SUBMISSION_BOOK_FEE_NONE_CONFIGURED;
    form_byte(&f, 1, 16);
    wanted.failure_count = 1;
    wanted.failures[0].candidate_index = form_number(&f, 3);
    form_present(&f, 4, &wanted.failures[0].retained_id);
    form_present(&f, 5, &wanted.failures[0].candidate_id);
    form_hash(&f, 0x90, &wanted.failures[0].intent_fingerprint);
    form_byte(&f, 2, 3);
    wanted.failures[0].stage = SUBMISSION_BOOK_STAGE_EXPECTED_OUTPUTS;
    check_form(&drain_reader, &f, &wanted);
}

static void test_finalized(void) {
    static submission_book_finalized wanted, none;
    static Form f, without;
    form_byte(&f, 1, 1);
    wanted.present = true;
    form_bundle(&f, &wanted.bundle);
    wanted.applied_fee = form_number(&f, 25);
    form_byte(&f, 1, 1);
    wanted.warning = true;
    form_byte(&f, 1, 2);
    wanted.disposition = SUBMISSION_BOOK_DISPOSITION_UNUSED;
    form_hash(&f, 0xa0, &wanted.variant_fingerprint);
    form_byte(&f, 1, 1);
    wanted.should_broadcast = true;
    check_form(&finalized_reader, &f, &wanted);
    form_byte(&without, 0, 1);
    check_form(&finalized_reader, &without, &none);
}

static void test_attempt_forms(void) {
    static submission_book_live_attempt wanted, unfinalized, none;
    static Form f, open, without;
    form_byte(&f, 1, 1);
    wanted.present = true;
    wanted.token = form_number(&f, UINT64_MAX - 1);
    form_byte(&f, 1, 1);
    wanted.goal = SUBMISSION_BOOK_GOAL_FEE_UPGRADE;
    form_hash(&f, 0xb0, &wanted.drained_fingerprint);
    open = f;
    unfinalized = wanted;
    form_byte(&f, 1, 1);
    wanted.finalized = true;
    form_hash(&f, 0xc0, &wanted.finalized_fingerprint);
    check_form(&attempt_reader, &f, &wanted);
    form_byte(&open, 0, 1);
    check_form(&attempt_reader, &open, &unfinalized);
    form_byte(&without, 0, 1);
    check_form(&attempt_reader, &without, &none);
}

static void test_look_forms(void) {
    static submission_book_look_result wanted, bare, none;
    static Form f, short_form, without;
    form_byte(&f, 1, 1);
    wanted.present = true;
    form_byte(&f, 2, 2);
    wanted.chain = SUBMISSION_BOOK_CHAIN_LANDED;
    form_byte(&f, 1, 1);
    wanted.acknowledged = true;
    form_byte(&f, 2, 2);
    wanted.fee_resolution = SUBMISSION_BOOK_RESOLUTION_ATTACHED;
    wanted.applied_fee = form_number(&f, 25);
    short_form = f;
    bare = wanted;
    form_present(&f, 9000, &wanted.expiry);
    form_present(&f, UINT64_MAX - 1, &wanted.live_token);
    form_present(&f, 5, &wanted.set_aside_token);
    expect("the longest look", f.length, SUBMISSION_BOOK_LOOK_BYTES);
    check_form(&look_reader, &f, &wanted);
    for (size_t i = 0; i < 3; i++) {
        form_byte(&short_form, 0, 1);
    }
    check_form(&look_reader, &short_form, &bare);
    form_byte(&without, 0, 1);
    check_form(&look_reader, &without, &none);
}

static void test_summary_forms(void) {
    static submission_book_summary_result wanted, calm;
    static Form f, calm_form;
    wanted.next_token = form_number(&f, UINT64_MAX);
    wanted.next_id = form_number(&f, 1 + (uint64_t)UINT32_MAX);
    wanted.retained = form_count(&f, 16, 16);
    wanted.queued = form_count(&f, 15, 16);
    wanted.retired = form_count(&f, 64, 64);
    wanted.replayed = form_count(&f, 14, 16);
    calm_form = f;
    calm = wanted;
    form_present(&f, 5200, &wanted.rollback_height);
    expect("the longest summary", f.length, SUBMISSION_BOOK_SUMMARY_BYTES);
    check_form(&summary_reader, &f, &wanted);
    form_byte(&calm_form, 0, 1);
    check_form(&summary_reader, &calm_form, &calm);
}

static void test_lists_and_numbers(void) {
    static submission_book_ids ids;
    static submission_book_coins coins;
    static submission_book_optional height;
    static submission_book_optional_fee fee;
    static Form ids_form, coins_form, height_form, fee_form, status_form, flag_form;
    uint8_t status = SUBMISSION_BOOK_STATUS_STALE;
    bool flag = true;
    form_byte(&ids_form, 64, 64);
    for (ids.count = 0; ids.count < 64; ids.count++) {
        ids.ids[ids.count] = form_number(&ids_form, UINT64_MAX - ids.count);
    }
    check_form(&ids_reader, &ids_form, &ids);
    form_byte(&coins_form, 0, 1);
    coins_form.bytes[coins_form.length++] = 3;
    for (coins.count = 0; coins.count < 3; coins.count++) {
        form_coin(&coins_form, (uint8_t)(71 + coins.count), &coins.coins[coins.count]);
    }
    check_form(&coins_reader, &coins_form, &coins);
    form_present(&height_form, 5200, &height);
    check_form(&height_reader, &height_form, &height);
    form_byte(&fee_form, 1, 1);
    fee.present = true;
    form_fee_intent(&fee_form, &fee.fee_intent);
    check_form(&fee_intent_reader, &fee_form, &fee);
    form_byte(&status_form, 1, 1);
    check_form(&status_reader, &status_form, &status);
    form_byte(&flag_form, 1, 1);
    check_form(&flag_reader, &flag_form, &flag);
}

/* The most coins of an answer, and one more. */
static void test_many_coins(void) {
    static uint8_t bytes[2 + 257 * 74];
    bytes[0] = 1;
    for (size_t i = 0; i < 257; i++) {
        bytes[2 + 74 * i] = 73;
    }
    expect("256 coins", read_first(&coins_reader, bytes, sizeof bytes), 0);
    bytes[1] = 1;
    expect("257 coins", read_first(&coins_reader, bytes, sizeof bytes), 3);
}

/* ---- answers of real calls: a reader takes the very bytes that the call writes */
static const AnswerReader *reader_of(const char *call) {
    static const struct {
        const char *call;
        const AnswerReader *reader;
    } readers[] = {
        {"drain", &drain_reader},
        {"fee_intent_for_attempt", &fee_intent_reader},
        {"finalize_attempt", &finalized_reader},
        {"acknowledge_attempt", &status_reader},
        {"stop_attempt", &status_reader},
        {"abandon_attempt", &status_reader},
        {"relinquish_completed_attempt", &status_reader},
        {"attempt", &attempt_reader},
        {"retain_submitted", &ids_reader},
        {"active_ids", &ids_reader},
        {"drain_retirements", &ids_reader},
        {"causally_rolled_back_ids", &ids_reader},
        {"reconciliation_input_coins", &coins_reader},
        {"absent_outputs_for_ids", &coins_reader},
        {"begin_replay", &flag_reader},
        {"replay_rollback_height", &height_reader},
        {"look", &look_reader},
        {"summary", &summary_reader},
    };
    for (size_t i = 0; i < sizeof readers / sizeof readers[0]; i++) {
        if (strcmp(readers[i].call, call) == 0) {
            return readers[i].reader;
        }
    }
    return NULL;
}

static uint8_t call_with_room(const SampleCall *c, uint8_t *answer, size_t room) {
    expect_for(c->name, "sample book", sample_book(book), true);
    Lent lent = {book, LEN, answer, room, 0};
    return c->call(&lent);
}

static void test_real_answers(void) {
    static uint8_t answer[SUBMISSION_BOOK_ARCHIVE_BYTES];
    size_t read = 0;
    for (size_t i = 0; i < CALL_COUNT; i++) {
        const SampleCall *c = &sample_calls[i];
        const AnswerReader *reader = reader_of(c->name);
        if (reader == NULL) {
            expect_for(c->name, "no answer to read", c->answer_bytes == 0 || strcmp(c->name, "write") == 0, true);
            continue;
        }
        read++;
        memset(answer, FILL, sizeof answer);
        expect_for(c->name, "call", call_with_room(c, answer, sizeof answer), 0);
        size_t length = cut_everywhere(reader, answer, sizeof answer);
        expect_for(c->name, "room that just fits", call_with_room(c, answer, length), 0);
        expect_for(c->name, "a byte less", call_with_room(c, answer, length - 1), 12);
    }
    expect("calls with an answer", read, 18);
}

/* ---- every builder behind one type */
typedef struct {
    const char *name;
    uint8_t (*build)(const void *value, uint8_t *bytes, size_t bytes_len, size_t *length);
    uint8_t bad; /* the refusal of a value that is out of range */
} Builder;

typedef struct {
    submission_book_bundle base, fee;
} Pair;

typedef struct {
    size_t count;
    submission_book_coin coins[801];
    submission_book_hash ids[801];
} Lists;

static uint8_t build_delivery(const void *v, uint8_t *b, size_t n, size_t *length) {
    return submission_book_build_delivery(v, b, n, length);
}

static uint8_t build_bundle(const void *v, uint8_t *b, size_t n, size_t *length) {
    return submission_book_build_bundle(v, b, n, length);
}

static uint8_t build_joined(const void *v, uint8_t *b, size_t n, size_t *length) {
    const Pair *pair = v;
    return submission_book_build_joined_bundle(&pair->base, &pair->fee, b, n, length);
}

static uint8_t build_coin_list(const void *v, uint8_t *b, size_t n, size_t *length) {
    const Lists *lists = v;
    return submission_book_build_coin_list(lists->coins, lists->count, b, n, length);
}

static uint8_t build_coin_ids(const void *v, uint8_t *b, size_t n, size_t *length) {
    const Lists *lists = v;
    return submission_book_build_coin_ids(lists->ids, lists->count, b, n, length);
}

static const Builder delivery_builder = {"delivery", build_delivery, 3};
static const Builder bundle_builder = {"bundle", build_bundle, 3};
static const Builder joined_builder = {"joined bundle", build_joined, 3};
static const Builder coin_list_builder = {"coin list", build_coin_list, 2};
static const Builder coin_ids_builder = {"coin ids", build_coin_ids, 2};

/* A refused builder leaves every byte and the length. */
static void refused_builder(const Builder *builder, const void *v, size_t room, uint8_t number) {
    static uint8_t before[ROOM_BYTES];
    size_t length = NUMBER;
    memset(memory_end - ROOM_BYTES, FILL, ROOM_BYTES);
    memset(before, FILL, sizeof before);
    expect_for(builder->name, "refused", builder->build(v, room > 0 ? memory_end - room : NULL, room, &length), number);
    expect_for(builder->name, "length left", length, NUMBER);
    expect_for(builder->name, "bytes left", memcmp(memory_end - ROOM_BYTES, before, ROOM_BYTES) == 0, true);
}

/* The form in a buffer of every length; `step` above 1 for long ones. */
static size_t in_every_room(const Builder *builder, const void *v, size_t step, uint8_t *form) {
    size_t length = NUMBER;
    expect_for(builder->name, "built", builder->build(v, memory_end - ROOM_BYTES, ROOM_BYTES, &length), 0);
    memcpy(form, memory_end - ROOM_BYTES, length);
    for (size_t room = 0; room < length; room += step) {
        refused_builder(builder, v, room, 12);
    }
    if (length > 0) {
        refused_builder(builder, v, length - 1, 12);
    }
    for (size_t room = length; room < length + 4; room++) {
        uint8_t *bytes = room > 0 ? memory_end - room : NULL;
        size_t built = NUMBER;
        memset(memory_end - ROOM_BYTES, FILL, ROOM_BYTES);
        expect_for(builder->name, "built", builder->build(v, bytes, room, &built), 0);
        expect_for(builder->name, "length", built, length);
        expect_for(builder->name, "form", length == 0 || memcmp(bytes, form, length) == 0, true);
        expect_for(builder->name, "bytes in front", memory_end[-(ptrdiff_t)room - 1], FILL);
        for (size_t i = length; i < room; i++) {
            expect_for(builder->name, "bytes behind", bytes[i], FILL);
        }
    }
    return length;
}

/* Deliveries and their bundles: the bytes by hand, and every size. */
static void test_delivery_builder(void) {
    static submission_book_delivery d;
    static Form f;
    uint8_t form[SUBMISSION_BOOK_DELIVERY_BYTES];
    form_present(&f, 7, &d.id);
    size_t bundle_at = f.length;
    form_bundle(&f, &d.bundle);
    size_t bundle_end = f.length;
    form_present(&f, 9000, &d.expiry);
    form_fee_intent(&f, &d.fee_intent);
    form_byte(&f, 3, 3);
    d.trigger = SUBMISSION_BOOK_TRIGGER_PROVIDER_READINESS;
    form_byte(&f, 1, 1);
    d.goal = SUBMISSION_BOOK_GOAL_FEE_UPGRADE;
    expect("delivery by hand", in_every_room(&delivery_builder, &d, 1, form), f.length);
    expect("its bytes", memcmp(form, f.bytes, f.length) == 0, true);
    expect("bundle by hand", in_every_room(&bundle_builder, &d.bundle, 1, form), bundle_end - bundle_at);
    expect("its bytes", memcmp(form, f.bytes + bundle_at, bundle_end - bundle_at) == 0, true);
    for (size_t spends = 0; spends <= 4; spends++) {
        submission_book_delivery sample = sample_delivery(1, spends, spends);
        expect("bytes of a sample", in_every_room(&delivery_builder, &sample, 1, form), 6 + spends * (74 + 32 + 2 + 40 * spends));
    }
}

static void test_refused_deliveries(void) {
    const submission_book_delivery good = sample_delivery(1, 4, 4);
    submission_book_delivery d = good;
    const size_t over[] = {5, 255, 256, 260, SIZE_MAX};
    d.fee_intent.kind = 3;
    refused_builder(&delivery_builder, &d, ROOM_BYTES, 3);
    d = good;
    d.trigger = 4;
    refused_builder(&delivery_builder, &d, ROOM_BYTES, 3);
    d = good;
    d.goal = 2;
    refused_builder(&delivery_builder, &d, ROOM_BYTES, 3);
    for (size_t i = 0; i < sizeof over / sizeof over[0]; i++) {
        d = good;
        d.bundle.spend_count = over[i];
        refused_builder(&delivery_builder, &d, ROOM_BYTES, 3);
        refused_builder(&bundle_builder, &d.bundle, ROOM_BYTES, 3);
        d = good;
        d.bundle.spends[3].output_count = over[i];
        refused_builder(&bundle_builder, &d.bundle, ROOM_BYTES, 3);
        d = good;
        d.bundle.spends[2].coin.length = over[i] == 5 ? 74 : over[i];
        refused_builder(&bundle_builder, &d.bundle, ROOM_BYTES, 3);
    }
}

static void test_joined_builder(void) {
    static Pair pair;
    uint8_t form[SUBMISSION_BOOK_BUNDLE_BYTES], whole[SUBMISSION_BOOK_BUNDLE_BYTES];
    for (size_t base = 0; base <= 4; base++) {
        for (size_t fee = 0; fee <= 4; fee++) {
            submission_book_bundle both = sample_delivery(1, base, 2).bundle;
            pair.base = both;
            pair.fee = sample_delivery(2, fee, 1).bundle;
            if (base + fee > 4) {
                refused_builder(&joined_builder, &pair, ROOM_BYTES, 3);
                continue;
            }
            for (size_t i = 0; i < fee; i++) {
                both.spends[both.spend_count++] = pair.fee.spends[i];
            }
            size_t length = bundle_bytes(whole, &both);
            expect("joined", in_every_room(&joined_builder, &pair, 7, form), length);
            expect("base, then fee", memcmp(form, whole, length) == 0, true);
        }
    }
    pair.base.spend_count = SIZE_MAX;
    pair.fee.spend_count = 1;
    refused_builder(&joined_builder, &pair, ROOM_BYTES, 3);
    pair.base.spend_count = 1;
    pair.fee.spend_count = SIZE_MAX;
    refused_builder(&joined_builder, &pair, ROOM_BYTES, 3);
}

static void test_list_builders(void) {
    static Lists lists;
    static uint8_t form[SUBMISSION_BOOK_COIN_LIST_BYTES];
    static const size_t counts[] = {0, 1, 3, 255, 256, 800};
    for (size_t i = 0; i < 801; i++) {
        lists.coins[i] = submission_book_coin_from_parts(lists.ids[i], lists.ids[i], (uint64_t)i);
        lists.ids[i].bytes[31] = (uint8_t)i;
    }
    for (size_t i = 0; i < sizeof counts / sizeof counts[0]; i++) {
        size_t wanted = 2;
        lists.count = counts[i];
        for (size_t k = 0; k < lists.count; k++) {
            wanted += 1 + lists.coins[k].length;
        }
        expect("coin list", in_every_room(&coin_list_builder, &lists, 1 + wanted / 50, form), wanted);
        expect("its count", number_at((const uint8_t[]){0, 0, 0, 0, 0, 0, form[0], form[1]}), lists.count);
        expect("coin ids", in_every_room(&coin_ids_builder, &lists, 1 + lists.count, form), 32 * lists.count);
        expect("they are the ids", lists.count == 0 || memcmp(form, lists.ids, 32 * lists.count) == 0, true);
    }
    lists.count = 801;
    refused_builder(&coin_list_builder, &lists, ROOM_BYTES, 2);
    refused_builder(&coin_ids_builder, &lists, ROOM_BYTES, 2);
    lists.count = 2;
    lists.coins[1].length = 74;
    refused_builder(&coin_list_builder, &lists, ROOM_BYTES, 2);
}

/* Amounts as the shortest two's complement. */
static void test_coin_parts(void) {
    static const struct {
        uint64_t amount;
        size_t length;
        uint8_t bytes[9];
    } amounts[] = {
        {0, 0, {0}}, {1, 1, {1}}, {127, 1, {0x7f}}, {128, 2, {0, 0x80}}, {255, 2, {0, 0xff}}, {256, 2, {1, 0}}, {32767, 2, {0x7f, 0xff}},
        {32768, 3, {0, 0x80, 0}}, {INT64_MAX, 8, {0x7f, 0xff, 0xff, 0xff, 0xff, 0xff, 0xff, 0xff}},
        {UINT64_MAX, 9, {0, 0xff, 0xff, 0xff, 0xff, 0xff, 0xff, 0xff, 0xff}},
    };
    submission_book_hash parent, puzzle_hash;
    memset(&parent, 1, sizeof parent);
    memset(&puzzle_hash, 2, sizeof puzzle_hash);
    for (size_t i = 0; i < sizeof amounts / sizeof amounts[0]; i++) {
        submission_book_coin coin = submission_book_coin_from_parts(parent, puzzle_hash, amounts[i].amount);
        expect("length of a coin string", coin.length, 64 + amounts[i].length);
        expect("parent", memcmp(coin.bytes, parent.bytes, 32) == 0, true);
        expect("puzzle hash", memcmp(coin.bytes + 32, puzzle_hash.bytes, 32) == 0, true);
        expect("amount", memcmp(coin.bytes + 64, amounts[i].bytes, amounts[i].length) == 0, true);
    }
}

/* ---- built, taken by the library, and read from its answer */
static uint64_t random_state = 88172645463325252u;

static uint64_t below(uint64_t n) {
    random_state ^= random_state << 13;
    random_state ^= random_state >> 7;
    random_state ^= random_state << 17;
    return random_state % n;
}

static void random_bytes(uint8_t *to, size_t length) {
    for (size_t i = 0; i < length; i++) {
        to[i] = (uint8_t)below(256);
    }
}

static void random_bundle(submission_book_bundle *bundle, size_t spends) {
    memset(bundle, 0, sizeof *bundle);
    bundle->spend_count = spends;
    for (size_t i = 0; i < spends; i++) {
        submission_book_spend *spend = &bundle->spends[i];
        spend->coin.length = (size_t)below(74);
        random_bytes(spend->coin.bytes, spend->coin.length);
        random_bytes(spend->digest.bytes, 32);
        spend->readable = true;
        spend->output_count = (size_t)below(5);
        for (size_t k = 0; k < spend->output_count; k++) {
            random_bytes(spend->outputs[k].puzzle_hash.bytes, 32);
            spend->outputs[k].amount = below(UINT64_MAX);
        }
    }
}

static void random_delivery(submission_book_delivery *d, size_t spends) {
    memset(d, 0, sizeof *d);
    random_bundle(&d->bundle, spends);
    d->expiry.present = below(2) == 1;
    d->expiry.value = d->expiry.present ? below(UINT64_MAX) : 0;
    d->fee_intent.kind = SUBMISSION_BOOK_FEE_ATTACH;
    random_bytes(d->fee_intent.target.bytes, 32);
    d->fee_intent.amount = below(UINT64_MAX);
}

/* A payment is queued, drained and finalised with a fee: what comes out is what was built. */
static void round_trip(size_t spends) {
    static uint8_t answer[SUBMISSION_BOOK_DRAIN_BYTES];
    static submission_book_drain_result drained;
    static submission_book_finalized finalized;
    submission_book_delivery d;
    Pair pair;
    uint8_t joined[SUBMISSION_BOOK_BUNDLE_BYTES];
    size_t length = 0;
    random_delivery(&d, spends);
    pair.base = d.bundle;
    random_bundle(&pair.fee, (size_t)below(5 - spends));
    expect("open", submission_book_open(book, LEN, 5, 1), 0);
    expect("queue", queue_delivery(book, LEN, &d), 0);
    expect("drain", submission_book_drain(book, LEN, answer, sizeof answer), 0);
    expect("read the drain", submission_book_answer_drain(answer, sizeof answer, &drained), 0);
    expect("one", drained.submission_count == 1 && drained.failure_count == 0, true);
    expect("the bundle", memcmp(&drained.submissions[0].bundle, &d.bundle, sizeof d.bundle) == 0, true);
    expect("the expiry", drained.submissions[0].expiry.present == d.expiry.present && drained.submissions[0].expiry.value == d.expiry.value, true);
    expect("the fee", memcmp(&drained.submissions[0].fee_intent, &d.fee_intent, sizeof d.fee_intent) == 0, true);
    expect("joined", build_joined(&pair, joined, sizeof joined, &length), 0);
    expect("finalise", submission_book_finalize_attempt(book, LEN, 5, SUBMISSION_BOOK_SOURCE_JOINED, joined, length, answer, sizeof answer), 0);
    expect("read it", submission_book_answer_finalized(answer, sizeof answer, &finalized), 0);
    expect("spends", finalized.bundle.spend_count, spends + pair.fee.spend_count);
    expect("the base", memcmp(finalized.bundle.spends, pair.base.spends, spends * sizeof pair.base.spends[0]) == 0, true);
    expect("the fee's", memcmp(finalized.bundle.spends + spends, pair.fee.spends, pair.fee.spend_count * sizeof pair.base.spends[0]) == 0, true);
    submission_book_hash fingerprint = hash_of(joined, length);
    expect("fingerprint", same_hash(&finalized.variant_fingerprint, &fingerprint), true);
}

static void test_round_trips(void) {
    for (size_t i = 0; i < 400; i++) {
        round_trip(i % 5);
    }
}

static void test_texts(void) {
    char version[40];
    for (unsigned number = 0; number < 256; number++) {
        const char *text = submission_book_refusal_text((uint8_t)number);
        expect("a text", text != NULL && text[0] != 0, true);
        expect("known", strcmp(text, submission_book_refusal_text(255)) != 0, number <= SUBMISSION_BOOK_NO_ARCHIVE);
        for (unsigned other = 0; other < number && number <= SUBMISSION_BOOK_NO_ARCHIVE; other++) {
            expect("told apart", strcmp(text, submission_book_refusal_text((uint8_t)other)) != 0, true);
        }
    }
    snprintf(version, sizeof version, "%d.%d.%d", SUBMISSION_BOOK_VERSION_MAJOR, SUBMISSION_BOOK_VERSION_MINOR, SUBMISSION_BOOK_VERSION_PATCH);
    expect("version as text", strcmp(version, SUBMISSION_BOOK_VERSION_STRING) == 0, true);
    expect("version of the library", submission_book_version(), SUBMISSION_BOOK_VERSION);
}

void test_forms(void) {
    memory_end = guarded_end();
    memset(untouched, FILL, sizeof untouched);
    test_drains();
    test_finalized();
    test_attempt_forms();
    test_look_forms();
    test_summary_forms();
    test_lists_and_numbers();
    test_many_coins();
    test_delivery_builder();
    test_refused_deliveries();
    test_joined_builder();
    test_list_builders();
    test_coin_parts();
    test_texts();
}

void test_answers(void) {
    test_real_answers();
    test_round_trips();
}
