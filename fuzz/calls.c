/* A script of calls on one lent book. The first bytes open it; then each call has a byte that says which one and how its buffers are
 * lent, and takes its arguments from the bytes behind. Every call is checked (checks.h), and the book behind it is written and read. */
#include "chain.h"
#include "checks.h"
#include "made_book.h"
#include "submission_book.h"

#define LONGEST_SCRIPT 80
#define ANSWER_BYTES 20480

static struct lent book, answer, one, two, ids, number;
static struct lent archive, again; /* for writing and reading the book behind a call */
static size_t shift;               /* where the lent bytes start, so that they are aligned in all ways */
static struct shape shapes[2];
static struct given given;
static int show; /* FUZZ_SHOW is set: the calls of a script are printed, to see what a failing one does */

#define NUMBER ((uint64_t *)(void *)number.bytes)
#define IDS ((const uint64_t *)(const void *)at(&ids)), given.ids.len / 8
#define BOOK at(&book), book.len
#define ANSWER at(&answer), answer.len
#define ONE at(&one), one.len
#define TWO at(&two), two.len

/* An empty slice may have no address. */
static uint8_t *at(const struct lent *b) {
    return b->len == 0 && shift == 0 ? NULL : b->bytes;
}

/* ---- arguments */

static void give_none(struct script *p) { (void)p; }
static void give_delivery(struct script *p) { add_delivery(&given.one, p, was); }
static void give_number(struct script *p) { given.number = next_number(p); }
static void give_id(struct script *p) { given.number = next_id(p, was); }
static void give_token(struct script *p) { given.number = next_token(p, was); }
static void give_ids(struct script *p) { add_ids(&given.ids, p, was); }
static void give_coins(struct script *p) { add_coin_list(&given.one, p); }
static void give_archive(struct script *p) { add_raw(&given.one, p); }
static void give_book(struct script *p) { add_book(&given.one, p); }

static void give_ids_and_trigger(struct script *p) {
    add_ids(&given.ids, p, was);
    given.kind = (uint8_t)next_kind(p, 4);
}

static void give_retained(struct script *p) {
    given.number = next_id(p, was);
    given.kind = (uint8_t)next_kind(p, 4);
    given.goal = (uint8_t)next_kind(p, 2);
}

static void give_final(struct script *p) {
    given.number = next_token(p, was);
    given.kind = (uint8_t)next_kind(p, 4);
    if (given.kind == 1) {
        add_bundle(&given.one, p, 0);
    } else if (given.kind > 3) {
        add_raw(&given.one, p);
    }
}

static void give_ids_and_coins(struct script *p) {
    add_ids(&given.ids, p, was);
    add_coin_list(&given.one, p);
}

static void give_coins_and_inputs(struct script *p) {
    add_coin_list(&given.one, p);
    add_coin_ids(&given.two, p);
}

static void give_chain(struct script *p) {
    add_coin_list(&given.one, p);
    add_coin_ids(&given.two, p);
    given.kind = (uint8_t)next_kind(p, 2);
    add_ids(&given.ids, p, was);
}

/* ---- calls */

static uint8_t run_queue(void) { return submission_book_queue(BOOK, ONE); }
static uint8_t run_rebroadcast(void) { return submission_book_queue_rebroadcast_epoch(BOOK, IDS, given.kind); }
static uint8_t run_readiness(void) { return submission_book_queue_fee_readiness(BOOK); }
static uint8_t run_retained(void) { return submission_book_queue_retained_delivery(BOOK, given.number, given.kind, given.goal); }
static uint8_t run_finalize(void) { return submission_book_finalize_attempt(BOOK, given.number, given.kind, ONE, ANSWER); }
static uint8_t run_fee_intent(void) { return submission_book_fee_intent_for_attempt(BOOK, given.number, ANSWER); }
static uint8_t run_acknowledge(void) { return submission_book_acknowledge_attempt(BOOK, given.number, ANSWER); }
static uint8_t run_stop(void) { return submission_book_stop_attempt(BOOK, given.number, ANSWER); }
static uint8_t run_abandon(void) { return submission_book_abandon_attempt(BOOK, given.number, ANSWER); }
static uint8_t run_relinquish(void) { return submission_book_relinquish_completed_attempt(BOOK, given.number, ANSWER); }
static uint8_t run_retain(void) { return submission_book_retain_submitted(BOOK, IDS, ANSWER); }
static uint8_t run_emit(void) { return submission_book_emit_retirement(BOOK, given.number); }
static uint8_t run_drain_retirements(void) { return submission_book_drain_retirements(BOOK, ANSWER); }
static uint8_t run_coins(void) { return submission_book_reconciliation_input_coins(BOOK, ONE, ANSWER, NUMBER); }
static uint8_t run_active(void) { return submission_book_active_ids(BOOK, ANSWER); }
static uint8_t run_begin(void) { return submission_book_begin_replay(BOOK, given.number, ANSWER); }
static uint8_t run_finish(void) { return submission_book_finish_replay_if_advanced(BOOK, given.number); }
static uint8_t run_height(void) { return submission_book_replay_rollback_height(BOOK, ANSWER); }
static uint8_t run_chain(void) { return submission_book_reconcile_chain_terminality(BOOK, ONE, TWO, given.kind, IDS); }
static uint8_t run_rolled_back(void) { return submission_book_causally_rolled_back_ids(BOOK, ONE, TWO, ANSWER); }
static uint8_t run_absent(void) { return submission_book_absent_outputs_for_ids(BOOK, IDS, ONE, ANSWER, NUMBER); }
static uint8_t run_collect(void) { return submission_book_collect_rollback_replay_ids(BOOK, IDS); }
static uint8_t run_clear(void) { return submission_book_clear_local_artifacts(BOOK); }
static uint8_t run_restore(void) { return submission_book_restore_runtime(BOOK); }
static uint8_t run_attempt(void) { return submission_book_attempt(BOOK, given.number, ANSWER); }
static uint8_t run_look(void) { return submission_book_look(BOOK, given.number, ANSWER); }
static uint8_t run_summary(void) { return submission_book_summary(BOOK, ANSWER); }
static uint8_t run_read(void) { return submission_book_read(BOOK, ONE, NUMBER); }
#ifdef SUBMISSION_BOOK_DRAIN_BYTES
static uint8_t run_drain(void) { return submission_book_drain(BOOK, ANSWER); }
#endif

struct call {
    const char *name;
    void (*give)(struct script *);
    uint8_t (*run)(void);
    int (*foretell)(const struct given *);
    size_t (*check)(const struct given *, const uint8_t *, size_t);
    unsigned refusals; /* bit n: refusal n is one of this call's rules */
    size_t answer_len;
    int counts; /* the answer's length comes in a number */
};

#define R(n) (1u << (n))
/* The place in the table is the number of the call in docs/DRIVER.md. */
static const struct call calls[32] = {
    [0x01] = {"queue", give_delivery, run_queue, foretell_queue, check_queue, R(3) | R(10), 0, 0},
    [0x02] = {"queue_rebroadcast_epoch", give_ids_and_trigger, run_rebroadcast, foretell_rebroadcast, check_none, R(2) | R(3) | R(10), 0, 0},
    [0x03] = {"queue_fee_readiness", give_none, run_readiness, foretell_unsaid, check_none, R(10), 0, 0},
    [0x04] = {"queue_retained_delivery", give_retained, run_retained, foretell_retained, check_none, R(3) | R(10), 0, 0},
#ifdef SUBMISSION_BOOK_DRAIN_BYTES
    [0x05] = {"drain", give_none, run_drain, foretell_unsaid, check_drain, R(10) | R(11), SUBMISSION_BOOK_DRAIN_BYTES, 0},
    [0x00] = {"drain", give_none, run_drain, foretell_unsaid, check_drain, R(10) | R(11), SUBMISSION_BOOK_DRAIN_BYTES, 0},
#endif
    [0x06] = {"finalize_attempt", give_final, run_finalize, foretell_finalize, check_finalize, R(3) | R(4) | R(5) | R(7) | R(8) | R(9), 1117, 0},
    [0x07] = {"fee_intent_for_attempt", give_token, run_fee_intent, foretell_token, check_fee_intent, R(4), 42, 0},
    [0x08] = {"acknowledge_attempt", give_token, run_acknowledge, foretell_acknowledge, check_acknowledge, R(4) | R(6) | R(8), 1, 0},
    [0x09] = {"stop_attempt", give_token, run_stop, foretell_token, check_stop, R(4), 1, 0},
    [0x0a] = {"abandon_attempt", give_token, run_abandon, foretell_abandon, check_abandon, R(4) | R(10), 1, 0},
    [0x0b] = {"relinquish_completed_attempt", give_token, run_relinquish, foretell_token, check_relinquish, R(4), 1, 0},
    [0x0c] = {"retain_submitted", give_ids, run_retain, foretell_ids, check_retain, R(2) | R(10), 513, 0},
    [0x0d] = {"emit_retirement", give_id, run_emit, foretell_emit, check_emit, R(10), 0, 0},
    [0x0e] = {"drain_retirements", give_none, run_drain_retirements, foretell_none, check_drain_retirements, 0, 513, 0},
    [0x0f] = {"reconciliation_input_coins", give_coins, run_coins, foretell_coins, check_input_coins, R(2), 4738, 1},
    [0x10] = {"active_ids", give_none, run_active, foretell_none, check_active, 0, 513, 0},
    [0x11] = {"begin_replay", give_number, run_begin, foretell_none, check_begin, 0, 1, 0},
    [0x12] = {"finish_replay_if_advanced", give_number, run_finish, foretell_none, check_finish, 0, 0, 0},
    [0x13] = {"replay_rollback_height", give_none, run_height, foretell_none, check_height, 0, 9, 0},
    [0x14] = {"reconcile_chain_terminality", give_chain, run_chain, foretell_reconcile, check_chain, R(2) | R(3) | R(10), 0, 0},
    [0x15] = {"causally_rolled_back_ids", give_coins_and_inputs, run_rolled_back, foretell_rolled_back, check_rolled_back, R(2), 513, 0},
    [0x16] = {"absent_outputs_for_ids", give_ids_and_coins, run_absent, foretell_absent, check_absent, R(2), 18946, 1},
    [0x17] = {"collect_rollback_replay_ids", give_ids, run_collect, foretell_ids, check_none, R(2) | R(10), 0, 0},
    [0x18] = {"clear_local_artifacts", give_none, run_clear, foretell_unsaid, check_clear, R(10), 0, 0},
    [0x19] = {"restore_runtime", give_none, run_restore, foretell_none, check_restore, 0, 0, 0},
    [0x1a] = {"attempt", give_token, run_attempt, foretell_none, check_attempt, 0, 75, 0},
    [0x1e] = {"look", give_id, run_look, foretell_none, check_look, 0, 39, 0},
    [0x1f] = {"summary", give_none, run_summary, foretell_none, check_summary, 0, 57, 0},
};

/* ---- state that the fuzzer is to see beside the code's own counters */

__attribute__((section("__libfuzzer_extra_counters"))) static uint8_t reached[1024];

static void note(unsigned call, unsigned r) {
    reached[call * 16 + r] = 1;
    reached[512 + is->retained] = 1;
    reached[544 + is->queue] = 1;
    reached[576 + is->retirements] = 1;
    reached[656 + is->tokens] = 1;
    reached[704 + is->replayed] = 1;
}

/* ---- a step */

static void lend_arguments(void) {
    lend_copy(&one, given.one.s, given.one.len, shift);
    lend_copy(&two, given.two.s, given.two.len, shift);
    lend_copy(&ids, given.ids.s, given.ids.len, 0);
    lend(&number, 8, 0);
}

static void take_back_arguments(void) {
    take_back_same(&one);
    take_back_same(&two);
    take_back_same(&ids);
    take_back(&number);
    take_back(&book);
    take_back(&answer);
}

/* The book behind a call is accepted: written, and its archive read, it gives the same bytes. */
static void check_round_trip(void) {
    running = "write and read";
    size_t len = is->len;
    lend(&archive, len, shift);
    lend(&number, 8, 0);
    must(submission_book_write(book.bytes, 8 + len, archive.bytes, len, NUMBER) == 0, "writing the book behind a call");
    take_back(&number);
    take_back(&archive);
    must(*NUMBER == len && memcmp(archive.bytes, book.bytes + 8, len) == 0, "the archive written");
    lend(&archive, len, shift);
    lend(&again, 8 + len, shift);
    lend(&number, 8, 0);
    must(submission_book_read(again.bytes, again.len, archive.bytes, len, NUMBER) == 0, "reading what was written");
    take_back(&number);
    take_back(&again);
    take_back_same(&archive);
    must(memcmp(again.bytes, book.bytes, 8 + len) == 0, "the book read");
}

/* Reads the book's shape behind a call, and says whether it changed. */
static int see_book(void) {
    is = was;
    size_t n = (size_t)(8 + was->len);
    if (n <= book.len && memcmp(book.bytes, as_lent(&book), n) == 0) {
        return 0;
    }
    struct shape *s = was == &shapes[0] ? &shapes[1] : &shapes[0];
    must(read_book(s, book.bytes, book.len), "the book behind a call is sound");
    is = s;
    return 1;
}

/* From here on the changed book is the one at hand. */
static void go_on(void) {
    if (is != was) {
        check_round_trip();
        was = is;
    }
    shapes[was == &shapes[1]].s = book.bytes + 8;
}

static void check_answer(const struct call *c, unsigned r) {
    if (r == 0) {
        size_t len = c->counts ? (size_t)*NUMBER : answer.len;
        must(len <= answer.len, "length of the answer");
        len = c->check(&given, answer.bytes, len);
        must(len <= c->answer_len && kept_from(&answer, len), "bytes behind the answer changed");
        must(c->counts || kept(&number), "a number that was not lent changed");
        return;
    }
    must(kept(&answer) && kept(&number), "a refused call leaves the answer");
}

/* `held`: the lent bytes hold a sound book. `whole`: no buffer is too short. */
static void check_call(const struct call *c, unsigned r, int held, int whole) {
    unsigned allowed = R(0) | c->refusals | (whole ? 0 : R(12));
    if (!held) {
        must(r == 1, "1 where no book is");
        must(kept(&book) && kept(&answer) && kept(&number), "a refused call leaves every byte");
        return;
    }
    must(r <= 13 && (allowed >> r & 1) != 0, "an answer that is none of this call's");
    int told = c->foretell(&given);
    must(told < 0 || (int)r == told || (r == 12 && told == 0), "the refusal foretold");
    int changed = see_book();
    must(!changed || r == 0 || r == 11, "a refused call leaves the book");
    must(kept_from(&book, 8 + is->len), "bytes behind the archive changed");
    check_answer(c, r);
    if (r == 11) {
        check_exhausted();
    } else if (c->check != check_drain) {
        check_frame();
    }
    check_rows();
    note((unsigned)(c - calls), r);
    go_on();
}

/* How the buffers of a call are lent: most often whole, else the answer or the book is cut. */
static int choose_lengths(struct script *p, unsigned way, const struct call *c, size_t *book_len) {
    *book_len = SUBMISSION_BOOK_BYTES;
    given.answer_len = c->answer_len;
    if (way == 6 && c->answer_len != 0) {
        given.answer_len = (next(p) * 256u + next(p)) % (c->answer_len + 1);
    } else if (way == 7) {
        size_t n = 8 + was->len, b = next(p);
        *book_len = b < 8 ? n * b / 8 : n + b - 8;
        *book_len = *book_len < SUBMISSION_BOOK_BYTES ? *book_len : SUBMISSION_BOOK_BYTES;
    }
    return way < 6 || (way == 6 && given.answer_len == c->answer_len);
}

static void clear_given(void) {
    given.one.len = given.two.len = given.ids.len = 0;
    given.number = 0;
    given.kind = given.goal = 0;
}

static void run_call(struct script *p, const struct call *c, unsigned way, int damaged) {
    size_t book_len;
    clear_given();
    int whole = choose_lengths(p, way, c, &book_len);
    running = c->name;
    c->give(p);
    int held = !damaged && book_len >= 8 + was->len;
    lend_arguments();
    lend(&answer, given.answer_len, shift);
    lend(&book, book_len, shift);
    unsigned r = c->run();
    if (show) {
        fprintf(stderr, "%s %s%s(number %llu, bytes %zu and %zu, ids %zu): %u\n", damaged ? "damaged" : "", whole ? "" : "short ", c->name,
                (unsigned long long)given.number, given.one.len, given.two.len, given.ids.len / 8, r);
    }
    take_back_arguments();
    shapes[was == &shapes[1]].s = as_lent(&book) + 8;
    check_call(c, r, held, whole);
    shapes[was == &shapes[1]].s = book.bytes + 8;
}

/* Another book in the place of this one: any bytes, or a book made of the script. */
static void run_another(struct script *p, void (*give)(struct script *)) {
    clear_given();
    running = "submission_book_read";
    give(p);
    struct shape *s = was == &shapes[0] ? &shapes[1] : &shapes[0];
    int ok = read_shape(s, given.one.s, given.one.len);
    lend_arguments();
    lend(&book, SUBMISSION_BOOK_BYTES, shift);
    lend(&answer, 0, shift);
    unsigned r = run_read();
    if (show) {
        fprintf(stderr, "read(%zu bytes): %u\n", given.one.len, r);
    }
    take_back_arguments();
    must(r == (ok ? 0 : 13), "the two readers agree");
    if (r == 13) {
        must(kept(&book) && *NUMBER == s->place, "place of a refusal");
        return;
    }
    must(kept(&number) && kept_from(&book, 8 + given.one.len), "bytes behind a book that was read");
    must(read_book(s, book.bytes, book.len), "the book that was read");
    is = s;
    start_ledger(0, s->next_token);
    go_on();
}

/* Some bytes of the book change, and the next call meets it so. */
static void run_damaged(struct script *p) {
    static uint8_t saved[SUBMISSION_BOOK_BYTES];
    size_t n = 8 + was->len;
    memcpy(saved, book.bytes, n);
    for (unsigned i = 0; i < 3; i++) {
        size_t at = (next(p) * 256u + next(p)) % n;
        book.bytes[at] ^= next(p);
    }
    struct shape *s = was == &shapes[0] ? &shapes[1] : &shapes[0];
    if (read_book(s, book.bytes, SUBMISSION_BOOK_BYTES)) {
        is = was = s;
        start_ledger(0, s->next_token);
        return;
    }
    const struct call *c = &calls[next(p) & 31];
    if (c->name != NULL) {
        run_call(p, c, 0, 1);
    }
    memcpy(book.bytes, saved, n);
}

static void step(struct script *p) {
    uint8_t b = next(p);
    const struct call *c = &calls[b & 31];
    if (c->name != NULL) {
        run_call(p, c, b >> 5, 0);
    } else if ((b & 31) == 0x1c) {
        run_another(p, give_archive);
    } else if ((b & 31) == 0x1d) {
        run_damaged(p);
    } else if ((b & 31) == 0x1b) {
        run_another(p, give_book);
    }
}

static void make_buffers(void) {
    make_coins();
    lent_make(&book, SUBMISSION_BOOK_BYTES + 8);
    lent_make(&answer, ANSWER_BYTES);
    lent_make(&one, ARGUMENT_BYTES + 8);
    lent_make(&two, ARGUMENT_BYTES + 8);
    lent_make(&ids, 1024);
    lent_make(&number, 8);
    lent_make(&archive, SUBMISSION_BOOK_BYTES + 8);
    lent_make(&again, SUBMISSION_BOOK_BYTES + 8);
    lent_fill(&one, 1);
    lent_fill(&two, 2);
    lent_fill(&ids, 3);
    lent_fill(&archive, 4);
    lent_fill(&again, 5);
}

static uint64_t opening_number(struct script *p) {
    uint8_t b = next(p);
    if (b < 0xc0) {
        return b % 32;
    }
    return b < 0xf8 ? UINT64_MAX - b % 32 : next_raw(p);
}

static void open_book(struct script *p) {
    running = "submission_book_open";
    shift = next(p) & 7;
    uint64_t token = opening_number(p), id = opening_number(p);
    lent_fill(&book, 6);
    lent_fill(&answer, 7);
    lent_fill(&number, 8);
    lend(&book, 29, shift);
    must(submission_book_open(book.bytes, 29, token, id) == 12, "a byte too few to open");
    take_back_same(&book);
    lend(&book, SUBMISSION_BOOK_BYTES, shift);
    must(submission_book_open(book.bytes, book.len, token, id) == 0, "opening");
    take_back(&book);
    must(read_book(&shapes[0], book.bytes, book.len) && shapes[0].len == 22, "an opened book");
    must(kept_from(&book, 30), "bytes behind an opened book");
    must(shapes[0].next_token == token && shapes[0].next_id == id, "numbers of an opened book");
    is = was = &shapes[0];
    start_ledger(1, token);
}

int LLVMFuzzerTestOneInput(const uint8_t *s, size_t len) {
    struct script p = {s, len, 0};
    if (book.whole == NULL) {
        make_buffers();
        show = getenv("FUZZ_SHOW") != NULL;
    }
    open_book(&p);
    for (int i = 0; i < LONGEST_SCRIPT && p.at < p.len; i++) {
        step(&p);
    }
    return 0;
}
