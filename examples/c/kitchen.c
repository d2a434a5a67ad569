/* The payments of a sample kitchen, played through the submission book. Every answer is held against what must come; the program
 * ends with 1 and a message where one differs. Use: kitchen FILE, which gets the archive of the book at the end. */
#include <inttypes.h>
#include <stdarg.h>
#include <stdio.h>
#include <stdlib.h>
#include <string.h>
#include "account.h"

enum { OPENING_TOKEN = 101, OPENING_ID = 1, SUBMISSIONS = 8 };

typedef struct {
    const char *name;
    uint64_t amount; /* in cents, as every amount here */
    submission_book_delivery delivery;
    submission_book_bundle fee; /* the wallet's own spend, where a fee is to be attached */
} Payment;

typedef struct {
    uint8_t book[SUBMISSION_BOOK_BYTES];
    Account account;
    unsigned calls;
    const Payment *queued;                /* the payment that was queued last */
    const Payment *payments[SUBMISSIONS]; /* by submission id */
} Planner;

/* ---- what is printed, and what must hold */
static void expect(bool holds, const char *what) {
    if (!holds) {
        fflush(stdout);
        fprintf(stderr, "kitchen: not as expected: %s\n", what);
        exit(1);
    }
}

/* One line for a call: what was asked, and the number it answered. */
static void told(Planner *p, uint8_t said, uint8_t wanted, const char *format, ...) {
    va_list arguments;
    printf("%3u  ", ++p->calls);
    va_start(arguments, format);
    vprintf(format, arguments);
    va_end(arguments);
    if (said == 0) {
        puts(": done");
    } else {
        printf(": REFUSED %u, %s\n", said, submission_book_refusal_text(said));
    }
    expect(said == wanted, "the number that the call answers");
}

static void chapter(const char *title) {
    printf("\n%s\n", title);
}

static void print_ids(const char *what, const submission_book_ids *list) {
    printf("       %s:", what);
    for (size_t i = 0; i < list->count; i++) {
        printf(" %" PRIu64, list->ids[i]);
    }
    puts(list->count == 0 ? " none" : "");
}

static void read_ids(const uint8_t *answer, size_t length, submission_book_ids *list) {
    expect(submission_book_answer_ids(answer, length, list) == SUBMISSION_BOOK_DONE, "the form of a list of ids");
}

static void expect_ids(const submission_book_ids *list, const uint64_t *wanted, size_t count) {
    expect(list->count == count, "how many ids are answered");
    for (size_t i = 0; i < count; i++) {
        expect(list->ids[i] == wanted[i], "an id that is answered");
    }
}

/* ---- sample data */
static submission_book_hash sample_hash(const char *label, const char *name) {
    char text[128];
    int length = snprintf(text, sizeof text, "%s %s", label, name);
    expect(length > 0 && (size_t)length < sizeof text, "a label of sample data");
    return hash_of((const uint8_t *)text, (size_t)length);
}

static void add_output(submission_book_spend *spend, const char *receiver, uint64_t amount) {
    submission_book_output *output = &spend->outputs[spend->output_count++];
    output->puzzle_hash = sample_hash("puzzle of the", receiver);
    output->amount = amount;
}

/* A spend of a coin of the customer's, who gets `back` of it; the rest goes to the receiver, or with nobody named is a fee. */
static submission_book_spend sample_spend(const char *name, const char *receiver, uint64_t coin_amount, uint64_t back) {
    submission_book_spend spend = {.readable = true};
    spend.coin = submission_book_coin_from_parts(sample_hash("coin for the", name), sample_hash("puzzle of the", "customer"), coin_amount);
    spend.digest = sample_hash("puzzle, solution and signature of the", name);
    if (receiver != NULL) {
        add_output(&spend, receiver, coin_amount - back);
    }
    if (back > 0) {
        add_output(&spend, "customer", back);
    }
    return spend;
}

static Payment sample_payment(const char *name, uint64_t amount, uint64_t coin_amount, uint64_t fee) {
    Payment payment = {.name = name, .amount = amount};
    submission_book_delivery *delivery = &payment.delivery;
    char fee_name[96];
    delivery->bundle.spend_count = 1;
    delivery->bundle.spends[0] = sample_spend(name, "kitchen firm", coin_amount, coin_amount - amount);
    delivery->fee_intent.kind = SUBMISSION_BOOK_FEE_NONE_CONFIGURED;
    delivery->trigger = SUBMISSION_BOOK_TRIGGER_PROTOCOL;
    delivery->goal = SUBMISSION_BOOK_GOAL_ENSURE_BROADCAST;
    if (fee > 0) {
        delivery->fee_intent.kind = SUBMISSION_BOOK_FEE_ATTACH;
        delivery->fee_intent.target = coin_id_of(&delivery->bundle.spends[0].coin);
        delivery->fee_intent.amount = fee;
        snprintf(fee_name, sizeof fee_name, "fee of the %s", name);
        payment.fee.spend_count = 1;
        payment.fee.spends[0] = sample_spend(fee_name, NULL, 100, 100 - fee);
    }
    return payment;
}

/* ---- calls */
static void open_book(Planner *p) {
    uint8_t said = submission_book_open(p->book, sizeof p->book, OPENING_TOKEN, OPENING_ID);
    told(p, said, 0, "open a book, first token %d, first submission %d", OPENING_TOKEN, OPENING_ID);
    p->account.opening_token = OPENING_TOKEN;
}

static void queue_payment(Planner *p, const Payment *payment) {
    uint8_t bytes[SUBMISSION_BOOK_DELIVERY_BYTES];
    size_t length = 0;
    uint8_t said = submission_book_build_delivery(&payment->delivery, bytes, sizeof bytes, &length);
    expect(said == SUBMISSION_BOOK_DONE, "the form of a delivery");
    said = submission_book_queue(p->book, sizeof p->book, bytes, length);
    told(p, said, 0, "queue the %s, %" PRIu64 ".%02" PRIu64 ", fee %s", payment->name, payment->amount / 100, payment->amount % 100,
         payment->delivery.fee_intent.kind == SUBMISSION_BOOK_FEE_ATTACH ? "to be attached" : "none");
    if (payment->delivery.expiry.present) {
        printf("       it expires at height %" PRIu64 "\n", payment->delivery.expiry.value);
    }
    p->queued = payment;
}

static void print_drained(const submission_book_drained *drained) {
    static const char *const relationships[] = {"initial", "exact", "newer, fee-bearing", "other"};
    printf("       submission %" PRIu64 " gets token %" PRIu64 ", ", drained->id, drained->token);
    if (drained->predecessor.present) {
        printf("predecessor %" PRIu64 " (%s), ", drained->predecessor.value, relationships[drained->relationship]);
    } else {
        printf("no predecessor (%s), ", relationships[drained->relationship]);
    }
    if (drained->fee_intent.kind == SUBMISSION_BOOK_FEE_ATTACH) {
        printf("a fee of %" PRIu64 " cents is open\n", drained->fee_intent.amount);
    } else {
        puts("no fee is open");
    }
}

/* Drains a queue from which one submission is to be delivered, and answers its token. */
static uint64_t drain_one(Planner *p, uint64_t id, uint8_t relationship) {
    static uint8_t answer[SUBMISSION_BOOK_DRAIN_BYTES];
    static submission_book_drain_result result;
    uint8_t said = submission_book_drain(p->book, sizeof p->book, answer, sizeof answer);
    told(p, said, 0, "drain the queue");
    expect(submission_book_answer_drain(answer, sizeof answer, &result) == SUBMISSION_BOOK_DONE, "the form of a drain's answer");
    for (size_t i = 0; i < result.submission_count; i++) {
        uint64_t drained = result.submissions[i].id;
        expect(drained < SUBMISSIONS, "at most seven submissions");
        if (p->payments[drained] == NULL) {
            p->payments[drained] = p->queued;
        }
        print_drained(&result.submissions[i]);
        expect(account_issued(&p->account, &result.submissions[i]), "a token and its predecessor");
    }
    expect(result.submission_count == 1 && result.failure_count == 0, "one submission and no failure");
    expect(result.submissions[0].id == id, "the drained submission");
    expect(result.submissions[0].relationship == relationship, "the relationship to the predecessor");
    return result.submissions[0].token;
}

/* The bytes of a payment's bundle, with the wallet's fee joined to it or without. */
static size_t bundle_bytes(const Payment *payment, bool with_fee, uint8_t *bytes, size_t room) {
    const submission_book_bundle *base = &payment->delivery.bundle;
    size_t length = 0;
    uint8_t said = with_fee ? submission_book_build_joined_bundle(base, &payment->fee, bytes, room, &length)
                            : submission_book_build_bundle(base, bytes, room, &length);
    expect(said == SUBMISSION_BOOK_DONE, "the form of a bundle");
    return length;
}

static void expect_bundle(const submission_book_finalized *finalized, const uint8_t *wanted, size_t length) {
    uint8_t got[SUBMISSION_BOOK_BUNDLE_BYTES];
    size_t got_length = 0;
    submission_book_hash fingerprint = hash_of(wanted, length);
    expect(submission_book_build_bundle(&finalized->bundle, got, sizeof got, &got_length) == SUBMISSION_BOOK_DONE, "the form of a bundle");
    expect(got_length == length && memcmp(got, wanted, length) == 0, "the bundle to broadcast");
    expect(same_hash(&finalized->variant_fingerprint, &fingerprint), "the fingerprint of the bundle to broadcast");
}

static const char *fee_words(const submission_book_finalized *finalized) {
    static char words[64];
    const char *when = finalized->disposition == SUBMISSION_BOOK_DISPOSITION_ATTACHED ? "attached now" : "attached before";
    if (finalized->disposition == SUBMISSION_BOOK_DISPOSITION_UNUSED) {
        return "without a fee; warning: one was asked for";
    }
    if (finalized->applied_fee == 0) {
        return "without a fee, as asked";
    }
    snprintf(words, sizeof words, "with a fee of %" PRIu64 " cents, %s", finalized->applied_fee, when);
    return words;
}

/* Finalises a live attempt. What must be broadcast is the payment's bundle, with its fee joined where one is paid. */
static void finalize(Planner *p, uint64_t token, uint8_t source, const Payment *payment, uint8_t disposition, uint64_t fee) {
    static const char *const sources[] = {"the wallet is asked for no fee", "the wallet's fee is joined", "the join failed", "the wallet has no fee coin"};
    uint8_t bundle[SUBMISSION_BOOK_BUNDLE_BYTES], answer[SUBMISSION_BOOK_FINALIZED_BYTES];
    static submission_book_finalized finalized;
    size_t length = bundle_bytes(payment, fee > 0, bundle, sizeof bundle);
    size_t joined_length = source == SUBMISSION_BOOK_SOURCE_JOINED ? length : 0;
    uint8_t said = submission_book_finalize_attempt(p->book, sizeof p->book, token, source, bundle, joined_length, answer, sizeof answer);
    told(p, said, 0, "finalise attempt %" PRIu64 ", %s", token, sources[source]);
    said = submission_book_answer_finalized(answer, sizeof answer, &finalized);
    expect(said == SUBMISSION_BOOK_DONE && finalized.present, "the form of a finalised submission");
    printf("       broadcast %zu spend%s, %s\n", finalized.bundle.spend_count, finalized.bundle.spend_count == 1 ? "" : "s",
           fee_words(&finalized));
    expect_bundle(&finalized, bundle, length);
    expect(finalized.disposition == disposition && finalized.applied_fee == fee, "what became of the fee");
    expect(finalized.warning == (disposition == SUBMISSION_BOOK_DISPOSITION_UNUSED), "the warning");
    expect(finalized.should_broadcast, "that the bundle is to be broadcast");
}

static void expect_status(const uint8_t *answer, uint8_t wanted) {
    uint8_t status = 0;
    expect(submission_book_answer_status(answer, SUBMISSION_BOOK_STATUS_BYTES, &status) == SUBMISSION_BOOK_DONE, "the form of a status");
    puts(status == SUBMISSION_BOOK_STATUS_APPLIED ? "       applied" : "       stale: the attempt is not live, and nothing changed");
    expect(status == wanted, "applied or stale");
}

static void acknowledge(Planner *p, uint64_t token, uint8_t wanted) {
    uint8_t answer[SUBMISSION_BOOK_STATUS_BYTES];
    uint8_t said = submission_book_acknowledge_attempt(p->book, sizeof p->book, token, answer, sizeof answer);
    told(p, said, 0, "acknowledge attempt %" PRIu64 ": the wallet has taken it", token);
    expect_status(answer, wanted);
    if (wanted == SUBMISSION_BOOK_STATUS_APPLIED) {
        account_set_aside(&p->account, account_id_of(&p->account, token), "acknowledged");
    }
}

static void stop(Planner *p, uint64_t token) {
    uint8_t answer[SUBMISSION_BOOK_STATUS_BYTES];
    uint8_t said = submission_book_stop_attempt(p->book, sizeof p->book, token, answer, sizeof answer);
    told(p, said, 0, "stop attempt %" PRIu64 ": the wallet was closed", token);
    expect_status(answer, SUBMISSION_BOOK_STATUS_APPLIED);
    account_set_aside(&p->account, account_id_of(&p->account, token), "stopped");
}

static void abandon(Planner *p, uint64_t token) {
    uint8_t answer[SUBMISSION_BOOK_STATUS_BYTES];
    uint8_t said = submission_book_abandon_attempt(p->book, sizeof p->book, token, answer, sizeof answer);
    told(p, said, 0, "abandon attempt %" PRIu64 ": the amount was wrong", token);
    expect_status(answer, SUBMISSION_BOOK_STATUS_APPLIED);
    account_removed(&p->account, account_id_of(&p->account, token), "abandoned");
}

/* A report of the chain answers no ids. It retires those that it settles, and that is how the planner hears of an attempt that was set aside. */
static void collect_retirements(Planner *p, const uint64_t *wanted, size_t count, const char *reason) {
    uint8_t answer[SUBMISSION_BOOK_IDS_BYTES];
    submission_book_ids retired;
    uint8_t said = submission_book_drain_retirements(p->book, sizeof p->book, answer, sizeof answer);
    told(p, said, 0, "collect the retired submissions");
    read_ids(answer, sizeof answer, &retired);
    print_ids("retired", &retired);
    expect_ids(&retired, wanted, count);
    for (size_t i = 0; i < retired.count; i++) {
        account_set_aside(&p->account, retired.ids[i], reason);
    }
}

/* The chain shows the outputs of these payments; a reorganisation says which submissions it has undone. */
static void report_landed(Planner *p, const Payment *const *landed, size_t count, bool reorg, const submission_book_ids *undone) {
    submission_book_coin coins[4];
    uint8_t observed[2 + 4 * (1 + SUBMISSION_BOOK_COIN_BYTES)];
    size_t length = 0;
    expect(count <= 4, "at most four payments in a report");
    for (size_t i = 0; i < count; i++) {
        coins[i] = output_coin(&landed[i]->delivery.bundle.spends[0], 0);
    }
    uint8_t said = submission_book_build_coin_list(coins, count, observed, sizeof observed, &length);
    expect(said == SUBMISSION_BOOK_DONE, "the form of a coin list");
    said = submission_book_reconcile_chain_terminality(p->book, sizeof p->book, observed, length, NULL, 0, reorg ? 1 : 0, undone->ids,
                                                       undone->count);
    told(p, said, 0, "report of the chain%s: %zu payment%s observed, %zu undone", reorg ? " after a reorganisation" : "", count,
         count == 1 ? "" : "s", undone->count);
}

/* ---- the story */
static void deposit(Planner *p, const Payment *payment) {
    chapter("The deposit");
    queue_payment(p, payment);
    uint64_t token = drain_one(p, 1, SUBMISSION_BOOK_RELATIONSHIP_INITIAL);
    finalize(p, token, SUBMISSION_BOOK_SOURCE_NOT_REQUESTED, payment, SUBMISSION_BOOK_DISPOSITION_NOT_REQUESTED, 0);
    acknowledge(p, token, SUBMISSION_BOOK_STATUS_APPLIED);
}

static void delivery(Planner *p, const Payment *payment) {
    chapter("The delivery, with a fee");
    queue_payment(p, payment);
    uint64_t token = drain_one(p, 2, SUBMISSION_BOOK_RELATIONSHIP_INITIAL);
    finalize(p, token, SUBMISSION_BOOK_SOURCE_JOINED, payment, SUBMISSION_BOOK_DISPOSITION_ATTACHED, payment->delivery.fee_intent.amount);
    acknowledge(p, token, SUBMISSION_BOOK_STATUS_APPLIED);
}

/* Which outputs of the undone submissions are among the absent coins. */
static void find_absent(Planner *p, const submission_book_ids *undone, const uint8_t *absent, size_t absent_length) {
    static uint8_t answer[SUBMISSION_BOOK_ABSENT_OUTPUTS_BYTES];
    static submission_book_coins outputs;
    uint64_t length = 0;
    uint8_t said = submission_book_absent_outputs_for_ids(p->book, sizeof p->book, undone->ids, undone->count, absent, absent_length, answer,
                                                          sizeof answer, &length);
    told(p, said, 0, "which of their outputs are absent");
    expect(submission_book_answer_coins(answer, (size_t)length, &outputs) == SUBMISSION_BOOK_DONE, "the form of a coin list");
    printf("       coins: %zu\n", outputs.count);
    expect(length == absent_length && memcmp(answer, absent, absent_length) == 0, "the absent outputs");
}

/* Which submissions the new chain has undone: the output of the payment is absent, and its coin can be spent again. */
static void find_undone(Planner *p, const Payment *payment, submission_book_ids *undone) {
    uint8_t absent[2 + 1 + SUBMISSION_BOOK_COIN_BYTES], inputs[SUBMISSION_BOOK_COIN_ID_BYTES], answer[SUBMISSION_BOOK_IDS_BYTES];
    const submission_book_spend *spend = &payment->delivery.bundle.spends[0];
    submission_book_coin output = output_coin(spend, 0);
    submission_book_hash input = coin_id_of(&spend->coin);
    size_t absent_length = 0, inputs_length = 0;
    expect(submission_book_build_coin_list(&output, 1, absent, sizeof absent, &absent_length) == SUBMISSION_BOOK_DONE, "the form of a coin list");
    expect(submission_book_build_coin_ids(&input, 1, inputs, sizeof inputs, &inputs_length) == SUBMISSION_BOOK_DONE, "the form of coin ids");
    uint8_t said = submission_book_causally_rolled_back_ids(p->book, sizeof p->book, absent, absent_length, inputs, inputs_length, answer, sizeof answer);
    told(p, said, 0, "which submissions are undone: the %s's output is absent, its coin unspent", payment->name);
    read_ids(answer, sizeof answer, undone);
    print_ids("undone", undone);
    expect_ids(undone, (const uint64_t[]){2}, 1);
    find_absent(p, undone, absent, absent_length);
}

static void begin_replay(Planner *p, uint64_t height, bool wanted) {
    uint8_t answer[SUBMISSION_BOOK_FLAG_BYTES];
    bool began = false;
    uint8_t said = submission_book_begin_replay(p->book, sizeof p->book, height, answer, sizeof answer);
    told(p, said, 0, "begin the replay at height %" PRIu64, height);
    expect(submission_book_answer_flag(answer, sizeof answer, &began) == SUBMISSION_BOOK_DONE, "the form of a flag");
    puts(began ? "       begun" : "       it runs already");
    expect(began == wanted, "whether the replay began");
}

static void finish_replay(Planner *p, uint64_t height, bool over) {
    uint8_t answer[SUBMISSION_BOOK_HEIGHT_BYTES];
    submission_book_optional replay;
    uint8_t said = submission_book_finish_replay_if_advanced(p->book, sizeof p->book, height);
    told(p, said, 0, "finish the replay if height %" PRIu64 " is beyond it", height);
    said = submission_book_replay_rollback_height(p->book, sizeof p->book, answer, sizeof answer);
    told(p, said, 0, "ask for the height of the replay");
    expect(submission_book_answer_height(answer, sizeof answer, &replay) == SUBMISSION_BOOK_DONE, "the form of a height");
    if (replay.present) {
        printf("       %" PRIu64 "\n", replay.value);
    } else {
        puts("       none: the replay is over");
    }
    expect(replay.present == !over, "whether the replay is over");
}

static void reorganisation(Planner *p, const Payment *paid, const Payment *undone) {
    static const submission_book_ids none;
    const Payment *both[] = {paid, undone};
    submission_book_ids ids;
    chapter("Both payments land; then a reorganisation undoes the delivery");
    report_landed(p, both, 2, false, &none);
    collect_retirements(p, (const uint64_t[]){1, 2}, 2, "settled by the chain");
    find_undone(p, undone, &ids);
    report_landed(p, both, 1, true, &ids);
    begin_replay(p, 5200, true);
    begin_replay(p, 5200, false);
    uint8_t said = submission_book_collect_rollback_replay_ids(p->book, sizeof p->book, ids.ids, ids.count);
    told(p, said, 0, "offer what was undone for delivery again");
    uint64_t token = drain_one(p, 2, SUBMISSION_BOOK_RELATIONSHIP_EXACT);
    finalize(p, token, SUBMISSION_BOOK_SOURCE_NOT_REQUESTED, undone, SUBMISSION_BOOK_DISPOSITION_NOT_REQUESTED, 25);
    finish_replay(p, 5200, false);
    finish_replay(p, 5201, true);
    report_landed(p, both, 2, false, &none);
    collect_retirements(p, (const uint64_t[]){1, 2}, 2, "settled by the chain");
    acknowledge(p, token, SUBMISSION_BOOK_STATUS_STALE);
}

static void fitting(Planner *p, const Payment *payment) {
    uint64_t fee = payment->delivery.fee_intent.amount;
    chapter("The fitting: the fee comes later, as a fee upgrade");
    queue_payment(p, payment);
    uint64_t first = drain_one(p, 3, SUBMISSION_BOOK_RELATIONSHIP_INITIAL);
    finalize(p, first, SUBMISSION_BOOK_SOURCE_FAILED, payment, SUBMISSION_BOOK_DISPOSITION_UNUSED, 0);
    acknowledge(p, first, SUBMISSION_BOOK_STATUS_APPLIED);
    uint8_t said = submission_book_queue_retained_delivery(p->book, sizeof p->book, 3, SUBMISSION_BOOK_TRIGGER_PROVIDER_READINESS,
                                                           SUBMISSION_BOOK_GOAL_FEE_UPGRADE);
    told(p, said, 0, "queue submission 3 again for a fee upgrade: the wallet is ready");
    uint64_t second = drain_one(p, 3, SUBMISSION_BOOK_RELATIONSHIP_NEWER_FEE_BEARING);
    finalize(p, second, SUBMISSION_BOOK_SOURCE_JOINED, payment, SUBMISSION_BOOK_DISPOSITION_ATTACHED, fee);
    acknowledge(p, second, SUBMISSION_BOOK_STATUS_APPLIED);
}

/* Calls that are turned away: the number says why, and no byte of the book or of the answer changes. */
static void refusals(Planner *p, uint64_t token) {
    static uint8_t before[SUBMISSION_BOOK_BYTES];
    uint8_t answer[SUBMISSION_BOOK_FINALIZED_BYTES] = {0}, untouched[sizeof answer] = {0}, empty[1] = {0};
    memcpy(before, p->book, sizeof before);
    uint8_t said = submission_book_acknowledge_attempt(p->book, sizeof p->book, token, answer, sizeof answer);
    told(p, said, SUBMISSION_BOOK_NOT_FINALIZED, "acknowledge attempt %" PRIu64 " too early", token);
    said = submission_book_stop_attempt(p->book, sizeof p->book, 999, answer, sizeof answer);
    told(p, said, SUBMISSION_BOOK_UNKNOWN_TOKEN, "stop attempt 999");
    said = submission_book_finalize_attempt(p->book, sizeof p->book, token, SUBMISSION_BOOK_SOURCE_JOINED, empty, 1, answer, sizeof answer);
    told(p, said, SUBMISSION_BOOK_UNREQUESTED_FEE, "finalise attempt %" PRIu64 " with a fee that nobody asked for", token);
    expect(memcmp(before, p->book, sizeof before) == 0, "that refused calls leave every byte of the book");
    expect(memcmp(untouched, answer, sizeof answer) == 0, "that refused calls leave every byte of the answer");
}

static void final_payment(Planner *p, const Payment *wrong, const Payment *right) {
    chapter("The final payment: the first attempt is abandoned, the second goes through");
    queue_payment(p, wrong);
    abandon(p, drain_one(p, 4, SUBMISSION_BOOK_RELATIONSHIP_INITIAL));
    queue_payment(p, right);
    uint64_t token = drain_one(p, 5, SUBMISSION_BOOK_RELATIONSHIP_INITIAL);
    refusals(p, token);
    finalize(p, token, SUBMISSION_BOOK_SOURCE_NOT_REQUESTED, right, SUBMISSION_BOOK_DISPOSITION_NOT_REQUESTED, 0);
    acknowledge(p, token, SUBMISSION_BOOK_STATUS_APPLIED);
}

static void withdraw(Planner *p, uint64_t id) {
    uint8_t answer[SUBMISSION_BOOK_IDS_BYTES];
    submission_book_ids removed;
    uint8_t said = submission_book_retain_submitted(p->book, sizeof p->book, &id, 1, answer, sizeof answer);
    told(p, said, 0, "remove submission %" PRIu64 ": the customer does not want it", id);
    read_ids(answer, sizeof answer, &removed);
    print_ids("removed", &removed);
    expect_ids(&removed, &id, 1);
    for (size_t i = 0; i < removed.count; i++) {
        account_removed(&p->account, removed.ids[i], "removed");
    }
}

static void extras(Planner *p, const Payment *sockets, const Payment *lights, const Payment *handles) {
    uint8_t answer[SUBMISSION_BOOK_IDS_BYTES];
    submission_book_ids active;
    chapter("Extras: one is removed, one is under way, one is queued");
    queue_payment(p, sockets);
    drain_one(p, 6, SUBMISSION_BOOK_RELATIONSHIP_INITIAL);
    withdraw(p, 6);
    queue_payment(p, lights);
    stop(p, drain_one(p, 7, SUBMISSION_BOOK_RELATIONSHIP_INITIAL));
    uint8_t said = submission_book_active_ids(p->book, sizeof p->book, answer, sizeof answer);
    told(p, said, 0, "ask for the active submissions");
    read_ids(answer, sizeof answer, &active);
    print_ids("active", &active);
    expect_ids(&active, (const uint64_t[]){3, 5, 7}, 3);
    said = submission_book_queue_rebroadcast_epoch(p->book, sizeof p->book, active.ids, active.count, SUBMISSION_BOOK_TRIGGER_FRESH_CHAIN);
    told(p, said, 0, "offer them for delivery again: the wallet is open");
    drain_one(p, 7, SUBMISSION_BOOK_RELATIONSHIP_EXACT);
    queue_payment(p, handles);
}

/* ---- what became of each payment */
static void print_look(const submission_book_look_result *look) {
    static const char *const chains[] = {"not on the chain yet", "an input of it is spent", "landed"};
    static const char *const fees[] = {"its fee is open", "no fee asked for"};
    printf("       %s, %s by the wallet, ", chains[look->chain], look->acknowledged ? "taken" : "not taken");
    if (look->fee_resolution == SUBMISSION_BOOK_RESOLUTION_ATTACHED) {
        printf("with a fee of %" PRIu64 " cents", look->applied_fee);
    } else {
        printf("%s", fees[look->fee_resolution]);
    }
    if (look->live_token.present) {
        printf(", attempt %" PRIu64 " is live", look->live_token.value);
    }
    if (look->set_aside_token.present) {
        printf(", attempt %" PRIu64 " is set aside", look->set_aside_token.value);
    }
    if (look->expiry.present) {
        printf(", expires at height %" PRIu64, look->expiry.value);
    }
    puts("");
}

/* Its attempts in the book are those of the account. */
static void expect_attempts(const Account *account, uint64_t id, const submission_book_look_result *look) {
    for (size_t i = 0; i < account->count; i++) {
        const Row *row = &account->rows[i];
        if (row->id == id) {
            bool live = look->live_token.present && look->live_token.value == row->token;
            bool aside = look->set_aside_token.present && look->set_aside_token.value == row->token;
            expect(live == (row->fate == LIVE) && aside == (row->fate == SET_ASIDE), "the attempts of a submission");
            expect(row->fate != STRUCK_OUT || !look->present, "that a submission is gone");
        }
    }
}

static void look_at(Planner *p, uint64_t id) {
    uint8_t answer[SUBMISSION_BOOK_LOOK_BYTES];
    submission_book_look_result look;
    uint8_t said = submission_book_look(p->book, sizeof p->book, id, answer, sizeof answer);
    told(p, said, 0, "look at submission %" PRIu64 ", the %s", id, p->payments[id]->name);
    expect(submission_book_answer_look(answer, sizeof answer, &look) == SUBMISSION_BOOK_DONE, "the form of a look");
    if (look.present) {
        print_look(&look);
    } else {
        puts("       no longer in the book");
    }
    expect_attempts(&p->account, id, &look);
}

/* Answers the next token. */
static uint64_t count_all(Planner *p) {
    uint8_t answer[SUBMISSION_BOOK_SUMMARY_BYTES];
    submission_book_summary_result all;
    uint8_t said = submission_book_summary(p->book, sizeof p->book, answer, sizeof answer);
    told(p, said, 0, "ask for the book in numbers");
    expect(submission_book_answer_summary(answer, sizeof answer, &all) == SUBMISSION_BOOK_DONE, "the form of a summary");
    printf("       %zu submissions, %zu queued, %zu ids for the wallet to forget, next token %" PRIu64 ", next submission %" PRIu64 "\n", all.retained,
           all.queued, all.retired, all.next_token, all.next_id);
    expect(all.retained == 5 && all.queued == 1 && all.retired == 2 && all.replayed == 0, "the counts of the book");
    expect(all.next_id == SUBMISSIONS && !all.rollback_height.present, "the next submission, and that no replay runs");
    return all.next_token;
}

static uint64_t outcome(Planner *p) {
    chapter("What became of each payment");
    for (uint64_t id = 1; id < SUBMISSIONS; id++) {
        look_at(p, id);
    }
    return count_all(p);
}

/* ---- the account, held against the book */
static void compare_row(Planner *p, const Row *row) {
    uint8_t answer[SUBMISSION_BOOK_ATTEMPT_BYTES], status = 0;
    submission_book_live_attempt attempt;
    expect(submission_book_attempt(p->book, sizeof p->book, row->token, answer, sizeof answer) == 0, "the look at an attempt");
    expect(submission_book_answer_attempt(answer, sizeof answer, &attempt) == 0, "the form of an attempt");
    expect(attempt.present == (row->fate == LIVE), "which tokens are live");
    expect(submission_book_relinquish_completed_attempt(p->book, sizeof p->book, row->token, answer, sizeof answer) == 0, "the look at a set-aside attempt");
    expect(submission_book_answer_status(answer, sizeof answer, &status) == 0, "the form of a status");
    expect((status == SUBMISSION_BOOK_STATUS_APPLIED) == (row->fate == SET_ASIDE), "which tokens are set aside");
}

static void print_account(Planner *p, uint64_t next_token) {
    const Account *account = &p->account;
    size_t sum = 0;
    chapter("Every token and its fate, from the answers above");
    puts("       live: the attempt that may still act; set aside: over, and the next attempt's predecessor;\n"
         "       displaced: a later attempt took its place; struck out: gone with its submission");
    for (size_t i = 0; i < account->count; i++) {
        const Row *row = &account->rows[i];
        const Payment *payment = p->payments[row->id];
        printf("       token %" PRIu64 "  submission %" PRIu64 "  %-10s  %-20s  %s, %" PRIu64 ".%02" PRIu64 "\n", row->token, row->id,
               fate_name(row->fate), row->reason, payment->name, payment->amount / 100, payment->amount % 100);
        compare_row(p, row);
    }
    printf("       ");
    for (Fate fate = LIVE; fate <= STRUCK_OUT; fate++) {
        printf("%s%s %zu", fate == LIVE ? "" : ", ", fate_name(fate), account_count(account, fate));
        sum += account_count(account, fate);
    }
    printf("; sum %zu = next token %" PRIu64 " less opening token %" PRIu64 "\n", sum, next_token, account->opening_token);
    expect(sum == next_token - account->opening_token, "that every token has a fate");
}

/* ---- the archive */
static void save(const char *name, const uint8_t *bytes, size_t length) {
    FILE *file = fopen(name, "wb");
    expect(file != NULL, "that the archive's file can be written");
    size_t written = fwrite(bytes, 1, length, file);
    expect(fclose(file) == 0 && written == length, "that the archive is written whole");
}

static size_t load(const char *name, uint8_t *bytes, size_t room) {
    FILE *file = fopen(name, "rb");
    expect(file != NULL, "that the archive's file can be read");
    size_t length = fread(bytes, 1, room, file);
    expect(fclose(file) == 0, "that the archive is read whole");
    return length;
}

static void keep_archive(Planner *p, const char *name) {
    static uint8_t archive[SUBMISSION_BOOK_ARCHIVE_BYTES], loaded[SUBMISSION_BOOK_ARCHIVE_BYTES], second[SUBMISSION_BOOK_BYTES];
    uint64_t length = 0, place = 0;
    chapter("The archive");
    uint8_t said = submission_book_write(p->book, sizeof p->book, archive, sizeof archive, &length);
    told(p, said, 0, "write the archive");
    save(name, archive, (size_t)length);
    printf("       %" PRIu64 " bytes, saved as %s\n", length, name);
    size_t read = load(name, loaded, sizeof loaded);
    said = submission_book_read(second, sizeof second, loaded, read, &place);
    told(p, said, 0, "read the %zu bytes of that file into a second book", read);
    memset(loaded, 0, sizeof loaded);
    said = submission_book_write(second, sizeof second, loaded, sizeof loaded, &place);
    told(p, said, 0, "write the archive of the second book");
    expect(place == length && memcmp(loaded, archive, (size_t)length) == 0, "that both archives are the same bytes");
    puts("       the same bytes");
    said = submission_book_read(second, sizeof second, archive, (size_t)length - 1, &place);
    told(p, said, SUBMISSION_BOOK_NO_ARCHIVE, "read all but the last byte");
    printf("       the archive breaks off at byte %" PRIu64 "\n", place);
    expect(place == length - 1, "the place of the refusal");
}

int main(int argc, char **argv) {
    static Planner planner;
    if (argc != 2) {
        fprintf(stderr, "use: %s FILE\n", argv[0]);
        return 2;
    }
    Payment first = sample_payment("deposit", 450000, 500000, 0);
    Payment second = sample_payment("delivery", 750000, 800000, 25);
    Payment third = sample_payment("fitting", 225000, 225000, 25);
    Payment wrong = sample_payment("final payment with a slip", 7500, 100000, 0);
    Payment right = sample_payment("final payment", 75000, 100000, 0);
    Payment sockets = sample_payment("worktop sockets", 18000, 20000, 0);
    Payment lights = sample_payment("cupboard lights", 32000, 32000, 25);
    Payment handles = sample_payment("drawer handles", 9500, 10000, 0);
    third.delivery.expiry = (submission_book_optional){true, 9000};

    puts("A sample kitchen: its payments, and what became of each attempt to deliver them\n"
         "\n"
         "Each numbered line is a call of the library with its answer. A payment is queued. Draining the queue makes it a submission with an\n"
         "id, and gives the attempt to deliver it a token. The attempt is finalised (what is broadcast, with which fee) and acknowledged (the\n"
         "wallet has taken it), or stopped, or abandoned. The chain shows that a payment has landed, or in a reorganisation that it has not\n"
         "after all, and then it is delivered again (replay). All names and amounts are made up.\n");
    open_book(&planner);
    deposit(&planner, &first);
    delivery(&planner, &second);
    reorganisation(&planner, &first, &second);
    fitting(&planner, &third);
    final_payment(&planner, &wrong, &right);
    extras(&planner, &sockets, &lights, &handles);
    uint64_t next_token = outcome(&planner);
    keep_archive(&planner, argv[1]);
    print_account(&planner, next_token);
    return 0;
}
