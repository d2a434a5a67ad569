/* What each call of the target `calls` must have done, from the book before and behind it (docs/DRIVER.md, docs/ARCHIVE.md). */
#ifndef CHECKS_H
#define CHECKS_H
#include "lent.h"
#include "reader.h"
#include "script.h"
#include "sha256.h"

/* The arguments of a call. */
struct given {
    struct made one, two, ids;
    uint64_t number;
    uint8_t kind, goal;
    size_t answer_len;
};

/* Tokens issued since the book was opened or read, each with its id. A token is in no answer where its drain was refused 11. */
#define ROWS 4096
struct ledger {
    int opened; /* and not read */
    uint64_t first, count;
    uint64_t id[ROWS];
    uint8_t known[ROWS];
};

static struct ledger ledger;
static const struct shape *was, *is; /* the book before the call, and behind it */

static void start_ledger(int opened, uint64_t first) {
    ledger.opened = opened;
    ledger.first = first;
    ledger.count = 0;
}

static const struct submission *live_in(const struct shape *r, uint64_t token) {
    for (unsigned i = 0; i < r->retained; i++) {
        const struct submission *x = &r->submission[i];
        if (x->live.there && x->live.token == token) {
            return x;
        }
    }
    return NULL;
}

static const struct submission *aside_in(const struct shape *r, uint64_t token) {
    for (unsigned i = 0; i < r->retained; i++) {
        const struct submission *x = &r->submission[i];
        if (x->aside.there && x->aside.token == token) {
            return x;
        }
    }
    return NULL;
}

static int retired_in(const struct shape *r, uint64_t id) {
    int found = 0;
    for (unsigned i = 0; i < r->retirements; i++) {
        found |= r->retired[i] == id;
    }
    return found;
}

static int same_part(const struct shape *a, struct part p, const struct shape *b, struct part q) {
    return p.end - p.at == q.end - q.at && memcmp(a->s + p.at, b->s + q.at, p.end - p.at) == 0;
}

static uint64_t id_given(const struct given *g, size_t i) {
    uint64_t id;
    memcpy(&id, g->ids.s + 8 * i, 8);
    return id;
}

static int id_is_given(const struct given *g, uint64_t id) {
    int found = 0;
    for (size_t i = 0; i < g->ids.len / 8; i++) {
        found |= id_given(g, i) == id;
    }
    return found;
}

/* ---- what a call is refused for; -1 where this side does not say */

static int is_coin_list(const struct made *m) {
    size_t at = 2;
    unsigned n = m->len < 2 ? 801 : m->s[0] * 256u + m->s[1];
    int ok = n <= 800;
    for (unsigned i = 0; i < n && ok; i++) {
        ok = at < m->len && m->s[at] <= 73;
        at += ok ? 1u + m->s[at] : 0;
    }
    return ok && at == m->len;
}

static int is_coin_ids(const struct made *m) {
    return m->len % 32 == 0 && m->len <= 800 * 32;
}

static int is_bundle(const struct made *m) {
    struct shape r;
    start_shape(&r, m->s, m->len);
    take_bundle(&r, 0);
    return r.ok && r.at == m->len;
}

static int is_delivery(const struct made *m) {
    struct shape r;
    start_shape(&r, m->s, m->len);
    take_delivery(&r);
    return r.ok && r.at == m->len;
}

static int many_ids(const struct given *g) {
    return g->ids.len > 64 * 8;
}

static int foretell_none(const struct given *g) {
    (void)g;
    return 0;
}

static int foretell_unsaid(const struct given *g) {
    (void)g;
    return -1;
}

static int foretell_queue(const struct given *g) {
    if (!is_delivery(&g->one)) {
        return 3;
    }
    return was->queue == 16 ? 10 : 0;
}

static int foretell_rebroadcast(const struct given *g) {
    if (many_ids(g)) {
        return 2;
    }
    return g->kind > 3 ? 3 : -1;
}

static int foretell_retained(const struct given *g) {
    return g->kind > 3 || g->goal > 1 ? 3 : -1;
}

static int foretell_ids(const struct given *g) {
    return many_ids(g) ? 2 : -1;
}

static int foretell_token(const struct given *g) {
    return live_in(was, g->number) != NULL || g->number < was->next_token ? 0 : 4;
}

static int foretell_abandon(const struct given *g) {
    return live_in(was, g->number) != NULL ? -1 : foretell_token(g);
}

static int foretell_acknowledge(const struct given *g) {
    const struct submission *x = live_in(was, g->number);
    if (x != NULL) {
        return x->live.finalised ? -1 : 6;
    }
    return foretell_token(g);
}

static int foretell_finalize(const struct given *g) {
    const struct submission *x = live_in(was, g->number);
    int joined = g->kind == 1 ? is_bundle(&g->one) : g->one.len == 0;
    if (g->kind > 3 || !joined) {
        return 3;
    }
    if (x != NULL) {
        return x->live.finalised ? 5 : -1;
    }
    return foretell_token(g);
}

static int foretell_emit(const struct given *g) {
    return was->retirements == 64 && !retired_in(was, g->number) ? 10 : 0;
}

static int foretell_coins(const struct given *g) {
    return is_coin_list(&g->one) ? 0 : 2;
}

static int foretell_absent(const struct given *g) {
    return many_ids(g) || !is_coin_list(&g->one) ? 2 : 0;
}

static int foretell_rolled_back(const struct given *g) {
    return is_coin_list(&g->one) && is_coin_ids(&g->two) ? 0 : 2;
}

static int foretell_reconcile(const struct given *g) {
    if (!is_coin_list(&g->one) || !is_coin_ids(&g->two) || many_ids(g)) {
        return 2;
    }
    return g->kind > 1 ? 3 : -1;
}

/* ---- the answer and the book of an accepted call; each says how many bytes its answer has */

static size_t check_none(const struct given *g, const uint8_t *answer, size_t len) {
    (void)g, (void)answer, (void)len;
    return 0;
}

static size_t check_queue(const struct given *g, const uint8_t *answer, size_t len) {
    (void)answer, (void)len;
    must(is->queue == was->queue + 1, "one entry more is queued");
    struct part p = is->queued[is->queue - 1].whole;
    must(p.end - p.at == g->one.len && memcmp(is->s + p.at, g->one.s, g->one.len) == 0, "the last entry is the delivery");
    return 0;
}

static int same_book(void) {
    return is->len == was->len && memcmp(is->s, was->s, is->len) == 0;
}

/* Applied where the token is live, else Stale and no change. */
static size_t check_status(const struct given *g, const uint8_t *answer, size_t len) {
    (void)len;
    int live = live_in(was, g->number) != NULL;
    must(answer[0] == (live ? 0 : 1), "status");
    must(live || same_book(), "a stale attempt changes nothing");
    must(live_in(is, g->number) == NULL, "the attempt is no longer live");
    return 1;
}

/* The live attempt goes to the set-aside slot, and nothing else changes. */
static size_t check_stop(const struct given *g, const uint8_t *answer, size_t len) {
    const struct submission *x = live_in(was, g->number);
    if (x != NULL) {
        size_t from = x->live.form.at, n = x->live.form.end - from, rest = x->aside.form.end;
        must(is->len == from + 1 + n + was->len - rest, "length behind a stop");
        must(memcmp(is->s, was->s, from) == 0 && is->s[from] == 0, "in front of a stopped slot");
        must(memcmp(is->s + from + 1, was->s + from, n) == 0, "the set-aside slot");
        must(memcmp(is->s + from + 1 + n, was->s + rest, was->len - rest) == 0, "behind a stopped slot");
    }
    return check_status(g, answer, len);
}

static size_t check_acknowledge(const struct given *g, const uint8_t *answer, size_t len) {
    const struct submission *x = live_in(was, g->number);
    if (x != NULL) {
        const struct submission *y = retained_with(is, x->id);
        must(y != NULL && !y->live.there, "an acknowledged submission has no live attempt");
        must(same_part(was, x->live.form, is, y->aside.form), "the acknowledged attempt is set aside");
    }
    return check_status(g, answer, len);
}

static size_t check_abandon(const struct given *g, const uint8_t *answer, size_t len) {
    const struct submission *x = live_in(was, g->number);
    if (x != NULL) {
        must(retained_with(is, x->id) == NULL, "an abandoned submission is removed");
        must(retired_in(is, x->id), "an abandoned submission is retired");
    }
    return check_status(g, answer, len);
}

static size_t check_relinquish(const struct given *g, const uint8_t *answer, size_t len) {
    (void)len;
    must(answer[0] == (aside_in(was, g->number) != NULL ? 0 : 1), "status");
    must(same_book(), "relinquishing changes nothing");
    return 1;
}

static size_t check_attempt(const struct given *g, const uint8_t *answer, size_t len) {
    const struct submission *x = live_in(was, g->number);
    must(same_book(), "looking at an attempt changes nothing");
    if (x == NULL) {
        must(answer[0] == 0, "no live attempt");
        return 1;
    }
    size_t n = x->live.form.end - x->live.form.at;
    must(n <= len && memcmp(answer, was->s + x->live.form.at, n) == 0, "the live attempt");
    return n;
}

/* The fee intent while it is unresolved, else AlreadyPaid. */
static size_t check_fee_intent(const struct given *g, const uint8_t *answer, size_t len) {
    static const uint8_t paid[1] = {0};
    const struct submission *x = live_in(was, g->number);
    must(same_book(), "looking at a fee intent changes nothing");
    must(answer[0] == (x != NULL), "mark of a fee intent");
    if (x == NULL) {
        return 1;
    }
    const uint8_t *want = x->mark == 0 ? was->s + x->fee_intent.at : paid;
    size_t n = x->mark == 0 ? x->fee_intent.end - x->fee_intent.at : 1;
    must(1 + n <= len && memcmp(answer + 1, want, n) == 0, "fee intent");
    return 1 + n;
}

static void check_final(const struct submission *x, const uint8_t *answer, struct part bundle, const uint8_t *print) {
    uint8_t own[32];
    const struct submission *y = retained_with(is, x->id);
    sha256(answer + bundle.at, bundle.end - bundle.at, own);
    must(memcmp(own, print, 32) == 0, "the variant fingerprint is that of the bundle");
    must(y != NULL && y->live.there && y->live.finalised, "the attempt is finalised");
    must(memcmp(is->s + y->live.form.end - 32, print, 32) == 0, "the finalised fingerprint");
    struct part now = y->has_fee ? y->fee : y->base;
    must(now.end - now.at == bundle.end - bundle.at && memcmp(is->s + now.at, answer + bundle.at, now.end - now.at) == 0,
         "the bundle is the submission's current one");
}

static size_t check_finalize(const struct given *g, const uint8_t *answer, size_t len) {
    const struct submission *x = live_in(was, g->number);
    struct shape r;
    start_shape(&r, answer, len);
    must(take_count(&r, 0, 1) == (x != NULL) && r.ok, "mark of a finalised attempt");
    if (x == NULL) {
        must(same_book(), "an inactive attempt changes nothing");
        return 1;
    }
    struct part bundle = take_bundle(&r, 0);
    take_number(&r);
    take_count(&r, 0, 1);
    take_count(&r, 0, 2);
    size_t print = take_run(&r, 32);
    take_count(&r, 0, 1);
    must(r.ok, "form of a finalised attempt");
    check_final(x, answer, bundle, answer + print);
    return r.at;
}

/* A list of ids in an answer; says how many. */
static size_t ids_in(const uint8_t *answer, size_t len, uint64_t *ids) {
    must(len >= 1 && answer[0] <= 64 && len >= 1 + 8u * answer[0], "count of ids");
    for (size_t i = 0; i < answer[0]; i++) {
        ids[i] = number_at(answer + 1 + 8 * i);
    }
    return answer[0];
}

static size_t check_active(const struct given *g, const uint8_t *answer, size_t len) {
    uint64_t ids[64];
    size_t n = ids_in(answer, len, ids), k = 0;
    (void)g;
    for (unsigned i = 0; i < was->retained; i++) {
        if (was->submission[i].chain == 0) {
            must(k < n && ids[k] == was->submission[i].id, "active ids");
            k++;
        }
    }
    must(k == n && same_book(), "active ids are all, and looking changes nothing");
    return 1 + 8 * n;
}

static size_t check_drain_retirements(const struct given *g, const uint8_t *answer, size_t len) {
    uint64_t ids[64];
    size_t n = ids_in(answer, len, ids);
    (void)g;
    must(n == was->retirements && memcmp(ids, was->retired, 8 * n) == 0, "the retirements that were there");
    must(is->retirements == 0, "retirements are drained");
    return 1 + 8 * n;
}

static size_t check_retain(const struct given *g, const uint8_t *answer, size_t len) {
    uint64_t ids[64];
    size_t n = ids_in(answer, len, ids);
    for (size_t i = 0; i < n; i++) {
        must(i == 0 || ids[i - 1] < ids[i], "removed ids rise");
        must(id_is_given(g, ids[i]) && retained_with(was, ids[i]) != NULL, "a removed id was given and retained");
        must(retained_with(is, ids[i]) == NULL && retired_in(is, ids[i]), "a removed id is retired");
    }
    must(is->retained + n == was->retained, "the others stay");
    return 1 + 8 * n;
}

static size_t check_emit(const struct given *g, const uint8_t *answer, size_t len) {
    (void)answer, (void)len;
    must(retired_in(is, g->number), "an emitted id is retired");
    must(is->retirements == was->retirements + !retired_in(was, g->number), "retirements grow by one");
    return 0;
}

static size_t check_begin(const struct given *g, const uint8_t *answer, size_t len) {
    (void)len;
    int held = was->has_height && was->height == g->number;
    must(answer[0] == !held, "flag of a begun replay");
    must(is->has_height && is->height == g->number, "height of a begun replay");
    must(held ? same_book() : is->replayed == 0, "a begun replay has no replayed ids");
    return 1;
}

static size_t check_finish(const struct given *g, const uint8_t *answer, size_t len) {
    (void)answer, (void)len;
    int ends = was->has_height && g->number > was->height;
    must(ends ? !is->has_height && is->replayed == 0 : same_book(), "a replay ends where the height is above");
    return 0;
}

static size_t check_height(const struct given *g, const uint8_t *answer, size_t len) {
    (void)g;
    must(same_book() && answer[0] == was->has_height, "mark of a height");
    must(!was->has_height || (len >= 9 && number_at(answer + 1) == was->height), "height");
    return was->has_height ? 9 : 1;
}

/* An optional token or height at the front of an answer's bytes; says how many it has. */
static size_t check_optional(const uint8_t *answer, size_t len, int there, uint64_t value) {
    must(len >= 1 && answer[0] == there, "mark of an optional number");
    must(!there || (len >= 9 && number_at(answer + 1) == value), "optional number");
    return there ? 9 : 1;
}

static int is_acknowledged(const struct submission *x) {
    uint8_t own[32];
    struct part current = x->has_fee ? x->fee : x->base;
    sha256(was->s + current.at, current.end - current.at, own);
    return was->s[x->acknowledged.at] == 1 && memcmp(was->s + x->acknowledged.at + 1, own, 32) == 0;
}

static size_t check_look(const struct given *g, const uint8_t *answer, size_t len) {
    const struct submission *x = retained_with(was, g->number);
    must(same_book() && answer[0] == (x != NULL), "mark of a look");
    if (x == NULL) {
        return 1;
    }
    size_t at = 12, n = x->expiry.end - x->expiry.at;
    must(len >= at + n && answer[1] == x->chain && answer[3] == x->mark, "chain and mark of a look");
    must(answer[2] == is_acknowledged(x), "acknowledged in a look");
    must(number_at(answer + 4) == x->applied_fee, "applied fee of a look");
    must(memcmp(answer + at, was->s + x->expiry.at, n) == 0, "expiry of a look");
    at += n;
    at += check_optional(answer + at, len - at, x->live.there, x->live.token);
    return at + check_optional(answer + at, len - at, x->aside.there, x->aside.token);
}

static size_t check_summary(const struct given *g, const uint8_t *answer, size_t len) {
    const uint64_t numbers[6] = {was->next_token, was->next_id, was->retained, was->queue, was->retirements, was->replayed};
    (void)g;
    must(same_book() && len >= 49, "length of a summary");
    for (size_t i = 0; i < 6; i++) {
        must(number_at(answer + 8 * i) == numbers[i], "number of a summary");
    }
    return 48 + check_optional(answer + 48, len - 48, (int)was->has_height, was->height);
}

static size_t check_clear(const struct given *g, const uint8_t *answer, size_t len) {
    (void)g, (void)answer, (void)len;
    must(is->retained + is->queue + is->has_height + is->replayed == 0, "nothing is left of a cleared book");
    return 0;
}

static size_t check_restore(const struct given *g, const uint8_t *answer, size_t len) {
    (void)g, (void)answer, (void)len;
    for (unsigned i = 0; i < is->retained; i++) {
        const struct submission *x = &was->submission[i], *y = &is->submission[i];
        must(!y->live.there, "no attempt is live behind a restore");
        must(same_part(was, x->live.there ? x->live.form : x->aside.form, is, y->aside.form), "live attempts are set aside");
    }
    return 0;
}

/* ---- drain */

static uint64_t emitted[16];

/* The token of the id's last row before `token`. */
static int last_row(uint64_t id, uint64_t token, uint64_t *last) {
    for (uint64_t k = token - ledger.first; k > 0; k--) {
        if (ledger.known[k - 1] && ledger.id[k - 1] == id) {
            *last = ledger.first + k - 1;
            return 1;
        }
    }
    return 0;
}

static void add_row(uint64_t token, uint64_t id, int known) {
    uint64_t k = token - ledger.first;
    if (k < ROWS) {
        ledger.id[k] = id;
        ledger.known[k] = (uint8_t)known;
        ledger.count = k + 1;
    }
}

static void check_predecessor(uint64_t id, uint64_t token, int has, uint64_t predecessor) {
    const struct submission *x = retained_with(was, id);
    int want = x != NULL && (x->live.there || x->aside.there);
    uint64_t slot = want ? (x->live.there ? x->live.token : x->aside.token) : 0, row = 0;
    if (ledger.opened) {
        must(last_row(id, token, &row) == has && (!has || row == predecessor), "predecessor is the id's last token");
        must(want == has, "a predecessor was in a slot");
    }
    /* Only in a book that was not opened can an id be removed and given again within one drain. */
    must(!has || (want && slot == predecessor), "predecessor is the token in the slot");
}

/* What a drain says of a submission that is still retained: its bundle, expiry and fee intent, and the fingerprint if it is new. */
static void check_intent(const struct shape *r, const struct submission *y, struct part bundle, struct part fee_intent) {
    static struct made intent;
    static const uint8_t paid[1] = {0};
    static const struct shape paid_shape = {.s = paid};
    struct part none = {0, 1};
    uint8_t print[32];
    must(same_part(r, bundle, is, y->has_fee ? y->fee : y->base), "the emitted bundle");
    must(y->mark == 0 ? same_part(r, fee_intent, is, y->fee_intent) : same_part(r, fee_intent, &paid_shape, none), "the emitted fee intent");
    intent.len = 0;
    add_run(&intent, r->s + bundle.at, fee_intent.at - bundle.at);
    add_run(&intent, is->s + y->fee_intent.at, y->fee_intent.end - y->fee_intent.at);
    sha256(intent.s, intent.len, print);
    must(retained_with(was, y->id) != NULL || memcmp(print, is->s + y->intent.at, 32) == 0, "intent fingerprint of a new submission");
}

static void check_emitted(struct shape *r, unsigned i) {
    uint64_t id = take_number(r), token = take_number(r);
    int has = (int)take_count(r, 0, 1);
    uint64_t predecessor = has ? take_number(r) : 0;
    unsigned relationship = take_count(r, 0, 3);
    struct part bundle = take_bundle(r, 0);
    take_optional(r, 8);
    struct part fee_intent = take_fee_intent(r);
    must(r->ok, "form of a drained submission");
    must(token == was->next_token + i, "tokens run upward by one");
    must((relationship == 0) == !has, "relationship Initial without predecessor");
    for (unsigned k = 0; k < i; k++) {
        must(emitted[k] != id, "an id is emitted once");
    }
    emitted[i] = id;
    check_predecessor(id, token, has, predecessor);
    add_row(token, id, 1);
    const struct submission *y = retained_with(is, id);
    if (y != NULL) {
        must(y->live.there && y->live.token == token, "the emitted token is live");
        check_intent(r, y, bundle, fee_intent);
    }
}

/* The id that a failure names: the retained one, the queued one, or the next id of that moment. */
static void check_failed_id(const struct queued *q, int retained, uint64_t retained_id, uint64_t id, unsigned stage) {
    must(!retained || (stage == 1 && id == retained_id), "removal is by RetainedState");
    must(!q->has_id || (stage == 1 && id == q->id), "a candidate with an id fails by RetainedState");
    must(retained || q->has_id || (stage != 1 && was->next_id <= id && id <= is->next_id), "a new candidate's id");
    must(!retained || retired_in(is, retained_id), "a removed submission is retired");
    must(!retained || !ledger.opened || retained_with(is, retained_id) == NULL, "a removed submission is gone");
}

/* Answers the candidate's index. */
static uint64_t check_failure(struct shape *r) {
    uint64_t index = take_number(r);
    int retained = (int)take_count(r, 0, 1);
    uint64_t retained_id = retained ? take_number(r) : 0;
    take_count(r, 1, 1);
    uint64_t id = take_number(r);
    size_t print = take_run(r, 32);
    unsigned stage = take_count(r, 1, 3);
    must(r->ok && index < was->queue, "form of a failure");
    const struct queued *q = &was->queued[index];
    uint8_t own[32];
    size_t from = q->whole.at + 1 + (q->has_id ? 8 : 0);
    sha256(was->s + from, q->whole.end - 2 - from, own);
    must(memcmp(own, r->s + print, 32) == 0, "intent fingerprint of a failed candidate");
    check_failed_id(q, retained, retained_id, id, stage);
    return index;
}

static size_t check_drain(const struct given *g, const uint8_t *answer, size_t len) {
    struct shape r;
    (void)g;
    start_shape(&r, answer, len);
    unsigned n = take_count(&r, 0, 16);
    for (unsigned i = 0; i < n; i++) {
        check_emitted(&r, i);
    }
    must(is->next_token == was->next_token + n, "next token behind a drain");
    must(is->queue == 0, "a drained queue is empty");
    unsigned failures = take_count(&r, 0, 16);
    must(r.ok && n + failures <= was->queue, "counts of a drain");
    uint64_t last = 0;
    for (unsigned i = 0; i < failures; i++) {
        uint64_t index = check_failure(&r);
        must(i == 0 || last < index, "candidate indices rise");
        last = index;
    }
    return r.at;
}

/* A drain refused 11: its tokens are seen in the slots alone. */
static void check_exhausted(void) {
    must(is->next_token == UINT64_MAX && is->queue == 0, "11 with no token left and an empty queue");
    must(UINT64_MAX - was->next_token < was->queue, "11 only where a candidate lacks a token");
    for (uint64_t t = was->next_token; t != UINT64_MAX; t++) {
        const struct submission *x = live_in(is, t);
        add_row(t, x != NULL ? x->id : 0, x != NULL);
    }
}

/* ---- every call */

/* A token in a slot is the last one issued to its id. */
static void check_slot_row(const struct submission *x, const struct slot *a) {
    uint64_t last;
    if (a->there && ledger.opened && is->next_token - ledger.first < ROWS) {
        must(a->token >= ledger.first, "a slot's token was issued");
        must(last_row(x->id, is->next_token, &last) && last == a->token, "a slot's token is the last one of its id");
    }
}

static void check_rows(void) {
    for (unsigned i = 0; i < is->retained; i++) {
        const struct submission *x = &is->submission[i];
        check_slot_row(x, &x->live);
        check_slot_row(x, &x->aside);
        must(!ledger.opened || !x->live.there || !x->aside.there, "a live and a set-aside attempt of one submission");
    }
}

/* A call that is no drain issues no token, retains nothing new, and makes no attempt live. */
static void check_frame(void) {
    must(is->next_token == was->next_token && is->next_id == was->next_id, "next numbers");
    must(is->retained <= was->retained, "retained submissions");
    for (unsigned i = 0; i < is->retained; i++) {
        const struct submission *y = &is->submission[i], *x = retained_with(was, y->id);
        must(x != NULL, "a submission from nowhere");
        must(!y->live.there || (x->live.there && x->live.token == y->live.token), "a live attempt from nowhere");
        must(!y->aside.there || (x->live.there && x->live.token == y->aside.token) ||
                 (x->aside.there && x->aside.token == y->aside.token),
             "a set-aside attempt from nowhere");
    }
}
#endif
