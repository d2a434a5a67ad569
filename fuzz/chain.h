/* What the calls about coins must answer and leave, from the base bundles of the book at hand. */
#ifndef CHAIN_H
#define CHAIN_H
#include "checks.h"

/* The coins that a base bundle spends and makes. */
struct bundle_coins {
    unsigned inputs, outputs;
    struct coin input[4], output[16];
};

/* The spend at `at`; says where it ends. */
static size_t add_spend_coins(const uint8_t *s, size_t at, struct bundle_coins *b) {
    struct coin *c = &b->input[b->inputs++];
    c->len = s[at];
    memcpy(c->s, s + at + 1, c->len);
    sha256(c->s, c->len, c->id);
    at += 1u + c->len + 32 + 1;
    unsigned n = s[at++];
    for (unsigned i = 0; i < n; i++) {
        struct coin *o = &b->output[b->outputs++];
        memcpy(o->s, c->id, 32);
        memcpy(o->s + 32, s + at, 32);
        o->len = (uint8_t)(64 + amount_atom(number_at(s + at + 32), o->s + 64));
        sha256(o->s, o->len, o->id);
        at += 40;
    }
    return at;
}

static struct bundle_coins coins_of(const struct submission *x) {
    struct bundle_coins b = {0};
    size_t at = x->base.at + 1;
    unsigned n = was->s[x->base.at];
    for (unsigned i = 0; i < n; i++) {
        at = add_spend_coins(was->s, at, &b);
    }
    return b;
}

/* Whether a coin list has the coin. */
static int listed(const uint8_t *list, const struct coin *c) {
    unsigned n = list[0] * 256u + list[1];
    size_t at = 2;
    int found = 0;
    for (unsigned i = 0; i < n && !found; i++) {
        found = list[at] == c->len && memcmp(list + at + 1, c->s, c->len) == 0;
        at += 1u + list[at];
    }
    return found;
}

static int id_listed(const struct made *ids, const uint8_t *id) {
    int found = 0;
    for (size_t at = 0; at < ids->len && !found; at += 32) {
        found = memcmp(ids->s + at, id, 32) == 0;
    }
    return found;
}

static int output_listed(const struct bundle_coins *b, const uint8_t *list) {
    int found = 0;
    for (unsigned i = 0; i < b->outputs && !found; i++) {
        found = listed(list, &b->output[i]);
    }
    return found;
}

static int input_spent(const struct bundle_coins *b, const struct made *spent) {
    int found = 0;
    for (unsigned i = 0; i < b->inputs && !found; i++) {
        found = id_listed(spent, b->input[i].id);
    }
    return found;
}

static int made_inside(const struct bundle_coins *b, const uint8_t *id) {
    int found = 0;
    for (unsigned i = 0; i < b->outputs && !found; i++) {
        found = memcmp(b->output[i].id, id, 32) == 0;
    }
    return found;
}

/* A halted submission: out of queue and replay, its live attempt set aside, retired. */
static void check_halted(const struct submission *x, const struct submission *y) {
    must(!y->live.there, "a halted submission has no live attempt");
    must(same_part(was, x->live.there ? x->live.form : x->aside.form, is, y->aside.form), "the attempt of a halted submission is set aside");
    must(retired_in(is, x->id), "a halted submission is retired");
    for (unsigned i = 0; i < is->queue; i++) {
        must(!is->queued[i].has_id || is->queued[i].id != x->id, "a halted submission is not queued");
    }
    for (unsigned i = 0; i < is->replayed; i++) {
        must(is->replayed_id[i] != x->id, "a halted submission is not replayed");
    }
}

static size_t check_chain(const struct given *g, const uint8_t *answer, size_t len) {
    (void)answer, (void)len;
    for (unsigned i = 0; i < was->retained; i++) {
        const struct submission *x = &was->submission[i], *y = retained_with(is, x->id);
        struct bundle_coins b = coins_of(x);
        int landed = output_listed(&b, g->one.s), spent = input_spent(&b, &g->two);
        int chain = id_is_given(g, x->id) ? 0 : x->chain;
        if (landed || spent) {
            chain = landed || (x->chain == 2 && g->kind == 0) ? 2 : 1;
        }
        must(y != NULL && y->chain == chain, "chain of a submission");
        if (landed || spent) {
            check_halted(x, y);
        } else {
            must(same_part(was, x->live.form, is, y->live.form) && same_part(was, x->aside.form, is, y->aside.form), "slots stay");
        }
    }
    return 0;
}

static int rolled_back(const struct given *g, const struct submission *x) {
    struct bundle_coins b = coins_of(x);
    int back = x->chain == 1 || (x->chain == 2 && output_listed(&b, g->one.s));
    for (unsigned i = 0; i < b.inputs; i++) {
        back = back && (made_inside(&b, b.input[i].id) || id_listed(&g->two, b.input[i].id));
    }
    return back;
}

static size_t check_rolled_back(const struct given *g, const uint8_t *answer, size_t len) {
    uint64_t ids[64];
    size_t n = ids_in(answer, len, ids), want = 0;
    must(same_book(), "asking for rolled back ids changes nothing");
    for (unsigned i = 0; i < was->retained; i++) {
        want += (size_t)rolled_back(g, &was->submission[i]);
    }
    must(n == want, "count of rolled back ids");
    for (size_t i = 0; i < n; i++) {
        const struct submission *x = retained_with(was, ids[i]);
        must(i == 0 || ids[i - 1] < ids[i], "rolled back ids rise");
        must(x != NULL && rolled_back(g, x), "a rolled back id");
    }
    return 1 + 8 * n;
}

/* The answer is a coin list, each coin above the one before; says how many. */
static unsigned check_rising(const uint8_t *list, size_t len) {
    static struct made m;
    m.len = 0;
    add_run(&m, list, len);
    must(is_coin_list(&m), "the answer is a coin list");
    unsigned n = list[0] * 256u + list[1];
    size_t at = 2, before = 0;
    for (unsigned i = 0; i < n; i++) {
        size_t a = before == 0 ? 0 : list[before], b = list[at];
        int order = before == 0 ? -1 : memcmp(list + before + 1, list + at + 1, a < b ? a : b);
        must(order < 0 || (order == 0 && a < b), "coins rise");
        before = at;
        at += 1 + b;
    }
    return n;
}

/* A coin list to be: its count comes last. */
static void start_list(struct made *m) {
    m->len = 0;
    add_byte(m, 0);
    add_byte(m, 0);
}

static void count_coin(struct made *m, const struct coin *c) {
    add_coin(m, c);
    m->s[0] = (uint8_t)(m->s[0] + (m->s[1] == 255));
    m->s[1]++;
}

/* The submission's inputs, each once. */
static void add_inputs(struct made *m, const struct submission *x, const uint8_t *landed) {
    struct bundle_coins b = coins_of(x);
    int wanted = x->chain != 2 || output_listed(&b, landed);
    for (unsigned i = 0; i < b.inputs && wanted; i++) {
        if (!listed(m->s, &b.input[i])) {
            count_coin(m, &b.input[i]);
        }
    }
}

/* The answer rises, and has as many bytes as the coins that must be there; each of these is there. */
static size_t check_input_coins(const struct given *g, const uint8_t *answer, size_t len) {
    static struct made want;
    struct coin c;
    must(same_book(), "asking for coins changes nothing");
    start_list(&want);
    for (unsigned i = 0; i < was->retained; i++) {
        add_inputs(&want, &was->submission[i], g->one.s);
    }
    must(check_rising(answer, len) == want.s[0] * 256u + want.s[1] && len == want.len, "count of input coins");
    for (size_t at = 2; at < want.len; at += 1u + c.len) {
        c.len = want.s[at];
        memcpy(c.s, want.s + at + 1, c.len);
        must(listed(answer, &c), "an input coin");
    }
    return len;
}

static void add_absent(struct made *m, const struct submission *x, const uint8_t *absent) {
    struct bundle_coins b = coins_of(x);
    for (unsigned i = 0; i < b.outputs; i++) {
        if (listed(absent, &b.output[i])) {
            count_coin(m, &b.output[i]);
        }
    }
}

static size_t check_absent(const struct given *g, const uint8_t *answer, size_t len) {
    static struct made want;
    must(same_book(), "asking for coins changes nothing");
    start_list(&want);
    for (unsigned i = 0; i < was->retained; i++) {
        if (id_is_given(g, was->submission[i].id)) {
            add_absent(&want, &was->submission[i], g->one.s);
        }
    }
    must(want.len == len && memcmp(want.s, answer, len) == 0, "absent outputs, in retained and output order");
    return len;
}
#endif
