/* Archives made of a script's bytes: books that no list of calls leads to, most of them sound. */
#ifndef MADE_BOOK_H
#define MADE_BOOK_H
#include "script.h"

/* Tokens rise from slot to slot; now and then one comes twice. */
static void add_slot(struct made *m, struct script *p, uint64_t *token, const uint8_t *print) {
    uint8_t b = next(p);
    if (b < 0x80) {
        add_byte(m, 0);
        return;
    }
    *token += b < 0xfe;
    add_byte(m, 1);
    add_number(m, *token);
    add_byte(m, b & 1);
    add_run(m, print, 32);
    add_byte(m, b >> 1 & 1);
    if (b >> 1 & 1) {
        add_run(m, print, b & 4 ? 32 : 0);
        add_same(m, 0xee, b & 4 ? 0 : 32);
    }
}

static void add_fee_bundle(struct made *m, struct script *p) {
    uint8_t b = next(p);
    add_byte(m, b >= 0xa0);
    if (b >= 0xa0) {
        add_bundle(m, p, 0);
        add_number(m, next_number(p));
    }
}

/* The bundle, expiry and fee intent are made first, for their fingerprints. */
static void add_submission(struct made *m, struct script *p, uint64_t id, uint64_t *token) {
    static struct made intent, fee;
    uint8_t variant[32], print[32];
    intent.len = fee.len = 0;
    add_bundle(&intent, p, 1);
    size_t bundle = intent.len;
    sha256(intent.s, bundle, variant);
    add_optional_number(&intent, p);
    size_t expiry = intent.len;
    add_fee_intent(&intent, p);
    sha256(intent.s, intent.len, print);
    add_number(m, id);
    add_slot(m, p, token, variant);
    add_slot(m, p, token, variant);
    uint8_t b = next(p);
    print[0] ^= b >= 0xf0;
    add_run(m, print, 32);
    add_run(m, intent.s, bundle);
    add_fee_bundle(m, p);
    add_byte(m, next_kind(p, 3));
    add_run(m, intent.s + expiry, intent.len - expiry);
    add_byte(m, b & 1);
    add_run(m, variant, b & 1 ? 32 : 0);
    add_byte(m, next_kind(p, 3));
    add_run(m, intent.s + bundle, expiry - bundle);
}

static void add_submissions(struct made *m, struct script *p, unsigned n, uint64_t id) {
    uint64_t token = 0;
    for (unsigned i = 0; i < n; i++) {
        add_submission(m, p, id + i, &token);
    }
}

static void add_queue(struct made *m, struct script *p, unsigned n, uint64_t id) {
    struct shape none;
    start_shape(&none, NULL, 0);
    none.next_id = id + 4;
    none.retained = 0;
    add_byte(m, n);
    for (unsigned i = 0; i < n; i++) {
        add_delivery(m, p, &none);
    }
}

static void add_numbers(struct made *m, unsigned n, uint64_t first) {
    add_byte(m, n);
    for (unsigned i = 0; i < n; i++) {
        add_number(m, first + i);
    }
}

/* A count up to `limit`, most often small. */
static unsigned next_count(struct script *p, unsigned limit) {
    uint8_t b = next(p);
    return b < 0xe0 ? b % 4 : limit - b % 3;
}

static void add_book(struct made *m, struct script *p) {
    uint8_t b = next(p);
    uint64_t id = next_number(p);
    add_byte(m, 2);
    add_number(m, b < 0xc0 ? 64u + b : UINT64_MAX - b % 20);
    add_number(m, id + next(p) % 8);
    unsigned n = next_count(p, 16);
    add_byte(m, n);
    add_submissions(m, p, n, id);
    add_queue(m, p, next_count(p, 16), id);
    add_numbers(m, next_count(p, 64), next_number(p));
    add_numbers(m, next(p) & 1, next_number(p));
    unsigned replayed = next_count(p, 16);
    add_numbers(m, replayed < n ? replayed : n, id);
}
#endif
