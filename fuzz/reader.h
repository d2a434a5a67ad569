/* A second reader of archives, written from docs/ARCHIVE.md alone: says whether bytes are an archive, the place of the refusal if
 * not, and where its parts lie. The library's reader is held against it. */
#ifndef READER_H
#define READER_H
#include <stddef.h>
#include <stdint.h>
#include <string.h>

struct part {
    size_t at, end;
};

struct slot {
    int there, finalised;
    uint64_t token;
    struct part form; /* with its mark */
};

struct submission {
    uint64_t id;
    struct slot live, aside;
    struct part intent, base, fee, fee_intent, acknowledged, expiry, whole; /* acknowledged and expiry with their marks */
    uint64_t applied_fee;
    int has_fee, mark, chain;
};

struct queued {
    int has_id;
    uint64_t id;
    struct part whole;
};

/* The shape of an archive, as far as it was read. */
struct shape {
    const uint8_t *s;
    size_t len, at;
    int ok;
    size_t place;
    uint64_t next_token, next_id;
    unsigned retained, queue, retirements, has_height, replayed;
    struct submission submission[16];
    struct queued queued[16];
    uint64_t retired[64];
    uint64_t height;
    uint64_t replayed_id[16];
    uint64_t token[32];
    unsigned tokens;
};

static void refuse(struct shape *r, size_t place) {
    if (r->ok) {
        r->ok = 0;
        r->place = place;
    }
}

/* A run of n bytes; says where it starts. */
static size_t take_run(struct shape *r, size_t n) {
    size_t at = r->at;
    if (r->ok && r->len - at < n) {
        refuse(r, at);
    }
    if (r->ok) {
        r->at = at + n;
    }
    return at;
}

static uint64_t number_at(const uint8_t *s) {
    uint64_t v = 0;
    for (int i = 0; i < 8; i++) {
        v = v << 8 | s[i];
    }
    return v;
}

static uint64_t take_number(struct shape *r) {
    size_t at = take_run(r, 8);
    return r->ok ? number_at(r->s + at) : 0;
}

/* A count, kind or mark from `low` to `high`. */
static unsigned take_count(struct shape *r, unsigned low, unsigned high) {
    size_t at = take_run(r, 1);
    if (r->ok && (r->s[at] < low || r->s[at] > high)) {
        refuse(r, at);
    }
    return r->ok ? r->s[at] : 0;
}

/* Says where it stands, its mark included. */
static struct part take_optional(struct shape *r, size_t n) {
    struct part p = {r->at, 0};
    if (take_count(r, 0, 1)) {
        take_run(r, n);
    }
    p.end = r->at;
    return p;
}

static void take_outputs(struct shape *r) {
    unsigned n = take_count(r, 0, 4);
    for (unsigned i = 0; i < n; i++) {
        take_run(r, 32);
        take_run(r, 8);
    }
}

static void take_spend(struct shape *r, int readable) {
    take_run(r, take_count(r, 0, 73));
    take_run(r, 32);
    if (take_count(r, readable ? 1 : 0, 1)) {
        take_outputs(r);
    }
}

static struct part take_bundle(struct shape *r, int readable) {
    struct part p = {r->at, 0};
    unsigned n = take_count(r, 0, 4);
    for (unsigned i = 0; i < n && r->ok; i++) {
        take_spend(r, readable);
    }
    p.end = r->at;
    return p;
}

static struct part take_fee_intent(struct shape *r) {
    struct part p = {r->at, 0};
    if (take_count(r, 0, 2) == 2) {
        take_run(r, 32);
        take_run(r, 8);
    }
    p.end = r->at;
    return p;
}

/* A slot's token is below the next token and in no earlier slot. */
static uint64_t take_token(struct shape *r) {
    size_t at = r->at;
    uint64_t token = take_number(r);
    int known = token >= r->next_token;
    for (unsigned i = 0; i < r->tokens; i++) {
        known |= r->token[i] == token;
    }
    if (r->ok && known) {
        refuse(r, at);
    }
    if (r->ok) {
        r->token[r->tokens++] = token;
    }
    return token;
}

static struct slot take_slot(struct shape *r) {
    struct slot a = {0};
    a.form.at = r->at;
    a.there = (int)take_count(r, 0, 1);
    if (a.there) {
        a.token = take_token(r);
        take_count(r, 0, 1);
        take_run(r, 32);
        a.finalised = (int)take_count(r, 0, 1);
        take_run(r, a.finalised ? 32 : 0);
    }
    a.form.end = r->at;
    return a;
}

static uint64_t take_new_id(struct shape *r) {
    size_t at = r->at;
    uint64_t id = take_number(r);
    for (unsigned i = 0; i < r->retained; i++) {
        if (r->submission[i].id == id) {
            refuse(r, at);
        }
    }
    return id;
}

static void take_submission(struct shape *r) {
    struct submission *x = &r->submission[r->retained];
    x->whole.at = r->at;
    x->id = take_new_id(r);
    x->live = take_slot(r);
    x->aside = take_slot(r);
    x->intent.at = take_run(r, 32);
    x->intent.end = r->at;
    x->base = take_bundle(r, 1);
    x->has_fee = (int)take_count(r, 0, 1);
    x->applied_fee = 0;
    if (x->has_fee) {
        x->fee = take_bundle(r, 0);
        x->applied_fee = take_number(r);
    }
    x->mark = (int)take_count(r, 0, 2);
    x->fee_intent = take_fee_intent(r);
    x->acknowledged = take_optional(r, 32);
    x->chain = (int)take_count(r, 0, 2);
    x->expiry = take_optional(r, 8);
    x->whole.end = r->at;
    r->retained += (unsigned)r->ok;
}

static void take_delivery(struct shape *r) {
    struct queued *q = &r->queued[r->queue];
    q->whole.at = r->at;
    q->has_id = (int)take_count(r, 0, 1);
    q->id = q->has_id ? take_number(r) : 0;
    take_bundle(r, 0);
    take_optional(r, 8);
    take_fee_intent(r);
    take_count(r, 0, 3);
    take_count(r, 0, 1);
    q->whole.end = r->at;
    r->queue += (unsigned)r->ok;
}

static void take_retirement(struct shape *r) {
    size_t at = r->at;
    uint64_t id = take_number(r);
    for (unsigned i = 0; i < r->retirements; i++) {
        if (r->retired[i] == id) {
            refuse(r, at);
        }
    }
    if (r->ok) {
        r->retired[r->retirements++] = id;
    }
}

static const struct submission *retained_with(const struct shape *r, uint64_t id) {
    for (unsigned i = 0; i < r->retained; i++) {
        if (r->submission[i].id == id) {
            return &r->submission[i];
        }
    }
    return NULL;
}

static void take_replayed(struct shape *r) {
    size_t at = r->at;
    uint64_t id = take_number(r);
    if (r->ok && r->replayed != 0 && id <= r->replayed_id[r->replayed - 1]) {
        refuse(r, at);
    }
    if (r->ok && retained_with(r, id) == NULL) {
        refuse(r, at);
    }
    if (r->ok) {
        r->replayed_id[r->replayed++] = id;
    }
}

static void take_section(struct shape *r, unsigned limit, void (*take)(struct shape *)) {
    unsigned n = take_count(r, 0, limit);
    for (unsigned i = 0; i < n && r->ok; i++) {
        take(r);
    }
}

static void start_shape(struct shape *r, const uint8_t *s, size_t len) {
    memset(r, 0, offsetof(struct shape, submission));
    r->s = s;
    r->len = len;
    r->ok = 1;
    r->tokens = 0;
}

static int read_shape(struct shape *r, const uint8_t *s, size_t len) {
    start_shape(r, s, len);
    take_count(r, 2, 2);
    r->next_token = take_number(r);
    r->next_id = take_number(r);
    take_section(r, 16, take_submission);
    take_section(r, 16, take_delivery);
    take_section(r, 64, take_retirement);
    r->has_height = take_count(r, 0, 1);
    r->height = r->has_height ? take_number(r) : 0;
    take_section(r, 16, take_replayed);
    if (r->ok && r->at < len) {
        refuse(r, r->at);
    }
    return r->ok;
}

/* The shape of the book in lent bytes: 8 bytes of the archive's length, then the archive. */
static int read_book(struct shape *r, const uint8_t *book, size_t book_len) {
    start_shape(r, book, 0);
    if (book_len < 8 || number_at(book) > book_len - 8) {
        r->ok = 0;
        return 0;
    }
    return read_shape(r, book + 8, (size_t)number_at(book));
}
#endif
