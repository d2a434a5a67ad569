/* The input of the target `calls` as a script: bytes are taken from its front, and values are made of them. Most values come from small
 * sets, so that calls meet one another's submissions, coins and tokens; a few are raw bytes. */
#ifndef SCRIPT_H
#define SCRIPT_H
#include "lent.h"
#include "reader.h"
#include "sha256.h"

#define ARGUMENT_BYTES 65536

struct script {
    const uint8_t *s;
    size_t len, at;
};

/* Bytes of an argument being made; what does not fit is left out. */
struct made {
    uint8_t s[ARGUMENT_BYTES];
    size_t len;
};

struct coin {
    uint8_t s[73];
    uint8_t len;
    uint8_t id[32];
};

static struct coin input_coin[8], output_coin[8][4];
static uint64_t output_amount[8][4];

/* 0 where the script has ended. */
static uint8_t next(struct script *p) {
    return p->at < p->len ? p->s[p->at++] : 0;
}

static uint64_t next_raw(struct script *p) {
    uint64_t v = 0;
    for (int i = 0; i < 8; i++) {
        v = v << 8 | next(p);
    }
    return v;
}

static void add_run(struct made *m, const uint8_t *s, size_t n) {
    if (ARGUMENT_BYTES - m->len >= n && n != 0) {
        memcpy(m->s + m->len, s, n);
        m->len += n;
    }
}

static void add_byte(struct made *m, unsigned x) {
    uint8_t b = (uint8_t)x;
    add_run(m, &b, 1);
}

static void add_number(struct made *m, uint64_t v) {
    uint8_t b[8];
    for (int i = 0; i < 8; i++) {
        b[i] = (uint8_t)(v >> (56 - 8 * i));
    }
    add_run(m, b, 8);
}

static void add_same(struct made *m, unsigned x, size_t n) {
    for (size_t i = 0; i < n; i++) {
        add_byte(m, x);
    }
}

static void add_raw(struct made *m, struct script *p) {
    size_t n = next(p);
    for (size_t i = 0; i < n; i++) {
        add_byte(m, next(p));
    }
}

/* The amount as the shortest two's complement. */
static unsigned amount_atom(uint64_t v, uint8_t *out) {
    unsigned n = 0;
    for (int i = 8; i >= 0; i--) {
        uint8_t b = i == 8 ? 0 : (uint8_t)(v >> 8 * i);
        uint8_t below = i == 0 ? 0 : (uint8_t)(v >> 8 * (i - 1));
        int needed = n != 0 || (b != 0) || (i > 0 && (below & 0x80) != 0);
        if (needed) {
            out[n++] = b;
        }
    }
    return n;
}

static void make_coin(struct coin *c, const uint8_t *parent, uint8_t puzzle, uint64_t amount) {
    memcpy(c->s, parent, 32);
    memset(c->s + 32, puzzle, 32);
    c->len = (uint8_t)(64 + amount_atom(amount, c->s + 64));
    sha256(c->s, c->len, c->id);
}

static void make_outputs(unsigned i) {
    static const uint64_t amounts[8] = {0, 1, 127, 128, 255, 256, (uint64_t)1 << 63, UINT64_MAX};
    for (unsigned j = 0; j < 4; j++) {
        output_amount[i][j] = amounts[(i + 3 * j) % 8];
        make_coin(&output_coin[i][j], input_coin[i].id, (uint8_t)(0x80 + j), output_amount[i][j]);
    }
}

/* Inputs 0 to 3 are whole coins, 4 and 5 outputs of 0 and 1, 6 is empty and 7 too short to be a coin. */
static void make_coins(void) {
    for (unsigned i = 0; i < 8; i++) {
        struct coin *c = &input_coin[i];
        if (i < 4) {
            uint8_t parent[32];
            memset(parent, (int)(i + 1), 32);
            make_coin(c, parent, 0x51, i * 100);
        } else if (i < 6) {
            *c = output_coin[i - 4][0];
        } else {
            memset(c->s, 0xaa, 2);
            c->len = i == 6 ? 0 : 2;
            sha256(c->s, c->len, c->id);
        }
        make_outputs(i);
    }
}

static void add_coin(struct made *m, const struct coin *c) {
    add_byte(m, c->len);
    add_run(m, c->s, c->len);
}

/* One byte says which coin is spent, and how its run ends. */
static void add_spend(struct made *m, struct script *p, int readable) {
    uint8_t b = next(p);
    unsigned i = b & 7, run = b >> 3 & 7;
    add_coin(m, &input_coin[i]);
    add_same(m, 0xd0 + (b >> 6), 32);
    if (run == 7 && !readable) {
        add_byte(m, 0);
        return;
    }
    unsigned outputs = run % 5;
    add_byte(m, 1);
    add_byte(m, outputs);
    for (unsigned j = 0; j < outputs; j++) {
        add_same(m, 0x80 + j, 32);
        add_number(m, output_amount[i][j]);
    }
}

static void add_bundle(struct made *m, struct script *p, int readable) {
    uint8_t b = next(p);
    if (b >= 0xfc) {
        add_raw(m, p);
        return;
    }
    add_byte(m, b % 5);
    for (unsigned i = 0; i < b % 5u; i++) {
        add_spend(m, p, readable);
    }
}

/* Numbers from a small set, at times a raw one. */
static uint64_t next_number(struct script *p) {
    uint8_t b = next(p);
    if (b < 0xe0) {
        return b % 16;
    }
    return b < 0xf0 ? UINT64_MAX - b % 16 : next_raw(p);
}

static void add_optional_number(struct made *m, struct script *p) {
    uint8_t b = next(p);
    if (b < 0x80) {
        add_byte(m, 0);
    } else {
        add_byte(m, b < 0xfc ? 1 : b);
        add_number(m, next_number(p));
    }
}

static void add_fee_intent(struct made *m, struct script *p) {
    uint8_t b = next(p);
    unsigned kind = b < 0xf8 ? b % 3 : b;
    add_byte(m, kind);
    if (kind == 2) {
        add_same(m, 0xf0 + (b >> 7), 32);
        add_number(m, next_number(p));
    }
}

static unsigned next_kind(struct script *p, unsigned kinds) {
    uint8_t b = next(p);
    return b < 0xf8 ? b % kinds : b;
}

/* An id of the book at hand, or one near its next id. */
static uint64_t next_id(struct script *p, const struct shape *now) {
    uint8_t b = next(p);
    if (b < 0xa0 && now->retained != 0) {
        return now->submission[b % now->retained].id;
    }
    if (b < 0xc0) {
        return now->next_id - b % 24;
    }
    return b < 0xf0 ? next_number(p) : next_raw(p);
}

/* A token in a slot of the book at hand, or one near its next token. */
static uint64_t next_token(struct script *p, const struct shape *now) {
    uint8_t b = next(p);
    if (b < 0xa0 && now->tokens != 0) {
        return now->token[b % now->tokens];
    }
    if (b < 0xe0) {
        return now->next_token - b % 32;
    }
    return b < 0xf0 ? now->next_token + b % 4 : next_raw(p);
}

static void add_delivery(struct made *m, struct script *p, const struct shape *now) {
    uint8_t b = next(p);
    if (b >= 0xfc) {
        add_raw(m, p);
        return;
    }
    add_byte(m, b < 0xa0 ? 0 : b < 0xf8 ? 1 : b);
    if (b >= 0xa0) {
        add_number(m, next_id(p, now));
    }
    add_bundle(m, p, 0);
    add_optional_number(m, p);
    add_fee_intent(m, p);
    add_byte(m, next_kind(p, 4));
    add_byte(m, next_kind(p, 2));
}

static const struct coin *next_coin(struct script *p) {
    uint8_t b = next(p);
    return b % 64 < 32 ? &output_coin[b % 8][b >> 3 & 3] : &input_coin[b % 8];
}

/* A coin list; near its limit of 800 coins, or raw, at times. */
static void add_coin_list(struct made *m, struct script *p) {
    uint8_t b = next(p);
    unsigned n = b < 0xf8 ? b % 6 : 798 + b % 4;
    if (b >= 0xfc) {
        add_raw(m, p);
        return;
    }
    add_byte(m, n >> 8);
    add_byte(m, n);
    const struct coin *c = next_coin(p);
    for (unsigned i = 0; i < n; i++) {
        add_coin(m, c);
        c = n < 8 ? next_coin(p) : c;
    }
}

static void add_coin_ids(struct made *m, struct script *p) {
    uint8_t b = next(p);
    unsigned n = b < 0xf8 ? b % 6 : 798 + b % 4;
    if (b >= 0xfc) {
        add_raw(m, p);
        return;
    }
    const struct coin *c = next_coin(p);
    for (unsigned i = 0; i < n; i++) {
        add_run(m, c->id, 32);
        c = n < 8 ? next_coin(p) : c;
    }
}

/* Numbers as they lie in memory, for a slice of 64-bit numbers; at times more than 64. */
static void add_ids(struct made *m, struct script *p, const struct shape *now) {
    uint8_t b = next(p);
    unsigned n = b < 0xf0 ? b % 6 : 60 + b % 8;
    uint64_t first = next_id(p, now);
    for (unsigned i = 0; i < n; i++) {
        uint64_t id = i == 0 ? first : n < 8 ? next_id(p, now) : first + i;
        add_run(m, (const uint8_t *)&id, 8);
    }
}
#endif
