/* Buffers to lend to the library, between canary bytes. Under AddressSanitizer the canaries are poisoned while a call runs, so that
 * reading them is found as well. */
#ifndef LENT_H
#define LENT_H
#include <stdint.h>
#include <stdio.h>
#include <stdlib.h>
#include <string.h>

#if defined(__has_feature)
#if __has_feature(address_sanitizer)
#define HAS_ASAN 1
#include <sanitizer/asan_interface.h>
#endif
#endif

#define EDGE 256

/* What the failing check was about, for its message. */
static const char *running = "start";

static void must(int ok, const char *what) {
    if (!ok) {
        fprintf(stderr, "check failed in %s: %s\n", running, what);
        abort();
    }
}

struct lent {
    uint8_t *whole;  /* EDGE, room, EDGE */
    uint8_t *before; /* the lent bytes and EDGE on both sides, as they were lent */
    size_t room;
    uint8_t *bytes; /* what is lent: `len` bytes in `whole` */
    size_t len;
};

static void lent_make(struct lent *b, size_t room) {
    b->whole = malloc(room + 2 * EDGE);
    b->before = malloc(room + 2 * EDGE);
    must(b->whole != NULL && b->before != NULL, "memory");
    b->room = room;
    b->bytes = b->whole + EDGE;
    b->len = room;
}

/* Every byte another than its neighbours, and another at each `salt`. */
static void lent_fill(struct lent *b, unsigned salt) {
    for (size_t i = 0; i < b->room + 2 * EDGE; i++) {
        b->whole[i] = (uint8_t)(i * 29 + salt);
    }
}

/* Lends `len` bytes that start `shift` bytes behind the first. */
static void lend(struct lent *b, size_t len, size_t shift) {
    must(len <= b->room && shift <= b->room - len, "room");
    b->bytes = b->whole + EDGE + shift;
    b->len = len;
    memcpy(b->before, b->bytes - EDGE, len + 2 * EDGE);
#ifdef HAS_ASAN
    ASAN_POISON_MEMORY_REGION(b->whole, EDGE + shift);
    ASAN_POISON_MEMORY_REGION(b->bytes + len, b->room - shift - len + EDGE);
#endif
}

/* Takes the buffer back. No byte beside the lent ones may have changed. */
static void take_back(struct lent *b) {
#ifdef HAS_ASAN
    ASAN_UNPOISON_MEMORY_REGION(b->whole, b->room + 2 * EDGE);
#endif
    must(memcmp(b->bytes - EDGE, b->before, EDGE) == 0, "bytes in front of a lent buffer changed");
    must(memcmp(b->bytes + b->len, b->before + EDGE + b->len, EDGE) == 0, "bytes behind a lent buffer changed");
}

static const uint8_t *as_lent(const struct lent *b) {
    return b->before + EDGE;
}

/* No lent byte from `at` on has changed. */
static int kept_from(const struct lent *b, size_t at) {
    return at >= b->len || memcmp(b->bytes + at, as_lent(b) + at, b->len - at) == 0;
}

static int kept(const struct lent *b) {
    return kept_from(b, 0);
}

/* Lends a copy of bytes that the library may only read. */
static void lend_copy(struct lent *b, const void *bytes, size_t len, size_t shift) {
    if (len != 0) {
        memcpy(b->whole + EDGE + shift, bytes, len);
    }
    lend(b, len, shift);
}

static void take_back_same(struct lent *b) {
    take_back(b);
    must(kept(b), "bytes that were lent to be read changed");
}
#endif
