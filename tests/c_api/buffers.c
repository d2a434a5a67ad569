/* What every function owes its buffers: a refused call leaves each byte, an answer is written whole or not at all, nothing outside of the lent bytes is
 * touched. Buffers end where a page begins that must not be touched, so that a byte read or written behind them ends the program. */
#define _DEFAULT_SOURCE
#include <stdio.h>
#include <stdlib.h>
#include <string.h>
#include <sys/mman.h>
#include "expect.h"
#include "sample.h"

enum { ROOM = ROOM_BYTES, PAGE = 4096, FILL = 0xa5, OTHER_FILL = 0x5a, NUMBER = 99 };

uint8_t *guarded_end(void) {
    uint8_t *start = mmap(NULL, ROOM + PAGE, PROT_READ | PROT_WRITE, MAP_PRIVATE | MAP_ANONYMOUS, -1, 0);
    if (start == MAP_FAILED || mprotect(start + ROOM, PAGE, PROT_NONE) != 0) {
        fputs("no memory\n", stderr);
        exit(1);
    }
    return start + ROOM;
}

static uint8_t *book_end, *answer_end;
static uint8_t start_book[SUBMISSION_BOOK_BYTES];
static uint8_t book_before[ROOM], answer_before[ROOM];

/* Lends `book_len` bytes that begin as the sample book does, and an answer of `answer_len` bytes. */
static Lent lend(size_t book_len, size_t answer_len, uint8_t fill) {
    Lent l = {book_end - book_len, book_len, answer_end - answer_len, answer_len, NUMBER};
    memset(book_end - ROOM, FILL, ROOM);
    memset(answer_end - ROOM, fill, ROOM);
    memcpy(l.book, start_book, book_len < sizeof start_book ? book_len : sizeof start_book);
    memcpy(book_before, book_end - ROOM, ROOM);
    memcpy(answer_before, answer_end - ROOM, ROOM);
    return l;
}

static bool book_left(void) {
    return memcmp(book_before, book_end - ROOM, ROOM) == 0;
}

static bool answer_left(void) {
    return memcmp(answer_before, answer_end - ROOM, ROOM) == 0;
}

static void refused(const SampleCall *c, const char *what, Lent l, uint8_t number) {
    expect_for(c->name, what, c->call(&l), number);
    expect_for(c->name, "book left", book_left(), true);
    expect_for(c->name, "answer left", answer_left(), true);
    expect_for(c->name, "number left", l.number, NUMBER);
}

/* How many bytes of an answer a call writes: what two runs over different fills agree on. Behind them the fill stands. */
static size_t answer_length(const SampleCall *c) {
    static uint8_t first[SUBMISSION_BOOK_ARCHIVE_BYTES];
    Lent l = lend(SUBMISSION_BOOK_BYTES, sizeof first, FILL);
    size_t length = sizeof first;
    expect_for(c->name, "accepted", c->call(&l), 0);
    memcpy(first, l.answer, sizeof first);
    l = lend(SUBMISSION_BOOK_BYTES, sizeof first, OTHER_FILL);
    expect_for(c->name, "accepted again", c->call(&l), 0);
    while (length > 0 && first[length - 1] == FILL && l.answer[length - 1] == OTHER_FILL) {
        length--;
    }
    expect_for(c->name, "same answer", memcmp(first, l.answer, length) == 0, true);
    expect_for(c->name, "bytes in front", memcmp(answer_before, answer_end - ROOM, ROOM - sizeof first) == 0, true);
    return length;
}

static void short_answers(const SampleCall *c) {
    size_t length = answer_length(c);
    if (c->answer_bytes != ANY) {
        expect_for(c->name, "bytes of the answer", length, c->answer_bytes);
    }
    for (size_t n = 0; n < length; n += 1 + n / 64) {
        refused(c, "short answer", lend(SUBMISSION_BOOK_BYTES, n, FILL), 12);
    }
    if (length > 0) {
        refused(c, "answer short by 1", lend(SUBMISSION_BOOK_BYTES, length - 1, FILL), 12);
    }
    Lent l = lend(SUBMISSION_BOOK_BYTES, length, FILL);
    expect_for(c->name, "answer that just fits", c->call(&l), 0);
}

/* The bytes of a book, its length in front included. */
static size_t book_length(const uint8_t *book) {
    return 8 + (size_t)number_at(book);
}

static void short_books(const SampleCall *c) {
    size_t before = book_length(start_book);
    Lent l = lend(SUBMISSION_BOOK_BYTES, SUBMISSION_BOOK_ARCHIVE_BYTES, FILL);
    expect_for(c->name, "accepted", c->call(&l), 0);
    size_t after = book_length(l.book);
    uint8_t cut = c->makes_a_book ? 12 : 1;
    size_t needed = c->makes_a_book ? after : before;
    for (size_t n = 0; n < needed; n += 1 + n / 64) {
        refused(c, "book cut short", lend(n, SUBMISSION_BOOK_ARCHIVE_BYTES, FILL), cut);
    }
    refused(c, "book short by 1", lend(needed - 1, SUBMISSION_BOOK_ARCHIVE_BYTES, FILL), cut);
    if (after > before) {
        refused(c, "no room to grow", lend(after - 1, SUBMISSION_BOOK_ARCHIVE_BYTES, FILL), 12);
    }
    l = lend(after > before ? after : before, SUBMISSION_BOOK_ARCHIVE_BYTES, FILL);
    if (!c->makes_a_book) {
        expect_for(c->name, "book that just fits", c->call(&l), 0);
    }
    l = lend(ROOM, SUBMISSION_BOOK_ARCHIVE_BYTES, FILL);
    expect_for(c->name, "a longer buffer", c->call(&l), 0);
    size_t tail = ROOM - after;
    expect_for(c->name, "bytes behind the book", memcmp(book_before + ROOM - tail, book_end - tail, tail) == 0, true);
}

/* Length 0 with NULL, for the book and for the answer. */
static void no_bytes(const SampleCall *c) {
    Lent l = lend(SUBMISSION_BOOK_BYTES, SUBMISSION_BOOK_ARCHIVE_BYTES, FILL);
    l.book = NULL;
    l.book_len = 0;
    refused(c, "no book bytes", l, c->makes_a_book ? 12 : 1);
    bool answers = answer_length(c) > 0;
    l = lend(SUBMISSION_BOOK_BYTES, 0, FILL);
    l.answer = NULL;
    if (answers) {
        refused(c, "no answer bytes", l, 12);
    } else {
        expect_for(c->name, "no answer", c->call(&l), 0);
    }
}

/* Bytes that hold no book: a length that reaches beyond them, or an archive that is none. */
static void damaged_books(const SampleCall *c) {
    if (c->makes_a_book) {
        return;
    }
    for (size_t i = 0; i < 8; i++) {
        Lent l = lend(SUBMISSION_BOOK_BYTES, SUBMISSION_BOOK_ARCHIVE_BYTES, FILL);
        l.book[i] = 0xff;
        memcpy(book_before, book_end - ROOM, ROOM);
        refused(c, "length out of range", l, 1);
    }
    Lent l = lend(SUBMISSION_BOOK_BYTES, SUBMISSION_BOOK_ARCHIVE_BYTES, FILL);
    l.book[8] = 3;
    memcpy(book_before, book_end - ROOM, ROOM);
    refused(c, "count of numbers", l, 1);
}

void test_buffers(void) {
    book_end = guarded_end();
    answer_end = guarded_end();
    expect("sample book", sample_book(start_book), true);
    for (size_t i = 0; i < CALL_COUNT; i++) {
        short_answers(&sample_calls[i]);
        short_books(&sample_calls[i]);
        no_bytes(&sample_calls[i]);
        damaged_books(&sample_calls[i]);
    }
}
