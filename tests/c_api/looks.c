/* Functions whose book is const: on a book in memory that is mapped read-only, where a write ends the program, and from two threads at once. */
#define _DEFAULT_SOURCE
#include <pthread.h>
#include <stdio.h>
#include <stdlib.h>
#include <string.h>
#include <sys/mman.h>
#include "expect.h"
#include "sample.h"

enum { ROOM = SUBMISSION_BOOK_ARCHIVE_BYTES, ROUNDS = 50, FILL = 0xa5, NUMBER = 99, LOOKS = 11 };

/* What a call said: its number, its answer in a filled buffer, and the number that it may set. */
typedef struct {
    uint8_t said;
    uint64_t number;
    uint8_t answer[ROOM];
} Said;

static uint8_t *book;
static Said wanted[CALL_COUNT];

static void say(const SampleCall *c, Said *said) {
    Lent l = {book, SUBMISSION_BOOK_BYTES, said->answer, ROOM, NUMBER};
    memset(said->answer, FILL, ROOM);
    said->said = c->call(&l);
    said->number = l.number;
}

static void map_book(void) {
    book = mmap(NULL, SUBMISSION_BOOK_BYTES, PROT_READ | PROT_WRITE, MAP_PRIVATE | MAP_ANONYMOUS, -1, 0);
    if (book == MAP_FAILED || !sample_book(book)) {
        fputs("no sample book\n", stderr);
        exit(1);
    }
}

static void protect(int protection) {
    if (mprotect(book, SUBMISSION_BOOK_BYTES, protection) != 0) {
        fputs("no protection\n", stderr);
        exit(1);
    }
}

/* Accepted, refused 12 and refused 1, each without a write to the book. */
static void test_read_only(void) {
    static uint8_t copy[SUBMISSION_BOOK_BYTES];
    size_t looks = 0;
    memcpy(copy, book, sizeof copy);
    for (size_t i = 0; i < CALL_COUNT; i++) {
        const SampleCall *c = &sample_calls[i];
        if (!c->only_looks) {
            continue;
        }
        looks++;
        protect(PROT_READ);
        say(c, &wanted[i]);
        expect_for(c->name, "on read-only memory", wanted[i].said, 0);
        Lent l = {book, SUBMISSION_BOOK_BYTES, NULL, 0, NUMBER};
        expect_for(c->name, "no answer bytes, on read-only memory", c->call(&l), 12);
        l.book_len = 7;
        expect_for(c->name, "no book, on read-only memory", c->call(&l), 1);
        protect(PROT_READ | PROT_WRITE);
        expect_for(c->name, "book left", memcmp(copy, book, sizeof copy) == 0, true);
    }
    expect("functions that only look", looks, LOOKS);
}

/* Every look again and again; how many answers differ. */
static void *look_again(void *differing) {
    static _Thread_local Said said;
    for (size_t round = 0; round < ROUNDS; round++) {
        for (size_t i = 0; i < CALL_COUNT; i++) {
            if (sample_calls[i].only_looks) {
                say(&sample_calls[i], &said);
                bool same = said.said == wanted[i].said && said.number == wanted[i].number && memcmp(said.answer, wanted[i].answer, ROOM) == 0;
                *(size_t *)differing += !same;
            }
        }
    }
    return NULL;
}

static void test_threads(void) {
    size_t first = 0, second = 0;
    pthread_t thread;
    protect(PROT_READ);
    expect("thread", pthread_create(&thread, NULL, look_again, &second) == 0, true);
    look_again(&first);
    expect("end of the thread", pthread_join(thread, NULL) == 0, true);
    protect(PROT_READ | PROT_WRITE);
    expect("answers of one thread that differ", first, 0);
    expect("answers of the other that differ", second, 0);
}

void test_looks(void) {
    map_book();
    test_read_only();
    test_threads();
    munmap(book, SUBMISSION_BOOK_BYTES);
}
