/* How much stack a call takes. Each call runs on a painted stack of its own; what is no longer painted behind it was used. Fails where a call
 * takes more than SUBMISSION_BOOK_STACK_BYTES. */
#define _POSIX_C_SOURCE 200809L
#include <pthread.h>
#include <stdio.h>
#include <stdlib.h>
#include <string.h>
#include "sample.h"

enum { STACK = 8 << 20, PAINT = 0xc3 };

static uint8_t stack[STACK] __attribute__((aligned(4096)));
static uint8_t book[SUBMISSION_BOOK_BYTES], answer[SUBMISSION_BOOK_ARCHIVE_BYTES];

typedef struct {
    const SampleCall *sample;
    Lent lent;
    uint8_t said;
    const uint8_t *frame;
} Job;

static void *run(void *argument) {
    Job *job = argument;
    uint8_t here = 0;
    job->frame = &here;
    job->said = job->sample->call(&job->lent);
    return NULL;
}

/* Bytes of stack that a call took, from the frame of its caller down. */
static size_t stack_of(Job *job) {
    pthread_t thread;
    pthread_attr_t attributes;
    size_t low = 0;
    memset(stack, PAINT, sizeof stack);
    if (pthread_attr_init(&attributes) != 0 || pthread_attr_setstack(&attributes, stack, sizeof stack) != 0 ||
        pthread_create(&thread, &attributes, run, job) != 0 || pthread_join(thread, NULL) != 0) {
        fputs("no thread\n", stderr);
        exit(1);
    }
    pthread_attr_destroy(&attributes);
    while (stack[low] == PAINT) {
        low++;
    }
    return (size_t)(job->frame - (stack + low));
}

/* 0 the sample book, 1 the longest book, 2 a book with 16 new payments of the largest form in the queue, 3 the longest book with a broken byte */
static void make_book(int kind) {
    static uint8_t archive[SUBMISSION_BOOK_ARCHIVE_BYTES];
    uint64_t place = 0;
    bool made = true;
    if (kind == 0) {
        made = sample_book(book);
    } else if (kind == 1 || kind == 3) {
        made = submission_book_read(book, sizeof book, archive, longest_archive(archive), &place) == 0;
        book[sizeof book - 1] ^= kind == 3 ? 0xff : 0;
    } else {
        made = submission_book_open(book, sizeof book, 1, 1) == 0;
        for (uint8_t i = 0; i < 16; i++) {
            submission_book_delivery d = sample_delivery_with_fee(i, 4, 4);
            made = made && queue_delivery(book, sizeof book, &d) == 0;
        }
    }
    if (!made) {
        fputs("no book\n", stderr);
        exit(1);
    }
}

int main(void) {
    size_t most = 0;
    for (size_t i = 0; i < CALL_COUNT; i++) {
        size_t worst = 0;
        printf("%-30s", sample_calls[i].name);
        for (int kind = 0; kind < 4; kind++) {
            make_book(kind);
            Job job = {&sample_calls[i], {book, sizeof book, answer, sizeof answer, 0}, 0, NULL};
            size_t used = stack_of(&job);
            worst = used > worst ? used : worst;
            printf(" %9zu (%2u)", used, job.said);
        }
        puts("");
        most = worst > most ? worst : most;
    }
    printf("at most %zu bytes; the header says %d\n", most, SUBMISSION_BOOK_STACK_BYTES);
    return most <= SUBMISSION_BOOK_STACK_BYTES ? 0 : 1;
}
