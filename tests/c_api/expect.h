/* A test goes on behind a failure, and says each. */
#ifndef EXPECT_H
#define EXPECT_H
#include <stdbool.h>
#include <stdint.h>

void expect(const char *what, uint64_t got, uint64_t wanted);
void expect_for(const char *call, const char *what, uint64_t got, uint64_t wanted);

enum { ROOM_BYTES = 1 << 16 };
/* The end of ROOM_BYTES of memory: the byte behind them must not be touched, and ends the program. */
uint8_t *guarded_end(void);

/* answers.c: readers and builders by themselves, and with the library */
void test_forms(void);
void test_answers(void);
/* buffers.c: every function in lent bytes of every length */
void test_buffers(void);
/* digests.c: the functions without a book */
void test_digests(void);
/* looks.c: the functions whose book is const, on read-only memory and from two threads */
void test_looks(void);
/* sizes.c: every size and limit of the header */
void test_sizes(void);

#endif
