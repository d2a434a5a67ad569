/* Any bytes to submission_book_read. What it answers is held against the reader of reader.h, and an archive that it accepts is written
 * again. */
#include "lent.h"
#include "reader.h"
#include "submission_book.h"

#define LONGEST 61440

static struct lent book, archive, written, number;
static struct shape shape;

static void make_buffers(void) {
    if (book.whole == NULL) {
        lent_make(&book, SUBMISSION_BOOK_BYTES + 8);
        lent_make(&archive, LONGEST + 8);
        lent_make(&written, SUBMISSION_BOOK_BYTES + 8);
        lent_make(&number, 8);
        lent_fill(&archive, 3);
    }
    lent_fill(&book, 1);
    lent_fill(&written, 2);
    lent_fill(&number, 4);
}

static uint8_t read_into(size_t book_len, const uint8_t *s, size_t len, size_t shift) {
    running = "submission_book_read";
    lend(&book, book_len, shift);
    lend_copy(&archive, s, len, shift);
    lend(&number, 8, 0);
    uint8_t r = submission_book_read(book.bytes, book.len, archive.bytes, len, (uint64_t *)(void *)number.bytes);
    take_back(&book);
    take_back_same(&archive);
    take_back(&number);
    return r;
}

static uint8_t write_from(size_t archive_len, size_t shift) {
    running = "submission_book_write";
    lend(&book, book.len, (size_t)(book.bytes - book.whole - EDGE));
    lend(&written, archive_len, shift);
    lend(&number, 8, 0);
    uint8_t r = submission_book_write(book.bytes, book.len, written.bytes, archive_len, (uint64_t *)(void *)number.bytes);
    take_back_same(&book);
    take_back(&written);
    take_back(&number);
    return r;
}

static uint64_t number_given(void) {
    uint64_t v;
    memcpy(&v, number.bytes, 8);
    return v;
}

/* An accepted archive: the book that was made of it. */
static void check_accepted(const uint8_t *s, size_t len) {
    must(kept(&number), "an accepted archive changes the place");
    must(number_at(book.bytes) == len, "length in the book");
    must(memcmp(book.bytes + 8, s, len) == 0, "bytes in the book");
    must(kept_from(&book, 8 + len), "bytes behind the archive");
}

static void check_written(const uint8_t *s, size_t len, size_t shift) {
    must(write_from(len - 1, shift) == 12, "a byte too few to write");
    must(kept(&written) && kept(&number), "a refused writing leaves the buffers");
    must(write_from(len, shift) == 0, "writing what was read");
    must(number_given() == len, "length written");
    must(memcmp(written.bytes, s, len) == 0, "bytes written");
    must(write_from(SUBMISSION_BOOK_BYTES, 0) == 0 && kept_from(&written, len), "writing to a longer buffer");
}

static void check_refused(size_t len) {
    must(kept(&book), "a refused archive leaves the book");
    must(number_given() == shape.place, "place of the refusal");
    must(shape.place <= len, "place within the archive");
}

/* The same bytes as the archive of a lent book: 1 unless it is sound. */
static void check_as_book(const uint8_t *s, size_t len, size_t shift) {
    if (len > SUBMISSION_BOOK_BYTES - 8) {
        return;
    }
    running = "submission_book_active_ids";
    uint8_t *at = book.whole + EDGE + shift;
    for (int i = 0; i < 8; i++) {
        at[i] = (uint8_t)((uint64_t)len >> (56 - 8 * i));
    }
    memcpy(at + 8, s, len);
    lend(&book, len + 8, shift);
    lend(&written, 513, shift);
    uint8_t r = submission_book_active_ids(book.bytes, book.len, written.bytes, written.len);
    take_back_same(&book);
    take_back(&written);
    must(r == (shape.ok ? 0 : 1), "a book is refused 1 unless it is sound");
    must(r == 0 || kept(&written), "a refused call leaves the answer");
}

int LLVMFuzzerTestOneInput(const uint8_t *s, size_t len) {
    if (len > LONGEST) {
        return 0;
    }
    make_buffers();
    size_t shift = len & 7;
    read_shape(&shape, s, len);
    uint8_t r = read_into(SUBMISSION_BOOK_BYTES, s, len, shift);
    must(r == (shape.ok ? 0 : 13), "the two readers agree");
    if (r == 13) {
        check_refused(len);
        must(read_into(len & 31, s, len, shift) == 13, "13 comes before 12");
        check_refused(len);
    } else {
        check_accepted(s, len);
        check_written(s, len, shift);
        must(read_into(len + 7, s, len, shift) == 12, "a byte too few for the book");
        must(kept(&book) && kept(&number), "a refused reading leaves the buffers");
        must(read_into(len + 8, s, len, shift) == 0, "a book buffer of the right length");
        check_accepted(s, len);
    }
    check_as_book(s, len, shift);
    return 0;
}
