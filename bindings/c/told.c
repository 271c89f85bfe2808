/* A test of what the header declares, in C and in C++: the two calls tell records and events by the tables of docs/FORMAT.md, a book is
 * written from rows of their sizes, and the refusals have their numbers. Prints each difference; exit status 0 if there is none. */
#include "xemdulba.h"

#include <stdint.h>
#include <stdio.h>
#include <string.h>

static int failures;

static void expect(const char *name, struct xemdulba_told told, uint32_t kind, uint32_t first, uint32_t second, uint32_t third,
                   uint32_t number, size_t next)
{
    if (told.kind != kind || told.first != first || told.second != second || told.third != third || told.number != number ||
        told.next != next) {
        printf("%s is told otherwise\n", name);
        failures++;
    }
}

/* A cell, a choose, and the first bytes of a put. */
static void tell_records(void)
{
    static const uint8_t book[] = {0x01, 0x03, 0x20, 0x01, 0x09, 0x02, 0x78, 0x56, 0x34, 0x12, 0x4B, 0x07, 0x3F, 0x3E, 0x40, 0x07};

    expect("C", xemdulba_record(book, sizeof book, 0), 1, 3, 0, 0, 0, 2);
    expect("a cell", xemdulba_record(book, sizeof book, 2), 32, 1, 9, 2, 0x12345678, 10);
    expect("a choose", xemdulba_record(book, sizeof book, 10), 75, 7, 63, 62, 0, 14);
    expect("a cut choose", xemdulba_record(book, 13, 10), 0, 0, 0, 0, 0, 0);
    expect("an unknown kind", xemdulba_record(book, sizeof book, 1), 0, 0, 0, 0, 0, 0);
    expect("a cut put", xemdulba_record(book, sizeof book, 14), 0, 0, 0, 0, 0, 0);
    expect("the end", xemdulba_record(book, sizeof book, sizeof book), 0, 0, 0, 0, 0, 0);
    expect("far past the end", xemdulba_record(book, sizeof book, SIZE_MAX), 0, 0, 0, 0, 0, 0);
    expect("no book", xemdulba_record(book, 0, 0), 0, 0, 0, 0, 0, 0);
}

static void tell_events(void)
{
    static const uint8_t list[] = {0x50, 0x3F, 0x51, 0x03, 0x00, 0x01, 0xFF, 0xFF, 0xFF, 0xFF, 0x52, 0x03, 0x00, 0x04, 0x53, 0x03};

    expect("a step", xemdulba_event(list, sizeof list, 0), 80, 63, 0, 0, 0, 2);
    expect("a write", xemdulba_event(list, sizeof list, 2), 81, 3, 0, 1, 0xFFFFFFFF, 10);
    expect("a relabel", xemdulba_event(list, sizeof list, 10), 82, 3, 0, 4, 0, 14);
    expect("a cut new", xemdulba_event(list, sizeof list, 14), 0, 0, 0, 0, 0, 0);
    expect("far past the end", xemdulba_event(list, sizeof list, SIZE_MAX), 0, 0, 0, 0, 0, 0);
}

/* A code shape and a cell shape, a cell, and two blocks, the second with a put and a choose. */
static const uint8_t shapes[] = {0x11, 0x0F, 0x00, 0x12, 0x00, 0x0E};
static const uint8_t cells[] = {0x01, 0x0D, 0x02, 0x01, 0x00, 0x00, 0x00};
static const uint8_t blocks[] = {0x0C, 0x00, 0x00, 0x00, 0x00, 0x0B, 0x02, 0x00, 0x00, 0x00};
static const uint8_t steps[] = {0x40, 0x07, 0x00, 0x00, 0x78, 0x56, 0x34, 0x12, 0x4B, 0x07, 0x01, 0x00, 0x00, 0x00, 0x00, 0x00};

static void expect_written(const char *name, uint32_t c, uint8_t *out, size_t room, uint32_t refusal, uint32_t length)
{
    struct xemdulba_written written = xemdulba_write(c, shapes, sizeof shapes, cells, sizeof cells, blocks, sizeof blocks, steps,
                                                     sizeof steps, out, room);

    if (written.refusal != refusal || written.place != 0 || written.length != length) {
        printf("%s is written otherwise\n", name);
        failures++;
    }
}

static void expect_bytes(const char *name, const uint8_t *out, const uint8_t *bytes, size_t length)
{
    if (memcmp(out, bytes, length) != 0) {
        printf("%s leaves other bytes in the buffer\n", name);
        failures++;
    }
}

/* The buffer has 29 bytes for the book, and two more that are kept. */
static void write_book(void)
{
    static const uint8_t book[] = {0x01, 0x00, 0x11, 0x0F, 0x12, 0x00, 0x0E, 0x20, 0x01, 0x0D, 0x02, 0x01, 0x00, 0x00,
                                   0x00, 0x30, 0x0C, 0x30, 0x0B, 0x40, 0x07, 0x78, 0x56, 0x34, 0x12, 0x4B, 0x07, 0x01,
                                   0x00, 0xA5, 0xA5};
    uint8_t before[sizeof book], out[sizeof book];

    memset(before, 0xA5, sizeof before);
    memset(out, 0xA5, sizeof out);
    expect_written("a short buffer", 0, out, 28, XEMDULBA_REFUSED_OUTPUT, 0);
    expect_written("a C of 15", 15, out, sizeof out, XEMDULBA_REFUSED_TOO_HIGH, 0);
    expect_bytes("a refusal", out, before, sizeof out);
    expect_written("a book", 0, out, sizeof out, XEMDULBA_NOT_REFUSED, 29);
    expect_bytes("a book", out, book, sizeof out);
}

/* The sizes of docs/FORMAT.md. */
static void size_rows(void)
{
    if (XEMDULBA_SHAPE_ROW != 3 || XEMDULBA_CELL_ROW != 7 || XEMDULBA_BLOCK_ROW != 5 || XEMDULBA_STEP_ROW != 8 ||
        XEMDULBA_LONGEST_BOOK != 25057) {
        printf("a row or the longest book has another size\n");
        failures++;
    }
}

/* The numbers of docs/FORMAT.md. */
static void number_refusals(void)
{
    static const int numbers[] = {
        XEMDULBA_NOT_REFUSED,      XEMDULBA_REFUSED_TOO_LONG, XEMDULBA_REFUSED_UNREADABLE, XEMDULBA_REFUSED_ORDER,
        XEMDULBA_REFUSED_TOO_MANY, XEMDULBA_REFUSED_TOO_HIGH, XEMDULBA_REFUSED_NO_SUCH,    XEMDULBA_REFUSED_CELL,
        XEMDULBA_REFUSED_STEP,     XEMDULBA_REFUSED_EVENTS,   XEMDULBA_REFUSED_TABLES,     XEMDULBA_REFUSED_ANSWERS,
        XEMDULBA_REFUSED_BLOCK,    XEMDULBA_REFUSED_OUTPUT,   XEMDULBA_REFUSED_LAUNCH,     XEMDULBA_REFUSED_TURNS,
    };
    static const uint8_t no_block[] = {0x01, 0x03};
    int i;

    for (i = 0; i <= 15; i++) {
        if (numbers[i] != i) {
            printf("refusal %d has the number %d\n", i, numbers[i]);
            failures++;
        }
    }
    if (xemdulba_check(no_block, sizeof no_block).refusal != XEMDULBA_REFUSED_ORDER) {
        printf("a book without a block is not refused as out of order\n");
        failures++;
    }
}

int main(void)
{
    tell_records();
    tell_events();
    write_book();
    size_rows();
    number_refusals();
    return failures == 0 ? 0 : 1;
}
