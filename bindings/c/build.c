/* build: a desk tool that builds a book from tables. It writes book A of document 01, prints its length, its records and the verdict,
 * and then shows what the writer says of tables at fault.
 * Exit status: 0 it is written and accepted, 1 refused, 2 it cannot be printed. bindings/expected/build has what it prints.
 *
 * From the repository's folder, once `cli/archive` has written the library:
 *   cc -std=c99 -Iinclude bindings/c/build.c target/staticlib/libxemdulba.a -o target/build
 */
#include "xemdulba.h"

#include <inttypes.h>
#include <stdio.h>

/* Book A: an official cell of trust 9, and a job that puts 7 into it. A number has its lowest byte first. */
enum { C = 3 };

static uint8_t shapes[][XEMDULBA_SHAPE_ROW] = {
    {16, 0, 0}, /* plain */
    {18, 0, 9}, /* cell of shape 0, trust 9 */
};

static uint8_t cells[][XEMDULBA_CELL_ROW] = {
    {1, 9, 0, 5, 0, 0, 0}, /* shape 1, label 9, plain 5 */
};

static uint8_t blocks[][XEMDULBA_BLOCK_ROW] = {
    {12, 3, 0, 0, 0}, /* bound 12, 3 steps */
};

static uint8_t steps[][XEMDULBA_STEP_ROW] = {
    {65, 0, 0, 0, 0, 0, 0, 0}, /* name r0, cell 0 */
    {64, 1, 0, 0, 7, 0, 0, 0}, /* put r1, 7 */
    {70, 0, 1, 0, 0, 0, 0, 0}, /* write r0, r1 */
};

static uint8_t book[XEMDULBA_LONGEST_BOOK];

/* Writes the book of the tables as they stand. */
static struct xemdulba_written write_book(size_t room)
{
    return xemdulba_write(C, shapes[0], sizeof shapes, cells[0], sizeof cells, blocks[0], sizeof blocks, steps[0], sizeof steps, book,
                          room);
}

static int refused(uint32_t refusal, uint32_t place)
{
    printf("refused %" PRIu32 " at %" PRIu32 "\n", refusal, place);
    return 1;
}

/* A line for each record: its bytes, in hexadecimal. */
static void print_records(size_t length)
{
    struct xemdulba_told told;
    size_t offset = 0;

    while ((told = xemdulba_record(book, length, offset)).kind != 0) {
        for (; offset < told.next; offset++) {
            printf("%02X%s", book[offset], offset + 1 < told.next ? " " : "\n");
        }
    }
}

/* Writes the book, and prints it with the verdict. Returns the exit status. */
static int build(void)
{
    struct xemdulba_written written = write_book(sizeof book);
    struct xemdulba_checked checked;

    if (written.refusal != XEMDULBA_NOT_REFUSED) {
        return refused(written.refusal, written.place);
    }
    printf("written length %" PRIu32 "\n", written.length);
    print_records(written.length);

    /* The writer does not try the typing rules: what is written need not be accepted. */
    checked = xemdulba_check(book, written.length);
    if (checked.refusal != XEMDULBA_NOT_REFUSED) {
        return refused(checked.refusal, checked.place);
    }
    printf("accepted shapes %" PRIu32 " cells %" PRIu32, checked.shapes, checked.cells);
    printf(" blocks %" PRIu32 " steps %" PRIu32 "\n", checked.blocks, checked.steps);
    return 0;
}

/* What the writer says of the tables as they stand, and a buffer of so many bytes. */
static void try_fault(const char *fault, size_t room)
{
    struct xemdulba_written written = write_book(room);

    printf("%s: ", fault);
    refused(written.refusal, written.place);
}

static void show_faults(void)
{
    blocks[0][1] = 4;
    try_fault("a block of 4 steps, and 3 rows", sizeof book);
    blocks[0][1] = 3;

    steps[2][0] = 16;
    try_fault("a step of kind 16", sizeof book);
    steps[2][0] = 70;

    steps[1][2] = 1;
    try_fault("a put with a second field", sizeof book);
    steps[1][2] = 0;

    steps[0][2] = 1;
    try_fault("a name of cell 1", sizeof book);
    steps[0][2] = 0;

    try_fault("a buffer of 27 bytes", 27);
}

int main(void)
{
    int status = build();

    show_faults();
    if (fflush(stdout) != 0 || ferror(stdout)) {
        perror("build: standard output");
        return 2;
    }
    return status;
}
