/* desk BOOK EVENTS: checks a book and, where it is accepted, runs it on a list of events, with job 0 at the bound of block 0.
 * Exit status: 0 it ran, 1 refused, 2 no answer, or it cannot be written.
 *
 * From the repository's folder, once `cli/archive` has written the library:
 *   cc -std=c99 -Iinclude bindings/c/desk.c target/staticlib/libxemdulba.a -o target/desk
 */
#include "xemdulba.h"

#include <errno.h>
#include <inttypes.h>
#include <signal.h>
#include <stdio.h>
#include <string.h>

enum {
    LONGEST_BOOK = 32768,
    LONGEST_LIST = 65536,
    REGISTERS = 8,
    VALUE_SIZE = 6,
    UNANSWERED = 0xFF /* no answer: a run leaves the bytes beyond its events as they were */
};

/* A byte more than is accepted, so that what is cut off a longer file changes nothing. */
static uint8_t book[LONGEST_BOOK + 1];
static uint8_t list[LONGEST_LIST + 1];

static uint8_t cells[XEMDULBA_CELLS_SIZE];
static uint8_t jobs[XEMDULBA_JOBS_SIZE];

/* As many as the longest list has events: each has 2 bytes or more. */
static uint8_t answers[LONGEST_LIST / 2];

/* Reads the file's first bytes; 0 if it cannot be read. */
static int read_file(const char *path, uint8_t *bytes, size_t most, size_t *length)
{
    FILE *file = fopen(path, "rb");
    int failed;

    if (file == NULL) {
        perror(path);
        return 0;
    }
    *length = fread(bytes, 1, most, file);
    failed = ferror(file);
    if (failed) {
        perror(path);
    }
    fclose(file);
    return !failed;
}

static void print_value(const uint8_t *value)
{
    static const char *const kinds[] = {"plain", "cell", "code"}; /* a run leaves no other kind */
    uint32_t number = (uint32_t)value[1] | (uint32_t)value[2] << 8 | (uint32_t)value[3] << 16 | (uint32_t)value[4] << 24;

    printf("%s %" PRIu32 " source %d\n", kinds[value[0]], number, value[5]);
}

static void print_cell(uint32_t number, const uint8_t *cell)
{
    printf("cell %" PRIu32 " shape %d trust %d label %d ", number, cell[0], cell[1], cell[2]);
    print_value(cell + 3);
}

static void print_job(uint32_t number, const uint8_t *job)
{
    int i;

    printf("job %" PRIu32 " block %d position %d label %d source %d\n", number, job[0], job[1], job[2], job[3]);
    for (i = 0; i < REGISTERS; i++) {
        printf("  register %d ", i);
        print_value(job + 4 + i * VALUE_SIZE);
    }
}

static void print_run(struct xemdulba_ran ran)
{
    uint32_t i;

    printf("ran cells %" PRIu32 " jobs %" PRIu32 "\n", ran.cells, ran.jobs);
    printf("answers");
    for (i = 0; i < sizeof answers && answers[i] != UNANSWERED; i++) {
        printf(" %d", answers[i]);
    }
    printf("\n");
    for (i = 0; i < ran.cells; i++) {
        print_cell(i, cells + i * XEMDULBA_CELL_SIZE);
    }
    for (i = 0; i < ran.jobs; i++) {
        print_job(i, jobs + i * XEMDULBA_JOB_SIZE);
    }
}

static int refused(uint32_t refusal, uint32_t place)
{
    printf("refused %" PRIu32 " at %" PRIu32 "\n", refusal, place);
    return 1;
}

/* The bound of block 0, of a book that is accepted: the byte before the block's steps. */
static uint32_t bound(size_t book_length)
{
    return book[xemdulba_block(book, book_length, 0).start - 1];
}

/* Prints the verdict and what the run gives, and returns the exit status. */
static int desk(size_t book_length, size_t list_length)
{
    struct xemdulba_checked checked = xemdulba_check(book, book_length);
    struct xemdulba_ran ran;

    if (checked.refusal != XEMDULBA_NOT_REFUSED) {
        return refused(checked.refusal, checked.place);
    }
    printf("accepted shapes %" PRIu32 " cells %" PRIu32, checked.shapes, checked.cells);
    printf(" blocks %" PRIu32 " steps %" PRIu32 "\n", checked.blocks, checked.steps);

    memset(answers, UNANSWERED, sizeof answers);
    ran = xemdulba_run(book, book_length, bound(book_length), list, list_length, cells, sizeof cells, jobs, sizeof jobs, answers,
                       sizeof answers);
    if (ran.refusal != XEMDULBA_NOT_REFUSED) {
        return refused(ran.refusal, ran.place);
    }
    print_run(ran);
    return 0;
}

/* Whether all that was printed is written. If not, says why; a reader who has gone away wants to hear nothing. */
static int written(void)
{
    if (fflush(stdout) == 0 && !ferror(stdout)) {
        return 1;
    }
    if (errno != EPIPE) {
        perror("desk: standard output");
    }
    return 0;
}

int main(int count, char **arguments)
{
    size_t book_length, list_length;
    int status;

    if (count != 3) {
        fprintf(stderr, "usage: desk BOOK EVENTS\n");
        return 2;
    }
    if (!read_file(arguments[1], book, sizeof book, &book_length) || !read_file(arguments[2], list, sizeof list, &list_length)) {
        return 2;
    }
#ifdef SIGPIPE
    signal(SIGPIPE, SIG_IGN); /* so that a broken pipe is an error, with an exit status */
#endif
    status = desk(book_length, list_length);
    return written() ? status : 2;
}
