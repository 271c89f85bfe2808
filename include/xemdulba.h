/* Xemdulba: checks a control job book before it runs, runs it on a list of events or in a fair round, tells its records one by one, and
 * writes a book from tables. Link libxemdulba.a: `cli/archive` proves it and writes target/staticlib/libxemdulba.a.
 *
 * Every call returns on every input and answers what the proved definitions say. xemdulba_run and xemdulba_round write to their two
 * tables and their answers alone, and xemdulba_write to its output buffer alone; xemdulba_check, xemdulba_block, xemdulba_record and
 * xemdulba_event write to no memory that they are lent. A book is any bytes, and so is an event list, or a table of rows. A pointer is
 * that of so many bytes as its length says, which nobody else changes during the call; where the length is 0 it may be any address, not
 * null. A length is below 2^63, as that of any object is. Every number is the definitions' own: it is proved that it fits in 32 bits,
 * and an offset in a size_t. No start or length of a stretch is above 32,768, and no place above 32,768, or 65,536 for refusal 9. No
 * call uses a heap or keeps a state. How much stack a call uses was measured, not proved: see bench/run.
 */
#ifndef XEMDULBA_H
#define XEMDULBA_H

#include <stddef.h>
#include <stdint.h>

#ifdef __cplusplus
extern "C" {
#endif

/* The version that this header declares. */
#define XEMDULBA_VERSION "0.2.0"

/* The change requests from one to this number hold: one is the writer, two blocks sums that pass the top, three launches low by
 * default, four is the step choose, five compares labels where a table was read, which no call shows, six is the fair round. A call
 * whose parameters a request changes is changed in place: what was compiled with an older header has to be compiled again, and a call
 * of the older form does not compile. */
#define XEMDULBA_REQUEST 6

/* The refusals, and what the rule of each says. A refusal has a place: the offset of the first record at fault in the book, or of the
 * first event at fault in the list for 9. It is 0 for 1 and for 10 to 15, where a list is too long, and where the first record is
 * missing, and the book's length where no block stands. The first in this order that holds is the one that is reported. The places of
 * a book that is not written, and what else refuses one by 2 and 5, stand at xemdulba_write. */
enum xemdulba_refusal {
    XEMDULBA_NOT_REFUSED = 0,
    /* the book is longer than 32768 bytes */
    XEMDULBA_REFUSED_TOO_LONG = 1,
    /* a kind is none of the format's, or the book ends inside a record */
    XEMDULBA_REFUSED_UNREADABLE = 2,
    /* the first record is missing or not C, a record is out of order, or no block stands */
    XEMDULBA_REFUSED_ORDER = 3,
    /* a record is beyond 32 shapes, 32 cells, 64 blocks or 64 steps in a block */
    XEMDULBA_REFUSED_TOO_MANY = 4,
    /* a label, bound or trust is above 15, C above 14, a register above 7, or a value kind above 2 */
    XEMDULBA_REFUSED_TOO_HIGH = 5,
    /* a content shape is not lower-numbered than its cell shape, a cell or new names no cell shape, or a cell or block number does not
     * exist */
    XEMDULBA_REFUSED_NO_SUCH = 6,
    /* a cell declaration breaks its typing rule */
    XEMDULBA_REFUSED_CELL = 7,
    /* a step breaks its typing rule */
    XEMDULBA_REFUSED_STEP = 8,
    /* the event list is longer than 65536 bytes, an event's kind is unknown, or the list ends inside an event */
    XEMDULBA_REFUSED_EVENTS = 9,
    /* the cell table has not exactly 576 bytes, or the job table not exactly 3328 */
    XEMDULBA_REFUSED_TABLES = 10,
    /* the answer buffer has fewer bytes than the list has events, or than a round is given turns */
    XEMDULBA_REFUSED_ANSWERS = 11,
    /* the block asked for does not exist */
    XEMDULBA_REFUSED_BLOCK = 12,
    /* the output buffer is too short */
    XEMDULBA_REFUSED_OUTPUT = 13,
    /* the launch label is above block 0's bound */
    XEMDULBA_REFUSED_LAUNCH = 14,
    /* a round is given more than 4096 turns */
    XEMDULBA_REFUSED_TURNS = 15
};

/* The verdict on a book. Accepted: refusal 0, place 0, and how many shapes, cells, blocks and steps the book has. Refused, by 1 to 8:
 * the number and the place, and the counts are 0. */
struct xemdulba_checked {
    uint32_t refusal;
    uint32_t place;
    uint32_t shapes;
    uint32_t cells;
    uint32_t blocks;
    uint32_t steps;
};

/* A block's stretch of the book, steps only: it starts at `start` and has `length` bytes. Refused, by 1 to 6 or 12: the number and the
 * place, and the stretch is empty, start 0 and length 0. */
struct xemdulba_stretch {
    uint32_t refusal;
    uint32_t place;
    uint32_t start;
    uint32_t length;
};

/* What a run gives. It ran: refusal 0, place 0, and how many cells and jobs are in use, at most 64 of each. Refused, by 1 to 6, 9
 * to 11 or 14: the number and the place, and both counts are 0. */
struct xemdulba_ran {
    uint32_t refusal;
    uint32_t place;
    uint32_t cells;
    uint32_t jobs;
};

/* What a round gives. The turns were taken: refusal 0, place 0, how many cells and jobs are in use, at most 64 of each, and how many
 * turns were used, at most as many as it was given. Refused, by 1 to 6, 10, 11, 14 or 15: the number and the place, and the counts and
 * the turns are 0. */
struct xemdulba_rounded {
    uint32_t refusal;
    uint32_t place;
    uint32_t cells;
    uint32_t jobs;
    uint32_t turns;
};

/* What stands at an offset of a book or a list: its kind, its fields of one byte in their order, its number, and the offset past it,
 * which is that of the next. Fields that the kind does not have are 0, and so is the number; the others are told as they stand, also
 * above their limits. Where nothing whole stands, because the kind is unknown, the bytes end inside it, or the offset is not below the
 * length, all six are 0, `next` too; 0 is no kind. */
struct xemdulba_told {
    uint32_t kind;
    uint32_t first;
    uint32_t second;
    uint32_t third;
    uint32_t number;
    size_t next;
};

/* What writing a book gives. It is written: refusal 0, place 0, and how many bytes of the buffer it has. Refused, by 1 to 6 or 13: the
 * number and the place, and the length is 0. */
struct xemdulba_written {
    uint32_t refusal;
    uint32_t place;
    uint32_t length;
};

/* The tables that a run or a round leaves hold 64 records each, those in use first, in the order in which they came to be, and zeros
 * behind them. A number of 4 bytes is little-endian.
 *   value, 6 bytes    kind (0 plain, 1 cell, 2 code), number (4 bytes), source
 *   cell, 9 bytes     shape, trust, label, value
 *   job, 52 bytes     block, position (how many of the block's steps are done), label, source, the values of registers 0 to 7
 * A source is the lowest label of all that touched the value, or the job. Who decided that a job was started, by what a choose went by, is
 * not in it. */
#define XEMDULBA_CELL_SIZE 9
#define XEMDULBA_JOB_SIZE 52
#define XEMDULBA_CELLS_SIZE 576
#define XEMDULBA_JOBS_SIZE 3328

/* The tables that a book is written from hold rows of so many bytes, one behind the other. A number of 4 bytes is little-endian.
 *   shape, 3 bytes    kind, x, y
 *   cell, 7 bytes     shape, label, value kind, number (4 bytes)
 *   block, 5 bytes    bound, how many steps it has (4 bytes)
 *   step, 8 bytes     kind, x, y, z, number (4 bytes)
 * A kind is 16 to 18 in a shape, and 64 to 75 in a step; x, y and z are the fields of one byte that xemdulba_record has for the kind, in
 * that order, and those that it does not have are 0. So is the number of every step but put. */
#define XEMDULBA_SHAPE_ROW 3
#define XEMDULBA_CELL_ROW 7
#define XEMDULBA_BLOCK_ROW 5
#define XEMDULBA_STEP_ROW 8

/* A buffer of so many bytes is long enough for every book that is written. */
#define XEMDULBA_LONGEST_BOOK 25057

/* Checks a book. Accepted, with true counts, exactly when the typing rules allow it. */
struct xemdulba_checked xemdulba_check(const uint8_t *book, size_t length);

/* Finds the stretch of the block of this number, from 0. It answers for every book that can be read, accepted or not. */
struct xemdulba_stretch xemdulba_block(const uint8_t *book, size_t length, uint32_t block);

/* Tells the record at an offset of a book, as if one began there: 0, or the `next` of the record before. Any bytes and any offset have
 * an answer, also a book that is refused, or longer than 32,768 bytes. To go through a book, begin at 0 and go on at `next` while the
 * kind is not 0; the book was read to its end if that is at its length, and else it cannot be read from there on (refusal 2).
 * The fields of a kind:
 *   1 C: label                  16 plain shape: none        17 code shape: bound        18 cell shape: content shape, trust
 *   32 cell: shape, label, value kind, number               48 block: bound
 *   64 put: r, number           65 name: r, cell            66 code: r, block           67 add: r, a, b
 *   68 new: r, shape, a         69 read: r, w               70 write: w, a              71 relabel: w, label
 *   72 lower: label             73 start: block             74 exec: w                  75 choose: r, block, block */
struct xemdulba_told xemdulba_record(const uint8_t *book, size_t length, size_t offset);

/* Tells the event at an offset of a list, as xemdulba_record tells a record, also of a list that is longer than 65,536 bytes. The
 * fields of a kind stand at xemdulba_run. */
struct xemdulba_told xemdulba_event(const uint8_t *list, size_t length, size_t offset);

/* The launch label that stands for none. */
#define XEMDULBA_DEFAULT_LAUNCH 0xFFFFFFFFu

/* Runs the events of a list on a book from its start, whether or not the book is accepted. Job 0 runs block 0 at the label `launch`,
 * which is also its history; with XEMDULBA_DEFAULT_LAUNCH at the smaller of C plus 1 and the bound of block 0. Any other number above
 * that bound is refused by 14. Of a book that xemdulba_block does not refuse, the bound is the byte before the stretch of
 * block 0, for who wants a launch at the bound; where it refuses the book, the run is refused likewise, whatever `launch` is. An event
 * is its kind and then its fields, of one byte each but for a number of 4:
 *   80 a step of a job: job
 *   by an outsider at a label:
 *   81 write: label, cell, value kind, number        82 relabel: label, cell, label        83 new: label, shape, value kind, number
 *   84 exec: label, cell                             85 start: label, block
 * The answer of event I is byte I of `answers`: 0 done, 1 blocked, 2 no step left, 3 no such; 1 to 3 change nothing. A step add is
 * blocked unless both operands are plain and their exact sum is at most 4,294,967,295. A step choose starts its first block if r is
 * plain and not 0, its second if r is plain 0, and is blocked otherwise or when 64 jobs exist; the job has the chooser's label, and its
 * history is the chooser's alone. xemdulba-book(5) has each step. Bytes of `answers` beyond the events keep their contents. What
 * `cells`, `jobs` and `answers` held before plays no part. On a refusal nothing is written. The caller sees to it that `cells`, `jobs`
 * and `answers` overlap neither each other nor the book or the list. */
struct xemdulba_ran xemdulba_run(const uint8_t *book, size_t length, uint32_t launch, const uint8_t *list, size_t list_length,
                                 uint8_t *cells, size_t cells_length, uint8_t *jobs, size_t jobs_length, uint8_t *answers,
                                 size_t answers_length);

/* A round is given so many turns at most. */
#define XEMDULBA_MOST_TURNS 4096

/* Lets the jobs of a book take turns, from its start, whether or not the book is accepted: no list of events is needed. Each of the
 * `turns` steps the next job with a step left, which is found by scanning the job table from the one after the last stepped, and from
 * job 0 again behind the jobs in use; job 0 is looked at first. A blocked step uses a turn. The round ends early only when no job has a
 * step left, so that one whose jobs are all blocked goes on to its last turn. A job with a step left waits through at most 63 turns of
 * others before its next. `launch` and the tables are those of xemdulba_run, and so is a step.
 * The answer of turn I is byte I of `answers`: 0 done, 1 blocked. Bytes of `answers` beyond the turns used keep their contents. All that
 * the round leaves is what xemdulba_run leaves, with the same `launch`, on the list of the steps that the round chose; it does not tell
 * which jobs those were of. The refusals are tried in the order 1 to 6, 10, 11, 14, 15: 11 where `answers_length` is below `turns`, also
 * where fewer would be used, and 15 where `turns` is above XEMDULBA_MOST_TURNS. What `cells`, `jobs` and `answers` held before plays no
 * part. On a refusal nothing is written. The caller sees to it that `cells`, `jobs` and `answers` overlap neither each other nor the
 * book. */
struct xemdulba_rounded xemdulba_round(const uint8_t *book, size_t length, uint32_t launch, uint8_t *cells, size_t cells_length,
                                       uint8_t *jobs, size_t jobs_length, uint8_t *answers, size_t answers_length, uint32_t turns);

/* Writes the book of C and these tables to the start of `out`: C, the shapes, the cells, and each block with its steps behind it, which
 * are the next so many rows of the steps as the block's row says. A table has as many rows as whole rows fit in its length; bytes behind
 * them play no part. A C above 255 counts as 255. The bytes that are written can be read, and have these rows again; and a book that can
 * be read is written with its own bytes from its own rows. The typing rules are not tried.
 * The refusals are tried in this order, each for the whole book before the next; the place is the offset where the record would stand:
 *   1   the book would be longer than 32,768 bytes. A row whose kind is none of its table's counts as one byte, and
 *       steps that no block has count too
 *   2   at 0: the blocks' numbers of steps do not add up to the rows of the steps
 *   2   the kind of a shape is none of a shape, or that of a step none of a step
 *   3   at the length: no block stands
 *   4   a record is beyond 32 shapes, 32 cells, 64 blocks or 64 steps in a block
 *   5   a field is above its limit, or one that its kind does not have is not 0
 *   6   a content shape is not lower-numbered than its cell shape, a cell or new names no cell shape, or a cell or block number does
 *       not exist
 *   13  at 0: `out_length` is below the length of the book
 * Bytes of `out` beyond the book keep their contents, and on a refusal nothing is written. The caller sees to it that `out` overlaps
 * none of the tables. */
struct xemdulba_written xemdulba_write(uint32_t c, const uint8_t *shapes, size_t shapes_length, const uint8_t *cells,
                                       size_t cells_length, const uint8_t *blocks, size_t blocks_length, const uint8_t *steps,
                                       size_t steps_length, uint8_t *out, size_t out_length);

#ifdef __cplusplus
}
#endif

#endif
