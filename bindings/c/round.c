/* A test of the round, in C and in C++: what it gives, what it leaves in the memory that it is lent, and its refusals, reckoned by hand
 * from request Six of document 02; and that it equals the run on the steps that it chose. Prints each difference; exit status 0 if there
 * is none. */
#include "xemdulba.h"

#include <stdio.h>
#include <string.h>

/* C is 3, and each block has the bound 12. Block 0 starts blocks 1 and 2, and reads by register 0, which is plain, so that it stays
 * blocked. Block 1 lowers its job to 9, twice, and block 2 to 8, three times. */
static const uint8_t stuck[] = {0x01, 0x03, 0x30, 0x0C, 0x49, 0x01, 0x49, 0x02, 0x45, 0x00, 0x00, 0x30, 0x0C,
                                0x48, 0x09, 0x48, 0x09, 0x30, 0x0C, 0x48, 0x08, 0x48, 0x08, 0x48, 0x08};

/* Launched at 12: job 0 starts job 1; job 1; job 0 starts job 2; job 1, its last; job 2; job 0 is blocked; job 2; job 0; job 2, its last;
 * and then job 0 alone. */
static const uint8_t steps[] = {80, 0, 80, 1, 80, 0, 80, 1, 80, 2, 80, 0, 80, 2, 80, 0, 80, 2, 80, 0, 80, 0, 80, 0};
static const uint8_t step_answers[] = {0, 0, 0, 0, 0, 1, 0, 1, 0, 1, 1, 1};

enum {
    TURNS = 12,
    BEFORE = 0xA5 /* what each byte holds before */
};

struct lent {
    uint8_t cells[XEMDULBA_CELLS_SIZE];
    uint8_t jobs[XEMDULBA_JOBS_SIZE];
    uint8_t answers[XEMDULBA_MOST_TURNS + 2];
};

static struct lent lent, other, before;
static int failures;

static void fail(const char *name, const char *words)
{
    printf("%s: %s\n", name, words);
    failures++;
}

/* A round on memory that holds BEFORE, with so many bytes of the cell table and for answers. */
static struct xemdulba_rounded go(const uint8_t *book, size_t length, uint32_t launch, size_t cells, size_t answers, uint32_t turns)
{
    lent = before;
    return xemdulba_round(book, length, launch, lent.cells, cells, lent.jobs, sizeof lent.jobs, lent.answers, answers, turns);
}

/* A round with an answer byte for each turn and one more: how many jobs there are then, and the turns used. */
static void expect(const char *name, const uint8_t *book, size_t length, uint32_t launch, uint32_t turns, uint32_t jobs, uint32_t used)
{
    struct xemdulba_rounded rounded = go(book, length, launch, sizeof lent.cells, turns + 1, turns);

    if (rounded.refusal != XEMDULBA_NOT_REFUSED || rounded.place != 0 || rounded.cells != 0) {
        fail(name, "it is refused, or has cells");
    }
    if (rounded.jobs != jobs || rounded.turns != used) {
        fail(name, "other jobs or turns");
    }
    if (lent.answers[used] != BEFORE) {
        fail(name, "the answers beyond the turns used are not kept");
    }
}

static void expect_refused(const char *name, struct xemdulba_rounded rounded, uint32_t refusal, uint32_t place)
{
    if (rounded.refusal != refusal || rounded.place != place || rounded.cells != 0 || rounded.jobs != 0 || rounded.turns != 0) {
        fail(name, "it is refused otherwise");
    }
    if (memcmp(&lent, &before, sizeof lent) != 0) {
        fail(name, "a refusal writes");
    }
}

/* Block, position, label and source of a job. */
static void expect_job(const char *name, int job, uint8_t block, uint8_t position, uint8_t label)
{
    const uint8_t *entry = lent.jobs + job * XEMDULBA_JOB_SIZE;

    if (entry[0] != block || entry[1] != position || entry[2] != label || entry[3] != label) {
        fail(name, "a job stands otherwise");
    }
}

static void take_turns(void)
{
    const char *name = "12 turns";
    struct xemdulba_ran ran;

    expect(name, stuck, sizeof stuck, 12, TURNS, 3, TURNS);
    if (memcmp(lent.answers, step_answers, TURNS) != 0) {
        fail(name, "other answers");
    }
    expect_job(name, 0, 0, 2, 12);
    expect_job(name, 1, 1, 2, 9);
    expect_job(name, 2, 2, 3, 8);
    other = before;
    ran = xemdulba_run(stuck, sizeof stuck, 12, steps, sizeof steps, other.cells, sizeof other.cells, other.jobs, sizeof other.jobs,
                       other.answers, TURNS);
    if (ran.refusal != XEMDULBA_NOT_REFUSED || ran.cells != 0 || ran.jobs != 3 || memcmp(&lent, &other, sizeof lent) != 0) {
        fail(name, "the run on the steps gives otherwise");
    }
}

/* At the default, 4, each lower is blocked, and nothing else is done than the two starts. */
static void launch_low(void)
{
    static const uint8_t expected[] = {0, 1, 0, 1, 1, 1, 1, 1, 1, 1, 1, 1};

    expect("launched low", stuck, sizeof stuck, XEMDULBA_DEFAULT_LAUNCH, TURNS, 3, TURNS);
    if (memcmp(lent.answers, expected, TURNS) != 0) {
        fail("launched low", "other answers");
    }
    expect_job("launched low", 1, 1, 0, 4);
}

/* Block 0 starts block 1, which has one step, and there is nothing left. A block with no steps takes no turn. */
static void end_early(void)
{
    static const uint8_t short_book[] = {0x01, 0x03, 0x30, 0x0C, 0x49, 0x01, 0x30, 0x0C, 0x48, 0x09};
    static const uint8_t no_steps[] = {0x01, 0x03, 0x30, 0x0C};

    expect("an early end", short_book, sizeof short_book, 12, TURNS, 2, 2);
    expect_job("an early end", 1, 1, 1, 9);
    expect_refused("fewer answers than turns asked for", go(short_book, sizeof short_book, 12, sizeof lent.cells, TURNS - 1, TURNS),
                   XEMDULBA_REFUSED_ANSWERS, 0);
    expect("as many turns as steps", short_book, sizeof short_book, 12, 2, 2, 2);
    expect("no steps", no_steps, sizeof no_steps, 12, XEMDULBA_MOST_TURNS, 1, 0);
}

static void count_turns(void)
{
    int i;

    expect("no turns", stuck, sizeof stuck, 12, 0, 1, 0);
    expect_job("no turns", 0, 0, 0, 12);
    expect("one turn", stuck, sizeof stuck, 12, 1, 2, 1);
    expect_job("one turn", 0, 0, 1, 12);
    expect("the most turns", stuck, sizeof stuck, 12, XEMDULBA_MOST_TURNS, 3, XEMDULBA_MOST_TURNS);
    for (i = 0; i < XEMDULBA_MOST_TURNS; i++) {
        if (lent.answers[i] != (i < TURNS ? step_answers[i] : 1)) {
            fail("the most turns", "another answer");
        }
    }
}

static void refuse(void)
{
    static const uint8_t no_block[] = {0x01, 0x03};
    const size_t length = sizeof stuck, all = sizeof lent.cells, most = XEMDULBA_MOST_TURNS;

    expect_refused("a turn too many", go(stuck, length, 12, all, most + 1, most + 1), XEMDULBA_REFUSED_TURNS, 0);
    expect_refused("few answers", go(stuck, length, 12, all, TURNS - 1, TURNS), XEMDULBA_REFUSED_ANSWERS, 0);
    expect_refused("no answers", go(stuck, length, 12, all, 0, 1), XEMDULBA_REFUSED_ANSWERS, 0);
    expect_refused("few answers for many turns", go(stuck, length, 12, all, most, most + 1), XEMDULBA_REFUSED_ANSWERS, 0);
    expect_refused("few answers and a high launch", go(stuck, length, 13, all, TURNS - 1, TURNS), XEMDULBA_REFUSED_ANSWERS, 0);
    expect_refused("a high launch", go(stuck, length, 13, all, TURNS, TURNS), XEMDULBA_REFUSED_LAUNCH, 0);
    expect_refused("a launch of 256", go(stuck, length, 256, all, TURNS, TURNS), XEMDULBA_REFUSED_LAUNCH, 0);
    expect_refused("a high launch and many turns", go(stuck, length, 13, all, most + 1, most + 1), XEMDULBA_REFUSED_LAUNCH, 0);
    expect_refused("a short table", go(stuck, length, 13, all - 1, 0, most + 1), XEMDULBA_REFUSED_TABLES, 0);
    expect_refused("all turns there are", go(stuck, length, 12, all, most + 1, UINT32_MAX), XEMDULBA_REFUSED_ANSWERS, 0);
    expect_refused("a book without a block", go(no_block, sizeof no_block, 12, 0, 0, most + 1), XEMDULBA_REFUSED_ORDER, 2);
}

int main(void)
{
    memset(&before, BEFORE, sizeof before);
    if (XEMDULBA_MOST_TURNS != 4096) {
        fail("the most turns", "another number");
    }
    take_turns();
    launch_low();
    end_early();
    count_turns();
    refuse();
    return failures == 0 ? 0 : 1;
}
