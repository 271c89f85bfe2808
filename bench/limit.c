/* The limit: the check, the run and the writer in plain C that works in place, to be timed beside the verified library and the
 * reference. One pass over the book finds whether it can be read and where its parts stand. An event changes the cell and the job that
 * it reaches where they are, and the tables are written once, behind the last event. A book is written in a second pass over its rows,
 * the first having found its length. Nothing is proved of it, and only bench uses it.
 *
 * It serves the bench's inputs, which are not refused. Any refusal has the number 99 and place 0: that one holds is found, but not
 * which, nor where. The answers have the layout of include/xemdulba.h.
 */
#include "xemdulba.h"

#include <stddef.h>
#include <stdint.h>
#include <string.h>

enum { REFUSED = 99 };

enum { TOP_LABEL = 15, LAST_REGISTER = 7, REGISTERS = 8 };

/* The most shapes, cells and blocks of a book, steps of a block, and cells, and jobs, of a run. */
enum { SHAPES = 32, CELLS = 32, BLOCKS = 64, STEPS = 64, TABLE = 64 };

enum { LONGEST_BOOK = 32768, LONGEST_LIST = 65536, VALUE_SIZE = 6 };

/* Kinds of record: C, shapes, a cell, a block, and the steps. */
enum { C = 1, PLAIN_SHAPE = 16, CODE_SHAPE, CELL_SHAPE, CELL = 32, BLOCK = 48 };
enum { PUT = 64, NAME, CODE, ADD, NEW, READ, WRITE, RELABEL, LOWER, START, EXEC, CHOOSE };

/* Kinds of event: a job's step, and the acts of outsiders. */
enum { STEP_EVENT = 80, WRITE_EVENT, RELABEL_EVENT, NEW_EVENT, EXEC_EVENT, START_EVENT };

enum { PLAIN_VALUE, CELL_VALUE, CODE_VALUE };

enum { DONE, BLOCKED, NO_STEP_LEFT, NO_SUCH };

static uint8_t lower_of(uint8_t a, uint8_t b)
{
    return a < b ? a : b;
}

static uint32_t number_at(const uint8_t *bytes)
{
    return (uint32_t)bytes[0] | (uint32_t)bytes[1] << 8 | (uint32_t)bytes[2] << 16 | (uint32_t)bytes[3] << 24;
}

/* ---- Reading: refusals 1 to 6 ---- */

/* The kind, and what this kind has: the bound of code, or a cell's content shape and trust. */
struct shape {
    uint8_t kind, bound, content, trust;
};

/* What reading finds in a book. */
struct outline {
    uint32_t shapes, cells, blocks, steps;
    uint32_t cells_named, blocks_named; /* one more than the largest number that is named */
    uint8_t c;
    struct shape shape[SHAPES];
    const uint8_t *cell[CELLS]; /* its record */
    uint8_t bound[BLOCKS];
    uint16_t start[BLOCKS]; /* the offset of its first step */
};

static int is_cell_shape(const struct outline *outline, uint8_t shape)
{
    return shape < outline->shapes && outline->shape[shape].kind == CELL_SHAPE;
}

/* A cell or a block can be named before it is declared: whether it exists is seen at the end. */
static int note(uint32_t *named, uint32_t number, uint32_t most)
{
    if (*named <= number) {
        *named = number + 1;
    }
    return number < most;
}

/* This and the next two return the length of the record, or 0 if it is at fault. `left` is how many bytes are left of the book. */
static uint32_t read_shape(struct outline *outline, const uint8_t *record, uint32_t left)
{
    struct shape shape = {record[0], 0, 0, 0};
    uint32_t span = 1;

    if (shape.kind == CODE_SHAPE) {
        if (left < 2 || record[1] > TOP_LABEL) {
            return 0;
        }
        shape.bound = record[1];
        span = 2;
    } else if (shape.kind == CELL_SHAPE) {
        if (left < 3 || record[1] >= outline->shapes || record[2] > TOP_LABEL) {
            return 0;
        }
        shape.content = record[1];
        shape.trust = record[2];
        span = 3;
    }
    if (shape.kind < PLAIN_SHAPE || shape.kind > CELL_SHAPE || outline->shapes == SHAPES) {
        return 0;
    }
    outline->shape[outline->shapes++] = shape;
    return span;
}

static uint32_t read_cell(struct outline *outline, const uint8_t *record, uint32_t left)
{
    if (outline->cells == CELLS || left < 8 || !is_cell_shape(outline, record[1]) || record[2] > TOP_LABEL || record[3] > CODE_VALUE) {
        return 0;
    }
    if (record[3] == CELL_VALUE && !note(&outline->cells_named, number_at(record + 4), CELLS)) {
        return 0;
    }
    if (record[3] == CODE_VALUE && !note(&outline->blocks_named, number_at(record + 4), BLOCKS)) {
        return 0;
    }
    outline->cell[outline->cells++] = record;
    return 8;
}

/* If registers are at most 7, so is their or. */
static uint32_t read_step(struct outline *outline, const uint8_t *step, uint32_t left)
{
    switch (step[0]) {
    case PUT:
        return left < 6 || step[1] > LAST_REGISTER ? 0 : 6;
    case NAME:
        return left < 3 || step[1] > LAST_REGISTER || step[2] >= outline->cells ? 0 : 3;
    case CODE:
        return left < 3 || step[1] > LAST_REGISTER || !note(&outline->blocks_named, step[2], BLOCKS) ? 0 : 3;
    case ADD:
        return left < 4 || (step[1] | step[2] | step[3]) > LAST_REGISTER ? 0 : 4;
    case NEW:
        return left < 4 || (step[1] | step[3]) > LAST_REGISTER || !is_cell_shape(outline, step[2]) ? 0 : 4;
    case READ:
    case WRITE:
        return left < 3 || (step[1] | step[2]) > LAST_REGISTER ? 0 : 3;
    case RELABEL:
        return left < 3 || step[1] > LAST_REGISTER || step[2] > TOP_LABEL ? 0 : 3;
    case LOWER:
        return left < 2 || step[1] > TOP_LABEL ? 0 : 2;
    case START:
        return left < 2 || !note(&outline->blocks_named, step[1], BLOCKS) ? 0 : 2;
    case EXEC:
        return left < 2 || step[1] > LAST_REGISTER ? 0 : 2;
    case CHOOSE:
        if (left < 4 || step[1] > LAST_REGISTER) {
            return 0;
        }
        return note(&outline->blocks_named, step[2], BLOCKS) && note(&outline->blocks_named, step[3], BLOCKS) ? 4 : 0;
    default:
        return 0;
    }
}

/* The offset behind the steps of a block, or 0 if one is at fault. */
static uint32_t read_steps(struct outline *outline, const uint8_t *book, uint32_t length, uint32_t at)
{
    uint32_t steps = 0;

    for (; at < length && book[at] != BLOCK; steps++) {
        uint32_t span = read_step(outline, book + at, length - at);
        if (span == 0 || steps == STEPS) {
            return 0;
        }
        at += span;
    }
    outline->steps += steps;
    return at;
}

/* Reads the blocks, with which a book ends; 0 if a record is at fault. */
static int read_blocks(struct outline *outline, const uint8_t *book, uint32_t length, uint32_t at)
{
    while (at < length) {
        if (book[at] != BLOCK || length - at < 2 || book[at + 1] > TOP_LABEL || outline->blocks == BLOCKS) {
            return 0;
        }
        outline->bound[outline->blocks] = book[at + 1];
        outline->start[outline->blocks] = (uint16_t)(at + 2);
        outline->blocks++;
        at = read_steps(outline, book, length, at + 2);
        if (at == 0) {
            return 0;
        }
    }
    return outline->blocks > 0 && outline->blocks_named <= outline->blocks;
}

/* Reads a book; 0 if it is refused. */
static int read_book(struct outline *outline, const uint8_t *book, size_t book_length)
{
    uint32_t length = (uint32_t)book_length, at = 2, span;

    if (book_length < 2 || book_length > LONGEST_BOOK || book[0] != C || book[1] >= TOP_LABEL) {
        return 0;
    }
    outline->c = book[1];
    outline->shapes = outline->cells = outline->blocks = outline->steps = 0;
    outline->cells_named = outline->blocks_named = 0;
    for (; at < length && book[at] < CELL; at += span) {
        span = read_shape(outline, book + at, length - at);
        if (span == 0) {
            return 0;
        }
    }
    for (; at < length && book[at] == CELL; at += span) {
        span = read_cell(outline, book + at, length - at);
        if (span == 0) {
            return 0;
        }
    }
    return outline->cells_named <= outline->cells && read_blocks(outline, book, length, at);
}

/* ---- Checking: refusals 7 and 8 ---- */

/* What is known of a register: the kind of its shape, with the bound of code or the number of a cell shape, and its effect. */
struct known {
    uint8_t kind, bound, shape, effect;
};

/* A low effect means unknown shape. */
static const struct known LOW = {0, 0, 0, 0};

/* A block before one of its steps. */
struct typing {
    const struct outline *outline;
    uint8_t p;
    uint8_t lowered; /* whether a lower stands before the step */
    struct known registers[REGISTERS];
};

/* Typing a step gives one of these, or its length if it passes. */
enum { BREAKS = 0, STUCK = 1 };

/* A trust at or below C counts as 0. */
static uint8_t counted(const struct outline *outline, uint8_t trust)
{
    return trust > outline->c ? trust : 0;
}

static struct known with_effect(const struct outline *outline, uint8_t effect, struct known known)
{
    known.effect = effect;
    return effect > outline->c ? known : LOW;
}

/* Contents are lower-numbered, so this ends. */
static int alike(const struct outline *outline, uint8_t one, uint8_t other)
{
    while (one != other) {
        const struct shape *a = &outline->shape[one], *b = &outline->shape[other];
        if (a->kind != b->kind || a->bound != b->bound || counted(outline, a->trust) != counted(outline, b->trust)) {
            return 0;
        }
        if (a->kind != CELL_SHAPE) {
            return 1;
        }
        one = a->content;
        other = b->content;
    }
    return 1;
}

static int fits(const struct outline *outline, struct known value, uint8_t content)
{
    const struct shape *shape = &outline->shape[content];

    if (value.kind != shape->kind) {
        return 0;
    }
    return value.kind == CELL_SHAPE ? alike(outline, value.shape, content) : shape->bound <= value.bound;
}

/* A declared cell of trust above C needs label at least trust and a fitting value. */
static int type_cell(const struct outline *outline, const uint8_t *record)
{
    const struct shape *shape = &outline->shape[record[1]];
    struct known value = {PLAIN_SHAPE, 0, 0, TOP_LABEL};

    if (shape->trust <= outline->c) {
        return 1;
    }
    if (record[3] == CELL_VALUE) {
        value.kind = CELL_SHAPE;
        value.shape = outline->cell[number_at(record + 4)][1];
    } else if (record[3] == CODE_VALUE) {
        value.kind = CODE_SHAPE;
        value.bound = outline->bound[number_at(record + 4)];
    }
    return record[2] >= shape->trust && fits(outline, value, shape->content);
}

static uint32_t type_add(struct typing *typing, const uint8_t *step)
{
    const struct outline *outline = typing->outline;
    const struct known a = typing->registers[step[2]], b = typing->registers[step[3]], sum = {PLAIN_SHAPE, 0, 0, 0};

    if ((a.effect > outline->c && a.kind != PLAIN_SHAPE) || (b.effect > outline->c && b.kind != PLAIN_SHAPE)) {
        return BREAKS;
    }
    typing->registers[step[1]] = with_effect(outline, lower_of(lower_of(a.effect, b.effect), typing->p), sum);
    return 4;
}

/* The value of a register may be stored in a cell of this shape, whose trust S is above C. */
static int may_hold(const struct typing *typing, const struct shape *shape, uint8_t s, uint8_t number)
{
    const struct known value = typing->registers[number];

    return s <= lower_of(value.effect, typing->p) && fits(typing->outline, value, shape->content);
}

static uint32_t type_new(struct typing *typing, const uint8_t *step)
{
    const struct shape *shape = &typing->outline->shape[step[2]];
    uint8_t s = counted(typing->outline, shape->trust);

    if (s > 0 && !(typing->lowered && may_hold(typing, shape, s, step[3]))) {
        return BREAKS;
    }
    typing->registers[step[1]] = (struct known){CELL_SHAPE, 0, step[2], typing->p};
    return 4;
}

static uint32_t type_read(struct typing *typing, const uint8_t *step)
{
    const struct outline *outline = typing->outline;
    const struct known w = typing->registers[step[2]];
    struct known *result = &typing->registers[step[1]];

    if (w.effect <= outline->c) {
        *result = LOW;
        return 3;
    }
    if (w.kind != CELL_SHAPE) {
        return BREAKS;
    }
    const struct shape *shape = &outline->shape[w.shape], *content = &outline->shape[shape->content];
    const struct known read = {content->kind, content->bound, shape->content, 0};
    *result = with_effect(outline, lower_of(counted(outline, shape->trust), typing->p), read);
    return 3;
}

/* Write, relabel and exec need w a cell with used effect above C. S is the trust of its shape. */
static uint32_t type_access(const struct typing *typing, const uint8_t *step)
{
    const struct outline *outline = typing->outline;
    const struct known w = typing->registers[step[1]];
    uint8_t p = typing->p;

    if (w.kind != CELL_SHAPE || lower_of(w.effect, p) <= outline->c) {
        return BREAKS;
    }
    const struct shape *shape = &outline->shape[w.shape], *content = &outline->shape[shape->content];
    uint8_t s = counted(outline, shape->trust);
    switch (step[0]) {
    case WRITE:
        if (p < s) {
            return STUCK;
        }
        return s == 0 || may_hold(typing, shape, s, step[2]) ? 3 : BREAKS;
    case RELABEL:
        if (p < s || p < step[2]) {
            return STUCK;
        }
        return s <= step[2] ? 3 : BREAKS;
    default:
        return content->kind == CODE_SHAPE && content->bound >= p && s >= p ? 2 : BREAKS;
    }
}

static uint32_t type_lower(struct typing *typing, uint8_t q)
{
    if (q > typing->p && q > typing->outline->c) {
        return STUCK;
    }
    typing->p = q;
    typing->lowered = 1;
    return 2;
}

/* Both bounds are at least P, and r is plain unless its effect is low. */
static uint32_t type_choose(const struct typing *typing, const uint8_t *step)
{
    const struct outline *outline = typing->outline;
    const struct known r = typing->registers[step[1]];

    if (outline->bound[step[2]] < typing->p || outline->bound[step[3]] < typing->p) {
        return BREAKS;
    }
    return r.effect <= outline->c || r.kind == PLAIN_SHAPE ? 4 : BREAKS;
}

/* With P at or below C every step passes, except new with trust above C; results are low. */
static uint32_t type_low_step(struct typing *typing, const uint8_t *step)
{
    const struct outline *outline = typing->outline;

    switch (step[0]) {
    case PUT:
        typing->registers[step[1]] = LOW;
        return 6;
    case NAME:
    case CODE:
    case READ:
        typing->registers[step[1]] = LOW;
        return 3;
    case NEW:
    case ADD:
        typing->registers[step[1]] = LOW;
        return step[0] == NEW && outline->shape[step[2]].trust > outline->c ? BREAKS : 4;
    case WRITE:
    case RELABEL:
        return 3;
    case LOWER:
        return type_lower(typing, step[1]);
    case CHOOSE:
        return 4;
    default:
        return 2;
    }
}

/* With P above C. */
static uint32_t type_step(struct typing *typing, const uint8_t *step)
{
    const struct outline *outline = typing->outline;
    uint8_t p = typing->p;

    switch (step[0]) {
    case PUT:
        typing->registers[step[1]] = (struct known){PLAIN_SHAPE, 0, 0, p};
        return 6;
    case NAME:
        typing->registers[step[1]] = (struct known){CELL_SHAPE, 0, outline->cell[step[2]][1], p};
        return 3;
    case CODE:
        typing->registers[step[1]] = (struct known){CODE_SHAPE, outline->bound[step[2]], 0, p};
        return 3;
    case ADD:
        return type_add(typing, step);
    case NEW:
        return type_new(typing, step);
    case READ:
        return type_read(typing, step);
    case LOWER:
        return type_lower(typing, step[1]);
    case START:
        return outline->bound[step[1]] >= p ? 2 : BREAKS;
    case CHOOSE:
        return type_choose(typing, step);
    default:
        return type_access(typing, step);
    }
}

/* Whether no step of a block breaks its rule. After a stuck step the rest of the block passes. */
static int type_block(const struct outline *outline, uint8_t bound, const uint8_t *step, const uint8_t *end)
{
    const struct known plain = {PLAIN_SHAPE, 0, 0, 0};
    struct typing typing = {outline, bound, 0, {{0, 0, 0, 0}}};

    for (int i = 0; i < REGISTERS; i++) {
        typing.registers[i] = with_effect(outline, bound, plain);
    }
    while (step < end && *step != BLOCK) {
        uint32_t span = typing.p > outline->c ? type_step(&typing, step) : type_low_step(&typing, step);
        if (span <= STUCK) {
            return span == STUCK;
        }
        step += span;
    }
    return 1;
}

struct xemdulba_checked limit_check(const uint8_t *book, size_t length)
{
    const struct xemdulba_checked refused = {REFUSED, 0, 0, 0, 0, 0};
    struct outline outline;

    if (!read_book(&outline, book, length)) {
        return refused;
    }
    for (uint32_t i = 0; i < outline.cells; i++) {
        if (!type_cell(&outline, outline.cell[i])) {
            return refused;
        }
    }
    for (uint32_t i = 0; i < outline.blocks; i++) {
        if (!type_block(&outline, outline.bound[i], book + outline.start[i], book + length)) {
            return refused;
        }
    }
    return (struct xemdulba_checked){0, 0, outline.shapes, outline.cells, outline.blocks, outline.steps};
}

/* ---- Running: refusals 9 to 11, 14 and 15, and the machine ---- */

/* The source is the lowest label of the history, which is not kept. */
struct value {
    uint32_t number;
    uint8_t kind, source;
};

struct cell {
    struct value value;
    uint8_t shape, label;
};

struct job {
    uint16_t next; /* the offset of its next step, or of what stands behind its last */
    uint8_t block, position, label, source;
    struct value registers[REGISTERS];
};

struct machine {
    const uint8_t *book;
    size_t length;
    uint32_t cells, jobs;
    struct outline outline;
    struct cell cell[TABLE];
    struct job job[TABLE];
};

/* An act appends the actor's history to the value's. */
static struct value touched(struct value value, uint8_t source)
{
    value.source = lower_of(value.source, source);
    return value;
}

/* Makes a cell; 0 if none fits. */
static int make_cell(struct machine *machine, uint8_t shape, uint8_t label, struct value value)
{
    if (machine->cells == TABLE) {
        return 0;
    }
    machine->cell[machine->cells++] = (struct cell){value, shape, label};
    return 1;
}

/* Starts a job; 0 if none fits. */
static int start_job(struct machine *machine, uint32_t block, uint8_t label, uint8_t source)
{
    if (machine->jobs == TABLE) {
        return 0;
    }
    struct job *job = &machine->job[machine->jobs++];
    job->next = machine->outline.start[block];
    job->block = (uint8_t)block;
    job->position = 0;
    job->label = label;
    job->source = source;
    for (int i = 0; i < REGISTERS; i++) {
        job->registers[i] = (struct value){0, PLAIN_VALUE, source};
    }
    return 1;
}

/* Starts the code in a cell for an actor of this label and source; 0 if it holds none, or no job fits. */
static int exec_cell(struct machine *machine, const struct cell *cell, uint8_t label, uint8_t source)
{
    uint8_t low = lower_of(label, cell->label);

    if (cell->value.kind != CODE_VALUE) {
        return 0;
    }
    return start_job(machine, cell->value.number, low, lower_of(touched(cell->value, source).source, low));
}

/* The steps. Each returns its length, or 0 if it is blocked. */

/* Gives a register a value of the job's own, in a step of this length. */
static uint32_t give(struct job *job, uint8_t number, uint8_t kind, uint32_t given, uint32_t length)
{
    job->registers[number] = (struct value){given, kind, job->source};
    return length;
}

/* A sum that has more than 32 bits is blocked. */
static uint32_t step_add(struct job *job, const uint8_t *step)
{
    const struct value a = job->registers[step[2]], b = job->registers[step[3]];

    if (a.kind != PLAIN_VALUE || b.kind != PLAIN_VALUE || a.number > UINT32_MAX - b.number) {
        return 0;
    }
    const struct value sum = {a.number + b.number, PLAIN_VALUE, lower_of(a.source, b.source)};
    job->registers[step[1]] = touched(sum, job->source);
    return 4;
}

static uint32_t step_new(struct machine *machine, struct job *job, const uint8_t *step)
{
    uint32_t made = machine->cells;

    if (!make_cell(machine, step[2], job->label, touched(job->registers[step[3]], job->source))) {
        return 0;
    }
    return give(job, step[1], CELL_VALUE, made, 4);
}

static uint32_t step_read(const struct machine *machine, struct job *job, const uint8_t *step)
{
    const struct value w = job->registers[step[2]];

    if (w.kind != CELL_VALUE) {
        return 0;
    }
    job->registers[step[1]] = touched(machine->cell[w.number].value, job->source);
    return 3;
}

static uint32_t step_write(struct machine *machine, const struct job *job, const uint8_t *step)
{
    const struct value w = job->registers[step[1]];

    if (w.kind != CELL_VALUE || machine->cell[w.number].label > job->label) {
        return 0;
    }
    machine->cell[w.number].value = touched(job->registers[step[2]], job->source);
    return 3;
}

static uint32_t step_relabel(struct machine *machine, const struct job *job, const uint8_t *step)
{
    const struct value w = job->registers[step[1]];

    if (w.kind != CELL_VALUE || machine->cell[w.number].label > job->label || step[2] > job->label) {
        return 0;
    }
    machine->cell[w.number].label = step[2];
    return 3;
}

static uint32_t step_lower(struct job *job, uint8_t q)
{
    if (q > job->label) {
        return 0;
    }
    job->label = q;
    job->source = lower_of(job->source, q);
    return 2;
}

static uint32_t step_exec(struct machine *machine, const struct job *job, const uint8_t *step)
{
    const struct value w = job->registers[step[1]];

    return w.kind == CELL_VALUE && exec_cell(machine, &machine->cell[w.number], job->label, job->source) ? 2 : 0;
}

static uint32_t step_choose(struct machine *machine, const struct job *job, const uint8_t *step)
{
    const struct value r = job->registers[step[1]];

    return r.kind == PLAIN_VALUE && start_job(machine, step[r.number != 0 ? 2 : 3], job->label, job->source) ? 4 : 0;
}

static uint32_t take_step(struct machine *machine, struct job *job, const uint8_t *step)
{
    switch (step[0]) {
    case PUT:
        return give(job, step[1], PLAIN_VALUE, number_at(step + 2), 6);
    case NAME:
        return give(job, step[1], CELL_VALUE, step[2], 3);
    case CODE:
        return give(job, step[1], CODE_VALUE, step[2], 3);
    case ADD:
        return step_add(job, step);
    case NEW:
        return step_new(machine, job, step);
    case READ:
        return step_read(machine, job, step);
    case WRITE:
        return step_write(machine, job, step);
    case RELABEL:
        return step_relabel(machine, job, step);
    case LOWER:
        return step_lower(job, step[1]);
    case START:
        return start_job(machine, step[1], job->label, job->source) ? 2 : 0;
    case CHOOSE:
        return step_choose(machine, job, step);
    default:
        return step_exec(machine, job, step);
    }
}

/* The events. Each returns its answer. An outsider's Q is event[1], and the cell, block or shape is event[2]. */

static uint8_t step_event(struct machine *machine, uint8_t number)
{
    if (number >= machine->jobs) {
        return NO_SUCH;
    }
    struct job *job = &machine->job[number];
    const uint8_t *step = machine->book + job->next;
    if (job->next == machine->length || *step == BLOCK) {
        return NO_STEP_LEFT;
    }
    uint32_t span = take_step(machine, job, step);
    if (span == 0) {
        return BLOCKED;
    }
    job->next = (uint16_t)(job->next + span);
    job->position++;
    return DONE;
}

static int cell_exists(const struct machine *machine, const uint8_t *event)
{
    return event[1] <= machine->outline.c && event[2] < machine->cells;
}

static struct value brought(const uint8_t *event)
{
    return (struct value){number_at(event + 4), event[3], event[1]};
}

static int value_exists(const struct machine *machine, struct value value)
{
    switch (value.kind) {
    case PLAIN_VALUE:
        return 1;
    case CELL_VALUE:
        return value.number < machine->cells;
    case CODE_VALUE:
        return value.number < machine->outline.blocks;
    default:
        return 0;
    }
}

static uint8_t write_event(struct machine *machine, const uint8_t *event)
{
    if (!cell_exists(machine, event) || !value_exists(machine, brought(event))) {
        return NO_SUCH;
    }
    if (machine->cell[event[2]].label > event[1]) {
        return BLOCKED;
    }
    machine->cell[event[2]].value = brought(event);
    return DONE;
}

static uint8_t relabel_event(struct machine *machine, const uint8_t *event)
{
    if (!cell_exists(machine, event) || event[3] > TOP_LABEL) {
        return NO_SUCH;
    }
    if (machine->cell[event[2]].label > event[1] || event[3] > event[1]) {
        return BLOCKED;
    }
    machine->cell[event[2]].label = event[3];
    return DONE;
}

static uint8_t new_event(struct machine *machine, const uint8_t *event)
{
    const struct outline *outline = &machine->outline;

    if (event[1] > outline->c || !is_cell_shape(outline, event[2]) || outline->shape[event[2]].trust > outline->c ||
        !value_exists(machine, brought(event))) {
        return NO_SUCH;
    }
    return make_cell(machine, event[2], event[1], brought(event)) ? DONE : BLOCKED;
}

static uint8_t exec_event(struct machine *machine, const uint8_t *event)
{
    if (!cell_exists(machine, event)) {
        return NO_SUCH;
    }
    return exec_cell(machine, &machine->cell[event[2]], event[1], event[1]) ? DONE : BLOCKED;
}

static uint8_t start_event(struct machine *machine, const uint8_t *event)
{
    if (event[1] > machine->outline.c || event[2] >= machine->outline.blocks) {
        return NO_SUCH;
    }
    return start_job(machine, event[2], event[1], event[1]) ? DONE : BLOCKED;
}

/* How many events a list has, in `count`; 0 if it is refused. Steps have a branch of their own, so that the processor reads on before
 * it knows the kind. */
static int count_events(const uint8_t *list, size_t length, size_t *count)
{
    size_t at = 0, events = 0;

    if (length > LONGEST_LIST) {
        return 0;
    }
    for (; at < length; events++) {
        uint8_t kind = list[at];
        if (kind == STEP_EVENT) {
            at += 2;
            continue;
        }
        if (kind < STEP_EVENT || kind > START_EVENT) {
            return 0;
        }
        at += kind == WRITE_EVENT || kind == NEW_EVENT ? 8 : kind == RELABEL_EVENT ? 4 : 3;
    }
    *count = events;
    return at == length;
}

/* Answers each event of the list. */
static void play(struct machine *machine, const uint8_t *event, const uint8_t *end, uint8_t *answer)
{
    for (; event < end; answer++) {
        if (__builtin_expect(event[0] == STEP_EVENT, 1)) {
            *answer = step_event(machine, event[1]);
            event += 2;
            continue;
        }
        switch (event[0]) {
        case WRITE_EVENT:
            *answer = write_event(machine, event);
            event += 8;
            break;
        case RELABEL_EVENT:
            *answer = relabel_event(machine, event);
            event += 4;
            break;
        case NEW_EVENT:
            *answer = new_event(machine, event);
            event += 8;
            break;
        case EXEC_EVENT:
            *answer = exec_event(machine, event);
            event += 3;
            break;
        default:
            *answer = start_event(machine, event);
            event += 3;
        }
    }
}

/* The launch label, or the default. */
static uint32_t launch_label(const struct outline *outline, uint32_t launch)
{
    return launch == XEMDULBA_DEFAULT_LAUNCH ? lower_of(outline->c + 1, outline->bound[0]) : launch;
}

/* The declared cells, and job 0. */
static void begin(struct machine *machine, const uint8_t *book, size_t length, uint8_t launch)
{
    const struct outline *outline = &machine->outline;

    machine->book = book;
    machine->length = length;
    machine->cells = machine->jobs = 0;
    for (uint32_t i = 0; i < outline->cells; i++) {
        const uint8_t *record = outline->cell[i];
        make_cell(machine, record[1], record[2], (struct value){number_at(record + 4), record[3], TOP_LABEL});
    }
    start_job(machine, 0, launch, launch);
}

static void store_value(uint8_t *field, struct value value)
{
    field[0] = value.kind;
    field[1] = (uint8_t)value.number;
    field[2] = (uint8_t)(value.number >> 8);
    field[3] = (uint8_t)(value.number >> 16);
    field[4] = (uint8_t)(value.number >> 24);
    field[5] = value.source;
}

static void store_cells(const struct machine *machine, uint8_t *cells)
{
    uint8_t *record = cells, *end = cells + XEMDULBA_CELLS_SIZE;

    for (uint32_t i = 0; i < machine->cells; i++, record += XEMDULBA_CELL_SIZE) {
        const struct cell *cell = &machine->cell[i];
        record[0] = cell->shape;
        record[1] = machine->outline.shape[cell->shape].trust;
        record[2] = cell->label;
        store_value(record + 3, cell->value);
    }
    memset(record, 0, (size_t)(end - record));
}

static void store_jobs(const struct machine *machine, uint8_t *jobs)
{
    uint8_t *record = jobs, *end = jobs + XEMDULBA_JOBS_SIZE;

    for (uint32_t i = 0; i < machine->jobs; i++, record += XEMDULBA_JOB_SIZE) {
        const struct job *job = &machine->job[i];
        record[0] = job->block;
        record[1] = job->position;
        record[2] = job->label;
        record[3] = job->source;
        for (int number = 0; number < REGISTERS; number++) {
            store_value(record + 4 + number * VALUE_SIZE, job->registers[number]);
        }
    }
    memset(record, 0, (size_t)(end - record));
}

struct xemdulba_ran limit_run(const uint8_t *book, size_t length, uint32_t launch, const uint8_t *list, size_t list_length,
                              uint8_t *cells, size_t cells_length, uint8_t *jobs, size_t jobs_length, uint8_t *answers,
                              size_t answers_length)
{
    const struct xemdulba_ran refused = {REFUSED, 0, 0, 0};
    struct machine machine;
    size_t events;

    if (!read_book(&machine.outline, book, length) || !count_events(list, list_length, &events) ||
        cells_length != XEMDULBA_CELLS_SIZE || jobs_length != XEMDULBA_JOBS_SIZE || answers_length < events) {
        return refused;
    }
    launch = launch_label(&machine.outline, launch);
    if (launch > machine.outline.bound[0]) {
        return refused;
    }
    begin(&machine, book, length, (uint8_t)launch);
    play(&machine, list, list + list_length, answers);
    store_cells(&machine, cells);
    store_jobs(&machine, jobs);
    return (struct xemdulba_ran){0, 0, machine.cells, machine.jobs};
}

static int has_step(const struct machine *machine, uint32_t number)
{
    const struct job *job = &machine->job[number];

    return job->next != machine->length && machine->book[job->next] != BLOCK;
}

/* The next job with a step left, from this one on; the jobs in use if there is none. */
static uint32_t next_job(const struct machine *machine, uint32_t first)
{
    for (uint32_t i = first; i < machine->jobs; i++) {
        if (has_step(machine, i)) {
            return i;
        }
    }
    for (uint32_t i = 0; i < first; i++) {
        if (has_step(machine, i)) {
            return i;
        }
    }
    return machine->jobs;
}

/* Takes so many turns, or as many as there are. How many. */
static uint32_t take_turns(struct machine *machine, uint32_t turns, uint8_t *answers)
{
    uint32_t first = 0;

    for (uint32_t turn = 0; turn < turns; turn++) {
        const uint32_t job = next_job(machine, first);
        if (job == machine->jobs) {
            return turn;
        }
        answers[turn] = step_event(machine, (uint8_t)job);
        first = job + 1;
    }
    return turns;
}

struct xemdulba_rounded limit_round(const uint8_t *book, size_t length, uint32_t launch, uint8_t *cells, size_t cells_length,
                                    uint8_t *jobs, size_t jobs_length, uint8_t *answers, size_t answers_length, uint32_t turns)
{
    const struct xemdulba_rounded refused = {REFUSED, 0, 0, 0, 0};
    struct machine machine;

    if (!read_book(&machine.outline, book, length) || cells_length != XEMDULBA_CELLS_SIZE || jobs_length != XEMDULBA_JOBS_SIZE ||
        answers_length < turns || turns > XEMDULBA_MOST_TURNS) {
        return refused;
    }
    launch = launch_label(&machine.outline, launch);
    if (launch > machine.outline.bound[0]) {
        return refused;
    }
    begin(&machine, book, length, (uint8_t)launch);
    const uint32_t used = take_turns(&machine, turns, answers);
    store_cells(&machine, cells);
    store_jobs(&machine, jobs);
    return (struct xemdulba_rounded){0, 0, machine.cells, machine.jobs, used};
}

/* ---- Writing: refusals 1 to 6 of tables, and 13 ---- */

/* The tables, and how many rows each has. */
struct rows {
    const uint8_t *shape, *cell, *block, *step;
    size_t shapes, cells, blocks, steps;
};

/* The bits that each byte of a step's row may have, from put to choose: those of a register or a label, all of a name or a number, and none
 * of what is not used. */
static const uint8_t STEP_BITS[][XEMDULBA_STEP_ROW] = {
    {255, 7, 0, 0, 255, 255, 255, 255},
    {255, 7, 255, 0, 0, 0, 0, 0},
    {255, 7, 255, 0, 0, 0, 0, 0},
    {255, 7, 7, 7, 0, 0, 0, 0},
    {255, 7, 255, 7, 0, 0, 0, 0},
    {255, 7, 7, 0, 0, 0, 0, 0},
    {255, 7, 7, 0, 0, 0, 0, 0},
    {255, 7, 15, 0, 0, 0, 0, 0},
    {255, 15, 0, 0, 0, 0, 0, 0},
    {255, 255, 0, 0, 0, 0, 0, 0},
    {255, 7, 0, 0, 0, 0, 0, 0},
    {255, 7, 255, 255, 0, 0, 0, 0},
};

static const uint8_t STEP_LENGTHS[] = {6, 3, 3, 4, 4, 3, 3, 3, 2, 2, 2, 4};

static uint64_t eight_bytes(const uint8_t *bytes)
{
    uint64_t eight;

    memcpy(&eight, bytes, sizeof eight);
    return eight;
}

static int names_cell_shape(const struct rows *rows, uint8_t shape)
{
    return shape < rows->shapes && rows->shape[shape * XEMDULBA_SHAPE_ROW] == CELL_SHAPE;
}

/* This and the next two return the length of the record, or 0 if the row is at fault. */
static uint32_t shape_length(const uint8_t *row, size_t own)
{
    switch (row[0]) {
    case PLAIN_SHAPE:
        return (row[1] | row[2]) != 0 ? 0 : 1;
    case CODE_SHAPE:
        return row[1] > TOP_LABEL || row[2] != 0 ? 0 : 2;
    case CELL_SHAPE:
        return row[1] >= own || row[2] > TOP_LABEL ? 0 : 3;
    default:
        return 0;
    }
}

static uint32_t cell_length(const struct rows *rows, const uint8_t *row)
{
    uint32_t number = number_at(row + 3);

    if (!names_cell_shape(rows, row[0]) || row[1] > TOP_LABEL || row[2] > CODE_VALUE) {
        return 0;
    }
    return (row[2] == CELL_VALUE && number >= rows->cells) || (row[2] == CODE_VALUE && number >= rows->blocks) ? 0 : 8;
}

static uint32_t step_length(const struct rows *rows, const uint8_t *row)
{
    uint32_t kind = row[0] - (uint32_t)PUT;

    if (kind > CHOOSE - PUT || (eight_bytes(row) & ~eight_bytes(STEP_BITS[kind])) != 0) {
        return 0;
    }
    if ((row[0] == NAME && row[2] >= rows->cells) || (row[0] == CODE && row[2] >= rows->blocks) ||
        (row[0] == NEW && !names_cell_shape(rows, row[2])) || (row[0] == START && row[1] >= rows->blocks) ||
        (row[0] == CHOOSE && (row[2] >= rows->blocks || row[3] >= rows->blocks))) {
        return 0;
    }
    return STEP_LENGTHS[kind];
}

/* The length of the records of the shapes and cells, with C's, or 0 if a row is at fault. */
static uint32_t declared_length(const struct rows *rows)
{
    uint32_t length = 2, span;

    for (size_t own = 0; own < rows->shapes; own++, length += span) {
        span = shape_length(rows->shape + own * XEMDULBA_SHAPE_ROW, own);
        if (span == 0) {
            return 0;
        }
    }
    for (size_t own = 0; own < rows->cells; own++, length += span) {
        span = cell_length(rows, rows->cell + own * XEMDULBA_CELL_ROW);
        if (span == 0) {
            return 0;
        }
    }
    return length;
}

/* The length of the records of the blocks and steps, or 0 if a row or a count is at fault. */
static uint32_t counted_length(const struct rows *rows)
{
    const uint8_t *step = rows->step, *end = rows->step + rows->steps * XEMDULBA_STEP_ROW;
    uint32_t length = 0;

    for (size_t own = 0; own < rows->blocks; own++) {
        const uint8_t *row = rows->block + own * XEMDULBA_BLOCK_ROW;
        uint32_t count = number_at(row + 1);
        if (row[0] > TOP_LABEL || count > STEPS || count > (size_t)(end - step) / XEMDULBA_STEP_ROW) {
            return 0;
        }
        length += 2;
        for (const uint8_t *last = step + count * XEMDULBA_STEP_ROW; step < last; step += XEMDULBA_STEP_ROW) {
            uint32_t span = step_length(rows, step);
            if (span == 0) {
                return 0;
            }
            length += span;
        }
    }
    return step == end ? length : 0;
}

/* Writes the record of a step, and returns the place behind it. */
static uint8_t *write_step(uint8_t *out, const uint8_t *row)
{
    switch (row[0]) {
    case PUT:
        memcpy(out, row, 2);
        memcpy(out + 2, row + 4, 4);
        return out + 6;
    case ADD:
    case NEW:
    case CHOOSE:
        memcpy(out, row, 4);
        return out + 4;
    case LOWER:
    case START:
    case EXEC:
        memcpy(out, row, 2);
        return out + 2;
    default:
        memcpy(out, row, 3);
        return out + 3;
    }
}

static uint8_t *write_declared(uint8_t *out, const struct rows *rows)
{
    for (size_t own = 0; own < rows->shapes; own++) {
        const uint8_t *row = rows->shape + own * XEMDULBA_SHAPE_ROW;
        uint32_t span = row[0] - (uint32_t)PLAIN_SHAPE + 1;
        memcpy(out, row, span);
        out += span;
    }
    for (size_t own = 0; own < rows->cells; own++) {
        out[0] = CELL;
        memcpy(out + 1, rows->cell + own * XEMDULBA_CELL_ROW, XEMDULBA_CELL_ROW);
        out += 1 + XEMDULBA_CELL_ROW;
    }
    return out;
}

static void write_blocks(uint8_t *out, const struct rows *rows)
{
    const uint8_t *step = rows->step;

    for (size_t own = 0; own < rows->blocks; own++) {
        const uint8_t *row = rows->block + own * XEMDULBA_BLOCK_ROW;
        const uint8_t *last = step + number_at(row + 1) * XEMDULBA_STEP_ROW;
        out[0] = BLOCK;
        out[1] = row[0];
        out += 2;
        for (; step < last; step += XEMDULBA_STEP_ROW) {
            out = write_step(out, step);
        }
    }
}

struct xemdulba_written limit_write(uint32_t c, const uint8_t *shapes, size_t shapes_length, const uint8_t *cells, size_t cells_length,
                                    const uint8_t *blocks, size_t blocks_length, const uint8_t *steps, size_t steps_length,
                                    uint8_t *out, size_t out_length)
{
    const struct xemdulba_written refused = {REFUSED, 0, 0};
    const struct rows rows = {
        shapes,
        cells,
        blocks,
        steps,
        shapes_length / XEMDULBA_SHAPE_ROW,
        cells_length / XEMDULBA_CELL_ROW,
        blocks_length / XEMDULBA_BLOCK_ROW,
        steps_length / XEMDULBA_STEP_ROW,
    };

    if (c >= TOP_LABEL || rows.shapes > SHAPES || rows.cells > CELLS || rows.blocks == 0 || rows.blocks > BLOCKS) {
        return refused;
    }
    uint32_t declared = declared_length(&rows), behind = counted_length(&rows);
    if (declared == 0 || behind == 0 || declared + behind > out_length) {
        return refused;
    }
    out[0] = C;
    out[1] = (uint8_t)c;
    write_blocks(write_declared(out + 2, &rows), &rows);
    return (struct xemdulba_written){0, 0, declared + behind};
}
