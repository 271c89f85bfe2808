"""The sample books and runs of document 01, the tables of docs/FORMAT.md, the books that are written by document 02's request one, the
launch labels of its request three, the step choose of its request four, the rounds of its request six, and what the module accepts."""

import array
import ctypes
import mmap
import os
import pickle
import re
import unittest
from pathlib import Path
from unittest import mock

import xemdulba
from xemdulba import Answer, BlockRow, BookTables, Cell, CellRow, Fields, Kind, Refusal, ShapeRow, StepRow, Value, _library

SOURCES = Path(__file__).resolve().parents[2]
HEADER = (SOURCES / "include" / "xemdulba.h").read_text(encoding="utf-8")
LIBRARY = (SOURCES / "docs" / "LIBRARY.md").read_text(encoding="utf-8")
FORMAT = (SOURCES / "docs" / "FORMAT.md").read_text(encoding="utf-8")

BOOK_A = bytes.fromhex("01 03  10  12 00 09  20 01 09 00 05 00 00 00  30 0C  41 00 00  40 01 07 00 00 00  46 00 01")
BOOK_A2 = BOOK_A[:15] + b"\x08" + BOOK_A[16:]
BOOK_A6 = BOOK_A[:25] + bytes.fromhex("47 00 08")
FOUR_STEPS = bytes.fromhex("50 00 50 00 50 00 50 00")


def run_at_bound(book, events):
    """A run with "job 0 runs block 0 at its bound": 01's runs relied on it, so they pass it."""
    return xemdulba.run(book, events, xemdulba.bound(book))


class Refusing(unittest.TestCase):
    def assert_refused(self, number, place, call, *arguments):
        with self.assertRaises(Refusal) as caught:
            call(*arguments)
        self.assertEqual((caught.exception.number, caught.exception.place), (number, place))
        self.assertEqual(str(caught.exception), f"refused {number} at {place}")


class Samples(Refusing):
    def test_book_a_is_accepted_with_its_counts(self):
        counts = xemdulba.check(BOOK_A)
        self.assertEqual(counts, (2, 1, 1, 3))
        self.assertEqual(str(counts), "accepted shapes 2 cells 1 blocks 1 steps 3")

    def test_a6_is_refused_at_its_last_step(self):
        self.assert_refused(8, 25, xemdulba.check, BOOK_A6)

    def test_the_empty_book_is_refused(self):
        self.assert_refused(3, 0, xemdulba.check, b"")
        self.assert_refused(3, 0, run_at_bound, b"", b"")
        self.assert_refused(3, 0, xemdulba.stretch, b"", 0)

    def test_a_stretch_is_the_steps_of_its_block(self):
        self.assertEqual(xemdulba.stretch(BOOK_A, 0), BOOK_A[16:])
        self.assertEqual(xemdulba.stretch_range(BOOK_A, 0), range(16, 28))
        self.assert_refused(12, 0, xemdulba.stretch, BOOK_A, 1)
        self.assert_refused(12, 0, xemdulba.stretch, BOOK_A, 2**32 - 1)

    def test_four_steps_of_book_a(self):
        run = run_at_bound(BOOK_A, FOUR_STEPS)
        self.assertEqual(run.answers, (Answer.DONE, Answer.DONE, Answer.DONE, Answer.NO_STEP_LEFT))
        self.assertEqual(run.cells, (Cell(1, 9, 9, Value(Kind.PLAIN, 7, 12)),))
        (job,) = run.jobs
        self.assertEqual(job[:4], (0, 3, 12, 12))
        self.assertEqual(job.registers[:2], (Value(Kind.CELL, 0, 12), Value(Kind.PLAIN, 7, 12)))
        self.assertEqual(job.registers[2:], (Value(Kind.PLAIN, 0, 12),) * 6)

    def test_four_steps_with_bound_8(self):
        run = run_at_bound(BOOK_A2, FOUR_STEPS)
        self.assertEqual(run.answers, (0, 0, 1, 1))
        self.assertEqual(run.cells[0].value, Value(Kind.PLAIN, 5, 15))

    def test_an_outsider_is_blocked_or_above_c(self):
        for label, answer in ((3, Answer.BLOCKED), (4, Answer.NO_SUCH)):
            run = run_at_bound(BOOK_A, bytes([0x51, label, 0, 0, 7, 0, 0, 0]))
            self.assertEqual(run.answers, (answer,))
            self.assertEqual(run.cells[0].value.number, 5)

    def test_lists_are_refused(self):
        self.assert_refused(9, 6, run_at_bound, BOOK_A, FOUR_STEPS[:7])
        self.assert_refused(9, 0, run_at_bound, BOOK_A, bytes(65_537))
        self.assert_refused(1, 0, xemdulba.check, bytes(32_769))

    def test_the_longest_list_has_an_answer_for_each_event(self):
        answers = run_at_bound(BOOK_A, b"\x50\x00" * 32_768).answers
        self.assertEqual(answers, (0, 0, 0) + (2,) * 32_765)

    def test_numbers_are_read_from_four_bytes(self):
        book = BOOK_A[:10] + bytes.fromhex("01 02 03 F4") + BOOK_A[14:]
        self.assertEqual(run_at_bound(book, b"").cells[0].value.number, 0xF4030201)


def least(c, bound):
    """A book of this C and a block of this bound, with no steps."""
    return bytes([0x01, c, 0x30, bound])


# Books that cannot be read, and why.
UNREADABLE = {
    bytes(32_769): (1, 0),
    BOOK_A[:27]: (2, 25),
    b"": (3, 0),
    b"\x01\x03": (3, 2),
    b"\x01\x03" + b"\x10" * 33 + b"\x30\x0C": (4, 2 + 32),
    least(15, 0): (5, 0),
    least(3, 16): (5, 2),
    least(3, 12) + b"\x49\x01": (6, 4),
}


class Launched(Refusing):
    def test_book_a_is_launched_low(self):
        """C is 3 and the bound 12, so that job 0 is at 4: the cell's label 9 is above it, and the third step is blocked, twice."""
        run = xemdulba.run(BOOK_A, FOUR_STEPS)
        self.assertEqual(run.answers, (0, 0, 1, 1))
        self.assertEqual(run.cells, (Cell(1, 9, 9, Value(Kind.PLAIN, 5, 15)),))
        (job,) = run.jobs
        self.assertEqual(job[:4], (0, 2, 4, 4))
        self.assertEqual(job.registers[:2], (Value(Kind.CELL, 0, 4), Value(Kind.PLAIN, 7, 4)))
        self.assertEqual(job.registers[2:], (Value(Kind.PLAIN, 0, 4),) * 6)
        self.assertEqual(run, xemdulba.run(BOOK_A, FOUR_STEPS, None))
        self.assertEqual(run, xemdulba.run(BOOK_A, FOUR_STEPS, launch=4))

    def test_book_a_at_every_label_up_to_the_bound(self):
        """The cell's label is 9: from there on the third step is done, and leaves the job's history."""
        for label in range(13):
            run = xemdulba.run(BOOK_A, FOUR_STEPS, label)
            self.assertEqual(run.answers, (0, 0, 0, 2) if label >= 9 else (0, 0, 1, 1))
            self.assertEqual(run.cells[0].value.source, label if label >= 9 else 15)
            self.assertEqual((run.jobs[0].label, run.jobs[0].source), (label, label))

    def test_by_default_it_is_the_smaller_of_c_plus_1_and_the_bound(self):
        for c in range(15):
            for bound in range(16):
                (job,) = xemdulba.run(least(c, bound), b"").jobs
                self.assertEqual((job.label, job.source), (min(c + 1, bound),) * 2)

    def test_a_label_above_the_bound_is_refused(self):
        for label in (13, 15, 16, 255, 256, 256 + 12, 2**32 - 2):
            self.assert_refused(14, 0, xemdulba.run, BOOK_A, FOUR_STEPS, label)
        for bound in range(16):
            xemdulba.run(least(3, bound), b"", bound)
            self.assert_refused(14, 0, xemdulba.run, least(3, bound), b"", bound + 1)

    def test_a_refusal_by_14_has_its_words(self):
        with self.assertRaises(Refusal) as caught:
            xemdulba.run(BOOK_A, b"", 13)
        self.assertEqual(caught.exception.rule, "the launch label is above block 0's bound")

    def test_other_refusals_come_first(self):
        self.assert_refused(9, 6, xemdulba.run, BOOK_A, FOUR_STEPS[:7], 13)
        self.assert_refused(5, 0, xemdulba.run, least(15, 0), FOUR_STEPS[:7], 13)
        with mock.patch.object(xemdulba, "_LONGEST_LIST", 6):  # three answers
            self.assert_refused(11, 0, xemdulba.run, BOOK_A, FOUR_STEPS, 13)
            with mock.patch.object(xemdulba, "TABLE", 63):
                self.assert_refused(10, 0, xemdulba.run, BOOK_A, FOUR_STEPS, 13)
                self.assert_refused(9, 6, xemdulba.run, BOOK_A, FOUR_STEPS[:7], 13)

    def test_the_bound_is_that_of_block_0(self):
        self.assertEqual((xemdulba.bound(BOOK_A), xemdulba.bound(BOOK_A2), xemdulba.bound(BOOK_A6)), (12, 8, 12))
        for bound in range(16):
            self.assertEqual(xemdulba.bound(least(3, bound)), bound)
            self.assertEqual(xemdulba.bound(least(3, bound) + b"\x48\x00\x30\x05"), bound)

    def test_a_book_that_cannot_be_read_has_no_bound(self):
        for book, (number, place) in UNREADABLE.items():
            self.assert_refused(number, place, xemdulba.bound, book)
            for launch in (None, 0, 16):
                self.assert_refused(number, place, xemdulba.run, book, b"", launch)

    def test_a_launch_is_a_number_below_the_one_for_none(self):
        for launch in (-1, 2**32 - 1, 2**32, 2**64):
            self.assertRaises(ValueError, xemdulba.run, BOOK_A, b"", launch)
        for launch in ("12", 12.0, b"\x0C", True, False):
            self.assertRaises(TypeError, xemdulba.run, BOOK_A, b"", launch)
        self.assertRaises(ValueError, xemdulba.run, b"", b"", -1)


def book_that_chooses(steps, bound=12, others=(12, 12)):
    """C is 3. Cell 0 is official, of trust 9, and cell 1 scratch, of trust 2. Block 0 has these steps, from 27 on, the others none."""
    declared = bytes.fromhex("01 03  10  12 00 09  12 00 02  20 01 09 00 05 00 00 00  20 02 02 00 00 00 00 00")
    first, second = others
    return declared + bytes([0x30, bound]) + bytes.fromhex(steps) + bytes([0x30, first, 0x30, second])


class Chosen(Refusing):
    def run_on(self, steps, events):
        """A run at the bound: its answers, and the block, position, label and source of each job."""
        run = run_at_bound(book_that_chooses(steps), bytes.fromhex(events))
        return run.answers, [job[:4] for job in run.jobs]

    def test_one_of_two_blocks_is_started(self):
        for number in (0, 1, 2, 2**8, 2**16, 2**24, 2**31, 2**32 - 1):
            put = f"40 03 {number.to_bytes(4, 'little').hex()}"
            answers, jobs = self.run_on(f"{put} 4B 03 01 02", "50 00 50 00 50 00")
            self.assertEqual(answers, (0, 0, 2))
            self.assertEqual(jobs, [(0, 2, 12, 12), (2 if number == 0 else 1, 0, 12, 12)])

    def test_what_is_not_plain_blocks(self):
        for value in ("41 00 00", "42 00 01"):
            self.assertEqual(self.run_on(f"{value} 4B 00 01 02", "50 00 50 00 50 00"), ((0, 1, 1), [(0, 1, 12, 12)]))

    def test_the_65th_job_is_blocked(self):
        answers, jobs = self.run_on("4B 00 01 02  4B 00 01 02", "55 00 01" * 62 + "50 00 50 00 50 00")
        self.assertEqual(answers[62:], (0, 1, 1))
        self.assertEqual((len(jobs), jobs[0], jobs[63]), (64, (0, 1, 12, 12), (2, 0, 12, 12)))

    def test_the_job_has_the_choosers_label_and_history(self):
        """An outsider at 2 writes a number; job 0 reads it, lowers itself to 8, and chooses by it."""
        steps, events = "41 00 01  45 00 00  48 08  4B 00 01 02", "51 02 01 00 07 00 00 00  50 00 50 00 50 00 50 00"
        run = run_at_bound(book_that_chooses(steps), bytes.fromhex(events))
        self.assertEqual(run.answers, (0,) * 5)
        self.assertEqual(run.jobs[0].registers[0], Value(Kind.PLAIN, 7, 2))
        self.assertEqual(run.jobs[1], (1, 0, 8, 8, (Value(Kind.PLAIN, 0, 8),) * 8))

    def test_both_bounds_are_at_least_p(self):
        self.assertEqual(xemdulba.check(book_that_chooses("4B 00 01 02")), (3, 2, 3, 1))
        for others in ((11, 12), (12, 11), (11, 11)):
            self.assert_refused(8, 27, xemdulba.check, book_that_chooses("4B 00 01 02", 12, others))
            xemdulba.check(book_that_chooses("48 0B  4B 00 01 02", 12, others))
        xemdulba.check(book_that_chooses("4B 00 01 02", 3, (0, 0)))

    def test_r_is_plain_or_of_low_effect(self):
        for value in ("41 00 00", "42 00 00"):
            self.assert_refused(8, 30, xemdulba.check, book_that_chooses(f"{value} 4B 00 01 02"))
            xemdulba.check(book_that_chooses(f"{value} 4B 00 01 02", 3))
        for cell in ("00", "01"):
            xemdulba.check(book_that_chooses(f"41 00 {cell}  45 00 00  4B 00 01 02"))

    def test_a_field_above_its_limit_and_a_block_that_is_not_there(self):
        for step in ("4B 08 01 02", "4B FF 03 03"):
            self.assert_refused(5, 27, xemdulba.check, book_that_chooses(step))
        for step in ("4B 07 03 02", "4B 07 02 03", "4B 07 FF FF"):
            self.assert_refused(6, 27, xemdulba.check, book_that_chooses(step))
        for cut in ("4B", "4B 00", "4B 00 00"):
            self.assert_refused(2, 4, xemdulba.check, least(3, 12) + bytes.fromhex(cut))
        self.assert_refused(2, 4, xemdulba.check, least(3, 12) + bytes.fromhex("4C 00 00 00"))


def book_of(*blocks):
    """A book of C 3 and blocks of bound 12 with these steps."""
    return b"\x01\x03" + b"".join(b"\x30\x0C" + bytes.fromhex(steps) for steps in blocks)


LOWER = "48 09 "  # lowers a job to 9; one below is blocked
STUCK = "45 00 00"  # reads by a register that is plain, which is blocked

# Block 0 starts blocks 1 and 2, and then stays blocked. Job 0 starts job 1; job 1; job 0 starts job 2; job 1, its last; job 2; job 0 is
# blocked; job 2; job 0; job 2, its last; then job 0 alone.
STUCK_BOOK = book_of(f"49 01  49 02  {STUCK}", LOWER * 2, LOWER * 3)
STUCK_JOBS = (0, 1, 0, 1, 2, 0, 2, 0, 2, 0, 0, 0)
STUCK_ANSWERS = (0, 0, 0, 0, 0, 1, 0, 1, 0, 1, 1, 1)

# Block 0 starts block 1 and has two more steps. Job 0 starts job 1, which starts job 2; that is next; then job 0 twice.
FINISHING_BOOK = book_of(f"49 01 {LOWER * 2}", "49 02", LOWER)
FINISHING_JOBS = (0, 1, 2, 0, 0)


def round_at_bound(book, turns):
    return xemdulba.round_book(book, turns, xemdulba.bound(book))


def chosen(book, turns):
    """The jobs of a round by 02's words, each turn from the tables that `run` leaves after those before."""
    steps = [block.steps for block in xemdulba.tables(book).blocks]
    jobs = []
    while len(jobs) < turns:
        now = run_at_bound(book, steps_of(jobs)).jobs
        first = jobs[-1] + 1 if jobs else 0
        ring = [*range(first, len(now)), *range(first)]
        left = [job for job in ring if now[job].position < steps[now[job].block]]
        if not left:
            break
        jobs.append(left[0])
    return jobs


def steps_of(jobs):
    """A step of each of these jobs."""
    return b"".join(bytes([0x50, job]) for job in jobs)


class Rounded(Refusing):
    def test_a_job_that_stays_blocked_has_its_turns(self):
        run = round_at_bound(STUCK_BOOK, 12)
        self.assertEqual(run.answers, STUCK_ANSWERS)
        self.assertEqual([job[:4] for job in run.jobs], [(0, 2, 12, 12), (1, 2, 9, 9), (2, 3, 9, 9)])
        self.assertEqual(run.cells, ())

    def test_it_is_the_run_on_the_steps_that_it_chose(self):
        for book, jobs in ((STUCK_BOOK, STUCK_JOBS), (FINISHING_BOOK, FINISHING_JOBS), (BOOK_A, (0, 0, 0))):
            for turns in range(len(jobs) + 1):
                self.assertEqual(round_at_bound(book, turns), run_at_bound(book, steps_of(jobs[:turns])))

    def test_it_ends_when_no_job_has_a_step_left(self):
        for turns in (5, 6, 100, xemdulba.MOST_TURNS):
            run = round_at_bound(FINISHING_BOOK, turns)
            self.assertEqual((run.answers, len(run.jobs)), ((Answer.DONE,) * 5, 3))
        self.assertEqual(round_at_bound(book_of("", LOWER), 9).answers, ())

    def test_so_many_turns(self):
        none = round_at_bound(STUCK_BOOK, 0)
        self.assertEqual((none.answers, [job[:4] for job in none.jobs]), ((), [(0, 0, 12, 12)]))
        one = round_at_bound(STUCK_BOOK, 1)
        self.assertEqual((one.answers, len(one.jobs)), ((0,), 2))
        self.assertEqual(round_at_bound(STUCK_BOOK, 4_096).answers, STUCK_ANSWERS + (1,) * 4_084)
        for turns in (4_097, 5_000, 2**32 - 1):
            self.assert_refused(15, 0, round_at_bound, STUCK_BOOK, turns)

    def test_it_is_launched_as_a_run_is(self):
        """At 4, as by default, every lower to 9 is blocked: nothing but the two starts is done."""
        low = xemdulba.round_book(STUCK_BOOK, 12)
        self.assertEqual(low.answers, (0, 1, 0) + (1,) * 9)
        self.assertEqual([job[:4] for job in low.jobs], [(0, 2, 4, 4), (1, 0, 4, 4), (2, 0, 4, 4)])
        self.assertEqual(low, xemdulba.round_book(STUCK_BOOK, 12, launch=4))
        for label in (13, 16, 256, 2**32 - 2):
            self.assert_refused(14, 0, xemdulba.round_book, STUCK_BOOK, 12, label)

    def test_refusals_and_their_order(self):
        for book, (number, place) in UNREADABLE.items():
            self.assert_refused(number, place, xemdulba.round_book, book, 4_097, 13)
        with mock.patch.object(xemdulba, "MOST_TURNS", 4_097), mock.patch.object(_library, "space", self.short_answers):
            self.assert_refused(11, 0, xemdulba.round_book, FINISHING_BOOK, 6, 12)
            for label in (12, 13):
                self.assert_refused(11, 0, xemdulba.round_book, FINISHING_BOOK, 4_097, label)
            with mock.patch.object(xemdulba, "TABLE", 63):
                self.assert_refused(10, 0, xemdulba.round_book, FINISHING_BOOK, 4_097, 13)
        self.assert_refused(14, 0, xemdulba.round_book, FINISHING_BOOK, 4_097, 13)
        self.assert_refused(15, 0, xemdulba.round_book, FINISHING_BOOK, 4_097, 12)

    def short_answers(self, length, byte=0):
        """Memory to lend, but for answers a byte too few."""
        return (ctypes.c_ubyte * (length - 1 if byte else length))()

    def test_a_book_that_is_not_accepted_has_a_round(self):
        self.assertEqual(round_at_bound(BOOK_A6, 9).answers, (0, 0, 0))

    def test_sixty_four_jobs_wait_through_63_turns(self):
        """Each job starts two more, until there is no room."""
        book = book_of("49 00  49 00" + LOWER * 40)
        jobs = chosen(book, 500)
        self.assertEqual(set(jobs), set(range(64)))
        turns_of = [[turn for turn, of in enumerate(jobs) if of == job] for job in range(64)]
        waits = [later - turn - 1 for turns in turns_of for turn, later in zip(turns, turns[1:])]
        self.assertEqual(max(waits), 63)
        self.assertEqual(round_at_bound(book, 500), run_at_bound(book, steps_of(jobs)))

    def test_turns_are_a_number_of_32_bits(self):
        for turns in (-1, 2**32, 2**64):
            self.assertRaises(ValueError, xemdulba.round_book, BOOK_A, turns)
        for turns in (None, "12", 12.0, True, False):
            self.assertRaises(TypeError, xemdulba.round_book, BOOK_A, turns)
        for launch in (-1, 2**32 - 1):
            self.assertRaises(ValueError, xemdulba.round_book, BOOK_A, 1, launch)
        self.assertRaises(TypeError, xemdulba.round_book, BOOK_A, 1, True)


# Bytes of a record or an event of each kind, then its fields of one byte, absent ones 0, and its number.
RECORDS = {
    "01 03": (3, 0, 0, 0),
    "10": (0, 0, 0, 0),
    "11 0C": (12, 0, 0, 0),
    "12 04 09": (4, 9, 0, 0),
    "20 01 09 02 78 56 34 12": (1, 9, 2, 0x12345678),
    "30 0C": (12, 0, 0, 0),
    "40 07 FF FE FD FC": (7, 0, 0, 0xFCFDFEFF),
    "41 01 02": (1, 2, 0, 0),
    "42 03 04": (3, 4, 0, 0),
    "43 05 06 07": (5, 6, 7, 0),
    "44 FF FE FD": (255, 254, 253, 0),
    "45 01 02": (1, 2, 0, 0),
    "46 03 04": (3, 4, 0, 0),
    "47 05 06": (5, 6, 0, 0),
    "48 0B": (11, 0, 0, 0),
    "49 3F": (63, 0, 0, 0),
    "4A 07": (7, 0, 0, 0),
    "4B 07 3F 3E": (7, 63, 62, 0),
}
EVENTS = {
    "50 3F": (63, 0, 0, 0),
    "51 03 09 02 01 00 00 80": (3, 9, 2, 0x80000001),
    "52 03 09 04": (3, 9, 4, 0),
    "53 04 05 FF 78 56 34 12": (4, 5, 255, 0x12345678),
    "54 03 09": (3, 9, 0, 0),
    "55 03 3E": (3, 62, 0, 0),
}
CALLS = ((xemdulba.record, RECORDS), (xemdulba.event, EVENTS))


class Told(unittest.TestCase):
    def test_every_kind_is_told_alone_and_among_other_bytes(self):
        for call, samples in CALLS:
            for text, fields in samples.items():
                sample = bytes.fromhex(text)
                self.assertEqual(call(sample, 0), Fields(sample[0], *fields, len(sample)))
                among = b"\xEE" * 5 + sample + b"\xDD" * 9
                self.assertEqual(call(among, 5), Fields(sample[0], *fields, 5 + len(sample)))

    def test_what_is_cut_is_not_told(self):
        for call, samples in CALLS:
            for text in samples:
                sample = bytes.fromhex(text)
                for length in range(len(sample)):
                    self.assertIsNone(call(sample[:length], 0), f"{text} cut to {length}")

    def test_other_kinds_are_not_told(self):
        for call, samples in CALLS:
            known = {bytes.fromhex(text)[0] for text in samples}
            told = {kind for kind in range(256) if call(bytes([kind]) + bytes(15), 0) is not None}
            self.assertEqual(told, known)

    def test_nothing_is_told_past_the_end(self):
        for call, samples in CALLS:
            for sample in (b"", *map(bytes.fromhex, samples)):
                for offset in (len(sample), len(sample) + 1, 2**32, 2**63, 2**64 - 8, 2**64 - 1):
                    self.assertIsNone(call(sample, offset))

    def test_book_a_is_walked(self):
        offsets, offset = [], 0
        while (fields := xemdulba.record(BOOK_A, offset)) is not None:
            self.assertGreater(fields.next, offset)
            offsets.append(offset)
            offset = fields.next
        self.assertEqual((offsets, offset), ([0, 2, 3, 6, 14, 16, 19, 25], len(BOOK_A)))

    def test_an_offset_is_a_number_of_64_bits(self):
        for call, _ in CALLS:
            for offset in (None, "0", 0.0):
                self.assertRaises(TypeError, call, BOOK_A, offset)
            for offset in (-1, 2**64):
                self.assertRaises(ValueError, call, BOOK_A, offset)


TABLES_A = BookTables(
    c=3,
    shapes=(ShapeRow(16), ShapeRow(18, 0, 9)),
    cells=(CellRow(1, 9, 0, 5),),
    blocks=(BlockRow(12, 3),),
    steps=(StepRow(65, 0, 0), StepRow(64, 1, number=7), StepRow(70, 0, 1)),
)

# A record of every kind; block 0 has no steps.
BOOK_OF_ALL = bytes.fromhex(
    "01 00  11 0F  12 00 0E  10  20 01 0D 02 01 00 00 00  30 0C  30 0B  40 07 78 56 34 12  41 06 00  42 05 01  43 01 02 03"
    "44 04 01 02  45 03 04  46 02 05  47 01 0F  48 0E  49 01  4A 07  4B 06 01 00"
)
TABLES_OF_ALL = BookTables(
    c=0,
    shapes=((17, 15, 0), (18, 0, 14), (16, 0, 0)),
    cells=((1, 13, 2, 1),),
    blocks=((12, 0), (11, 12)),
    steps=(
        (64, 7, 0, 0, 0x12345678),
        (65, 6, 0, 0, 0),
        (66, 5, 1, 0, 0),
        (67, 1, 2, 3, 0),
        (68, 4, 1, 2, 0),
        (69, 3, 4, 0, 0),
        (70, 2, 5, 0, 0),
        (71, 1, 15, 0, 0),
        (72, 14, 0, 0, 0),
        (73, 1, 0, 0, 0),
        (74, 7, 0, 0, 0),
        (75, 6, 1, 0, 0),
    ),
)


def sample_books():
    """The books of the folder `books`."""
    folder = SOURCES / "books"
    hexadecimal = (folder / "whatif.hex").read_text(encoding="ascii").replace(",", " ")
    return [*(path.read_bytes() for path in sorted(folder.glob("*.book"))), bytes.fromhex(hexadecimal)]


def changed(table, at, **fields):
    """A table with other fields in one row."""
    return (*table[:at], table[at]._replace(**fields), *table[at + 1 :])


def refusal_of(tables):
    """The number by which tables are refused, or 0."""
    try:
        xemdulba.write(*tables)
    except Refusal as refusal:
        return refusal.number
    return 0


def tables_with_one(kind, field):
    """Book A's tables with one more shape, or with one step in all, of which a field is 1."""
    if kind <= 18:
        return TABLES_A._replace(shapes=(*TABLES_A.shapes, ShapeRow(kind)._replace(**{field: 1})))
    return TABLES_A._replace(blocks=(BlockRow(12, 1),), steps=(StepRow(kind)._replace(**{field: 1}),))


class Written(Refusing):
    def refuses(self, number, place, **changes):
        """Book A's tables, with some of them changed, are refused."""
        self.assert_refused(number, place, xemdulba.write, *TABLES_A._replace(**changes))

    def test_book_a_is_written_and_taken_apart(self):
        self.assertEqual(xemdulba.write(*TABLES_A), BOOK_A)
        self.assertEqual(xemdulba.tables(BOOK_A), TABLES_A)

    def test_every_record_is_written_and_taken_apart(self):
        self.assertEqual(xemdulba.write(*TABLES_OF_ALL), BOOK_OF_ALL)
        self.assertEqual(xemdulba.tables(BOOK_OF_ALL), TABLES_OF_ALL)

    def test_the_sample_books_are_written_again(self):
        """A1 to A15 and one more; A12 to A14 cannot be read."""
        written = []
        for book in sample_books():
            try:
                tables = xemdulba.tables(book)
            except Refusal as refusal:
                self.assert_refused(refusal.number, refusal.place, xemdulba.check, book)
            else:
                self.assertEqual(xemdulba.write(*tables), book)
                written.append(book)
        self.assertEqual((len(sample_books()), len(written)), (16, 13))

    def test_the_rows_are_named(self):
        tables = xemdulba.tables(BOOK_A)
        self.assertEqual((tables.c, tables.shapes[1].y, tables.cells[0].label, tables.blocks[0].steps), (3, 9, 9, 3))
        self.assertEqual(tables.steps[1], StepRow(kind=64, x=1, y=0, z=0, number=7))

    def test_a_table_is_rows_of_any_sort(self):
        rows = ([list(row) for row in table] for table in TABLES_A[1:])
        self.assertEqual(xemdulba.write(3, *rows), BOOK_A)
        self.assertEqual(xemdulba.write(3, *(iter(table) for table in TABLES_A[1:])), BOOK_A)

    def test_1_is_by_the_length(self):
        self.refuses(1, 0, steps=(StepRow(72),) * 20_000)
        self.refuses(1, 0, blocks=(), steps=(StepRow(72),) * 20_000)
        unknown = (ShapeRow(0),)  # one byte each, behind the two of C
        self.refuses(1, 0, shapes=unknown * 32_767, cells=(), blocks=(), steps=())
        self.refuses(2, 2, shapes=unknown * 32_766, cells=(), blocks=(), steps=())

    def test_2_is_first_by_the_counts(self):
        for steps in (0, 2, 4, 2**32 - 1):
            self.refuses(2, 0, blocks=(BlockRow(12, steps),))
        self.refuses(2, 0, blocks=())
        self.refuses(2, 0, blocks=(BlockRow(12, 2**31), BlockRow(12, 2**31), BlockRow(12, 3)))
        self.refuses(2, 0, shapes=(ShapeRow(64),), blocks=(BlockRow(12, 4),))

    def test_2_is_then_by_an_unknown_kind(self):
        self.refuses(2, 2, shapes=changed(TABLES_A.shapes, 0, kind=32))
        self.refuses(2, 3, shapes=changed(TABLES_A.shapes, 1, kind=64))
        self.refuses(2, 19, steps=changed(TABLES_A.steps, 1, kind=16))
        self.refuses(2, 25, steps=changed(TABLES_A.steps, 2, kind=48))
        self.refuses(2, 25, steps=changed(TABLES_A.steps, 2, kind=76))

    def test_3_is_where_no_block_stands(self):
        self.refuses(3, 14, blocks=(), steps=())
        self.assert_refused(3, 2, xemdulba.write, 3, (), (), (), ())

    def test_4_is_a_record_too_many(self):
        self.refuses(4, 2 + 32, shapes=(ShapeRow(16),) * 33)
        self.refuses(4, 6 + 32 * 8, cells=TABLES_A.cells * 33)
        self.refuses(4, 14 + 64 * 2, blocks=(BlockRow(12, 0),) * 65, steps=())
        self.refuses(4, 16 + 64 * 2, blocks=(BlockRow(12, 65),), steps=(StepRow(72),) * 65)

    def test_5_is_a_field_above_its_limit(self):
        for c in (15, 255, 256, 256 + 3, 2**32 - 1):
            self.refuses(5, 0, c=c)
        self.refuses(5, 3, shapes=changed(TABLES_A.shapes, 1, y=16))
        self.refuses(5, 6, cells=changed(TABLES_A.cells, 0, kind=3))
        self.refuses(5, 14, blocks=(BlockRow(16, 3),))
        self.refuses(5, 16, steps=changed(TABLES_A.steps, 0, x=8))

    def test_5_is_a_field_that_its_kind_does_not_use(self):
        self.refuses(5, 2, shapes=changed(TABLES_A.shapes, 0, x=1))
        self.refuses(5, 2, shapes=changed(TABLES_A.shapes, 0, y=1))
        self.refuses(5, 16, steps=changed(TABLES_A.steps, 0, z=1))
        self.refuses(5, 19, steps=changed(TABLES_A.steps, 1, y=1))
        self.refuses(5, 25, steps=changed(TABLES_A.steps, 2, number=1))

    def test_5_is_by_the_documents_table_of_fields(self):
        section = FORMAT.split("\n## A book from tables\n")[1].split("\n## ")[0]
        table = section.split("\n| row | kind | x | y | z | number |\n")[1].split("\n\n")[0]
        shown = [[field.strip() for field in line.split("|")[2:-1]] for line in table.splitlines()[1:]]
        self.assertEqual([int(kind) for kind, *_ in shown], [16, 17, 18, *range(64, 76)])
        for kind, *uses in shown:
            for name, use in zip(("x", "y", "z", "number"), uses):
                if use:
                    with self.subTest(kind=kind, field=name):
                        self.assertEqual(refusal_of(tables_with_one(int(kind), name)) == 5, use == "-")

    def test_5_is_at_the_first_record_by_either_cause(self):
        spare, high = {"z": 1}, {"x": 8}
        self.refuses(5, 16, steps=changed(changed(TABLES_A.steps, 0, **spare), 2, **high))
        self.refuses(5, 16, steps=changed(changed(TABLES_A.steps, 0, **high), 2, **spare))

    def test_6_is_what_does_not_exist(self):
        self.refuses(6, 3, shapes=changed(TABLES_A.shapes, 1, x=1))
        self.refuses(6, 6, cells=changed(TABLES_A.cells, 0, shape=0))
        self.refuses(6, 16, steps=changed(TABLES_A.steps, 0, y=1))
        for blocks in ((1, 0), (0, 1), (1, 1), (255, 255)):
            self.refuses(6, 25, steps=(*TABLES_A.steps[:2], StepRow(75, 7, *blocks)))

    def test_13_is_a_short_buffer(self):
        with mock.patch.object(xemdulba, "LONGEST_BOOK", 27):
            self.refuses(13, 0)
            self.refuses(6, 16, steps=changed(TABLES_A.steps, 0, y=1))
        with mock.patch.object(xemdulba, "LONGEST_BOOK", 28):
            self.assertEqual(xemdulba.write(*TABLES_A), BOOK_A)

    def test_the_typing_rules_are_not_tried(self):
        book = xemdulba.write(*TABLES_A._replace(cells=changed(TABLES_A.cells, 0, label=8)))
        self.assert_refused(7, 6, xemdulba.check, book)

    def test_the_longest_book_is_written(self):
        shapes = (ShapeRow(17, 15), *(ShapeRow(18, 0, 9),) * 31)
        put = StepRow(64, 7, number=2**32 - 1)
        tables = BookTables(3, shapes, TABLES_A.cells * 32, (BlockRow(0, 64),) * 64, (put,) * 64 * 64)
        book = xemdulba.write(*tables)
        self.assertEqual(len(book), xemdulba.LONGEST_BOOK)
        self.assertEqual(xemdulba.tables(book), tables)

    def test_what_is_no_row_is_named(self):
        for table, rows, words in (
            ("shapes", [(16, 0, 0), (18, 0)], "shapes[1] must have 3 fields (kind, x, y), not 2"),
            ("cells", [(1, 9, 0, 5, 0)], "cells[0] must have 4 fields (shape, label, kind, number), not 5"),
            ("blocks", [()], "blocks[0] must have 2 fields (bound, steps), not 0"),
            ("steps", [(65, 0, 0, 0)], "steps[0] must have 5 fields (kind, x, y, z, number), not 4"),
            ("shapes", [(16, 0, 0), (18, 0, 256)], "shapes[1].y must be a number of 8 bits"),
            ("cells", [(-1, 9, 0, 5)], "cells[0].shape must be a number of 8 bits"),
            ("cells", [(1, 9, 0, 2**32)], "cells[0].number must be a number of 32 bits"),
            ("blocks", [(12, 3), (256, 0)], "blocks[1].bound must be a number of 8 bits"),
            ("blocks", [(12, -1)], "blocks[0].steps must be a number of 32 bits"),
            ("steps", [*TABLES_A.steps, (256, 0, 0, 0, 0)], "steps[3].kind must be a number of 8 bits"),
            ("steps", [(64, 0, 0, 0, 2**32)], "steps[0].number must be a number of 32 bits"),
        ):
            with self.assertRaises(ValueError) as caught:
                xemdulba.write(*TABLES_A._replace(**{table: rows}))
            self.assertEqual(str(caught.exception), words)

    def test_c_is_a_number_of_32_bits(self):
        for c in (-1, 2**32):
            self.assertRaises(ValueError, xemdulba.write, c, *TABLES_A[1:])

    def test_other_types_are_not_rows(self):
        for table, rows, words in (
            ("shapes", [16], "shapes[0] must be a row, not int"),
            ("cells", [(1, 9, Kind.PLAIN, 5)], "cells[0].kind must be an int, not Kind"),
            ("steps", [(65, 0, "0", 0, 0)], "steps[0].y must be an int, not str"),
            ("c", 3.0, "c must be an int, not float"),
        ):
            with self.assertRaises(TypeError) as caught:
                xemdulba.write(*TABLES_A._replace(**{table: rows}))
            self.assertEqual(str(caught.exception), words)
        for table in ("shapes", "cells", "blocks", "steps"):
            self.assertRaises(TypeError, xemdulba.write, *TABLES_A._replace(**{table: None}))


class Words(unittest.TestCase):
    def test_the_rules_are_the_headers(self):
        listed = HEADER.split("enum xemdulba_refusal {")[1].split("};")[0]
        commented = re.findall(r"/\*(.*?)\*/\s*XEMDULBA_REFUSED_\w+ = (\d+)", listed, re.DOTALL)
        self.assertEqual([int(number) for _, number in commented], list(range(1, 16)))
        for comment, number in commented:
            words = " ".join(word for word in comment.split() if word != "*")
            self.assertEqual(Refusal(int(number), 0).rule, words)

    def test_the_documents_table_of_constants_is_the_headers(self):
        listed = re.findall(r"(XEMDULBA_REFUSED_\w+) = (\d+)", HEADER)
        shown = re.findall(r"\| (\d+) \| `(XEMDULBA_REFUSED_\w+)`", LIBRARY)
        self.assertEqual(sorted((int(number), name) for number, name in shown), [(int(number), name) for name, number in listed])

    def test_other_numbers_have_no_rule(self):
        for number in (-1, 0, 16):
            self.assertEqual(Refusal(number, 0).rule, "no refusal has this number")

    def test_a_refusal_has_the_words_of_its_rule(self):
        with self.assertRaises(Refusal) as caught:
            xemdulba.check(BOOK_A6)
        self.assertEqual(caught.exception.rule, "a step breaks its typing rule")
        copied = pickle.loads(pickle.dumps(caught.exception))
        self.assertEqual((copied.number, copied.place), (8, 25))

    def test_the_version_is_the_headers(self):
        self.assertIn(f'\n#define XEMDULBA_VERSION "{xemdulba.__version__}"\n', HEADER)

    def test_the_sizes_of_a_writing_are_the_headers(self):
        sizes = {
            "REQUEST": 6,
            "MOST_TURNS": xemdulba.MOST_TURNS,
            "SHAPE_ROW": xemdulba._SHAPE_ROW.size,
            "CELL_ROW": xemdulba._CELL_ROW.size,
            "BLOCK_ROW": xemdulba._BLOCK_ROW.size,
            "STEP_ROW": xemdulba._STEP_ROW.size,
            "LONGEST_BOOK": xemdulba.LONGEST_BOOK,
        }
        for name, size in sizes.items():
            self.assertIn(f"\n#define XEMDULBA_{name} {size}\n", HEADER)

    def test_the_default_launch_is_the_headers(self):
        self.assertIn(f"\n#define XEMDULBA_DEFAULT_LAUNCH 0x{_library.DEFAULT_LAUNCH:08X}u\n", HEADER)

    def test_the_kit_is_a_line(self):
        self.assertRegex(xemdulba.KIT, r"\A\S[^\n]*\S\Z")


def mapped(data):
    memory = mmap.mmap(-1, len(data))
    memory[:] = data
    return memory


SORTS = (
    bytes,
    bytearray,
    memoryview,
    lambda data: memoryview(b"##" + data + b"##")[2:-2],
    lambda data: array.array("B", data),
    lambda data: memoryview(data).cast("c"),
    mapped,
    lambda data: (ctypes.c_ubyte * len(data))(*data),
    lambda data: (ctypes.c_char * len(data))(*data),
)


class FalseBytes(bytes):
    """Bytes that say of themselves what is not so."""

    def __len__(self):
        return 1_000_000

    def __bytes__(self):
        return self

    def __iter__(self):
        return iter(b"")

    def __getitem__(self, at):
        return 0


class FalseBytearray(bytearray):
    __len__ = FalseBytes.__len__
    __iter__ = FalseBytes.__iter__
    __getitem__ = FalseBytes.__getitem__


class Types(unittest.TestCase):
    def test_bytes_of_any_sort_are_taken(self):
        for sort in SORTS:
            book, events = sort(BOOK_A), sort(FOUR_STEPS)
            self.assertEqual(xemdulba.check(book).steps, 3)
            self.assertEqual(bytes(xemdulba.stretch(book, 0)), BOOK_A[16:])
            self.assertEqual(xemdulba.bound(book), 12)
            self.assertEqual(run_at_bound(book, events).answers, (0, 0, 0, 2))
            self.assertEqual(round_at_bound(book, 4).answers, (0, 0, 0))
            self.assertEqual(xemdulba.record(book, 14), Fields(48, 12, 0, 0, 0, 16))
            self.assertEqual(xemdulba.event(events, 6), Fields(80, 0, 0, 0, 0, 8))
            self.assertEqual(xemdulba.tables(book), TABLES_A)

    def test_what_a_subclass_says_of_itself_plays_no_part(self):
        for sort in (FalseBytes, FalseBytearray):
            book, events = sort(BOOK_A), sort(FOUR_STEPS)
            self.assertEqual(len(book), 1_000_000)
            self.assertEqual(xemdulba.check(book), (2, 1, 1, 3))
            self.assertEqual(bytes(xemdulba.stretch(book, 0)), BOOK_A[16:])
            self.assertEqual(xemdulba.bound(book), 12)
            self.assertEqual(run_at_bound(book, events).answers, (0, 0, 0, 2))
            self.assertEqual(round_at_bound(book, 4).answers, (0, 0, 0))
            self.assertEqual(xemdulba.record(book, 25), Fields(70, 0, 1, 0, 0, 28))
            self.assertIsNone(xemdulba.record(book, 28))
            self.assertIsNone(xemdulba.event(events, 8))
            self.assertEqual(xemdulba.tables(book), TABLES_A)

    def test_a_stretch_is_a_part_of_the_lent_book(self):
        book = bytearray(BOOK_A)
        stretch = xemdulba.stretch(book, 0)
        book[16] = 0x42
        self.assertEqual(stretch[0], 0x42)

    def test_a_buffer_is_free_again_after_a_call(self):
        book = bytearray(BOOK_A)
        xemdulba.check(book)
        xemdulba.record(book, 0)
        book.append(0)
        self.assertEqual(len(book), 29)

    def test_other_types_are_not(self):
        doubled = bytes(byte for byte in BOOK_A for _ in range(2))
        numbers = array.array("I", [1, 2])
        square = memoryview(bytes(4)).cast("B", (2, 2))
        strided = memoryview(doubled)[::2]
        truths = memoryview(bytes(2)).cast("?")
        for book in (None, "01 03", 3, [1, 3], numbers, memoryview(numbers), square, truths, strided, memoryview(BOOK_A)[::-1]):
            self.assertRaises(TypeError, xemdulba.check, book)
            self.assertRaises(TypeError, xemdulba.stretch, book, 0)
            self.assertRaises(TypeError, xemdulba.run, book, b"")
            self.assertRaises(TypeError, xemdulba.run, BOOK_A, book)
            self.assertRaises(TypeError, xemdulba.round_book, book, 1)
            self.assertRaises(TypeError, xemdulba.bound, book)
            self.assertRaises(TypeError, xemdulba.record, book, 0)
            self.assertRaises(TypeError, xemdulba.event, book, 0)
            self.assertRaises(TypeError, xemdulba.tables, book)

    def test_a_block_is_a_number_of_32_bits(self):
        for block in (None, "0", 0.0):
            self.assertRaises(TypeError, xemdulba.stretch, BOOK_A, block)
        for block in (-1, 2**32):
            self.assertRaises(ValueError, xemdulba.stretch, BOOK_A, block)


class Places(unittest.TestCase):
    def test_a_package_near_the_root_has_no_source_folder(self):
        with mock.patch.dict(os.environ, XEMDULBA_LIBRARY=""), mock.patch.object(_library, "__file__", "/site/xemdulba/_library.py"):
            self.assertEqual(_library._path(), "/target/bindings/libxemdulba.so")


if __name__ == "__main__":
    unittest.main()
