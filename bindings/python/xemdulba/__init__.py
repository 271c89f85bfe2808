"""Checks a control job book before it runs, runs it on a list of events or in a fair round, and writes books from tables.

These are calls of the library that include/xemdulba.h declares. What they answer is proved of the library; the numbers of the
refusals, and the bytes of books and events, are explained there. Books and events are any contiguous buffers of bytes: bytes,
bytearrays, memoryviews, arrays, mapped files. The environment variable XEMDULBA_LIBRARY names a library that stands elsewhere.
"""

import ctypes
import enum
import struct
import sys
from collections.abc import Iterable, Iterator
from typing import TYPE_CHECKING, Any, NamedTuple, Optional, Union

from . import _library
from ._library import KIT as _KIT

if not TYPE_CHECKING:
    Buffer = Any
elif sys.version_info >= (3, 12):
    from collections.abc import Buffer
else:
    from typing_extensions import Buffer

__version__ = "0.2.0"

KIT: Optional[str] = _KIT
"""The identity of the kit that proved the library, as `rt version` prints it; None if nothing beside the library says."""

TABLE = 64
REGISTERS = 8

LONGEST_BOOK = 25_057
"""The bytes of the longest book that is written."""

MOST_TURNS = 4_096
"""A round is given so many turns at most."""

_VALUE_SIZE = 6
_CELL_SIZE = 9
_JOB_SIZE = 52
_LONGEST_LIST = 65_536
_UNANSWERED = 0xFF  # no answer: a run leaves the bytes beyond its events as they were

# The rows of the tables that a book is written from, and which of their fields have four bytes.
_SHAPE_ROW = struct.Struct("<3B")
_CELL_ROW = struct.Struct("<3BI")
_BLOCK_ROW = struct.Struct("<BI")
_STEP_ROW = struct.Struct("<4BI")
_NUMBERS = ("number", "steps")

# What the rules say, from refusal 1 on.
_RULES = (
    "the book is longer than 32768 bytes",
    "a kind is none of the format's, or the book ends inside a record",
    "the first record is missing or not C, a record is out of order, or no block stands",
    "a record is beyond 32 shapes, 32 cells, 64 blocks or 64 steps in a block",
    "a label, bound or trust is above 15, C above 14, a register above 7, or a value kind above 2",
    "a content shape is not lower-numbered than its cell shape, a cell or new names no cell shape, "
    "or a cell or block number does not exist",
    "a cell declaration breaks its typing rule",
    "a step breaks its typing rule",
    "the event list is longer than 65536 bytes, an event's kind is unknown, or the list ends inside an event",
    "the cell table has not exactly 576 bytes, or the job table not exactly 3328",
    "the answer buffer has fewer bytes than the list has events, or than a round is given turns",
    "the block asked for does not exist",
    "the output buffer is too short",
    "the launch label is above block 0's bound",
    "a round is given more than 4096 turns",
)


class Refusal(Exception):
    """Why a call was refused: the number, and the offset of the first record at fault, in the events for 9, else in the book, also in
    one that is not written."""

    def __init__(self, number: int, place: int):
        super().__init__(number, place)
        self.number = number
        self.place = place

    @property
    def rule(self) -> str:
        """What the rule of its number says, in words. The library gives no number but 1 to 15."""
        return _RULES[self.number - 1] if 1 <= self.number <= len(_RULES) else "no refusal has this number"

    def __str__(self) -> str:
        return f"refused {self.number} at {self.place}"


class Counts(NamedTuple):
    """How much of each a book has."""

    shapes: int
    cells: int
    blocks: int
    steps: int

    def __str__(self) -> str:
        return f"accepted shapes {self.shapes} cells {self.cells} blocks {self.blocks} steps {self.steps}"


class Kind(enum.Enum):
    """What a value's number is: plain, or the number of a cell or of a block."""

    PLAIN = 0
    CELL = 1
    CODE = 2


class Value(NamedTuple):
    """A value. Its source is the lowest label of all that touched it."""

    kind: Kind
    number: int
    source: int


class Cell(NamedTuple):
    """A cell of a run."""

    shape: int
    trust: int
    label: int
    value: Value


class Job(NamedTuple):
    """A job of a run. Its position is how many of its block's steps are done."""

    block: int
    position: int
    label: int
    source: int
    registers: tuple[Value, ...]


class Answer(enum.IntEnum):
    """The answer to an event, or to a turn, which has the first two alone. All but DONE change nothing."""

    DONE = 0
    BLOCKED = 1
    NO_STEP_LEFT = 2
    NO_SUCH = 3


class Fields(NamedTuple):
    """A record of a book or an event of a list: its kind, its fields of one byte in their order, its number, and the offset of the
    next. Fields that the kind does not have, and the number, are 0."""

    kind: int
    first: int
    second: int
    third: int
    number: int
    next: int


class ShapeRow(NamedTuple):
    """A shape: its kind, 16 plain, 17 code or 18 cell, and its fields in their order. Those that the kind does not have are 0."""

    kind: int
    x: int = 0
    y: int = 0


class CellRow(NamedTuple):
    """A declared cell: its shape and label, its value's kind, 0 plain, 1 cell or 2 code, and its value's number."""

    shape: int
    label: int
    kind: int
    number: int


class BlockRow(NamedTuple):
    """A block: its bound, and how many steps it has, which are the next so many of the steps."""

    bound: int
    steps: int


class StepRow(NamedTuple):
    """A step: its kind, 64 to 75, its fields of one byte in their order, and the number of put. What the kind does not have is 0."""

    kind: int
    x: int = 0
    y: int = 0
    z: int = 0
    number: int = 0


class BookTables(NamedTuple):
    """C and the tables of a book. The steps are those of all blocks, in the order of the blocks."""

    c: int
    shapes: tuple[ShapeRow, ...]
    cells: tuple[CellRow, ...]
    blocks: tuple[BlockRow, ...]
    steps: tuple[StepRow, ...]


class Run(NamedTuple):
    """What a run or a round gives: the cells and jobs in use, and an answer for each event or turn."""

    cells: tuple[Cell, ...]
    jobs: tuple[Job, ...]
    answers: tuple[Answer, ...]


def check(book: Buffer) -> Counts:
    """Checks a book. Refused by 1 to 8."""
    lent = _library.lent(book, "book")
    checked = _library.library.xemdulba_check(lent, len(lent))
    _raise_refusal(checked)
    return Counts(checked.shapes, checked.cells, checked.blocks, checked.steps)


def stretch(book: Buffer, block: int) -> memoryview:
    """The part of a book that a block's steps are. Refused by 1 to 6 or 12; the book need not be accepted."""
    place = stretch_range(book, block)
    return memoryview(book)[place.start : place.stop]


def stretch_range(book: Buffer, block: int) -> range:
    """Where the stretch stands in the book."""
    lent = _library.lent(book, "book")
    found = _library.library.xemdulba_block(lent, len(lent), _number(block, "block", 32))
    _raise_refusal(found)
    return range(found.start, found.start + found.length)


def record(book: Buffer, offset: int) -> Optional[Fields]:
    """The record at an offset of a book; None where no whole record stands there. Any bytes are taken, also more than a book may
    have."""
    lent = _library.lent(book, "book")
    return _fields(_library.library.xemdulba_record(lent, len(lent), _offset(offset)))


def event(events: Buffer, offset: int) -> Optional[Fields]:
    """The event at an offset of a list, as `record` has the record of a book."""
    lent = _library.lent(events, "events")
    return _fields(_library.library.xemdulba_event(lent, len(lent), _offset(offset)))


def bound(book: Buffer) -> int:
    """The bound of block 0, the highest label that a run may be launched at. Refused by 1 to 6; the book need not be accepted."""
    lent = _library.lent(book, "book")
    return lent[stretch_range(lent, 0).start - 1]  # the last byte of the block's record, which stands just before its steps


def run(book: Buffer, events: Buffer, launch: Optional[int] = None) -> Run:
    """Runs a list of events on a book from its start. Job 0 is launched at the label `launch`, which is also its history; by default at
    the smaller of C plus 1 and the bound of block 0, which `bound` tells. Refused by 1 to 6, 9 or 14; the book need not be accepted. A
    launch that is no number of 32 bits, or the last of them, raises ValueError."""
    book, events = _library.lent(book, "book"), _library.lent(events, "events")
    launch = _launch(launch)
    most_events = min(len(events), _LONGEST_LIST) // 2  # each has 2 bytes or more
    cells, jobs, answers = written = _written(most_events)
    ran = _library.library.xemdulba_run(book, len(book), launch, events, len(events), *_with_lengths(written))
    _raise_refusal(ran)
    return _run(ran, cells, jobs, bytes(answers).rstrip(bytes([_UNANSWERED])))


def round_book(book: Buffer, turns: int, launch: Optional[int] = None) -> Run:
    """Lets the jobs of a book take turns, from its start. Each turn steps the next job with a step left, from the one after the last
    stepped on; job 0 is looked at first. A blocked step uses a turn, and the round ends early only when no job has a step left: the turns
    used are as many as the answers, each DONE or BLOCKED. It gives what `run` gives on the steps that it chose. Launched as `run` is.
    Refused by 1 to 6, 14 or 15; the book need not be accepted. Turns that are no number of 32 bits raise ValueError."""
    book = _library.lent(book, "book")
    turns, launch = _whole(turns, "turns"), _launch(launch)
    turns = min(turns, MOST_TURNS + 1)  # all numbers above the most are refused alike
    cells, jobs, answers = written = _written(turns)
    rounded = _library.library.xemdulba_round(book, len(book), launch, *_with_lengths(written), turns)
    _raise_refusal(rounded)
    return _run(rounded, cells, jobs, bytes(answers)[: rounded.turns])


def write(
    c: int,
    shapes: Iterable[tuple[int, int, int]],
    cells: Iterable[tuple[int, int, int, int]],
    blocks: Iterable[tuple[int, int]],
    steps: Iterable[tuple[int, int, int, int, int]],
) -> bytes:
    """Writes the book of C and these tables, whose rows are ShapeRow, CellRow, BlockRow and StepRow, or tuples of the same fields.
    Refused by 1 to 6; the typing rules are not tried. A row of another length, or with a field that does not fit in a byte, or in 32
    bits where it is a number, raises ValueError."""
    c = _number(c, "c", 32)
    packed = (
        _packed(shapes, "shapes", ShapeRow._fields, _SHAPE_ROW),
        _packed(cells, "cells", CellRow._fields, _CELL_ROW),
        _packed(blocks, "blocks", BlockRow._fields, _BLOCK_ROW),
        _packed(steps, "steps", StepRow._fields, _STEP_ROW),
    )
    lent = [argument for table in packed for argument in (table, len(table))]
    out = _library.space(LONGEST_BOOK)
    written = _library.library.xemdulba_write(c, *lent, out, len(out))
    _raise_refusal(written)
    return bytes(out)[: written.length]


def tables(book: Buffer) -> BookTables:
    """The tables of a book: `write(*tables(book))` has its bytes. Refused by 1 to 6; the book need not be accepted."""
    lent = _library.lent(book, "book")
    stretch_range(lent, 0)  # a book that can be read has a block 0, so that this is not refused by 12
    c = 0
    shapes: list[ShapeRow] = []
    cells: list[CellRow] = []
    blocks: list[BlockRow] = []
    steps: list[StepRow] = []
    for kind, x, y, z, number, _ in _records(lent):
        if kind == 1:
            c = x
        elif 16 <= kind <= 18:
            shapes.append(ShapeRow(kind, x, y))
        elif kind == 32:
            cells.append(CellRow(x, y, z, number))
        elif kind == 48:
            blocks.append(BlockRow(x, 0))
        else:
            blocks[-1] = BlockRow(blocks[-1].bound, blocks[-1].steps + 1)
            steps.append(StepRow(kind, x, y, z, number))
    return BookTables(c, tuple(shapes), tuple(cells), tuple(blocks), tuple(steps))


def _number(value: int, name: str, bits: int) -> int:
    if not isinstance(value, int):
        raise TypeError(f"{name} must be an int, not {type(value).__name__}")
    if not 0 <= value < 2**bits:
        raise ValueError(f"{name} must be a number of {bits} bits")
    return value


def _whole(value: int, name: str) -> int:
    """A number of 32 bits that is no truth value."""
    if isinstance(value, bool):
        raise TypeError(f"{name} must be an int, not bool")
    return _number(value, name, 32)


def _launch(value: Optional[int]) -> int:
    """A launch label as the library takes it."""
    if value is None:
        return _library.DEFAULT_LAUNCH
    if _whole(value, "launch") == _library.DEFAULT_LAUNCH:
        raise ValueError("launch must be below 4294967295, which stands for none")
    return value


def _offset(value: int) -> int:
    """An offset that is beyond all memory is past the end as the last one is."""
    return min(_number(value, "offset", 64), _library.MOST_OFFSET)


def _fields(told: _library.Told) -> Optional[Fields]:
    if told.kind == 0:
        return None
    return Fields(told.kind, told.first, told.second, told.third, told.number, told.next)


def _records(lent: bytes) -> Iterator[Fields]:
    """The records of a lent book from its start, as far as it can be read."""
    offset = 0
    while (fields := _fields(_library.library.xemdulba_record(lent, len(lent), offset))) is not None:
        yield fields
        offset = fields.next


def _packed(table: Iterable[tuple[int, ...]], name: str, fields: tuple[str, ...], layout: struct.Struct) -> bytes:
    """A table as bytes. What cannot stand in a row is named by its table, its row and its field."""
    return b"".join(layout.pack(*_row(row, f"{name}[{at}]", fields)) for at, row in enumerate(table))


def _row(row: tuple[int, ...], name: str, fields: tuple[str, ...]) -> list[int]:
    try:
        values = tuple(row)
    except TypeError:
        raise TypeError(f"{name} must be a row, not {type(row).__name__}") from None
    if len(values) != len(fields):
        raise ValueError(f"{name} must have {len(fields)} fields ({', '.join(fields)}), not {len(values)}")
    return [_number(value, f"{name}.{field}", 32 if field in _NUMBERS else 8) for field, value in zip(fields, values)]


def _written(most_answers: int) -> list[ctypes.Array]:
    """Memory for the cell table, the job table and so many answers."""
    return [_library.space(TABLE * _CELL_SIZE), _library.space(TABLE * _JOB_SIZE), _library.space(most_answers, _UNANSWERED)]


def _with_lengths(written: list[ctypes.Array]) -> list[Union[ctypes.Array, int]]:
    """Each with its length behind it, as a call takes them."""
    return [argument for memory in written for argument in (memory, len(memory))]


def _run(counts: Union[_library.Ran, _library.Rounded], cells: ctypes.Array, jobs: ctypes.Array, answers: bytes) -> Run:
    return Run(
        tuple(_cell(entry) for entry in _entries(cells, _CELL_SIZE, counts.cells)),
        tuple(_job(entry) for entry in _entries(jobs, _JOB_SIZE, counts.jobs)),
        tuple(Answer(byte) for byte in answers),
    )


def _entries(table: ctypes.Array, size: int, count: int) -> list[bytes]:
    """The first records of a table."""
    table = bytes(table)
    return [table[number * size : (number + 1) * size] for number in range(count)]


def _value(entry: bytes, at: int) -> Value:
    number = int.from_bytes(entry[at + 1 : at + 5], "little")
    return Value(Kind(entry[at]), number, entry[at + 5])


def _cell(entry: bytes) -> Cell:
    shape, trust, label = entry[:3]
    return Cell(shape, trust, label, _value(entry, 3))


def _job(entry: bytes) -> Job:
    block, position, label, source = entry[:4]
    registers = tuple(_value(entry, 4 + number * _VALUE_SIZE) for number in range(REGISTERS))
    return Job(block, position, label, source, registers)


def _raise_refusal(answer: Union[_library.Checked, _library.Stretch, _library.Ran, _library.Rounded, _library.Written]) -> None:
    if answer.refusal != 0:
        raise Refusal(answer.refusal, answer.place)
