"""desk BOOK EVENTS: checks a book and, where it is accepted, runs it on a list of events, with job 0 at the bound of block 0.

Exit status: 0 it ran, 1 refused, 2 no answer, or it cannot be written.
"""

import contextlib
import os
import sys
from pathlib import Path

# From the source folder, which stays as it is. An installed package needs neither line.
sys.dont_write_bytecode = True
sys.path.insert(0, str(Path(__file__).resolve().parents[1]))

import xemdulba  # noqa: E402


def value_words(value: xemdulba.Value) -> str:
    return f"{value.kind.name.lower()} {value.number} source {value.source}"


def cell_line(number: int, cell: xemdulba.Cell) -> str:
    return f"cell {number} shape {cell.shape} trust {cell.trust} label {cell.label} {value_words(cell.value)}"


def job_lines(number: int, job: xemdulba.Job) -> list[str]:
    head = f"job {number} block {job.block} position {job.position} label {job.label} source {job.source}"
    return [head, *(f"  register {r} {value_words(value)}" for r, value in enumerate(job.registers))]


def run_lines(run: xemdulba.Run) -> list[str]:
    lines = [f"ran cells {len(run.cells)} jobs {len(run.jobs)}"]
    lines.append("".join(["answers", *(f" {int(answer)}" for answer in run.answers)]))
    lines.extend(cell_line(number, cell) for number, cell in enumerate(run.cells))
    for number, job in enumerate(run.jobs):
        lines.extend(job_lines(number, job))
    return lines


def desk(book: bytes, events: bytes) -> tuple[int, list[str]]:
    """The exit status, and the lines of the verdict and of what the run gives."""
    lines = []
    try:
        lines.append(str(xemdulba.check(book)))
        lines.extend(run_lines(xemdulba.run(book, events, xemdulba.bound(book))))
    except xemdulba.Refusal as refusal:
        return 1, [*lines, str(refusal)]
    return 0, lines


def read(path: str) -> bytes:
    """The file's first bytes: so many are refused, whatever follows them."""
    with open(path, "rb") as file:
        return file.read(65_537)


def write(lines: list[str]) -> None:
    """Writes to standard output. print() says nothing where that is closed, and tries again at the end what has failed."""
    try:
        with open(1, "wb", closefd=False) as output:
            output.write("".join(f"{line}\n" for line in lines).encode())
    except OSError as error:
        error.filename = "standard output"
        raise


def complain(words: str) -> int:
    """Says it on standard error, if that can be written; gives the exit status that goes with it."""
    with contextlib.suppress(OSError):
        os.write(2, f"{words}\n".encode(errors="backslashreplace"))
    return 2


def main(arguments: list[str]) -> int:
    if len(arguments) != 2:
        return complain("usage: desk BOOK EVENTS")
    try:
        book, events = (read(argument) for argument in arguments)
        status, lines = desk(book, events)
        write(lines)
    except BrokenPipeError:
        return 2  # a reader who has gone away wants to hear nothing
    except OSError as error:
        return complain(f"desk: {error}")
    return status


if __name__ == "__main__":
    sys.exit(main(sys.argv[1:]))
