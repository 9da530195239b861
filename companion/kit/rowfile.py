"""Files of rows, one JSON object a line, read as the program reads them."""

from __future__ import annotations

import sys
from dataclasses import dataclass, field
from pathlib import Path
from typing import Any, Iterator, Mapping

from . import strict_json
from .asks import Fault, kind_of
from .cells import Cell, cell_of
from .row_rules import RowFault, cell_fault, row_faults
from .trouble import Trouble

MOST_LINES = 100_000
LONGEST_LINE = 1_048_576
COPY_ROWS = "site.rows"
"""The file of a backup that has its rows."""


@dataclass
class Line:
    """A line of a file: its number from 1, its cell and its row where they can be read, and what is wrong with it."""

    number: int
    cell: Cell | None = None
    row: Mapping[str, Any] | None = None
    faults: list[RowFault] = field(default_factory=list)

    @property
    def message(self) -> str:
        """What the program would tell of the line."""
        first = self.faults[0]
        if first.fault.rule == "bad-json":
            return f"line {self.number}: bad-json"
        return f"line {self.number}: {first.fault.rule} {first.field}"


def _of_line(rule: str, said: str) -> RowFault:
    return RowFault("-", Fault(rule, "-", said))


def read_line(number: int, raw: bytes) -> Line:
    """What a line says, by itself."""
    if len(raw) > LONGEST_LINE:
        return Line(number, faults=[_of_line("length", f"the line has more than {LONGEST_LINE:,} bytes")])
    try:
        value = strict_json.read(raw)
    except strict_json.NoJson as fault:
        return Line(number, faults=[_of_line("bad-json", f"this is no JSON: {fault}")])
    if not isinstance(value, dict):
        return Line(number, faults=[_of_line("bad-json", f"{kind_of(value)} stands there; wanted is an object")])
    faults = list(row_faults(value))
    cell = None if cell_fault(value) else cell_of(value["cell"])
    return Line(number, cell, value, faults)


def read_lines(data: bytes) -> Iterator[Line]:
    """The lines of a file, each with what is wrong with it; the last ends with the file or with a line's end."""
    seen: dict[Cell, int] = {}
    raws = data.split(b"\n")
    if raws[-1] == b"":
        raws.pop()
    for number, raw in enumerate(raws, 1):
        if number > MOST_LINES:
            yield Line(number, faults=[_of_line("many", f"a file has at most {MOST_LINES:,} lines")])
            return
        line = read_line(number, raw)
        if line.cell is not None:
            if line.cell in seen:
                said = f"line {seen[line.cell]} is {line.cell} already"
                line.faults.append(RowFault("cell", Fault("twice", "cell", said)))
            seen.setdefault(line.cell, number)
        yield line


def rows_file(name: str) -> str:
    """The file of rows that a name is of: itself, or, where it is a backup, the export in it."""
    return str(Path(name) / COPY_ROWS) if Path(name).is_dir() else name


def read_bytes(name: str) -> bytes:
    """What a file holds, or the input where the name is `-`."""
    if name == "-":
        return sys.stdin.buffer.read()
    try:
        return Path(name).read_bytes()
    except OSError as fault:
        raise Trouble(f"{name}: {fault.strerror}") from fault


def read_rows(name: str) -> dict[Cell, dict[str, Any]]:
    """The rows of a file, each right by itself, by their cells. `Trouble` with its first fault where one isn't."""
    rows: dict[Cell, dict[str, Any]] = {}
    for line in read_lines(read_bytes(name)):
        if line.faults:
            raise Trouble(f"{name}: {line.message} ({line.faults[0].fault.place}: {line.faults[0].fault.said})")
        assert line.cell is not None and line.row is not None
        rows[line.cell] = dict(line.row)
    return rows


def in_order(rows: Mapping[Cell, Mapping[str, Any]]) -> str:
    """Rows as the text of a file, in the order of their cells."""
    cells = sorted(rows, key=lambda cell: cell.place)
    return "".join(strict_json.write(rows[cell]) + "\n" for cell in cells)
