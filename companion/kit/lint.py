"""`lint`: every fault of a file of rows at once, and warnings of what shows nothing."""

from __future__ import annotations

import argparse
from dataclasses import dataclass, field
from typing import Any, Iterator, Mapping, Optional

from .cells import Cell
from .outputs import Progress
from .rowfile import Line, read_bytes, read_lines, read_rows, rows_file
from .site_rules import SiteFault, site_faults
from .warnings import Warning, warnings_of

MOST_ALIKE = 5


@dataclass
class Findings:
    """What was found in a file: its lines, the faults of the whole, and, where there are none, warnings."""

    lines: int = 0
    faulty: list[Line] = field(default_factory=list)
    faults: list[SiteFault] = field(default_factory=list)
    warnings: list[Warning] = field(default_factory=list)

    @property
    def first(self) -> Optional[str]:
        """What the program tells of the file; none where it takes it."""
        if self.faulty:
            return self.faulty[0].message
        for fault in self.faults:
            return f"cell {fault.cell}: {fault.rule} {fault.field}"
        return None

    @property
    def count(self) -> int:
        """How many faults there are."""
        return sum(len(line.faults) for line in self.faulty) + len(self.faults)


def look(data: bytes, onto: Mapping[Cell, Mapping[str, Any]]) -> Findings:
    """What is found in a file that is to be imported over rows which may be there already."""
    found = Findings()
    rows: dict[Cell, Optional[Mapping[str, Any]]] = dict(onto)
    progress = Progress("lines", data.count(b"\n"))
    for line in read_lines(data):
        found.lines += 1
        progress.at(found.lines)
        if line.faults:
            found.faulty.append(line)
        if line.cell is not None:
            rows[line.cell] = None if line.faults else line.row
    found.faults = list(site_faults(rows))
    if not found.faulty and not found.faults:
        found.warnings = warnings_of({cell: row for cell, row in rows.items() if row is not None})
    return found


def _line_words(line: Line) -> Iterator[str]:
    where = f"line {line.number}" + (f", {line.cell}" if line.cell else "")
    for fault in line.faults:
        yield f"{where}: {fault.fault.place}: {fault.fault.said} [{fault.fault.rule}]"


def _warning_words(warnings: list[Warning], whole: bool) -> Iterator[str]:
    """Warnings in words; of many on one topic the first few, unless all are wanted."""
    told: dict[str, int] = {}
    for warning in warnings:
        told[warning.topic] = told.get(warning.topic, 0) + 1
        if whole or told[warning.topic] <= MOST_ALIKE:
            yield f"warning: {warning.cell}: {warning.said} [{warning.topic}]"
    for topic, count in told.items():
        if not whole and count > MOST_ALIKE:
            yield f"warning: and {count - MOST_ALIKE} more like these [{topic}]; --all shows them"


def words(found: Findings, whole: bool) -> Iterator[str]:
    """What was found, a line each."""
    if found.first is not None:
        yield f"the program would say: {found.first}"
    for line in found.faulty:
        yield from _line_words(line)
    for fault in found.faults:
        yield f"{fault.cell}: {fault.field}: {fault.said} [{fault.rule}]"
    yield from _warning_words(found.warnings, whole)
    yield f"{found.lines} lines, {_some(found.count, 'fault')}, {_some(len(found.warnings), 'warning')}"


def _some(count: int, what: str) -> str:
    return f"{count or 'no'} {what}{'' if count == 1 else 's'}"


def run(given: argparse.Namespace) -> int:
    """Prints what is found. 0 where nothing is wrong, 3 where the program would refuse the file, 1 at warnings with --strict."""
    onto = read_rows(rows_file(given.onto)) if given.onto else {}
    found = look(read_bytes(rows_file(given.rows)), onto)
    if given.first:
        print(found.first or "no fault")
    else:
        print("\n".join(words(found, given.all)))
    if found.first is not None:
        return 3
    return 1 if given.strict and found.warnings else 0


def add_to(commands: Any) -> None:
    """Adds the subcommand."""
    it = commands.add_parser(
        "lint",
        help="every fault of a file of rows at once, and what is allowed and shows nothing",
        description="Looks at a file of rows as `site import` would, tells every fault at once, in words, and warns of what is "
        "allowed and shows nothing. Status 0: no fault. 3: the program would refuse the file. 1: warnings, with --strict.",
    )
    it.add_argument("rows", metavar="ROWS", help="a file of rows, a backup, or - for the input")
    it.add_argument("--onto", metavar="ROWS", help="rows that are stored already, as an export: the file's replace those of their cells")
    it.add_argument("--first", action="store_true", help="print just the message that the program would give")
    it.add_argument("--strict", action="store_true", help="end with status 1 where there are warnings")
    it.add_argument("--all", action="store_true", help="print all warnings, also where many are alike")
    it.set_defaults(run=run)
