"""What is wrong with one row by itself."""

from __future__ import annotations

from dataclasses import dataclass
from typing import Any, Iterator, Mapping

from .asks import Fault, kind_of, object_faults, shown
from .cells import Cell, cell_of
from .tables import OF_KIND

MOST_LINKS_DEEP = 9
BLOCK_PAIRS = (("age", ("clock",)), ("name", ("menu", "listing")), ("text", ("text",)))


@dataclass(frozen=True)
class RowFault:
    """A fault of a row, with the outermost key that it is told of."""

    field: str
    fault: Fault


def cell_fault(row: Mapping[str, Any]) -> RowFault | None:
    """What is wrong with the cell of a row."""
    if "cell" not in row:
        return RowFault("cell", Fault("missing", "cell", "the key 'cell' isn't there, so the row has no place"))
    text = row["cell"]
    if not isinstance(text, str):
        return RowFault("cell", Fault("kind", "cell", f"{kind_of(text)} stands there; wanted is a cell, as `node:1`"))
    if cell_of(text) is None:
        known = "site, seq, talk, and type:, role:, menu:, listing:, block:, session: with a name, user:, term:, node:, comment: with a number"
        return RowFault("cell", Fault("bytes", "cell", f"{shown(text)} is no cell; cells are {known}"))
    return None


def row_faults(row: Mapping[str, Any]) -> Iterator[RowFault]:
    """All that is wrong with a row, in the order in which the program looks for it."""
    fault = cell_fault(row)
    if fault is not None:
        yield fault
        return
    cell = cell_of(row["cell"])
    assert cell is not None
    broken = set()
    for field, wrong in object_faults(OF_KIND[cell.kind], row, passed=("cell",)):
        broken.add(field)
        yield RowFault(field, wrong)
    for fault in _together(cell, row):
        if not broken & {fault.field, "kind", "recent"}:
            yield fault


def _together(cell: Cell, row: Mapping[str, Any]) -> Iterator[RowFault]:
    """What the keys of a row break together. Where a key is broken by itself what is said of it counts for nothing."""
    try:
        if cell.kind == "type":
            yield from _twice("fields", "fields", "name", row["fields"])
        elif cell.kind == "menu":
            yield from _link_faults(row["links"])
        elif cell.kind == "listing":
            yield from _listing_faults(row)
        elif cell.kind == "block":
            yield from _block_faults(row)
    except (KeyError, TypeError):
        return


def _twice(field: str, place: str, key: str, members: list[Mapping[str, Any]]) -> Iterator[RowFault]:
    seen: set[str] = set()
    for at, member in enumerate(members):
        if member[key] in seen:
            yield RowFault(field, Fault("twice", f"{place}[{at}].{key}", f"{member[key]!r} is there already"))
        seen.add(member[key])


def _link_faults(links: list[Mapping[str, Any]]) -> Iterator[RowFault]:
    twice = list(_twice("links", "links", "id", links))
    yield from twice
    above = {link["id"]: link["parent"] for link in links}
    absent = [at for at, link in enumerate(links) if link["parent"] is not None and link["parent"] not in above]
    for at in absent:
        said = f"no link of the menu has the id {links[at]['parent']!r}"
        yield RowFault("links", Fault("absent", f"links[{at}].parent", said))
    if twice or absent:
        return
    depths = {at: _depth(link["id"], above) for at, link in enumerate(links)}
    for at, depth in depths.items():
        if depth is None:
            yield RowFault("links", Fault("cycle", f"links[{at}].parent", "its parents lead back to one of them"))
    for at, depth in depths.items():
        if depth is not None and depth > MOST_LINKS_DEEP:
            said = f"it stands {depth} deep; at most {MOST_LINKS_DEEP} are allowed"
            yield RowFault("links", Fault("deep", f"links[{at}].parent", said))


def _depth(link: str, above: Mapping[str, str | None]) -> int | None:
    """How deep a link stands, 1 at the top; none where its parents lead round."""
    depth, at = 1, above[link]
    while at is not None:
        depth, at = depth + 1, above[at]
        if depth > len(above):
            return None
    return depth


def _listing_faults(row: Mapping[str, Any]) -> Iterator[RowFault]:
    if (row["age"] is None) != (row["recent"] is None):
        said = "age and recent go together: both are null, or both are numbers"
        yield RowFault("age", Fault("pair", "age", said))


def _block_faults(row: Mapping[str, Any]) -> Iterator[RowFault]:
    for key, kinds in BLOCK_PAIRS:
        if (row[key] is not None) != (row["kind"] in kinds):
            wanted = "has to be there" if row["kind"] in kinds else "has to be null"
            yield RowFault(key, Fault("pair", key, f"in a block of the kind {row['kind']} it {wanted}"))
