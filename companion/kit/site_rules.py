"""What is wrong with rows that are each right by themselves: the rules of a whole site."""

from __future__ import annotations

from dataclasses import dataclass, field
from typing import Any, Iterator, Mapping, Optional

from .cells import OF_SEQ, Cell

Rows = Mapping[Cell, Optional[Mapping[str, Any]]]
"""Rows by their cells. One that is wrong by itself is None: it is there, and nothing is asked of it."""

MOST_DEEP = 9
"""How deep a term or a comment may stand at most."""
MOST_COMMENTS = 1_000
"""How many comments a node may have."""
TALK = Cell("talk")
REQUIRED = (Cell("site"), Cell("seq"), Cell("role", "anonymous"), Cell("role", "authenticated"))


@dataclass(frozen=True)
class SiteFault:
    """A rule that a cell breaks: the word for it, what breaks it, and what is wrong, in words."""

    cell: Cell
    rule: str
    field: str
    said: str


@dataclass
class Seen:
    """What the cells have that were looked at: which one has each text that no two rows may have, and how many comments a node has."""

    cells: dict[tuple[str, str], Cell] = field(default_factory=dict)
    comments: dict[int, int] = field(default_factory=dict)

    def taken(self, what: str, text: str | None, cell: Cell, key: str) -> Iterator[SiteFault]:
        """The fault of a text that a cell before has."""
        if text is None:
            return
        holder = self.cells.setdefault((what, text), cell)
        if holder != cell:
            yield SiteFault(cell, "taken", key, f"{text!r} is the {key} of {holder} already")

    def many(self, node: int, cell: Cell) -> Iterator[SiteFault]:
        """The fault of a comment before which its node has as many as it may."""
        before = self.comments.get(node, 0)
        self.comments[node] = before + 1
        if before >= MOST_COMMENTS:
            yield SiteFault(cell, "many", "node", f"node:{node} has {before} comments before it; at most {MOST_COMMENTS:,} are allowed")


def missing_faults(rows: Rows) -> Iterator[SiteFault]:
    """The rows that every site has and that aren't there."""
    for cell in REQUIRED:
        if cell not in rows:
            yield SiteFault(cell, "missing", "cell", f"every site has a row `{cell}`, and it isn't there")
    if TALK not in rows and any(it.kind == "comment" for it in rows):
        yield SiteFault(TALK, "missing", "cell", f"a site with comments has a row `{TALK}`, and it isn't there")


def site_faults(rows: Rows) -> Iterator[SiteFault]:
    """All that is wrong with rows as a site, cell by cell in their order; what the program tells is the first."""
    seen = Seen()
    missing = {fault.cell: fault for fault in missing_faults(rows)}
    for cell in sorted(set(rows) | set(missing), key=lambda cell: cell.place):
        row = rows.get(cell)
        if cell in missing:
            yield missing[cell]
        elif row is not None:
            yield from _cell_faults(rows, seen, cell, row)


def _cell_faults(rows: Rows, seen: Seen, cell: Cell, row: Mapping[str, Any]) -> Iterator[SiteFault]:
    if cell.kind == "seq":
        yield from _seq_faults(rows, cell, row)
    elif cell.kind == "user":
        yield from seen.taken("user uuid", row["uuid"], cell, "uuid")
        yield from seen.taken("user name", row["name"], cell, "name")
    elif cell.kind == "term":
        yield from _tree_faults(rows, cell, row)
        yield from seen.taken("term uuid", row["uuid"], cell, "uuid")
    elif cell.kind == "node":
        yield from _node_faults(rows, seen, cell, row)
    elif cell.kind == "listing":
        yield from seen.taken("path", row["path"], cell, "path")
    elif cell.kind == "session":
        yield from _absent_user(rows, cell, row["uid"])
    elif cell.kind == "comment":
        yield from _comment_faults(rows, seen, cell, row)
    elif cell.kind == "talk":
        yield from _next_faults(rows, cell, row, "comment")


def _seq_faults(rows: Rows, cell: Cell, row: Mapping[str, Any]) -> Iterator[SiteFault]:
    for kind in OF_SEQ:
        yield from _next_faults(rows, cell, row, kind)


def _next_faults(rows: Rows, cell: Cell, row: Mapping[str, Any], kind: str) -> Iterator[SiteFault]:
    """The fault of a next number that isn't above all of its kind."""
    greatest = max((it.number for it in rows if it.kind == kind), default=0)
    if row[kind] <= greatest:
        said = f"the next {kind} would be {row[kind]}, and {kind}:{greatest} is there; wanted is {greatest + 1} or more"
        yield SiteFault(cell, "range", kind, said)


def _tree_faults(rows: Rows, cell: Cell, row: Mapping[str, Any]) -> Iterator[SiteFault]:
    """The faults of the way up from a term or a comment: its parent isn't there, it comes round in a circle, it is too long."""
    if row.get("parent") is None:
        return
    parent = Cell(cell.kind, str(row["parent"]))
    if parent not in rows:
        yield SiteFault(cell, "absent", "parent", f"there is no {parent}")
    elif cell.kind == "comment" and _node_of(rows, parent) not in (None, row["node"]):
        yield SiteFault(cell, "absent", "parent", f"{parent} is on node:{_node_of(rows, parent)}, and this on node:{row['node']}")
    depth = depth_of(rows, cell)
    if depth is None:
        yield SiteFault(cell, "cycle", "parent", "its parents lead round in a circle")
    elif depth > MOST_DEEP:
        yield SiteFault(cell, "deep", "parent", f"it stands {depth} deep; at most {MOST_DEEP} are allowed")


def _node_of(rows: Rows, comment: Cell) -> int | None:
    """The node that a comment is on; none where the comment is wrong by itself."""
    return (rows.get(comment) or {}).get("node")


def _above(rows: Rows, cell: Cell) -> Cell | None:
    parent = (rows.get(cell) or {}).get("parent")
    return None if parent is None else Cell(cell.kind, str(parent))


def way_up(rows: Rows, cell: Cell) -> list[Cell]:
    """A term or a comment, its parent and so on, each once; one that isn't there is the last."""
    way: list[Cell] = []
    at: Cell | None = cell
    while at is not None and at not in way:
        way.append(at)
        at = _above(rows, at)
    return way


def depth_of(rows: Rows, cell: Cell) -> int | None:
    """How deep a term or a comment stands, 1 at the top; none where its parents lead round. A parent that isn't there counts."""
    way = way_up(rows, cell)
    return len(way) if _above(rows, way[-1]) is None else None


def _node_faults(rows: Rows, seen: Seen, cell: Cell, row: Mapping[str, Any]) -> Iterator[SiteFault]:
    if Cell("type", row["type"]) not in rows:
        yield SiteFault(cell, "absent", "type", f"there is no type:{row['type']}")
    if row["uid"] != 0:
        yield from _absent_user(rows, cell, row["uid"])
    yield from seen.taken("node uuid", row["uuid"], cell, "uuid")
    yield from seen.taken("path", row["path"], cell, "path")


def _absent_user(rows: Rows, cell: Cell, uid: int) -> Iterator[SiteFault]:
    if Cell("user", str(uid)) not in rows:
        yield SiteFault(cell, "absent", "uid", f"there is no user:{uid}")


def _comment_faults(rows: Rows, seen: Seen, cell: Cell, row: Mapping[str, Any]) -> Iterator[SiteFault]:
    if Cell("node", str(row["node"])) not in rows:
        yield SiteFault(cell, "absent", "node", f"there is no node:{row['node']}")
    if row["uid"] != 0:
        yield from _absent_user(rows, cell, row["uid"])
    yield from _tree_faults(rows, cell, row)
    yield from seen.many(row["node"], cell)
    yield from seen.taken("comment uuid", row["uuid"], cell, "uuid")
