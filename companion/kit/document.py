"""A site that is being written: rows by their cells, with ids given in turn."""

from __future__ import annotations

import os
import time
import uuid
from typing import Any, Mapping, Optional

from .cells import OF_SEQ, Cell
from .lint import look
from .rowfile import in_order, read_rows, rows_file
from .site_rules import MOST_DEEP, depth_of, site_faults
from .tables import OF_KIND
from .texts import Paths, as_line
from .trouble import Trouble

Row = dict[str, Any]


def now() -> int:
    """This moment; that of SOURCE_DATE_EPOCH where it is set, so that the same source gives the same rows."""
    fixed = os.environ.get("SOURCE_DATE_EPOCH")
    return int(fixed) if fixed else int(time.time())


def universal_id(*parts: str) -> str:
    """A universal id made of words: the same words give the same id."""
    return str(uuid.uuid5(uuid.NAMESPACE_URL, "/".join(("sitekit:",) + parts)))


class Document:
    """The rows of a site. What was there at the start is remembered, so that what changed can be told apart."""

    def __init__(self, rows: Optional[Mapping[Cell, Row]] = None) -> None:
        self.rows: dict[Cell, Row] = {cell: dict(row) for cell, row in (rows or {}).items()}
        self._before = {cell: dict(row) for cell, row in self.rows.items()}
        self._found: dict[tuple[str, str], dict[Any, Cell]] = {}
        self.paths = Paths({row["path"] for row in self.rows.values() if row.get("path")})

    @classmethod
    def read(cls, name: str) -> "Document":
        """The site of a file of rows, which has to be one."""
        rows = read_rows(rows_file(name))
        for fault in site_faults(rows):
            raise Trouble(f"{name}: {fault.cell}: {fault.said}; `sitekit lint {name}` tells all")
        return cls(rows)

    def put(self, kind: str, name: str, row: Mapping[str, Any]) -> Cell:
        """Puts a row into its cell. Its keys are those of its kind."""
        cell = Cell(kind, name)
        assert set(row) == set(OF_KIND[kind]), (kind, set(row) ^ set(OF_KIND[kind]))
        for (of, key), found in self._found.items():
            if of == kind:
                found.pop(self.rows[cell][key] if cell in self.rows else None, None)
                found.setdefault(row[key], cell)
        self.rows[cell] = {**row, "cell": str(cell)}
        return cell

    def of_kind(self, kind: str) -> list[tuple[Cell, Row]]:
        """The rows of a kind, in order."""
        return sorted(((cell, row) for cell, row in self.rows.items() if cell.kind == kind), key=lambda it: it[0].place)

    def find(self, kind: str, key: str, value: Any) -> Optional[Cell]:
        """The first row of a kind with a value at a key, which is a text."""
        if (kind, key) not in self._found:
            self._found[kind, key] = {row[key]: cell for cell, row in reversed(self.of_kind(kind))}
        return self._found[kind, key].get(value)

    def number(self, kind: str) -> str:
        """The next id of a kind that `seq` numbers, which is given away."""
        assert kind in OF_SEQ
        seq = self.rows[Cell("seq")]
        given = seq[kind]
        self.rows[Cell("seq")] = {**seq, kind: given + 1}
        return str(given)

    def term(self, name: str, description: str = "", parent: Optional[int] = None) -> int:
        """The term of a name, which is made where it isn't there, below a parent if one is named."""
        name = as_line(name)
        cell = self.find("term", "name", name)
        if cell is None:
            row = {
                "description": description, "name": name, "parent": parent, "status": True, "uuid": universal_id("term", name),
            }  # fmt: skip
            if self.find("term", "uuid", row["uuid"]):
                row["uuid"] = str(uuid.uuid4())
            cell = self.put("term", self.number("term"), row)
        return cell.number

    def put_below(self, number: int, parent: int) -> bool:
        """Puts a term that stands at the top below another one; not where that makes a circle, or a term too deep."""
        cell = Cell("term", str(number))
        row = self.rows[cell]
        if row.get("parent") is not None:
            return row["parent"] == parent
        self.rows[cell] = {**row, "parent": parent}
        depths = [depth_of(self.rows, it) for it in self.rows if it.kind == "term"]
        if all(depth is not None and depth <= MOST_DEEP for depth in depths):
            return True
        self.rows[cell] = row
        return False

    def user(self, name: str, created: int, roles: tuple[str, ...] = (), password: Optional[tuple[str, str]] = None) -> int:
        """The user of a name, who is made where there is none, and can't log in unless there is a salt and a digest."""
        name = as_line(name, 60)
        cell = self.find("user", "name", name)
        if cell is None:
            salt, digest = password or ("", None)
            row = {
                "created": created, "digest": digest, "grants": [], "name": name, "roles": list(roles), "salt": salt,
                "status": True, "uuid": universal_id("user", name),
            }  # fmt: skip
            if self.find("user", "uuid", row["uuid"]):
                row["uuid"] = str(uuid.uuid4())
            cell = self.put("user", self.number("user"), row)
        return cell.number

    def changed(self) -> dict[Cell, Row]:
        """The rows that weren't there at the start, or were others."""
        return {cell: row for cell, row in self.rows.items() if self._before.get(cell) != row}

    def text(self, changes_alone: bool = False) -> str:
        """The rows as a file: all of them, or those alone that changed."""
        return in_order(self.changed() if changes_alone else self.rows)

    def check(self) -> None:
        """Looks whether the rows are a site, before they are handed on."""
        found = look(self.text().encode(), {})
        if found.first is not None:
            raise Trouble(f"the rows that were made are no site ({found.first}); this is a fault of sitekit's own")
