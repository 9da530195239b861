"""The cells that rows stand in, and their order."""

from __future__ import annotations

import re
from dataclasses import dataclass

KINDS = ("site", "seq", "type", "role", "user", "term", "node", "menu", "listing", "block", "session", "comment", "talk")
ALONE = ("site", "seq", "talk")
NUMBERED = ("user", "term", "node", "comment")
OF_SEQ = ("node", "term", "user")
"""The kinds of which `seq` has the next number; `talk` has that of comments."""
GREATEST_ID = 4_294_967_294

_NAME = re.compile(rb"[a-z0-9_]{1,64}")
_ID = re.compile(rb"[1-9][0-9]{0,9}")


@dataclass(frozen=True)
class Cell:
    """A cell: its kind, and its name or its number. `site`, `seq` and `talk` have neither."""

    kind: str
    name: str = ""

    @property
    def number(self) -> int:
        """The number of a user, a term, a node or a comment."""
        return int(self.name)

    @property
    def place(self) -> tuple[int, int, bytes]:
        """Where it stands: by kind, then by number, or by the bytes of the name."""
        number = self.number if self.kind in NUMBERED else 0
        return KINDS.index(self.kind), number, b"" if number else self.name.encode()

    def __str__(self) -> str:
        return f"{self.kind}:{self.name}" if self.name else self.kind


def cell_of(text: str) -> Cell | None:
    """The cell that a text names; none where no row can stand there."""
    if text in ALONE:
        return Cell(text)
    kind, colon, name = text.partition(":")
    if not colon or kind not in KINDS or kind in ALONE:
        return None
    raw = name.encode("utf-8", "surrogatepass")
    if kind in NUMBERED:
        return Cell(kind, name) if _ID.fullmatch(raw) and int(name) <= GREATEST_ID else None
    return Cell(kind, name) if _NAME.fullmatch(raw) else None
