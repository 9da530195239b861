"""`edit role`, `type`, `block`, `menu`, `listing` and `site`: rows that are sent whole."""

from __future__ import annotations

import argparse
import json
from pathlib import Path
from typing import Any, Callable, Mapping

from . import strict_json
from .cells import Cell
from .converting import Builder, MenuWish
from .document import Document
from .edit_common import Adder, client_of, told
from .outputs import tell
from .rowfile import read_bytes, read_rows, rows_file
from .starting import block_row
from .tables import OF_KIND
from .trouble import Trouble
from .values import check, values_of

KINDS = {
    "role": "roles and their permissions",
    "type": "types of content",
    "block": "blocks",
    "menu": "menus",
    "listing": "listings",
}
DEFAULTS: Mapping[str, Mapping[str, Any]] = {
    "role": {"admin": False, "grants": [], "permissions": []},
    "type": {"fields": [], "submitted": False},
    "block": {key: value for key, value in block_row("text", "aside").items() if key != "kind"},
    "menu": {"links": []},
    "listing": {"age": None, "path": None, "promoted": False, "recent": None, "term": None, "types": []},
    "site": {},
}
COPY_FACTS = "backup.json"
"""The file of a backup that has what is known of it."""


def _row_of(given: argparse.Namespace, cell: Cell) -> dict[str, Any]:
    """The row of an export, without its cell."""
    row = read_rows(rows_file(given.source)).get(cell)
    if row is None:
        raise Trouble(f"{given.source} has no {cell}")
    return {key: value for key, value in row.items() if key != "cell"}


def _cell(given: argparse.Namespace) -> Cell:
    return Cell("site") if given.kind == "site" else Cell(given.kind, given.name)


def _warn_of_edits(given: argparse.Namespace, number: int | None) -> None:
    """Tells where the site was changed after the backup that a row is of."""
    facts = Path(given.source or "") / COPY_FACTS
    if not given.source or number is None or not facts.is_file():
        return
    behind = number - 1 - json.loads(facts.read_text(encoding="utf-8"))["number"]
    if behind > 0:
        tell(f"note: the site had {behind} edits or logins between the copy and this; if one was of {_cell(given)}, it is written over")


def _send(given: argparse.Namespace, row: Mapping[str, Any]) -> int:
    check(OF_KIND[given.kind], row)
    path = "/config/site" if given.kind == "site" else f"/config/{given.kind}/{given.name}"
    reply = client_of(given).edit("POST", path, dict(row))
    _warn_of_edits(given, reply.number)
    return told(f"{_cell(given)} is written", reply)


def put(given: argparse.Namespace) -> int:
    """Sends a row of a file."""
    try:
        value = strict_json.read(read_bytes(given.file))
    except strict_json.NoJson as fault:
        raise Trouble(f"{given.file}: this is no JSON: {fault}", 2) from fault
    if not isinstance(value, dict) or value.pop("cell", str(_cell(given))) != str(_cell(given)):
        raise Trouble(f"{given.file}: wanted is one row of {_cell(given)}")
    return _send(given, value)


def set_keys(given: argparse.Namespace) -> int:
    """Sends a row of an export, or a new one, with some keys changed."""
    row = _row_of(given, _cell(given)) if given.source else dict(DEFAULTS[given.kind])
    return _send(given, {**row, **values_of(OF_KIND[given.kind], given.values)})


def get(given: argparse.Namespace) -> int:
    """Prints a row of an export, to be changed by hand and put back."""
    print(json.dumps(_row_of(given, _cell(given)), ensure_ascii=False, indent=2, sort_keys=True))
    return 0


def delete(given: argparse.Namespace) -> int:
    """Removes a row."""
    return told(f"{_cell(given)} is removed", client_of(given).edit("DELETE", f"/config/{given.kind}/{given.name}"))


def link(given: argparse.Namespace) -> int:
    """Adds a link to a menu of an export, or changes the one that leads to its path, and sends the menu."""
    site = Document(read_rows(rows_file(given.source)))
    if _cell(given) not in site.rows:
        raise Trouble(f"{given.source} has no {_cell(given)}; `edit menu set {given.name} label=..` makes one")
    builder = Builder(site, "")
    builder.link(given.name, MenuWish(given.title, given.under or "", given.weight), given.path)
    for words in builder.notes:
        raise Trouble(words)
    return _send(given, {key: site.rows[_cell(given)][key] for key in ("label", "links")})


def unlink(given: argparse.Namespace) -> int:
    """Takes a link and those below it out of a menu of an export, and sends the menu."""
    row = _row_of(given, _cell(given))
    gone = {link["id"] for link in row["links"] if given.link in (link["id"], link["title"], link["path"])}
    if not gone:
        raise Trouble(f"the menu {given.name} has no link {given.link!r}")
    while True:
        below = {link["id"] for link in row["links"] if link["parent"] in gone} - gone
        if not below:
            break
        gone |= below
    return _send(given, {**row, "links": [link for link in row["links"] if link["id"] not in gone]})


def _add(group: Adder, kind: str, name: str, words: str, run: Callable[[argparse.Namespace], int]) -> argparse.ArgumentParser:
    it = group.add(name, words, run)
    it.set_defaults(kind=kind, source=None)
    if kind != "site":
        it.add_argument("name", metavar="NAME")
    return it


def _add_source(it: argparse.ArgumentParser, is_needed: bool, words: str) -> None:
    it.add_argument("--from", dest="source", metavar="EXPORT", required=is_needed, help=words)


def _add_kind(top: Adder, kind: str, words: str) -> None:
    group = top.group(kind, words)
    of_export = "an export, or a backup, to take the row from; take a fresh one, for the whole row is sent"
    it = _add(group, kind, "set", "write a row of an export, or a new one, with some keys changed", set_keys)
    _add_source(it, kind == "site", of_export + "; without it a new row is written over what may be there")
    keys = ", ".join(OF_KIND[kind])
    it.add_argument("values", nargs="*", metavar="KEY=VALUE", help=f"keys: {keys}; lists with commas between, or as JSON; @FILE reads a text")
    it = _add(group, kind, "put", "write a row of a file, as `get` prints it", put)
    it.add_argument("file", metavar="FILE", help="the row as JSON, or - for the input")
    _add_source(_add(group, kind, "get", "print a row of an export", get), True, "an export, or a backup")
    if kind != "site":
        _add(group, kind, "delete", "remove a row", delete)
    if kind == "menu":
        it = _add(group, kind, "link", "add a link, or change the one that leads to its path", link)
        _add_source(it, True, of_export)
        it.add_argument("--title", required=True)
        it.add_argument("--path", required=True)
        it.add_argument("--under", metavar="LINK", help="the id, title or path of the link that it stands below")
        it.add_argument("--weight", type=int, default=0, help="lighter links come first (default: 0)")
        it = _add(group, kind, "unlink", "take a link out, with those below it", unlink)
        _add_source(it, True, of_export)
        it.add_argument("link", metavar="LINK", help="its id, title or path")


def add_to(top: Adder) -> None:
    """Adds the subcommands."""
    for kind, words in KINDS.items():
        _add_kind(top, kind, f"write and remove {words}")
    _add_kind(top, "site", "write the site's name and its front path")
