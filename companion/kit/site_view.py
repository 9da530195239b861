"""What a site's rows show: where paths lead, and what a visitor may see."""

from __future__ import annotations

import re
from typing import Any, Mapping, Optional

from .cells import Cell

Rows = Mapping[Cell, Mapping[str, Any]]
LOGIN = Cell("login")
OF_EDITS = ("/node", "/taxonomy/term", "/user", "/user/login", "/user/logout", "/cache/rebuild")
"""The paths of edits that name no row."""
AS_JSON = "/json/"
"""What paths begin with that are answered as JSON."""
_NUMBERED = re.compile(r"/(node|taxonomy/term|user)/([1-9][0-9]{0,9})")
_KIND_OF = {"node": "node", "taxonomy/term": "term", "user": "user"}
_ENTITY = re.compile(AS_JSON + r"(?:(node|term|user)/([1-9][0-9]{0,9})|(listing)/([a-z0-9_]{1,64}))")


def paths_of(rows: Rows) -> dict[str, Cell]:
    """The nodes and listings that have paths of their own, by these."""
    return {row["path"]: cell for cell, row in rows.items() if cell.kind in ("node", "listing") and row["path"]}


def route(rows: Rows, paths: Mapping[str, Cell], path: str) -> Optional[Cell]:
    """The row that a path shows, `LOGIN` for the login form, none where nothing is there."""
    if path == "/":
        front = rows[Cell("site")]["front"]
        return route(rows, paths, front) if front != "/" and not front.startswith(AS_JSON) else None
    if path == "/user/login":
        return LOGIN
    numbered = _NUMBERED.fullmatch(path)
    if numbered:
        return _if_there(rows, Cell(_KIND_OF[numbered[1]], numbered[2]))
    entity = _ENTITY.fullmatch(path)
    if entity:
        return _if_there(rows, Cell(entity[1] or entity[3], entity[2] or entity[4]))
    return paths.get(path)


def _if_there(rows: Rows, cell: Cell) -> Optional[Cell]:
    return cell if cell in rows else None


def is_answered(rows: Rows, paths: Mapping[str, Cell], path: str) -> bool:
    """Whether the site answers at a path: it shows a row there, or takes edits."""
    return path in OF_EDITS or route(rows, paths, path) is not None


def address_of(rows: Rows, cell: Cell) -> str:
    """Where a node is found: its path, or its number."""
    return rows[cell]["path"] or f"/node/{cell.name}"


def permissions_of_visitors(rows: Rows) -> set[str]:
    """What whoever has no session may do."""
    role = rows.get(Cell("role", "anonymous"))
    return set(role["permissions"]) if role else set()


def may_visitors_see(rows: Rows, cell: Cell) -> bool:
    """Whether whoever has no session may see what a path shows."""
    role = rows.get(Cell("role", "anonymous"), {"admin": False, "grants": []})
    if cell == LOGIN or role["admin"]:
        return True
    held = permissions_of_visitors(rows)
    if cell.kind == "user":
        return "access user profiles" in held
    if "access content" not in held:
        return False
    if cell.kind == "node":
        return _is_shown_node(rows[cell], role["grants"])
    return cell.kind != "term" or rows[cell]["status"]


def _is_shown_node(node: Mapping[str, Any], grants: list[Mapping[str, Any]]) -> bool:
    if not node["grants"]:
        return node["status"]
    held = {("all", 0)} | {(grant["realm"], grant["gid"]) for grant in grants}
    return any(record["view"] and (record["realm"], record["gid"]) in held for record in node["grants"])
