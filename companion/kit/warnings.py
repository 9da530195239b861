"""What is allowed in a site and shows nothing, or other than was meant."""

from __future__ import annotations

from dataclasses import dataclass
from typing import Any, Callable, Iterator, Mapping

from .asks import guess
from .cells import NUMBERED, Cell
from .forms import FRONT
from .site_rules import way_up
from .site_view import Rows, may_visitors_see, paths_of, route

ASKED = (
    "access comments",
    "access content",
    "access user profiles",
    "administer blocks",
    "administer comments",
    "administer content types",
    "administer menu",
    "administer nodes",
    "administer permissions",
    "administer site configuration",
    "administer taxonomy",
    "administer users",
    "administer views",
    "bypass node access",
    "create url aliases",
    "edit own comments",
    "post comments",
    "skip comment approval",
    "view own unpublished content",
)
OF_TYPES = (
    "create {} content",
    "delete any {} content",
    "delete own {} content",
    "edit any {} content",
    "edit own {} content",
)


@dataclass(frozen=True)
class Warning:
    """A warning: what kind of thing it is about, the cell that it is found in, and what is odd, in words."""

    topic: str
    cell: Cell
    said: str


Look = Callable[[Rows], Iterator[Warning]]


def of_kind(rows: Rows, kind: str) -> list[tuple[Cell, Mapping[str, Any]]]:
    """The rows of a kind, in order."""
    return sorted(((cell, row) for cell, row in rows.items() if cell.kind == kind), key=lambda it: it[0].place)


def _unless_there(rows: Rows, cell: Cell, wanted: Cell, what: str) -> Iterator[Warning]:
    if wanted not in rows:
        names = [it.name for it in rows if it.kind == wanted.kind and it.kind not in NUMBERED]
        yield Warning("absent", cell, f"{what} {wanted}, which isn't there{guess(wanted.name, names)}")


def _absent_rows(rows: Rows) -> Iterator[Warning]:
    """What rows name and no row is."""
    for cell, node in of_kind(rows, "node"):
        for term in node["terms"]:
            yield from _unless_there(rows, cell, Cell("term", str(term)), "it has")
        for ref in node["refs"]:
            yield from _unless_there(rows, cell, Cell("node", str(ref)), "it refers to")
    for cell, user in of_kind(rows, "user"):
        for role in user["roles"]:
            yield from _unless_there(rows, cell, Cell("role", role), "it has")
    for cell, listing in of_kind(rows, "listing"):
        for name in listing["types"]:
            yield from _unless_there(rows, cell, Cell("type", name), "it lists")
        if listing["term"] is not None:
            yield from _unless_there(rows, cell, Cell("term", str(listing["term"])), "it lists what has")
    for cell, block in of_kind(rows, "block"):
        if block["name"] is not None:
            yield from _unless_there(rows, cell, Cell(block["kind"], block["name"]), "it shows")
        for role in block["roles"]:
            yield from _unless_there(rows, cell, Cell("role", role), "it is for")


def _front(rows: Rows) -> Iterator[Warning]:
    site = Cell("site")
    front = rows[site]["front"]
    shown = route(rows, paths_of(rows), "/")
    if shown is None:
        yield Warning("path", site, f"the front path {front} leads nowhere{guess(front, list(paths_of(rows)))}")
    elif not may_visitors_see(rows, shown):
        yield Warning("path", site, f"visitors may not see {shown}, which the front path {front} shows")


def _dead_paths(rows: Rows) -> Iterator[Warning]:
    """Links of menus and paths of blocks that lead nowhere."""
    paths = paths_of(rows)
    for cell, menu in of_kind(rows, "menu"):
        for link in menu["links"]:
            if route(rows, paths, link["path"]) is None:
                said = f"the link {link['id']} leads to {link['path']}, where nothing is, so it isn't shown"
                yield Warning("path", cell, said + guess(link["path"], list(paths)))
    for cell, block in of_kind(rows, "block"):
        for path in block["paths"]:
            if path != FRONT and route(rows, paths, path) is None:
                said = f"it is placed at {path}, where nothing is{guess(path, list(paths))}"
                yield Warning("path", cell, said)


def _fields(rows: Rows) -> Iterator[Warning]:
    for cell, node in of_kind(rows, "node"):
        kind = rows.get(Cell("type", node["type"]))
        if kind is None:
            continue
        names = [field["name"] for field in kind["fields"]]
        for name in node["fields"]:
            if name not in names:
                said = f"its field {name} isn't shown, since type:{node['type']} has no such field{guess(name, names)}"
                yield Warning("field", cell, said)


def _field_permissions(rows: Rows) -> dict[str, Cell]:
    return {
        permission: cell
        for cell, kind in of_kind(rows, "type")
        for field in kind["fields"]
        for permission in (field["view"], field["edit"])
        if permission is not None
    }


def _permissions(rows: Rows) -> Iterator[Warning]:
    """Permissions that roles have and nothing asks for, and those that fields ask for and no role has."""
    types = [cell.name for cell, _ in of_kind(rows, "type")]
    of_fields = _field_permissions(rows)
    asked = {*ASKED, *of_fields, *(form.format(name) for form in OF_TYPES for name in types)}
    held: set[str] = set()
    for cell, role in of_kind(rows, "role"):
        held.update(role["permissions"])
        for permission in role["permissions"]:
            if permission not in asked:
                said = f"nothing asks for its permission {permission!r}{guess(permission, sorted(asked))}"
                yield Warning("permission", cell, said)
    for permission, cell in of_fields.items():
        if permission not in held and permission not in ASKED:
            yield Warning("permission", cell, f"no role has {permission!r}, which a field of it asks for")


def _comments(rows: Rows) -> Iterator[Warning]:
    """Comments that nobody but user 1 may see."""
    opens = {"access comments", "administer comments"}
    comments = of_kind(rows, "comment")
    if comments and not any(role["admin"] or opens & set(role["permissions"]) for _, role in of_kind(rows, "role")):
        yield Warning("permission", comments[0][0], "no role has 'access comments', so comments are shown to user 1 alone")


def _unseen(rows: Rows) -> Iterator[Warning]:
    """Menus and listings that no page shows."""
    placed = {(block["kind"], block["name"]) for _, block in of_kind(rows, "block")}
    for cell, _ in of_kind(rows, "menu"):
        if ("menu", cell.name) not in placed:
            yield Warning("unseen", cell, "no block shows it")
    for cell, listing in of_kind(rows, "listing"):
        if listing["path"] is None and ("listing", cell.name) not in placed:
            yield Warning("unseen", cell, "it has no path, and no block shows it")


def _lists(rows: Rows, listing: Mapping[str, Any], node: Mapping[str, Any]) -> bool:
    """Whether a listing shows a node, its moment aside."""
    if listing["promoted"] and not node["promote"]:
        return False
    if listing["types"] and node["type"] not in listing["types"]:
        return False
    wanted = listing["term"]
    return wanted is None or any(Cell("term", str(wanted)) in way_up(rows, Cell("term", str(term))) for term in node["terms"])


def _linked_cells(rows: Rows) -> set[Cell]:
    """What the front page, a link of a menu, a term that is there, a reference or a listing leads to."""
    paths = paths_of(rows)
    targets = ["/"] + [link["path"] for _, menu in of_kind(rows, "menu") for link in menu["links"]]
    linked = {route(rows, paths, path) for path in targets}
    nodes = of_kind(rows, "node")
    linked.update(Cell("node", str(ref)) for _, node in nodes for ref in node["refs"])
    linked.update(cell for cell, node in nodes if any(Cell("term", str(term)) in rows for term in node["terms"]))
    listings = [listing for _, listing in of_kind(rows, "listing")]
    linked.update(cell for cell, node in nodes if any(_lists(rows, listing, node) for listing in listings))
    linked.update(
        Cell("listing", block["name"]) for _, block in of_kind(rows, "block") if block["kind"] == "listing"
    )
    return {cell for cell in linked if cell is not None}


def _unlinked(rows: Rows) -> Iterator[Warning]:
    """Paths that nothing leads to."""
    linked = _linked_cells(rows)
    for path, cell in sorted(paths_of(rows).items()):
        if cell not in linked and rows[cell].get("status", True):
            yield Warning("unlinked", cell, f"no menu, listing, term or reference leads to {path}")


def _logins(rows: Rows) -> Iterator[Warning]:
    admin = rows.get(Cell("user", "1"))
    others = [
        user
        for _, user in of_kind(rows, "user")
        if user["digest"] and user["status"] and any(_is_admin(rows, role) for role in user["roles"])
    ]
    if not others and not (admin and admin["digest"] and admin["status"]):
        yield Warning("login", Cell("user", "1"), "nobody with every permission has a password and may log in")
    for cell, user in of_kind(rows, "user"):
        if user["digest"] and not user["salt"]:
            yield Warning("login", cell, "its password is kept without a salt")


def _is_admin(rows: Rows, role: str) -> bool:
    return rows.get(Cell("role", role), {"admin": False})["admin"]


LOOKS: tuple[Look, ...] = (_front, _dead_paths, _absent_rows, _fields, _permissions, _comments, _unseen, _unlinked, _logins)


def warnings_of(rows: Rows) -> list[Warning]:
    """All warnings of a site that breaks no rule."""
    return [warning for look in LOOKS for warning in look(rows)]
