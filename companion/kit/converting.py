"""What the converters have in common: items of another system become rows of a site."""

from __future__ import annotations

import argparse
from collections import Counter
from dataclasses import dataclass, field, replace
from functools import partial
from pathlib import Path
from typing import Any, Iterable, Optional

from .cells import Cell
from .document import Document, Row, now, universal_id
from .outputs import Progress, give, tell, write_file
from .redirects import Redirects
from .site_view import address_of, is_answered, paths_of
from .starting import Wishes, block_row, link_row, made, node_row
from .texts import MOST_TEXT, as_line, as_path, as_text, machine_name, slug
from .trouble import Trouble

MOST_LINKS = 256
MOST_DEEP = 9
MOST_TERMS = 32


@dataclass
class MenuWish:
    """A link that a menu is to have: its title, and the title of the link that it stands below."""

    title: str
    under: str = ""
    weight: int = 0


@dataclass
class Item:
    """A page or a piece of news of another system."""

    key: str
    title: str
    kind: str = "page"
    fields: dict[str, str] = field(default_factory=dict)
    created: Optional[int] = None
    changed: Optional[int] = None
    path: str = ""
    old: list[str] = field(default_factory=list)
    author: str = ""
    terms: list[str] = field(default_factory=list)
    is_published: bool = True
    is_promoted: bool = False
    is_sticky: bool = False
    menu: Optional[MenuWish] = None


class Builder:
    """Puts items into a site. One that was put there before, by its key, is changed and keeps its number."""

    def __init__(self, site: Document, source: str) -> None:
        self.site = site
        self.redirects = Redirects()
        self.counts: Counter[str] = Counter()
        self.notes: list[str] = []
        self._wishes: list[tuple[str, MenuWish, str]] = []
        self._source = source
        self._now = now()

    def note(self, words: str) -> None:
        """Something that didn't come over, or not as it was."""
        self.notes.append(words)

    def add_all(self, items: Iterable[Item], count: int) -> list[Cell]:
        """Adds items in their order, and gives their cells."""
        progress, cells = Progress("rows", count), []
        for at, item in enumerate(items, 1):
            cells.append(self.add(item))
            progress.at(at)
        self.link_all(self._wishes)
        return cells

    def add(self, item: Item) -> Cell:
        """Adds one item, and gives its cell."""
        uuid = universal_id(self._source, item.key)
        cell = self.site.find("node", "uuid", uuid)
        before = self.site.rows[cell] if cell else None
        row = self._row(item, uuid, before)
        if cell is None:
            cell = self.site.put("node", self.site.number("node"), row)
            self.counts[f"new {item.kind}"] += 1
        elif {**row, "cell": str(cell)} != before:
            assert before is not None
            self.site.put("node", cell.name, {**row, "vid": before["vid"] + 1, "changed": self._now})
            self.counts[f"changed {item.kind}"] += 1
        else:
            self.counts[f"unchanged {item.kind}"] += 1
        self._redirect(item, cell)
        if item.menu is not None:
            self._wishes.append(("main", item.menu, address_of(self.site.rows, cell)))
        return cell

    def _row(self, item: Item, uuid: str, before: Optional[Row]) -> Row:
        created = item.created if item.created is not None else before["created"] if before else self._now
        changed = before["changed"] if before else item.changed if item.changed is not None else created
        row = node_row(
            item.kind, self._title(item), self._fields(item), created, uuid,
            changed=changed, path=self._path(item, before), promote=item.is_promoted, status=item.is_published,
            sticky=item.is_sticky, terms=self._terms(item), uid=self._user(item, created),
        )  # fmt: skip
        if before:
            row.update({key: before[key] for key in ("grants", "refs", "vid")})
        return row

    def _title(self, item: Item) -> str:
        title = as_line(item.title)
        if title != " ".join(item.title.split()):
            self.note(f"{item.key}: its title was shortened")
        if not title:
            words = next((text for text in item.fields.values() if text.strip()), "")
            title = as_line(words, 60) or f"Untitled {item.key}"[:60]
            self.note(f"{item.key}: it had no title, so it is called {title!r}")
        return title

    def _fields(self, item: Item) -> dict[str, str]:
        kind = self.site.rows.get(Cell("type", item.kind))
        if kind is None:
            names = ", ".join(cell.name for cell, _ in self.site.of_kind("type"))
            raise Trouble(f"{item.key}: the site has no type {item.kind}; it has {names}")
        names = [field["name"] for field in kind["fields"]]
        kept = {}
        for name, text in item.fields.items():
            if name not in names:
                self.note(f"{item.key}: type {item.kind} has no field {name}, so it was left out")
            elif as_text(text):
                kept[name] = as_text(text)
                if len(text.encode("utf-8", "replace")) > MOST_TEXT and kept[name].endswith("..."):
                    self.note(f"{item.key}: its {name} was shortened to 65,536 bytes")
        return kept

    def _path(self, item: Item, before: Optional[Row]) -> Optional[str]:
        wanted = as_path(item.path)
        if wanted is None:
            if item.path.strip("/"):
                self.note(f"{item.key}: {item.path!r} can't be a path, so it has none of its own")
            return before["path"] if before else None
        if before and before["path"]:
            if before["path"] == wanted:
                return wanted
            self.site.paths.release(before["path"])
        given = self.site.paths.give(wanted)
        if given != wanted:
            self.note(f"{item.key}: {wanted} is taken, so it is at {given}")
        return given

    def _terms(self, item: Item) -> list[int]:
        names = list(dict.fromkeys(as_line(name) for name in item.terms if name.strip()))
        if len(names) > MOST_TERMS:
            self.note(f"{item.key}: it has {len(names)} terms, of which {MOST_TERMS} were taken")
        return [self.site.term(name) for name in names[:MOST_TERMS]]

    def _user(self, item: Item, created: int) -> int:
        if not item.author:
            return 1
        known = self.site.find("user", "name", as_line(item.author, 60))
        if known is None:
            self.counts["new user"] += 1
        return known.number if known else self.site.user(item.author, created)

    def _redirect(self, item: Item, cell: Cell) -> None:
        new = address_of(self.site.rows, cell)
        for old in item.old:
            self.redirects.add_with_slash(old, new)

    def link_all(self, wishes: list[tuple[str, MenuWish, str]]) -> None:
        """Adds links to menus: all of them first, so that one may stand below another that comes later."""
        for menu, wish, path in wishes:
            links = self.site.rows.get(Cell("menu", menu), {"links": []})["links"]
            if all(link["path"] != path for link in links):
                self.link(menu, replace(wish, under=""), path)
        for menu, wish, path in wishes:
            self.link(menu, wish, path)

    def link(self, menu: str, wish: MenuWish, path: str) -> None:
        """Adds a link to a menu, or changes the one that leads there."""
        cell = Cell("menu", menu)
        if cell not in self.site.rows:
            self.site.put("menu", menu, {"label": menu.replace("_", " ").capitalize(), "links": []})
            self.site.put("block", f"{menu[:59]}_menu", block_row("menu", "header", name=menu, weight=-10))
        row = self.site.rows[cell]
        known = next((link for link in row["links"] if link["path"] == path), None)
        if known is None and len(row["links"]) >= MOST_LINKS:
            self.note(f"the menu {menu} has {MOST_LINKS} links, so {wish.title!r} isn't in it")
            return
        name = known["id"] if known else _link_id(row["links"], wish.title)
        link = link_row(name, path, as_line(wish.title) or path, self._parent(row["links"], name, wish), wish.weight)
        links = [link if it is known else it for it in row["links"]] + ([] if known else [link])
        self.site.put("menu", menu, {"label": row["label"], "links": links})

    def _parent(self, links: list[dict[str, Any]], name: str, wish: MenuWish) -> Optional[str]:
        """The link that one is to stand below; none where there is none, or where the two would stand below each other."""
        if not wish.under:
            return None
        above = {link["id"]: link["parent"] for link in links}
        found = next((it["id"] for it in links if wish.under in (it["title"], it["path"], it["id"]) and it["id"] != name), None)
        chain, at = 1, found
        while at is not None and at != name and chain <= MOST_DEEP:
            chain, at = chain + 1, above[at]
        if found is None or at is not None:
            self.note(f"{wish.title!r} can't stand below a link {wish.under!r}, so it stands at the top")
            return None
        return found

    def tell(self) -> None:
        """Tells what came over."""
        for what, count in sorted(self.counts.items()):
            tell(f"{count} {what}")
        for words in self.notes[:20]:
            tell(f"note: {words}")
        if len(self.notes) > 20:
            tell(f"note: and {len(self.notes) - 20} more; --notes FILE has all")


def _link_id(links: list[dict[str, Any]], title: str) -> str:
    """An id for a link, which none of a menu has."""
    taken = {link["id"] for link in links}
    name = machine_name(title, "link")
    numbers = (f"{name[:58]}_{number}" for number in range(2, MOST_LINKS + 2))
    return name if name not in taken else next(it for it in numbers if it not in taken)


def path_under(folder: str, title: str) -> str:
    """A path in a folder, of a title."""
    name = slug(title)
    return f"{folder.rstrip('/')}/{name}" if name else ""


def base(given: argparse.Namespace) -> Document:
    """The site that rows are added to: that of --into, or a new one."""
    if given.into:
        return Document.read(given.into)
    tell("a new site is begun, whose user 1 has no password; --into ROWS adds to one that is there")
    return made(Wishes(given.name))


def finish(builder: Builder, given: argparse.Namespace) -> int:
    """Checks and writes what was made."""
    builder.site.check()
    give(builder.site.text(given.changes), given.out)
    if given.redirects:
        rows = builder.site.rows
        builder.redirects.leave(partial(is_answered, rows, paths_of(rows)))
        write_file(given.redirects, builder.redirects.conf(Path(given.redirects).name))
        tell(f"{len(builder.redirects)} old addresses in {given.redirects}")
    if given.notes:
        write_file(given.notes, "".join(f"{words}\n" for words in builder.notes))
    builder.tell()
    return 0


def add_options(it: argparse.ArgumentParser) -> None:
    """The options that all converters have."""
    it.add_argument("--into", metavar="ROWS", help="the site to add to, as `new` or an export gives it (default: a new site)")
    it.add_argument("--name", default="Site", help="what a new site is called")
    it.add_argument("-o", "--out", metavar="ROWS", help="the file of rows to write (default: the output)")
    it.add_argument("--changes", action="store_true", help="write just the rows that are new or changed, to import over a store")
    it.add_argument("--redirects", metavar="CONF", help="write a map for nginx from old addresses to new paths")
    it.add_argument("--notes", metavar="FILE", help="write all that didn't come over as it was")
