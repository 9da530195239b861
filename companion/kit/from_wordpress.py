"""`from-wordpress`: an export of WordPress becomes pages, news, terms, users and menus, and a map of old addresses."""

from __future__ import annotations

import argparse
import re
from collections import Counter
from typing import Any, Optional
from urllib.parse import urlsplit

from . import wxr
from .cells import Cell
from .converting import Builder, Item, MenuWish, add_options, base, finish
from .document import universal_id
from .plain import from_html
from .site_view import LOGIN, paths_of, route
from .texts import as_line, as_path, as_text, machine_name, slug
from .wxr import Entry, Export

SHOWN = ("publish",)
HIDDEN = ("draft", "pending", "private", "future")
TAXONOMIES = ("category", "post_tag")
OF_ITSELF = ("nav_menu_item", "attachment", "revision", "customize_changeset", "oembed_cache", "wp_global_styles", "wp_template", "wp_navigation")
_SHORTCODES = re.compile(
    r"\[/?(gallery|caption|embed|audio|video|playlist|contact-form-7|contact-form|wpforms|shortcode|vc_\w+)\b[^\]]*\]"
)


def plain_content(entry: Entry, hosts: frozenset[str]) -> str:
    """The content of an entry as plain paragraphs. In that of the classic editor the ends of lines count."""
    text = _SHORTCODES.sub("", entry.content)
    is_classic = "<!-- wp:" not in text and not re.search(r"<p[\s>]", text)
    return from_html(text, hosts, keeps_lines=is_classic)


class Converter:
    """Goes over an export and builds rows of it."""

    def __init__(self, export: Export, builder: Builder, given: argparse.Namespace) -> None:
        self.export, self.builder, self.given = export, builder, given
        self.hosts = frozenset({urlsplit(export.address).netloc.lower(), ""})
        self.cells: dict[int, Cell] = {}
        self.terms: dict[tuple[str, str], int] = {}
        self.left_out: Counter[str] = Counter()

    def convert(self) -> None:
        """All of it."""
        self._people()
        self._topics()
        entries = [entry for entry in self.export.entries if self._is_wanted(entry)]
        items = [self._item(entry) for entry in entries]
        cells = self.builder.add_all(items, len(items))
        self.cells = {entry.number: cell for entry, cell in zip(entries, cells)}
        self._menus()
        self._count()

    def _people(self) -> None:
        for login, name in self.export.authors.items():
            if self.builder.site.find("user", "name", as_line(name, 60)) is None:
                self.builder.counts["new user"] += 1
                self.builder.site.user(name, 0)

    def _topics(self) -> None:
        for topic in self.export.topics:
            name = as_line(topic.name)
            is_new = self.builder.site.find("term", "name", name) is None
            number = self.builder.site.term(name, as_text(from_html(topic.description)))
            self.builder.counts["new term" if is_new else "unchanged term"] += 1
            self.terms[topic.taxonomy, topic.slug] = number
            self._redirect_topic(topic, f"/taxonomy/term/{number}")
        for topic in self.export.topics:
            self._place(topic)

    def _place(self, topic: wxr.Topic) -> None:
        """Puts a category below its parent."""
        parent = self.terms.get((topic.taxonomy, topic.parent)) if topic.parent else None
        if parent is not None and not self.builder.site.put_below(self.terms[topic.taxonomy, topic.slug], parent):
            self.builder.note(f"{topic.name!r} can't stand below {topic.parent!r}: it has a parent, or would be its own, or too deep")

    def _redirect_topic(self, topic: wxr.Topic, path: str) -> None:
        """The addresses of a topic, which the export doesn't tell: those that WordPress gives by default."""
        folder = "category" if topic.taxonomy == "category" else "tag"
        parents = {it.slug: it.parent for it in self.export.topics if it.taxonomy == topic.taxonomy}
        parts, at = [topic.slug], topic.parent
        while at in parents and at not in parts:
            parts.insert(0, at)
            at = parents[at]
        self.builder.redirects.add_with_slash(f"{self._front()}/{folder}/{'/'.join(parts)}/", path)
        if folder == "category":
            self.builder.redirects.add(f"{self._front()}/?cat={topic.number}", path)

    def _front(self) -> str:
        """What stands before all paths of the old site, mostly nothing."""
        return urlsplit(self.export.address).path.rstrip("/")

    def _is_wanted(self, entry: Entry) -> bool:
        if entry.kind not in ("post", "page") and entry.kind not in self.given.also:
            if entry.kind not in ("nav_menu_item",):
                self.left_out[entry.kind] += 1
            return False
        if entry.status not in SHOWN + HIDDEN:
            self.left_out[f"{entry.kind} that is {entry.status}"] += 1
            return False
        return True

    def _item(self, entry: Entry) -> Item:
        is_page = entry.kind != "post"
        kind = self.given.page_type if is_page else self.given.post_type
        fields = {"body": plain_content(entry, self.hosts)}
        if entry.excerpt.strip():
            fields["summary"] = from_html(entry.excerpt, self.hosts, keeps_lines=True)
        if entry.password:
            self.builder.note(f"{entry.title!r} had a password of its own, so it is a draft now")
        if entry.status not in ("publish", "draft"):
            self.builder.note(f"{entry.title!r} was {entry.status}, so it is a draft now")
        return Item(
            key=f"{self.export.address} {entry.number}", title=entry.title, kind=kind, fields=self._known_fields(kind, fields),
            created=entry.created, changed=entry.changed, path=self._path(entry), old=self._old(entry),
            author=self.export.authors.get(entry.author, entry.author),
            terms=[name for domain, _, name in entry.terms if domain in TAXONOMIES],
            is_published=entry.status == "publish" and not entry.password, is_promoted=not is_page,
            is_sticky=entry.is_sticky,
        )  # fmt: skip

    def _known_fields(self, kind: str, fields: dict[str, str]) -> dict[str, str]:
        """The summary alone may be left out without a word, where the type has none."""
        row = self.builder.site.rows.get(Cell("type", kind))
        names = {field["name"] for field in row["fields"]} if row else set()
        return {name: text for name, text in fields.items() if name != "summary" or name in names}

    def _path(self, entry: Entry) -> str:
        """The path: that of its old address, as far as it may stay, else of its title."""
        parts = urlsplit(entry.link)
        inner = parts.path[len(self._front()) :] if parts.path.startswith(self._front()) else parts.path
        if not parts.query and inner.strip("/"):
            return inner
        name = slug(entry.name or entry.title)
        return (f"/news/{name}" if entry.kind == "post" else f"/{name}") if name else ""

    def _old(self, entry: Entry) -> list[str]:
        query = "page_id" if entry.kind == "page" else "p"
        told = [entry.link] if entry.link else []
        return told + [f"{self._front()}/?{query}={entry.number}", f"{self._front()}/?p={entry.number}"]

    def _menus(self) -> None:
        links = sorted((it for it in self.export.entries if it.kind == "nav_menu_item"), key=lambda it: it.order)
        by_number = {link.number: link for link in links}
        wishes: list[tuple[str, MenuWish, str]] = []
        for link in links:
            name = next((words for domain, _, words in link.terms if domain == "nav_menu"), "")
            if not name or link.status != "publish":
                continue
            path = self._target(link)
            if path is None:
                continue
            above = by_number.get(int(link.meta.get("_menu_item_menu_item_parent") or 0))
            under = self._target(above) if above else None
            menu = self.given.menu or machine_name(name, "main")
            wishes.append((menu, MenuWish(self._link_title(link, path), under or "", min(link.order, 1000)), path))
            self.builder.counts[f"link of {menu}"] += 1
        self.builder.link_all(wishes)

    def _link_title(self, link: Entry, path: str) -> str:
        if link.title.strip():
            return link.title
        cell = route(self.builder.site.rows, paths_of(self.builder.site.rows), path)
        row = self.builder.site.rows.get(cell, {}) if cell and cell != LOGIN else {}
        return row.get("title") or row.get("name") or path

    def _target(self, link: Entry) -> Optional[str]:
        """The path that a link of a menu leads to now; none where it leads out of the site, or to what didn't come over."""
        number = int(link.meta.get("_menu_item_object_id") or 0)
        kind = link.meta.get("_menu_item_type", "")
        if kind == "post_type" and number in self.cells:
            cell = self.cells[number]
            return self.builder.site.rows[cell]["path"] or f"/node/{cell.name}"
        if kind == "taxonomy":
            topic = next((it for it in self.export.topics if it.number == number), None)
            if topic is not None:
                return f"/taxonomy/term/{self.terms[topic.taxonomy, topic.slug]}"
        if kind == "custom":
            return self._own_address(link)
        self._note_link(link, "leads to what didn't come over")
        return None

    def _own_address(self, link: Entry) -> Optional[str]:
        address = link.meta.get("_menu_item_url", "")
        parts = urlsplit(address)
        if parts.netloc.lower() not in self.hosts:
            self._note_link(link, f"leads to {address}, and a menu has paths of the site alone")
            return None
        rows = self.builder.site.rows
        if not parts.path[len(self._front()) :].strip("/"):
            return rows[Cell("site")]["front"]
        path = as_path(parts.path[len(self._front()) :])
        if path is None or route(rows, paths_of(rows), path) is None:
            self._note_link(link, f"leads to {address}, where nothing is now")
            return None
        return path

    def _note_link(self, link: Entry, words: str) -> None:
        self.builder.note(f"the link {link.title or link.number!r} {words}, so it was left out")

    def _count(self) -> None:
        comments = sum(entry.comments for entry in self.export.entries)
        if comments:
            self.left_out["comment"] = comments
        for what, count in sorted(self.left_out.items()):
            self.builder.note(f"{count} {what} left out")


def run(given: argparse.Namespace) -> int:
    """Reads the export, and writes the rows."""
    export = wxr.read(given.export)
    if given.name == "Site" and export.title.strip():
        given.name = export.title
    site = base(given)
    given.post_type = given.post_type or ("news" if Cell("type", "news") in site.rows else "page")
    builder = Builder(site, universal_id("wordpress"))
    Converter(export, builder, given).convert()
    return finish(builder, given)


def add_to(commands: Any) -> None:
    """Adds the subcommand."""
    it = commands.add_parser(
        "from-wordpress",
        help="pages, news, terms, users and menus from an export of WordPress",
        description="Makes rows of an export of WordPress (Tools, Export, All content): pages, posts as news, categories and tags as "
        "terms, authors as users without passwords, and menus. HTML becomes plain paragraphs. A page keeps its address as far as a "
        "path may have it; --redirects writes a map for nginx from each old address to the new path. Pictures, files and "
        "comments don't come over; drafts, private posts and those with a password are drafts.",
    )
    it.add_argument("export", metavar="EXPORT.xml", help="the export")
    it.add_argument("--page-type", default="page", metavar="TYPE", help="the type that pages get (default: page)")
    it.add_argument("--post-type", metavar="TYPE", help="the type that posts get (default: news, where the site has it)")
    it.add_argument("--also", action="append", default=[], metavar="KIND", help="a kind of posts of a plug-in to take as pages")
    it.add_argument("--menu", metavar="NAME", help="the menu that links go into (default: one by the name of each)")
    add_options(it)
    it.set_defaults(run=run)
