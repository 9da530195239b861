"""`from-markdown`: a folder of Markdown files becomes pages, news, terms, users and a menu."""

from __future__ import annotations

import argparse
import re
from dataclasses import dataclass
from pathlib import Path
from typing import Any, Optional

from .cells import Cell
from .converting import Builder, Item, MenuWish, add_options, base, finish
from .document import universal_id
from .front_matter import Front, split
from .plain import from_markdown
from .texts import as_path, moment_of
from .trouble import Trouble

ENDS = (".md", ".markdown")
DATED = re.compile(r"(\d{4}-\d{2}-\d{2})-(.+)")
NEWS_FOLDERS = ("news", "posts", "_posts", "blog")


@dataclass
class Source:
    """A file of a folder: where it stands, its head and what follows."""

    place: Path
    front: Front
    text: str

    @property
    def day(self) -> str:
        """The day in its name, as Jekyll has it."""
        dated = DATED.match(self.place.stem)
        return dated[1] if dated else ""

    @property
    def is_news(self) -> bool:
        """Whether it is news by its folder or its name."""
        return bool(self.day) or any(part in NEWS_FOLDERS for part in self.place.parts[:-1])


def files_of(folder: Path) -> list[Path]:
    """The Markdown files of a folder and the folders in it, in order."""
    if not folder.is_dir():
        raise Trouble(f"{folder}: there is no such folder")
    found = sorted(it for it in folder.rglob("*") if it.suffix.lower() in ENDS and it.is_file())
    found = [it for it in found if not any(part.startswith(".") for part in it.relative_to(folder).parts)]
    if not found:
        raise Trouble(f"{folder}: no file in it ends in {' or '.join(ENDS)}")
    return found


def read(folder: Path, file: Path) -> Source:
    """A file with its head."""
    try:
        text = file.read_text(encoding="utf-8")
    except (OSError, UnicodeDecodeError) as fault:
        raise Trouble(f"{file}: {fault}") from fault
    front, rest = split(text)
    return Source(file.relative_to(folder), front, rest)


def title_of(source: Source) -> tuple[str, str]:
    """The title of a file, and its text without it: of its head, its first heading, or its name."""
    heading = re.match(r"\s*#\s+(.+?)\s*#*\s*\n", source.text + "\n")
    told = source.front.text("title")
    if heading and (not told or from_markdown(heading[1]) == from_markdown(told)):
        return from_markdown(heading[1]), source.text[heading.end() :]
    dated = DATED.match(source.place.stem)
    name = dated[2] if dated else source.place.stem if source.place.stem not in ("index", "_index") else source.place.parent.name
    return told or name.replace("-", " ").replace("_", " ").capitalize(), source.text


def address_of(source: Source) -> str:
    """Where the file's page stands: as its head says, else as its place in the folder."""
    told = source.front.text("permalink", "url", "path")
    if told.startswith("/") and ":" not in told:
        return told
    folders = [part for part in source.place.parts[:-1] if part != "content"]
    folders = ["news" if part in NEWS_FOLDERS else part for part in folders]
    name = source.front.text("slug") or source.place.stem
    dated = DATED.match(name)
    name = dated[2] if dated else name
    if source.is_news and not folders:
        folders = ["news"]
    if name in ("index", "_index", "README"):
        return "/" + "/".join(folders)
    return "/" + "/".join([*folders, name])


def old_addresses(source: Source, path: str) -> list[str]:
    """Addresses that the page had, or that a generator of pages would have given it."""
    told = source.front.texts("aliases", "redirect_from", "old")
    plain = "/" + source.place.with_suffix("").as_posix()
    made = [path + "/", path + ".html", plain, plain + ".html"]
    if source.place.stem in ("index", "_index"):
        made.append("/" + (source.place.parent / "index.html").as_posix())
    if source.day:
        name = source.front.text("slug") or DATED.match(source.place.stem)[2]  # type: ignore[index]
        made.append(f"/{source.day.replace('-', '/')}/{name}.html")
    return told + [address for address in made if address.strip("/")]


def item_of(source: Source, given: argparse.Namespace, has_news: bool, summary: bool) -> Item:
    """A page or a piece of news of a file."""
    front = source.front
    title, text = title_of(source)
    when = front.text("date", "created", "published") or source.day
    created = moment_of(when) if when else None
    if when and created is None:
        raise Trouble(f"{source.place}: {when!r} is no date")
    is_draft, is_published = front.flag("draft"), front.flag("published")
    path = as_path(address_of(source)) or ""
    kind = front.text("type") or ("news" if source.is_news and has_news else given.type)
    fields = {given.body: from_markdown(text)}
    if summary and front.text("summary", "description", "excerpt"):
        fields["summary"] = from_markdown(front.text("summary", "description", "excerpt"))
    return Item(
        key=source.place.as_posix(), title=title, kind=kind, fields=fields, created=created, path=path,
        old=old_addresses(source, path), author=front.text("author", "authors"),
        terms=front.texts("categories", "category", "tags", "terms"),
        is_published=not is_draft if is_draft is not None else is_published is not False,
        is_promoted=bool(front.flag("promote") or front.flag("featured")), is_sticky=bool(front.flag("sticky")),
        menu=_menu(front, title),
    )  # fmt: skip


def _menu(front: Front, title: str) -> Optional[MenuWish]:
    wish = front.text("menu", "nav_title")
    if not wish or wish.lower() in ("false", "no"):
        return None
    weight = front.text("weight", "nav_order", "menu_weight")
    number = int(weight) if re.fullmatch(r"-?\d{1,3}", weight) else 0
    title = title if wish.lower() in ("true", "yes", "main") else wish
    return MenuWish(title, front.text("menu_under", "parent"), number)


def run(given: argparse.Namespace) -> int:
    """Reads the files, and writes the rows."""
    folder = Path(given.folder)
    site = base(given)
    builder = Builder(site, universal_id("markdown", given.source))
    has_news = Cell("type", "news") in site.rows
    types = [kind for _, kind in site.of_kind("type")]
    has_summary = any(field["name"] == "summary" for kind in types for field in kind["fields"])
    sources = [read(folder, file) for file in files_of(folder)]
    items = [item_of(source, given, has_news, has_summary) for source in sources]
    builder.add_all(items, len(items))
    return finish(builder, given)


def add_to(commands: Any) -> None:
    """Adds the subcommand."""
    it = commands.add_parser(
        "from-markdown",
        help="pages, news, terms, users and a menu from a folder of Markdown files",
        description="Makes a node of each Markdown file of a folder. Its path is its place in the folder; its head, between two lines "
        "`---`, may say title, date, author, categories, tags, draft, summary, type, path, aliases (addresses where it was "
        "before), menu (`true`, or the title of its link), menu_under, weight, sticky and promote. Files in a folder news, posts or blog, "
        "and files whose name begins with a date, are news.",
    )
    it.add_argument("folder", metavar="FOLDER", help="the folder")
    it.add_argument("--type", default="page", help="the type of pages (default: page)")
    it.add_argument("--body", default="body", metavar="FIELD", help="the field that the text goes into (default: body)")
    it.add_argument("--source", default="", metavar="NAME", help="a name for the folder, where several have files of the same names")
    add_options(it)
    it.set_defaults(run=run)
