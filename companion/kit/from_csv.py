"""`from-csv`: rows of a table become pages, news, terms, users or links of a menu."""

from __future__ import annotations

import argparse
import csv
import io
import re
from typing import Any, Callable, Optional

from .cells import Cell
from .converting import Builder, Item, MenuWish, add_options, base, finish, path_under
from .document import now, universal_id
from .plain import from_html, from_markdown, looks_like_html
from .rowfile import read_bytes
from .texts import as_line, as_text, machine_name, moment_of
from .trouble import Trouble

Record = dict[str, str]
OF_NODES = (
    "title", "path", "type", "author", "created", "terms", "status", "promote", "sticky", "old", "menu", "menu_under",
    "menu_weight", "id",
)  # fmt: skip
YES = ("yes", "y", "true", "1", "published", "publish", "on", "x")
NO = ("no", "n", "false", "0", "draft", "unpublished", "private", "off", "")


def is_yes(text: str, where: str) -> bool:
    """Whether a word of a table says yes."""
    word = text.strip().lower()
    if word in YES:
        return True
    if word in NO:
        return False
    raise Trouble(f"{where}: {text!r} says neither yes nor no")


def parts(text: str) -> list[str]:
    """Names between semicolons or bars."""
    return [part.strip() for part in re.split(r"[;|]", text) if part.strip()]


def read_table(given: argparse.Namespace) -> tuple[list[str], list[Record]]:
    """The heads of the columns, and the records, of a table with heads in its first line."""
    raw = read_bytes(given.table)
    try:
        text = raw.decode("utf-8-sig" if given.encoding == "utf-8" else given.encoding)
    except (UnicodeDecodeError, LookupError) as fault:
        raise Trouble(f"{given.table}: {fault}; --encoding names another, as cp1252") from fault
    csv.field_size_limit(16_777_216)
    try:
        rows = list(csv.reader(io.StringIO(text, newline=""), delimiter=given.delimiter or _delimiter_of(text)))
    except (csv.Error, TypeError) as fault:
        raise Trouble(f"{given.table}: {fault}") from fault
    return _records(given, rows)


def _records(given: argparse.Namespace, rows: list[list[str]]) -> tuple[list[str], list[Record]]:
    """The heads, and the records by them. Rows and columns that are empty, as spreadsheets have at their ends, are passed over."""
    renames = dict(_renames(given.column))
    heads = [renames.get(head.strip(), head.strip()) for head in rows[0]] if rows else []
    while heads and not heads[-1]:
        heads.pop()
    if not heads:
        raise Trouble(f"{given.table}: the first line has no heads of columns")
    twice = [head for at, head in enumerate(heads) if head in heads[:at]]
    if twice:
        raise Trouble(f"{given.table}: two columns have the head {twice[0]!r}")
    records = []
    for number, row in enumerate(rows[1:], 2):
        if not any(row):
            continue
        if len(row) < len(heads) or any(row[len(heads) :]):
            raise Trouble(f"{given.table}: row {number} has {len(row)} columns, and the heads are {len(heads)}")
        records.append(dict(zip(heads, row)))
    return heads, records


def _delimiter_of(text: str) -> str:
    first = text.split("\n", 1)[0]
    return max(",;\t", key=first.count)


def _renames(columns: list[str]) -> list[tuple[str, str]]:
    pairs = []
    for it in columns:
        key, equals, head = it.partition("=")
        if not equals:
            raise Trouble(f"--column {it}: wanted is KEY=HEAD, as --column body=Text", 2)
        pairs.append((head.strip(), key.strip()))
    return pairs


def _moment(text: str, where: str) -> Optional[int]:
    if not text.strip():
        return None
    moment = moment_of(text)
    if moment is None:
        raise Trouble(f"{where}: {text!r} is no date; wanted is one like 2026-03-01 or 2026-03-01 09:30")
    return moment


def _weight(text: str, where: str) -> int:
    text = text.strip() or "0"
    if not re.fullmatch(r"-?\d{1,4}", text) or abs(int(text)) > 1000:
        raise Trouble(f"{where}: {text!r} is no whole number from -1000 to 1000")
    return int(text)


def plain_by(how: str) -> Callable[[str], str]:
    """How texts are made plain: as HTML, as Markdown, not at all, or as they look."""
    if how == "html":
        return from_html
    if how == "markdown":
        return from_markdown
    if how == "text":
        return as_text
    return lambda text: from_html(text, keeps_lines=True) if looks_like_html(text) else as_text(text)


def item_of(record: Record, number: int, given: argparse.Namespace, fields: list[str]) -> Item:
    """A page or a piece of news of a record."""
    where = f"row {number}"
    plain = plain_by(given.texts)
    title = record.get("title", "")
    title = plain(title) if looks_like_html(title) else title
    path = record.get("path", "").strip() or (path_under(given.folder, title) if given.folder else "")
    menu = record.get("menu", "").strip()
    weight = _weight(record.get("menu_weight", ""), f"{where}: menu_weight")
    return Item(
        key=record.get("id", "").strip() or path or as_line(title) or where,
        title=title,
        kind=record.get("type", "").strip() or given.type,
        fields={name: plain(record[name]) for name in fields if record[name].strip()},
        created=_moment(record.get("created", ""), f"{where}: created"),
        path=path,
        old=parts(record.get("old", "")),
        author=record.get("author", "").strip(),
        terms=parts(record.get("terms", "")),
        is_published=is_yes(record.get("status", "yes") or "yes", f"{where}: status"),
        is_promoted=is_yes(record.get("promote", "no"), f"{where}: promote"),
        is_sticky=is_yes(record.get("sticky", "no"), f"{where}: sticky"),
        menu=MenuWish(menu, record.get("menu_under", "").strip(), weight) if menu else None,
    )


def _fields(builder: Builder, heads: list[str], given: argparse.Namespace) -> list[str]:
    """The columns that are fields: those that a type of the site has. `Trouble` where a column is nothing at all."""
    known = {field["name"] for _, kind in builder.site.of_kind("type") for field in kind["fields"]}
    fields = [head for head in heads if head in known and head not in OF_NODES]
    strange = [head for head in heads if head not in known and head not in OF_NODES]
    if strange and not given.skip:
        fields_known = ", ".join(sorted(known))
        raise Trouble(
            f"the columns {', '.join(strange)} are unknown; known are {', '.join(OF_NODES)} and the fields {fields_known}. "
            "--column KEY=HEAD names one, --skip leaves them out"
        )
    if "title" not in heads:
        raise Trouble("there is no column title; --column title=HEAD names it")
    return fields


def add_nodes(builder: Builder, heads: list[str], records: list[Record], given: argparse.Namespace) -> None:
    """Pages and news."""
    fields = _fields(builder, heads, given)
    items = [item_of(record, number, given, fields) for number, record in enumerate(records, 2)]
    seen: dict[str, int] = {}
    for number, item in enumerate(items, 2):
        if item.key in seen:
            raise Trouble(f"rows {seen[item.key]} and {number} both are {item.key!r}; a column id tells them apart")
        seen[item.key] = number
    builder.add_all(items, len(items))


def add_terms(builder: Builder, heads: list[str], records: list[Record], given: argparse.Namespace) -> None:
    """Terms: columns name, description and parent."""
    _need(heads, ("name",), ("name", "description", "parent", "old"), given)
    for record in records:
        name = as_line(record["name"])
        is_new = builder.site.find("term", "name", name) is None
        number = builder.site.term(name, as_text(record.get("description", "")))
        builder.counts["new term" if is_new else "unchanged term"] += 1
        for old in parts(record.get("old", "")):
            builder.redirects.add_with_slash(old, f"/taxonomy/term/{number}")
        if record.get("parent", "").strip():
            parent = builder.site.term(as_line(record["parent"]))
            if not builder.site.put_below(number, parent):
                builder.note(f"term {name!r} can't stand below {record['parent']!r}: it has a parent, or would be its own, or too deep")


def add_users(builder: Builder, heads: list[str], records: list[Record], given: argparse.Namespace) -> None:
    """Users without passwords: columns name, roles and created."""
    _need(heads, ("name",), ("name", "roles", "created"), given)
    for number, record in enumerate(records, 2):
        name = as_line(record["name"], 60)
        is_new = builder.site.find("user", "name", name) is None
        roles = tuple(machine_name(role, role) for role in parts(record.get("roles", "")))
        for role in roles:
            if Cell("role", role) not in builder.site.rows:
                builder.note(f"{name}: the site has no role {role}")
        created = _moment(record.get("created", ""), f"row {number}: created")
        builder.site.user(name, now() if created is None else created, roles)
        builder.counts["new user" if is_new else "unchanged user"] += 1


def add_links(builder: Builder, heads: list[str], records: list[Record], given: argparse.Namespace) -> None:
    """Links of the menu main: columns title, path, under and weight."""
    _need(heads, ("title", "path"), ("title", "path", "under", "weight", "menu"), given)
    wishes = []
    for number, record in enumerate(records, 2):
        weight = _weight(record.get("weight", ""), f"row {number}: weight")
        wish = MenuWish(record["title"], record.get("under", "").strip(), weight)
        wishes.append((machine_name(record.get("menu", ""), "main"), wish, record["path"].strip()))
    builder.link_all(wishes)
    builder.counts["link"] += len(wishes)


def _need(heads: list[str], needed: tuple[str, ...], known: tuple[str, ...], given: argparse.Namespace) -> None:
    for head in needed:
        if head not in heads:
            raise Trouble(f"there is no column {head}; --column {head}=HEAD names it")
    strange = [head for head in heads if head not in known]
    if strange and not given.skip:
        raise Trouble(f"the columns {', '.join(strange)} are unknown; known are {', '.join(known)}. --skip leaves them out")


ADDERS = {"nodes": add_nodes, "terms": add_terms, "users": add_users, "links": add_links}


def run(given: argparse.Namespace) -> int:
    """Reads the table, and writes the rows."""
    heads, records = read_table(given)
    site = base(given)
    builder = Builder(site, universal_id("csv", given.source or given.type))
    ADDERS[given.rows](builder, heads, records, given)
    return finish(builder, given)


def add_to(commands: Any) -> None:
    """Adds the subcommand."""
    it = commands.add_parser(
        "from-csv",
        help="pages, news, terms, users or links of a menu from a table",
        description="Makes rows of a table with heads of columns in its first line. For nodes the columns are title, any field of the "
        "type (as summary, body), and, where wanted: path, type, author, created, terms (between semicolons), status "
        "(published or draft), promote, sticky, old (addresses where it was before, between semicolons), menu (the title of a link), "
        "menu_under, menu_weight and id. A table that is read again changes what it made before.",
    )
    it.add_argument("table", metavar="TABLE", help="a file with comma, semicolon or tab between columns, or - for the input")
    it.add_argument("--rows", choices=sorted(ADDERS), default="nodes", help="what the rows are (default: nodes)")
    it.add_argument("--type", default="page", help="the type of nodes without a column type (default: page)")
    it.add_argument("--folder", metavar="PATH", help="nodes without a path get one in this folder, from their title")
    it.add_argument("--column", action="append", default=[], metavar="KEY=HEAD", help="the column of a key has another head")
    it.add_argument("--skip", action="store_true", help="leave out columns that nothing is made of")
    it.add_argument("--texts", choices=("look", "text", "html", "markdown"), default="look", help="what fields are written in")
    it.add_argument("--delimiter", metavar="CHARACTER", help="what stands between columns (default: as the first line looks)")
    it.add_argument("--encoding", default="utf-8", help="the encoding of the file (default: utf-8)")
    it.add_argument("--source", metavar="NAME", help="a name for the table, where several tables have rows with the same ids")
    add_options(it)
    it.set_defaults(run=run)
