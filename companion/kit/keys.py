"""`keys`: the keys of each kind of row, what may stand at each, and what they do."""

from __future__ import annotations

import argparse
from typing import Any, Iterator, Mapping

from .asks import Ask, Columns, Each
from .forms import KEPT_SEGMENTS
from .tables import FIELD, GRANT, LINK, OF_KIND, RECORD
from .warnings import ASKED, OF_TYPES

CELLS = {
    "site": "`site`",
    "seq": "`seq`",
    "user": "`user:` and a number from 1",
    "term": "`term:` and a number from 1",
    "node": "`node:` and a number from 1",
    "comment": "`comment:` and a number from 1",
    "talk": "`talk`",
}
ABOUT = {
    "site": "The settings. There is one such row.",
    "seq": "The numbers that are given next. There is one such row; each number is above all of its kind.",
    "type": "A type of content: the fields that its nodes have.",
    "role": "A role: what those who have it may do. `anonymous` is for whoever isn't logged in, `authenticated` for whoever is; both are always "
    "there. Removing a role takes it from nobody's row, and gives nothing any more.",
    "user": "Somebody who may log in. User 1 may do everything. There is no removing of users; block them.",
    "term": "A topic, whose page lists the nodes that have it or a term below it.",
    "node": "A page or a piece of news: something with a title and fields.",
    "menu": "A menu. Blocks show it.",
    "listing": "A list of nodes, ten a page, at a path of its own, in blocks, or both. Sticky nodes come first, then the newest.",
    "block": "A box in the header, at the side or in the footer of pages.",
    "session": "Somebody who is logged in. The site makes these; removing one from the store ends the session.",
    "comment": "What somebody said to a node, or in reply to what somebody said. A node has at most 1,000. Those are shown that are published, to whom may see "
    "comments, each reply below what it replies to.",
    "talk": "The number that the next comment is given. It is there once there was a comment, and above the number of each.",
}
MEANINGS: Mapping[str, Mapping[str, str]] = {
    "site": {"front": "the path that `/` shows", "name": "stands behind each page's title"},
    "seq": {"node": "of the next node", "term": "of the next term", "user": "of the next user"},
    "type": {
        "fields": "its fields, in the order in which they are shown; each name once",
        "label": "its name for people",
        "submitted": "whether its nodes tell who wrote them, and when",
    },
    "role": {
        "admin": "whether those who have it may do everything",
        "grants": "grants that all who have it hold",
        "label": "its name for people",
        "permissions": "what those who have it may do",
    },
    "user": {
        "created": "since when there is such a user, in seconds since 1970",
        "digest": "of the password; null: nobody can log in so",
        "grants": "grants that the user holds",
        "name": "to log in with; no two users have the same",
        "roles": "roles besides `authenticated`",
        "salt": "of the password",
        "status": "whether the user may log in; at false their sessions give nothing",
        "uuid": "a universal id; no two users have the same",
    },
    "term": {
        "description": "what it means; may be empty",
        "name": "its title",
        "parent": "the number of the term above it; null, or left out: none. At most 9 deep",
        "status": "whether everybody may see its page and its name",
        "uuid": "a universal id; no two terms have the same",
    },
    "node": {
        "changed": "when it was changed last, in seconds since 1970",
        "created": "when it was written, in seconds since 1970: listings go by it",
        "fields": "texts by the names of the type's fields; one that is empty, or that the type hasn't, isn't shown",
        "grants": "access records: with none, everybody may see it once it is published; with any, those alone whom they name",
        "path": "where it is found besides `/node/` and its number; no two nodes or listings have the same",
        "promote": "whether listings of promoted nodes show it",
        "refs": "numbers of nodes that it shows inside itself, up to three deep",
        "status": "true: published; false: a draft, for its author who has `view own unpublished content`",
        "sticky": "whether it stands first in listings",
        "terms": "numbers of its terms",
        "title": "its title",
        "type": "the name of its type",
        "uid": "the number of its author, 0 for nobody",
        "uuid": "a universal id; no two nodes have the same",
        "vid": "its version, one more with each change",
    },
    "menu": {"label": "its name for people", "links": "its links; each id once"},
    "listing": {
        "age": "for how many seconds a page with it may be kept; null exactly where recent is",
        "path": "where it is found; null: in blocks alone",
        "promoted": "whether it shows promoted nodes alone",
        "recent": "nodes of the last so many seconds alone; null: of all times",
        "term": "nodes with this term or one below it alone; null: with any or none",
        "title": "its title",
        "types": "nodes of these types alone; none: of all",
    },
    "block": {
        "age": "of a clock: for how many seconds its time may be kept; else null",
        "hide": "turns paths round: it is shown everywhere but there",
        "kind": "what it shows: `text` its text, `menu` and `listing` the one of that name, `greeting` a link to log in or the name of who is, "
        "`csrf` the value that guards edits of who is logged in, `clock` the time",
        "label": "its heading; empty: none",
        "name": "of the menu or the listing that it shows; else null",
        "paths": "the paths at which it is shown; none: everywhere. `<front>` is the front page, however it is asked for; `/` its bare address",
        "region": "where on the page it stands",
        "roles": "who sees it: those with one of these roles; none: everybody",
        "text": "of the kind text: what it says; else null",
        "weight": "lighter blocks come first; at the same weight by name",
    },
    "session": {"expires": "when it ends, in seconds since 1970", "uid": "whose it is"},
    "comment": {
        "body": "what it says; not empty",
        "created": "when it was written, in seconds since 1970",
        "node": "the number of the node that it is on, which has to be there",
        "parent": "the number of the comment that it replies to, which is on the same node; null: of none. At most 9 deep",
        "status": "true: published; false: it waits, and who administers comments alone sees it",
        "uid": "the number of who wrote it, 0 for nobody",
        "uuid": "a universal id; no two comments have the same",
    },
    "talk": {"comment": "of the next comment"},
    FIELD.title: {
        "edit": "the permission that is needed to edit it; null: none",
        "label": "stands before its value",
        "name": "its name in a node's fields",
        "owner": "whether the node's author alone may see and edit it, and who administers nodes",
        "teaser": "whether it is shown in listings",
        "view": "the permission that is needed to see it; null: none",
    },
    GRANT.title: {"gid": "its number", "realm": "the group of numbers that it is of"},
    RECORD.title: {
        "delete": "whether holders may delete the node",
        "gid": "the number of the grant; all and 0 is held by everybody",
        "realm": "the group of numbers that it is of",
        "update": "whether holders may change the node",
        "view": "whether holders may see the node",
    },
    LINK.title: {
        "id": "its name in the menu",
        "parent": "the id of the link that it stands below; null: at the top. At most 9 deep",
        "path": "where it leads: paths of the site alone; it isn't shown to who may not see what is there",
        "title": "its words",
        "weight": "lighter links come first; at the same weight in the order of the list",
    },
}
DEFAULTS = """\
## What edits leave out

An edit over HTTP may leave keys out. What is said of none of them:

| edit | needed | left out |
|---|---|---|
| a new node | `title`, `type`, `uuid` | `created` is now, `status` and `promote` are true, `sticky` is false, `uid` is who is logged in; no fields, grants, refs, terms or path |
| a change of a node | `vid`, the version that was looked at | stays as it is; in `fields`, each field that isn't named stays too, and null takes a value away |
| a new term | `name`, `uuid` | `description` is empty, `parent` is null, `status` is true |
| a new user | `name`, `uuid` | `status` is true; no grants, roles or password (`pass`) |
| a new comment | `body`, `uuid` | `parent` is null; `created` is now, `uid` is who is logged in, `status` is true where they have `skip comment approval` or `administer comments` |
| a change of a term, a user or a comment | nothing | stays as it is |
| a role, type, block, menu, listing, the settings | all keys but `cell` | nothing may be: the row is replaced |
"""


def _words(ask: Ask) -> str:
    """What a value is to be, in words; objects inside are told by the title of their own table."""
    if isinstance(ask, Each) and isinstance(ask.member, Columns):
        return f"a list of at most {ask.most}, each {ask.member.title} (below)"
    return ask.words.replace("|", "\\|")


def table(kind: str, keys: Mapping[str, Ask]) -> Iterator[str]:
    """The table of a kind of row, or of an object inside one, as Markdown."""
    yield "| key | may be | what it does |"
    yield "|---|---|---|"
    for key, ask in keys.items():
        yield f"| `{key}` | {_words(ask)} | {MEANINGS[kind][key]} |"


def page() -> str:
    """The whole reference, as Markdown."""
    lines = [
        "# Rows and their keys",
        "",
        "What stands in a file of rows, one JSON object a line. Each has its `cell` and exactly the keys of its kind. Lengths count bytes: a",
        "letter outside of ASCII has two to four. This page is what `sitekit keys --markdown` prints; `sitekit keys KIND` prints one kind.",
        "",
        "Order doesn't matter, in a file or in a row; the program writes both in order. A line has at most 1,048,576 bytes, a file at most",
        "100,000 lines. `sitekit lint` tells what is wrong with a file.",
        "",
        f"Paths that begin with {', '.join(f'`/{it}`' for it in KEPT_SEGMENTS)} are the site's own. Moments are seconds since the",
        "beginning of 1970 in UTC, up to the beginning of 2100.",
        "",
    ]
    for kind, keys in OF_KIND.items():
        cell = CELLS.get(kind, f"`{kind}:` and a name of 1 to 64 of a-z, 0-9 and `_`")
        lines += [f"## {kind}", "", f"Cell: {cell}. {ABOUT[kind]}", "", *table(kind, keys), ""]
    lines += ["## Inside rows", ""]
    for inner in (FIELD, GRANT, RECORD, LINK):
        lines += [f"### {inner.title[0].upper()}{inner.title[1:]}", "", *table(inner.title, inner.keys), ""]
    lines += [
        "## Permissions",
        "",
        "What the site asks for, besides those that fields name. Any other text may stand in a role, and gives nothing.",
        "",
        *(f"- `{name}`" for name in (*ASKED, *(form.format("TYPE") for form in OF_TYPES))),
        "",
        DEFAULTS.rstrip("\n"),
    ]
    return "\n".join(lines) + "\n"


def _plain(kind: str) -> str:
    lines = [ABOUT[kind], ""]
    for key, ask in OF_KIND[kind].items():
        lines += [key, f"    {ask.words}", f"    {MEANINGS[kind][key]}"]
    for ask in OF_KIND[kind].values():
        if isinstance(ask, Each) and isinstance(ask.member, Columns):
            lines += ["", ask.member.title]
            for key, inner in ask.member.keys.items():
                lines += [f"  {key}", f"      {inner.words}", f"      {MEANINGS[ask.member.title][key]}"]
    return "\n".join(lines)


def run(given: argparse.Namespace) -> int:
    """Prints the keys of a kind, or the whole reference."""
    if given.markdown or given.kind is None:
        print(page(), end="")
    else:
        print(_plain(given.kind))
    return 0


def add_to(commands: Any) -> None:
    """Adds the subcommand."""
    words = "the keys of each kind of row, and what may stand at each"
    it = commands.add_parser("keys", help=words, description=f"Prints {words}: of one kind, or of all.")
    it.add_argument("kind", nargs="?", choices=tuple(OF_KIND), metavar="KIND", help="one of " + ", ".join(OF_KIND))
    it.add_argument("--markdown", action="store_true", help="the whole reference, as Markdown")
    it.set_defaults(run=run)
