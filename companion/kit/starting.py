"""`new`: a site from a few questions or options, as a file of rows."""

from __future__ import annotations

import argparse
import sys
from dataclasses import dataclass, field
from typing import Any, Optional

from . import passwords
from .document import Document, now, universal_id
from .outputs import give, tell
from .texts import as_line, as_path, as_text
from .trouble import Trouble

OF_EDITORS = (
    "access user profiles",
    "administer blocks",
    "administer menu",
    "administer nodes",
    "administer taxonomy",
    "administer views",
    "create url aliases",
)


@dataclass
class Wishes:
    """What a new site is to have."""

    name: str
    front: str = "/welcome"
    front_title: str = ""
    front_text: str = ""
    admin: str = "admin"
    password: Optional[tuple[str, str]] = None
    editors: list[str] = field(default_factory=list)
    has_menu: bool = True
    has_news: bool = True
    contact: str = ""


def field_row(name: str, label: str, teaser: bool = False) -> dict[str, Any]:
    """A field of a type that everybody may see and edit."""
    return {"edit": None, "label": label, "name": name, "owner": False, "teaser": teaser, "view": None}


def link_row(name: str, path: str, title: str, parent: Optional[str] = None, weight: int = 0) -> dict[str, Any]:
    """A link of a menu."""
    return {"id": name, "parent": parent, "path": path, "title": title, "weight": weight}


def block_row(kind: str, region: str, **more: Any) -> dict[str, Any]:
    """A block that is shown everywhere to everybody, but for what is said otherwise."""
    row: dict[str, Any] = {
        "age": None, "hide": False, "kind": kind, "label": "", "name": None, "paths": [], "region": region, "roles": [],
        "text": None, "weight": 0,
    }  # fmt: skip
    return {**row, **more}


def node_row(kind: str, title: str, fields: dict[str, str], moment: int, uuid: str, **more: Any) -> dict[str, Any]:
    """A published node, but for what is said otherwise."""
    row: dict[str, Any] = {
        "changed": moment, "created": moment, "fields": fields, "grants": [], "path": None, "promote": False, "refs": [],
        "status": True, "sticky": False, "terms": [], "title": title, "type": kind, "uid": 1, "uuid": uuid, "vid": 1,
    }  # fmt: skip
    return {**row, **more}


def _put_types(site: Document, wishes: Wishes) -> list[str]:
    """The types of the site, and their names."""
    fields = [field_row("summary", "In short", teaser=True), field_row("body", "Text")]
    site.put("type", "page", {"fields": fields, "label": "Page", "submitted": False})
    if not wishes.has_news:
        return ["page"]
    site.put("type", "news", {"fields": fields, "label": "News", "submitted": True})
    return ["page", "news"]


def _put_role(site: Document, name: str, label: str, permissions: list[str]) -> None:
    site.put("role", name, {"admin": False, "grants": [], "label": label, "permissions": sorted(permissions)})


def _put_people(site: Document, wishes: Wishes, types: list[str], moment: int) -> None:
    _put_role(site, "anonymous", "Visitor", ["access content"])
    _put_role(site, "authenticated", "Member", ["access content", "view own unpublished content"])
    forms = ("create {} content", "edit any {} content", "delete any {} content")
    _put_role(site, "editor", "Editor", [*OF_EDITORS, *(form.format(name) for form in forms for name in types)])
    site.user(wishes.admin, moment, password=wishes.password)
    for name in wishes.editors:
        site.user(name, moment, roles=("editor",))


def _put_front(site: Document, wishes: Wishes, moment: int) -> None:
    text = as_text(wishes.front_text)
    fields = {"body": text} if text else {}
    title = as_line(wishes.front_title or f"Welcome to {wishes.name}")
    uuid = universal_id(wishes.name, "node", "front")
    site.put("node", site.number("node"), node_row("page", title, fields, moment, uuid, path=wishes.front))


def _put_menu(site: Document, wishes: Wishes) -> None:
    links = [link_row("home", wishes.front, "Home", weight=-10)]
    if wishes.has_news:
        links.append(link_row("news", "/news", "News", weight=10))
    site.put("menu", "main", {"label": "Main menu", "links": links})
    site.put("block", "main_menu", block_row("menu", "header", name="main", weight=-10))


def _put_news(site: Document) -> None:
    site.put("listing", "news", {
        "age": None, "path": "/news", "promoted": False, "recent": None, "term": None, "title": "News", "types": ["news"],
    })  # fmt: skip
    site.put("block", "latest", block_row("listing", "aside", label="Latest news", name="news", paths=["<front>"]))


def _put_blocks(site: Document, wishes: Wishes) -> None:
    if wishes.contact:
        site.put("block", "contact", block_row("text", "footer", label="Contact", text=as_text(wishes.contact)))
    site.put("block", "greeting", block_row("greeting", "footer", weight=10))
    site.put("block", "guard", block_row("csrf", "footer", roles=["authenticated"], weight=20))


def made(wishes: Wishes) -> Document:
    """The site of these wishes."""
    site, moment = Document(), now()
    site.put("site", "", {"front": wishes.front, "name": as_line(wishes.name)})
    site.put("seq", "", {"node": 1, "term": 1, "user": 1})
    types = _put_types(site, wishes)
    _put_people(site, wishes, types, moment)
    _put_front(site, wishes, moment)
    if wishes.has_menu:
        _put_menu(site, wishes)
    if wishes.has_news:
        _put_news(site)
    _put_blocks(site, wishes)
    site.check()
    return site


def _asked(question: str, otherwise: str = "") -> str:
    print(f"{question}{f' [{otherwise}]' if otherwise else ''}: ", end="", file=sys.stderr, flush=True)
    line = sys.stdin.readline()
    if not line:
        raise Trouble("the input ended before all was answered")
    return line.strip() or otherwise


def _is_yes(question: str, otherwise: bool = True) -> bool:
    return _asked(question, "yes" if otherwise else "no").lower().startswith("y")


def ask(given: argparse.Namespace) -> Wishes:
    """Wishes by questions, for what no option says."""
    name = given.name or _asked("What is the site called")
    wishes = Wishes(name)
    wishes.front_title = given.front_title or _asked("The title of the front page", f"Welcome to {name}")
    wishes.front_text = given.front_text or _asked("A few words for the front page")
    wishes.admin = given.admin or _asked("The name of the administrator", "admin")
    wishes.has_menu = given.menu and _is_yes("A menu in the header")
    wishes.has_news = given.news and _is_yes("News, with a listing at /news")
    wishes.contact = given.contact or _asked("How to reach you, for the footer of each page")
    return wishes


def _wishes(given: argparse.Namespace) -> Wishes:
    if given.name is None:
        if not sys.stdin.isatty() and not given.ask:
            raise Trouble("a site needs a name: --name, or a terminal to ask at", 2)
        wishes = ask(given)
    else:
        wishes = Wishes(
            given.name, front_title=given.front_title, front_text=given.front_text, admin=given.admin or "admin",
            has_menu=given.menu, has_news=given.news, contact=given.contact,
        )  # fmt: skip
    if not as_line(wishes.name):
        raise Trouble("a site needs a name", 2)
    front = as_path(given.front)
    if front is None or front == "/news":
        raise Trouble("the front page needs a path of its own, as /welcome", 2)
    wishes.front, wishes.editors = front, given.editor
    return wishes


def run(given: argparse.Namespace) -> int:
    """Makes the site, and writes its rows."""
    wishes = _wishes(given)
    if given.no_password:
        tell(f"{wishes.admin} has no password, so nobody can log in yet")
    else:
        what = f"Password for {wishes.admin}"
        wishes.password = passwords.salted(passwords.given_or_asked(given.password_file, what, twice=True))
    site = made(wishes)
    give(site.text(), given.out)
    tell(f"{len(site.rows)} rows{f' in {given.out}' if given.out else ''}")
    for name in wishes.editors:
        number = site.user(name, 0)
        tell(f"{name} has no password yet: `sitekit edit user set {number} --pass` gives one, once the site is served")
    return 0


def add_to(commands: Any) -> None:
    """Adds the subcommand."""
    it = commands.add_parser(
        "new",
        help="a new site from a few questions or options",
        description="Makes a new site as a file of rows, ready to be imported: a front page, a menu, news with a listing, blocks, "
        "roles, and user 1, who may do everything. Without --name it asks.",
    )
    it.add_argument("--name", help="what the site is called; without it, questions are asked")
    it.add_argument("--ask", action="store_true", help="ask questions also where the input is no terminal")
    it.add_argument("--front", default="/welcome", metavar="PATH", help="the path of the front page (default: /welcome)")
    it.add_argument("--front-title", default="", metavar="TITLE", help="its title (default: Welcome to NAME)")
    it.add_argument("--front-text", default="", metavar="TEXT", help="what it says")
    it.add_argument("--admin", metavar="NAME", help="the name of user 1 (default: admin)")
    it.add_argument("--password-file", metavar="FILE", help="user 1's password is the first line of this file; else it is asked for")
    it.add_argument("--no-password", action="store_true", help="give user 1 no password: nobody can log in")
    it.add_argument("--editor", action="append", default=[], metavar="NAME", help="a user with the role editor; may be repeated")
    it.add_argument("--contact", default="", metavar="TEXT", help="how to reach you, in the footer of each page")
    it.add_argument("--no-menu", dest="menu", action="store_false", help="without a menu")
    it.add_argument("--no-news", dest="news", action="store_false", help="without news")
    it.add_argument("-o", "--out", metavar="ROWS", help="the file to write (default: the output)")
    it.set_defaults(run=run)
