"""`edit`: changes a served site from the shell."""

from __future__ import annotations

import argparse
import uuid
from typing import Any

from . import edit_comments, edit_config, passwords, tables
from .asks import Ask, Text, Texts
from .cells import GREATEST_ID, Cell
from .client import Client, SessionFile, Stale, text_of_page
from .edit_common import Adder, add_flag, client_of, common_options, number, optional_number, told
from .rowfile import read_rows, rows_file
from .texts import moment_of
from .trouble import Trouble
from .values import check, grant_of, pair, record_of, text_or_file

NEVER = GREATEST_ID + 1
NODE_KEYS = ("created", "fields", "grants", "path", "promote", "refs", "status", "sticky", "terms", "title", "uid")
CHANGES = Texts()


def log_in(given: argparse.Namespace) -> int:
    """Logs in, and keeps the session."""
    client = Client(given.at)
    password = passwords.given_or_asked(given.password_file, f"Password of {given.name}")
    reply = client.log_in(given.name, password)
    assert client.token is not None
    SessionFile(given.session, client.address).write(client.address, given.name, client.token)
    return told(f"logged in as {given.name}, user {reply.head.get('location', '').rpartition('/')[2]}", reply)


def log_out(given: argparse.Namespace) -> int:
    """Ends the session."""
    client = client_of(given)
    try:
        reply = client.edit("POST", "/user/logout")
    finally:
        SessionFile(given.session, client.address).forget()
    return told("logged out", reply)


def rebuild(given: argparse.Namespace) -> int:
    """Lets every kept piece of a page be made again."""
    return told("all pages are made again", client_of(given).edit("POST", "/cache/rebuild"))


def _node_values(given: argparse.Namespace) -> dict[str, Any]:
    """What the options say of a node, key by key; what they don't say isn't in it."""
    values: dict[str, Any] = {}
    if given.title is not None:
        values["title"] = given.title
    if given.path is not None:
        values["path"] = given.path or None
    if given.field:
        values["fields"] = {name: text_or_file(text) for name, text in map(pair, given.field)}
    for key, words in (("terms", given.term), ("refs", given.ref)):
        if words is not None:
            values[key] = [number for number in words if number]
    if given.grant is not None:
        values["grants"] = [record_of(word) for word in given.grant if word]
    for key in ("promote", "status", "sticky"):
        if getattr(given, key) is not None:
            values[key] = getattr(given, key)
    if given.created is not None:
        values["created"] = moment_of(given.created)
        if values["created"] is None:
            raise Trouble(f"--created {given.created}: wanted is a date, as 2026-03-01 or 2026-03-01 09:30", 2)
    if given.uid is not None:
        values["uid"] = given.uid
    return values


def _node_asks(*more: str) -> dict[str, Ask]:
    return {key: tables.NODE[key] for key in sorted(NODE_KEYS + more)}


def node_new(given: argparse.Namespace) -> int:
    """Makes a node."""
    value = {**_node_values(given), "type": given.type, "uuid": given.uuid or str(uuid.uuid4())}
    check(_node_asks("type", "uuid"), value, needed=("title", "type", "uuid"))
    reply = client_of(given).edit("POST", "/node", value)
    return told(f"node {reply.value['nid']} is in version {reply.value['vid']}", reply)


def newest_version(client: Client, node: int) -> int:
    """The version that a node is in, by an edit that no node can take, since none is in that version."""
    try:
        client.edit("PATCH", f"/node/{node}", {"vid": NEVER})
    except Stale as stale:
        return stale.newest
    raise Trouble(f"node {node} has no version left")


def _seen_version(client: Client, given: argparse.Namespace) -> int:
    """The version that an edit is made of: the one that was named, that of an export, or else the newest."""
    if given.vid is not None:
        return given.vid
    if given.seen:
        row = read_rows(rows_file(given.seen)).get(Cell("node", str(given.node)))
        if row is None:
            raise Trouble(f"{given.seen} has no node:{given.node}")
        return row["vid"]
    return newest_version(client, given.node)


def _tell_newer(client: Client, node: int, seen: int, newest: int) -> Trouble:
    """What is told where somebody else was faster: the version that there is now, and what it says."""
    page = text_of_page(client.ask("GET", f"/node/{node}").body)
    indented = "\n".join(f"    {line}" for line in page.splitlines())
    return Trouble(
        f"node {node} is in version {newest} by now, and yours was {seen}: nothing was changed. It says now:\n{indented}\n"
        f"To change this version all the same: --vid {newest}",
        Stale(newest).status,
    )


def node_set(given: argparse.Namespace) -> int:
    """Changes a node."""
    value = _node_values(given)
    fields = {**value.pop("fields", {}), **{name: None for name in given.clear}}
    check(_node_asks(), value, needed=())
    texts = {name: text for name, text in fields.items() if text is not None}
    check({"fields": CHANGES}, {"fields": texts}, needed=())
    if fields:
        value["fields"] = fields
    if not value:
        raise Trouble("there is nothing to change; --help has what can be", 2)
    client = client_of(given)
    seen = _seen_version(client, given)
    try:
        reply = client.edit("PATCH", f"/node/{given.node}", {**value, "vid": seen})
    except Stale as stale:
        raise _tell_newer(client, given.node, seen, stale.newest) from stale
    return told(f"node {given.node} is in version {reply.value['vid']}", reply)


def node_version(given: argparse.Namespace) -> int:
    """Prints the version that a node is in."""
    print(newest_version(client_of(given), given.node))
    return 0


def node_delete(given: argparse.Namespace) -> int:
    """Removes a node."""
    return told(f"node {given.node} is removed", client_of(given).edit("DELETE", f"/node/{given.node}"))


def _term_values(given: argparse.Namespace) -> dict[str, Any]:
    values: dict[str, Any] = {}
    if given.name is not None:
        values["name"] = given.name
    if given.description is not None:
        values["description"] = text_or_file(given.description)
    if "parent" in given:
        values["parent"] = given.parent
    if given.status is not None:
        values["status"] = given.status
    return values


def term_new(given: argparse.Namespace) -> int:
    """Makes a term."""
    value = {**_term_values(given), "uuid": str(uuid.uuid4())}
    check(tables.TERM, value, needed=("name", "uuid"))
    reply = client_of(given).edit("POST", "/taxonomy/term", value)
    return told(f"term {reply.value['tid']}", reply)


def term_set(given: argparse.Namespace) -> int:
    """Changes a term."""
    value = _term_values(given)
    check(tables.TERM, value, needed=())
    return told(f"term {given.term} is changed", client_of(given).edit("PATCH", f"/taxonomy/term/{given.term}", value))


def term_delete(given: argparse.Namespace) -> int:
    """Removes a term."""
    return told(f"term {given.term} is removed", client_of(given).edit("DELETE", f"/taxonomy/term/{given.term}"))


def _user_values(given: argparse.Namespace) -> dict[str, Any]:
    values: dict[str, Any] = {}
    if given.name is not None:
        values["name"] = given.name
    if given.role is not None:
        values["roles"] = [role for role in given.role if role]
    if given.grant is not None:
        values["grants"] = [grant_of(word) for word in given.grant if word]
    if given.status is not None:
        values["status"] = given.status
    if given.password_file or given.password:
        values["pass"] = passwords.given_or_asked(given.password_file, "Their new password", twice=True)
    return values


def _user_asks() -> dict[str, Ask]:
    kept = {key: tables.USER[key] for key in ("grants", "name", "roles", "status", "uuid")}
    return {**kept, "pass": Text(passwords.FORM)}


def user_new(given: argparse.Namespace) -> int:
    """Makes a user."""
    value = {**_user_values(given), "uuid": str(uuid.uuid4())}
    check(_user_asks(), value, needed=("name", "uuid"))
    reply = client_of(given).edit("POST", "/user", value)
    return told(f"user {reply.value['uid']}", reply)


def user_set(given: argparse.Namespace) -> int:
    """Changes a user."""
    value = _user_values(given)
    check(_user_asks(), value, needed=())
    return told(f"user {given.user} is changed", client_of(given).edit("PATCH", f"/user/{given.user}", value))


def user_end(given: argparse.Namespace) -> int:
    """Ends all sessions of a user that an export has, by logging out with each."""
    rows = read_rows(rows_file(given.source))
    tokens = [cell.name for cell, row in rows.items() if cell.kind == "session" and row["uid"] == given.user]
    ended = 0
    for token in tokens:
        ended += Client(given.at, token).ask("POST", "/user/logout").status == 200
    others = "" if ended == len(tokens) else ", the others had ended before"
    print(f"user {given.user}: {ended} of {len(tokens)} sessions ended{others}")
    return 0


def _add_node_options(it: argparse.ArgumentParser) -> None:
    it.add_argument("--title")
    it.add_argument("--field", action="append", default=[], metavar="NAME=TEXT", help="a field; @FILE reads it from a file; may be repeated")
    it.add_argument("--path", help="where it is found; an empty one takes it away")
    it.add_argument("--term", type=optional_number, action="append", metavar="T", help="a term; an empty one: none at all")
    it.add_argument("--ref", type=optional_number, action="append", metavar="N", help="a node that it refers to")
    it.add_argument(
        "--grant", action="append", metavar="REALM:NUMBER:WHAT",
        help="who else may view, update or delete it, as board:1:view,update; with one, nobody else sees it; an empty one: none",
    )  # fmt: skip
    add_flag(it, "status", "publish", "draft", ("everybody may see it", "its author alone may see it"))
    add_flag(it, "promote", "promote", "no-promote", ("promoted listings show it", "they don't"))
    add_flag(it, "sticky", "sticky", "no-sticky", ("it stands first in listings", "it doesn't"))
    it.add_argument("--created", metavar="DATE")
    it.add_argument("--uid", type=number, metavar="U", help="the user that it belongs to, 0 for nobody")


def _add_nodes(top: Adder) -> None:
    nodes = top.group("node", "make, change and remove pages and news")
    it = nodes.add("new", "make a node", node_new)
    it.add_argument("--type", required=True)
    it.add_argument("--uuid", help="its universal id (default: one by chance)")
    _add_node_options(it)
    it = nodes.add("set", "change a node; what isn't named stays as it is", node_set)
    it.add_argument("node", type=number, metavar="N")
    it.add_argument("--vid", type=int, metavar="V", help="the version that you looked at (default: the newest there is)")
    it.add_argument("--seen", metavar="EXPORT", help="the export, or the backup, that you looked at: its version is sent")
    it.add_argument("--clear", action="append", default=[], metavar="NAME", help="take the value of a field away")
    _add_node_options(it)
    for name, words, run in (
        ("version", "print the version that a node is in", node_version),
        ("delete", "remove a node", node_delete),
    ):
        nodes.add(name, words, run).add_argument("node", type=number, metavar="N")


def _add_terms(top: Adder) -> None:
    terms = top.group("term", "make, change and remove terms")
    it = terms.add("new", "make a term", term_new)
    it.add_argument("name")
    others = [it, terms.add("set", "change a term", term_set)]
    others[1].add_argument("term", type=number, metavar="T")
    others[1].add_argument("--name")
    for it in others:
        it.add_argument("--description", metavar="TEXT", help="what it means; @FILE reads it from a file")
        it.add_argument(
            "--parent", type=optional_number, default=argparse.SUPPRESS, metavar="T", help="the term that it stands below; an empty one: none"
        )
        add_flag(it, "status", "publish", "draft", ("everybody may see it", "who looks after terms alone may see it"))
    terms.add("delete", "remove a term", term_delete).add_argument("term", type=number, metavar="T")


def _add_users(top: Adder) -> None:
    users = top.group("user", "make and change users")
    it = users.add("new", "make a user, who can't log in without a password", user_new)
    it.add_argument("name")
    others = [it, users.add("set", "change a user", user_set)]
    others[1].add_argument("user", type=number, metavar="U", help="the number of the user")
    others[1].add_argument("--name")
    for it in others:
        it.add_argument("--pass", dest="password", action="store_true", help="give them a password, which is asked for")
        it.add_argument("--password-file", metavar="FILE", help="give them the password in the first line of a file")
        it.add_argument("--role", action="append", help="a role; may be repeated, and replaces those that they have; an empty one: none")
        it.add_argument("--grant", action="append", metavar="REALM:NUMBER", help="a grant, as board:1; likewise")
        add_flag(it, "status", "active", "blocked", ("they may log in", "they may not, and their sessions give nothing"))


    it = users.add("end-sessions", "end the sessions that somebody has, as a lost telephone's", user_end)
    it.add_argument("user", type=number, metavar="U")
    it.add_argument("--from", dest="source", required=True, metavar="EXPORT", help="a fresh export, or a backup: it has the sessions")


def add_to(commands: Any) -> None:
    """Adds the subcommand with its parts."""
    words = "change a served site from the shell"
    it = commands.add_parser(
        "edit",
        help=words,
        description="Changes a served site from the shell. First log in; the session is kept in a file that you alone can read. Status 0: "
        "done. 4: somebody else was faster, and nothing was changed. 5: you may not. 6: refused for another cause.",
    )
    common = common_options()
    top = Adder(it.add_subparsers(title="subcommands", metavar="COMMAND", required=True), common)
    login = top.add("login", "log in, and keep the session", log_in)
    login.add_argument("name")
    login.add_argument("--password-file", metavar="FILE", help="the password is the first line of this file; else it is asked for")
    top.add("logout", "end the session", log_out)
    _add_nodes(top)
    _add_terms(top)
    edit_comments.add_to(top)
    _add_users(top)
    edit_config.add_to(top)
    top.add("rebuild", "let every kept piece of a page be made again", rebuild)
