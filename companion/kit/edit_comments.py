"""`edit comment`: comments of a served site, and their approval."""

from __future__ import annotations

import argparse
import uuid
from typing import Any

from . import tables
from .edit_common import Adder, add_flag, client_of, number, told
from .trouble import Trouble
from .values import check, text_or_file


def _values(given: argparse.Namespace) -> dict[str, Any]:
    """What the options say of a comment, key by key; what they don't say isn't in it."""
    values: dict[str, Any] = {}
    if given.body is not None:
        values["body"] = text_or_file(given.body)
    if given.parent is not None:
        values["parent"] = given.parent
    if given.status is not None:
        values["status"] = given.status
    return values


def new(given: argparse.Namespace) -> int:
    """Posts a comment on a node, or a reply to one."""
    value = {**_values(given), "uuid": str(uuid.uuid4())}
    check(tables.COMMENT, value, needed=("body", "uuid"))
    reply = client_of(given).edit("POST", f"/node/{given.node}/comment", value)
    return told(f"comment {reply.value['cid']}", reply)


def change(given: argparse.Namespace) -> int:
    """Changes a comment."""
    value = _values(given)
    if not value:
        raise Trouble("there is nothing to change; --help has what can be", 2)
    check(tables.COMMENT, value, needed=())
    return told(f"comment {given.comment} is changed", client_of(given).edit("PATCH", f"/comment/{given.comment}", value))


def delete(given: argparse.Namespace) -> int:
    """Removes a comment, with all replies to it."""
    return told(f"comment {given.comment} is removed", client_of(given).edit("DELETE", f"/comment/{given.comment}"))


def add_to(top: Adder) -> None:
    """Adds the subcommands."""
    comments = top.group("comment", "post, change, approve and remove comments")
    it = comments.add("new", "post a comment on a node", new)
    it.set_defaults(status=None)
    it.add_argument("node", type=number, metavar="N", help="the number of the node")
    it.add_argument("body", metavar="TEXT", help="what it says; @FILE reads it from a file")
    it.add_argument("--reply-to", dest="parent", type=number, metavar="C", help="the comment that it replies to")
    it = comments.add("set", "change or approve a comment; what isn't named stays as it is", change)
    it.set_defaults(parent=None)
    it.add_argument("comment", type=number, metavar="C")
    it.add_argument("--body", metavar="TEXT", help="what it says; @FILE reads it from a file")
    add_flag(it, "status", "publish", "hide", ("who may see comments sees it", "who administers comments alone sees it, with the replies to it"))
    it = comments.add("delete", "remove a comment, with all replies to it", delete)
    it.add_argument("comment", type=number, metavar="C")
