"""Exports of WordPress (WXR, a kind of RSS), read into plain data."""

from __future__ import annotations

import html
import re
import xml.etree.ElementTree as tree
from dataclasses import dataclass, field
from typing import Iterator, Optional

from .rowfile import read_bytes
from .texts import moment_of
from .trouble import Trouble

_VERSIONS = re.compile(r"\{http://wordpress\.org/export/[\d.]+/(excerpt/)?\}")
_CONTENT = "{http://purl.org/rss/1.0/modules/content/}encoded"
_CREATOR = "{http://purl.org/dc/elements/1.1/}creator"
NO_DATE = "0000-00-00 00:00:00"


@dataclass
class Entry:
    """An item of an export: a post, a page, a link of a menu, a file or anything else."""

    number: int
    kind: str
    title: str
    link: str
    status: str
    content: str
    excerpt: str
    author: str
    password: str
    parent: int
    order: int
    is_sticky: bool
    created: Optional[int]
    changed: Optional[int]
    name: str
    terms: list[tuple[str, str, str]] = field(default_factory=list)
    meta: dict[str, str] = field(default_factory=dict)
    comments: int = 0


@dataclass
class Topic:
    """A category or a tag: its number, what it is, its name, and what it is about."""

    number: int
    taxonomy: str
    slug: str
    name: str
    description: str
    parent: str


@dataclass
class Export:
    """What an export holds."""

    title: str
    address: str
    authors: dict[str, str]
    topics: list[Topic]
    entries: list[Entry]


def _plain_tags(element: tree.Element) -> Iterator[tuple[str, tree.Element]]:
    """The members of an element by their names, those of WordPress as `wp:..` whatever the version of the export."""
    for member in element:
        tag = _VERSIONS.sub(lambda found: "excerpt:" if found[1] else "wp:", member.tag)
        yield {_CONTENT: "content", _CREATOR: "creator"}.get(tag, tag), member


def _texts(element: tree.Element) -> dict[str, str]:
    return {tag: member.text or "" for tag, member in _plain_tags(element)}


def _number(text: str) -> int:
    return int(text) if re.fullmatch(r"\d+", text.strip()) else 0


def _moment(texts: dict[str, str], name: str) -> Optional[int]:
    """A date, by the clock of Greenwich where it is told, else by that of the site."""
    for key in (f"wp:{name}_gmt", f"wp:{name}"):
        if texts.get(key, NO_DATE).strip() not in ("", NO_DATE):
            return moment_of(texts[key])
    return None


def _entry(element: tree.Element) -> Entry:
    texts = _texts(element)
    entry = Entry(
        number=_number(texts.get("wp:post_id", "")), kind=texts.get("wp:post_type", "").strip() or "post",
        title=html.unescape(texts.get("title", "")), link=texts.get("link", "").strip(),
        status=texts.get("wp:status", "publish").strip(), content=texts.get("content", ""),
        excerpt=texts.get("excerpt:encoded", ""), author=texts.get("creator", "").strip(),
        password=texts.get("wp:post_password", ""), parent=_number(texts.get("wp:post_parent", "")),
        order=_number(texts.get("wp:menu_order", "")), is_sticky=texts.get("wp:is_sticky", "0").strip() == "1",
        created=_moment(texts, "post_date"), changed=_moment(texts, "post_modified"), name=texts.get("wp:post_name", ""),
    )  # fmt: skip
    for tag, member in _plain_tags(element):
        if tag == "category":
            words = html.unescape(member.text or "")
            entry.terms.append((member.get("domain", ""), member.get("nicename", ""), words))
        elif tag == "wp:postmeta":
            pair = _texts(member)
            entry.meta[pair.get("wp:meta_key", "")] = pair.get("wp:meta_value", "")
        elif tag == "wp:comment":
            entry.comments += 1
    return entry


def _topic(texts: dict[str, str], taxonomy: str, slug: str, name: str, about: str, parent: str) -> Topic:
    return Topic(
        _number(texts.get("wp:term_id", "")), taxonomy, texts.get(slug, ""), html.unescape(texts.get(name, "")),
        html.unescape(texts.get(about, "")), texts.get(parent, ""),
    )  # fmt: skip


def _topics(channel: tree.Element) -> Iterator[Topic]:
    for tag, member in _plain_tags(channel):
        texts = _texts(member)
        if tag == "wp:category":
            words = ("wp:category_nicename", "wp:cat_name", "wp:category_description", "wp:category_parent")
            yield _topic(texts, "category", *words)
        elif tag == "wp:tag":
            yield _topic(texts, "post_tag", "wp:tag_slug", "wp:tag_name", "wp:tag_description", "wp:tag_parent")


def _parsed(name: str) -> tree.Element:
    raw = read_bytes(name)
    if b"<!ENTITY" in raw[:4096] or b"<!DOCTYPE" in raw[:4096]:
        raise Trouble(f"{name}: an export of WordPress declares no entities")
    raw = re.sub(rb"[\x00-\x08\x0b\x0c\x0e-\x1f]", b"", raw)
    try:
        return tree.fromstring(raw)
    except tree.ParseError as fault:
        raise Trouble(f"{name}: this is no XML: {fault}") from fault


def read(name: str) -> Export:
    """The export in a file."""
    channel = _parsed(name).find("channel")
    if channel is None or not any(tag == "wp:wxr_version" for tag, _ in _plain_tags(channel)):
        raise Trouble(f"{name}: this is no export of WordPress (Tools, Export, All content)")
    texts = _texts(channel)
    authors = {}
    for tag, member in _plain_tags(channel):
        if tag == "wp:author":
            author = _texts(member)
            login = author.get("wp:author_login", "")
            authors[login] = author.get("wp:author_display_name", "").strip() or login
    entries = [_entry(member) for tag, member in _plain_tags(channel) if tag == "item"]
    address = texts.get("wp:base_blog_url", "") or texts.get("link", "")
    return Export(html.unescape(texts.get("title", "")), address.strip().rstrip("/"), authors, list(_topics(channel)), entries)
