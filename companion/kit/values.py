"""Values of keys as words of a command line, and held against what the keys are to be."""

from __future__ import annotations

import json
import re
from typing import Any, Mapping, Optional

from .asks import Ask, Columns, Each, Flag, MayLack, NullOr, Text, Texts, Whole, object_faults
from .rowfile import read_bytes
from .trouble import Trouble


def text_or_file(text: str) -> str:
    """A text as it is, or what a file holds where it is `@FILE`, without the end of its last line."""
    if not text.startswith("@"):
        return text
    try:
        return read_bytes(text[1:]).decode("utf-8").rstrip("\n")
    except UnicodeDecodeError as fault:
        raise Trouble(f"{text[1:]}: {fault}", 2) from fault


def pair(word: str) -> tuple[str, str]:
    """The two sides of KEY=VALUE."""
    key, equals, value = word.partition("=")
    if not equals or not key:
        raise Trouble(f"{word!r}: wanted is KEY=VALUE", 2)
    return key, value


def value_for(ask: Ask, word: str, key: str) -> Any:
    """The value that a word says, for what a key is to be."""
    if isinstance(ask, MayLack):
        return value_for(ask.other, word, key)
    if isinstance(ask, NullOr):
        return None if word in ("", "null") else value_for(ask.other, word, key)
    if isinstance(ask, Text):
        return text_or_file(word)
    if isinstance(ask, Flag):
        return _flag(word, key)
    if isinstance(ask, Whole):
        try:
            return int(word)
        except ValueError as fault:
            raise Trouble(f"{key}: {word!r} is no whole number", 2) from fault
    if isinstance(ask, Each) and not isinstance(ask.member, Columns) and not word.lstrip().startswith("["):
        return [value_for(ask.member, part.strip(), key) for part in word.split(",") if part.strip()]
    assert isinstance(ask, (Each, Columns, Texts))
    try:
        return json.loads(text_or_file(word))
    except ValueError as fault:
        raise Trouble(f"{key}: wanted is JSON: {fault}", 2) from fault


def _flag(word: str, key: str) -> bool:
    if word.lower() in ("true", "yes", "on", "1"):
        return True
    if word.lower() in ("false", "no", "off", "0"):
        return False
    raise Trouble(f"{key}: {word!r} is neither true nor false", 2)


def values_of(keys: Mapping[str, Ask], words: list[str]) -> dict[str, Any]:
    """The values of KEY=VALUE words, by their keys."""
    values = {}
    for word in words:
        key, value = pair(word)
        if key not in keys:
            raise Trouble(f"there is no key {key!r}; the keys are {', '.join(keys)}", 2)
        values[key] = value_for(keys[key], value, key)
    return values


def check(keys: Mapping[str, Ask], value: Mapping[str, Any], needed: Optional[tuple[str, ...]] = None) -> None:
    """Tells all that is wrong with the keys of an object, before it is sent. Of missing keys those that are needed alone."""
    wrong = [
        f"{fault.place}: {fault.said}"
        for key, fault in object_faults(keys, value)
        if fault.rule != "missing" or "." in fault.place or needed is None or key in needed
    ]
    if wrong:
        raise Trouble("\n".join(wrong), 2)


def grant_of(word: str) -> dict[str, Any]:
    """A grant that somebody holds, of REALM:NUMBER."""
    realm, colon, gid = word.partition(":")
    if not colon or not re.fullmatch(r"[0-9]+", gid):
        raise Trouble(f"--grant {word}: wanted is REALM:NUMBER, as board:1", 2)
    return {"gid": int(gid), "realm": realm}


def record_of(word: str) -> dict[str, Any]:
    """What a node lets the holders of a grant do, of REALM:NUMBER or REALM:NUMBER:view,update,delete."""
    parts = word.split(":")
    may = parts[2].split(",") if len(parts) == 3 else ["view"]
    strange = [it for it in may if it not in ("view", "update", "delete")]
    if len(parts) not in (2, 3) or strange:
        raise Trouble(f"--grant {word}: wanted is REALM:NUMBER:view, or with view,update,delete", 2)
    return {**grant_of(":".join(parts[:2])), **{name: name in may for name in ("view", "update", "delete")}}
