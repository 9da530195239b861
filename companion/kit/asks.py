"""What the values of keys are to be, and what is wrong with one: the machinery of the tables of keys.

Faults come in the order in which the program looks for them, so the first of them is the one that it tells.
"""

from __future__ import annotations

import difflib
from dataclasses import dataclass
from typing import Any, Iterator, Mapping

from .forms import BODY, NAME, Form


@dataclass(frozen=True)
class Fault:
    """A rule that a value breaks: the word for it, the place inside the row, and what is wrong, in words."""

    rule: str
    place: str
    said: str


def kind_of(value: Any) -> str:
    """What kind of JSON a value is, in words."""
    if value is None:
        return "null"
    if isinstance(value, bool):
        return "true" if value else "false"
    if isinstance(value, float):
        return "a number that isn't whole, or is too great"
    names = {int: "a number", str: "a text", list: "a list", dict: "an object"}
    return names[type(value)]


def shown(value: Any, most: int = 40) -> str:
    """A value, shortened, as it may stand in a message."""
    text = repr(value) if isinstance(value, str) else str(value)
    return text if len(text) <= most else text[:most] + "..."


def guess(name: str, known: list[str]) -> str:
    """A hint at the known name that is most like another one."""
    near = difflib.get_close_matches(name, known, 1)
    return f"; did you mean {near[0]!r}?" if near else ""


class Ask:
    """What a value is to be."""

    words = ""

    def faults(self, value: Any, place: str) -> Iterator[Fault]:
        """All that is wrong with a value, the first first."""
        raise NotImplementedError

    def wrong_kind(self, value: Any, place: str) -> Fault:
        return Fault("kind", place, f"{kind_of(value)} stands there; wanted is {self.words}")


@dataclass(frozen=True)
class Flag(Ask):
    """`true` or `false`."""

    words: str = "true or false"

    def faults(self, value: Any, place: str) -> Iterator[Fault]:
        if not isinstance(value, bool):
            yield self.wrong_kind(value, place)


@dataclass(frozen=True)
class Whole(Ask):
    """A whole number between two, which may be they."""

    low: int
    high: int

    @property
    def words(self) -> str:  # type: ignore[override]
        return f"a whole number from {self.low:,} to {self.high:,}"

    def faults(self, value: Any, place: str) -> Iterator[Fault]:
        if isinstance(value, bool) or not isinstance(value, int):
            yield self.wrong_kind(value, place)
        elif not self.low <= value <= self.high:
            yield Fault("range", place, f"{value} stands there; wanted is {self.words}")


@dataclass(frozen=True)
class Text(Ask):
    """A text of a form."""

    form: Form

    @property
    def words(self) -> str:  # type: ignore[override]
        return self.form.words

    def faults(self, value: Any, place: str) -> Iterator[Fault]:
        if not isinstance(value, str):
            yield self.wrong_kind(value, place)
            return
        rule = self.form.rule(value.encode())
        if rule is not None:
            yield Fault(rule, place, text_said(self.form, value, rule))


def text_said(form: Form, value: str, rule: str) -> str:
    """What is wrong with a text, in words."""
    if rule == "length":
        count = len(value.encode())
        return f"{shown(value)} has {count} bytes; allowed are {form.lengths} ({form.words})"
    if rule == "reserved":
        return f"{shown(value)} is kept for the site itself; wanted is {form.words}"
    wrong = ""
    if form.wrong_byte is not None:
        letter = next((at for at in value if any(map(form.wrong_byte, at.encode()))), None)
        wrong = f" has {letter!r}, which" if letter is not None else ""
    return f"{shown(value)}{wrong or ' has a form that'} may not stand there; wanted is {form.words}"


@dataclass(frozen=True)
class NullOr(Ask):
    """`null`, or another value."""

    other: Ask

    @property
    def words(self) -> str:  # type: ignore[override]
        return f"null, or {self.other.words}"

    def faults(self, value: Any, place: str) -> Iterator[Fault]:
        if value is not None:
            for fault in self.other.faults(value, place):
                yield self.wrong_kind(value, place) if fault.rule == "kind" else fault


@dataclass(frozen=True)
class MayLack(Ask):
    """The value of a key that may be left out, as in rows of earlier releases: what is left out is null."""

    other: Ask

    @property
    def words(self) -> str:  # type: ignore[override]
        return self.other.words

    def faults(self, value: Any, place: str) -> Iterator[Fault]:
        yield from self.other.faults(value, place)


@dataclass(frozen=True)
class Columns(Ask):
    """An object with exactly these keys."""

    title: str
    keys: Mapping[str, Ask]

    @property
    def words(self) -> str:  # type: ignore[override]
        return f"an object with the keys {', '.join(self.keys)}"

    def faults(self, value: Any, place: str) -> Iterator[Fault]:
        if not isinstance(value, dict):
            yield self.wrong_kind(value, place)
            return
        for _, fault in object_faults(self.keys, value, place + "."):
            yield fault


@dataclass(frozen=True)
class Each(Ask):
    """A list of so many members at most."""

    most: int
    member: Ask

    @property
    def words(self) -> str:  # type: ignore[override]
        return f"a list of at most {self.most}, each {self.member.words}"

    def faults(self, value: Any, place: str) -> Iterator[Fault]:
        if not isinstance(value, list):
            yield self.wrong_kind(value, place)
            return
        if len(value) > self.most:
            yield Fault("many", place, f"{len(value)} stand there; at most {self.most} are allowed")
        for at, member in enumerate(value):
            yield from self.member.faults(member, f"{place}[{at}]")


@dataclass(frozen=True)
class Texts(Ask):
    """An object of texts by machine names, as the fields of a node are."""

    words: str = f"an object of texts by machine names, each of them {BODY.words}"

    def faults(self, value: Any, place: str) -> Iterator[Fault]:
        if not isinstance(value, dict):
            yield self.wrong_kind(value, place)
            return
        for name in sorted(value):
            yield from self._pair_faults(name, value[name], f"{place}.{name}")

    @staticmethod
    def _pair_faults(name: str, text: Any, place: str) -> Iterator[Fault]:
        if not isinstance(text, str):
            yield Fault("kind", place, f"{kind_of(text)} stands there; wanted is {BODY.words}")
            return
        raw_name, raw = name.encode(), text.encode()
        if not NAME.is_long(raw_name):
            yield Fault("length", place, text_said(NAME, name, "length"))
        elif not BODY.is_long(raw):
            yield Fault("length", place, text_said(BODY, text, "length"))
        elif not NAME.is_written(raw_name):
            yield Fault("bytes", place, text_said(NAME, name, "bytes"))
        elif not BODY.is_written(raw):
            yield Fault("bytes", place, text_said(BODY, text, "bytes"))


def object_faults(
    keys: Mapping[str, Ask], value: Mapping[str, Any], front: str = "", passed: tuple[str, ...] = ()
) -> Iterator[tuple[str, Fault]]:
    """What is wrong with an object, each fault with its key: key by key in the order of their bytes, then what is missing."""
    for name in sorted(value):
        if name in passed:
            continue
        ask = keys.get(name)
        if ask is None:
            said = f"there is no key {name!r} here; the keys are {', '.join(keys)}{guess(name, list(keys))}"
            yield name, Fault("unknown", front + name, said)
        else:
            for fault in ask.faults(value[name], front + name):
                yield name, fault
    for name, ask in keys.items():
        if name not in value and not isinstance(ask, MayLack):
            yield name, Fault("missing", front + name, f"the key {name!r} isn't there; wanted is {ask.words}")
