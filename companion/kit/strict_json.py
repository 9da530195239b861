"""JSON as the program reads it: what it takes is taken here, and nothing else."""

from __future__ import annotations

import json
import re
from typing import Any

DEEPEST = 127
_STRINGS = re.compile(r'"(?:[^"\\]|\\.)*"', re.DOTALL)


class NoJson(ValueError):
    """A text that is no JSON."""


def _has_lone_surrogate(value: Any) -> bool:
    """Whether a text, or a text inside a list, has half of a pair of UTF-16. Objects were looked at when they were read."""
    if isinstance(value, str):
        return any("\ud800" <= letter <= "\udfff" for letter in value)
    return isinstance(value, list) and any(map(_has_lone_surrogate, value))


def _object(pairs: list[tuple[str, Any]]) -> dict[str, Any]:
    for name, value in pairs:
        if _has_lone_surrogate(name) or _has_lone_surrogate(value):
            raise NoJson("half of a pair of UTF-16 stands alone")
    return dict(pairs)


def _float(digits: str) -> float:
    number = float(digits)
    if number in (float("inf"), float("-inf")):
        raise NoJson("a number is too great")
    return number


def _whole(digits: str) -> int | float:
    """A whole number that fits 64 bits; any other is read as one with a point, as `-0` is."""
    if len(digits) <= 20:
        number = int(digits)
        if -(2**63) <= number < 2**64 and digits != "-0":
            return number
    return _float(digits)


def _constant(word: str) -> Any:
    raise NoJson(f"{word} is no JSON")


def _nests_too_deep(text: str) -> bool:
    if text.count("[") + text.count("{") <= DEEPEST:
        return False
    depth = 0
    for letter in _STRINGS.sub("", text):
        if letter in "[{":
            depth += 1
            if depth > DEEPEST:
                return True
        elif letter in "]}":
            depth -= 1
    return False


def read(line: bytes) -> Any:
    """The value that bytes write, whole numbers as `int` and all others as `float`. `NoJson` where they write none."""
    try:
        text = line.decode("utf-8")
        if _nests_too_deep(text):
            raise NoJson("it nests too deep")
        hook = _object if "\\u" in text else None
        value = json.loads(text, object_pairs_hook=hook, parse_float=_float, parse_int=_whole, parse_constant=_constant)
    except NoJson:
        raise
    except (ValueError, RecursionError) as fault:
        raise NoJson(str(fault)) from fault
    if _has_lone_surrogate(value):
        raise NoJson("half of a pair of UTF-16 stands alone")
    return value


def write(value: Any) -> str:
    """A value as the program writes it: compact, the keys of objects in the order of their bytes."""
    return json.dumps(value, ensure_ascii=False, separators=(",", ":"), sort_keys=True)
