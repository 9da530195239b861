"""Texts of other systems made into texts, names and paths that rows may have."""

from __future__ import annotations

import calendar
import re
import unicodedata
from datetime import datetime, timezone
from urllib.parse import unquote, urlsplit

from .forms import KEPT_SEGMENTS, is_line_byte, is_text_byte
from .tables import LAST_MOMENT

MOST_TEXT = 65_536
MOST_SEGMENT = 80
MOST_PATH = 256
_LETTERS = str.maketrans(
    {
        "ß": "ss", "æ": "ae", "œ": "oe", "ø": "o", "ð": "d", "þ": "th", "đ": "d", "ł": "l", "ı": "i",
        "ä": "ae", "ö": "oe", "ü": "ue",
    }
)  # fmt: skip
_FILE_ENDS = re.compile(r"\.(html?|php|md|markdown|txt|aspx?)$")


def cut(text: str, most: int) -> str:
    """A text of at most so many bytes: where it is longer, it is cut after a word and ends with three points."""
    raw = text.encode()
    if len(raw) <= most:
        return text
    kept = raw[: most - 3].decode("utf-8", "ignore")
    head, space, _ = kept.rpartition(" ")
    return (head if space and len(head) > len(kept) // 2 else kept).rstrip() + "..."


def as_line(text: str, most: int = 255) -> str:
    """A line: all white space is a single space, control characters are left out, and it is cut where it is too long."""
    joined = " ".join(text.split())
    return cut("".join(letter for letter in joined if is_line_byte(ord(letter)) and not _is_surrogate(letter)), most)


def as_text(text: str) -> str:
    """A text of a field: ends of lines are line feeds, and control characters are left out."""
    lines = text.replace("\r\n", "\n").replace("\r", "\n")
    kept = "".join(letter for letter in lines if is_text_byte(ord(letter)) and not _is_surrogate(letter))
    return cut(kept.strip("\n"), MOST_TEXT)


def _is_surrogate(letter: str) -> bool:
    return "\ud800" <= letter <= "\udfff"


def slug(text: str, between: str = "-") -> str:
    """A text as a segment of a path: small letters without accents, digits and dashes. Empty where none is in it."""
    plain = unicodedata.normalize("NFC", text).lower().translate(_LETTERS)
    plain = unicodedata.normalize("NFKD", plain).encode("ascii", "ignore").decode()
    return re.sub(r"[^a-z0-9]+", between, plain)[:MOST_SEGMENT].strip(between)


def machine_name(text: str, otherwise: str) -> str:
    """A text as a machine name, or another one where nothing of it can stand in one."""
    return slug(text, "_")[:64].strip("_") or otherwise


def segment(text: str) -> str:
    """A segment of an old path: as it is where it may stand, else as a slug."""
    return text if re.fullmatch(r"[a-z0-9_-]+", text) and len(text) <= MOST_SEGMENT else slug(text)


def as_path(address: str) -> str | None:
    """The path that an old address becomes: its own, as far as a path may have it; none for that of a front page.

    Ends like `.html` and `/index` are left out, and `/pages` is put before what the site keeps for itself.
    """
    old = unquote(urlsplit(address).path)
    parts = [segment(_FILE_ENDS.sub("", part)) for part in old.split("/")]
    parts = [part for part in parts if part]
    if parts and parts[-1] == "index":
        parts.pop()
    if not parts:
        return None
    if parts[0] in KEPT_SEGMENTS:
        parts.insert(0, "pages")
    return ("/" + "/".join(parts))[:MOST_PATH].rstrip("/")


class Paths:
    """The paths that are taken."""

    def __init__(self, taken: set[str]) -> None:
        self._taken = set(taken)

    def give(self, wanted: str) -> str:
        """The wanted path, or the first with a number after it that nobody has."""
        path, number = wanted, 1
        while path in self._taken:
            number += 1
            path = f"{wanted[: MOST_PATH - 8].rstrip('/')}-{number}"
        self._taken.add(path)
        return path

    def release(self, path: str) -> None:
        """Makes a path free again."""
        self._taken.discard(path)


_MOMENT_FORMS = (
    "%Y-%m-%d %H:%M:%S",
    "%Y-%m-%d %H:%M",
    "%Y-%m-%dT%H:%M:%S",
    "%Y-%m-%dT%H:%M",
    "%Y-%m-%d",
    "%d.%m.%Y",
    "%d.%m.%Y %H:%M",
    "%d/%m/%Y",
    "%d %B %Y",
    "%B %d, %Y",
)


def moment_of(text: str) -> int | None:
    """Seconds since 1970, in UTC, of a date or of a date and a time; none where it is no such thing."""
    text = text.strip()
    try:
        told = datetime.fromisoformat(text.replace("Z", "+00:00"))
        return _within(told.timestamp() if told.tzinfo else calendar.timegm(told.timetuple()))
    except ValueError:
        pass
    for form in _MOMENT_FORMS:
        try:
            return _within(calendar.timegm(datetime.strptime(text, form).timetuple()))
        except ValueError:
            continue
    return None


def _within(seconds: float) -> int:
    return min(max(int(seconds), 0), LAST_MOMENT)


def day(moment: int) -> str:
    """The day of a moment."""
    return datetime.fromtimestamp(moment, timezone.utc).strftime("%Y-%m-%d")
