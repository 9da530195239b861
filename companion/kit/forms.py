"""What texts of rows may be: each is judged by its length first, then by its bytes, then by what the site keeps for itself."""

from __future__ import annotations

import re
from dataclasses import dataclass
from typing import Callable

KEPT_SEGMENTS = ("node", "taxonomy", "user", "config", "cache", "json")
BLOCK_KINDS = ("text", "menu", "listing", "greeting", "csrf", "clock")
REGIONS = ("header", "aside", "footer")
FRONT = "<front>"

_TARGET = re.compile(rb"(/[a-z0-9_-]+)+")
_NAME = re.compile(rb"[a-z0-9_]*")
_UUID = re.compile(rb"[a-z0-9-]*")
_HEX = re.compile(rb"[0-9a-f]*")
_NO_LINE = re.compile(rb"[\x00-\x1f\x7f]")
_NO_TEXT = re.compile(rb"[\x00-\x08\x0b\x0c\x0e-\x1f]")


@dataclass(frozen=True)
class Form:
    """What a text is to be: tests of its length and its bytes, of what is kept back, and all of it in words."""

    words: str
    lengths: str
    is_long: Callable[[bytes], bool]
    is_written: Callable[[bytes], bool]
    is_kept: Callable[[bytes], bool] = lambda text: False
    wrong_byte: Callable[[int], bool] | None = None

    def rule(self, text: bytes) -> str | None:
        """The word for the first rule that a text breaks."""
        if not self.is_long(text):
            return "length"
        if not self.is_written(text):
            return "bytes"
        return "reserved" if self.is_kept(text) else None


def _between(least: int, most: int) -> Callable[[bytes], bool]:
    return lambda text: least <= len(text) <= most


def _is_path_long(text: bytes) -> bool:
    return 2 <= len(text) <= 256


def is_line_byte(byte: int) -> bool:
    """Whether a byte may stand in a line: no control byte."""
    return byte >= 32 and byte != 127


def is_text_byte(byte: int) -> bool:
    """Whether a byte may stand in a text: no control byte but tabs and the ends of lines."""
    return byte >= 32 or byte in b"\t\n\r"


def is_target(text: bytes) -> bool:
    """Whether it is a path of a site."""
    return _TARGET.fullmatch(text) is not None


def is_reserved(text: bytes) -> bool:
    """Whether a path begins with a segment that the site keeps for itself."""
    return text[1:].split(b"/")[0].decode("ascii", "replace") in KEPT_SEGMENTS


def _among(words: tuple[str, ...]) -> Callable[[bytes], bool]:
    allowed = {word.encode() for word in words}
    return lambda text: text in allowed


_PATH_BYTES = "`/`, then a-z, 0-9, `-` and `_` in segments between slashes, none of them empty, and no slash at the end"


def line(most: int, least: int = 1) -> Form:
    """A line of so many bytes at most."""
    return Form(
        words=f"a line of {least} to {most} bytes",
        lengths=f"{least} to {most} bytes",
        is_long=_between(least, most),
        is_written=lambda text: _NO_LINE.search(text) is None,
        wrong_byte=lambda byte: not is_line_byte(byte),
    )


NAME = Form(
    words="a machine name: 1 to 64 of a-z, 0-9 and `_`",
    lengths="1 to 64 bytes",
    is_long=_between(1, 64),
    is_written=lambda text: _NAME.fullmatch(text) is not None,
    wrong_byte=lambda byte: not _NAME.fullmatch(bytes([byte])),
)
BODY = Form(
    words="a text of at most 65,536 bytes, with no control characters but tabs and the ends of lines",
    lengths="at most 65,536 bytes",
    is_long=_between(0, 65_536),
    is_written=lambda text: _NO_TEXT.search(text) is None,
    wrong_byte=lambda byte: not is_text_byte(byte),
)
COMMENT = Form(
    words="a text of 1 to 65,536 bytes, with no control characters but tabs and the ends of lines",
    lengths="1 to 65,536 bytes",
    is_long=_between(1, 65_536),
    is_written=lambda text: _NO_TEXT.search(text) is None,
    wrong_byte=lambda byte: not is_text_byte(byte),
)
UUID = Form(
    words="a universal id: 1 to 64 of a-z, 0-9 and `-`",
    lengths="1 to 64 bytes",
    is_long=_between(1, 64),
    is_written=lambda text: _UUID.fullmatch(text) is not None,
    wrong_byte=lambda byte: not _UUID.fullmatch(bytes([byte])),
)
DIGEST = Form(
    words="64 lower-case hex digits",
    lengths="64 bytes",
    is_long=_between(64, 64),
    is_written=lambda text: _HEX.fullmatch(text) is not None,
    wrong_byte=lambda byte: not _HEX.fullmatch(bytes([byte])),
)
SALT = Form(
    words="32 lower-case hex digits, or nothing",
    lengths="32 bytes or none",
    is_long=lambda text: len(text) in (0, 32),
    is_written=lambda text: _HEX.fullmatch(text) is not None,
    wrong_byte=lambda byte: not _HEX.fullmatch(bytes([byte])),
)
TARGET = Form(
    words=f"a path of 2 to 256 bytes: {_PATH_BYTES}",
    lengths="2 to 256 bytes",
    is_long=_is_path_long,
    is_written=is_target,
)
PATH = Form(
    words=f"{TARGET.words}; the first segment is none of {', '.join(KEPT_SEGMENTS)}",
    lengths=TARGET.lengths,
    is_long=_is_path_long,
    is_written=is_target,
    is_kept=is_reserved,
)
LISTING_PATH = Form(
    words=f"{PATH.words}; or `/node`",
    lengths=TARGET.lengths,
    is_long=_is_path_long,
    is_written=is_target,
    is_kept=lambda text: is_reserved(text) and text != b"/node",
)
FRONT_PATH = Form(
    words=f"{TARGET.words}; a `/` alone is reserved",
    lengths="1 to 256 bytes",
    is_long=lambda text: _is_path_long(text) or text == b"/",
    is_written=lambda text: is_target(text) or text == b"/",
    is_kept=lambda text: text == b"/",
)
BLOCK_PATH = Form(
    words=f"{TARGET.words}; or `/`; or `{FRONT}`",
    lengths="1 to 256 bytes",
    is_long=lambda text: _is_path_long(text) or text == b"/",
    is_written=lambda text: is_target(text) or text in (b"/", FRONT.encode()),
)
BLOCK_KIND = Form(
    words="one of " + ", ".join(f"`{word}`" for word in BLOCK_KINDS),
    lengths="any length",
    is_long=lambda text: True,
    is_written=_among(BLOCK_KINDS),
)
REGION = Form(
    words="one of " + ", ".join(f"`{word}`" for word in REGIONS),
    lengths="any length",
    is_long=lambda text: True,
    is_written=_among(REGIONS),
)
