"""Where rows and words go: files, the output, and the terminal."""

from __future__ import annotations

import os
import sys
from pathlib import Path
from typing import Optional

from .trouble import Trouble


def write_file(name: str, text: str) -> None:
    """Writes a file whole or not at all."""
    path = Path(name)
    part = path.with_name(path.name + ".part")
    try:
        part.write_bytes(text.encode("utf-8", "surrogateescape"))
        os.replace(part, path)
    except OSError as fault:
        raise Trouble(f"{name}: {fault.strerror}") from fault


def give(text: str, name: Optional[str]) -> None:
    """Writes a text into a file, or to the output where none is named."""
    if name is None or name == "-":
        sys.stdout.flush()
        sys.stdout.buffer.write(text.encode())
        sys.stdout.buffer.flush()
    else:
        write_file(name, text)


def tell(words: str) -> None:
    """A line for whoever watches, beside the output."""
    print(words, file=sys.stderr)


def step(words: str) -> None:
    """A line for whoever watches at a terminal, where something takes several steps."""
    if sys.stderr.isatty():
        tell(words)


class Progress:
    """How far something is, told at the terminal a few times a second at most."""

    def __init__(self, what: str, whole: int) -> None:
        self._what, self._whole = what, whole
        self._is_shown = sys.stderr.isatty() and whole > 200
        self._step = max(1, whole // 100)

    def at(self, count: int) -> None:
        """So many are done."""
        if self._is_shown and (count % self._step == 0 or count == self._whole):
            end = "\n" if count == self._whole else ""
            print(f"\r{self._what}: {count} of {self._whole}", end=end, file=sys.stderr, flush=True)
