"""The command line: one command with subcommands."""

from __future__ import annotations

import argparse
import sys
from importlib import import_module
from typing import Optional, Sequence

from .trouble import Trouble

DESCRIPTION = "A companion for the people who run and write a site: it makes, checks, converts, edits and keeps files of rows and stores."
PARTS = {
    "new": "starting",
    "lint": "lint",
    "keys": "keys",
    "from-csv": "from_csv",
    "from-wordpress": "from_wordpress",
    "from-markdown": "from_markdown",
    "edit": "edit",
    "crawl": "crawl",
    "backup": "store",
    "restore": "store",
    "export": "store",
}
"""The subcommands, and the module that has each."""


def parser(command: Optional[str] = None) -> argparse.ArgumentParser:
    """The whole command line, or of one subcommand its part alone, which is sooner read."""
    whole = argparse.ArgumentParser(prog="sitekit", description=DESCRIPTION)
    commands = whole.add_subparsers(title="subcommands", metavar="COMMAND", required=True)
    modules = [PARTS[command]] if command in PARTS else dict.fromkeys(PARTS.values())
    for name in modules:
        import_module(f".{name}", __package__).add_to(commands)
    return whole


def parsed(words: Sequence[str]) -> argparse.Namespace:
    """A command line as it was meant: KEY=VALUE words may also stand behind options."""
    whole = parser(words[0] if words else None)
    given, rest = whole.parse_known_args(words)
    if rest and (not hasattr(given, "values") or any(word.startswith("-") for word in rest)):
        whole.error(f"unrecognized arguments: {' '.join(rest)}")
    if rest:
        given.values = [*given.values, *rest]
    return given


def _whole_word(word: str) -> str:
    """A word of the command line, which has to be UTF-8."""
    try:
        word.encode()
    except UnicodeEncodeError:
        print(f"sitekit: {word!r} is no UTF-8", file=sys.stderr)
        sys.exit(2)
    return word


def main(words: Sequence[str]) -> int:
    """Runs a command line, and gives the status to end with."""
    for stream in (sys.stdout, sys.stderr):
        stream.reconfigure(errors="backslashreplace")  # type: ignore[union-attr]
    given = parsed([_whole_word(word) for word in words])
    try:
        return given.run(given)
    except Trouble as trouble:
        print(f"sitekit: {trouble}", file=sys.stderr)
        return trouble.status
    except BrokenPipeError:
        sys.stderr.close()
        return 141
    except OSError as fault:
        print(f"sitekit: {fault}", file=sys.stderr)
        return 1
    except KeyboardInterrupt:
        print("sitekit: stopped", file=sys.stderr)
        return 130
