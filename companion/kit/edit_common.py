"""What the parts of `edit` have in common: the session, what is told of an edit, and options."""

from __future__ import annotations

import argparse
import os
import re
from typing import Any, Callable, Optional

from .cells import GREATEST_ID
from .client import Client, Reply, SessionFile

DEFAULT_ADDRESS = "http://127.0.0.1:8080"


def client_of(given: argparse.Namespace) -> Client:
    """A client with the session that is kept for the address."""
    client = Client(given.at)
    client.token = SessionFile(given.session, client.address).read()
    return client


def told(what: str, reply: Reply) -> int:
    """Tells that an edit was made, and by which state."""
    print(f"{what} (state {reply.number})")
    return 0


def number(text: str) -> int:
    """A number that a row may have, of a word."""
    if not re.fullmatch("[0-9]{1,10}", text) or int(text) > GREATEST_ID:
        raise argparse.ArgumentTypeError(f"{text!r} is no number of a row")
    return int(text)


def optional_number(text: str) -> Optional[int]:
    """A number that a row may have; none of an empty word."""
    return number(text) if text else None


class Adder:
    """Adds the parts of a subcommand, with the options that each of them has."""

    def __init__(self, commands: Any, common: argparse.ArgumentParser) -> None:
        self._commands, self._common = commands, common

    def group(self, name: str, words: str) -> "Adder":
        """A subcommand that has some of its own."""
        it = self._commands.add_parser(name, help=words, description=words[0].upper() + words[1:] + ".")
        return Adder(it.add_subparsers(title="subcommands", metavar="COMMAND", required=True), self._common)

    def add(self, name: str, words: str, run: Callable[[argparse.Namespace], int]) -> argparse.ArgumentParser:
        """A subcommand that is run."""
        description = words[0].upper() + words[1:] + "."
        it = self._commands.add_parser(name, help=words, description=description, parents=[self._common])
        it.set_defaults(run=run)
        return it


def add_flag(it: argparse.ArgumentParser, key: str, yes: str, no: str, words: tuple[str, str]) -> None:
    """Two options that say yes and no of a key."""
    it.add_argument(f"--{yes}", dest=key, action="store_true", default=None, help=words[0])
    it.add_argument(f"--{no}", dest=key, action="store_false", default=None, help=words[1])


def common_options() -> argparse.ArgumentParser:
    """The options of each part: the address, and where the session is kept."""
    common = argparse.ArgumentParser(add_help=False)
    address = os.environ.get("SITEKIT_AT", DEFAULT_ADDRESS)
    common.add_argument("--at", default=address, metavar="ADDRESS", help=f"where the site is served (default: {DEFAULT_ADDRESS}, or SITEKIT_AT)")
    common.add_argument("--session", metavar="FILE", help="where the session is kept (default: a file for each address in ~/.local/state/sitekit)")
    return common
