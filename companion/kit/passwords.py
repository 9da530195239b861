"""Passwords: how they are asked for, and what a user's row keeps of them."""

from __future__ import annotations

import getpass
import hashlib
import secrets
import sys
from typing import Optional

from .forms import line
from .rowfile import read_bytes
from .trouble import Trouble

ROUNDS = 1_000
MOST = 128
FORM = line(MOST)


def digest(salt: str, password: str) -> str:
    """What a user's row keeps of a password: a thousand rounds of SHA-256."""
    raw = password.encode()
    kept = salt.encode() + b":"
    for _ in range(ROUNDS):
        kept = hashlib.sha256(kept + raw).digest()
    return kept.hex()


def salted(password: str) -> tuple[str, str]:
    """A new salt, and the digest of a password with it."""
    salt = secrets.token_hex(16)
    return salt, digest(salt, password)


def checked(password: str) -> str:
    """A password that may be one."""
    if not password or len(password.encode()) > MOST:
        raise Trouble(f"a password has 1 to {MOST} bytes")
    if FORM.rule(password.encode()) is not None:
        raise Trouble("a password has no control characters")
    return password


def from_file(name: str) -> str:
    """The first line of a file, or of the input where the name is `-`."""
    lines = read_bytes(name).decode("utf-8", "replace").splitlines()
    return checked(lines[0] if lines else "")


def typed(what: str) -> str:
    """A line typed at the terminal, which doesn't show it."""
    try:
        return getpass.getpass(f"{what}: ")
    except EOFError:
        raise Trouble(f"{what}: nothing was typed") from None


def ask(what: str, twice: bool = False) -> str:
    """A password typed at the terminal."""
    if not sys.stdin.isatty():
        raise Trouble(f"{what}: there is no terminal to ask at; give it in a file")
    first = typed(what)
    if twice and typed(f"{what}, again") != first:
        raise Trouble("the two aren't the same")
    return checked(first)


def given_or_asked(file: Optional[str], what: str, twice: bool = False) -> str:
    """A password of a file where one is named, else typed."""
    return from_file(file) if file else ask(what, twice)
