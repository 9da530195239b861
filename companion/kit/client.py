"""A client of a served site: it keeps a session, guards edits, and tells refusals in words."""

from __future__ import annotations

import hashlib
import http.client
import json
import os
import re
from dataclasses import dataclass
from html.parser import HTMLParser
from pathlib import Path
from typing import Any, Optional
from urllib.parse import urlencode, urlsplit

from . import strict_json
from .trouble import Trouble

STALE = 4
DENIED = 5
REFUSED = 6
SECONDS = 30
JSON = "application/json"
FORM = "application/x-www-form-urlencoded"

RULES = {
    "unknown": "there is no such key, or the type has no such field",
    "missing": "it has to be there",
    "kind": "its value is of another kind",
    "many": "it has as many as it may",
    "length": "it is too short or too long",
    "bytes": "it has characters that may not stand there",
    "range": "it is too small or too great",
    "reserved": "the site keeps this path for itself",
    "twice": "a name stands there twice",
    "absent": "what it names isn't there",
    "cycle": "its parents lead round",
    "deep": "it stands too deep",
    "pair": "it doesn't go with the kind, or with another key",
    "taken": "another row has it",
    "locked": "it may not be removed",
    "used": "others still need it",
    "full": "there is no greater number left",
}


@dataclass(frozen=True)
class Reply:
    """A reply: its status, the number of the state that it tells of where it has one, its head and its body."""

    status: int
    number: Optional[int]
    head: dict[str, str]
    body: bytes

    @property
    def value(self) -> dict[str, Any]:
        """The body as an object; an empty one where it is none."""
        try:
            value = strict_json.read(self.body)
        except strict_json.NoJson:
            return {}
        return value if isinstance(value, dict) else {}


def guard_of(token: str) -> str:
    """The value that guards the forms of a session."""
    return hashlib.sha256(token.encode()).hexdigest()[:32]


class SessionFile:
    """Where the session of an address is kept, so that one login does for many commands."""

    def __init__(self, name: Optional[str], address: str) -> None:
        home = Path(os.environ.get("XDG_STATE_HOME") or Path.home() / ".local" / "state")
        plain = re.sub(r"[^a-z0-9.]+", "-", address.lower()).strip("-")
        self.path = Path(name) if name else home / "sitekit" / f"{plain}.session"

    def read(self) -> Optional[str]:
        """The token that is kept; none where there is none."""
        try:
            return json.loads(self.path.read_text(encoding="utf-8"))["token"]
        except (OSError, ValueError, KeyError, TypeError):
            return None

    def write(self, address: str, name: str, token: str) -> None:
        """Keeps a token, for nobody else to read."""
        try:
            self.path.parent.mkdir(parents=True, exist_ok=True)
            self.path.unlink(missing_ok=True)
            handle = os.open(self.path, os.O_WRONLY | os.O_CREAT | os.O_EXCL, 0o600)
            with os.fdopen(handle, "w", encoding="utf-8") as file:
                json.dump({"address": address, "name": name, "token": token}, file)
        except OSError as fault:
            raise Trouble(f"{self.path}: {fault.strerror}") from fault

    def forget(self) -> None:
        """Keeps nothing any more."""
        self.path.unlink(missing_ok=True)


class Client:
    """Asks a site at an address, with the session that is kept for it."""

    def __init__(self, address: str, token: Optional[str] = None) -> None:
        try:
            parts = urlsplit(address if "://" in address else f"http://{address}")
            self._host, self._port, self._is_safe = parts.hostname or "", parts.port, parts.scheme == "https"
        except ValueError as fault:
            raise Trouble(f"{address}: {fault}", 2) from fault
        if parts.scheme not in ("http", "https") or not self._host:
            raise Trouble(f"{address}: wanted is an address like http://127.0.0.1:8080", 2)
        self.address = f"{parts.scheme}://{parts.netloc}"
        self.token = token

    def _connection(self) -> http.client.HTTPConnection:
        kind = http.client.HTTPSConnection if self._is_safe else http.client.HTTPConnection
        return kind(self._host, self._port, timeout=SECONDS)

    def ask(self, method: str, path: str, body: Optional[bytes] = None, media: str = JSON) -> Reply:
        """Sends one request, and gives its reply."""
        head = {"Connection": "close"}
        if self.token:
            head["Cookie"] = f"SESS={self.token}"
            head["X-CSRF-Token"] = guard_of(self.token)
        if body is not None:
            head["Content-Type"] = media
        elif method != "GET":
            head["Content-Length"] = "0"
        connection = self._connection()
        try:
            connection.request(method, path, body, head)
            told = connection.getresponse()
            number = told.getheader("X-Site-State")
            fields = {name.lower(): value for name, value in told.getheaders()}
            return Reply(told.status, int(number) if number else None, fields, told.read())
        except (OSError, http.client.HTTPException) as fault:
            raise Trouble(f"{self.address}: {fault or type(fault).__name__}") from fault
        finally:
            connection.close()

    def edit(self, method: str, path: str, value: Optional[dict[str, Any]] = None) -> Reply:
        """Makes an edit. `Trouble`, in words, where it is refused."""
        body = None if value is None else strict_json.write(value).encode()
        reply = self.ask(method, path, body)
        if reply.status not in (200, 201, 303):
            raise refusal(reply, path, self.token is not None)
        return reply

    def log_in(self, name: str, password: str) -> Reply:
        """Logs in, and remembers the token."""
        self.token = None
        reply = self.ask("POST", "/user/login", urlencode({"name": name, "pass": password}).encode(), FORM)
        cookie = re.match(r"SESS=([a-z0-9_]+)", reply.head.get("set-cookie", ""))
        if reply.status != 303 or not cookie:
            raise refusal(reply, "/user/login", False)
        self.token = cookie[1]
        return reply


def refusal(reply: Reply, path: str, has_session: bool) -> Trouble:
    """What a refused edit is told as, in words."""
    told = reply.value
    code = told.get("code")
    if code == "denied":
        hint = "" if path == "/user/login" else " (log in again?)" if has_session else " (nobody is logged in: sitekit edit login NAME)"
        return Trouble(f"it is denied: {told.get('reason')}{hint}", DENIED)
    if code == "stale":
        return Stale(told.get("vid", 0))
    words = {
        "csrf": "the session's guard was refused: log in again",
        "no-target": f"{path}: there is no such thing, or a new node's type isn't there",
        "uuid-taken": f"number {told.get('holder')} has this universal id already",
        "path-taken": f"{told.get('holder')} has this path already",
        "count-full": f"{told.get('tag')} was changed as often as can be counted",
        "log-full": "the server has made a million edits since it was started: start it again",
        "keeper": "the store failed; whether the edit was kept shows at the next one",
        "memory": "the server has no memory left",
        "token-clash": "log in once more",
        "media": "the server wants another media type",
        "bad-json": "the server read no JSON",
        "method": f"{path}: nothing of this kind can be done there",
    }
    if code == "rule":
        rule = told.get("rule", "")
        return Trouble(f"{told.get('field')}: {RULES.get(rule, rule)} [{rule}]", REFUSED)
    if code in words:
        return Trouble(words[code], REFUSED)
    return Trouble(f"{path}: the server answered {reply.status} {reply.body[:200]!r}", REFUSED)


class Stale(Trouble):
    """A node is in another version than was sent."""

    def __init__(self, newest: int) -> None:
        super().__init__(f"it is in version {newest} by now", STALE)
        self.newest = newest


class _Main(HTMLParser):
    """The text of a page's middle part, a line for each piece."""

    def __init__(self) -> None:
        super().__init__(convert_charrefs=True)
        self.lines: list[str] = []
        self._inside = False

    def handle_starttag(self, tag: str, attrs: list[tuple[str, Optional[str]]]) -> None:
        self._inside = self._inside or tag == "main"
        if tag in ("h1", "h2", "p", "div", "article", "li"):
            self.lines.append("")

    def handle_endtag(self, tag: str) -> None:
        self._inside = self._inside and tag != "main"

    def handle_data(self, data: str) -> None:
        if self._inside:
            self.lines[-1:] = [(self.lines[-1] if self.lines else "") + data]


def text_of_page(page: bytes) -> str:
    """What a page says in its middle part."""
    parser = _Main()
    parser.feed(page.decode("utf-8", "replace"))
    return "\n".join(line for line in parser.lines if line.strip())
