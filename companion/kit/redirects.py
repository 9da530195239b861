"""Old addresses, and the maps of nginx that send them to new ones."""

from __future__ import annotations

import re
from dataclasses import dataclass
from typing import Callable, Iterable, Iterator, Mapping
from urllib.parse import quote, unquote, urlsplit

from .trouble import Trouble

SAFE = "/:@!&'()*+,;=~-._%?"
LONGEST = 1_024
NUMBERS = ("p", "page_id", "cat")
HEAD = """\
# Old addresses and where they went, by maps of which each asks the one before.
# In nginx's http block, before any other map:    include /path/to/{name};
# In the server's block:    if ($site_moved) {{ return 301 $site_moved; }}
# Lines of your own stand in the first map, as:    "/old-page.html" /about;
map_hash_max_size 65536;
map_hash_bucket_size {bucket};
"""
LEADS_TO_ITSELF = r'"~^(.*) \1$" ""'
"""To nginx capitals and small letters of a map's keys are the same, so what moved from capitals alone would lead to itself."""

IsThere = Callable[[str], bool]


@dataclass(frozen=True, order=True)
class Address:
    """An old address: its path with nothing encoded in it, as nginx looks at it, and its query as it is asked for."""

    path: str
    query: str = ""

    @classmethod
    def of(cls, text: str) -> "Address":
        """The address of a text, with or without a host."""
        try:
            parts = urlsplit(text)
        except ValueError as fault:
            raise Trouble(f"{text!r} is no address: {fault}") from fault
        path = re.sub("/+", "/", "/" + unquote(parts.path, errors="surrogateescape"))
        return cls(path, quote(parts.query, safe=SAFE))

    def other(self) -> "Address":
        """The same with a slash at the end, or without where it has one; itself where it has a query or names a file."""
        if self.query or "." in self.path.rstrip("/").rsplit("/", 1)[-1]:
            return self
        return Address(self.path[:-1] or "/" if self.path.endswith("/") else self.path + "/")

    def can_be_asked(self) -> bool:
        """Whether a browser may ask for it, and nginx have it in a map."""
        whole = self.path + self.query
        return len(_bytes(whole)) <= LONGEST and not re.search(r"[\x00-\x1f\x7f]", whole)

    def number(self) -> tuple[str, str] | None:
        """The name and the number of the query, where the page is named by it."""
        found = re.fullmatch(f"({'|'.join(NUMBERS)})=([0-9]+)", self.query)
        return (found[1], found[2]) if found and self.path.endswith("/") else None


class Redirects:
    """Old addresses, each with its new path. The first that is told of an address stays."""

    def __init__(self) -> None:
        self._moved: dict[Address, str] = {}
        self._is_there: IsThere = _nothing_is_there

    def add(self, old: str, new: str) -> None:
        """Tells of an address. One that stays the same, or is the front page, is no move."""
        self._add(Address.of(old), new)

    def add_with_slash(self, old: str, new: str) -> None:
        """Tells of an address with a slash at its end and without."""
        address = Address.of(old)
        self._add(address, new)
        self._add(address.other(), new)

    def _add(self, address: Address, new: str) -> None:
        if address.can_be_asked() and address not in (Address(new), Address("/")):
            self._moved.setdefault(address, new)

    def leave(self, is_there: IsThere) -> None:
        """Forgets of addresses at which something stands now."""
        self._is_there = is_there
        self._moved = {old: new for old, new in self._moved.items() if old.query or not is_there(old.path)}

    def __len__(self) -> int:
        return len(self._moved)

    def conf(self, name: str) -> str:
        """The maps as nginx reads them."""
        by_path = {old.path: new for old, new in self._moved.items() if not old.query}
        by_number = {key: new for old, new in self._moved.items() for key in _number_keys(old)}
        by_request = {_request(old): new for old, new in self._moved.items() if old.query and not old.number()}
        longest = max((len(_bytes(key)) for key in (*by_path, *by_number, *by_request)), default=0)
        numbers = "&".join(f"{name}=$arg_{name}" for name in NUMBERS)
        lines = (
            *_map("$uri", "$site_moved_path", '""', _entries(by_path, self._is_there)),
            *_map(f'"$uri?{numbers}"', "$site_moved_number", "$site_moved_path", _entries(by_number)),
            *_map("$request_uri", "$site_moved_to", "$site_moved_number", _entries(by_request)),
            *_map('"$uri $site_moved_to"', "$site_moved", "$site_moved_to", (LEADS_TO_ITSELF,)),
        )
        return HEAD.format(name=name, bucket=_power_above(longest + 64)) + "".join(f"{line}\n" for line in lines)


def _nothing_is_there(path: str) -> bool:
    return False


def _bytes(text: str) -> bytes:
    return text.encode("utf-8", "surrogateescape")


def _request(old: Address) -> str:
    """What a browser asks a server for at an address."""
    return f"{quote(_bytes(old.path), safe=SAFE)}?{old.query}"


def _number_keys(old: Address) -> Iterator[str]:
    """The keys of an address that names a page by a number, whatever other arguments stand beside it."""
    told = old.number()
    if told:
        numbers = "&".join(f"{name}={told[1] if name == told[0] else ''}" for name in NUMBERS)
        yield f"{old.path}?{numbers}"
        yield f"{old.path}index.php?{numbers}"


def _map(source: str, variable: str, default: str, entries: Iterable[str]) -> Iterator[str]:
    yield f"map {source} {variable} {{"
    yield f"    default {default};"
    yield from (f"    {entry};" for entry in entries)
    yield "}"


def _entries(moved: Mapping[str, str], is_there: IsThere = _nothing_is_there) -> Iterator[str]:
    """The entries of a map. Where capitals make a difference between two old addresses, or an old and a new one, they count."""
    alike: dict[bytes, dict[str, str]] = {}
    for old, new in sorted(moved.items()):
        alike.setdefault(_bytes(old).lower(), {})[old] = new
    for small, olds in alike.items():
        path, targets = small.decode("utf-8", "surrogateescape"), set(olds.values())
        if len(targets) > 1 or (is_there(path) and targets != {path}):
            yield from (f"{_quoted(f'~^{re.escape(old)}$')} {new}" for old, new in olds.items())
        else:
            yield f"{_quoted(next(iter(olds)))} {targets.pop()}"


def _quoted(key: str) -> str:
    """A word of nginx's configuration between quotation marks."""
    return '"' + key.replace("\\", "\\\\").replace('"', '\\"') + '"'


def _power_above(number: int) -> int:
    power = 256
    while power < number:
        power *= 2
    return power
