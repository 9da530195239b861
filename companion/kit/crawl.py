"""`crawl`: follows the links of a served site, and tells which of them lead nowhere."""

from __future__ import annotations

import argparse
from dataclasses import dataclass
from html.parser import HTMLParser
from typing import Any, Callable, Iterator, Optional, Sequence
from urllib.parse import urldefrag, urljoin, urlsplit

from .client import Client, Reply
from .edit_common import client_of, common_options
from .outputs import step
from .rowfile import read_bytes
from .trouble import Trouble

MOST = 100_000
MOVED = (301, 302, 303, 307, 308)

Get = Callable[[str], Reply]


@dataclass(frozen=True)
class Found:
    """What an address was answered with, and the page that led to it first; none where the crawl began there."""

    target: str
    status: int
    source: Optional[str]

    @property
    def is_dead(self) -> bool:
        """Whether nothing is there."""
        return self.status != 200 and self.status not in MOVED


class _Links(HTMLParser):
    """The addresses that a page's links have."""

    def __init__(self) -> None:
        super().__init__(convert_charrefs=True)
        self.addresses: list[str] = []

    def handle_starttag(self, tag: str, attrs: list[tuple[str, Optional[str]]]) -> None:
        self.addresses += [value for name, value in attrs if tag == "a" and name == "href" and value is not None]


def within(site: str, address: str, target: str = "/") -> Optional[str]:
    """What a browser asks a site for at an address on the page of a target; none where it is elsewhere."""
    try:
        whole = urlsplit(urldefrag(urljoin(site + target, address)).url)
    except ValueError:
        return None
    if f"{whole.scheme}://{whole.netloc}" != site:
        return None
    return f"{whole.path or '/'}{'?' + whole.query if whole.query else ''}"


def _addresses(reply: Reply) -> list[str]:
    """What a reply leads to: the links of a page, or where it sends a browser."""
    if reply.status in MOVED:
        return [reply.head.get("location", "")]
    parser = _Links()
    if reply.head.get("content-type", "").startswith("text/html"):
        parser.feed(reply.body.decode("utf-8", "replace"))
    return parser.addresses


def crawl(get: Get, site: str, starts: Sequence[str], most: int = MOST) -> Iterator[Found]:
    """Asks for some targets of a site and for all that they lead to, each once, so many at most."""
    sources: dict[str, Optional[str]] = dict.fromkeys(starts)
    left = list(sources)
    for target in left:
        reply = get(target)
        yield Found(target, reply.status, sources[target])
        for link in (within(site, address, target) for address in _addresses(reply)):
            if link is not None and link not in sources and len(left) < most:
                sources[link] = target
                left.append(link)


def _starts(given: argparse.Namespace, site: str) -> Iterator[str]:
    """Where the crawl begins: the front page or the paths that are named, and the addresses of a file."""
    lines = read_bytes(given.also).decode("utf-8", "replace").split() if given.also else []
    for address in [*(given.paths or ["/"]), *lines]:
        target = within(site, address)
        if target is None:
            raise Trouble(f"{address}: this is no address of {site}", 2)
        yield target


def run(given: argparse.Namespace) -> int:
    """Prints the links that lead nowhere. 1 where there is one."""
    client = client_of(given) if given.logged_in else Client(given.at)
    asked = dead = 0
    for found in crawl(lambda target: client.ask("GET", target), client.address, list(_starts(given, client.address)), given.most):
        asked, dead = asked + 1, dead + found.is_dead
        if found.is_dead:
            print(f"{found.status} {found.target}{f', linked from {found.source}' if found.source else ''}", flush=True)
        elif asked % 500 == 0:
            step(f"{asked} addresses")
    if asked >= given.most:
        raise Trouble(f"there are {given.most} addresses or more; --most allows more")
    print(f"{asked} addresses, {dead or 'no'} dead")
    return 1 if dead else 0


def add_to(commands: Any) -> None:
    """Adds the subcommand."""
    it = commands.add_parser(
        "crawl",
        help="follow all links of a served site, and tell which lead nowhere",
        description="Asks for the front page, and for all that its links lead to within the site. It prints each address that isn't answered "
        "with a page or a redirect. Status 1: there is one.",
        parents=[common_options()],
    )
    it.add_argument("paths", nargs="*", metavar="PATH", help="where to begin (default: /)")
    it.add_argument("--logged-in", action="store_true", help="ask as whoever is logged in by `edit login`, else as a visitor")
    it.add_argument("--also", metavar="FILE", help="addresses to ask for besides, one a line, as `site targets` prints them; or old ones")
    it.add_argument("--most", type=int, default=MOST, metavar="N", help=f"ask for so many addresses at most (default: {MOST:,})")
    it.set_defaults(run=run)
