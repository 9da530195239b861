"""`crawl`: all that links lead to, each once, and which of them are dead."""

from __future__ import annotations

from typing import Optional

import support
from kit.client import Reply
from kit.crawl import crawl, within

SITE = "http://club.example"
PAGES = {
    "/": '<a href="/a">a</a> <a name="x">no link</a> <a href="http://elsewhere.example/">out</a> <a href="mailto:x@club.example">m</a>',
    "/a": '<a href="?page=1">next</a> <a href="b#part">b</a> <a href="http://club.example/gone">gone</a> <a href="http://[">bad</a>',
    "/a?page=1": '<a href="/a">back</a> <a href="/old">old</a>',
    "/b": '<a href="">here</a> &lt;a href="/never">',
}


def reply(status: int, body: str = "", location: Optional[str] = None) -> Reply:
    head = {"content-type": "text/html; charset=UTF-8", **({"location": location} if location else {})}
    return Reply(status, None, head, body.encode())


def get(target: str) -> Reply:
    """A site of four pages, one of which has moved."""
    if target == "/old":
        return reply(301, location="/b")
    return reply(200, PAGES[target]) if target in PAGES else reply(404)


class Crawl(support.unittest.TestCase):
    def test_what_is_found(self) -> None:
        found = {it.target: (it.status, it.source) for it in crawl(get, SITE, ["/"])}
        self.assertEqual(found, {
            "/": (200, None), "/a": (200, "/"), "/a?page=1": (200, "/a"), "/b": (200, "/a"), "/gone": (404, "/a"), "/old": (301, "/a?page=1"),
        })  # fmt: skip
        self.assertEqual([it.target for it in crawl(get, SITE, ["/"]) if it.is_dead], ["/gone"])
        self.assertEqual(len(list(crawl(get, SITE, ["/", "/b"], most=3))), 3)

    def test_where_addresses_lead(self) -> None:
        for address, target, asked in (
            ("http://club.example", "/", "/"), ("/x?y=1#z", "/", "/x?y=1"), ("y", "/x/", "/x/y"), ("?p=2", "/x?p=1", "/x?p=2"), ("#top", "/x", "/x"),
            ("https://club.example/", "/", None), ("//club.example/x", "/", "/x"), ("tel:12", "/", None), ("http://[", "/", None),
        ):  # fmt: skip
            self.assertEqual(within(SITE, address, target), asked, address)


class Served(support.Case):
    def test_a_served_site(self) -> None:
        with self.served(self.imported(self.new_site())) as server:
            said = self.run_kit("crawl").stdout
            self.assertRegex(said, r"^\d+ addresses, no dead\n$")
            said = self.run_kit("crawl", "--also", self.write("old", f"/welcome\n{server.address}/nowhere\n"), status=1).stdout
            self.assertRegex(said, r"^404 /nowhere\n\d+ addresses, 1 dead\n$")
            self.assertIn("no address of", self.run_kit("crawl", "http://elsewhere.example/", status=2).stderr)
            self.assertIn("--most", self.run_kit("crawl", "--most", "2", status=1).stderr)
            self.run_kit("crawl", "/user/1", status=1)
            self.log_in()
            self.run_kit("crawl", "/user/1", "--logged-in")
