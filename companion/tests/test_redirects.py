"""Old addresses: the maps for nginx, and where nginx sends a browser by them."""

from __future__ import annotations

import http.client

import support
from kit.redirects import Redirects
from kit.trouble import Trouble

MOVED = (
    ("/about-us.html", "/about"), ("/About", "/about"), ("http://old.example/blog/?page_id=3", "/z"), ("/?p=7", "/seven"), ("/seite?id=17", "/page"),
    ("/Caf%E9", "/cafe"), ("/über uns/7.html", "/ueber"), ("/A", "/capital"), ("/a", "/small"), ('/q"uo\\te $x {y};', "/odd"), ("/2024/race/", "/2024/race"),
    ("/News", "/news-2"), ("/a.b(c)", "/abc"), ("/twice//old", "/once"),
)  # fmt: skip
ASKED = (
    ("/about-us.html?utm=1", "/about"), ("/About", "/about"), ("/ABOUT/", "/about"), ("/about", None), ("/blog/?x=1&page_id=3", "/z"), ("/?p=7", "/seven"),
    ("/index.php?p=7", "/seven"), ("/?p=8", None), ("/x?p=7", None), ("/seite?id=17", "/page"), ("/seite?id=18", None), ("/Caf%E9", "/cafe"), ("/caf%e9/", "/cafe"),
    ("/%C3%BCber%20uns/7.html", "/ueber"), ("/A", "/capital"), ("/a", "/small"), ("/q%22uo%5Cte%20$x%20%7By%7D;", "/odd"), ("/2024/race/", "/2024/race"),
    ("/2024/race", None), ("/News", "/news-2"), ("/news", None), ("/a.b%28c%29", "/abc"), ("/axb", None), ("/twice/old", "/once"), ("/", None),
)  # fmt: skip


def moved() -> Redirects:
    """Old addresses of all sorts, on a site that has pages at some of them."""
    redirects = Redirects()
    for old, new in MOVED:
        redirects.add_with_slash(old, new)
    redirects.leave(lambda path: path in ("/about", "/news"))
    return redirects


class Maps(support.unittest.TestCase):
    def test_what_is_no_move(self) -> None:
        redirects = Redirects()
        for old, new in (("/a", "/a"), ("/", "/a"), ("", "/a"), ("http://old.example", "/a"), ("/x%0ay", "/a"), ("/" + "x" * 2000, "/a")):
            redirects.add(old, new)
        self.assertEqual(len(redirects), 0)
        redirects.add("/first", "/a")
        redirects.add("/first", "/b")
        self.assertIn('"/first" /a;', redirects.conf("r.conf"))
        redirects.leave(lambda path: path == "/first")
        self.assertEqual(len(redirects), 0)

    def test_what_is_no_address(self) -> None:
        with self.assertRaises(Trouble):
            Redirects().add("http://[old", "/a")

    def test_the_empty_file_of_deploy(self) -> None:
        """What stands in deploy/ until there are old addresses is what the converters write of none."""
        deployed = support.REPOSITORY / "deploy" / "redirects.conf"
        self.assertEqual(deployed.read_text(encoding="utf-8"), Redirects().conf(deployed.name))


class ByNginx(support.Case):
    def led(self, port: int, old: str) -> str | None:
        """Where nginx sends a browser that asks for an address; none where it doesn't."""
        connection = http.client.HTTPConnection("127.0.0.1", port, timeout=support.SECONDS)
        connection.request("GET", old)
        reply = connection.getresponse()
        reply.read()
        connection.close()
        return reply.getheader("Location", "").partition(str(port))[2] if reply.status == 301 else None

    @support.needs("nginx")
    def test_where_they_lead(self) -> None:
        conf = self.write("redirects.conf", moved().conf("redirects.conf").encode("utf-8", "surrogateescape"))
        with self.nginx(f"include {conf};", 'if ($site_moved) { return 301 $site_moved; } location / { return 200 "here"; }') as port:
            for old, new in ASKED:
                self.assertEqual(self.led(port, old), new, old)

    def test_what_the_site_answers_stays(self) -> None:
        table = self.write("t.csv", "title,path,old\nOne,/one,/news;/node/1;/user/login;/node/99;/NEWS\n")
        conf = self.path("redirects.conf")
        self.run_kit("from-csv", table, "--into", self.new_site(), "-o", self.path("all.rows"), "--redirects", conf)
        with open(conf, encoding="utf-8") as file:
            text = file.read()
        for line in ('"/node/99" /one;', '"~^/NEWS$" /one;'):
            self.assertIn(line, text)
        for path in ('"/news"', '"/node/1"', '"/user/login"'):
            self.assertNotIn(path, text)
