"""`from-wordpress`: an export of a real WordPress, shortened, comes in; its old addresses lead to the new ones by nginx."""

from __future__ import annotations

import http.client
import json
from pathlib import Path

import support

EXPORT = Path(__file__).with_name("wordpress.xml")


class WordPress(support.Case):
    def converted(self) -> dict[str, dict]:
        self.said = self.run_kit(
            "from-wordpress", str(EXPORT), "--into", self.new_site(), "-o", self.path("all.rows"), "--redirects", self.path("redirects.conf"),
            "--menu", "main", "--notes", self.path("notes"),
        ).stderr  # fmt: skip
        lines = Path(self.path("all.rows")).read_text(encoding="utf-8").splitlines()
        return {row["cell"]: row for row in map(json.loads, lines)}

    def test_rows(self) -> None:
        rows = self.converted()
        nodes = {row["title"]: row for row in rows.values() if row["cell"].startswith("node:")}
        about = nodes["About us"]
        self.assertEqual((about["type"], about["path"], about["status"]), ("page", "/about-us", True))
        self.assertEqual(
            about["fields"]["body"],
            "We row on the mill pond & the river.\n\n- Founded 1931\n- Two eights, five fours\n\nSee the fees or the rules (https://rowing.example/rules).",
        )
        self.assertEqual(nodes["Fees"]["fields"]["body"], "Who | A year\nAdults | 120\nJuniors | 40")
        classic = nodes["Café “Zum Ruder”"]["fields"]["body"]
        self.assertTrue(classic.startswith("A classic page.\nIts second line.\n\nA second paragraph"))
        self.assertEqual(nodes["User"]["path"], "/pages/user")
        race = nodes["Race report 7"]
        self.assertEqual((race["type"], race["sticky"], race["path"]), ("news", True, "/2018/08/race-report-7"))
        self.assertIn("line two of report 7.", race["fields"]["body"])
        self.assertEqual(nodes["Race report 4"]["fields"]["summary"], "In short: report 4.")
        terms = [rows[f"term:{number}"]["name"] for number in race["terms"]]
        self.assertIn("wet", terms)
        parents = {row["name"]: row["parent"] for cell, row in rows.items() if cell.startswith("term:")}
        numbers = {row["name"]: int(cell[5:]) for cell, row in rows.items() if cell.startswith("term:")}
        self.assertEqual((parents["Juniors"], parents["Races"]), (numbers["Races"], None))
        for title in ("Not yet", "Committee", "A secret post", "Coming soon"):
            self.assertFalse(nodes[title]["status"], title)
        self.assertNotIn("Thrown away", nodes)
        self.assertIn("A post without a title.", nodes)
        self.assertEqual(nodes["With pictures"]["fields"]["body"], "[A boat] The boat\n\nAfter the picture.")
        users = {row["name"]: row for row in rows.values() if row["cell"].startswith("user:")}
        self.assertIsNone(users["Tomás Økland"]["digest"])
        links = {link["title"]: link for link in rows["menu:main"]["links"]}
        self.assertEqual(links["What it costs"]["parent"], links["About us"]["id"])
        self.assertNotIn("The league", links)
        notes = Path(self.path("notes")).read_text(encoding="utf-8")
        for words in ("'Committee' was private", "leads to https://league.example/", "1 post that is trash left out", "comment left out"):
            self.assertIn(words, notes)

    def test_a_second_reading_changes_nothing(self) -> None:
        self.converted()
        again = self.run_kit("from-wordpress", str(EXPORT), "--into", self.path("all.rows"), "--changes", "--menu", "main")
        self.assertEqual(again.stdout, "")

    def test_what_is_no_export(self) -> None:
        for text, words in (("<rss><channel/></rss>", "no export"), ("<rss", "no XML"), ("<!DOCTYPE x [<!ENTITY a 'b'>]><rss/>", "entities")):
            self.assertIn(words, self.run_kit("from-wordpress", self.write("x.xml", text), status=1).stderr)

    @support.needs("nginx")
    def test_old_addresses_by_nginx(self) -> None:
        rows = self.converted()
        self.run_kit("lint", self.path("all.rows"))
        with self.served(self.imported(self.path("all.rows"))) as site, self.nginx_of(site, self.path("redirects.conf")) as port:
            paths = [row["path"] for row in rows.values() if row.get("path") and row.get("status", True)]
            self.assertEqual(set(support.crawl(port, extra=paths).values()), {200})
            for old, new in (
                ("/about-us/", "/about-us"), ("/about-us/fees/", "/about-us/fees"), ("/?page_id=4", "/about-us"), ("/?p=4&utm=x", "/about-us"),
                ("/2018/08/race-report-7/", "/2018/08/race-report-7"), ("/user/", "/pages/user"), ("/CAFE-zum-ruder/", "/cafe-zum-ruder"),
                ("/index.php?p=4", "/about-us"),
            ):  # fmt: skip
                connection = http.client.HTTPConnection("127.0.0.1", port, timeout=support.SECONDS)
                connection.request("GET", old)
                reply = connection.getresponse()
                self.assertEqual((reply.status, reply.getheader("Location", "").partition(str(port))[2]), (301, new), old)
                connection.close()
                self.assertEqual(support.get(port, new)[0], 200)
            self.assertEqual(support.get(port, "/?p=99999")[0], 200)
            self.assertEqual(support.get(port, "/category/races/")[0], 301)
