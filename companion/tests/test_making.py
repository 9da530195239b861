"""`new`, `from-csv` and `from-markdown`: sites out of little, and out of other things."""

from __future__ import annotations

import csv
import json
import random
from pathlib import Path

import support
from kit.front_matter import split
from kit.plain import from_html, from_markdown
from kit.texts import as_line, as_path, as_text, moment_of, slug


def rows_of(file: str) -> dict[str, dict]:
    return {row["cell"]: row for row in map(json.loads, Path(file).read_text(encoding="utf-8").splitlines())}


class New(support.Case):
    def test_imports_and_shows(self) -> None:
        rows = self.new_site("--editor", "Ana", "--contact", "The boat house")
        self.assertIn("no faults, no warnings", self.run_kit("lint", "--strict", rows).stdout)
        with self.served(self.imported(rows)) as server:
            status, page = server.get("/")
            self.assertEqual(status, 200)
            for words in ("Welcome to A Club", 'class="active"><a href="/welcome">', "The boat house", "Latest news", "Log in"):
                self.assertIn(words, page)
            self.assertEqual(server.get("/news")[0], 200)
            self.log_in()
        self.assertEqual(self.run_site("export", "--store", self.path("site.db")).count("\n"), len(rows_of(rows)) + 1)

    def test_by_questions(self) -> None:
        self.write("password", "oar\n")
        answers = "A Choir\nSing\nCome and sing.\nchief\nno\nyes\nchoir at example.org\n"
        words = ("new", "--ask", "--password-file", self.path("password"), "-o", self.path("choir.rows"))
        self.run_kit(*words, given=answers)
        rows = rows_of(self.path("choir.rows"))
        self.assertEqual(rows["site"]["name"], "A Choir")
        self.assertEqual(rows["node:1"]["title"], "Sing")
        self.assertEqual(rows["user:1"]["name"], "chief")
        self.assertNotIn("menu:main", rows)
        self.assertIn("listing:news", rows)
        self.assertIn("ended before", self.run_kit(*words, given="A\n", status=1).stderr)

    def test_what_is_missing_is_told(self) -> None:
        self.assertIn("needs a name", self.run_kit("new", status=2).stderr)
        self.assertIn("in a file", self.run_kit("new", "--name", "x", status=1).stderr)
        self.write("empty", "\n")
        self.assertIn("1 to 128", self.run_kit("new", "--name", "x", "--password-file", self.path("empty"), status=1).stderr)
        self.run_kit("new", "--name", "x", "--no-password", "--front", "/news", status=2)


class FromCsv(support.Case):
    def pages(self, count: int) -> str:
        """A table of pages with all sorts of letters in them."""
        chance = random.Random(count)
        words = "boat oar river Fähre café “quoted” <b>bold</b> & more; semi, comma\n\nnext".split(" ")
        with open(self.room / "pages.csv", "w", newline="", encoding="utf-8") as file:
            table = csv.writer(file)
            table.writerow(["title", "summary", "body", "path", "created", "author", "terms", "status", "old", "menu", "menu_under"])
            for number in range(1, count + 1):
                text = " ".join(chance.choice(words) for _ in range(40))
                menu = (f"Page {number}", "" if number % 10 == 1 else f"Page {number - number % 10 + 1}") if number <= 40 else ("", "")
                table.writerow([
                    f"Page {number}: {chance.choice(words)}", text[:80], text, f"/pages/p-{number}" if number % 3 else f"/Über uns/{number}.html",
                    f"2025-{1 + number % 12:02}-{1 + number % 28:02}", ("Ana", "Bo", "")[number % 3], f"Topic {number % 7}; All", "published",
                    f"/alt/{number}.html; http://old.example/seite?id={number}", *menu,
                ])  # fmt: skip
        return self.path("pages.csv")

    def test_300_pages(self) -> None:
        site = self.new_site()
        table = self.pages(300)
        done = self.run_kit("from-csv", table, "--into", site, "-o", self.path("all.rows"), "--redirects", self.path("redirects.conf"))
        self.assertIn("300 new page", done.stderr)
        self.assertIn("no faults, no warnings", self.run_kit("lint", "--strict", self.path("all.rows")).stdout)
        with self.served(self.imported(self.path("all.rows"))) as server:
            paths = [row["path"] for row in rows_of(self.path("all.rows")).values() if row.get("path")]
            found = support.crawl(server.port, extra=paths)
            self.assertEqual({status for status in found.values()}, {200})
            self.assertGreater(len(found), 300)
            page = server.get("/pages/p-1")[1]
            self.assertNotIn("&lt;b&gt;", page)
        again = self.run_kit("from-csv", table, "--into", self.path("all.rows"), "--changes")
        self.assertEqual(again.stdout, "")
        self.assertIn("300 unchanged page", again.stderr)

    @support.needs("nginx")
    def test_old_addresses_of_300_pages_by_nginx(self) -> None:
        out, conf = self.path("all.rows"), self.path("redirects.conf")
        self.run_kit("from-csv", self.pages(300), "--into", self.new_site(), "-o", out, "--redirects", conf)
        old = self.write("old", "".join(f"/alt/{number}.html\n/alt/{number}.html?utm=x\n/seite?id={number}\n" for number in range(1, 301)))
        with self.served(self.imported(out)) as site, self.nginx_of(site, conf) as port:
            said = self.run_kit("crawl", "--at", f"http://127.0.0.1:{port}", "--also", old).stdout
        asked = int(said.split()[0])
        self.assertGreater(asked, 1200)
        self.assertEqual(said, f"{asked} addresses, no dead\n")

    def test_a_second_reading_changes_what_changed(self) -> None:
        site = self.new_site()
        table = self.write("p.csv", "title;body;path\nOne;First;/one\nTwo;Second;/two\n")
        self.run_kit("from-csv", table, "--into", site, "-o", self.path("a.rows"))
        self.write("p.csv", "title;body;path\nOne;First;/one\nTwo;Another;/two\nThree;;/three\n")
        done = self.run_kit("from-csv", table, "--into", self.path("a.rows"), "--changes")
        rows = [json.loads(line) for line in done.stdout.splitlines()]
        self.assertEqual([row["cell"] for row in rows], ["seq", "node:3", "node:4"])
        self.assertEqual((rows[1]["vid"], rows[1]["fields"]["body"]), (2, "Another"))

    def test_terms_users_and_links(self) -> None:
        site = self.new_site()
        for kind, text in (
            ("terms", "name,description,parent\nRaces,Who came first,Sport\nSport,,\n"),
            ("users", "name,roles\nCy,editor\n"),
            ("links", "title,path,under,weight\nFirst,/news,,3\nBelow,/welcome,First,\n"),
        ):
            self.run_kit("from-csv", self.write("t.csv", text), "--rows", kind, "--into", site, "-o", site)
        rows = rows_of(site)
        self.assertEqual([(rows[f"term:{at}"]["name"], rows[f"term:{at}"]["parent"]) for at in (1, 2)], [("Races", 2), ("Sport", None)])
        self.assertEqual((rows["user:2"]["roles"], rows["user:2"]["digest"]), (["editor"], None))
        links = {link["path"]: link for link in rows["menu:main"]["links"]}
        self.assertEqual(links["/welcome"]["parent"], links["/news"]["id"])
        self.run_kit("lint", "--strict", site)

    def test_what_is_wrong_is_told(self) -> None:
        site = self.new_site()
        for text, words in (
            ("title,colour\nA,red\n", "the columns colour are unknown"),
            ("name\nA\n", "unknown"),
            ("title,created\nA,yesterday\n", "row 2: created: 'yesterday' is no date"),
            ("title,status\nA,perhaps\n", "neither yes nor no"),
            ("title,path\nA,/a\nB\n", "row 3 has 1 columns, and the heads are 2"),
            ("title,title\nA,B\n", "two columns have the head 'title'"),
            ("title,old\nA,http://[x\n", "'http://[x' is no address"),
            ("title\nA\nA\n", "both are 'A'"),
            ("title,type\nA,poem\n", "no type poem"),
            ("", "no heads"),
        ):
            done = self.run_kit("from-csv", self.write("t.csv", text), "--into", site, status=1)
            self.assertIn(words, done.stderr)
        done = self.run_kit("from-csv", self.write("t.csv", "title,path,,\nA,/a,,\n,,,\n\n"), "--into", site, "--changes")
        self.assertIn("1 new page", done.stderr)
        self.write("latin.csv", "title;body\nCafé;Crème\n".encode("latin-1"))
        self.assertIn("--encoding", self.run_kit("from-csv", self.path("latin.csv"), "--into", site, status=1).stderr)
        done = self.run_kit("from-csv", self.path("latin.csv"), "--into", site, "--encoding", "cp1252", "--changes", "--folder", "/menu")
        self.assertIn('"path":"/menu/cafe"', done.stdout)


class FromMarkdown(support.Case):
    def test_a_folder(self) -> None:
        self.write("docs/index.md", "# Home again\n\nHello.\n")
        head = "title: About us\nmenu: true\nweight: 3\naliases: [/ueber-uns.html]\ntags: [club, 'the river']"
        self.write("docs/about.md", f"---\n{head}\n---\n# About us\n\nWe *row*.\n")
        head = 'title: "History: long"\nmenu: Past\nmenu_under: About us\ndate: 2024-05-01'
        self.write("docs/about/history.md", f"---\n{head}\n---\nIn **1931**\nwe began.\n")
        head = "author: Rosa\ndraft: false\ncategories:\n  - Races\n  - Spring"
        self.write("docs/posts/2026-03-01-spring.md", f"---\n{head}\n---\n# Spring race\n\n- one\n- two\n")
        self.write("docs/posts/2026-03-02-secret.md", "---\ndraft: true\ntitle: Not yet\n---\nx\n")
        site = self.new_site()
        out = self.path("all.rows")
        self.run_kit("from-markdown", self.path("docs"), "--into", site, "-o", out, "--redirects", self.path("r.conf"))
        rows = rows_of(out)
        paths = {row["path"]: row for row in rows.values() if row.get("path") and row["cell"].startswith("node:")}
        self.assertEqual(paths["/about"]["fields"]["body"], "We row.")
        self.assertEqual(paths["/about/history"]["title"], "History: long")
        self.assertEqual(paths["/about/history"]["fields"]["body"], "In 1931 we began.")
        self.assertEqual(paths["/news/spring"]["type"], "news")
        self.assertEqual(paths["/news/spring"]["fields"]["body"], "- one\n- two")
        self.assertEqual(rows[f"user:{paths['/news/spring']['uid']}"]["name"], "Rosa")
        self.assertFalse(paths["/news/secret"]["status"])
        links = {link["title"]: link for link in rows["menu:main"]["links"]}
        self.assertEqual(links["Past"]["parent"], links["About us"]["id"])
        conf = Path(self.path("r.conf")).read_text(encoding="utf-8")
        for line in ('"/ueber-uns.html" /about;', '"/about.html" /about;', '"/2026/03/01/spring.html" /news/spring;'):
            self.assertIn(line, conf)
        with self.served(self.imported(out)) as server:
            self.assertEqual(set(support.crawl(server.port).values()), {200})
        self.assertIn("no such folder", self.run_kit("from-markdown", self.path("none"), status=1).stderr)


class Texts(support.unittest.TestCase):
    def test_html(self) -> None:
        for html, plain in (
            ("<p>A &amp; B</p>\n\n<p>C<br/>D</p>", "A & B\n\nC\nD"),
            ("<ul><li>a</li><li>b <ol><li>c</li></ol></li></ul>", "- a\n- b\n  1. c"),
            ("<table><tr><th>x</th><th>y</th></tr><tr><td>1</td><td>2</td></tr></table>", "x | y\n1 | 2"),
            ("a <a href='https://e.example/x'>link</a> <a href='/in'>in</a>", "a link (https://e.example/x) in"),
            ("<script>evil()</script><style>p{}</style>x <img alt='A boat' src=b>", "x [A boat]"),
            ("<pre>a\n  b</pre>c", "a\n  b\n\nc"),
            ("<p>unclosed <b>bold <p>next", "unclosed bold\n\nnext"),
        ):
            self.assertEqual(from_html(html), plain)

    def test_markdown(self) -> None:
        for text, plain in (
            ("a *b* __c__ `d*e*`\nf", "a b c d*e* f"),
            ("# H #\n## I\ntext", "H\n\nI\n\ntext"),
            ("Head\n====\n\n> q\n> r", "Head\n\nq r"),
            ("[a](http://e.example) [b](/c) ![d](e.png)", "a (http://e.example) b [d]"),
            ("```\n*x*\n  y\n```", "*x*\n  y"),
            ("a_b_c 2*3*4 \\*x\\*", "a_b_c 2*3*4 *x*"),
            ("a  \nb", "a\nb"),
        ):
            self.assertEqual(from_markdown(text), plain)

    def test_paths(self) -> None:
        for old, path in (
            ("/about.html", "/about"), ("http://x.example/A/B.php?c=1", "/a/b"), ("/caf%C3%A9/Z%C3%BCrich", "/cafe/zuerich"), ("/node/7", "/pages/node/7"),
            ("/", None), ("/index.html", None), ("/x//y/", "/x/y"), ("/ / /", None), ("/" + "long/" * 80, ("/long" * 51)), ("/日本", None),
        ):  # fmt: skip
            self.assertEqual(as_path(old), path)

    def test_lines_and_moments(self) -> None:
        self.assertEqual(as_line("a\n b\x00\tc"), "a b c")
        self.assertLessEqual(len(as_line("ü" * 300).encode()), 255)
        self.assertEqual(as_text("a\r\nb\x07\n\n"), "a\nb")
        self.assertEqual(slug("Ein Rennen über die Brücke – schön!"), "ein-rennen-ueber-die-bruecke-schoen")
        for text, moment in (("1970-01-02", 86_400), ("1970-01-01 00:01", 60), ("1970-01-01T00:00:01Z", 1), ("1970-01-01T01:00:00+01:00", 0), ("x", None)):
            self.assertEqual(moment_of(text), moment)

    def test_heads_of_files(self) -> None:
        front, rest = split('---\na: "x: y"\nb: [1, "two, three"]\nc:\n  - p\n  - q # no\nd: >\n  long\n  text\n---\nBody')
        self.assertEqual(rest, "Body")
        self.assertEqual(front.values, {"a": "x: y", "b": ["1", "two, three"], "c": ["p", "q"], "d": "long text"})
        self.assertEqual(split('+++\ntitle = "T"\n+++\nB')[0].text("title"), "T")
