"""The editor's page, in a headless Chromium, behind the nginx of deploy/."""

from __future__ import annotations

import contextlib
import json
import os
import unittest
from pathlib import Path
from typing import Any, Iterator

import browser
import support

PICTURES = os.environ.get("EDITOR_PICTURES")
"""A folder for pictures of the page, to be looked at."""
CONTROL = 2
NEWS = 12


def needs_browser(test: Any) -> Any:
    """Skips a test where there is no browser."""
    return unittest.skipIf(browser.found() is None, "there is no chromium")(test)


@needs_browser
@support.needs("nginx", "openssl")
class Editor(support.Case):
    def rows_of_a_club(self) -> str:
        """A new site with news, a draft, terms, and comments of which one waits."""
        rows = {row["cell"]: row for row in map(json.loads, Path(self.new_site()).read_text(encoding="utf-8").splitlines())}
        node = rows["node:1"]
        for number in range(2, 2 + NEWS):
            rows[f"node:{number}"] = {
                **node, "cell": f"node:{number}", "created": node["created"] + number, "fields": {"body": f"Body of {number}.", "summary": "In short."},
                "path": None, "terms": [1], "title": f"News of day {number}", "type": "news", "uuid": f"n-{number}",
            }  # fmt: skip
        rows["node:14"] = {**rows["node:2"], "cell": "node:14", "status": False, "terms": [], "title": "A draft", "uuid": "n-14"}
        for number, name in enumerate(("Races", "Boats"), 1):
            rows[f"term:{number}"] = {"cell": f"term:{number}", "description": "", "name": name, "parent": None, "status": True, "uuid": f"t-{number}"}
        for number, status in ((1, True), (2, False)):
            rows[f"comment:{number}"] = {
                "body": f"Comment {number} <b>", "cell": f"comment:{number}", "created": 1780000000, "node": 2, "parent": None, "status": status, "uid": 1, "uuid": f"c-{number}",
            }  # fmt: skip
        rows["talk"] = {"cell": "talk", "comment": 3}
        rows["seq"].update(node=15, term=3)
        rows["role:anonymous"]["permissions"].append("access comments")
        rows["session:tour"] = {"cell": "session:tour", "expires": 4000000000, "uid": 1}
        return self.write("club.rows", "".join(json.dumps(row) + "\n" for row in rows.values()))

    @contextlib.contextmanager
    def editor(self) -> Iterator[tuple[support.Server, browser.Browser]]:
        """The page in a browser, and the site behind it, where `sitekit` is logged in too."""
        with self.served(self.imported(self.rows_of_a_club())) as site, self.deployed(site.port) as port, browser.Browser(support.SECONDS) as window:
            self.log_in()
            self.address = f"https://127.0.0.1:{port}/editor.html"
            self.reload(window)
            yield site, window
            self.assertEqual(window.faults, [])

    def reload(self, window: browser.Browser) -> None:
        window.go("about:blank")
        window.go(self.address)
        window.wait("document.documentElement.dataset.ready === 'yes'")
        window.wait("!document.getElementById('log-in').hidden || !document.getElementById('log-out').hidden")

    def enter(self, window: browser.Browser, password: str = "oar") -> None:
        """Logs in, by the keyboard alone."""
        window.fill("#name", "admin")
        window.press("Tab")
        window.write(password)
        window.press("Enter")

    def come_in(self, window: browser.Browser) -> None:
        """Logs in, and waits until all of it is told: what is told moves what is to be clicked at."""
        self.enter(window)
        window.wait_for("Logged in as admin.", "#who")
        window.wait_for("You are logged in.", "#said")

    def open(self, window: browser.Browser, number: int) -> None:
        window.click("nav [data-part=find]")
        window.fill("#open-number", str(number))
        window.press("Enter")
        window.wait_for(f"(page {number})", "#node-head")

    def picture(self, window: browser.Browser, name: str) -> None:
        if PICTURES:
            window.picture(Path(PICTURES) / f"{name}.png")

    def save(self, window: browser.Browser) -> None:
        window.click("#node-form .main")

    def test_log_in_change_and_log_out(self) -> None:
        with self.editor() as (site, window):
            window.wait_for("Nobody is logged in.", "#who")
            self.open(window, 1)
            window.wait_for("It can't be changed here.", "#node-form")
            self.enter(window, "wrong")
            window.wait_for("Unrecognized username or password.", "#trouble")
            self.come_in(window)
            window.wait_for("version 1", "#node-form")
            self.assertEqual(window.run("document.cookie"), "")
            window.fill("#node-title", "Welcome <all>")
            window.wait_for("Not saved yet.", "#unsaved")
            window.press("s", CONTROL)
            window.wait_for("Saved: version 2", "#said")
            self.assertIn("Welcome &lt;all&gt;", site.get("/node/1")[1])
            self.assertEqual(window.run("localStorage.length"), 0)
            window.click("#log-out")
            window.wait_for("You are logged out.", "#said")
            self.assertTrue(window.run("!document.getElementById('log-in').hidden"))
            window.wait_for("It can't be changed here.", "#node-form")

    def test_fields_terms_path_and_marks(self) -> None:
        with self.editor() as (site, window):
            self.come_in(window)
            self.open(window, 2)
            window.wait_for("Everybody may see it.", "#visible")
            window.fill("#node-fields-body", "Line one.\nLine <two>.")
            window.fill("#node-path", "/news/two")
            window.choose("#node-status", "false")
            window.fill("#node-terms", "2")
            window.run("[...document.querySelectorAll('#node-form button')].find((it) => it.textContent === 'Add the term').click()")
            window.wait_for("Boats", "#node-form")
            window.fill("#more-field", "summary")
            self.save(window)
            window.wait_for("Saved: version 2", "#said")
            window.wait_for("Visitors without a session may not see it.", "#visible")
            self.assertEqual(site.get("/node/2")[0], 403)
            page = site.get("/news/two", "SESS=tour")[1]
            for words in ("Line one.\nLine &lt;two&gt;.", "Races", "Boats"):
                self.assertIn(words, page)
            window.fill("#node-path", "/welcome")
            self.save(window)
            window.wait_for("node:1 has this path already.", "#trouble")
            self.assertEqual(window.run("document.activeElement.id"), "node-path")
            window.fill("#node-path", "/Capital")
            self.save(window)
            window.wait_for("path: it has characters that may not stand there", "#trouble")
            self.assertEqual(window.run("document.getElementById('node-path').getAttribute('aria-invalid')"), "true")
            window.fill("#node-path", "")
            window.fill("#node-fields-summary", "")
            self.save(window)
            window.wait_for("Saved: version 3", "#said")
            self.assertEqual(site.get("/news/two", "SESS=tour")[0], 404)
            self.assertNotIn("In short", site.get("/node/2", "SESS=tour")[1])

    def test_somebody_was_faster(self) -> None:
        with self.editor() as (site, window):
            self.come_in(window)
            self.open(window, 3)
            window.fill("#node-title", "Mine")
            window.fill("#node-fields-summary", "My summary.")
            self.run_kit("edit", "node", "set", "3", "--title", "Theirs", "--field", "body=Their body.")
            self.save(window)
            window.wait_for("Somebody was faster: this page is in version 2 by now", "#trouble")
            window.wait_for("On the site now, version 2:\n\nTheirs", "#node-title-theirs")
            values = "['title', 'fields-summary', 'fields-body'].map((it) => document.getElementById('node-' + it).value)"
            self.assertEqual(window.run(values), ["Mine", "My summary.", "Their body."])
            self.assertIn("Theirs", site.get("/node/3")[1])
            self.picture(window, "stale")
            self.reload(window)
            window.wait_for("What you typed and didn't save is kept: page 3.", "#said")
            self.open(window, 3)
            self.assertEqual(window.run(values), ["Mine", "My summary.", "Their body."])
            self.save(window)
            window.wait_for("Saved: version 3", "#said")
            page = site.get("/node/3")[1]
            for words in ("Mine", "My summary.", "Their body."):
                self.assertIn(words, page)

    def test_the_other_version_is_taken(self) -> None:
        with self.editor() as (site, window):
            self.come_in(window)
            self.open(window, 3)
            window.fill("#node-title", "Mine")
            self.run_kit("edit", "node", "set", "3", "--title", "Theirs")
            self.save(window)
            window.click("#node-title-theirs button")
            window.wait("document.getElementById('node-title').value === 'Theirs'")
            self.save(window)
            window.wait_for("There is nothing to save.", "#said")
            self.assertIn("Theirs", site.get("/node/3")[1])

    def test_nothing_that_was_typed_is_lost(self) -> None:
        with self.editor() as (site, window):
            self.come_in(window)
            self.open(window, 4)
            window.fill("#node-title", "Typed before the session ended")
            window.click("#log-out")
            window.wait_for("What you typed isn't saved: node 4.", "#trouble")
            self.assertIsNotNone(window.take_cookie("SESS", self.address))
            self.save(window)
            window.wait_for("Nobody is logged in.", "#who")
            self.enter(window)
            window.wait_for("What you typed is still here.", "#said")
            self.assertEqual(window.run("document.getElementById('node-title').value"), "Typed before the session ended")
            site.stop()
            self.save(window)
            window.wait("document.getElementById('trouble').textContent !== ''")
            self.assertEqual(window.run("document.getElementById('node-title').value"), "Typed before the session ended")
            self.assertIn("Typed before", window.run("localStorage.getItem('site-editor:node 4')"))

    def test_finding_pages(self) -> None:
        with self.editor() as (_, window):
            window.fill("#listing", "news")
            window.press("Enter")
            window.wait_for(f"{NEWS} found, {NEWS} looked at.", "#found-head")
            window.fill("#sought", "DAY 1")
            window.press("Enter")
            window.wait_for("4 found", "#found-head")
            window.fill("#sought", "body of 7")
            window.click("#in-texts")
            window.press("Enter")
            window.click("#list-form button")
            window.wait_for(f"1 found, {NEWS} looked at.", "#found-head")
            window.click("#found button")
            window.wait_for("News of day 7 (page 7)", "#node-head")
            window.click("nav [data-part=find]")
            window.choose("#source", "numbers")
            window.fill("#last", "16")
            window.fill("#sought", "draft")
            window.click("#list-form button")
            window.wait_for("0 found, 16 looked at.", "#found-head")
            self.come_in(window)
            window.click("nav [data-part=find]")
            window.click("#list-form button")
            window.wait_for("1 found, 16 looked at.", "#found-head")
            window.choose("#source", "listing")
            window.fill("#listing", "nothing")
            window.click("#list-form button")
            window.wait_for("There is no listing of this name.", "#trouble")

    def test_an_export_tells_more(self) -> None:
        with self.editor() as (site, window):
            self.come_in(window)
            window.click("nav [data-part=export]")
            window.give_file("#file", self.path("club.rows"))
            window.wait_for("club.rows was read.", "#said")
            self.open(window, 1)
            window.wait_for("In short", "#node-form")
            self.assertEqual(window.run("document.getElementById('node-status').value"), "true")
            window.fill("#node-fields-summary", "Row with us.")
            window.choose("#node-terms", "1")
            window.run("[...document.querySelectorAll('#node-form button')].find((it) => it.textContent === 'Add the term').click()")
            self.save(window)
            window.wait_for("Saved: version 2", "#said")
            self.assertIn("Row with us.", site.get("/node/1")[1])
            self.assertIn('href="/taxonomy/term/1"', site.get("/node/1")[1])
            window.click("nav [data-part=comments]")
            window.wait_for("Comment 2 <b>", "#waiting")
            self.assertNotIn("Comment 2", site.get("/node/2")[1])
            self.picture(window, "comments")
            window.click("#waiting button")
            window.wait_for("Comment 2 is published.", "#said")
            window.wait_for("No comment of the export waits.", "#waiting")
            self.assertIn("<p>Comment 2 &lt;b&gt;</p>", site.get("/node/2")[1])
            window.fill("#comment-number", "1")
            window.click("#comment-form [value=remove]")
            window.wait_for("Comment 1 is removed", "#said")
            self.assertNotIn("Comment 1", site.get("/node/2")[1])

    def test_rows_that_are_sent_whole(self) -> None:
        with self.editor() as (site, window):
            self.come_in(window)
            window.click("nav [data-part=export]")
            window.give_file("#file", self.path("club.rows"))
            window.wait_for("club.rows was read.", "#said")
            window.click("nav [data-part=rows]")
            window.choose("#row", "block:greeting")
            window.choose("#row-kind", "text")
            window.fill("#row-text", "Open on <Mondays>")
            window.fill("#row-paths", "<front>\n/about")
            self.save_row(window)
            window.wait_for("Sent: block:greeting", "#said")
            self.assertIn("Open on &lt;Mondays&gt;", site.get("/")[1])
            self.assertNotIn("Open on", site.get("/news")[1])
            window.choose("#row", "menu:main")
            window.run("[...document.querySelectorAll('#row-links button')].find((it) => it.textContent === 'Add a link').click()")
            window.fill("#row-links-2-title", "Second news")
            window.fill("#row-links-2-path", "/node/2")
            window.fill("#row-links-2-parent", "news")
            self.picture(window, "menu")
            self.save_row(window)
            window.wait_for("Sent: menu:main", "#said")
            self.assertIn('<li><a href="/node/2">Second news</a></li>', site.get("/")[1])
            window.choose("#row", "listing:news")
            window.fill("#row-title", "")
            self.save_row(window)
            window.wait_for("title: it is too short or too long", "#trouble")
            window.fill("#row-title", "What is new")
            window.fill("#row-term", "1")
            self.save_row(window)
            window.wait_for("Sent: listing:news", "#said")
            self.assertIn("<h1>What is new</h1>", site.get("/news")[1])
            self.assertEqual(window.run("localStorage.length"), 0)

    def test_what_is_told_where_something_is_missing(self) -> None:
        with self.editor() as (site, window):
            self.run_kit("edit", "block", "set", "guard", "kind=csrf", "region=footer", "paths=/nowhere")
            self.enter(window)
            window.wait_for("You are logged in, but no page shows the value that guards your edits.", "#trouble")
            self.assertEqual(site.get("/user/login", "SESS=tour")[1].count('class="csrf"'), 0)
            self.run_kit("edit", "block", "set", "guard", "kind=csrf", "region=footer", "paths=/user/login")
            self.reload(window)
            window.wait_for("Logged in.", "#who")
            window.click("nav [data-part=export]")
            for text, words in (("no JSON\n", "Line 1 is no row."), ('{"cell":"seq"}\n', "is no export")):
                window.give_file("#file", self.write("wrong.rows", text))
                window.wait_for(words, "#trouble")
            window.click("nav [data-part=find]")
            window.fill("#open-number", "999")
            window.press("Enter")
            window.wait_for("There is no such thing any more.", "#trouble")

    def save_row(self, window: browser.Browser) -> None:
        window.click("#row-form .main")

    def test_each_control_has_a_label_and_a_phone_shows_all(self) -> None:
        unnamed = (
            "[...document.querySelectorAll('input, select, textarea, button')].filter((it) => !it.labels?.length && !it.getAttribute('aria-label')"
            " && !it.textContent.trim()).map((it) => it.outerHTML)"
        )
        with self.editor() as (_, window):
            window.size(375, 740, is_phone=True)
            self.come_in(window)
            window.click("nav [data-part=export]")
            window.give_file("#file", self.path("club.rows"))
            window.wait_for("club.rows was read.", "#said")
            self.open(window, 2)
            self.picture(window, "phone")
            self.assertEqual(window.run(unnamed), [])
            for part in ("find", "node", "comments", "rows", "export"):
                window.click(f"nav [data-part={part}]")
                if part == "rows":
                    window.choose("#row", "menu:main")
                    self.assertEqual(window.run(unnamed), [])
                self.assertLessEqual(window.run("document.documentElement.scrollWidth"), 375, part)
                self.assertEqual(window.run("document.activeElement.id"), f"{part}-head")
            self.assertTrue(window.run("[...document.querySelectorAll('button')].filter((it) => it.offsetHeight).every((it) => it.offsetHeight >= 40)"))

    def test_by_the_keyboard_alone(self) -> None:
        with self.editor() as (site, window):
            self.come_in(window)
            self.go_to(window, "open-number")
            window.write("5")
            window.press("Enter")
            window.wait_for("(page 5)", "#node-head")
            self.go_to(window, "node-title")
            window.press("a", CONTROL)
            window.write("By the keyboard")
            self.go_to(window, "node-fields-body")
            window.press("Tab")
            window.press("s", CONTROL)
            window.wait_for("Saved: version 2", "#said")
            self.assertIn("By the keyboard", site.get("/node/5")[1])

    def go_to(self, window: browser.Browser, control: str) -> None:
        """Presses Tab until a control has the focus."""
        for _ in range(60):
            if window.run("document.activeElement.id") == control:
                return
            window.press("Tab")
        raise AssertionError(f"Tab doesn't lead to {control}")
