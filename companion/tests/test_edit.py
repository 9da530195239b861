"""`edit`: changes of a served site, who may make them, and what is told of a stale version."""

from __future__ import annotations

import json
import os
import stat
from pathlib import Path

import support


class Edit(support.Case):
    def setUp(self) -> None:
        super().setUp()
        self.store = self.imported(self.new_site("--editor", "Ana"))

    def export(self, name: str = "now.rows") -> str:
        """The rows of the site while it is served."""
        self.run_kit("export", self.store, "--pid", str(self.server.pid), "-o", self.path(name))
        return self.path(name)

    def rows(self) -> dict[str, dict]:
        return {row["cell"]: row for row in map(json.loads, Path(self.export()).read_text(encoding="utf-8").splitlines())}

    def edit(self, *words: str, status: int = 0) -> str:
        done = self.run_kit("edit", *words, status=status)
        return done.stdout + done.stderr

    def test_nodes(self) -> None:
        with self.served(self.store) as self.server:
            self.assertIn("nobody is logged in", self.edit("node", "new", "--type", "page", "--title", "X", status=5))
            self.log_in()
            self.write("text", "First line\nsecond <line>\n")
            made = self.edit("node", "new", "--type", "page", "--title", "Fees", "--path", "/fees", "--field", f"body=@{self.path('text')}", "--draft")
            self.assertIn("node 2 is in version 1", made)
            self.assertEqual(self.server.get("/fees")[0], 403)
            self.assertIn("version 2", self.edit("node", "set", "2", "--publish", "--field", "summary=Short"))
            status, page = self.server.get("/fees")
            self.assertEqual(status, 200)
            self.assertIn("second &lt;line&gt;", page)
            self.assertEqual(self.edit("node", "version", "2"), "2\n")
            self.edit("node", "set", "2", "--clear", "summary", "--path", "", "--created", "2026-01-02", "--sticky")
            row = self.rows()["node:2"]
            self.assertEqual((row["vid"], row["path"], row["created"], row["sticky"]), (3, None, 1767312000, True))
            self.assertEqual(row["fields"], {"body": "First line\nsecond <line>"})
            self.edit("node", "delete", "2")
            self.assertEqual(self.server.get("/node/2")[0], 404)
            self.assertIn("no such thing", self.edit("node", "delete", "2", status=6))

    def test_a_stale_version_is_told_with_the_newer_one(self) -> None:
        with self.served(self.store) as self.server:
            self.log_in()
            seen = self.export("seen.rows")
            self.edit("node", "set", "1", "--title", "Somebody was faster", "--vid", "1")
            for words in (("--vid", "1"), ("--seen", seen)):
                said = self.edit("node", "set", "1", "--title", "Mine", *words, status=4)
                self.assertIn("node 1 is in version 2 by now, and yours was 1: nothing was changed", said)
                self.assertIn("    Somebody was faster", said)
                self.assertIn("--vid 2", said)
            self.assertIn("Somebody was faster", self.server.get("/node/1")[1])
            self.edit("node", "set", "1", "--title", "Mine", "--vid", "2")
            self.assertIn("Mine", self.server.get("/node/1")[1])

    def test_wrong_values_are_told_before_they_are_sent(self) -> None:
        with self.served(self.store) as self.server:
            self.log_in()
            said = self.edit("node", "new", "--type", "page", "--title", "", "--path", "/User", "--field", "Body=x", status=2)
            for words in ("title: '' has 0 bytes", "path: '/User' has", "fields.Body: 'Body' has 'B'"):
                self.assertIn(words, said)
            self.assertIn("a new node's type", self.edit("node", "new", "--type", "poem", "--title", "X", status=6))
            self.assertIn("[unknown]", self.edit("node", "set", "1", "--field", "colour=red", status=6))
            self.assertIn("node:1 has this path", self.edit("node", "new", "--type", "page", "--title", "X", "--path", "/welcome", status=6))
            self.edit("node", "set", "1", status=2)

    def test_users_roles_and_grants(self) -> None:
        with self.served(self.store) as self.server:
            self.log_in()
            self.write("pass", "wherry\n")
            self.edit("user", "set", "2", "--password-file", self.path("pass"))
            self.assertIn("user 3", self.edit("user", "new", "Bo", "--password-file", self.path("pass"), "--grant", "board:1"))
            self.edit("node", "new", "--type", "page", "--title", "Minutes", "--path", "/minutes", "--grant", "board:1:view,update")
            self.assertEqual(self.server.get("/minutes")[0], 403)
            cookies = {}
            for name in ("Ana", "Bo"):
                self.run_kit("edit", "login", name, "--password-file", self.path("pass"), "--session", self.path(name))
                cookies[name] = "SESS=" + json.loads(Path(self.path(name)).read_text(encoding="utf-8"))["token"]
            self.assertEqual(self.server.get("/minutes", cookies["Bo"])[0], 200)
            self.assertEqual(self.server.get("/minutes", cookies["Ana"])[0], 403)
            self.assertIn("version 2", self.edit("node", "set", "2", "--title", "Minutes of May", "--session", self.path("Bo")))
            self.assertIn("denied", self.edit("user", "set", "3", "--role", "editor", "--session", self.path("Ana"), status=5))
            self.edit("user", "end-sessions", "3", "--from", self.export())
            self.assertEqual(self.server.get("/minutes", cookies["Bo"])[0], 403)
            self.edit("user", "set", "2", "--blocked")
            self.write("pass", "wrong\n")
            self.assertIn("Unrecognized", self.edit("login", "Ana", "--password-file", self.path("pass"), status=5))

    def test_terms(self) -> None:
        with self.served(self.store) as self.server:
            self.log_in()
            self.assertIn("term 1", self.edit("term", "new", "Races", "--description", "Who was first"))
            self.edit("node", "set", "1", "--term", "1")
            self.assertIn("Welcome", self.server.get("/taxonomy/term/1")[1])
            self.assertIn("term 2", self.edit("term", "new", "Sport"))
            self.edit("term", "set", "1", "--parent", "2")
            self.assertIn("Welcome", self.server.get("/taxonomy/term/2")[1])
            self.assertIn("[used]", self.edit("term", "delete", "2", status=6))
            self.edit("term", "set", "1", "--parent", "")
            self.assertNotIn("Welcome", self.server.get("/taxonomy/term/2")[1])
            self.edit("term", "set", "1", "--name", "Regattas", "--draft")
            self.assertEqual(self.server.get("/taxonomy/term/1")[0], 403)
            self.edit("term", "delete", "1")
            self.assertEqual(self.server.get("/taxonomy/term/1")[0], 404)
            self.assertIn("[absent]", self.edit("node", "set", "1", "--term", "1", status=6))
            self.edit("node", "set", "1", "--term", "")

    def test_comments(self) -> None:
        with self.served(self.store) as self.server:
            self.assertIn("'post comments' permission is required. (nobody is logged in", self.edit("comment", "new", "1", "X", status=5))
            self.log_in()
            self.assertIn("comment 1", self.edit("comment", "new", "1", "Well rowed, <all>"))
            self.assertNotIn("Well rowed", self.server.get("/node/1")[1])
            self.edit("role", "set", "anonymous", "--from", self.export(), "permissions=access comments,access content")
            self.assertIn("<p>Well rowed, &lt;all&gt;</p>", self.server.get("/node/1")[1])
            self.assertIn("comment 2", self.edit("comment", "new", "1", "Thank you", "--reply-to", "1"))
            self.assertIn("Thank you", self.server.get("/node/1")[1])
            self.edit("comment", "set", "1", "--hide")
            for words in ("Well rowed", "Thank you"):
                self.assertNotIn(words, self.server.get("/node/1")[1])
            self.edit("comment", "set", "1", "--publish", "--body", "Well steered")
            self.assertIn("Well steered", self.server.get("/node/1")[1])
            row = self.rows()["comment:2"]
            self.assertEqual((row["node"], row["parent"], row["status"], row["uid"]), (1, 1, True, 1))
            self.assertIn("parent: what it names isn't there [absent]", self.edit("comment", "new", "1", "X", "--reply-to", "9", status=6))
            self.assertIn("no such thing", self.edit("comment", "new", "9", "X", status=6))
            self.assertIn("body: '' has 0 bytes", self.edit("comment", "new", "1", "", status=2))
            self.edit("comment", "set", "1", status=2)
            self.edit("comment", "delete", "1")
            rows = self.rows()
            self.assertFalse({"comment:1", "comment:2"} & set(rows))
            self.assertEqual(rows["talk"]["comment"], 3)
            self.assertIn("no such thing", self.edit("comment", "delete", "2", status=6))

    def test_rows_that_are_sent_whole(self) -> None:
        with self.served(self.store) as self.server:
            self.log_in()
            self.edit("block", "set", "hours", "kind=text", "text=Open on Mondays", "region=footer", "paths=<front>,/news")
            self.assertIn("Open on Mondays", self.server.get("/")[1])
            self.edit("block", "set", "hours", "--from", self.export(), "weight=3", "hide=true")
            self.assertNotIn("Open on Mondays", self.server.get("/")[1])
            self.edit("block", "delete", "hours")
            self.edit("listing", "set", "all", "path=/all", "title=All of it", "types=page,news")
            self.edit("menu", "link", "main", "--from", self.export(), "--title", "All", "--path", "/all", "--under", "News", "--weight", "-3")
            self.assertIn('<li><a href="/news">News</a><ul><li><a href="/all">All</a></li></ul></li>', self.server.get("/welcome")[1])
            self.edit("menu", "unlink", "main", "--from", self.export(), "News")
            self.assertNotIn('href="/all"', self.server.get("/welcome")[1])
            self.assertIn("has no link", self.edit("menu", "unlink", "main", "--from", self.export(), "News", status=1))
            row = self.edit("role", "get", "editor", "--from", self.export())
            self.write("row", row.replace('"label": "Editor"', '"label": "Writer"'))
            self.edit("role", "put", "editor", self.path("row"))
            self.edit("site", "set", "name=Another Club", "--from", self.export())
            self.assertIn("<title>Welcome to A Club | Another Club</title>", self.server.get("/")[1])
            self.edit("type", "set", "note", "label=Note", 'fields=[{"edit":null,"label":"B","name":"b","owner":false,"teaser":true,"view":null}]')
            rows = self.rows()
            self.assertEqual(rows["role:editor"]["label"], "Writer")
            self.assertEqual(rows["type:note"]["fields"][0]["name"], "b")
            self.assertIn("there is no key 'weigth'", self.edit("block", "set", "x", "weigth=1", status=2))
            self.assertIn("[pair]", self.edit("block", "set", "x", "kind=clock", "text=x", status=6))
            self.edit("rebuild")

    def test_the_session_file(self) -> None:
        with self.served(self.store) as self.server:
            self.log_in()
            file = next((self.room / "state" / "sitekit").iterdir())
            self.assertEqual(stat.S_IMODE(os.stat(file).st_mode), 0o600)
            self.edit("logout")
            self.assertFalse(file.exists())
            self.assertIn("A session is required", self.edit("logout", status=5))
            self.assertIn("nobody is logged in", self.edit("rebuild", status=5))
        self.assertIn("refused", self.edit("rebuild", status=1).lower())
