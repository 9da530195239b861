"""The programs of examples/, over the real program."""

from __future__ import annotations

import importlib.machinery
import importlib.util
import json
import subprocess
import sys
from pathlib import Path
from types import ModuleType
from typing import Any

import support

REPLACE_TEXT = support.COMPANION / "examples" / "replace-text"


def module_of(path: Path) -> ModuleType:
    """A program as a module."""
    loader = importlib.machinery.SourceFileLoader("example", str(path))
    spec = importlib.util.spec_from_loader("example", loader)
    assert spec
    module = importlib.util.module_from_spec(spec)
    loader.exec_module(module)
    return module


class ReplaceText(support.Case):
    def town(self) -> str:
        """The town's sample in a store, with the session that the documents have."""
        self.write("password", "weir-gate-61\n")
        rows = (support.SAMPLES / "town.rows").read_text(encoding="utf-8") + '{"cell":"session:tour","expires":4000000000,"uid":3}\n'
        return self.imported(self.write("town.rows", rows))

    def run_example(self, site: support.Server, *words: str, status: int = 0) -> str:
        done = subprocess.run(
            [sys.executable, str(REPLACE_TEXT), "--at", site.address, "--password-file", self.path("password"), *words],
            capture_output=True, text=True, env=self.environment, timeout=support.SECONDS,
        )  # fmt: skip
        self.assertEqual(done.returncode, status, done.stdout + done.stderr)
        return done.stdout + done.stderr

    def test_as_the_page_says(self) -> None:
        page = (support.REPOSITORY / "docs" / "how-to" / "read-and-edit-by-a-program.md").read_text(encoding="utf-8")
        words = ("--listing", "news", "--field", "body", "Saturday", "Sunday")
        with self.served(self.town()) as site:
            said = self.run_example(site, "--name", "admin", *words)
            self.assertIn("".join(f"    {line}\n" for line in said.splitlines()), page)
            self.assertIn("This Sunday the long table", site.get("/node/24")[1])
            self.assertEqual(self.run_example(site, "--name", "admin", *words), "0 of 13 nodes changed\n")
            self.assertIn("Unrecognized username or password.", self.run_example(site, "--name", "nobody", *words, status=1))
            self.write("password", "cake-tins-due\n")
            said = self.run_example(site, "--name", "Hester Loom", "--listing", "news", "--field", "body", "Sunday", "Monday", status=1)
            self.assertEqual(said, "/node/27: 403 A 'update' grant for node 27 is required.\n")
            self.assertIn(said, page.replace("`", "\n"))

    def test_somebody_is_faster(self) -> None:
        example = module_of(REPLACE_TEXT)

        class Slow(example.Site):  # type: ignore[name-defined, misc]
            """A client before whose first change somebody else makes one."""

            is_first = True

            def edit(slow, method: str, path: str, value: Any = None) -> Any:
                if slow.is_first and value and "fields" in value:
                    slow.is_first = False
                    self.run_kit("edit", "node", "set", "24", "--field", "body=Saturday, Saturday, and beans.")
                return super().edit(method, path, value)

        with self.served(self.town()) as server:
            self.log_in("admin", "weir-gate-61")
            site = Slow(server.address)
            site.log_in("admin", "weir-gate-61")
            self.assertEqual(example.replace(site, 24, "body", "Saturday", "Sunday"), 3)
            self.assertEqual(site.read("/json/node/24")["fields"]["body"], "Sunday, Sunday, and beans.")
            self.assertIsNone(example.replace(site, 24, "body", "Saturday", "Sunday"))

    def test_what_the_reference_shows(self) -> None:
        """The examples of docs/reference/JSON.md."""
        page = (support.REPOSITORY / "docs" / "reference" / "JSON.md").read_text(encoding="utf-8")
        with self.served(self.town()) as site:
            for path, cookie, status in (
                ("/json/node/41", None, 200), ("/json/term/2", None, 200), ("/json/listing/news?page=1", None, 200), ("/json/user/2", None, 403),
                ("/json/user/2", "SESS=tour", 200), ("/json/node/9999", None, 404), ("/json/anything", None, 404),
            ):  # fmt: skip
                found, body = site.get(path, cookie)
                self.assertEqual(found, status, path)
                self.assertIn(body, page, path)
                json.loads(body)
            self.assertIn(f"Content-Length: {len(site.get('/json/node/41')[1].encode())}\n", page)
