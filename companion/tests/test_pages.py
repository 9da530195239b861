"""Pages of docs/ that are commands to type: they run as they stand, and print what the pages say."""

from __future__ import annotations

import os
import re
import signal
import subprocess
import sys
from pathlib import Path

import support

DOCS = support.REPOSITORY / "docs"
MARK = "---- the end of a block"
TRIES = 300
"""How often it is looked whether a server listens."""


def steps(page: str) -> list[tuple[str, list[str]]]:
    """The blocks of a page that are run, each with what it has to print, in this order: what the sentence behind it quotes, if it
    begins with "print", and the lines of the blocks of text there."""
    text, found = (DOCS / page).read_text(encoding="utf-8"), []
    for words, behind in re.findall(r"^```sh\n(.*?)^```$(.*?)(?=^```sh$|\Z)", text, re.M | re.S):
        sentence = re.split(r"(?<=[.`])\s+(?=[A-Z])", behind.strip().split("\n\n")[0])[0]
        quotes = re.findall(r"`([^`]+)`", sentence) if sentence.startswith("print") else []
        lines = "".join(re.findall(r"^```text\n(.*?)^```$", behind, re.M | re.S)).splitlines()
        found.append((words, quotes + [line.strip() for line in lines if line.strip()]))
    return found


def rows_of(page: str) -> list[str]:
    """The blocks of rows of a page."""
    return re.findall(r"^```json\n(.*?)^```$", (DOCS / page).read_text(encoding="utf-8"), re.M | re.S)


def missing(said: str, wanted: list[str]) -> list[str]:
    """The texts that don't stand in what was said, one behind the other. Three dots are any text."""
    at, lost = 0, []
    for text in wanted:
        found = re.compile(".*?".join(map(re.escape, text.split("..."))), re.S).search(said, at)
        if found:
            at = found.end()
        else:
            lost.append(text)
    return lost


@support.needs("bash", "curl", "sha256sum")
class Pages(support.Case):
    def run_page(self, page: str, **changes: str) -> None:
        """Runs the blocks of a page in one shell, in the test's folder, with other places for the paths that the page has."""
        port, blocks = support.free_port(), steps(page)
        connects = f"{sys.executable} -c 'import socket; socket.create_connection((\"127.0.0.1\", {port}))' 2> /dev/null"
        listens = f"for tried in $(seq {TRIES}); do {connects} && break; sleep 0.1; done\n"
        script = "shopt -s expand_aliases\n" + "".join(f"{words}\necho; echo '{MARK}'\n" for words, _ in blocks)
        for old, new in {**changes, "8080": str(port), "sleep 1\n": listens}.items():
            script = script.replace(old, new)
        said = self.shell(script).replace(str(port), "8080")
        self.assertEqual(said.count(MARK), len(blocks), said)
        for (words, wanted), printed in zip(blocks, said.split(MARK)):
            # a server prints its line when it has a processor, which may be behind the end of its block
            soon = [text for text in wanted if text.startswith("listening ")]
            self.assertEqual(missing(printed, [it for it in wanted if it not in soon]), [], f"{page}\n{words}\nprints\n{printed}")
            self.assertEqual(missing(said, soon), [], f"{page}\n{words}")

    def shell(self, script: str) -> str:
        """What a script prints. What it leaves running is ended."""
        tools = self.room / "tools"
        tools.mkdir()
        (tools / "site").symlink_to(support.site())
        environment = {**self.environment, "PATH": f"{tools}:{self.environment['PATH']}"}
        with open(self.path("said"), "w+b") as said:
            words = ["bash", self.write("page.sh", script)]
            shell = subprocess.Popen(words, cwd=self.room, env=environment, stdin=subprocess.DEVNULL, stdout=said, stderr=subprocess.STDOUT, start_new_session=True)
            try:
                shell.wait(4 * support.SECONDS)
            finally:
                try:
                    os.killpg(shell.pid, signal.SIGKILL)
                except ProcessLookupError:
                    pass
                shell.wait()
            said.seek(0)
            return said.read().decode("utf-8", "replace")

    @support.needs("sqlite3")
    def test_the_tour(self) -> None:
        self.run_page("tutorial/TOUR.md", **{"/path/to/crates/site/out/site": support.site(), "/path/to/samples": str(support.SAMPLES)})

    def test_the_least_site(self) -> None:
        page = "how-to/bring-a-site-in.md"
        for name, rows in zip(("mine.rows", "more.rows"), rows_of(page)):
            self.write(name, rows)
        self.run_page(page)

    def test_a_row_is_seen(self) -> None:
        self.run_page("how-to/add-a-row-kind.md", **{"crates/site/out/site": support.site(), "samples/": f"{support.SAMPLES}/"})

    def test_a_backup_is_tried(self) -> None:
        folder = self.path("backups")
        with self.served(self.imported(str(support.SAMPLES / "town.rows"))) as site:
            words = [str(support.DEPLOY / "backup"), self.path("site.db"), folder, str(site.pid)]
            made = subprocess.run(words, env={**self.environment, "SITE": support.site()}, capture_output=True, text=True, timeout=support.SECONDS)
            self.assertEqual((made.returncode, made.stdout.split()[1:]), (0, ["93", "rows"]), made.stderr)
            self.assertEqual(support.get(site.port, "/")[0], 200)
        self.run_page("how-to/back-up-and-restore.md", **{"/var/backups/site": folder, "/tmp/try.db": self.path("try.db")})
        self.assertEqual([it.name for it in Path(folder).iterdir()], [Path(made.stdout.split()[0]).name])
