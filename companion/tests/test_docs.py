"""The documents: the how-to of a club runs as it stands, the reference is that of the tables, and each command has its help."""

from __future__ import annotations

import os
import json
import re
import subprocess
import sys
from pathlib import Path

import support
from kit import keys

DOCS = support.COMPANION / "docs"
COMMANDS = (
    "new", "lint", "keys", "from-csv", "from-wordpress", "from-markdown", "edit", "edit login", "edit node", "edit node new", "edit node set",
    "edit term new", "edit comment new", "edit comment set", "edit user set", "edit block set", "edit menu link", "edit site set", "crawl", "backup", "restore", "export",
)  # fmt: skip


def blocks(page: str) -> list[str]:
    """The blocks of a page that are to be run."""
    return re.findall(r"^```sh\n(.*?)^```$", (DOCS / page).read_text(encoding="utf-8"), re.M | re.S)


class Documents(support.Case):
    def test_help_of_each_command(self) -> None:
        for command in COMMANDS:
            self.assertIn("usage: sitekit " + command, self.run_kit(*command.split(), "--help").stdout)
        self.run_kit(status=2)
        self.run_kit("nothing", status=2)

    def test_the_reference_is_that_of_the_tables(self) -> None:
        self.assertEqual((DOCS / "rows.md").read_text(encoding="utf-8"), keys.page(), "sitekit keys --markdown > docs/rows.md")

    def test_links_between_pages(self) -> None:
        for page in DOCS.glob("*.md"):
            for link in re.findall(r"\]\(([^)#:]+)\)", page.read_text(encoding="utf-8")):
                self.assertTrue((DOCS / link).exists(), f"{page.name}: {link}")

    def test_commands_that_pages_name(self) -> None:
        """Each `sitekit` line of a page is one that the command line takes, as far as its options go."""
        helps: dict[str, str] = {}
        for page in DOCS.glob("*.md"):
            for line in re.findall(r"^ {4}(?:[\d* ]{5,} )?sitekit ([^\n]*)", page.read_text(encoding="utf-8"), re.M):
                # what stands in $(..) is another command's
                words = [word for word in re.split(r"\s+", re.sub(r"\$\([^()]*\)", "", line)) if re.fullmatch(r"--[a-z-]+", word)]
                command = re.match(r"(edit( [a-z-]+){1,2}|[a-z-]+)", line)
                if not command or line.startswith("="):
                    continue
                if command[0] not in helps:
                    helps[command[0]] = self.help_of(command[0].split())
                for word in words:
                    self.assertIn(word, helps[command[0]], f"{page.name}: {line}")

    def help_of(self, words: list[str]) -> str:
        while True:
            done = self.run_kit_freely(*words, "--help")
            if done.returncode == 0:
                return done.stdout
            words = words[:-1]

    def run_kit_freely(self, *words: str) -> subprocess.CompletedProcess[str]:
        return subprocess.run([str(support.SITEKIT), *words], capture_output=True, text=True, env=self.environment, timeout=support.SECONDS)

    def test_a_club_as_the_page_says(self) -> None:
        tools = self.room / "tools"
        tools.mkdir()
        (tools / "site").symlink_to(support.site())
        (tools / "sitekit").symlink_to(support.SITEKIT)
        port = support.free_port()
        script = "set -eu\ntrap 'kill $server' EXIT\nserver=0\n" + "\n".join(blocks("a-club.md")) + "\necho ready\nread word\n"
        listens = f"until {sys.executable} -c 'import socket; socket.create_connection((\"127.0.0.1\", {port}))' 2> /dev/null; do sleep 0.1; done"
        words = ["sh", "-c", script.replace("8080", str(port)).replace("sleep 1\n", listens + "\n")]
        environment = {
            **self.environment,
            "PATH": f"{tools}:{os.environ['PATH']}",
            "SITEKIT_AT": f"http://127.0.0.1:{port}",
        }
        del environment["SITE_PROGRAM"]
        folder = self.room / "club"
        folder.mkdir()
        with subprocess.Popen(words, cwd=folder, env=environment, text=True, stdin=-1, stdout=-1, stderr=subprocess.STDOUT) as shell:
            assert shell.stdout is not None and shell.stdin is not None
            said = ""
            for line in shell.stdout:
                said += line
                if line == "ready\n":
                    break
            self.assertTrue(said.endswith("ready\n"), said)
            self.assertEqual(said.count("no faults, no warnings"), 2, said)
            self.look_at_the_club(port, folder)
            shell.stdin.write("end\n")
            shell.stdin.flush()

    def look_at_the_club(self, port: int, folder: Path) -> None:
        """Whether all that the page promises is there."""
        found = support.crawl(port)
        self.assertEqual({status for path, status in found.items()}, {200}, found)
        for path in ("/", "/about", "/about/boats", "/fees", "/news", "/news?page=1", "/news/night-row"):
            self.assertIn(path, found)
        boats = support.get(port, "/about/boats")[1]
        self.assertIn('<li class="active"><a href="/about">About us</a><ul><li class="active"><a href="/about/boats">', boats)
        self.assertIn("12 Quay Lane", boats)
        self.assertNotIn('href="/minutes"', boats)
        for path, status in (("/minutes", 403), ("/camp", 403), ("/nowhere", 404)):
            self.assertEqual(support.get(port, path)[0], status)
        for name, file, may in (("Bo Lock", "bo", 200), ("Ana Weir", "ana", 403)):
            self.environment["SITEKIT_AT"] = f"http://127.0.0.1:{port}"
            session = self.path(file)
            self.run_kit("edit", "login", name, "--password-file", str(folder / f"{file}.password"), "--session", session)
            token = json.loads(Path(session).read_text(encoding="utf-8"))["token"]
            cookie = f"SESS={token}"
            self.assertEqual(support.get(port, "/minutes", cookie)[0], may)
            self.assertEqual('href="/minutes"' in support.get(port, "/", cookie)[1], may == 200)
            self.assertEqual(set(support.crawl(port, token).values()), {200})
