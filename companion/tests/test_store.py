"""`backup`, `restore` and `export`: what was answered is in the copy, and a stopped server always goes on."""

from __future__ import annotations

import json
import os
import signal
import subprocess
import sys
import threading
import time
import uuid
from pathlib import Path

import support
from kit.client import Client
from kit.pause import GUARD, Pause

BACKUPS = 5
SHORTEST_LOG = 32 + 24 + 512
"""The bytes of the shortest log of SQLite with a page: the log's header, that of a frame, and the smallest page."""
LIMITS = support.COMPANION / "docs" / "limits.md"


class Writer(threading.Thread):
    """Edits one node over and over, and remembers the last version that it was told."""

    def __init__(self, server: support.Server, token: str, node: int) -> None:
        super().__init__(daemon=True)
        self.client, self.node = Client(server.address, token), node
        self.version, self.longest = 1, 0.0
        self.ending = threading.Event()

    def run(self) -> None:
        while not self.ending.is_set():
            begun = time.monotonic()
            reply = self.client.edit("PATCH", f"/node/{self.node}", {"title": f"Version {self.version + 1}", "vid": self.version})
            self.version = reply.value["vid"]
            self.longest = max(self.longest, time.monotonic() - begun)
            time.sleep(0.005)


class Store(support.Case):
    def setUp(self) -> None:
        super().setUp()
        self.store = self.imported(self.new_site())

    def token(self) -> str:
        self.log_in()
        file = next((self.room / "state" / "sitekit").iterdir())
        return json.loads(file.read_text(encoding="utf-8"))["token"]

    def titles(self, copy: str) -> dict[str, str]:
        lines = (self.room / copy / "site.rows").read_text(encoding="utf-8").splitlines()
        return {row["cell"]: row.get("title", "") for row in map(json.loads, lines)}

    def test_one_file_after_a_job(self) -> None:
        """A job that ends by itself leaves no page in the log beside the store: the file alone is the site."""
        log = Path(self.store + "-wal")
        self.assertLess(log.stat().st_size if log.exists() else 0, SHORTEST_LOG)
        alone = self.path("alone.db")
        Path(alone).write_bytes(Path(self.store).read_bytes())
        self.assertEqual(self.run_site("export", "--store", alone), self.run_site("export", "--store", self.store))

    def test_backups_under_load(self) -> None:
        """Each copy is a site, and has every edit that was answered before it was begun."""
        with self.served(self.store) as server:
            token = self.token()
            for _ in range(2):
                Client(server.address, token).edit("POST", "/node", {"title": "Version 1", "type": "page", "uuid": str(uuid.uuid4())})
            writers = [Writer(server, token, node) for node in (2, 3)]
            for writer in writers:
                writer.start()
            for number in range(BACKUPS):
                before = {writer.node: writer.version for writer in writers}
                said = self.run_kit("backup", "--store", self.store, "--pid", str(server.pid), self.path(f"copy-{number}")).stdout
                self.assertIn("the server stood still for", said)
                titles = self.titles(f"copy-{number}")
                for node, version in before.items():
                    self.assertGreaterEqual(int(titles[f"node:{node}"].split()[1]), version)
            for writer in writers:
                writer.ending.set()
                writer.join(support.SECONDS)
                self.assertGreater(writer.version, BACKUPS)
                self.assertLess(writer.longest, support.SECONDS)

    def test_restore_and_export(self) -> None:
        with self.served(self.store) as server:
            self.log_in()
            self.run_kit("edit", "node", "set", "1", "--title", "Kept")
            self.run_kit("backup", "--store", self.store, "--pid", str(server.pid), self.path("copy"))
            self.run_kit("edit", "node", "set", "1", "--title", "Lost")
            self.assertIn("has it open", self.run_kit("restore", self.path("copy"), "--store", self.store, status=1).stderr)
            self.assertIn("with --pid", self.run_kit("export", self.store, status=1).stderr)
            said = self.run_kit("backup", "--store", self.store, self.path("torn"), status=1).stderr
            self.assertIn(f"process {server.pid} has it open: --pid {server.pid}", said)
            self.assertIn('"title":"Lost"', self.run_kit("export", self.store, "--pid", str(server.pid)).stdout)
        self.assertIn('"title":"Lost"', self.run_kit("export", self.store).stdout)
        self.assertIn("--replace", self.run_kit("restore", self.path("copy"), "--store", self.store, status=1).stderr)
        self.run_kit("restore", self.path("copy"), "--store", self.store, "--replace")
        out = self.run_kit("export", self.path("copy")).stdout
        self.assertEqual(out, self.run_site("export", "--store", self.store))
        self.assertIn('"title":"Kept"', out)
        aside = [it.name for it in self.room.iterdir() if ".before-" in it.name]
        self.assertTrue(aside)
        with self.served(self.store) as server:
            self.assertIn("Kept", server.get("/")[1])

    def test_one_file_of_two(self) -> None:
        """The command of docs/limits.md puts all of a store that was killed into one file."""
        with self.served(self.store):
            self.log_in()
            self.run_kit("edit", "node", "set", "1", "--title", "Kept")
        log, command = Path(self.store + "-wal"), "site check --store site.db"
        self.assertGreaterEqual(log.stat().st_size, SHORTEST_LOG)
        self.assertIn(f"\n    {command}\n", LIMITS.read_text(encoding="utf-8"))
        self.run_site(*command.replace("site.db", self.store).split()[1:])
        self.assertLess(log.stat().st_size if log.exists() else 0, SHORTEST_LOG)
        Path(self.path("alone.db")).write_bytes(Path(self.store).read_bytes())
        self.assertIn('"title":"Kept"', self.run_site("export", "--store", self.path("alone.db")))

    def test_a_server_goes_on_where_its_backup_is_ended(self) -> None:
        """deploy/backup is ended by a signal while the server stands still."""
        os.chmod(self.write("tools/cp", "#!/bin/sh\nkill -TERM $PPID\n"), 0o755)
        environment = {**self.environment, "SITE": support.site(), "PATH": f"{self.path('tools')}:{self.environment['PATH']}"}
        with self.served(self.store) as server:
            words = [str(support.DEPLOY / "backup"), self.store, self.path("backups"), str(server.pid)]
            self.assertEqual(subprocess.run(words, env=environment, timeout=support.SECONDS).returncode, 1)
            self.assertEqual(server.get("/")[0], 200)

    def test_a_damaged_backup_is_refused(self) -> None:
        self.run_kit("backup", "--store", self.store, self.path("copy"))
        facts = json.loads((self.room / "copy" / "backup.json").read_text(encoding="utf-8"))
        self.assertEqual((facts["number"], facts["stopped_milliseconds"]), (1, 0))
        self.assertIn("already", self.run_kit("backup", "--store", self.store, self.path("copy"), status=1).stderr)
        for name in facts["files"]:
            file = self.room / "copy" / name
            whole = file.read_bytes()
            file.write_bytes(whole[:-1] + bytes([whole[-1] ^ 1]) if whole else b"x")
            self.assertIn("isn't what was written", self.run_kit("restore", self.path("copy"), "--store", self.path("new.db"), status=1).stderr)
            file.write_bytes(whole)
        self.run_kit("restore", self.path("copy"), "--store", self.path("new.db"))
        self.assertFalse([it for it in self.room.iterdir() if "restoring" in it.name])

    def test_wrong_processes(self) -> None:
        for pid, words in ((str(os.getpid()), "doesn't have"), ("4194304", "no process")):
            said = self.run_kit("backup", "--store", self.store, "--pid", pid, self.path("copy"), status=1).stderr
            self.assertIn(words, said)
        self.assertFalse((self.room / "copy").exists())
        self.run_kit("backup", "--store", self.path("none.db"), self.path("copy"), status=1)

    def state(self, pid: int) -> str:
        return Path(f"/proc/{pid}/stat").read_text(encoding="utf-8").rpartition(")")[2].split()[0]

    def test_what_stopped_it_may_be_killed(self) -> None:
        """The guard lets the process go on where the one that stopped it was killed, and where it takes too long."""
        sleeper = subprocess.Popen(["sleep", "60"])
        self.addCleanup(sleeper.wait)
        self.addCleanup(sleeper.kill)
        holder = (
            "import sys, time; sys.path.insert(0, sys.argv[1]); from kit.pause import Pause\n"
            "with Pause(int(sys.argv[2]), float(sys.argv[3])) as it:\n print('stopped', flush=True)\n time.sleep(float(sys.argv[4]))\n"
            "print(it.was_whole)"
        )
        for most, sleeps, is_killed in (("30", "30", True), ("2", "4", False)):
            words = [sys.executable, "-c", holder, str(support.COMPANION), str(sleeper.pid), most, sleeps]
            with subprocess.Popen(words, stdout=subprocess.PIPE, text=True, start_new_session=True) as stopper:
                assert stopper.stdout is not None
                self.assertEqual(stopper.stdout.readline(), "stopped\n")
                self.assertEqual(self.state(sleeper.pid), "T")
                if is_killed:
                    os.killpg(stopper.pid, signal.SIGKILL)
                end = time.monotonic() + support.SECONDS
                while self.state(sleeper.pid) == "T" and time.monotonic() < end:
                    time.sleep(0.01)
                self.assertNotEqual(self.state(sleeper.pid), "T")
                if not is_killed:
                    self.assertEqual(stopper.stdout.read(), "False\n")

    def test_it_goes_before_others_while_it_stops_one(self) -> None:
        """Where real time is allowed, it has that rank while the process stands still, and its own again afterwards."""
        sleeper = subprocess.Popen(["sleep", "60"])
        self.addCleanup(sleeper.wait)
        self.addCleanup(sleeper.kill)
        is_allowed = subprocess.run([sys.executable, "-c", "import os; os.sched_setscheduler(0, os.SCHED_RR, os.sched_param(1))"], stderr=subprocess.DEVNULL)
        rank = lambda: (os.sched_getscheduler(0), os.sched_getparam(0).sched_priority, os.getpriority(os.PRIO_PROCESS, 0))
        before = rank()
        with Pause(sleeper.pid, support.SECONDS):
            self.assertEqual(rank()[0], os.SCHED_RR if is_allowed.returncode == 0 else before[0])
        self.assertEqual(rank(), before)
        with self.assertRaises(ZeroDivisionError), Pause(sleeper.pid, support.SECONDS):
            raise ZeroDivisionError
        self.assertEqual(rank(), before)
        self.assertNotEqual(self.state(sleeper.pid), "T")

    def test_the_guard_ends_in_time(self) -> None:
        sleeper = subprocess.Popen(["sleep", "60"])
        self.addCleanup(sleeper.wait)
        self.addCleanup(sleeper.kill)
        done = subprocess.run([sys.executable, str(GUARD), str(sleeper.pid), "5"], stdin=subprocess.DEVNULL, capture_output=True, timeout=support.SECONDS)
        self.assertEqual((done.returncode, done.stdout), (0, b"ready\n"))
