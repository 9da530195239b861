"""Stores as files, which SQLite's own library writes and reads as well: what is a store, what is refused, and that it stays as it is."""

from __future__ import annotations

import contextlib
import json
import shutil
import sqlite3
import subprocess
import time
from pathlib import Path
from typing import Iterable

import support
from kit.client import Client

UNREADABLE, UNOPENED = 4, 7
"""The statuses where a store holds what is no row, and where a file is no store."""
HEADER, PAGE = b"SQLite format 3\0", 4_096
JOBS = ("check", "export", "targets", "serve", "import")

CELLS = "CREATE TABLE cell_row (cell TEXT PRIMARY KEY, body TEXT NOT NULL)"
TAGS = "CREATE TABLE cachetags (tag TEXT PRIMARY KEY, invalidations BLOB NOT NULL)"
TABLES = f"{CELLS}; {TAGS}"
COLUMNS = {
    "cachetags": [("tag", "TEXT", 0, None, 1), ("invalidations", "BLOB", 1, None, 0)],
    "cell_row": [("cell", "TEXT", 0, None, 1), ("body", "TEXT", 1, None, 0)],
}
"""Of each table the columns: name, type, whether null is refused, what it is by default, and its place in the key."""

OTHERS = (
    "CREATE TABLE note (id INTEGER PRIMARY KEY)",
    CELLS,
    f"{TAGS}; {CELLS}",
    f"{TABLES}; CREATE TABLE note (id INTEGER PRIMARY KEY)",
    f"{TABLES}; CREATE INDEX by_body ON cell_row (body)",
    f"{TABLES}; CREATE VIEW bodies AS SELECT body FROM cell_row",
    f"CREATE TABLE cell_row (cell TEXT PRIMARY KEY, body TEXT NOT NULL CHECK (body <> '')); {TAGS}",
    f"CREATE TABLE cell_row (cell TEXT PRIMARY KEY, body TEXT); {TAGS}",
    f"{CELLS}; CREATE TABLE cachetags (tag TEXT PRIMARY KEY, invalidations INTEGER NOT NULL)",
    "CREATE TABLE CELL_ROW (cell TEXT, body TEXT NOT NULL, more TEXT)",
)
"""Databases that hold something else than the two tables of a store."""

BROKEN = (
    "INSERT INTO cell_row VALUES ('head', '012')",
    "INSERT INTO cell_row VALUES ('head', '18446744073709551616')",
    "INSERT INTO cell_row VALUES ('head', x'37')",
    """UPDATE cell_row SET body = '{"cell":"seq","node":2,"term":1,"user":2}' WHERE cell = 'site'""",
    """UPDATE cell_row SET body = '{"cell":"seq","node":2,"term":1}' WHERE cell = 'seq'""",
    "UPDATE cell_row SET body = '{' WHERE cell = 'seq'",
    "INSERT INTO cachetags VALUES ('node:1', x'01020304050607')",
    "INSERT INTO cachetags VALUES ('node:01', x'0102030405060708')",
)
"""What makes a site's store one that can't be read: a head that is no number, a body that is no row of its cell, a count that isn't 8 bytes, a
tag that is none."""


def rows_of(text: bytes) -> dict[str, str]:
    """The lines of a file of rows, by their cells."""
    return {json.loads(line)["cell"]: line for line in text.decode().splitlines()}


def count(number: int) -> bytes:
    """A count as a store has it."""
    return number.to_bytes(8, "big")


def held_at(path: str) -> bytes | None:
    """The bytes of the file at a path, if there is one."""
    return Path(path).read_bytes() if Path(path).exists() else None


class Files(support.Case):
    def written(self, name: str, *scripts: str, page: int = PAGE, rows: bytes = b"", more: Iterable[tuple[str, str]] = ()) -> str:
        """A file that SQLite's library wrote: cells and their rows, behind what some scripts say."""
        with contextlib.closing(sqlite3.connect(self.path(name))) as database:
            database.execute(f"PRAGMA page_size = {page}")
            for script in scripts:
                database.executescript(script)
            for cell in [*rows_of(rows).items(), *more]:
                database.execute("INSERT INTO cell_row VALUES (?, ?)", cell)
            database.commit()
        return self.path(name)

    def read(self, path: str) -> tuple[dict[str, str], dict[str, bytes]]:
        """What SQLite's library reads of a store: its cells and its counts. The file has to be whole, and to have just the two tables."""
        with contextlib.closing(sqlite3.connect(path)) as database:
            self.assertEqual(database.execute("PRAGMA integrity_check").fetchall(), [("ok",)])
            made = database.execute("SELECT type, name FROM sqlite_master WHERE sql IS NOT NULL ORDER BY name").fetchall()
            self.assertEqual(made, [("table", table) for table in COLUMNS])
            for table, columns in COLUMNS.items():
                self.assertEqual([it[1:] for it in database.execute(f"PRAGMA table_info({table})")], columns)
            cells = dict(database.execute("SELECT cell, body FROM cell_row").fetchall())
            counts = dict(database.execute("SELECT tag, invalidations FROM cachetags").fetchall())
        self.assertEqual({(type(it), len(it)) for it in counts.values()} | {(bytes, 8)}, {(bytes, 8)})
        return cells, counts

    def copied(self, path: str, name: str, log: bool = True) -> str:
        """A copy of a store, with its log or without it."""
        for it in self.room.glob(f"{name}*"):
            it.unlink()
        shutil.copy(path, self.path(name))
        if log and Path(f"{path}-wal").exists():
            shutil.copy(f"{path}-wal", self.path(f"{name}-wal"))
        return self.path(name)

    def is_site(self, path: str, number: int, rows: bytes) -> None:
        """The program finds a site of these rows in a store, on the state of this number."""
        self.assertEqual(self.run_site("check", "--store", path), f"site ok number {number} rows {len(rows.splitlines())}\n")
        self.assertEqual(self.run_site("export", "--store", path).encode(), rows)

    def refused(self, path: str, jobs: Iterable[str] = JOBS, status: int = UNOPENED) -> None:
        """No job takes what lies at a path: each ends with the status and prints nothing, and the file stays as it is, or isn't made."""
        before = held_at(path)
        for job in jobs:
            where = ["--listen", f"127.0.0.1:{support.free_port()}"] if job == "serve" else []
            done = subprocess.run([support.site(), job, "--store", path, *where], input=support.STARTER, capture_output=True, timeout=support.SECONDS)
            self.assertEqual((done.returncode, done.stdout, done.stderr), (status, b"", b""), f"{job} {path}")
            self.assertTrue(held_at(path) == before, f"{job} changed {path}")

    def test_a_new_site_is_begun_in_a_file(self) -> None:
        """What an import makes is found again by the program and by SQLite's library."""
        store = self.path("begun.db")
        self.assertEqual(self.run_site("import", "--store", store, given=support.STARTER), "imported 8 changed 8\n")
        self.is_site(store, 1, support.STARTER)
        cells, counts = self.read(store)
        self.assertEqual(cells, {**rows_of(support.STARTER), "head": "1"})
        self.assertEqual([counts[tag] for tag in ("node:1", "node_list", "config:system.site")], [count(1)] * 3)
        self.assertEqual(self.run_site("import", "--store", store, given=support.STARTER), "imported 8 changed 0\n")
        self.is_site(store, 1, support.STARTER)
        self.assertEqual(self.read(store), (cells, counts))

    def test_an_edit_is_read_after_a_kill(self) -> None:
        """A server is killed once it has answered an edit: SQLite's library and the program find the edit in the file and its log."""
        before = rows_of(support.STARTER + support.SESSION)
        store = self.imported(self.write("site.rows", support.STARTER + support.SESSION))
        for version, title in enumerate(("A", "B", "C"), start=2):
            with self.served(store) as server:
                told = Client(server.address, "abc").edit("PATCH", "/node/1", {"title": title, "vid": version - 1})
                self.assertEqual((told.number, told.value), (version, {"nid": 1, "vid": version}))
            copy = self.copied(store, "killed.db")
            cells, counts = self.read(copy)
            node = json.loads(cells["node:1"])
            self.assertEqual(node, {**json.loads(before["node:1"]), "title": title, "vid": version, "changed": node["changed"]})
            rows = {**before, "node:1": cells["node:1"]}
            self.assertEqual(cells, {**rows, "head": str(version)})
            self.assertEqual([counts[tag] for tag in ("node:1", "config:system.site")], [count(version), count(1)])
            for path in (copy, store) if title == "C" else (copy,):
                self.is_site(path, version, "".join(f"{line}\n" for line in rows.values()).encode())

    def test_what_sqlite_wrote_is_a_store(self) -> None:
        """A file that SQLite's library wrote is checked, exported, served and edited; without a head its number is 0."""
        self.is_site(self.written("bare.db", TABLES, rows=support.STARTER), 0, support.STARTER)
        rows, counted = support.STARTER + support.SESSION, "INSERT INTO cachetags VALUES ('node:1', x'01020304050607ff')"
        for number, (mode, page) in enumerate((("DELETE", 512), ("DELETE", PAGE), ("WAL", 512), ("WAL", PAGE))):
            store = self.written(f"written-{number}.db", f"PRAGMA journal_mode = {mode}", TABLES, counted, page=page, rows=rows, more=[("head", "7")])
            self.is_site(store, 7, rows)
            with self.served(store) as server:
                client = Client(server.address, "abc")
                page_of_node = client.ask("GET", "/node/1")
                self.assertEqual((page_of_node.status, page_of_node.number), (200, 7))
                self.assertIn(b"<title>First | Site</title>", page_of_node.body)
                self.assertEqual(client.edit("PATCH", "/node/1", {"title": "A", "vid": 1}).number, 8)
            cells, counts = self.read(store)
            self.assertEqual((cells["head"], json.loads(cells["node:1"])["title"], counts["node:1"]), ("8", "A", count(0x0102030405060800)))

    def test_a_store_is_one_programs(self) -> None:
        """While a store is served no other program takes it, and SQLite's library says that it is locked."""
        store = self.imported(self.write("site.rows", support.STARTER))
        with self.served(store) as server:
            self.refused(store)
            with contextlib.closing(sqlite3.connect(store, timeout=0)) as database, self.assertRaisesRegex(sqlite3.OperationalError, "database is locked"):
                database.execute("SELECT cell FROM cell_row").fetchall()
            self.assertEqual(server.get("/node/1")[0], 200)
        self.is_site(store, 1, support.STARTER)

    def test_a_store_that_is_not_there_is_not_made(self) -> None:
        self.refused(self.path("absent.db"), [job for job in JOBS if job != "import"])
        self.refused(self.path("no folder/absent.db"))
        self.assertEqual(list(self.room.iterdir()), [])

    def test_an_empty_file_is_refused(self) -> None:
        """It doesn't stay empty: the header of a database is written into it before it is refused. From then on it stays as it is."""
        for job in JOBS[:1] + JOBS[-1:]:
            path = self.write(f"{job}.db", b"")
            self.assertEqual(self.run_site(job, "--store", path, given=support.STARTER, status=UNOPENED), "")
            self.assertEqual((Path(path).stat().st_size, Path(path).read_bytes()[: len(HEADER)]), (PAGE, HEADER))
            self.refused(path)

    def has_tables(self, path: str) -> bool:
        """Whether a store that another program writes has its tables by now: a copy is looked at."""
        try:
            with contextlib.closing(sqlite3.connect(self.copied(path, "looked-at.db"))) as database:
                return database.execute("SELECT count(*) FROM sqlite_master WHERE type = 'table'").fetchone() == (2,)
        except (OSError, sqlite3.Error):
            return False

    def begun(self, path: str) -> None:
        """A new store without rows, as an import leaves it that is killed while it waits for them: its tables stand in its log."""
        with subprocess.Popen([support.site(), "import", "--store", path], stdin=subprocess.PIPE, stdout=subprocess.DEVNULL) as job:
            end = time.monotonic() + support.SECONDS
            while not self.has_tables(path):
                self.assertLess(time.monotonic(), end)
                time.sleep(0.02)
            job.kill()

    def test_a_file_and_its_log_are_one_store(self) -> None:
        """A file whose log was taken away is refused, and so is a log whose file was. Both together go on."""
        path, left = self.path("begun.db"), self.path("left.db")
        self.begun(path)
        self.refused(self.copied(path, "cut.db", log=False))
        shutil.copy(f"{path}-wal", f"{left}-wal")
        self.refused(left)
        self.assertEqual(self.run_site("import", "--store", path, given=support.STARTER), "imported 8 changed 8\n")
        self.is_site(path, 1, support.STARTER)

    def test_a_log_of_sqlite_is_a_part_of_the_store(self) -> None:
        """What SQLite's library wrote into a log, and not yet into the file, is read; without the log the file is refused."""
        with contextlib.closing(sqlite3.connect(self.path("open.db"))) as database:
            database.execute("PRAGMA journal_mode = WAL")
            database.executescript(TABLES)
            database.executemany("INSERT INTO cell_row VALUES (?, ?)", rows_of(support.STARTER).items())
            database.commit()
            whole, cut = self.copied(self.path("open.db"), "whole.db"), self.copied(self.path("open.db"), "cut.db", log=False)
        self.is_site(whole, 0, support.STARTER)
        self.refused(cut)

    def test_a_part_of_a_file_is_refused(self) -> None:
        """A part of a header, a file of rows, and a store of many pages that was cut: to its first one, in the middle, or before its last one."""
        whole = Path(self.imported(str(support.SAMPLES / "town.rows"))).read_bytes()
        pages = len(whole) // PAGE
        self.assertEqual(len(whole), pages * PAGE)
        self.refused(self.write("text.db", support.STARTER))
        for number, end in enumerate((50, PAGE, pages // 2 * PAGE, len(whole) - PAGE)):
            self.refused(self.write(f"part-{number}.db", whole[:end]))

    def test_other_databases_are_refused(self) -> None:
        for number, script in enumerate(OTHERS):
            self.refused(self.written(f"other-{number}.db", script))
        notes = self.written("notes.db", "CREATE TABLE note (id INTEGER PRIMARY KEY, title TEXT); INSERT INTO note (title) VALUES ('kept')")
        self.refused(notes)
        with contextlib.closing(sqlite3.connect(notes)) as database:
            self.assertEqual(database.execute("SELECT name FROM sqlite_master").fetchall(), [("note",)])
            self.assertEqual(database.execute("SELECT id, title FROM note").fetchall(), [(1, "kept")])

    def test_what_is_no_row_is_a_fault(self) -> None:
        """A store can't be read in which one row, count or head is none. It stays as it is."""
        for number, statement in enumerate(BROKEN):
            store = self.written(f"broken-{number}.db", TABLES, rows=support.STARTER)
            with contextlib.closing(sqlite3.connect(store)) as database:
                database.execute(statement)
                database.commit()
            self.refused(store, status=UNREADABLE)
