"""`backup`, `restore` and `export`: copies of a store, also while it is served."""

from __future__ import annotations

import argparse
import errno
import fcntl
import hashlib
import json
import os
import re
import shutil
import tempfile
import time
from contextlib import nullcontext
from dataclasses import dataclass
from pathlib import Path
from typing import Any, ContextManager, Optional

from . import program
from .edit_config import COPY_FACTS
from .outputs import give, step, tell
from .pause import MOST_SECONDS, Pause, holders, open_files
from .rowfile import COPY_ROWS
from .trouble import Trouble

COPY_STORE = "site.db"
PARTS = ("", "-wal", "-journal")
PIECE = 64 * 1024 * 1024
CLONE = 0x40049409
"""The request of Linux that lets one file share the bytes of another, on file systems that can."""


def part_of(store: Path, part: str) -> Path:
    """One of the files of a store: the database itself, or what lies beside it."""
    return store.with_name(store.name + part)


def files_of(store: Path) -> list[str]:
    """The parts of a store that are there."""
    return [part for part in PARTS if part_of(store, part).is_file()]


def _read_ahead(path: Path) -> None:
    """Reads a file once, so that copying it finds it in memory."""
    with open(path, "rb", buffering=0) as file:
        while file.read(4 * 1024 * 1024):
            pass


def _copy(source: Path, target: Path) -> None:
    """Copies a file: by sharing its bytes where the file system can, else by the kernel."""
    with open(source, "rb", buffering=0) as old, open(target, "wb", buffering=0, opener=_for_me_alone) as new:
        try:
            fcntl.ioctl(new.fileno(), CLONE, old.fileno())
            return
        except OSError as fault:
            if fault.errno not in (errno.EOPNOTSUPP, errno.EXDEV, errno.EINVAL, errno.ENOTTY, errno.ENOSYS, errno.EPERM):
                raise
        _copy_bytes(old.fileno(), new.fileno())


def _copy_bytes(old: int, new: int) -> None:
    try:
        while os.copy_file_range(old, new, PIECE):
            pass
        return
    except OSError as fault:
        if fault.errno not in (errno.EXDEV, errno.EINVAL, errno.ENOSYS, errno.EOPNOTSUPP):
            raise
    while True:
        piece = os.read(old, 1024 * 1024)
        if not piece:
            return
        while piece:
            piece = piece[os.write(new, piece) :]


def _for_me_alone(name: str, flags: int) -> int:
    return os.open(name, flags, 0o600)


def _sync(path: Path) -> None:
    """Waits until a file or a folder is on the disk."""
    handle = os.open(path, os.O_RDONLY)
    try:
        os.fsync(handle)
    finally:
        os.close(handle)


@dataclass(frozen=True)
class Stamp:
    """By what it is told whether a file was written to: its size, when it was written last, and which file it is."""

    size: int
    written: int
    inode: int

    @classmethod
    def of(cls, path: Path) -> "Stamp":
        """The stamp of a file as it is."""
        told = path.stat()
        return cls(told.st_size, told.st_mtime_ns, told.st_ino)

    @property
    def is_old(self) -> bool:
        """Whether the last write is so long ago that one more would have another time."""
        return time.time_ns() - self.written > 1_000_000_000


def copy_store(store: Path, target: Path, pid: Optional[int], most: float) -> float:
    """Copies a store's files, and gives the seconds that the process was stopped for; the copy is as a kill would leave them.

    What of the database wasn't written to in between was copied before the process is stopped.
    """
    if not store.is_file():
        raise Trouble(f"{store}: there is no such store")
    if pid is not None:
        _check_process(store, pid)
    else:
        _check_unused(store, "--pid {} names it, and it is stopped for the copy")
    early: dict[str, Stamp] = {}
    if pid is not None:
        for part in files_of(store):
            early[part] = Stamp.of(part_of(store, part))
            _copy(part_of(store, part), part_of(target, part)) if early[part].is_old else _read_ahead(part_of(store, part))
    pause: ContextManager[Optional[Pause]] = nullcontext() if pid is None else Pause(pid, most)
    with pause as stopped:
        parts = files_of(store)
        for part in parts:
            source, copy = part_of(store, part), part_of(target, part)
            if not (copy.exists() and part in early and early[part].is_old and early[part] == Stamp.of(source)):
                copy.unlink(missing_ok=True)
                _copy(source, copy)
    for part in set(early) - set(parts):
        part_of(target, part).unlink(missing_ok=True)
    if stopped is not None and not stopped.was_whole:
        raise Trouble(f"copying took longer than {most:g} seconds, so the process was let go on before its end; --most allows more")
    return stopped.seconds if stopped is not None else 0.0


def _check_process(store: Path, pid: int) -> None:
    """Looks whether a process has the store open, where that can be seen."""
    if not os.path.isdir(f"/proc/{pid}"):
        raise Trouble(f"there is no process {pid}")
    files = list(open_files(pid))
    if files and os.path.realpath(store) not in files:
        raise Trouble(f"process {pid} doesn't have {store} open; it isn't the server of this store")


def _check_unused(store: Path, hint: str) -> None:
    """Looks whether a process has one of the store's files open, as far as it can be seen."""
    for part in PARTS:
        for pid in holders(part_of(store, part)):
            raise Trouble(f"{store}: process {pid} has it open: {hint.format(pid)}")


def checked(site: str, store: Path) -> tuple[int, int]:
    """The number and the rows that the program tells of a store that is a site."""
    said = program.run(site, "check", "--store", str(store)).decode()
    told = re.fullmatch(r"site ok number (\d+) rows (\d+)\n", said)
    if not told:
        raise Trouble(f"site check said {said!r}")
    return int(told[1]), int(told[2])


def _sum(path: Path) -> str:
    digest = hashlib.sha256()
    with open(path, "rb") as file:
        for piece in iter(lambda: file.read(1024 * 1024), b""):
            digest.update(piece)
    return digest.hexdigest()


def backup(site: str, store: Path, pid: Optional[int], to: Path, most: float = MOST_SECONDS) -> dict[str, Any]:
    """Makes a backup: a folder with the store's files, its rows, and what is known of them. It is there whole or not at all."""
    if to.exists() and (not to.is_dir() or any(to.iterdir())):
        raise Trouble(f"{to}: it is there already; a backup is a new folder")
    to.parent.mkdir(parents=True, exist_ok=True)
    part = Path(tempfile.mkdtemp(prefix=f".{to.name}.", dir=to.parent))
    try:
        copy = part / COPY_STORE
        seconds = copy_store(store, copy, pid, most)
        step(f"copied in {seconds * 1000:.0f} ms of standing still; now it is checked and exported")
        number, rows = checked(site, copy)
        (part / COPY_ROWS).write_bytes(program.run(site, "export", "--store", str(copy)))
        names = [it.name for it in sorted(part.iterdir())]
        step("now the sums of its files are taken, and all is written to the disk")
        facts = {
            "files": {name: {"bytes": (part / name).stat().st_size, "sha256": _sum(part / name)} for name in names},
            "made": time.strftime("%Y-%m-%dT%H:%M:%SZ", time.gmtime()),
            "number": number,
            "rows": rows,
            "stopped_milliseconds": round(seconds * 1000, 1),
            "store": str(store),
        }
        (part / COPY_FACTS).write_text(json.dumps(facts, indent=2) + "\n", encoding="utf-8")
        for it in part.iterdir():
            os.chmod(it, 0o600)
            _sync(it)
        _sync(part)
        if to.exists():
            to.rmdir()
        part.rename(to)
        _sync(to.parent)
        return facts
    except BaseException:
        shutil.rmtree(part, ignore_errors=True)
        raise


def facts_of(copy: Path) -> dict[str, Any]:
    """What is known of a backup, after its files were held against their sums."""
    try:
        facts = json.loads((copy / COPY_FACTS).read_text(encoding="utf-8"))
        files = facts["files"]
    except (OSError, ValueError, KeyError) as fault:
        raise Trouble(f"{copy}: this is no backup: {fault}") from fault
    for name, told in files.items():
        if not (copy / name).is_file() or _sum(copy / name) != told["sha256"]:
            raise Trouble(f"{copy / name}: it isn't what was written when the backup was made")
    return facts


def restore(site: str, copy: Path, store: Path, may_replace: bool) -> dict[str, Any]:
    """Makes a store of a backup. One that is there is moved aside first, where it may be."""
    facts = facts_of(copy)
    _check_unused(store, "stop it first")
    if files_of(store) and not may_replace:
        raise Trouble(f"{store}: it is there already; --replace moves it aside first")
    new = store.with_name(store.name + ".restoring")
    try:
        for part in files_of(copy / COPY_STORE):
            _copy(part_of(copy / COPY_STORE, part), part_of(new, part))
            _sync(part_of(new, part))
        number, _ = checked(site, new)
        if number != facts["number"]:
            raise Trouble(f"{copy}: its state is {number}, and {facts['number']} was written down")
        if files_of(store):
            _move_aside(store)
        for part in reversed(files_of(new)):
            part_of(new, part).rename(part_of(store, part))
        _sync(store.resolve().parent)
    finally:
        for part in PARTS:
            part_of(new, part).unlink(missing_ok=True)
    return facts


def _move_aside(store: Path) -> None:
    stamp = time.strftime("%Y%m%d-%H%M%S")
    aside = store.with_name(f"{store.name}.before-{stamp}")
    if files_of(aside):
        raise Trouble(f"{aside}: it is there already")
    for part in files_of(store):
        part_of(store, part).rename(part_of(aside, part))
    tell(f"the store that was there is {aside} now")


def run_backup(given: argparse.Namespace) -> int:
    """Makes a backup, and tells of it."""
    facts = backup(program.found(given.program), Path(given.store), given.pid, Path(given.to), given.most)
    paused = f", the server stood still for {facts['stopped_milliseconds']} ms" if given.pid is not None else ""
    print(f"{given.to}: state {facts['number']}, {facts['rows']} rows{paused}")
    return 0


def run_restore(given: argparse.Namespace) -> int:
    """Makes a store of a backup, and tells of it."""
    facts = restore(program.found(given.program), Path(given.copy), Path(given.store), given.replace)
    print(f"{given.store}: state {facts['number']}, {facts['rows']} rows, as of {facts['made']}")
    return 0


def run_export(given: argparse.Namespace) -> int:
    """Writes the rows of a backup or of a store."""
    source = Path(given.source)
    if source.is_dir():
        facts_of(source)
        rows = (source / COPY_ROWS).read_bytes()
    elif given.pid is None:
        rows = program.run(program.found(given.program), "export", "--store", str(source))
    else:
        with tempfile.TemporaryDirectory(dir=source.resolve().parent) as room:
            copy = Path(room) / COPY_STORE
            copy_store(source, copy, given.pid, given.most)
            rows = program.run(program.found(given.program), "export", "--store", str(copy))
    give(rows.decode(), given.out)
    return 0


def _add_pid(it: argparse.ArgumentParser) -> None:
    it.add_argument("--pid", type=int, metavar="N", help="the process that serves it, which is stopped for the copy and always let go on")
    most = os.environ.get("SITEKIT_MOST", f"{MOST_SECONDS:g}")
    words = f"how long it may be stopped, more on a busy machine (default: {MOST_SECONDS:g}, or SITEKIT_MOST)"
    it.add_argument("--most", type=float, default=most, metavar="SECONDS", help=words)


def add_to(commands: Any) -> None:
    """Adds the subcommands."""
    it = commands.add_parser(
        "backup",
        help="copy a store, also while it is served",
        description="Copies a store into a new folder, checks the copy and exports its rows. While it is served, name the server's "
        "process: it is stopped for the copy, mostly some milliseconds, and always let go on. Every edit that was answered before is in "
        "the copy.",
    )
    it.add_argument("--store", required=True, metavar="PATH")
    _add_pid(it)
    it.add_argument("to", metavar="TO", help="the folder to make")
    program.add_option(it)
    it.set_defaults(run=run_backup)
    it = commands.add_parser(
        "restore", help="make a store of a backup", description="Makes a store of a backup, after holding its files against their sums."
    )
    it.add_argument("copy", metavar="BACKUP", help="the folder")
    it.add_argument("--store", required=True, metavar="PATH")
    it.add_argument("--replace", action="store_true", help="move a store that is there aside first")
    program.add_option(it)
    it.set_defaults(run=run_restore)
    it = commands.add_parser(
        "export",
        help="write the rows of a backup, or of a store",
        description="Writes the rows of a backup, or of a store; while a store is served, name the server's process.",
    )
    it.add_argument("source", metavar="BACKUP|STORE")
    _add_pid(it)
    it.add_argument("-o", "--out", metavar="ROWS", help="the file to write (default: the output)")
    program.add_option(it)
    it.set_defaults(run=run_export)
