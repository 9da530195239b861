"""A process that is stopped for a moment, and always let go on."""

from __future__ import annotations

import os
import signal
import socket
import subprocess
import sys
import time
from pathlib import Path
from typing import Callable, Iterator

from .trouble import Trouble

MOST_SECONDS = 2.0
GUARD = Path(__file__).with_name("guard.py")


def open_files(pid: int) -> Iterator[str]:
    """The files that a process has open, as far as it can be seen."""
    folder = f"/proc/{pid}/fd"
    try:
        names = os.listdir(folder)
    except OSError:
        return
    for name in names:
        try:
            yield os.readlink(f"{folder}/{name}")
        except OSError:
            continue


def holders(path: Path) -> list[int]:
    """The processes that have a file open, as far as they can be seen."""
    real = os.path.realpath(path)
    pids = (int(name) for name in os.listdir("/proc") if name.isdigit())
    return [pid for pid in pids if pid != os.getpid() and real in open_files(pid)]


def _are_all_stopped(pid: int) -> bool:
    """Whether each thread of a process stands still."""
    try:
        for thread in os.listdir(f"/proc/{pid}/task"):
            told = Path(f"/proc/{pid}/task/{thread}/stat").read_text(encoding="utf-8", errors="replace")
            if told.rpartition(")")[2].split()[0] not in ("T", "t"):
                return False
    except FileNotFoundError as fault:
        raise Trouble(f"process {pid} ended") from fault
    return True


def _hurry() -> Callable[[], None]:
    """Lets this process go before others on a busy machine, where it may, and gives what undoes that.

    A rank of real time, which root may take, is before all. A lower nice value counts only among the processes of one session.
    """
    try:
        policy, rank = os.sched_getscheduler(0), os.sched_getparam(0)
        os.sched_setscheduler(0, os.SCHED_RR, os.sched_param(os.sched_get_priority_min(os.SCHED_RR)))
        return lambda: os.sched_setscheduler(0, policy, rank)
    except (AttributeError, OSError):
        pass
    nice = os.getpriority(os.PRIO_PROCESS, 0)
    try:
        os.setpriority(os.PRIO_PROCESS, 0, min(nice, -15))
    except OSError:
        pass
    return lambda: os.setpriority(os.PRIO_PROCESS, 0, nice)


class Pause:
    """Stops a process while a `with` block runs. What the block did counts only if `was_whole` holds after it."""

    def __init__(self, pid: int, most: float = MOST_SECONDS) -> None:
        self._pid, self._most = pid, most
        self.seconds = 0.0
        self.was_whole = False

    def __enter__(self) -> "Pause":
        self._lock = self._alone()
        self._guard = self._guarded()
        self._as_before = _hurry()
        self._begun = time.monotonic()
        try:
            os.kill(self._pid, signal.SIGSTOP)
            self._wait()
        except BaseException as fault:
            self._go_on()
            if isinstance(fault, OSError):
                raise Trouble(f"process {self._pid}: {fault.strerror}") from fault
            raise
        return self

    def __exit__(self, *_: object) -> None:
        self._go_on()

    def _alone(self) -> socket.socket:
        """A lock by the process: two that stop it at once would let each other's copy be written into."""
        lock = socket.socket(socket.AF_UNIX, socket.SOCK_DGRAM)
        try:
            lock.bind(f"\0sitekit-pause-{self._pid}")
        except OSError as fault:
            lock.close()
            raise Trouble(f"process {self._pid} is being stopped by another backup") from fault
        return lock

    def _guarded(self) -> subprocess.Popen[bytes]:
        words = [sys.executable, "-I", "-S", str(GUARD), str(self._pid), str(self._most)]
        guard = subprocess.Popen(words, stdin=subprocess.PIPE, stdout=subprocess.PIPE, start_new_session=True)
        assert guard.stdout is not None
        if guard.stdout.readline() != b"ready\n":
            self._lock.close()
            raise Trouble(f"there is no process {self._pid}, or it may not be stopped")
        return guard

    def _wait(self) -> None:
        while not _are_all_stopped(self._pid):
            if time.monotonic() > self._begun + self._most:
                raise Trouble(f"process {self._pid} didn't stand still within {self._most:g} seconds, so it goes on; --most allows more")
            time.sleep(0.0005)

    def _go_on(self) -> None:
        try:
            os.kill(self._pid, signal.SIGCONT)
        except OSError:
            pass
        self.seconds = time.monotonic() - self._begun
        self._as_before()
        assert self._guard.stdin is not None and self._guard.stdout is not None
        self._guard.stdin.close()
        self.was_whole = self._guard.wait() == 0
        self._guard.stdout.close()
        self._lock.close()
