"""Lets a stopped process go on, whatever becomes of the one that stopped it.

    guard.py PID SECONDS

It says `ready`, waits until its input ends or so many seconds have passed, and sends SIGCONT. Its status is 0 where the input
ended in time, else 1. It is a process of its own, in a session of its own, so that what ends its parent doesn't end it.
"""

import errno
import os
import select
import signal
import sys


def handle_of(pid):
    """A handle of the process, which no later one of the same number takes over; none where the system or Python has no such thing."""
    try:
        return os.pidfd_open(pid)
    except AttributeError:
        return None
    except OSError as fault:
        if fault.errno != errno.ENOSYS:
            raise
        return None


def let_go_on(pid, handle):
    """Sends the process SIGCONT, if it is still there."""
    try:
        if handle is None:
            os.kill(pid, signal.SIGCONT)
        else:
            signal.pidfd_send_signal(handle, signal.SIGCONT)
    except ProcessLookupError:
        pass


def hurry():
    """Goes before all other processes, where it may, that of who stopped it too: it sleeps, and then has little to do."""
    try:
        os.sched_setscheduler(0, os.SCHED_RR, os.sched_param(os.sched_get_priority_min(os.SCHED_RR) + 1))
    except (AttributeError, OSError):
        pass


def main() -> int:
    """Waits, and lets the process go on."""
    for number in (signal.SIGINT, signal.SIGTERM, signal.SIGHUP):
        signal.signal(number, signal.SIG_IGN)
    pid, seconds = int(sys.argv[1]), float(sys.argv[2])
    handle = handle_of(pid)
    hurry()
    os.write(1, b"ready\n")
    in_time = bool(select.select([0], [], [], seconds)[0])
    let_go_on(pid, handle)
    return 0 if in_time else 1


if __name__ == "__main__":
    sys.exit(main())
