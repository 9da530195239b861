"""A running program whose instructions are counted request by request.

The program runs under valgrind's callgrind. Nothing is counted until `begin`, so a large site is read once, fast, and then asked many
things. `instructions` gives what was executed since the last call, once the program has come to rest. Other scripts import this module.
"""
import glob
import os
import re
import select
import shutil
import signal
import socket
import subprocess
import sys
import tempfile
import time

LONGEST = 1_200
"""Seconds that one reply, or one start, may take."""


def bounded(minutes):
    """Ends this script after so many minutes, with its programs and its temporary folders."""

    def end(*_):
        sys.exit(f"{sys.argv[0]}: not done within {minutes} minutes")

    signal.signal(signal.SIGALRM, end)
    signal.signal(signal.SIGTERM, lambda *_: sys.exit(1))
    signal.alarm(int(minutes * 60))


class Counted:
    """A program, under callgrind if its instructions are to be counted. It is a context: the program is killed at its end, and its folder
    removed."""

    def __init__(self, words, counting):
        self.folder, self.words, self.took = tempfile.mkdtemp(prefix="counted-"), words, 0
        if counting:
            words = [
                "valgrind", "--tool=callgrind", "--instr-atstart=no", f"--callgrind-out-file={self.folder}/out",
                f"--vgdb-prefix={self.folder}/vgdb", *words,
            ]
        with open(f"{self.folder}/said", "wb") as said:
            self.process = subprocess.Popen(words, bufsize=0, stdin=subprocess.PIPE, stdout=subprocess.PIPE, stderr=said)

    def __enter__(self):
        return self

    def __exit__(self, *_):
        self.process.kill()
        self.process.wait()
        shutil.rmtree(self.folder, ignore_errors=True)

    def fail(self, why):
        with open(f"{self.folder}/said", encoding="utf-8", errors="replace") as file:
            raise SystemExit(f"{' '.join(self.words)}: {why}; its status {self.process.poll()}\n{file.read()[-2000:]}")

    def tell(self, *command):
        words = ["vgdb", f"--vgdb-prefix={self.folder}/vgdb", f"--pid={self.process.pid}", *command]
        if subprocess.run(words, capture_output=True, timeout=LONGEST).returncode != 0:
            self.fail(f"callgrind didn't do {' '.join(command)}")

    def rest(self):
        """Waits until each thread of the program has slept for a while."""
        last, since, until = None, 0, time.monotonic() + LONGEST
        while time.monotonic() < until:
            now, asleep = 0, True
            for task in glob.glob(f"/proc/{self.process.pid}/task/*/stat"):
                with open(task, encoding="utf-8") as file:
                    fields = file.read().rsplit(") ", 1)[1].split()
                now, asleep = now + int(fields[11]) + int(fields[12]), asleep and fields[0] == "S"
            if not asleep or now != last:
                last, since = now, time.monotonic()
            elif time.monotonic() - since > 0.1:
                return
            time.sleep(0.02)
        self.fail("the program doesn't come to rest")

    def begin(self):
        """From now on instructions are counted."""
        self.rest()
        self.tell("instrumentation", "on")

    def instructions(self):
        """How many instructions the program took since the last call."""
        self.rest()
        self.tell("dump")
        self.took += 1
        with open(f"{self.folder}/out.{self.took}", encoding="utf-8") as file:
            count = int(re.search(r"^totals: (\d+)", file.read(), re.MULTILINE)[1])
        os.remove(f"{self.folder}/out.{self.took}")
        return count

    def memory(self):
        """The bytes that are resident now, and the most that ever were."""
        self.rest()
        with open(f"/proc/{self.process.pid}/status", encoding="utf-8") as file:
            fields = dict(line.split(":", 1) for line in file)
        return [int(fields[name].split()[0]) * 1024 for name in ("VmRSS", "VmHWM")]

    def more(self, device):
        """Some bytes of a device, which doesn't end."""
        if not select.select([device], [], [], LONGEST)[0]:
            self.fail("no reply in time")
        piece = os.read(device.fileno(), 65_536)
        if not piece:
            time.sleep(1)
            self.fail("the replies end")
        return piece

    def reply(self, device):
        """The status and the body of the next reply."""
        got = b""
        while b"\r\n\r\n" not in got:
            got += self.more(device)
        head, _, body = got.partition(b"\r\n\r\n")
        length = int(re.search(rb"Content-Length: (\d+)", head)[1])
        while len(body) < length:
            body += self.more(device)
        return int(head.split(b" ")[1]), body.decode()


class Replayed(Counted):
    """`replay` of a file of rows, which is asked through a pipe."""

    def __init__(self, program, rows, counting=True):
        super().__init__([program, "replay", rows], counting)

    def ask(self, request):
        self.process.stdin.write(request.encode())
        return self.reply(self.process.stdout)


class Served(Counted):
    """`serve` of a store, with one worker, which is asked on one connection. Where that was idle for so long that the server may let it
    go, another one takes its place, and what it costs counts with the next request."""

    IDLE = 30
    """Seconds."""

    def __init__(self, program, store, counting=True):
        with socket.socket() as free:
            free.bind(("127.0.0.1", 0))
            host, port = free.getsockname()
        super().__init__([program, "serve", "--store", store, "--listen", f"{host}:{port}", "--workers", "1"], counting)
        line = self.more(self.process.stdout)
        if not line.startswith(b"listening "):
            self.fail(f"the server said {line!r}")
        self.address = host, port
        self.connect()

    def connect(self):
        self.connection, self.used = socket.create_connection(self.address, LONGEST), time.monotonic()
        self.connection.setsockopt(socket.IPPROTO_TCP, socket.TCP_NODELAY, 1)

    def __exit__(self, *given):
        self.connection.close()
        super().__exit__(*given)

    def ask(self, request):
        if time.monotonic() - self.used > self.IDLE:
            self.connection.close()
            self.connect()
        self.connection.sendall(request.encode())
        reply = self.reply(self.connection)
        self.used = time.monotonic()
        return reply
