#!/usr/bin/env python3
"""Many clients read and edit one served site at once, and what they were told is held against what is stored.

    bench/clients.py PROGRAM [--clients 16] [--edits 10000] [--reads 100000] [--rows samples/town.rows]

It imports the rows, with a session of user 1 and one node for each client, into a new store, serves it on loopback, and lets
the clients run. Each edits a node of its own and reads pages in between, on connections that it keeps. Then it kills the
server with SIGKILL, exports the store and checks: every reply carried a number; on no connection did a number fall; the
numbers of the accepted edits are those after the import's, each once, none left out; each node is stored with its last title.
"""
import argparse
import hashlib
import json
import multiprocessing
import os
import random
import signal
import socket
import subprocess
import sys
import tempfile
import time

TOKEN = "bench"
GUARD = hashlib.sha256(TOKEN.encode()).hexdigest()[:32]
HERE = os.path.dirname(os.path.realpath(__file__))


class Connection:
    """A kept connection to the server: it is opened again where the server closed it."""

    def __init__(self, address):
        self.address, self.socket, self.number = address, None, 0

    def ask(self, request):
        """Sends one request, and gives the status, the number and the body of its reply."""
        if self.socket is None:
            self.socket, self.rest, self.number = socket.create_connection(self.address, 60), b"", 0
            self.socket.setsockopt(socket.IPPROTO_TCP, socket.TCP_NODELAY, 1)
        self.socket.sendall(request)
        while b"\r\n\r\n" not in self.rest:
            self.more()
        head, self.rest = self.rest.split(b"\r\n\r\n", 1)
        lines = head.decode().split("\r\n")
        fields = dict(line.split(": ", 1) for line in lines[1:])
        length = int(fields["Content-Length"])
        while len(self.rest) < length:
            self.more()
        body, self.rest = self.rest[:length], self.rest[length:]
        number = int(fields["X-Site-State"])
        if number < self.number:
            raise SystemExit(f"the number fell from {self.number} to {number} on one connection")
        self.number = number
        if fields.get("Connection") == "close":
            self.socket.close()
            self.socket = None
        return int(lines[0].split(" ")[1]), number, body

    def more(self):
        piece = self.socket.recv(65536)
        if not piece:
            raise SystemExit("the server ended a connection within a reply")
        self.rest += piece


def edit(node, title, vid):
    body = json.dumps({"title": title, "vid": vid}, separators=(",", ":"), sort_keys=True).encode()
    head = (
        f"PATCH /node/{node} HTTP/1.1\r\nHost: a\r\nCookie: SESS={TOKEN}\r\nX-CSRF-Token: {GUARD}\r\n"
        f"Content-Type: application/json\r\nContent-Length: {len(body)}\r\n\r\n"
    )
    return head.encode() + body


def client(address, node, edits, reads, paths, seed, told):
    chance, connection, numbers, vid, title = random.Random(seed), Connection(address), [], 1, None
    turns = [True] * edits + [False] * reads
    chance.shuffle(turns)
    for is_edit in turns:
        if is_edit:
            title = f"edit {vid} of {node}"
            status, number, body = connection.ask(edit(node, title, vid))
            if status != 200 or json.loads(body) != {"nid": node, "vid": vid + 1}:
                raise SystemExit(f"an edit was answered {status} {body!r}")
            numbers.append(number)
            vid += 1
        else:
            cookie = f"Cookie: SESS={TOKEN}\r\n" if chance.random() < 0.3 else ""
            path = chance.choice(paths)
            status, number, body = connection.ask(f"GET {path} HTTP/1.1\r\nHost: a\r\n{cookie}\r\n".encode())
            if status not in (200, 403):
                raise SystemExit(f"{path} was answered {status}")
    told.put((node, vid, title, numbers))


def rows_for(rows, clients):
    """The rows of a file with a session, and a node for each client; and the numbers of these nodes."""
    lines = [json.loads(line) for line in open(rows, encoding="utf-8")]
    some = next(row for row in lines if row["cell"].startswith("node:") and row["status"])
    seq = next(row for row in lines if row["cell"] == "seq")
    first, nodes = seq["node"], []
    for at in range(clients):
        node = dict(some, cell=f"node:{first + at}", uuid=f"client-{at}", vid=1, title="none yet", uid=1, path=None, refs=[], grants=[])
        nodes.append(first + at)
        lines.append(node)
    seq["node"] = first + clients
    lines.append({"cell": f"session:{TOKEN}", "expires": 4_000_000_000, "uid": 1})
    return "".join(json.dumps(row, separators=(",", ":"), sort_keys=True, ensure_ascii=False) + "\n" for row in lines), nodes


def serve(program, store, workers, limit=None, more=()):
    """Starts the server on a free port, with these words more, and waits until it listens."""
    with socket.socket() as free:
        free.bind(("127.0.0.1", 0))
        address = free.getsockname()
    words = [program, "serve", "--store", store, "--listen", f"{address[0]}:{address[1]}", "--workers", str(workers)]
    server = subprocess.Popen([*words, *(["--limit", str(limit)] if limit else []), *more], stdout=subprocess.PIPE)
    line = server.stdout.readline()
    if not line.startswith(b"listening "):
        raise SystemExit(f"the server said {line!r}")
    return server, address


def main():
    given = argparse.ArgumentParser(description=__doc__, formatter_class=argparse.RawDescriptionHelpFormatter)
    given.add_argument("program")
    given.add_argument("--clients", type=int, default=16)
    given.add_argument("--edits", type=int, default=10_000)
    given.add_argument("--reads", type=int, default=100_000)
    given.add_argument("--rows", default=f"{HERE}/../samples/town.rows")
    given = given.parse_args()
    with tempfile.TemporaryDirectory() as room:
        store = f"{room}/site.db"
        rows, nodes = rows_for(given.rows, given.clients)
        subprocess.run([given.program, "import", "--store", store], input=rows.encode(), check=True, stdout=subprocess.DEVNULL)
        server, address = serve(given.program, store, min(given.clients, 16))
        paths = ["/", "/user/login"] + [f"/node/{node}" for node in nodes]
        told, begun = multiprocessing.Queue(), time.time()
        share = lambda whole, at: whole // given.clients + (at < whole % given.clients)
        running = [
            multiprocessing.Process(target=client, args=(address, node, share(given.edits, at), share(given.reads, at), paths, at, told))
            for at, node in enumerate(nodes)
        ]
        for it in running:
            it.start()
        done = []
        while len(done) < len(running):
            try:
                done.append(told.get(timeout=1))
            except Exception:
                if any(it.exitcode for it in running):
                    server.kill()
                    raise SystemExit("a client failed")
        for it in running:
            it.join()
        seconds = time.time() - begun
        os.kill(server.pid, signal.SIGKILL)
        server.wait()
        out = subprocess.run([given.program, "export", "--store", store], check=True, capture_output=True).stdout
        stored = {row["cell"]: row for row in map(json.loads, out.decode().splitlines())}
        numbers = sorted(number for _, _, _, numbers in done for number in numbers)
        wrong = [] if numbers == [*range(2, 2 + given.edits)] else ["the numbers of the edits are not those of the log"]
        for node, vid, title, _ in done:
            row = stored[f"node:{node}"]
            if row["vid"] != vid or (title is not None and row["title"] != title):
                wrong.append(f"node {node} is stored with version {row['vid']} and title {row['title']!r}, wanted {vid} and {title!r}")
        for it in wrong:
            print(it)
        print(f"{given.clients} clients, {given.edits} edits, {given.reads} reads in {seconds:.1f} s: {'all as told' if not wrong else 'NOT as told'}")
        sys.exit(1 if wrong else 0)


if __name__ == "__main__":
    main()
