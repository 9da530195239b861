"""Kept connections whose replies are read whole, those sent late among them, and what pages have to show on the state that they tell."""
import bisect
import collections
import hashlib
import json
import random
import re
import resource
import selectors
import socket
import time

TOKEN = "bench"
GUARD = hashlib.sha256(TOKEN.encode()).hexdigest()[:32]
COOKIE = f"Cookie: SESS={TOKEN}\r\n"
Reply = collections.namedtuple("Reply", "status number fields body")
TITLE = re.compile(rb"edit (\d+) of (\d+)")


class Fault(Exception):
    """A reply that must not come."""


class Gone(Exception):
    """The server ended a connection."""


class Peer:
    """A connection that is kept: numbers on it must not fall."""

    def __init__(self, address, wait=60):
        self.address, self.wait, self.socket, self.number, self.rest = address, wait, None, 0, b""

    def send(self, request):
        if self.socket is None:
            self.socket, self.rest, self.number = socket.create_connection(self.address, self.wait), b"", 0
            self.socket.setsockopt(socket.IPPROTO_TCP, socket.TCP_NODELAY, 1)
        self.socket.sendall(request)

    def more(self):
        piece = self.socket.recv(65536)
        if not piece:
            raise Gone("the server ended a connection within a reply")
        self.rest += piece

    def reply(self):
        """The next reply, to its end."""
        while b"\r\n\r\n" not in self.rest:
            self.more()
        head, self.rest = self.rest.split(b"\r\n\r\n", 1)
        lines = head.decode().split("\r\n")
        fields = dict(line.split(": ", 1) for line in lines[1:])
        if "Content-Length" in fields:
            length = int(fields["Content-Length"])
            while len(self.rest) < length:
                self.more()
            body, self.rest = self.rest[:length], self.rest[length:]
        else:
            body = self.to_the_end()
        number = int(fields["X-Site-State"]) if "X-Site-State" in fields else None
        if number is not None:
            if number < self.number:
                raise Fault(f"the number fell from {self.number} to {number} on one connection")
            self.number = number
        if fields.get("Connection") == "close":
            self.close()
        return Reply(int(lines[0].split(" ")[1]), number, fields, body)

    def to_the_end(self):
        """What comes until the server closes."""
        pieces = [self.rest]
        while piece := self.socket.recv(65536):
            pieces.append(piece)
        self.rest = b""
        return b"".join(pieces)

    def ask(self, request):
        self.send(request)
        return self.reply()

    def close(self):
        if self.socket is not None:
            self.socket.close()
            self.socket = None


def get(path, fields=""):
    return f"GET {path} HTTP/1.1\r\nHost: a\r\n{fields}\r\n".encode()


def edit_parts(node, title, vid):
    """The head and the body of an edit of a node's title."""
    body = json.dumps({"title": title, "vid": vid}, separators=(",", ":"), sort_keys=True).encode()
    head = (
        f"PATCH /node/{node} HTTP/1.1\r\nHost: a\r\n{COOKIE}X-CSRF-Token: {GUARD}\r\n"
        f"Content-Type: application/json\r\nContent-Length: {len(body)}\r\n\r\n"
    )
    return head.encode(), body


def edit(node, title, vid):
    return b"".join(edit_parts(node, title, vid))


def rows_for(rows, clients):
    """The rows of a file with a session, and a node for each client, that show no title of an edit yet; and the numbers of these nodes."""
    with open(rows, encoding="utf-8") as file:
        lines = [json.loads(line) for line in file]
    some = next(row for row in lines if row["cell"].startswith("node:") and row["status"])
    seq = next(row for row in lines if row["cell"] == "seq")
    first, nodes = seq["node"], []
    for at in range(clients):
        lines.append(dict(some, cell=f"node:{first + at}", uuid=f"client-{at}", vid=1, title="none yet", uid=1, path=None, refs=[], grants=[]))
        nodes.append(first + at)
    seq["node"] = first + clients
    lines.append({"cell": f"session:{TOKEN}", "expires": 4_000_000_000, "uid": 1})
    return lines, nodes


def put_together(text):
    """The page that a late one stands for: each part in its place, without the templates."""
    end, template = b"</body></html>", b'<template data-late="'
    if not text.endswith(end):
        raise Gone(f"a late page has no end: {text[-200:]!r}")
    page, found, rest = text[: -len(end)].partition(template)
    rest = found + rest
    places = re.findall(rb'<div data-late="(\d+)"></div>', page)
    for at, place in enumerate(places):
        part = re.match(rb'<template data-late="(\d+)" data-library="([^"]*)">(.*?)</template>', rest, re.S)
        if int(place) != at or part is None or int(part[1]) != at:
            raise Fault(f"part {at} of a late page isn't there: {rest[:200]!r}")
        page = page.replace(b'<div data-late="%d"></div>' % at, part[3])
        rest = rest[part.end():]
        for library in part[2].split():
            line = b'<meta name="library" content="%s">' % library
            if line not in page:
                page = page.replace(b"</head>", line + b"</head>", 1)
    if rest:
        raise Fault(f"a late page has more than its parts: {rest[:200]!r}")
    return page + end


def same_page(one, other):
    """Whether two pages are the same but for the order of their lines of libraries, and for what a clock shows."""
    library = re.compile(rb'<meta name="library" content="[^"]*">')
    plain = lambda text: re.sub(rb"<time[^>]*>[^<]*</time>", b"<time>", library.sub(b"", text))
    return plain(one) == plain(other) and sorted(library.findall(one)) == sorted(library.findall(other))


def hold(address, kinds, ready, stop):
    """Holds peers: of each kind how many, its request, and how it acts. Comes back for each that is let go, at most 200 a round.

    `stays` asks once, `drips` sends a byte of a head now and then and never the last, `sips` takes 8 KB every few seconds, `deaf` nothing.
    """
    resource.setrlimit(resource.RLIMIT_NOFILE, (resource.getrlimit(resource.RLIMIT_NOFILE)[1],) * 2)
    watch, held, left, closed = selectors.DefaultSelector(), {}, {}, {kind: 0 for kind in kinds}

    def come(kind):
        count, request, act = kinds[kind]
        try:
            it = socket.socket()
            if act in ("sips", "deaf"):
                it.setsockopt(socket.SOL_SOCKET, socket.SO_RCVBUF, 4096)
            it.settimeout(5)
            it.connect(address)
            it.sendall(request[:1] if act == "drips" else request)
            it.setblocking(False)
        except OSError:
            left[kind] = left.get(kind, 0) + 1
            return
        held[it] = [kind, 1, time.time() + random.uniform(0.5, 3) if act != "stays" else float("inf")]
        if act in ("stays", "drips"):
            watch.register(it, selectors.EVENT_READ)

    def go(it):
        kind = held.pop(it)[0]
        if kinds[kind][2] in ("stays", "drips"):
            watch.unregister(it)
        it.close()
        closed[kind] += 1
        left[kind] = left.get(kind, 0) + 1

    for kind, (count, _, _) in kinds.items():
        for _ in range(count):
            come(kind)
    ready.put("ready")
    while not stop.is_set():
        for key, _ in watch.select(0.05):
            try:
                if not key.fileobj.recv(65536):
                    go(key.fileobj)
            except BlockingIOError:
                pass
            except OSError:
                go(key.fileobj)
        now = time.time()
        for it, (kind, sent, _) in [one for one in held.items() if one[1][2] <= now]:
            held[it][2] = now + random.uniform(1, 3)
            _, request, act = kinds[kind]
            try:
                if act == "drips":
                    # the last byte never comes
                    it.send(request[sent: sent + 1] if sent < len(request) - 1 else b"")
                    held[it][1] = sent + 1
                elif act == "sips" and not it.recv(8192):
                    go(it)
                elif act == "deaf":
                    it.send(b"G")
            except BlockingIOError:
                pass
            except OSError:
                go(it)
        for kind in list(left):
            count, left[kind] = left[kind], 0
            for _ in range(min(count, 200)):
                come(kind)
            left[kind] += max(0, count - 200)
    ready.put(closed)


class Log:
    """Which title each node had from which number on."""

    def __init__(self, nodes, edits):
        self.titles = {node: ([0], [0]) for node in nodes}
        for number, node, count in sorted(edits):
            numbers, counts = self.titles[node]
            numbers.append(number)
            counts.append(count)

    def at(self, node, number):
        numbers, counts = self.titles[node]
        return counts[bisect.bisect_right(numbers, number) - 1]

    def next_number(self, node, number):
        """The number of the first edit of a node behind this one, or none."""
        numbers, _ = self.titles[node]
        at = bisect.bisect_right(numbers, number)
        return numbers[at] if at < len(numbers) else None


def shown(body):
    """Which edit's title of each node stands on a page."""
    return {int(node): int(count) for count, node in TITLE.findall(body)}


def part_of(took, part):
    """The one that this part of all is no greater than; 0 where there is none."""
    return took[min(len(took) - 1, int(len(took) * part))] if took else 0.0


def told(took):
    took = sorted(took)
    return f"{len(took)} times, median {part_of(took, 0.5):.2f} ms, 99th percentile {part_of(took, 0.99):.2f} ms, greatest {took[-1] if took else 0:.2f} ms"


def timed(action, *words):
    """What an action gives, and how many milliseconds it took."""
    begun = time.perf_counter()
    it = action(*words)
    return it, 1e3 * (time.perf_counter() - begun)
