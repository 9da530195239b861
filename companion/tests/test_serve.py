"""What a served store answers on sockets, byte for byte: an edit beside a client that says nothing, and sockets that read what they wrote."""

from __future__ import annotations

import contextlib
import json
import socket
import time
from typing import Iterator

import support

READ = b"GET /node/1 HTTP/1.1\r\nHost: a\r\n\r\n"
LAST_READ = READ.replace(b"Host: a\r\n", b"Host: a\r\nConnection: close\r\n")

# to give the node the title A in place of its version 1, by the session `abc`
TITLE = (
    b"PATCH /node/1 HTTP/1.1\r\nHost: a\r\nCookie: SESS=abc\r\nX-CSRF-Token: ba7816bf8f01cfea414140de5dae2223\r\n"
    b'Content-Type: application/json\r\nContent-Length: 21\r\n\r\n{"title":"A","vid":1}'
)
NEXT_TITLE = TITLE.replace(b'{"title":"A","vid":1}', b'{"title":"B","vid":2}')
LAST_TITLE = TITLE.replace(b"Host: a\r\n", b"Host: a\r\nConnection: close\r\n")

# the page on the state 1, what is answered to the edit, and the page on the state 2
PAGE = (
    b"HTTP/1.1 200 OK\r\nContent-Type: text/html; charset=UTF-8\r\nContent-Length: 258\r\nX-Site-State: 1\r\n\r\n"
    b'<!DOCTYPE html><html lang="en"><head><title>First | Site</title><meta name="library" content="node"></head><body><header></header>'
    b'<main><h1>First</h1><article><div class="field">Body: Hello</div></article></main><aside></aside><footer></footer></body></html>'
)
TOLD = b'HTTP/1.1 200 OK\r\nContent-Type: application/json\r\nContent-Length: 17\r\nX-Site-State: 2\r\n\r\n{"nid":1,"vid":2}'
NEW_PAGE = (
    b"HTTP/1.1 200 OK\r\nContent-Type: text/html; charset=UTF-8\r\nContent-Length: 250\r\nX-Site-State: 2\r\n\r\n"
    b'<!DOCTYPE html><html lang="en"><head><title>A | Site</title><meta name="library" content="node"></head><body><header></header>'
    b'<main><h1>A</h1><article><div class="field">Body: Hello</div></article></main><aside></aside><footer></footer></body></html>'
)

# the same of the title B
NEXT_TOLD = TOLD.replace(b"State: 2", b"State: 3").replace(b'"vid":2', b'"vid":3')
NEXT_PAGE = NEW_PAGE.replace(b"State: 2", b"State: 3").replace(b"<title>A |", b"<title>B |").replace(b"<h1>A<", b"<h1>B<")


def closing(reply: bytes) -> bytes:
    """A reply that is the last one of its connection."""
    head, body = reply.split(b"\r\n\r\n", 1)
    return head + b"\r\nConnection: close\r\n\r\n" + body


@contextlib.contextmanager
def connected(server: support.Server) -> Iterator[socket.socket]:
    """A socket to a server."""
    with socket.create_connection(("127.0.0.1", server.port), support.SECONDS) as peer:
        yield peer


def received(peer: socket.socket, most: float = float("inf")) -> bytes:
    """What comes on a socket: so many bytes, or what comes until its end."""
    told = b""
    while len(told) < most:
        piece = peer.recv(int(min(most - len(told), 65_536)))
        if not piece:
            break
        told += piece
    return told


def asked_once(server: support.Server) -> bytes:
    """What one more socket gets for the page; nothing where the server has ended."""
    try:
        with connected(server) as peer:
            peer.sendall(LAST_READ)
            return received(peer)
    except OSError:
        return b""


class Served(support.Case):
    def setUp(self) -> None:
        super().setUp()
        self.store = self.imported(self.write("site.rows", support.STARTER + support.SESSION))

    def rows(self) -> dict[str, dict[str, object]]:
        """The rows of the store, by their cells."""
        lines = self.run_site("export", "--store", self.store).splitlines()
        return {row["cell"]: row for row in map(json.loads, lines)}

    def answers(self, peer: socket.socket, request: bytes, reply: bytes) -> None:
        """Sends a request, to which the next bytes on the socket have to be this reply."""
        peer.sendall(request)
        self.assertEqual(received(peer, len(reply)), reply)

    def test_one_connection_edits_a_store(self) -> None:
        """Beside a client that says nothing an edit is answered, stands in the store, and is the last thing of a server that serves one."""
        before, begun = self.rows(), int(time.time())
        with self.served(self.store, 4, "--limit", "1") as server:
            with connected(server) as idle, connected(server) as peer:
                peer.sendall(LAST_TITLE)
                self.assertEqual(received(peer), closing(TOLD))
                self.assertEqual(server.end(), (0, b"served 1\n"))
                self.assertEqual(idle.recv(1), b"")
        after = self.rows()
        changed = after["node:1"]["changed"]
        self.assertTrue(isinstance(changed, int) and begun <= changed <= time.time(), changed)
        self.assertEqual(after, {**before, "node:1": {**before["node:1"], "title": "A", "vid": 2, "changed": changed}})

    def read_what_they_wrote(self, *dialogues: tuple[tuple[bytes, bytes], ...]) -> None:
        """Of two workers one makes the edits. Each socket is answered what its dialogue says. Each worker claims one request ahead, so the limit
        is one more than the sockets ask for: whichever worker has that one waits for it, and the other answers the sockets to their ends."""
        limit = sum(map(len, dialogues)) + 1
        with self.served(self.store, 2, "--limit", str(limit)) as server, contextlib.ExitStack() as open_ones:
            for dialogue in dialogues:
                peer = open_ones.enter_context(connected(server))
                for request, reply in dialogue:
                    self.answers(peer, request, reply)
            last = [told for told in (asked_once(server) for _ in range(4)) if told]
            self.assertEqual(last, [closing(dialogues[-1][-1][1])])
            self.assertEqual(server.end(), (0, b"served %d\n" % limit))

    def test_one_socket_reads_what_it_wrote(self) -> None:
        """The old page, what is told of the edit, and the new page, on one socket."""
        self.read_what_they_wrote(((READ, PAGE), (TITLE, TOLD), (READ, NEW_PAGE)))

    def test_sockets_read_what_was_written(self) -> None:
        """A second socket goes on from what the first one wrote, which stays open beside it."""
        first = ((READ, PAGE), (TITLE, TOLD), (READ, NEW_PAGE))
        self.read_what_they_wrote(first, ((READ, NEW_PAGE), (NEXT_TITLE, NEXT_TOLD), (READ, NEXT_PAGE)))
