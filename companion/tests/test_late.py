"""Pages whose parts are sent late: the script of deploy/ puts them into their places, behind the nginx of deploy/."""

from __future__ import annotations

import contextlib
import http.client
import json
import socket
import ssl
import threading
import time
import unittest
from typing import Any, Iterator

import browser
import support

FIRST = (
    "HTTP/1.1 200 OK\r\nContent-Type: text/html; charset=UTF-8\r\nX-Site-State: 0\r\nConnection: close\r\n\r\n"
    '<!DOCTYPE html><html lang="en"><head><title>First | Site</title></head><body><header><div data-late="0"></div></header>'
    '<main><h1>First</h1></main><aside><div data-late="1"></div></aside><footer></footer>'
)
PARTS = (
    '<template data-late="0" data-library=""><section class="block"><p>Hello, admin</p></section></template>',
    '<template data-late="1" data-library="clock"><section class="block"><time>2026-11-30T12:00:00Z</time></section></template>',
)
WHOLE = "HTTP/1.1 200 OK\r\nContent-Type: text/html; charset=UTF-8\r\nConnection: close\r\n\r\n<!DOCTYPE html><html><head><title>x</title></head><body>whole</body></html>"


class SlowSite:
    """Stands in for the program: a late page whose parts wait until the test lets them go, and a whole page for who doesn't ask for it late."""

    def __init__(self) -> None:
        self._listener = socket.create_server(("127.0.0.1", 0))
        self.port = self._listener.getsockname()[1]
        self.ready = threading.Semaphore(0)
        """How many parts may be sent."""
        threading.Thread(target=self._serve, daemon=True).start()

    def _serve(self) -> None:
        while True:
            try:
                line, _ = self._listener.accept()
            except OSError:
                return
            threading.Thread(target=self._answer, args=(line,), daemon=True).start()

    def _answer(self, line: socket.socket) -> None:
        with line:
            head = b""
            while b"\r\n\r\n" not in head:
                head += line.recv(65_536)
            if b"\r\nx-late: 1\r\n" not in head.lower():
                line.sendall(WHOLE.encode())
                return
            line.sendall(FIRST.encode())
            for part in PARTS:
                self.ready.acquire()
                for piece in (part[:60], part[60:]):  # a template may come in two pieces
                    line.sendall(piece.encode())
                    time.sleep(0.05)
            line.sendall(b"</body></html>")

    def close(self) -> None:
        self._listener.close()


class Late(support.Case):
    @contextlib.contextmanager
    def reply(self, port: int, head: dict[str, str]) -> Iterator[http.client.HTTPResponse]:
        """A reply that nginx gives, of which nothing was read yet."""
        connection = http.client.HTTPSConnection("127.0.0.1", port, timeout=support.SECONDS, context=ssl._create_unverified_context())
        connection.request("GET", "/node/1", headers=head)
        yield connection.getresponse()
        connection.close()

    @support.needs("nginx", "openssl")
    def test_nginx_hands_on_what_there_is(self) -> None:
        site = SlowSite()
        self.addCleanup(site.close)
        with self.deployed(site.port, sends_late=True) as port:
            for head in ({"Cookie": "SESS=abc; late=1"}, {"X-Late": "1"}):
                with self.reply(port, head) as reply:
                    text = ""
                    for part, words in enumerate(("<footer></footer>", "Hello, admin", "12:00:00Z")):
                        if part:
                            site.ready.release()
                        while words not in text:
                            text += reply.read1(65_536).decode()
                    text += reply.read().decode()
                self.assertIn('<script src="/late.js" async></script>', text)
                self.assertTrue(text.endswith("</template></body></html>"), text)
            for head in ({"Cookie": "SESS=abc"}, {"Cookie": "late=1"}, {}, {"X-Late": "0"}):
                with self.reply(port, head) as reply:
                    self.assertIn("whole", reply.read().decode(), head)
        with self.deployed(site.port) as port, self.reply(port, {"Cookie": "SESS=abc; late=1"}) as reply:
            text = reply.read().decode()
            self.assertIn("whole", text)
            self.assertNotIn("<script", text)

    @unittest.skipIf(browser.found() is None, "there is no chromium")
    @support.needs("nginx", "openssl")
    def test_the_script_puts_parts_into_their_places(self) -> None:
        site = SlowSite()
        self.addCleanup(site.close)
        with self.deployed(site.port, sends_late=True) as port, browser.Browser(support.SECONDS) as window:
            address = f"https://127.0.0.1:{port}/node/1"
            window.set_cookie("SESS", "abc", address)
            window.go(address)
            window.wait_for("whole")
            window.wait("document.cookie.includes('late=1')")
            window.run(f"void setTimeout(() => location.assign({json.dumps(address + '?again')}))")
            window.wait_for("First", "h1")
            self.assertEqual(window.text("header"), "")
            site.ready.release()
            window.wait_for("Hello, admin", '[data-late="0"]')
            self.assertEqual(window.run("[document.readyState, document.querySelector('div[data-late=\"1\"]').innerHTML]"), ["loading", ""])
            site.ready.release()
            window.wait_for("2026-11-30T12:00:00Z", 'aside [data-late="1"]')
            window.wait("document.readyState === 'complete'")
            self.assertEqual(window.text("header"), "Hello, admin")
            self.assertEqual(window.faults, [])

    def town(self) -> str:
        """The town, with a session of the clerk."""
        rows = (support.SAMPLES / "town.rows").read_text(encoding="utf-8") + '{"cell":"session:tour","expires":4000000000,"uid":3}\n'
        return self.imported(self.write("town.rows", rows))

    def ask(self, site: support.Server, head: dict[str, str]) -> tuple[Any, str]:
        connection = http.client.HTTPConnection("127.0.0.1", site.port, timeout=support.SECONDS)
        connection.request("GET", "/node/30", headers=head)
        reply = connection.getresponse()
        text = reply.read().decode()
        connection.close()
        return reply.headers, text

    @unittest.skipIf(browser.found() is None, "there is no chromium")
    @support.needs("nginx", "openssl")
    def test_the_program_behind_it(self) -> None:
        """A page of the town, late and in places, is the page that comes at once."""
        with self.served(self.town()) as site:
            head, text = self.ask(site, {"Cookie": "SESS=tour", "X-Late": "1"})
            self.assertIsNone(head["Content-Length"])
            self.assertEqual(head["Connection"], "close")
            self.assertTrue(text.endswith("</template></body></html>"))
            whole = self.ask(site, {"Cookie": "SESS=tour", "Connection": "close"})[1]
            self.assertNotIn("data-late", whole)
            with self.deployed(site.port, sends_late=True) as port, browser.Browser(support.SECONDS) as window:
                address = f"https://127.0.0.1:{port}/node/30"
                window.set_cookie("SESS", "tour", address)
                window.go(address)
                at_once = window.text("body")
                window.wait("document.cookie.includes('late=1')")
                window.go(address + "?again")
                window.wait("!!document.querySelector('div[data-late] p')")
                self.assertEqual(window.text("body"), at_once)
                self.assertEqual(window.faults, [])
