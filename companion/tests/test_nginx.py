"""What docs/limits.md has nginx do, and the configuration in deploy/."""

from __future__ import annotations

import http.client
import re
import ssl

import support
from kit.redirects import Redirects

LIMITS = (support.COMPANION / "docs" / "limits.md").read_text(encoding="utf-8")


def of_page(pattern: str) -> str:
    """A piece of configuration that the page has, by its first words."""
    found = re.search(r"^ +(" + pattern + r".*;)( \})?$", LIMITS, re.M)
    assert found, pattern
    return found[1] + (found[2] or "")


class Nginx(support.Case):
    def status(self, port: int, method: str, path: str, body: str = "") -> tuple[int, int]:
        """The status of a request, and the length of what came after its head."""
        connection = http.client.HTTPConnection("127.0.0.1", port, timeout=support.SECONDS)
        connection.request(method, path, body or None, {"Content-Type": "application/x-www-form-urlencoded"} if body else {})
        reply = connection.getresponse()
        length = len(reply.read())
        connection.close()
        return reply.status, length

    @support.needs("nginx")
    def test_head_styles_logins_and_kept_connections(self) -> None:
        with self.served(self.imported(self.new_site()), workers=2) as site:
            blocks = "\n".join([of_page("map "), of_page("limit_req_zone "), of_page("upstream ")]).replace("8080", str(site.port))
            login = of_page("location = /user/login").replace("8080", str(site.port))
            kept = 'proxy_pass http://site; proxy_http_version 1.1; proxy_set_header Connection "";'
            self.assertIn(kept, LIMITS)
            server = f"location / {{ {kept} {of_page('proxy_method ')} {of_page('sub_filter ')} }} {login}"
            with self.nginx(blocks, server) as port:
                self.assertEqual(self.status(port, "HEAD", "/"), (200, 0))
                self.assertEqual(self.status(port, "HEAD", "/nowhere"), (404, 0))
                self.assertIn("white-space: pre-line", support.get(port, "/")[1])
                tries = [self.status(port, "POST", "/user/login", "name=admin&pass=no")[0] for _ in range(12)]
                self.assertEqual(set(tries), {403, 503})
                for _ in range(50):
                    self.assertEqual(self.status(port, "GET", "/")[0], 200)


class Deployed(support.Case):
    def ask(self, port: int, method: str, path: str) -> tuple[int, str, str]:
        """The status of a request over TLS, where it sends a browser, and what it shows."""
        connection = http.client.HTTPSConnection("127.0.0.1", port, timeout=support.SECONDS, context=ssl._create_unverified_context())
        connection.request(method, path)
        reply = connection.getresponse()
        body = reply.read().decode()
        connection.close()
        return reply.status, reply.getheader("Location", "").rpartition(str(port))[2], body

    @support.needs("nginx", "openssl")
    def test_the_files_of_deploy(self) -> None:
        redirects = Redirects()
        redirects.add("/old.html", "/welcome")
        with self.served(self.imported(self.new_site())) as site, self.deployed(site.port, redirects.conf("redirects.conf").encode()) as port:
            self.assertIn('<link rel="stylesheet" href="/site.css">', self.ask(port, "GET", "/")[2])
            self.assertEqual(self.ask(port, "HEAD", "/")[::2], (200, ""))
            self.assertEqual(self.ask(port, "GET", "/old.html?x=1")[:2], (301, "/welcome"))
            self.assertIn('<script type="module" src="/editor.js">', self.ask(port, "GET", "/editor.html")[2])
            self.assertEqual(self.ask(port, "GET", "/editor.nothing")[0], 404)
