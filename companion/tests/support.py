"""What the tests have in common: the command, the program, served sites, and a crawl."""

from __future__ import annotations

import contextlib
import http.client
import os
import re
import shutil
import signal
import socket
import subprocess
import sys
import tempfile
import time
import unittest
from pathlib import Path
from typing import Any, Callable, Iterator, Optional, Sequence

COMPANION = Path(__file__).resolve().parents[1]
REPOSITORY = COMPANION.parent
SITEKIT = COMPANION / "sitekit"
SAMPLES = REPOSITORY / "samples"
DEPLOY = REPOSITORY / "deploy"
sys.path.insert(0, str(COMPANION))

from kit import crawl as sitekit_crawl  # noqa: E402
from kit import program  # noqa: E402
from kit.client import Client  # noqa: E402
from kit.trouble import Trouble  # noqa: E402

MOMENT = "1780000000"
SECONDS = float(os.environ.get("SITEKIT_TEST_SECONDS", "60"))
"""How long a command or a request may take. A busy machine wants more."""
TRIES = 3
"""How often a server is started: somebody else may be faster at a port that was free."""
STARTER = b"""\
{"cell":"site","front":"/node","name":"Site"}
{"cell":"seq","node":2,"term":1,"user":2}
{"cell":"type:page","fields":[{"edit":null,"label":"Body","name":"body","owner":false,"teaser":true,"view":null}],"label":"Page","submitted":false}
{"admin":false,"cell":"role:anonymous","grants":[],"label":"Anonymous","permissions":["access content"]}
{"admin":false,"cell":"role:authenticated","grants":[],"label":"Member","permissions":["access content"]}
{"cell":"user:1","created":0,"digest":null,"grants":[],"name":"admin","roles":[],"salt":"","status":true,"uuid":"u-1"}
{"cell":"node:1","changed":100,"created":100,"fields":{"body":"Hello"},"grants":[],"path":null,"promote":true,"refs":[],"status":true,"sticky":false,"terms":[],"title":"First","type":"page","uid":1,"uuid":"n-1","vid":1}
{"age":null,"cell":"listing:frontpage","path":"/node","promoted":true,"recent":null,"term":null,"title":"Home","types":[]}
"""
"""The rows of the site that `replay` begins with, in the order of cells. User 1 may make every edit."""
SESSION = b'{"cell":"session:abc","expires":4000000000,"uid":1}\n'
"""A session of user 1, whose token is `abc`."""


def site() -> str:
    """The program. Without it nothing is tested."""
    try:
        return program.found()
    except Trouble as trouble:
        raise SystemExit(str(trouble)) from trouble


def needs(*words: str) -> Callable[[Any], Any]:
    """Skips a test where a program of another package isn't there."""
    missing = [word for word in words if not shutil.which(word, path=os.environ.get("PATH", "") + ":/usr/sbin:/sbin")]
    return unittest.skipIf(bool(missing), f"there is no {', '.join(missing)}")


NGINX = """\
{user} daemon off; worker_processes 1; pid {room}/nginx.pid; error_log {room}/error.log;
events {{ worker_connections 64; }}
http {{
    access_log off;
    client_body_temp_path {room}/1; proxy_temp_path {room}/2; fastcgi_temp_path {room}/3; uwsgi_temp_path {room}/4; scgi_temp_path {room}/5;
    {http}
    server {{
        listen 127.0.0.1:{port};
        {server}
    }}
}}
"""


class Case(unittest.TestCase):
    """A test with a folder of its own, in which it runs `sitekit` and `site`."""

    def setUp(self) -> None:
        room = tempfile.TemporaryDirectory(prefix="sitekit-test-")
        self.addCleanup(room.cleanup)
        self.room = Path(room.name)
        self.environment = {
            **os.environ,
            "PATH": os.environ.get("PATH", "") + ":/usr/sbin:/sbin",
            "SITE_PROGRAM": site(),
            "SITEKIT_MOST": str(SECONDS),
            "SOURCE_DATE_EPOCH": MOMENT,
            "XDG_STATE_HOME": str(self.room / "state"),
        }

    def path(self, name: str) -> str:
        """A file of the test's folder."""
        return str(self.room / name)

    def write(self, name: str, text: str | bytes) -> str:
        """Writes a file, and gives its name."""
        path = self.room / name
        path.parent.mkdir(parents=True, exist_ok=True)
        path.write_bytes(text if isinstance(text, bytes) else text.encode())
        return str(path)

    def run_kit(self, *words: str, status: int = 0, given: str = "") -> subprocess.CompletedProcess[str]:
        """Runs `sitekit`, whose status has to be the one that is said."""
        done = subprocess.run(
            [sys.executable, str(SITEKIT), *words], input=given, capture_output=True, text=True, cwd=self.room,
            env=self.environment, timeout=SECONDS,
        )  # fmt: skip
        self.assertEqual(done.returncode, status, f"sitekit {' '.join(words)}\n{done.stdout}\n{done.stderr}")
        return done

    def run_site(self, *words: str, given: bytes = b"", status: int = 0) -> str:
        """Runs the program, whose status has to be the one that is said."""
        done = subprocess.run([site(), *words], input=given, capture_output=True, timeout=SECONDS)
        self.assertEqual(done.returncode, status, f"site {' '.join(words)}\n{done.stdout[:500]!r}")
        return done.stdout.decode()

    def imported(self, rows: str, store: str = "site.db") -> str:
        """A store with the rows of a file."""
        self.run_site("import", "--store", self.path(store), given=Path(rows).read_bytes())
        return self.path(store)

    def new_site(self, *words: str, name: str = "A Club") -> str:
        """The rows of a new site, whose user 1 has the password `oar`."""
        self.write("password", "oar\n")
        self.run_kit("new", "--name", name, "--password-file", self.path("password"), "-o", self.path("site.rows"), *words)
        return self.path("site.rows")

    @contextlib.contextmanager
    def served(self, store: str, workers: int = 4, *more: str) -> Iterator["Server"]:
        """A served store, which is killed at the end."""
        server = Server(store, workers, *more)
        self.environment["SITEKIT_AT"] = server.address
        try:
            yield server
        finally:
            server.stop()

    @contextlib.contextmanager
    def nginx(self, http: str, server: str) -> Iterator[int]:
        """An nginx with these words in its blocks `http` and `server`; gives its port."""
        port = free_port()
        user = "user root;" if os.geteuid() == 0 else ""  # its workers read files of the test's folder
        self.write("nginx.conf", NGINX.format(user=user, room=self.room, port=port, http=http, server=server))
        words = ["nginx", "-p", str(self.room), "-e", self.path("error.log"), "-c", self.path("nginx.conf")]
        with subprocess.Popen(words, stderr=subprocess.DEVNULL, env=self.environment) as process:
            try:
                wait_for(port)
                yield port
            finally:
                process.terminate()

    def nginx_of(self, site: "Server", redirects: str) -> contextlib.AbstractContextManager[int]:
        """An nginx in front of a served site, with a file of old addresses."""
        server = f"if ($site_moved) {{ return 301 $site_moved; }} location / {{ proxy_pass {site.address}; }}"
        return self.nginx(f"include {redirects};", server)

    @contextlib.contextmanager
    def deployed(self, site_port: int, redirects: bytes = b"", sends_late: bool = False) -> Iterator[int]:
        """The nginx of deploy/ in front of a site at a port, with files and ports of the test's own; gives the port of HTTPS."""
        port = free_port()
        for file in (DEPLOY / "site.css", DEPLOY / "late.js", DEPLOY / "program.conf", *(COMPANION / "editor").glob("editor.*")):
            self.write(file.name, file.read_bytes())
        self.write("redirects.conf", redirects or (DEPLOY / "redirects.conf").read_bytes())
        words = ["openssl", "req", "-x509", "-newkey", "rsa:2048", "-nodes", "-days", "2", "-subj", "/CN=example.org"]
        files = ["-keyout", self.path("privkey.pem"), "-out", self.path("fullchain.pem")]
        subprocess.run([*words, *files], check=True, capture_output=True)
        text = re.sub(r"^ *listen \[::\].*$", "", (DEPLOY / "nginx.conf").read_text(encoding="utf-8"), flags=re.M)
        for old, new in (
            ("/etc/nginx/site", str(self.room)), ("/etc/ssl/site", str(self.room)), ("/var/log/nginx", str(self.room)), ("127.0.0.1:8080", f"127.0.0.1:{site_port}"),
            ("listen 80;", f"listen 127.0.0.1:{free_port()};"), ("listen 443 ssl", f"listen 127.0.0.1:{port} ssl"), ("set $site_sends_late 0;", f"set $site_sends_late {int(sends_late)};"),
        ):  # fmt: skip
            self.assertIn(old, text)
            text = text.replace(old, new)
        self.write("site.conf", text)
        with self.nginx(f"include {self.room}/site.conf;", "return 200;"):
            yield port

    def log_in(self, name: str = "admin", password: str = "oar") -> None:
        """Logs in at the served site."""
        self.write("password", password + "\n")
        self.run_kit("edit", "login", name, "--password-file", self.path("password"))


def free_port() -> int:
    """A port that nobody listens at."""
    with socket.socket() as it:
        it.bind(("127.0.0.1", 0))
        return it.getsockname()[1]


class Server:
    """A served store on loopback."""

    def __init__(self, store: str, workers: int = 4, *more: str) -> None:
        for _ in range(TRIES):
            self.port = free_port()
            self.address = f"http://127.0.0.1:{self.port}"
            words = [site(), "serve", "--store", store, "--listen", f"127.0.0.1:{self.port}", "--workers", str(workers), *more]
            self.process = subprocess.Popen(words, stdout=subprocess.PIPE)
            assert self.process.stdout is not None
            line = self.process.stdout.readline()
            if line.startswith(b"listening "):
                return
            self.stop()
        raise AssertionError(f"the server said {line!r} and ended with status {self.process.returncode}")

    @property
    def pid(self) -> int:
        return self.process.pid

    def stop(self) -> None:
        """Kills it, as one does."""
        self.process.send_signal(signal.SIGKILL)
        self.process.wait()
        assert self.process.stdout is not None
        self.process.stdout.close()

    def end(self) -> tuple[int, bytes]:
        """Waits until the program ends by itself: its status, and what it printed since it listened."""
        assert self.process.stdout is not None
        status = self.process.wait(SECONDS)
        return status, self.process.stdout.read()

    def get(self, path: str, cookie: Optional[str] = None) -> tuple[int, str]:
        """The status and the page of a path."""
        return get(self.port, path, cookie)


def get(port: int, path: str, cookie: Optional[str] = None) -> tuple[int, str]:
    """The status and the body of a path at a port of loopback."""
    connection = http.client.HTTPConnection("127.0.0.1", port, timeout=SECONDS)
    try:
        connection.request("GET", path, headers={"Connection": "close", **({"Cookie": cookie} if cookie else {})})
        reply = connection.getresponse()
        return reply.status, reply.read().decode("utf-8", "replace")
    finally:
        connection.close()


def crawl(port: int, token: Optional[str] = None, extra: Sequence[str] = ()) -> dict[str, int]:
    """The statuses of all that links lead to, from the front page on, by their addresses."""
    client = Client(f"http://127.0.0.1:{port}", token)
    found = sitekit_crawl.crawl(lambda target: client.ask("GET", target), client.address, ["/", *extra])
    return {it.target: it.status for it in found}


def wait_for(what: object, seconds: float = SECONDS) -> None:
    """Waits until a port takes connections."""
    end = time.monotonic() + seconds
    while time.monotonic() < end:
        try:
            socket.create_connection(("127.0.0.1", int(str(what))), 1).close()
            return
        except OSError:
            time.sleep(0.02)
    raise AssertionError(f"nobody listens at {what}")
