"""The program `site` that this companion stands beside: where it is, and what its statuses say."""

from __future__ import annotations

import argparse
import os
import shutil
import subprocess
from pathlib import Path
from typing import Optional

from .trouble import Trouble

BUILT = Path(__file__).resolve().parents[2] / "crates" / "site" / "out" / "site"
SAID = {
    4: "the store couldn't be read or written",
    5: "its input failed",
    6: "its output failed",
    7: "the store can't be opened; is it being served? Then name the server's process with --pid",
    9: "it had no memory left",
}


def add_option(it: argparse.ArgumentParser) -> None:
    """The option that names the program."""
    it.add_argument("--program", metavar="FILE", help="the program site (default: SITE_PROGRAM, the one built here, or one on the path)")


def found(named: Optional[str] = None) -> str:
    """The program: the one named, that of SITE_PROGRAM, the one that is built here, or one on the path."""
    for it in (named, os.environ.get("SITE_PROGRAM")):
        if it:
            if not os.access(it, os.X_OK) or os.path.isdir(it):
                raise Trouble(f"{it}: there is no program here")
            return it
    if os.access(BUILT, os.X_OK):
        return str(BUILT)
    on_path = shutil.which("site")
    if on_path is None:
        raise Trouble(f"there is no program `site`: build it (it would be {BUILT}), or name it with --program")
    return on_path


def run(program: str, *words: str, source: Optional[bytes] = None) -> bytes:
    """What the program prints. `Trouble`, in words, where its status isn't 0."""
    done = subprocess.run([program, *words], input=source, stdout=subprocess.PIPE, check=False)
    if done.returncode != 0:
        told = done.stdout.decode("utf-8", "replace").strip()[:300]
        raise Trouble(f"site {words[0]}: {SAID.get(done.returncode, told) or 'it failed'} (status {done.returncode})")
    return done.stdout
