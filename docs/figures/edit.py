#!/usr/bin/env python3
"""Draws edit.svg: an edit from its request to its reply, with the pending state between store and log."""
import os
import sys

sys.path.insert(0, os.path.dirname(os.path.realpath(__file__)))
from drawing import SOFT, Canvas  # noqa: E402


def main():
    canvas = Canvas(1100, 430, "The way of an edit, with its pending state")
    steps = [
        ("PATCH /node/30\n{\"title\":..,\"vid\":1}", "plain"), ("command\nbody read by its table", "plain"), ("settle the pending\nask the store", "amber"),
        ("judge on state N\nfirst cause, or a commit", "amber"), ("make state N+1\nand room in the log", "blue"), ("store the batch\none transaction", "green"),
        ("publish N+1\nat the end of the log", "blue"),
    ]
    width, gap, y = 136, 18, 60
    for at, (text, colour) in enumerate(steps):
        x = 20 + at * (width + gap)
        canvas.box(x, y, width, 64, text, colour=colour, size=11, bold=True)
        if at:
            canvas.arrow([(x - gap, y + 32), (x, y + 32)])
    canvas.text(20, 36, "an edit that is accepted goes from left to right", size=13, bold=True)
    last = 20 + 6 * (width + gap)
    canvas.box(last, 170, width, 46, "200, X-Site-State:\nN+1", size=11, colour="red")
    canvas.arrow([(last + width / 2, 124), (last + width / 2, 170)])
    judged = 20 + 3 * (width + gap)
    canvas.box(judged, 170, width, 46, "403 404 409 422\nX-Site-State: N", size=11, colour="red")
    canvas.arrow([(judged + width / 2, 124), (judged + width / 2, 170)], "refused", dx=30, dy=6)
    kept = 20 + 5 * (width + gap)
    canvas.box(kept, 170, width, 46, "503\nno number", size=11, colour="red")
    canvas.arrow([(kept + width / 2, 124), (kept + width / 2, 170)], "failed", dx=26, dy=6)
    settle = 20 + 2 * (width + gap)
    canvas.box(settle, 170, width, 46, "503\nno number", size=11, colour="red")
    canvas.arrow([(settle + width / 2, 124), (settle + width / 2, 170)], "failed", dx=26, dy=6)
    # pending
    canvas.box(kept - 30, 262, width + 60, 54, "pending: the store may\nhave it, or not", size=12, colour="amber", dashed=True)
    canvas.arrow([(kept + width / 2, 216), (kept + width / 2, 262)])
    canvas.arrow([(kept - 30, 289), (settle - 8, 289), (settle - 8, 92), (settle, 92)], "", dashed=True)
    canvas.text(settle + 12, 282, "the next edit settles it, by the number that the store holds:", size=12, colour=SOFT)
    canvas.box(settle, 316, 240, 50, "number N+1: the store has it,\nso it is published first", size=12, colour="blue")
    canvas.box(settle + 256, 316, 170, 50, "number N: it hasn't,\nso it is forgotten", size=12, colour="plain")
    canvas.text(20, 416, "Readers go on meanwhile: a snapshot is of what is published. After publishing nothing can fail, so no edit that was made lacks its reply.", size=12, colour=SOFT)
    canvas.save("edit")


if __name__ == "__main__":
    main()
