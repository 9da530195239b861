#!/usr/bin/env python3
"""Draws turn.svg: one turn of a worker on the engine that threads share, and an edit at the desk, over slots, gates and word."""
import os
import sys

sys.path.insert(0, os.path.dirname(os.path.realpath(__file__)))
from drawing import SOFT, Canvas  # noqa: E402

LEFT = 200


def table(canvas):
    canvas.box(20, 40, 150, 420, colour="plain", dashed=True)
    canvas.text(34, 64, "the site's table", size=13, bold=True)
    canvas.box(36, 80, 118, 44, "gate: 0, 1 or 2", size=12, colour="amber")
    canvas.box(36, 136, 118, 60, "slot: the engine\n(a pointer)", size=12, colour="blue")
    canvas.box(36, 208, 118, 60, "word: length\nof the log", size=12, colour="green")
    canvas.box(36, 316, 118, 44, "door: 0, 1 or 2", size=12, colour="amber")
    canvas.box(36, 372, 118, 72, "slot: the desk\n(store, and the\npending commit)", size=12, colour="violet")


def row(canvas, y, steps, width, gap):
    for at, (title, text, colour) in enumerate(steps):
        x = LEFT + at * (width + gap)
        canvas.box(x, y, width, 44, title, colour=colour, size=11.5, bold=True)
        for line_at, line in enumerate(text.split("\n")):
            canvas.text(x + width / 2, y + 66 + line_at * 16, line, size=10.5, anchor="middle", colour=SOFT)
        if at:
            canvas.arrow([(x - gap, y + 22), (x, y + 22)])


def turn(canvas):
    canvas.text(LEFT, 64, "a worker's turn", size=13, bold=True)
    row(canvas, 80, [
        ("1  close the gate", "0 becomes 1, in one step;\nelse it becomes 2, and wait", "amber"),
        ("2  take the engine out", "the slot is empty now", "blue"),
        ("3  one call", "snapshot, look, keep,\na step of an edit", "red"),
        ("4  put it back", "the word follows the log,\nthe slot has the engine", "green"),
        ("5  open the gate", "1 or 2 becomes 0;\nat 2 one who waits is woken", "amber"),
    ], 154, 14)
    canvas.box(LEFT, 204, 826, 64, "between turns the worker renders, reads and writes sockets: it holds its snapshot, and no lock\n"
               "its pass notes what it has seen of the log (a prefix, which only grows) and what it committed", size=12, colour="plain")
    canvas.arrow([(949, 176), (949, 204)])


def edit(canvas):
    canvas.text(LEFT, 300, "an edit: the desk is out from its first step to its last, the engine for single turns", size=13, bold=True)
    row(canvas, 316, [
        ("take desk", "through the\ndoor: other\nedits wait here", "violet"),
        ("settle", "a turn, where\none is pending", "blue"),
        ("snapshot", "a turn", "blue"),
        ("judge", "nobody waits", "plain"),
        ("announce", "a turn: the edit\nis pending now", "blue"),
        ("store", "one transaction,\nno turn", "violet"),
        ("publish", "a turn: the log\nhas the edit", "blue"),
        ("give back", "through the\ndoor", "violet"),
    ], 92, 11)


def main():
    canvas = Canvas(1040, 550, "One turn of a worker on the shared engine, and an edit at the desk")
    table(canvas)
    turn(canvas)
    edit(canvas)
    for at, line in enumerate([
        "Proved of every step, whatever the other threads do between: the engine is in its slot or with just one worker, and the desk likewise; the",
        "word is the length of the log; each pass has seen a prefix of that log; every commit since the start bears the number of the pass that made it;",
        "no log grows without the desk. Not said: that a turn comes. Nothing is claimed of waiting or fairness.",
    ]):
        canvas.text(20, 490 + at * 18, line, size=12, colour=SOFT)
    canvas.save("turn")


if __name__ == "__main__":
    main()
