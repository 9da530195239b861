#!/usr/bin/env python3
"""Draws layers.svg: the groups of crates.txt as layers, what stands on what read there."""
import os
import sys

sys.path.insert(0, os.path.dirname(os.path.realpath(__file__)))
from drawing import HERE, SOFT, Canvas  # noqa: E402

# headings of crates.txt by their first word: colour, and in which row from the bottom
ROWS = [
    ["foundations"], ["rows", "states"], ["access", "storage"], ["edits", "rendering", "caching"], ["engine", "concurrency"], ["HTTP"],
]
COLOURS = {
    "foundations": "plain", "rows": "plain", "states": "blue", "access": "amber", "storage": "green", "edits": "amber",
    "rendering": "violet", "caching": "violet", "engine": "blue", "concurrency": "blue", "HTTP": "red",
}


def groups():
    found, group = {}, None
    for line in open(f"{HERE}/../../crates.txt", encoding="utf-8"):
        if line.startswith("# ") and "NAME:" not in line:
            group = line[2:].strip()
            found[group.split(":")[0].split(",")[0].split(" ")[0]] = (group, [])
        elif ":" in line and not line.startswith("#"):
            found[list(found)[-1]][1].append(line.split(":")[0])
    return found


def wrapped(words, room):
    lines = [""]
    for word in words:
        if len(lines[-1]) + len(word) + 2 > room and lines[-1]:
            lines.append("")
        lines[-1] += ("  " if lines[-1] else "") + word
    return lines


def main():
    found, width, top, row_height, gap = groups(), 940, 20, 80, 10
    canvas = Canvas(width, top + len(ROWS) * (row_height + gap) + 74, "The layers of the repository, the program at the top")
    for at, row in enumerate(reversed(ROWS)):
        y = top + at * (row_height + gap)
        each = (width - 40 - gap * (len(row) - 1)) / len(row)
        for place, key in enumerate(row):
            title, crates = found[key]
            x = 20 + place * (each + gap)
            canvas.box(x, y, each, row_height, colour=COLOURS[key])
            canvas.text(x + 14, y + 22, title.split(":")[0], size=14, bold=True)
            for row_at, line in enumerate(wrapped(crates, int((each - 24) / 6.9))):
                canvas.text(x + 14, y + 42 + row_at * 16, line, size=11, colour=SOFT, mono=True)
    y = top + len(ROWS) * (row_height + gap)
    others = " · ".join(f"{found[key][0].split(':')[0]}: {len(found[key][1])} crates" for key in ("laws", "tests"))
    canvas.box(20, y, width - 40, 40, "Rattle's kit: sqlite, serde_json, httparse, matchit, atomic_table, lru, sha2, jiff, clap ..", dashed=True, size=12)
    canvas.text(20, y + 60, f"A crate stands on crates of its own row and of lower ones. Not drawn: {others}.", size=12, colour=SOFT)
    canvas.save("layers")


if __name__ == "__main__":
    main()
