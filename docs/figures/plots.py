#!/usr/bin/env python3
"""Draws the plots over data/*.csv: page-instructions.svg, page-functions.svg, proof-seconds.svg, beside-nginx.svg, beside-others.svg."""
import csv
import math
import os
import sys

sys.path.insert(0, os.path.dirname(os.path.realpath(__file__)))
from drawing import COLOURS, HERE, INK, SOFT, Canvas  # noqa: E402

BLUE, GREEN = COLOURS["blue"][1], COLOURS["green"][1]


def table(name):
    with open(f"{HERE}/data/{name}.csv", encoding="utf-8") as file:
        return list(csv.DictReader(line for line in file if not line.startswith("#")))


def steps(name, title, columns, ticks, unit):
    """Columns over the steps of a history, on a logarithmic scale."""
    rows, left, top, wide, high = table(name), 90, 56, 760, 300
    canvas = Canvas(left + wide + 40, top + high + 130, title)
    canvas.text(20, 28, title, size=14, bold=True)
    low, most = math.log(ticks[0]), math.log(ticks[-1])
    y_of = lambda value: top + high - (math.log(value) - low) / (most - low) * high
    x_of = lambda at: left + (at + 0.5) * wide / len(rows)
    for tick in ticks:
        canvas.line(left, y_of(tick), left + wide, y_of(tick))
        canvas.text(left - 8, y_of(tick) + 4, f"{tick:,}", size=11, anchor="end", colour=SOFT)
    canvas.text(20, top - 8, unit, size=11, colour=SOFT)
    for number, (column, label, colour) in enumerate(columns):
        points = [(x_of(at), y_of(float(row[column])), float(row[column])) for at, row in enumerate(rows) if row[column]]
        canvas.curve([(x, y) for x, y, _ in points], colour)
        for at, (x, y, value) in enumerate(points):
            canvas.dot(x, y, colour)
            if at in (0, len(points) - 1):
                canvas.text(x, y - 9 if number == 0 else y + 18, f"{value:,.4g}" if value < 1000 else f"{value:,.0f}", size=11, anchor="middle", colour=colour, bold=True)
        canvas.line(left + wide - 210, 20 + number * 17, left + wide - 186, 20 + number * 17, colour, 2.4)
        canvas.text(left + wide - 180, 24 + number * 17, label, size=12)
    for at, row in enumerate(rows):
        words, lines = row["step"].split(" "), [""]
        for word in words:
            if len(lines[-1]) + len(word) > wide / len(rows) / 6.4 and lines[-1]:
                lines.append("")
            lines[-1] += (" " if lines[-1] else "") + word
        for place, line in enumerate(lines):
            canvas.text(x_of(at), top + high + 20 + place * 14, line, size=10, anchor="middle", colour=SOFT)
    canvas.save(name)


def bars(name, title):
    """One bar for each crate: seconds of its proof, and behind them those of its must-fail edits."""
    rows = sorted(table(name), key=lambda row: -int(row["proof"]))
    left, top, step, wide = 140, 56, 15, 640
    most = max(int(row["proof"]) + int(row["edits"] or 0) for row in rows)
    canvas = Canvas(left + wide + 60, top + step * len(rows) + 20, title)
    canvas.text(20, 28, title, size=14, bold=True)
    for number, (label, colour) in enumerate((("proof", BLUE), ("must-fail edits", COLOURS["amber"][1]))):
        canvas.box(left + wide - 260 + number * 90, 18, 12, 12, radius=2)
        canvas.parts[-1] = f'<rect x="{left + wide - 260 + number * 90}" y="18" width="12" height="12" fill="{colour}"/>'
        canvas.text(left + wide - 243 + number * 90, 28, label, size=12)
    for at, row in enumerate(rows):
        y, proof, edits = top + at * step, int(row["proof"]), int(row["edits"] or 0)
        canvas.text(left - 8, y + 9, row["crate"], size=10.5, anchor="end", colour=INK)
        scale = wide / most
        canvas.parts.append(f'<rect x="{left}" y="{y}" width="{proof * scale:.1f}" height="{step - 4}" fill="{BLUE}"/>')
        canvas.parts.append(f'<rect x="{left + proof * scale:.1f}" y="{y}" width="{edits * scale:.1f}" height="{step - 4}" fill="{COLOURS["amber"][1]}" opacity="0.75"/>')
        canvas.text(left + (proof + edits) * scale + 5, y + 9, f"{proof}" + (f" + {edits}" if edits else ""), size=10, colour=SOFT)
    canvas.save(name)


SERVERS = {
    "WordPress": "WordPress, uncached", "microcache": "nginx, microcache hit", "Varnish": "Varnish, hit", "file": "nginx, WordPress's page as a file",
    "site, built": "site, built", "site, reused": "site, reused", "file of site's": "nginx, site's page as a file",
}
DOTS = {"1": COLOURS["amber"][1], "4": BLUE, "64": COLOURS["violet"][1]}


def axis(canvas, left, wide, top, high, ticks, title):
    """Lines of a logarithmic scale; gives the place of a value."""
    low, most = math.log(ticks[0]), math.log(ticks[-1])
    x_of = lambda value: left + (math.log(max(value, ticks[0])) - low) / (most - low) * wide
    canvas.text(left, top - 22, title, size=11.5, bold=True)
    for tick in ticks:
        canvas.line(x_of(tick), top, x_of(tick), top + high)
        canvas.text(x_of(tick), top - 6, f"{tick:,}", size=10, anchor="middle", colour=SOFT)
    return x_of


def beside_others(name, title):
    """For each page: bars of processor time a request with 4 connections, and dots of requests a second with 1, 4 and 64."""
    rows, step, left, wide, gap = table(name), 24, 220, 330, 60
    high = step * len(SERVERS)
    canvas = Canvas(left + 2 * wide + gap + 60, 60 + 2 * (high + 90), title)
    canvas.text(20, 28, title, size=14, bold=True)
    for number, (connections, colour) in enumerate(DOTS.items()):
        canvas.dot(left + wide + gap + number * 110, 24, colour, 4.5)
        canvas.text(left + wide + gap + 10 + number * 110, 28, f"{connections} connection{'s' if connections != '1' else ''}", size=11)
    for block, page in enumerate(("article", "listing")):
        top = 110 + block * (high + 90)
        canvas.text(20, top - 22, f"The {page}", size=13, bold=True)
        time_of = axis(canvas, left, wide, top, high, [1, 10, 100, 1_000, 10_000, 100_000, 1_000_000], "processor time a request, µs (4 connections)")
        rate_of = axis(canvas, left + wide + gap, wide, top, high, [1, 10, 100, 1_000, 10_000, 100_000, 1_000_000], "requests a second")
        for at, (server, label) in enumerate(SERVERS.items()):
            y = top + at * step + step / 2
            colour = COLOURS["green" if server.startswith("site") else "plain"][1]
            canvas.text(left - 10, y + 4, label, size=11.5, anchor="end", bold=server.startswith("site"))
            for row in (row for row in rows if row["server"] == server and row["page"] == page):
                if row["connections"] == "4":
                    took = float(row["user"]) + float(row["system"])
                    canvas.parts.append(f'<rect x="{left}" y="{y - 7}" width="{time_of(took) - left:.1f}" height="14" fill="{colour}" opacity="0.8"/>')
                    canvas.text(time_of(took) + 5, y + 4, f"{took:,.0f}" if took >= 100 else f"{took:.1f}", size=10.5)
                canvas.dot(rate_of(float(row["rate"])), y, DOTS[row["connections"]], 4.5)
    canvas.save(name)


def main():
    steps("page-instructions", "Instructions of one page of a new site", [("built", "rendered", BLUE), ("found", "given before", GREEN)], [1_000, 3_000, 10_000, 30_000, 100_000, 300_000], "instructions")
    steps("page-functions", "Instructions of the publisher's front page, without the program's end", [("built", "rendered", BLUE), ("found", "found in a bin", GREEN), ("again", "given again", COLOURS["amber"][1])], [1_000, 3_000, 10_000, 30_000, 100_000, 300_000, 1_000_000, 3_000_000], "instructions")
    steps("beside-nginx", "Processor time a request, nginx = 1", [("publisher", "an article (4,433 bytes)", BLUE), ("town", "the login page (4,105 bytes)", GREEN)], [0.5, 1, 2, 5, 10, 20, 40], "times nginx's")
    bars("proof-seconds", "Processor seconds of each crate")
    beside_others("beside-others", "An article and a listing, by site and by what one would take in its place")


if __name__ == "__main__":
    main()
