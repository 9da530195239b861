#!/usr/bin/env python3
"""Draws request.svg: a GET through the recent replies and the three bins, with a redirect."""
import os
import sys

sys.path.insert(0, os.path.dirname(os.path.realpath(__file__)))
from drawing import SOFT, Canvas  # noqa: E402


def main():
    canvas = Canvas(960, 560, "The way of a GET through the caches")
    canvas.box(20, 24, 150, 56, "GET /council\nCookie: SESS=..", colour="plain", size=13)
    canvas.box(220, 24, 190, 56, "newest state\n(snapshot, number N)", colour="blue", size=13)
    canvas.box(460, 24, 200, 56, "viewer and account\nof the session on N", colour="amber", size=13)
    canvas.arrow([(170, 52), (220, 52)])
    canvas.arrow([(410, 52), (460, 52)])
    # no session: recent replies
    canvas.box(710, 24, 230, 56, "recent replies of the worker\nsame target, state N, not over", colour="red", size=12)
    canvas.arrow([(315, 24), (315, 14), (825, 14), (825, 24)], "", head=True)
    canvas.text(570, 9, "no session cookie", size=11, anchor="middle", colour=SOFT)
    canvas.arrow([(940, 52), (952, 52), (952, 500), (905, 500)], "", dashed=True)
    canvas.text(946, 96, "found: the reply as it was", size=11, anchor="end", colour=SOFT)
    # bins
    canvas.box(20, 130, 272, 84, "1  pages by target (anonymous)\nwhole pages, for requests without a session", colour="violet", size=11.5, bold=True)
    canvas.box(344, 130, 272, 84, "2  pages by path (dynamic)\npages with the places of lazy blocks open", colour="violet", size=11.5, bold=True)
    canvas.box(668, 130, 272, 84, "3  fragments\nblocks, menus, listings, nodes", colour="violet", size=12, bold=True)
    canvas.arrow([(560, 80), (560, 106), (160, 106), (160, 130)], "no session", at=0.75, dy=-6)
    canvas.arrow([(560, 80), (560, 106), (480, 106), (480, 130)], "", head=True)
    canvas.text(566, 122, "session", size=12, colour=SOFT)
    canvas.arrow([(292, 172), (344, 172)], "absent", dy=-6, size=11)
    canvas.arrow([(616, 172), (668, 172)], "absent", dy=-6, size=11)
    # look in detail
    canvas.box(20, 250, 440, 178, colour="plain", dashed=True)
    canvas.text(36, 274, "A look, in each bin", size=13, bold=True)
    canvas.box(40, 292, 118, 50, "first key:\nrequired contexts", size=11, colour="blue")
    canvas.box(190, 292, 100, 50, "redirect:\n+ contexts", size=11, colour="amber")
    canvas.box(324, 292, 118, 50, "second key:\nwith their values", size=11, colour="blue")
    canvas.arrow([(158, 317), (190, 317)])
    canvas.arrow([(290, 317), (324, 317)])
    canvas.box(40, 366, 402, 46, "entry: shown if its tags' counts, its contexts' values and its moments\nare the reader's (fresh); else as if absent", size=11, colour="green")
    canvas.arrow([(99, 342), (99, 366)])
    canvas.arrow([(383, 342), (383, 366)])
    canvas.arrow([(480, 214), (480, 300), (460, 300)], "", dashed=True)
    # build
    canvas.box(520, 250, 420, 84, "build\nread rows through the canvas, which notes every tag and context;\nask access; leave places open for fragments and lazy blocks", bold=True, size=11.5, colour="green")
    canvas.arrow([(800, 214), (800, 250)], "absent", dx=28, dy=4)
    canvas.box(520, 356, 420, 72, "keep\nfragments and pages whose age isn't 0, in their bins,\nwith the tags, contexts, age and counts of state N", bold=True, size=11.5, colour="violet")
    canvas.arrow([(730, 334), (730, 356)])
    canvas.box(20, 472, 880, 56, "fill the open places for this viewer, now  ·  write the head with its libraries  ·  reply with X-Site-State: N", size=13, colour="red")
    canvas.arrow([(730, 428), (730, 472)])
    canvas.arrow([(240, 428), (240, 472)], "fresh", dx=22, dy=4)
    canvas.save("request")


if __name__ == "__main__":
    main()
