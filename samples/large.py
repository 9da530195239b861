#!/usr/bin/env python3
"""Prints the rows of a large site, for measuring: `large.py [ROWS]`, so many lines, 100,000 if no number is given.

The site is a county of parishes. Of its nodes one in 500 is promoted, one in 10 is for the holders of a grant alone, one in 20
isn't published, and one in 4 refers to an earlier one. Always the same bytes for the same number.
"""
import sys

sys.dont_write_bytecode = True
from site_rows import Site, field, grant, line, link, record

# as many lines as the program reads of one file
MOST = 100_000
PARISHES = 40
CLERKS = 20
FIRST_MOMENT = 1_600_000_000

THINGS = ["gate", "bridge", "lamp", "well", "bench", "hedge", "roof", "bell", "pump", "ditch", "stile", "clock", "oven", "wall"]
DEEDS = ["mended", "painted", "moved", "measured", "found", "lent out", "counted", "opened", "shut for the winter"]
WHERE = ["by the mill", "at the crossing", "under the limes", "behind the church", "on the green", "below the weir"]
ENDS = [
    "Nobody objected, and two people helped.", "The cost was carried by the parish, and the ladder by its owner.",
    "It's to be looked at again in spring.", "A dog was present throughout.", "The children have been told, and have told others.",
]


class Draw:
    """Numbers that look as if they were drawn by chance, and are always the same."""

    def __init__(self):
        self.state = 1

    def below(self, bound):
        self.state = (self.state * 6364136223846793005 + 1442695040888963407) % 2**64
        return (self.state >> 33) % bound


def county():
    site = Site("county.example", "The county", "/node")
    site.type("entry", "Entry", [
        field("summary", "In short", teaser=True),
        field("body", "At length"),
        field("cost", "Cost", view="view costs", edit="edit costs"),
    ], submitted=True)
    site.role("anonymous", "Visitor", ["access content"])
    site.role("authenticated", "Resident", ["access content", "access user profiles", "view own unpublished content"])
    site.role("clerk", "Parish clerk", ["create entry content", "edit any entry content", "edit costs", "view costs"])
    site.user("admin", "2020-09-01", "count-the-county")
    for number in range(1, CLERKS + 1):
        site.user(f"Clerk {number}", "2020-09-02", roles=["clerk"], grants=[grant("parish", number), grant("parish", number + CLERKS)])
    for number in range(1, PARISHES + 1):
        site.term(number, f"Parish {number}", f"All that is written down about parish {number}.")
    site.menu("main", "Main menu", [link("home", "/node", "Home")] + [
        link(f"parish_{number}", f"/taxonomy/term/{number}", f"Parish {number}", parent="home") for number in range(1, 9)
    ])
    site.listing("frontpage", "/node", "The county", promoted=True)
    site.listing("entries", "/entries", "All entries", types=["entry"])
    site.listing("first", "/parish/first", "Parish 1", term=1)
    site.block("main_menu", "menu", "header", 0, shows="main")
    site.block("greeting", "greeting", "header", 1)
    site.block("frontpage", "listing", "aside", 0, label="News", shows="frontpage", paths=["<front>", "/node"], hide=True)
    site.block("guard", "csrf", "footer", 0, roles=["authenticated"])
    return site


def node(draw, number):
    thing, deed, where = (words[draw.below(len(words))] for words in (THINGS, DEEDS, WHERE))
    parish = 1 + draw.below(PARISHES)
    private = draw.below(10) == 0
    refers = number > 1 and draw.below(4) == 0
    moment = FIRST_MOMENT + 1000 * number
    return {
        "cell": f"node:{number}", "changed": moment, "created": moment,
        "fields": {
            "body": f"The {thing} {where} was {deed}. {ENDS[draw.below(len(ENDS))]}", "cost": f"{1 + draw.below(90)} shillings",
            "summary": f"In parish {parish} a {thing} was {deed}.",
        },
        "grants": [record("parish", parish, update=True)] if private else [],
        "path": f"/entries/{number}" if number % 10 == 0 else None, "promote": number % 500 == 1,
        "refs": [1 + draw.below(number - 1)] if refers else [], "status": draw.below(20) != 0, "sticky": number % 5000 == 1,
        "terms": [parish], "title": f"Of a {thing} {where}, no. {number}", "type": "entry", "uid": 2 + draw.below(CLERKS),
        "uuid": f"county-entry-{number}", "vid": 1,
    }


def main():
    rows = int(sys.argv[1]) if len(sys.argv) > 1 else MOST
    site, draw = county(), Draw()
    nodes = rows - len(site.lines())
    if nodes < 1 or rows > MOST:
        sys.exit(f"large.py: {rows} lines are too few or too many")
    # the next id comes after them all
    site.ids["node"] = range(nodes)
    settings = list(site.rows_in_order())
    after_nodes = ("menu", "listing", "block")
    for kind, row in settings:
        if kind not in after_nodes:
            print(line(row))
    for number in range(1, nodes + 1):
        print(line(node(draw, number)))
    for kind, row in settings:
        if kind in after_nodes:
            print(line(row))


main()
