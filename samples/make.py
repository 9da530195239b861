#!/usr/bin/env python3
"""Writes the sample sites beside itself: town.rows, school.rows and publisher.rows, always the same bytes."""
import os
import sys

sys.dont_write_bytecode = True
import publisher
import school
import town


def main():
    here = os.path.dirname(os.path.abspath(__file__))
    for name, site in (("town", town.site()), ("school", school.site()), ("publisher", publisher.site())):
        with open(os.path.join(here, name + ".rows"), "w", encoding="utf-8", newline="\n") as file:
            for text in site.lines():
                file.write(text + "\n")


main()
