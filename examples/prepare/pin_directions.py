#!/usr/bin/env python3
"""Adds the missing + DIRECTION of top pins: pin_directions.py IN.def DIRECTIONS OUT.def

DIRECTIONS has a line NAME INPUT, NAME OUTPUT or NAME INOUT for each pin that lacks one. A pin without a line is told
and left as it is; eco takes it for INOUT, which drives its net.
"""
import sys

from def_text import edited, statements


def main():
    if len(sys.argv) != 4:
        sys.exit(__doc__)
    directions = {}
    with open(sys.argv[2], "rb") as file:
        for line in file:
            if line.split():
                name, direction = line.split()
                directions[name] = direction
    with open(sys.argv[1], "rb") as file:
        text = file.read()
    edits = []
    for statement in statements(text):
        if statement.section != b"PINS" or statement.clause(b"DIRECTION") is not None:
            continue
        direction = directions.get(statement.name())
        if direction is None:
            print("%s has no direction" % statement.name().decode(), file=sys.stderr)
        else:
            place = statement.semicolon()
            edits.append((place, place, b"+ DIRECTION " + direction + b" "))
    with open(sys.argv[3], "wb") as file:
        file.write(edited(text, edits))
    print("%d pins got a direction" % len(edits))


main()
