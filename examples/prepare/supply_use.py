#!/usr/bin/env python3
"""Adds the missing + USE POWER and + USE GROUND: supply_use.py IN.def OUT.def --power VDD .. --ground VSS ..

A statement of one of these nets that has no + USE gets one before its ;. A statement with another use is told and left
as it is.
"""
import argparse
import sys

from def_text import edited, statements


def main():
    words = argparse.ArgumentParser(description=__doc__)
    words.add_argument("design")
    words.add_argument("out")
    words.add_argument("--power", nargs="+", default=[])
    words.add_argument("--ground", nargs="+", default=[])
    given = words.parse_args()
    uses = {name.encode(): b"POWER" for name in given.power}
    uses.update({name.encode(): b"GROUND" for name in given.ground})
    with open(given.design, "rb") as file:
        text = file.read()
    edits = []
    for statement in statements(text):
        use = uses.get(statement.name())
        if statement.section not in (b"NETS", b"SPECIALNETS") or use is None:
            continue
        stands = statement.clause(b"USE")
        if stands is None:
            place = statement.semicolon()
            edits.append((place, place, b"+ USE " + use + b" "))
        elif stands != use:
            print("%s has USE %s" % (statement.name().decode(), stands.decode()), file=sys.stderr)
    with open(given.out, "wb") as file:
        file.write(edited(text, edits))
    print("%d statements got a use" % len(edits))


main()
