#!/usr/bin/env python3
"""Finds prefixes that name the spares and no other component: spare_prefixes.py IN.def SPARES [--rename PREFIX OUT.def]

SPARES has the name of a spare on each line. The line that is printed goes into the desk file, which may have 64
prefixes. Where more are needed, --rename writes the design with PREFIX in front of each spare's name.
"""
import argparse
import json
import sys

from def_text import edited, statements

MOST = 64


def prefixes(spares, others):
    """The shortest prefix of each spare that no other component has, each once."""
    taken = set()
    for name in others:
        for end in range(1, len(name) + 1):
            taken.add(name[:end])
    found = set()
    for name in spares:
        for end in range(1, len(name) + 1):
            if name[:end] not in taken:
                found.add(name[:end])
                break
        else:
            sys.exit("every prefix of %s is one of another component's name" % name.decode())
    return sorted(found)


def renamed(text, spares, prefix):
    edits = []
    for statement in statements(text):
        names = []
        if statement.section == b"COMPONENTS":
            names = [statement.parts[1]]
        elif statement.section in (b"NETS", b"SPECIALNETS"):
            names = [comp for comp, _ in statement.joints()]
        edits += [(place, place, prefix) for place, name in names if name in spares]
    return edited(text, edits)


def main():
    words = argparse.ArgumentParser(description=__doc__)
    words.add_argument("design")
    words.add_argument("spares")
    words.add_argument("--rename", nargs=2, metavar=("PREFIX", "OUT"))
    given = words.parse_args()
    with open(given.design, "rb") as file:
        text = file.read()
    with open(given.spares, "rb") as file:
        spares = set(file.read().split())
    names = [statement.name() for statement in statements(text) if statement.section == b"COMPONENTS"]
    missing = sorted(spares - set(names))
    if missing:
        sys.exit("no component is named %s" % missing[0].decode())
    if given.rename:
        prefix = given.rename[0].encode()
        if any(name.startswith(prefix) for name in names if name not in spares):
            sys.exit("another component's name begins with %s" % given.rename[0])
        with open(given.rename[1], "wb") as file:
            file.write(renamed(text, spares, prefix))
        print("spares = %s" % json.dumps([given.rename[0]]))
        return
    found = prefixes(spares, [name for name in names if name not in spares])
    if len(found) > MOST:
        sys.exit("%d prefixes are needed, and a desk file may have %d: use --rename" % (len(found), MOST))
    print("spares = %s" % json.dumps([prefix.decode() for prefix in found]))


main()
