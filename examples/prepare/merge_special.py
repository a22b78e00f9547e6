#!/usr/bin/env python3
"""Puts the statements of one net in SPECIALNETS together: merge_special.py IN.def OUT.def

Where a net has several statements there, the first one gets the joints of the others behind its own, and the clauses of
the others behind its own; the others go. eco refuses a second statement of a net as TwiceNamed. A net whose statements
have different uses is told, and nothing is written.
"""
import sys

from def_text import edited, statements


def merged(text, first, others):
    """The edits that put the statements of a net into its first one."""
    edits = []
    joints, clauses = b"", b""
    for other in others:
        name_place, name = other.parts[1]
        behind, start, end = other.joints_end(), other.start(), other.semicolon() + 1
        joints += text[name_place + len(name):behind]
        clause = text[behind:other.semicolon()].strip()
        # A comment may be its last part, and ends with the line.
        clauses += clause + (b"\n" if b"#" in clause else b" ")
        if text[start - 1:start] == text[end:end + 1] == b"\n":
            end += 1
        edits.append((start, end, b""))
    edits.append((first.joints_end(), first.joints_end(), joints))
    edits.append((first.semicolon(), first.semicolon(), clauses.lstrip()))
    return edits


def main():
    if len(sys.argv) != 3:
        sys.exit(__doc__)
    with open(sys.argv[1], "rb") as file:
        text = file.read()
    by_name = {}
    for statement in statements(text):
        if statement.section == b"SPECIALNETS":
            by_name.setdefault(statement.name(), []).append(statement)
    edits = []
    for name, (first, *others) in by_name.items():
        uses = {statement.clause(b"USE") for statement in [first] + others} - {None}
        if len(uses) > 1:
            sys.exit("%s has USE %s" % (name.decode(), b" and USE ".join(sorted(uses)).decode()))
        if others:
            edits += merged(text, first, others)
    with open(sys.argv[2], "wb") as file:
        file.write(edited(text, edits))
    print("%d statements went into another" % sum(len(s) - 1 for s in by_name.values()))


main()
