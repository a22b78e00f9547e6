"""The words of a DEF text, with their places, and its statements.

White space is the bytes 9, 10, 13 and 32. A word that begins with # begins a comment to the end of its line. A word
that begins with " runs to the next " that isn't behind a backslash.
"""
import re

WORD = re.compile(rb'"[^"]*(?:(?<=\\)"[^"]*)*"|[^ \t\r\n]+')
SECTIONS = (b"COMPONENTS", b"PINS", b"SPECIALNETS", b"NETS")
PASSED = (
    b"PROPERTYDEFINITIONS", b"VIAS", b"STYLES", b"NONDEFAULTRULES", b"REGIONS", b"PINPROPERTIES", b"BLOCKAGES",
    b"SLOTS", b"FILLS", b"SCANCHAINS", b"GROUPS",
)


def words(text):
    place = 0
    while True:
        found = WORD.search(text, place)
        if found is None:
            return
        if text[found.start()] == 35:
            line_end = text.find(b"\n", found.start())
            place = len(text) if line_end < 0 else line_end
            continue
        yield found.start(), found.group()
        place = found.end()


class Statement:
    """A statement of a section: its words with their places, from its - to its ;"""

    def __init__(self, section, parts):
        self.section = section
        self.parts = parts

    def name(self):
        return self.parts[1][1]

    def start(self):
        return self.parts[0][0]

    def semicolon(self):
        return self.parts[-1][0]

    def clause(self, keyword):
        """The word behind the first + KEYWORD, or None."""
        for k in range(len(self.parts) - 2):
            if self.parts[k][1] == b"+" and self.parts[k + 1][1] == keyword:
                return self.parts[k + 2][1]
        return None

    def joints(self):
        """Of each joint of a net the component's word with its place, and the place behind its )"""
        found = []
        k = 2
        while self.parts[k][1] == b"(":
            comp = self.parts[k + 1]
            while self.parts[k][1] not in (b")", b";"):
                k += 1
            found.append((comp, self.parts[k][0] + 1))
            k += 1
        return found

    def joints_end(self):
        """The place behind the last joint, or behind the name where there is none."""
        joints = self.joints()
        place, name = self.parts[1]
        return joints[-1][1] if joints else place + len(name)


def pass_to(stream, last, before=None):
    """Passes over the words up to one, which stands behind another where that is given."""
    previous = None
    for _, word in stream:
        if word == last and before in (None, previous):
            return
        previous = word


def section_statements(section, stream):
    for place, word in stream:
        if word == b"END":
            next(stream, None)
            return
        parts = [(place, word)]
        for part in stream:
            parts.append(part)
            if part[1] == b";":
                break
        else:
            return
        yield Statement(section, parts)


def statements(text):
    """The statements of the four sections, in the order of the text."""
    stream = words(text)
    for _, word in stream:
        if word in SECTIONS:
            # The count is one word, whatever it is.
            next(stream, None)
            pass_to(stream, b";")
            yield from section_statements(word, stream)
        elif word in PASSED:
            pass_to(stream, word, before=b"END")
        elif word == b"BEGINEXT":
            pass_to(stream, b"ENDEXT")
        elif word == b"END":
            return
        else:
            pass_to(stream, b";")


def edited(text, edits):
    """The text with each (from, to, bytes) of the edits done; they lie one behind another."""
    out = []
    place = 0
    for start, end, new in sorted(edits):
        out.append(text[place:start])
        out.append(new)
        place = end
    out.append(text[place:])
    return b"".join(out)
