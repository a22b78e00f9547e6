#!/usr/bin/env python3
"""Checks that the documents name what is there.

- Each crate has its page docs/crates/NAME.md, and docs/ARCHITECTURE.md names it; what they say that it stands on is in crates.txt.
- A page has each must-fail edit and each test of its crate; the calls, clauses and definitions in its tables stand in the crate,
  a definition in the file that is named beside it; each clause by name of a call in them is named.
- Each identifier in backticks, and each path, of every document but CHANGELOG.md stands in the tree.
- What README.md and docs/FLOW.md show as printed is in the expected output of a script of examples/.
- README.md and docs/ARCHITECTURE.md keep their lengths, and README.md has the line of `rt version`.
"""
import functools
import pathlib
import re
import subprocess
import sys

root = pathlib.Path(__file__).resolve().parent.parent
wrong = []

# Words in backticks that are none of the tree's: of Rust and its standard library, of the kit, of other programs and of systems.
ALLOWED = set("""
    Global Vec Option Result Some None Ok Err String Send Sync Drop Clone Copy Display Default Mutex BTreeSet BTreeMap HashMap Arc Box
    AllocError From Debug
    ci try run check test must fail fmt plant tidy lemma out args stdin stdout status data expand verdict version
    hides bugs auto search grind
    sched_yield futex linear_sum_assignment magic klayout qrouter scipy wc sha256sum diff
    requires ensures ghost abbrev old new mod pub use impl static
""".split())

lines = [line for line in (root / "crates.txt").read_text().splitlines() if line and line[0] != "#"]
crates = [line.split()[0].rstrip(":") for line in lines]
stands_on = {crate: [word for word in line.split(":")[1].split() if word in crates] for crate, line in zip(crates, lines)}
documents = ["README.md", "CHANGELOG.md", "CONTRIBUTING.md", "bench/README.md"]
documents += sorted("docs/" + path.name for path in (root / "docs").glob("*.md"))
documents += sorted("docs/crates/" + path.name for path in (root / "docs/crates").glob("*.md"))
texts = {name: (root / name).read_text() for name in documents}


def say(name, line, what):
    wrong.append("%s:%d: %s" % (name, line, what) if line else "%s: %s" % (name, what))


@functools.cache
def words_in(path):
    found = set(re.findall(r"[^\W\d]\w*(?:-\w+)*", path.read_text(errors="replace")))
    found.update(re.findall(r"\w+", path.stem))
    # a lemma's name may have hyphens, and its parts are words too
    return found | {part for word in found if "-" in word for part in word.split("-")}


def words_of(paths):
    """The words of some files, and those of their names."""
    return {word for path in paths for word in words_in(path)}


def files_of(folder, *patterns):
    return sorted(path for pattern in patterns for path in (root / folder).glob(pattern) if path.is_file() and "out" not in path.parts)


@functools.cache
def crate_words(crate):
    return words_of(files_of("crates/" + crate, "src/**/*.rt", "specs/**/*.antt", "proofs/**/*.antt", "must-fail/*")) | {crate}


def tree_words(some):
    """The words of some crates, and of what is beside crates/."""
    paths = files_of("examples", "**/*.*") + files_of("bench", "*.py", "*.sh") + files_of("docs", "*.py")
    paths += [root / name for name in ("eco", "crates.txt", "HANDLES")]
    return words_of(paths).union(*(crate_words(crate) for crate in some))


def known_on(name):
    """What a document may name: a crate's page what is in the crate, in those below it, and in the crates of tests; any other all."""
    crate = pathlib.Path(name).stem
    if crate not in crates:
        return tree_words(crates)
    return tree_words([crate] + stands_on[crate] + [it for it in crates if it.endswith("_tests")])


def rows_of(text, heading):
    """The rows of the tables under a heading of a page: number of the line, cells."""
    under = None
    for at, line in enumerate(text.splitlines(), 1):
        if line.startswith("## "):
            under = line[3:]
        elif under == heading and line.startswith("| ") and not re.match(r"\| ?(Call|Name|Clause) ?\|", line):
            yield at, [cell.strip() for cell in re.split(r"(?<!\\)\|", line)[1:-1]]


def quoted(cell):
    return re.findall(r"`([^`]+)`", cell)


def parts_of(name):
    """The words of an identifier: `Words::next_word` has two."""
    return re.findall(r"[^\W\d]\w*(?:-\w+)*", re.sub(r"\(.*\)", "", name))


def calls_of(crate):
    """The named clauses of each function of a crate, by `Type::name` or `name`."""
    found = {}
    for path in files_of("crates/" + crate, "src/**/*.rt"):
        owner, clauses = "", []
        for line in path.read_text().splitlines():
            block = re.match(r"(?:pub )?(?:impl|trait)\b(?:<[^{]*?>)? (?:.* for )?(\w+)", line)
            function = re.match(r"\s*(?:pub(?:\(\w+\))? )?(?:const )?fn (\w+)", line)
            clause = re.match(r"\s*ensures (\w+) \{", line)
            if block:
                owner = block[1] + "::"
            elif line.startswith("}"):
                owner = ""
            elif function:
                clauses = found.setdefault((owner if line.startswith(" ") else "") + function[1], [])
            elif clause:
                clauses.append(clause[1])
    return found


def check_clauses(name, crate, text):
    """Each named clause of a call that a page lists is named there, unless its row has no clause by name."""
    named, items = {}, []
    for _, cells in rows_of(text, "Calls"):
        if cells[0]:
            items, owner = [], ""
            for item in quoted(cells[0]):
                owner = item.split("::")[0] + "::" if "::" in item else owner
                items.append(item if "::" in item or not owner else owner + item)
        for item in items:
            named.setdefault(item, []).append(cells[1])
    for item, clauses in calls_of(crate).items():
        cells = " ".join(named.get(item, []))
        if cells and not re.search(r"the clauses|its clauses|their (clauses|contracts)", cells):
            for clause in sorted(set(clauses) - set(quoted(cells))):
                say(name, 0, "lists %s and doesn't name its clause %s" % (item, clause))


@functools.cache
def clauses_of(crate):
    return re.findall(r"ensures (\w+) \{", "".join(path.read_text() for path in files_of("crates/" + crate, "src/**/*.rt")))


def check_below(name, crate, text):
    """What a text says that a crate stands on is in crates.txt."""
    for sentence in re.findall(r"(?s)stands on\b(.*?)(?:\. |\.\n|\Z)", text, re.I):
        named = set(re.findall(r"eco_\w+", sentence)) - {crate}
        for other in sorted(named - set(stands_on[crate])):
            say(name, 0, "says that %s stands on %s" % (crate, other))
        if not named and stands_on[crate] and re.search(r"nothing of the repository|std alone|^ the kit's|^ kit", sentence):
            say(name, 0, "doesn't say what %s stands on" % crate)


def check_page(crate):
    name, folder = "docs/crates/%s.md" % crate, root / "crates" / crate
    if name not in texts:
        return say(name, 0, "isn't there")
    text = texts[name]
    sources = words_of(files_of(folder, "src/**/*.rt", "specs/**/*.antt"))
    citable = sources | words_of(files_of(folder, "proofs/*.antt"))
    clauses = {name for below in [crate] + stands_on[crate] for name in clauses_of(below)}
    for at, cells in rows_of(text, "Calls"):
        for item in quoted(cells[0]):
            for part in parts_of(item):
                if part not in sources:
                    say(name, at, "the call %s isn't in %s" % (item, crate))
        for item in quoted(cells[1]) if len(cells) > 2 else []:
            if item not in clauses and not all(part in citable for part in parts_of(item)):
                say(name, at, "the clause %s isn't in %s" % (item, crate))
    for at, cells in rows_of(text, "Definitions"):
        for file in quoted(cells[1]):
            path = folder / file
            if not path.is_file():
                say(name, at, "%s has no %s" % (crate, file))
        found = words_of([folder / file for file in quoted(cells[1]) if (folder / file).is_file()])
        for item in quoted(cells[0]):
            for part in parts_of(item):
                if part not in found:
                    say(name, at, "%s isn't in %s" % (item, cells[1]))
    check_clauses(name, crate, text)
    check_below(name, crate, text.split("\n## ")[0])
    edits = {path.stem for path in files_of(folder, "must-fail/*.edit")}
    for edit in sorted(edits):
        if not re.search(r"`%s`" % re.escape(edit), text):
            say(name, 0, "doesn't name the edit %s" % edit)
    for at, cells in rows_of(text, "Wrong bodies"):
        for item in quoted(cells[1]) if len(cells) > 2 else []:
            if item not in edits and len(item) > 15 and "_" in item and item not in sources:
                say(name, at, "%s has no edit %s" % (crate, item))
    pages = "".join(text for page, text in texts.items() if page.startswith("docs/crates/"))
    for test in re.findall(r"#\[test\]\s*fn (\w+)", "".join(path.read_text() for path in files_of(folder, "src/**/*.rt"))):
        if test not in pages:
            say(name, 0, "no page names the test %s" % test)


def check_names(name, text, known):
    """Identifiers in backticks, and paths."""
    in_block = False
    for at, line in enumerate(text.splitlines(), 1):
        if line.startswith("```"):
            in_block = not in_block
        if in_block:
            continue
        for span in quoted(line):
            if not re.fullmatch(r"[^\W\d]\w*(?:-\w+)*(?:(?:::|\.)[^\W\d]\w*(?:-\w+)*)*!?(?:\([\w, &]*\))?", span) or re.search(r"\.\w+$", span) and "::" not in span:
                continue
            for part in parts_of(span):
                if part not in known and part not in ALLOWED:
                    say(name, at, "`%s` isn't in the tree" % span)
        for path in re.findall(r"(?<![\w/.-])((?:crates/)?\w+/(?:src|specs|proofs|must-fail)/[\w/.-]+\.(?:rt|antt|edit))", line):
            if not (root / "crates" / path.removeprefix("crates/")).exists():
                say(name, at, "%s isn't there" % path)
        for path in re.findall(r"(?<![\w/.-])((?:bench|examples|docs|crates|\.ci)/[\w/-]+(?:\.\w+)*)", line):
            if not (root / path).exists() and path not in ("examples/moved.def", "examples/patched.def") and "NAME" not in path and "/out/" not in path:
                say(name, at, "%s isn't there" % path)
        for path in re.findall(r"(?<![\w/.-])((?:src|specs|proofs|must-fail)/[\w/.-]+\.(?:rt|antt|edit))", line):
            folder = pathlib.Path(name).stem
            if folder in crates and not (root / "crates" / folder / path).exists():
                say(name, at, "%s has no %s" % (folder, path))
        for link in re.findall(r"\]\(([^)#:]+)\)", line):
            if not (root / name).parent.joinpath(link).exists():
                say(name, at, "the link %s leads nowhere" % link)


def check_printed(name):
    """Blocks that begin with no command are what a command printed."""
    printed = "".join(path.read_text() for path in files_of("examples", "**/*.expected"))
    for block in re.findall(r"(?ms)^```\n(.*?)^```$", texts[name]):
        if not re.match(r"(\S*/eco|sh|rt|cat|python3|rattle-kit\S*) ", block) and block not in printed:
            say(name, 0, "shows what no script of examples/ prints: " + block.splitlines()[0])


def main():
    for crate in crates:
        check_page(crate)
        sections = re.findall(r"(?ms)^### %s\n(.*?)(?=^##|\Z)" % crate, texts["docs/ARCHITECTURE.md"])
        for section in sections:
            check_below("docs/ARCHITECTURE.md", crate, section)
        if not sections and not re.search(r"`%s`" % crate, texts["docs/ARCHITECTURE.md"]):
            say("docs/ARCHITECTURE.md", 0, "doesn't name %s" % crate)
    for name in texts:
        if name.startswith("docs/crates/") and pathlib.Path(name).stem not in crates:
            say(name, 0, "is the page of no crate")
        if name != "CHANGELOG.md":
            check_names(name, texts[name], known_on(name))
    for name in ("README.md", "docs/FLOW.md"):
        check_printed(name)
    for name, most in (("README.md", 150), ("docs/ARCHITECTURE.md", 250)):
        length = len(texts[name].splitlines())
        if length > most:
            say(name, 0, "has %d lines, and may have %d" % (length, most))
    version = subprocess.run(["rt", "version"], capture_output=True, text=True).stdout.strip().splitlines()
    if version and version[0] not in texts["README.md"]:
        say("README.md", 0, "doesn't have the line of rt version: " + version[0])
    for line in wrong:
        print(line)
    return 1 if wrong else 0


if __name__ == "__main__":
    sys.exit(main())
