#!/usr/bin/env python3
"""Writes crates/FILES.md: each source file of `pit` with what it has, under its crate.

    tools/files_page.py [--check]     with --check it writes nothing, says where the page differs, and its status is 1 there

What a file has is the first sentence of the comment at its head (`//!`), without the stop. The floors and the crates of each are
those of crates/README.md, in its order. A crate has what the head of its lib.rt or main.rt says, and these two have no line.
"""
import difflib
import re
import sys
from pathlib import Path

TOP = Path(__file__).resolve().parent.parent
PAGE = "crates/FILES.md"
FLOOR = re.compile(r"^### (\d.*)$")
CRATE = re.compile(r"^\| `(\w+)` \|")
HEAD = re.compile(r"(?://!.*\n)*")
SENTENCE = re.compile(r"(?:`[^`]*`|[^`])*?(?=\.(?:\s|$))")  # a stop within code ends none
OF_CRATE = ("lib.rt", "main.rt")
SIDES = {"-": "has", "+": "lacks"}
ABOVE = """# Every file of `pit`, by its crate

This page is written by `tools/files_page.py`, from the first sentence of each file's head; change the head, not the page. The
floors and the crates are those of [README.md](README.md). The first row of a table is the crate, and links to its `lib.rt` or
`main.rt`, which says what the crate depends on and promises. Definitions are in its `specs/`, proofs in its `proofs/`.
"""


def sentence(path):
    """The first sentence of the comment at a file's head, without its stop; nothing where there is none."""
    head = HEAD.match(path.read_text(encoding="utf-8"))[0]
    lines = [line[3:].strip() for line in head.splitlines()]
    paragraph = " ".join("\n".join(lines).split("\n\n")[0].split())
    found = SENTENCE.match(paragraph)
    return found[0].replace("|", r"\|") if found else ""


def floors(top):
    """The crates of each floor, by its title, as crates/README.md has them."""
    found, crates = {}, []
    for line in (top / "crates" / "README.md").read_text(encoding="utf-8").splitlines():
        if FLOOR.match(line):
            crates = found.setdefault(FLOOR.match(line)[1], [])
        elif CRATE.match(line):
            crates.append(CRATE.match(line)[1])
    return found


def sources(top, crate):
    """The source files of a crate: that of the crate itself first, which may be missing, then the others by name."""
    folder = top / "crates" / crate / "src"
    own = next((folder / name for name in OF_CRATE if (folder / name).exists()), None)
    return own, sorted(path for path in folder.rglob("*.rt") if path.name not in OF_CRATE)


def row(top, path, name):
    """The line of the page for a file, with a link by this name."""
    return "| [%s](%s) | %s |" % (name, path.relative_to(top / "crates"), sentence(path))


def table(top, crate):
    """The lines of the page for a crate."""
    own, others = sources(top, crate)
    if own is None:
        return []
    rows = [row(top, path, path.relative_to(own.parent)) for path in others]
    return ["", row(top, own, "`%s`" % crate), "|---|---|", *rows]


def page(top):
    """The page, as the heads of the files give it."""
    lines = []
    for title, crates in floors(top).items():
        tables = [line for crate in crates for line in table(top, crate)]
        lines += ["", "## " + title, *tables] if tables else []
    return ABOVE + "\n".join(lines) + "\n"


def headless(top):
    """The source files whose head has no sentence."""
    files = sorted(top.glob("crates/*/src/**/*.rt"))
    return [str(path.relative_to(top)) for path in files if not sentence(path)]


def differences(top):
    """Where the page isn't what the heads give, in words."""
    wrong = ["%s has no sentence at its head" % name for name in headless(top)]
    path = top / PAGE
    has = path.read_text(encoding="utf-8").splitlines() if path.exists() else []
    changes = list(difflib.unified_diff(has, page(top).splitlines(), lineterm="", n=0))
    wrong += [
        "%s %s: %s" % (PAGE, SIDES[line[0]], line[1:])
        for line in changes[2:]  # below the names of the two sides
        if line[0] in SIDES and line[1:]
    ]
    return wrong


def main():
    if sys.argv[1:] == ["--check"]:
        wrong = differences(TOP)
        print("\n".join(wrong), end="\n" if wrong else "")
        return 1 if wrong else 0
    if sys.argv[1:]:
        sys.exit(__doc__)
    (TOP / PAGE).write_text(page(TOP), encoding="utf-8")
    return 0


if __name__ == "__main__":
    sys.exit(main())
