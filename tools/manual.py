#!/usr/bin/env python3
"""Makes the manual: the pages of this tree and the reference of pitplan's public names, as one site of static HTML.

    tools/manual.py [FOLDER]     writes it into out/manual, or into FOLDER, which may not be there yet; index.html is its first page

Debian's Sphinx makes it, with MyST for the Markdown. Its search needs no server: the index is a script, which a browser also loads
from a file. A page or a name that a link doesn't find is refused, and so is all else that Sphinx warns of.
"""
import os
import re
import shutil
import subprocess
import sys
import tempfile
from pathlib import Path

sys.dont_write_bytecode = True
sys.path.insert(0, str(Path(__file__).resolve().parent))

import tree  # noqa: E402
from help_texts import PYTHON  # noqa: E402

NEEDED = "python3-sphinx python3-myst-parser"
SITE = Path(__file__).resolve().parent / "manual_site"
FIRST = "README.md"
# The pages of docs/ by what they are read for, each with its name in the margin; pages that aren't named here come last, by their titles.
PARTS = {
    "Plan a mine": {
        "PLANNING": "From a table to pits",
        "STUDY": "The keys of study.toml",
        "DESK": "The same in a browser",
        "SCALE": "How large a study may be",
        "AUDIT": "For auditors",
    },
    "The program pit": {
        "GUIDE": "pit alone",
        "SOLVERS": "Solvers and workers",
        "FORMATS": "Files, options, answers",
    },
    "What is proved": {
        "PROOFS": "What is claimed",
        "DEFINITIONS": "Definitions",
        "STATEMENT": "The whole statement",
        "ASSURANCE": "Proved, tested, trusted",
        "CALLS": "Every public call",
    },
    "How it is made": {
        "ARCHITECTURE": "Architecture",
        "PROOF_GUIDE": "How something is proved",
        "DECISIONS": "Decisions",
    },
}
# Packages and modules of pitplan whose public names the reference has.
REFERENCE = (
    *("study", "model", "slopes", "pit", "plans", "schedule", "tasks", "views", "views.page"),
    "views.pictures",
    *("views.export." + name for name in ("csv", "dxf", "gpkg", "table_back", "vtu")),
    *("table", "audit", "audit.bundle", "base"),
)
PAGES = (
    "README.md",
    "CHANGELOG.md",
    "CONTRIBUTING.md",
    "docs/*.md",
    "bench/*.md",
    "crates/*.md",
    "python/README.md",
    "tests/cases/README.md",
)
LINK = re.compile(r"(\]\()([^()\s#]+)((?:#[^()\s]*)?\))")
DROPPED = (".doctrees", ".buildinfo", "objects.inv")


class NoManual(ValueError):
    """Sphinx isn't there, or warns of something; the text says which."""


def pages():
    """The pages of the tree, by path."""
    return sorted(
        {path.relative_to(tree.TOP) for pattern in PAGES for path in tree.TOP.glob(pattern)}
    )


def copied(source):
    """Copies the pages into a folder, with all that they link to; the first page becomes index.md, with the contents of all."""
    there = pages()
    for page in there:
        text = (tree.TOP / page).read_text()
        for _, target, _ in LINK.findall(text):
            path = (tree.TOP / page).parent / target
            inside = Path(os.path.normpath(path))
            within = inside.is_file() and inside.is_relative_to(tree.TOP)
            if within and inside.relative_to(tree.TOP) not in there:
                to = source / inside.relative_to(tree.TOP)
                to.parent.mkdir(parents=True, exist_ok=True)
                shutil.copyfile(inside, to)
        own = "index.md" if str(page) == FIRST else page
        (source / own).parent.mkdir(parents=True, exist_ok=True)
        more = contents(there) if own == "index.md" else ""
        (source / own).write_text(one_title(with_first(text, page)) + more)
    for file in SITE.iterdir():
        if file.is_file():
            shutil.copyfile(file, source / file.name)


def referred():
    """Those of REFERENCE that the tree has."""
    folder = tree.TOP / "python" / "pitplan"
    homes = {name: folder / name.replace(".", "/") for name in REFERENCE}
    return [
        name
        for name, home in homes.items()
        if (home / "__init__.py").exists() or home.with_suffix(".py").exists()
    ]


def with_first(text, page):
    """The text of a page whose links to the first page have the name that it has in the manual."""

    def renamed(link):
        is_first = os.path.normpath(page.parent / link[2]) == FIRST
        return link[1] + (link[2][: -len(FIRST)] + "index.md" if is_first else link[2]) + link[3]

    return LINK.sub(renamed, text)


def one_title(text):
    """A page with one title: of several each but the first goes a level down, with what stands below it."""
    lines, titles, is_code = text.split("\n"), 0, False
    for at, line in enumerate(lines):
        is_code ^= line.startswith("```")
        if line.startswith("#") and not is_code:
            titles += line.startswith("# ")
            lines[at] = "#" + line if titles > 1 else line
    return "\n".join(lines)


def contents(there):
    """The contents of the manual, as MyST has them at the end of its first page."""
    left = [str(page.with_suffix("")) for page in there if str(page) != FIRST]
    parts = {}
    for title, names in PARTS.items():
        here = {"docs/" + name: said for name, said in names.items() if "docs/" + name in left}
        parts[title] = ["%s <%s>" % (said, name) for name, said in here.items()]
        left = [name for name in left if name not in here]
    parts["Python"] = ["reference/" + name for name in ("pitplan", *referred()) if referred()]
    parts["More"] = left
    return "".join(
        "\n```{toctree}\n:hidden:\n:caption: %s\n\n%s\n```\n" % (title, "\n".join(names))
        for title, names in parts.items()
        if names
    )


def made(version, time):
    """The files of the manual, by their path below its folder: bytes, which hang on the tree, the version and the time of the commit."""
    with tempfile.TemporaryDirectory() as room:
        source, site = Path(room) / "source", Path(room) / "site"
        source.mkdir()
        copied(source)
        run = subprocess.run(
            [
                PYTHON,
                "-m",
                "sphinx",
                "-q",
                "-W",
                "--keep-going",
                "-b",
                "html",
                "-d",
                str(Path(room) / "kept"),
                str(source),
                str(site),
            ],
            env={
                "PATH": os.environ.get("PATH", "/usr/bin:/bin"),
                "HOME": room,
                "LC_ALL": "C.UTF-8",
                "TZ": "UTC",
                "PYTHONHASHSEED": "0",
                "PYTHONDONTWRITEBYTECODE": "1",
                "SOURCE_DATE_EPOCH": str(time),
                "MANUAL_VERSION": version,
                "MANUAL_PYTHON": str(tree.TOP / "python"),
                "MANUAL_REFERENCE": " ".join(referred()),
            },
            stdin=subprocess.DEVNULL,
            stdout=subprocess.PIPE,
            stderr=subprocess.STDOUT,
            text=True,
        )
        if run.returncode:
            said = run.stdout.replace(str(source) + "/", "")
            raise NoManual(
                "the manual wasn't made; it needs Debian's packages %s, and those of python/packages:\n%s"
                % (NEEDED, said[-6000:])
            )
        return {
            str(path.relative_to(site)): path.read_bytes()
            for path in sorted(site.rglob("*"))
            if path.is_file() and path.name not in DROPPED
        }


def main():
    words = sys.argv[1:]
    if words in (["--help"], ["-h"]):
        print(__doc__.strip())
        return 0
    if len(words) > 1:
        sys.exit(__doc__)
    folder = Path(words[0]) if words else tree.OUT / "manual"
    try:
        files = made("", 0)
    except NoManual as error:
        print(error)
        return 1
    if not words:
        shutil.rmtree(folder, ignore_errors=True)
    for name, data in files.items():
        (folder / name).parent.mkdir(parents=True, exist_ok=True)
        (folder / name).write_bytes(data)
    print(
        "%s: %d files, %d bytes"
        % (folder / "index.html", len(files), sum(map(len, files.values())))
    )
    return 0


if __name__ == "__main__":
    sys.exit(main())
