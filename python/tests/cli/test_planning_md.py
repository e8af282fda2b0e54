"""Plays docs/PLANNING.md, and after it docs/STUDY.md: each command in them is run, in one folder,
and prints what the document shows.

In a document's indented blocks a line `$ words` is a command, and the lines below it are what it
prints; `..` stands for anything, in a line or in place of lines. What `$ cat FILE` shows of a text
of one's own is written to FILE.

    PIT=out/pit PYTHONPATH=python/tests/support python3 python/tests/cli/test_planning_md.py --rewrite

puts what the commands print now in place of what the document shows, but for lines with `..`; read
the difference.
"""
import os
import re
import subprocess
import sys
import tempfile
from pathlib import Path

import served

TOP = Path(__file__).resolve().parents[3]
DOCUMENTS = (
    TOP / "docs" / "PLANNING.md",
    TOP / "docs" / "STUDY.md",
)  # in the order in which they are played
OWN = ("study.toml", ".py")  # files that the walk writes with `cat`


def steps(lines):
    """(first line of output, line after it, command) of each command of the document."""
    found, i = [], 0
    while i < len(lines):
        if lines[i].startswith("    $ "):
            end = i + 1
            while (
                end < len(lines)
                and not lines[end].startswith("    $ ")
                and (lines[end].startswith("    ") or (lines[end] == "" and is_block(lines, end)))
            ):
                end += 1
            found.append((i + 1, end, lines[i][6:]))
            i = end
        else:
            i += 1
    return found


def is_block(lines, i):
    """Whether an empty line stands within an indented block."""
    while i < len(lines) and lines[i] == "":
        i += 1
    return i < len(lines) and lines[i].startswith("    ") and not lines[i].startswith("    $ ")


def played(command, shown, folder):
    """What a command prints; a text of one's own is written."""
    own = re.fullmatch(r"cat (\S+)", command)
    if own and own[1].endswith(OWN):
        path = folder / own[1]
        path.parent.mkdir(parents=True, exist_ok=True)
        path.write_text("\n".join(shown) + "\n")
    env = {**os.environ, "PYTHONPATH": "python", "COLUMNS": "160"}
    ran = subprocess.run(
        ["bash", "-c", command],
        cwd=folder,
        env=env,
        stdin=subprocess.DEVNULL,
        stdout=subprocess.PIPE,
        stderr=subprocess.STDOUT,
        text=True,
    )
    return [line.rstrip() for line in ran.stdout.rstrip("\n").split("\n")], ran.returncode


def agrees(shown, said):
    """Whether lines are those that the document shows."""
    pattern = "".join(
        "(?:.*\n)*?" if line.strip() == ".." else ".*".join(map(re.escape, line.split(".."))) + "\n"
        for line in shown
    )
    return re.fullmatch(pattern, "".join(line + "\n" for line in said)) is not None


def workplace(folder):
    """A folder in which the document's paths are those of the repository."""
    for name in ("examples", "python", "docs"):
        (folder / name).symlink_to(TOP / name)
    served.linked(folder / "bin")
    return folder


def shown_of(lines, start, end):
    return [line[4:].rstrip() for line in lines[start:end]]


def test_the_walk(tmp_path):
    folder = workplace(tmp_path)
    for document, fewest in zip(DOCUMENTS, (30, 4)):
        lines = document.read_text().splitlines()
        found = steps(lines)
        assert len(found) >= fewest, document.name
        for start, end, command in found:
            shown = shown_of(lines, start, end)
            said, _ = played(command, shown, folder)
            assert agrees(
                shown or [""], said
            ), f"line {start} of {document.name}: $ {command}\n" + "\n".join(said)


def test_figures_of_the_text_are_in_what_was_printed():
    """A figure of the running text, outside of code and tables, is one that some command printed."""
    lines = "\n".join(document.read_text() for document in DOCUMENTS).splitlines()
    printed = "\n".join(line for line in lines if line.startswith("    "))
    found = [
        number
        for line in lines
        if not line.startswith(("    ", "|"))
        for number in re.findall(
            r"(?<![\w.,-])\d[\d,]*\.?\d+(?![\w%])", re.sub(r"`[^`]*`", "", line)
        )
    ]
    strange = [number for number in found if len(number) > 3 and number not in printed]
    assert not strange, strange


def test_options_of_the_text_are_options_of_a_command():
    from typer.main import get_command

    from pitplan.cli import main as cli, console

    cli.load_commands()
    whole = get_command(console.app)
    known = {
        option
        for command in (whole, *whole.commands.values())
        for it in command.params
        for option in it.opts
    }
    known |= set(
        re.findall(r"--[a-z][\w-]*", (TOP / "completions" / "pit.bash").read_text())
    )  # those of `pit`
    named = set(
        re.findall(r"(?<![\w-])--[a-z][\w-]*", "\n".join(one.read_text() for one in DOCUMENTS))
    )
    assert len(named) > 20, named - known
    assert named - known <= {"--help", "--no-install-recommends"}, named - known


def rewrite():
    with tempfile.TemporaryDirectory() as name:
        folder = workplace(Path(name))
        for document in DOCUMENTS:
            lines = document.read_text().splitlines()
            for start, end, command in steps(lines):
                shown = shown_of(lines, start, end)
                said, _ = played(command, shown, folder)
                if not agrees(shown or [""], said):
                    print(f"$ {command}")
                    lines[start:end] = [None] * (end - start)
                    lines[start - 1] += "".join("\n    " + line if line else "\n" for line in said)
            document.write_text("\n".join(line for line in lines if line is not None) + "\n")


if __name__ == "__main__":
    sys.exit(rewrite() if sys.argv[1:] == ["--rewrite"] else __doc__)
