"""A program that calls crates of this repository, for what no command of `pit` shows by itself."""
import shutil
import subprocess
import sys

from common import HERE, MODELS

TOP = HERE.parent
PARTS = ("src", "specs", "proofs", "data")


def lines_below(names):
    """The lines of crates.txt for these crates and all that they stand on, in its order."""
    lines = [line.split("#")[0].strip() for line in (TOP / "crates.txt").read_text().splitlines()]
    uses = {line.partition(":")[0].split()[0]: line for line in lines if line}
    needed, rest = set(), list(names)
    while rest:
        name = rest.pop()
        if name in uses and name not in needed:
            needed.add(name)
            rest += uses[name].partition(":")[2].split()
    return {name: line for name, line in uses.items() if name in needed}


def fill(room, name, uses, source):
    """Makes the top of a repository of the program and of the crates that it stands on, and gives the program's folder."""
    lines = lines_below(uses)
    room.mkdir(exist_ok=True)
    for crate in lines:
        for part in PARTS:
            if (TOP / "crates" / crate / part).is_dir():
                shutil.copytree(TOP / "crates" / crate / part, room / "crates" / crate / part)
    (room / "crates.txt").write_text(
        "".join(line + "\n" for line in lines.values()) + "%s: %s\n" % (name, " ".join(uses))
    )
    shutil.copy(TOP / "HANDLES", room)
    (room / ".git").mkdir()  # which tells the kit that the top is here
    made = room / "crates" / name
    (made / "src").mkdir(parents=True)
    shutil.copy(source, made / "src" / "main.rt")
    return made


def program(room, name, uses, source):
    """The program of this name and text, which the kit's gate proves and builds in the room.

    The text has another ending than those of crates, so that the repository's gate passes over it. What the gate has kept of the
    crates on this machine isn't proved again, so after a build this takes a minute or two; before one it takes many.
    """
    made, log = fill(room, name, uses, source), MODELS / (name + ".log")
    MODELS.mkdir(exist_ok=True)
    with open(log, "w") as said:
        # it runs the program too, and fails where that ends otherwise than a gate wants: that is nothing to us
        subprocess.run(
            ["rt", "ci"], cwd=room, stdin=subprocess.DEVNULL, stdout=said, stderr=subprocess.STDOUT
        )
    if not (made / "out" / name).exists():
        sys.exit(f"bench: the program isn't proved: see {log}")
    return str(made / "out" / name)
