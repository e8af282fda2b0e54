"""The tree of this repository: its crates, what the program is made from, where the program lies, and who works on it.

The program and the sum that it was built from lie in `out/`, which the gate leaves alone: `rt ci` moves the `out` of
each crate aside while it runs.
"""
import fcntl
import functools
import hashlib
import os
import shutil
import subprocess
import sys
from contextlib import contextmanager
from pathlib import Path

TOP = Path(__file__).resolve().parent.parent
CRATES = TOP / "crates"
OUT = TOP / "out"
PROGRAM = OUT / "pit"
BUILT_FROM = OUT / "built-from"
ROOM = OUT / "room"  # the folders in which crates are proved
AGAIN = OUT / "again"  # a second tree, whose release is compared with the first
BY_KIT = CRATES / "pit" / "out" / "pit"
PARTS = ("src", "specs", "proofs", "data")


class Crate:
    """A line of crates.txt: the crate's name, its folder, and the crates that it depends on."""

    def __init__(self, line):
        head, _, uses = line.partition(":")
        self.line, self.name = line, head.split()[0]
        self.folder = CRATES / self.name
        self.uses = uses.split()
        self.of_kit = []
        self.below = {}
        self.is_program = (self.folder / "src" / "main.rt").exists()

    def files(self, top=TOP):
        folder = top / "crates" / self.name
        return sorted(
            file for part in PARTS for file in (folder / part).rglob("*") if file.is_file()
        )

    def lines(self):
        return sum(file.read_bytes().count(b"\n") for file in self.files())

    def lines_of_code(self):
        return sum(file.read_bytes().count(b"\n") for file in self.files() if file.suffix == ".rt")


def read_crates():
    """The crates of crates.txt by name, each after those that it stands on, with `below`: all of these.

    `uses` has the crates of this repository that its line names, `of_kit` the names of the kit's libraries.
    """
    lines = [line.split("#")[0].strip() for line in (TOP / "crates.txt").read_text().splitlines()]
    found = {crate.name: crate for crate in map(Crate, filter(None, lines))}
    placed = {}

    def place(crate):
        if crate.name not in placed:
            crate.of_kit = [name for name in crate.uses if name not in found]
            crate.uses = [found[name] for name in crate.uses if name in found]
            for other in crate.uses:
                place(other)
            crate.below = {
                it.name: it for other in crate.uses for it in [*other.below.values(), other]
            }
            placed[crate.name] = crate

    for crate in found.values():
        place(crate)
    return placed


def crates_of_program():
    """The crates that the program is made from, by name: those of `read_crates` without the crates of tests, on which nothing stands."""
    crates = read_crates()
    made_from = {
        name for crate in crates.values() if crate.is_program for name in [*crate.below, crate.name]
    }
    return {name: crate for name, crate in crates.items() if name in made_from}


@functools.lru_cache(maxsize=None)
def kit():
    """The kit's own line, as `rattle-kit-13f logic dac8208d650f15bf`."""
    try:
        return subprocess.run(
            ["rt", "version"], stdout=subprocess.PIPE, check=True, text=True
        ).stdout.strip()
    except (OSError, subprocess.CalledProcessError) as error:
        print(
            "the Rattle kit is missing: `rt version` failed (%s); README's Install says where it comes from"
            % error
        )
        sys.exit(2)


def kit_folder():
    """The folder in which the kit lies."""
    return Path(
        subprocess.run(["rt", "doc"], stdout=subprocess.PIPE, check=True, text=True).stdout.strip()
    ).parent


def digest(crates, top=TOP):
    """A sum of all that these crates are made from, in the tree at `top`, the kit's identity among it."""
    total = hashlib.sha256(kit().encode() + b"\n")
    for crate in crates:
        total.update(crate.line.encode() + b"\n")
        for file in crate.files(top):
            total.update(str(file.relative_to(top)).encode() + b"\0" + file.read_bytes() + b"\0")
    return total.hexdigest()


def is_built(now):
    """Whether the program is there, built from a tree with this digest."""
    return PROGRAM.exists() and BUILT_FROM.exists() and BUILT_FROM.read_text() == now


def land(program, now):
    """Puts a program that was just built, from a tree with this digest, into its place."""
    OUT.mkdir(exist_ok=True)
    BUILT_FROM.unlink(missing_ok=True)
    new = OUT / "pit.new"
    new.write_bytes(program.read_bytes())
    new.chmod(0o755)
    os.replace(new, PROGRAM)
    BUILT_FROM.write_text(now)


def newest_program():
    """The program that was built last, by `./build` or by the kit alone (`rt ci`, `rt run`)."""
    return max(
        (file for file in (PROGRAM, BY_KIT) if file.exists()),
        key=lambda it: it.stat().st_mtime,
        default=PROGRAM,
    )


def clear_rooms():
    """Removes what a build left that was killed. The kit's gate refuses sources there."""
    for folder in (ROOM, AGAIN):
        shutil.rmtree(folder, ignore_errors=True)


@contextmanager
def alone():
    """Waits until no other build and no gate works in this tree, says so if it has to, and keeps others out."""
    OUT.mkdir(exist_ok=True)
    with open(OUT / "lock", "w") as lock:
        try:
            fcntl.flock(lock, fcntl.LOCK_EX | fcntl.LOCK_NB)
        except BlockingIOError:
            print(
                "another build, or the gate, is at work in this tree: waiting until it ends",
                flush=True,
            )
            fcntl.flock(lock, fcntl.LOCK_EX)
        yield
