"""Counts the instructions of five runs of the built program (valgrind's callgrind), and compares them with what they were; and the
writes of one of them.

No proof sees how much work a run does, and a time depends on the machine; the instructions of one thread don't. A search that is
quadratic, a text that is sent line by line, or held bytes that are copied at each step, shows here. A count has to lie within a
tenth of the one that was written down. Whoever makes a run quicker, or slower for a reason, writes the new one down:

    python3 tests/program/instructions.py PROGRAM       prints the counts of this program
"""
import os
import re
import shutil
import subprocess
import sys
import tempfile
from pathlib import Path

sys.path.insert(0, str(Path(__file__).resolve().parents[1]))

from program import day_mine, refused_calls
from program.surroundings import chain

# Millions of instructions of each run, written down on 2026-11-26 with the kit's logic dac8208d650f15bf.
MILLIONS = {"slopes": 179.6, "solve": 93.1, "check": 51.7, "shells": 177.1, "replay": 91.6}
BLOCKS = 20_000  # the upper eight benches of the mine of tests/day
PAGE = 8192  # the bytes that are sent at once, at least
SETTINGS = "revenue = 0\ncost = 1\ntonnes = 2\nfactors = [600, 800, 1000, 1200]\n"
PRICES = ["--prec", "p", "--blocks", "b", "--settings", "s"]
RUNS = {
    "slopes": ["slopes", "--blocks", "b", "--pattern", "cone:4:1:2"],
    "solve": ["solve", "--prec", "p", "--upit", "u", "--method", "pseudoflow"],
    "check": ["check", "--prec", "p", "--upit", "u", "c"],
    "shells": ["shells", *PRICES, "--method", "pseudoflow"],
    "replay": ["replay", "--prec", "cp", "--upit", "cu", "t"],
}


def lay_out(program, folder):
    """The mine, its slopes and its certificate, and a trace of a chain."""
    mine, small = day_mine.blocks()[:BLOCKS], chain(60, 60)
    texts = {
        "b": day_mine.blocks_text(mine),
        "u": day_mine.upit_text("day", mine),
        "s": SETTINGS,
        "cp": small["p"],
        "cu": small["u"],
    }
    for name, text in texts.items():
        (folder / name).write_text(text)
    for name, words in (("p", RUNS["slopes"]), ("c", RUNS["solve"])):
        status, output, errors = refused_calls.run(program, words, folder)
        if status:
            raise RuntimeError("%s: status %s, %r" % (" ".join(words), status, errors))
        (folder / name).write_bytes(output)
    refused_calls.run(program, ["solve", "--prec", "cp", "--upit", "cu", "--trace", "t"], folder)


def millions_of(program, words, folder):
    """The instructions of a run, in millions."""
    done = subprocess.run(
        ["valgrind", "--tool=callgrind", "--callgrind-out-file=/dev/null", str(program), *words],
        cwd=folder,
        stdin=subprocess.DEVNULL,
        stdout=subprocess.DEVNULL,
        stderr=subprocess.PIPE,
        text=True,
    )
    return int(re.search(r"Collected : (\d+)", done.stderr)[1]) / 10**6


def sends_large_pieces(program, folder):
    """Whether `slopes` sends no more pieces than its text has pages, and two: the next write isn't met where it would fail."""
    library = refused_calls.shim(folder)
    if library is None:
        return None
    most, mark = (folder / "p").stat().st_size // PAGE + 2, folder / "mark"
    refused_calls.run(
        program,
        RUNS["slopes"],
        folder,
        {
            "LD_PRELOAD": str(library),
            "FAIL_KIND": "write",
            "FAIL_HOW": "error",
            "FAIL_AT": str(most + 1),
            "FAIL_MARK": str(mark),
        },
    )
    return "slopes: more than %d writes" % most if mark.exists() else None


def try_all(program):
    """Tries all of it, and gives how many counts were as they must be and how many not."""
    if shutil.which("valgrind") is None:
        print("instructions: no valgrind, so none were counted")
        return 0, 0
    with tempfile.TemporaryDirectory() as room:
        folder = Path(room)
        lay_out(program, folder)
        wrong = [sends_large_pieces(program, folder)]
        for name, words in RUNS.items():
            count, wanted = millions_of(program, words, folder), MILLIONS[name]
            wrong.append(
                None
                if abs(count - wanted) <= wanted / 10
                else "%s: %.1f million instructions in place of %.1f" % (name, count, wanted)
            )
    for line in filter(None, wrong):
        print("instructions: %s" % line)
    failed = sum(map(bool, wrong))
    return len(wrong) - failed, failed


if __name__ == "__main__":
    with tempfile.TemporaryDirectory() as made:
        lay_out(os.path.abspath(sys.argv[1]), Path(made))
        for run_name, run_words in RUNS.items():
            print(
                "%-8s %.1f" % (run_name, millions_of(os.path.abspath(sys.argv[1]), run_words, made))
            )
