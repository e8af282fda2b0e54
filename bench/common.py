"""What the benchmarks share: the built programs, the models, runs with their CPU seconds and peak memory, tables."""
import argparse
import ctypes
import os
import shutil
import subprocess
import sys
import tempfile
import time
from collections import namedtuple
from pathlib import Path

HERE = Path(__file__).resolve().parent
PIT = HERE.parent / "out" / "pit"
PEERS = HERE / "peers" / "out"
MODELS = HERE / "out"

# What bench/peers/generator is given after the prefix. The first five have the sizes of MineLib's mines of these names.
GENERATED = {
    "newman": "1060 24 24 10 five 2 7 cone",
    "zuck": "9400 46 46 20 cone2 2 3.2 cone",
    "kd": "14153 52 52 22 cone2 3 1.7 cone",
    "marvin": "53271 61 60 17 knight 4 2.4 box",
    "mclim": "112687 100 100 36 cone29 5 1.2 cone",
    "b120k": "120000 90 90 30 nine 6 1.3 box",
    "b350k": "350000 125 120 26 nine 6 1.3 box",
    "b1m": "1040000 180 180 40 five 7 1.0 box",
    "b2m": "2000000 240 240 40 five 7 1.0 box",
    "b10k": "10000 30 30 16 five 8 2 box",
    "rich3m": "3000000 280 280 46 five 17 12 box",
    "b10m": "10000000 420 420 66 five 12 1.5 box",
    "b15m": "15000000 500 500 70 nine 13 1.0 box",
    # one deposit, in blocks of seven sizes
    "d10k": "10000 30 30 16 five 21 2.2 deposit",
    "d30k": "30000 43 43 23 five 21 2.2 deposit",
    "d100k": "100000 64 64 34 five 21 2.2 deposit",
    "d300k": "300000 93 93 50 five 21 2.2 deposit",
    "d1m": "1000000 139 139 74 five 21 2.2 deposit",
    "d3m": "3000000 200 200 107 five 21 2.2 deposit",
    "d10m": "10000000 299 299 160 five 21 2.2 deposit",
}

Model = namedtuple("Model", "name prec upit blocks settings")
Run = namedtuple("Run", "status output cpu peak wall")

ENDINGS = (
    ".prec",
    ".upit",
    ".blocks",
    ".toml",
)  # of a model's files, as Model has them; the last one is made last

START = 'exec 3<&0; { read go <&3; exec "$@" </dev/null >&2 3<&-; } & echo $!'
SUBREAPER = 36  # prctl's PR_SET_CHILD_SUBREAPER


def arguments(doc, models):
    """A parser with the options that every benchmark of models has."""
    words = argparse.ArgumentParser(
        description=doc, formatter_class=argparse.RawDescriptionHelpFormatter
    )
    words.add_argument(
        "--models",
        nargs="+",
        default=models,
        metavar="MODEL",
        help="names (%s), which are generated where they aren't there, or PREFIX of PREFIX.prec and PREFIX.upit"
        % ", ".join(GENERATED),
    )
    words.add_argument(
        "--rounds", type=int, default=3, metavar="N", help="the best of N rounds counts (3)"
    )
    words.add_argument(
        "--core", type=int, default=0, metavar="N", help="the core on which everything runs (0)"
    )
    return words


def peer(name):
    """A program of bench/peers, built where that is needed."""
    subprocess.run(["make", "-s", "-C", str(HERE / "peers"), "out/" + name], check=True)
    return str(PEERS / name)


def model(name):
    """The files of a model; one that bench/peers/generator knows is generated once."""
    prefix = MODELS / name if name in GENERATED else Path(name).resolve()
    if name in GENERATED and not prefix.with_suffix(".toml").exists():
        MODELS.mkdir(exist_ok=True)
        room = Path(tempfile.mkdtemp(dir=MODELS))
        subprocess.run(
            [peer("generator"), str(room / name)] + GENERATED[name].split(),
            check=True,
            stdout=subprocess.DEVNULL,
        )
        for ending in ENDINGS:
            os.replace(room / (name + ending), prefix.with_suffix(ending))
        shutil.rmtree(room)
    files = [str(prefix) + ending for ending in ENDINGS]
    for file in files[:2]:
        if not os.path.exists(file):
            sys.exit("bench: no file %s" % file)
    return Model(prefix.name, *files)


def files_of(mine):
    return ["--prec", mine.prec, "--upit", mine.upit]


def priced_files_of(mine):
    return ["--prec", mine.prec, "--blocks", mine.blocks, "--settings", mine.settings]


def size_of(prec):
    """How many blocks and how many pairs a .prec file lists."""
    blocks = pairs = 0
    with open(prec, "rb") as lines:
        for line in lines:
            fields = line.split(None, 2)
            if fields and not fields[0].startswith(b"%"):
                blocks += 1
                pairs += int(fields[1])
    return blocks, pairs


def adopt_orphans():
    """Makes this process the parent of what a shell that it started leaves running."""
    if ctypes.CDLL(None, use_errno=True).prctl(SUBREAPER, 1, 0, 0, 0) != 0:
        sys.exit("bench: prctl refused PR_SET_CHILD_SUBREAPER")
    if not PIT.exists():
        sys.exit("bench: %s isn't built; see README.md" % PIT)


def run(words, core):
    """Runs a program on one core, or on several ("0-3"), and gives its status, output, CPU seconds, peak memory in MB and the
    seconds that passed.

    Linux counts the memory of a process that calls exec as memory of the new program too. A small shell starts the
    program, so that this is the shell's memory and not Python's, which would hide a small program's peak. The program
    waits for a line until the shell has ended, so that the shell can't take its usage.
    """
    with tempfile.TemporaryFile() as out:
        shell = subprocess.Popen(
            ["taskset", "-c", str(core), "sh", "-c", START, "sh"] + words,
            stdin=subprocess.PIPE,
            stdout=subprocess.PIPE,
            stderr=out,
        )
        pid = int(shell.stdout.readline())
        shell.stdout.close()
        shell.wait()
        begun = time.monotonic()
        shell.stdin.write(b"go\n")
        shell.stdin.close()
        _, status, usage = os.wait4(pid, 0)
        wall = time.monotonic() - begun
        out.seek(0)
        text = out.read().decode(errors="replace").strip()
    # Linux parts user from system seconds by its clock's ticks; their sum alone is exact.
    cpu = usage.ru_utime + usage.ru_stime
    return Run(os.waitstatus_to_exitcode(status), text, cpu, usage.ru_maxrss * 1024 / 1e6, wall)


def rounds(commands, count, core):
    """The runs of each command: one of each in every round."""
    runs = [[] for _ in commands]
    for _ in range(count):
        for own, words in zip(runs, commands):
            own.append(run(words, core))
    return runs


def best(runs):
    return min(r.cpu for r in runs), min(r.peak for r in runs)


def table(head, rows):
    rows = [head] + rows
    widths = [max(len(row[i]) for row in rows) for i in range(len(head))]
    rows.insert(1, ["-" * width for width in widths])
    for row in rows:
        print(
            "| "
            + " | ".join(
                cell.rjust(width) if i else cell.ljust(width)
                for i, (cell, width) in enumerate(zip(row, widths))
            )
            + " |"
        )
