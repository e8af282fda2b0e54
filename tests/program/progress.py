"""What `--progress` tells of a run of a second or more, and `--verbose` at its end, compared line by line; what is told of each factor is a case.

The values come from a pipe that gives them a second late, so that the clock has something to tell also where the run is short.
Only the seconds may be others than these.
"""
import os
import re
import subprocess
import tempfile
import threading
import time
from pathlib import Path

from program import nets

# A chain of 400 blocks, over which the machine makes far more than 100,000 steps.
CHAIN = nets.long_chain(2, True, half=200)
ORE = nets.Mine([1], [], None, ())

# The mine, the words, the status, and each line on standard error, but for the seconds.
RUNS = (
    (ORE, ["--method", "pseudoflow"], 0, ["progress: 1 of 1 blocks settled"]),
    # told after the first tree's turns, by which no tree can be lifted; the end comes in the same second
    (CHAIN, ["--method", "pseudoflow"], 0, ["progress: 0 of 400 blocks settled"]),
    (
        CHAIN,
        ["--method", "push-relabel", "--steps", "100000"],
        1,
        ["progress: 65536 steps, 65% of the limit"],
    ),
    (
        CHAIN,
        ["--method", "lock-free", "--steps", "100000"],
        1,
        ["progress: 65536 steps, 65% of the limit"],
    ),
    # one block and one period are one node
    (
        ORE,
        ["--uses", "b", "--periods", "t", "--method", "pseudoflow"],
        0,
        ["progress: 1 of 1 blocks settled"],
    ),
)
ONE_PERIOD = "weights = [1000000]\nresources = []\ncapacities = []\nmultipliers = []\n"
# Two ore blocks that pay together for the waste on both; and one that doesn't pay for its waste, beside one that has none.
ALL = nets.Mine([6, 5, -10], [(0, 2), (1, 2)], None, ())
PART = nets.Mine([6, 4, -30], [(0, 2)], None, ())
# The same of the end, without --progress: by each method, and with a trace.
ENDS = tuple(
    (mine, [*words, "--verbose"], 0, [line])
    for mine, line in (
        (ALL, "proved: 3 of 3 blocks, worth 1"),
        (PART, "proved: 1 of 3 blocks, worth 4"),
    )
    for words in (
        [],
        ["--workers", "2"],
        ["--method", "pseudoflow"],
        ["--method", "lock-free"],
        ["--method", "lock-free", "--workers", "2"],
        ["--group", "worth"],
        ["--trace", "x"],
    )
)


def give_late(pipe, text):
    """Gives the pipe the text once a second has passed since a reader opened it."""
    with open(pipe, "w") as writer:
        time.sleep(1.1)
        writer.write(text)


def told(program, mine, words):
    """The status and the lines on standard error, without the seconds where these are at least one."""
    upit, prec, _ = nets.texts_of(mine.worths, mine.pairs)
    with tempfile.TemporaryDirectory() as folder:
        os.mkfifo(Path(folder) / "u")
        (Path(folder) / "p").write_text(prec)
        (Path(folder) / "b").write_text("0 0 0 0\n")
        (Path(folder) / "t").write_text(ONE_PERIOD)
        giver = threading.Thread(target=give_late, args=(Path(folder) / "u", upit))
        giver.start()
        done = subprocess.run(
            [str(program), "solve", "--prec", "p", "--upit", "u", *words],
            cwd=folder,
            stdin=subprocess.DEVNULL,
            stdout=subprocess.DEVNULL,
            stderr=subprocess.PIPE,
            text=True,
            timeout=60,
        )
        giver.join()
    return done.returncode, [
        re.sub(r", [1-9]\d* s$", "", line) for line in done.stderr.splitlines()
    ]


def try_all(program):
    """Tries every run, and gives how many told what they must and how many not."""
    failed = 0
    for mine, words, status, lines in [
        (mine, ["--progress", *words], status, lines) for mine, words, status, lines in RUNS
    ] + [*ENDS]:
        answer = told(program, mine, words)
        if answer != (status, lines):
            print("progress of %s: %s in place of %s" % (" ".join(words), answer, (status, lines)))
            failed += 1
    return len(RUNS) + len(ENDS) - failed, failed
