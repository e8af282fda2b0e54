"""Lets one call of the program to the system fail, each in turn: memory is refused, a read or a write fails, a thread
can't be started. Some cases of tests/cases are run so, with the C compiler's help (tests/program/failing_calls.c).

The program has to answer as with ample means, or as FORMATS.md says of the failure: status 4 and its one line on
standard error; then standard output is empty, or, where a write to it failed, has a prefix of the answer.
"""
import os
import re
import shutil
import subprocess
import tempfile
from concurrent.futures import ThreadPoolExecutor
from itertools import count
from pathlib import Path

HERE = Path(__file__).resolve().parent
ROWS = (
    "check/two_ore_blocks_share_one_waste_block",
    "check/prices_in_full",
    "check/slopes_by_region",
    "check/values_beside_slopes",
    "solve/two_ore_blocks_share_one_waste_block_by_one_worker",
    "solve/one_block_by_two_workers_at_its_tenth_step",
    "solve/lock_free_ore_only_pays_its_waste",
    "solve/lock_free_ore_only_pays_its_waste_by_two_workers",
    "solve/trace_of_a_settled_run",
    "replay/two_ore_blocks_over_one_waste_block",
    "slopes/nine",
    "slopes/the_copper_mine",
    "shells/two_prices",
    "shells/two_prices_by_two_threads_of_the_machine",
    "shells/by_block_two_prices",
    "report/two_prices",
    "value/all_three_blocks_beside_the_best_pit",
    "value/prices_of_a_block_that_needs_another",
    "bound/three_blocks_over_two_periods",
    "solve/over_periods",
)
# Each kind of failure, how it shows, and the lines that may come.
KINDS = (
    ("memory", "error", ("memory", "thread")),
    ("thread", "error", ("thread", "memory")),
    ("read", "error", ("device",)),
    ("read", "interrupted", ("device",)),
    ("write", "error", ("device",)),
    ("write", "interrupted", ("device",)),
    ("write", "nothing", ("device",)),
)
# How many threads are started by so many workers beside the caller's own, for the shells of the copper mine at eight factors. The
# highest one is looked for first, then the middle one, then two at a time, and then four: each time as many threads start as
# there are workers and parts, less one. Without a word there is one worker. And how many start where three threads read each of
# two texts, of which one is the caller's own.
EIGHT = "factors = [300, 400, 500, 600, 700, 800, 900, 1000]"
STARTS = (
    *(
        (
            "shells/the_copper_mine_with_a_mill",
            ["--method", "pseudoflow", "--workers", str(workers)],
            sum(min(workers, parts) - 1 for parts in (1, 1, 2, 4)),
        )
        for workers in (1, 2, 3, 4, 5)
    ),
    ("shells/the_copper_mine_with_a_mill", ["--method", "pseudoflow"], 0),
    ("solve/lock_free_one_block_worth_digging", [], 0),
    ("solve/lock_free_one_block_worth_digging", ["--threads", "3"], 4),
    ("solve/over_periods", ["--method", "pseudoflow", "--threads", "3"], 4),
    ("check/the_copper_mine", ["--threads", "3"], 4),
)
# How long a run may take, and what stands for the status of one that takes longer.
SECONDS = 120
NO_ANSWER = "no answer"


def shim(room):
    """The library that lets calls fail, or None where there is no C compiler."""
    compiler = next(filter(shutil.which, ("cc", "gcc", "clang")), None)
    if compiler is None:
        return None
    made = Path(room) / "failing_calls.so"
    subprocess.run(
        [
            compiler,
            "-O1",
            "-shared",
            "-fPIC",
            "-o",
            str(made),
            str(HERE / "failing_calls.c"),
            "-ldl",
        ],
        check=True,
    )
    return made


def lay_out(case, folder):
    """Puts the files of a case into a folder, and gives its words."""
    for file in case.iterdir():
        shutil.copy(file, folder / file.name)
    if (case / "same-as").exists():
        for line in (case / "same-as").read_text().splitlines():
            name, source = line.split()
            shutil.copy(case / source, folder / name)
    return (case / "words").read_text().split("\n")[:-1]


def run(program, words, folder, settings=None):
    """The status, the output and the errors; the status NO_ANSWER where none came in time."""
    try:
        done = subprocess.run(
            [str(program), *words],
            cwd=folder,
            stdin=subprocess.DEVNULL,
            stdout=subprocess.PIPE,
            stderr=subprocess.PIPE,
            timeout=SECONDS,
            env={**os.environ, **(settings or {})},
        )
    except subprocess.TimeoutExpired:
        return NO_ANSWER, b"", b"no answer in %d seconds" % SECONDS
    return done.returncode, done.stdout, done.stderr


def is_allowed(answer, ample, kind, lines):
    """Whether the program may answer so where a call of this kind failed."""
    status, output, errors = answer
    is_told = status == 4 and any(errors == b"fault: %s\n" % line.encode() for line in lines)
    if kind == "write":
        return is_told and ample[1].startswith(output)
    if kind == "read":
        return is_told and output == b""
    return answer == ample or (is_told and output == b"")


def tried(program, library, row, kind, how, lines):
    """Lets one call after the other fail, until the run doesn't come to it: how many there were, and what was wrong."""
    wrong = []
    with tempfile.TemporaryDirectory() as room:
        folder = Path(room) / "case"
        folder.mkdir()
        words = lay_out(HERE.parent / "cases" / row, folder)
        ample = run(program, words, folder)
        if ample[0] == NO_ANSWER:
            return 1, ["no call fails: %s" % ample[2].decode()]
        mark = Path(room) / "mark"
        for number in count(1):
            answer = run(
                program,
                words,
                folder,
                {
                    "LD_PRELOAD": str(library),
                    "FAIL_KIND": kind,
                    "FAIL_HOW": how,
                    "FAIL_AT": str(number),
                    "FAIL_MARK": str(mark),
                },
            )
            if not mark.exists():
                return number - 1, wrong
            mark.unlink()
            if not is_allowed(answer, ample, kind, lines):
                wrong.append(
                    "call %d: status %s, output %r, errors %r"
                    % (number, answer[0], answer[1][:80], answer[2][:200])
                )


def starts(program, library, row, words, wanted):
    """What is wrong with the number of threads that a case starts, or nothing."""
    with tempfile.TemporaryDirectory() as room:
        folder, mark = Path(room) / "case", Path(room) / "mark"
        folder.mkdir()
        words = lay_out(HERE.parent / "cases" / row, folder) + words
        if (folder / "s").exists():
            settings = (folder / "s").read_text()
            (folder / "s").write_text(re.sub(r"^factors = .*$", EIGHT, settings, flags=re.M))
        for number in count(1):
            run(
                program,
                words,
                folder,
                {
                    "LD_PRELOAD": str(library),
                    "FAIL_KIND": "thread",
                    "FAIL_HOW": "error",
                    "FAIL_AT": str(number),
                    "FAIL_MARK": str(mark),
                },
            )
            if not mark.exists():
                return (
                    None
                    if number - 1 == wanted
                    else "%s starts %d threads, and not %d" % (" ".join(words), number - 1, wanted)
                )
            mark.unlink()


def try_all(program, is_told=False):
    """Tries all rows, prints a table where that is asked for, and gives how many calls were answered as they must be and how many not."""
    with tempfile.TemporaryDirectory() as room:
        library = shim(room)
        if library is None:
            print("refused calls: no C compiler, so none was tried")
            return 0, 0
        tasks = [(row, *kind) for row in ROWS for kind in KINDS]
        with ThreadPoolExecutor(len(os.sched_getaffinity(0))) as pool:
            results = list(pool.map(lambda task: tried(program, library, *task), tasks))
            strange = list(
                filter(None, pool.map(lambda task: starts(program, library, *task), STARTS))
            )
    for line in strange:
        print(line)
    passed, failed = len(STARTS) - len(strange), len(strange)
    for (row, kind, how, _), (met, wrong) in zip(tasks, results):
        if is_told or wrong:
            print("%-56s %-7s %-12s %5d calls, %d wrong" % (row, kind, how, met, len(wrong)))
        for line in wrong[:5]:
            print("    " + line)
        passed, failed = passed + met - len(wrong), failed + len(wrong)
    return passed, failed
