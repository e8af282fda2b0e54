"""Runs the built program on mutations of the files of tests/cases, for a given number of minutes.

Each answer has to be one that FORMATS.md allows: a status from 0 to 4 and no signal; standard output empty at 2, 3 and 4;
one line `fault: ..` on standard error at 3 and 4, and nothing at 0 and 1. Where a certificate is accepted or written, its
pit is looked at by tests/program/plain_check.py, and a written one is checked by the program. What fails is kept in out/fuzz.
"""
import os
import random
import re
import shutil
import subprocess
import tempfile
import time
from concurrent.futures import ThreadPoolExecutor
from fractions import Fraction
from pathlib import Path

from program import plain_check
from program.refused_calls import lay_out

TOP = Path(__file__).resolve().parents[2]
CASES = TOP / "tests" / "cases"
FOUND = TOP / "out" / "fuzz"
KINDS = (
    "check",
    "solve",
    "slopes",
    "shells",
    "report",
    "replay",
    "value",
    "schedule",
    "bound",
    "certificate",
    "settings",
    "hostile",
    "prec",
    "upit",
)
OWN = {"words", "status", "stdout", "stderr", "stderr-any", "same-as"}
LARGEST = 20_000
SECONDS = 30
WORDS = [
    b"0",
    b"1",
    b"-1",
    b"4294967296",
    b"18446744073709551616",
    b"-0",
    b"1e40",
    b"1e-40",
    b"0.0000005",
    b"%",
    b"EOF",
    b"END",
    b"170141183460469231731687303715884105727",
    b"-170141183460469231731687303715884105728",
    b"nan",
    b"",
    b"\xff",
    b"\r",
    b"\0",
]


OF_PERIODS = ("uses", "periods", "pit")  # options of the mine of blocks and periods


def seeds():
    """The cases that are mutated: those whose files are small, and that do no more than read and answer."""
    for case in sorted(case for kind in KINDS for case in (CASES / kind).glob("*")):
        words = (case / "words").read_text().split("\n")[:-1]
        is_plain = not {"stdout-to", "address-space"} & {file.name for file in case.iterdir()}
        if is_plain and not {"--progress", "--verbose", "--help"} & set(words):
            yield case


def mutated(chance, text, other):
    """A text with one to four changes of bytes, fields or lines."""
    for _ in range(chance.randint(1, 4)):
        lines = text.split(b"\n")
        line = chance.randrange(len(lines))
        fields = lines[line].split(b" ")
        field = chance.randrange(len(fields))
        match chance.randrange(10):
            case 0:
                at = chance.randrange(len(text) + 1)
                text = text[:at] + bytes([chance.randrange(256)]) + text[at + chance.randrange(2) :]
                continue
            case 1:
                text = text[: chance.randrange(len(text) + 1)]
                continue
            case 2:
                lines.insert(chance.randrange(len(lines) + 1), lines[line])
            case 3:
                del lines[line]
            case 4:
                fields[field] = chance.choice(WORDS)
                lines[line] = b" ".join(fields)
            case 5:
                fields.insert(field, chance.choice(WORDS))
                lines[line] = b" ".join(fields)
            case 6:
                del fields[field]
                lines[line] = b" ".join(fields)
            case 7:
                to = chance.randrange(len(lines))
                lines[line], lines[to] = lines[to], lines[line]
            case 8:
                lines[line:line] = other.split(b"\n")[: chance.randrange(8)]
            case 9:
                fields[field] = str(chance.randrange(-3, 12)).encode()
                lines[line] = b" ".join(fields)
        text = b"\n".join(lines)
    return text


def answer_of(program, words, folder):
    done = subprocess.run(
        [str(program), *words],
        cwd=folder,
        stdin=subprocess.DEVNULL,
        stdout=subprocess.PIPE,
        stderr=subprocess.PIPE,
        timeout=SECONDS,
    )
    return done.returncode, done.stdout, done.stderr


def named(words, option):
    return words[words.index("--" + option) + 1] if "--" + option in words else None


def plainly(words, folder, certificate):
    """What the plain reader says of a certificate for the files that the words name, or None where it can't read them or slopes
    stand in the place of a precedence."""
    files = {
        option: (folder / named(words, option)).read_bytes()
        for option in ("prec", "upit", "settings", "blocks")
        if named(words, option)
    }
    try:
        return plain_check.verdict(files, certificate) if "prec" in files else None
    except plain_check.Unread:
        return None


def wrong_pit(program, words, folder, output):
    """What is wrong with a certificate that was accepted or written, or None. One of blocks and periods is a bound's."""
    if words[0] == "solve":
        (folder / "written.cert").write_bytes(output)
        command = "bound" if named(words, "periods") else "check"
        model = [
            word
            for option in ("prec", "upit", "settings", "blocks", *OF_PERIODS)
            if named(words, option)
            for word in ("--" + option, named(words, option))
        ]
        status, output, errors = answer_of(program, [command, *model, "written.cert"], folder)
        if status != 0:
            return "its certificate is answered with %r, %r" % (output, errors[:200])
        if command == "bound":
            return (
                None
                if re.fullmatch(rb"BOUND -?\d+(\.\d+)?\n", output)
                else "%r is no bound" % output
            )
        certificate = (folder / "written.cert").read_bytes()
    else:
        certificate = (folder / words[-1]).read_bytes()
    said = output.split()
    seen = plainly(words, folder, certificate)
    if seen is not None and seen != (True, int(said[1]), Fraction(said[2].decode())):
        return "accepted as %r, and plainly it is %r" % (output, seen)
    return None


def wrong(program, words, folder):
    """What is wrong with the answer to these words, or None."""
    try:
        status, output, errors = answer_of(program, words, folder)
    except subprocess.TimeoutExpired:
        return "no answer in %d seconds" % SECONDS
    if status not in range(5):
        return "status %d" % status
    if status >= 2 and output:
        return "standard output %r at status %d" % (output[:80], status)
    if status in (3, 4) and not (
        errors.startswith(b"fault: ") and errors.count(b"\n") == 1 and errors.endswith(b"\n")
    ):
        return "standard error %r at status %d" % (errors[:200], status)
    if status < 2 and errors:
        return "standard error %r at status %d" % (errors[:200], status)
    if status == 0 and words[:1] in (["check"], ["solve"]):
        return wrong_pit(program, words, folder, output)
    return None


def one_run(program, case, others, seed):
    """Mutates a file of a case and runs it: its status, or what was wrong, which is kept."""
    chance = random.Random(seed)
    with tempfile.TemporaryDirectory() as room:
        folder = Path(room)
        words = lay_out(case, folder)
        files = [
            file
            for file in folder.iterdir()
            if file.name not in OWN and file.stat().st_size <= LARGEST
        ]
        if not files or any(file.stat().st_size > LARGEST for file in folder.iterdir()):
            return None
        file = chance.choice(sorted(files))
        file.write_bytes(mutated(chance, file.read_bytes(), chance.choice(others)))
        if words[:1] in (["solve"], ["shells"], ["report"]) and "--steps" not in words:
            words += ["--steps", "20000"]
        what = wrong(program, words, folder)
        if what:
            kept = FOUND / str(seed)
            shutil.copytree(folder, kept, dirs_exist_ok=True)
            (kept / "words").write_text("\n".join(words) + "\n")
            print(
                "%s, seed %d: %s; kept in %s" % (case.relative_to(CASES), seed, what, kept),
                flush=True,
            )
        return what


def runs_until(program, cases, others, end, first, step):
    """Runs one mutation after the other until the time is over: how many were run, and how many were wrong."""
    ran = failed = 0
    seed = first
    while time.time() < end:
        what = one_run(program, cases[seed % len(cases)], others, seed)
        ran, failed, seed = ran + 1, failed + bool(what), seed + step
    return ran, failed


def fuzz(program, minutes, first):
    """Runs mutations for so many minutes, from a seed on, and gives how many were right and how many wrong."""
    cases = list(seeds())
    others = [
        file.read_bytes()
        for case in cases
        for file in case.iterdir()
        if file.name not in OWN and file.stat().st_size <= LARGEST
    ]
    workers = len(os.sched_getaffinity(0))
    end = time.time() + 60 * minutes
    with ThreadPoolExecutor(workers) as pool:
        counts = list(
            pool.map(
                lambda k: runs_until(program, cases, others, end, first + k, workers),
                range(workers),
            )
        )
    ran, failed = (sum(count[i] for count in counts) for i in (0, 1))
    print(
        "%d mutations of %d cases in %g minutes from seed %d, %d wrong"
        % (ran, len(cases), minutes, first, failed)
    )
    return ran - failed, failed
