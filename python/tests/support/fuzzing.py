"""Throws damaged studies, kept files and requests at pitplan: each is answered by a result or by one
message, never by a traceback or a library's warning.

    python3 python/tests/support/fuzzing.py KIND [SECONDS [SEED [NUMBER]]]

A KIND is a module fuzz_KIND beside this one. It has `room`, in which samples are tried, and which is
made once; `sample`, what is tried, by a random generator of its own; `answer`, which gives how it was
answered, in a word or two, and raises whatever is no answer; and `shown`, a sample in words. Samples
from NUMBER on are tried until SECONDS are over. Prints how many were answered in which way, and the
first that wasn't, with how it is tried again.
"""
import importlib
import json
import random
import re
import signal
import sys
import tempfile
import time
import traceback
import warnings
from collections import Counter
from pathlib import Path

HERE = Path(__file__).resolve().parent
sys.path[:0] = [str(HERE.parents[1]), str(HERE)]

KINDS = ("studies", "kept", "desk")
PATIENCE = 300  # seconds in which a sample has to be answered, on a busy machine
MESSAGE = re.compile(r"[^\n]+(\n  try: [^\n]+)?")
BYTES = [b"\xff", b"\x00", b"\xef\xbb\xbf", b"\r", b"\n", b'"', b",", b";", b"\t", b"\xc3\x28"]
# what JSON may have in place of another value: also of other types, too large, or no text
JUNK = [
    None,
    True,
    False,
    0,
    1,
    -1,
    2,
    2.5,
    -0.5,
    1e300,
    1e-320,
    2**31,
    2**53,
    2**63,
    10**40,
    10**400,
]
JUNK += [
    float("nan"),
    float("inf"),
    "",
    "x",
    "0",
    "-1",
    "9,250",
    "0,9",
    "CU",
    "CU +",
    "SECTOR",
    "é",
]
JUNK += [
    "\ud800",
    "\0",
    "\x1b[2J",
    "'\"",
    "\n\n[x]",
    "# x",
    "[red]",
    "2024-01-01",
    "..",
    "/etc/passwd",
]
JUNK += ["0" * 64, "x" * 5000, [], {}, [[]], [1], [None], ["x"], {"x": 1}, {"name": "x"}]


class Late(BaseException):
    """A sample wasn't answered in time."""


def places_in(value, path=()):
    """The path of each value within one of JSON."""
    each = (
        value.items()
        if isinstance(value, dict)
        else enumerate(value)
        if isinstance(value, list)
        else ()
    )
    return [path, *(found for key, one in each for found in places_in(one, (*path, key)))]


def changed_value(value, r):
    """A value of JSON with one of its parts changed, taken out or doubled, or a key renamed."""
    path = r.choice(places_in(value)[1:] or [()])
    if not path:
        return r.choice(JUNK)
    value = json.loads(json.dumps(value))
    *above, last = path
    held = value
    for key in above:
        held = held[key]
    kind = r.choice(["junk"] * 4 + ["gone", "doubled", "other", "deep"])
    if kind == "junk":
        held[last] = r.choice(JUNK)
    elif kind == "gone":
        del held[last]
    elif kind == "deep":
        held[last] = [held[last]]
    elif isinstance(held, list):
        held.insert(last, r.choice(held))
    elif kind == "doubled":
        held[r.choice(["x", "", "name", str(last).upper()])] = held.pop(last)
    else:
        held[last] = held[r.choice(list(held))]
    return value


def changed_bytes(data, r):
    """Bytes with a change: some others, cut off, doubled, or a part in another's place."""
    at = r.randrange(len(data) + 1)
    kind = r.choice(
        ["bit"] * 3 + ["put", "put", "cut", "empty", "gone", "doubled", "moved", "more"]
    )
    if kind == "bit" and data:
        at = min(at, len(data) - 1)
        return data[:at] + bytes([data[at] ^ 1 << r.randrange(8)]) + data[at + 1 :]
    if kind == "put":
        return data[:at] + r.choice(BYTES) * r.choice([1, 1, 40]) + data[at + r.randrange(3) :]
    if kind == "cut":
        return data[:at]
    if kind == "gone":
        return data[:at] + data[at + r.randrange(1, 100) :]
    if kind == "doubled":
        return data + data
    if kind == "moved":
        return data[at:] + data[:at]
    return data + r.randbytes(9) if kind == "more" else b""


def refuse_other_form(error):
    """Refuses an error that isn't told in the stated form."""
    if not all(MESSAGE.fullmatch(str(each)) for each in error.each()):
        raise AssertionError(f"a message of another form: {str(error)!r}") from error


def generator(number, seed):
    """What draws the sample of a number."""
    return random.Random(f"{seed}-{number}")


def _late(*_):
    raise Late(f"no answer in {PATIENCE} seconds")


def run(kind, samples=10**9, seconds=10**6, seed=1, first=0):
    """As `tried`, in a room of its own."""
    with tempfile.TemporaryDirectory(prefix="fuzz.") as folder, kind.room(Path(folder)) as held:
        return tried(kind, held, range(first, first + samples), seconds, seed)


def tried(kind, held, numbers, seconds=10**6, seed=1):
    """Counts of the answers, and the first sample that wasn't answered, in words; None where each was.
    The first is tried whatever the time."""
    found, until = Counter(), time.monotonic() + seconds
    before = signal.signal(signal.SIGALRM, _late)
    with warnings.catch_warnings():
        warnings.simplefilter("error")  # a planner would see them beside the message
        warnings.simplefilter("ignore", ResourceWarning)  # but those
        for number in numbers:
            if number > numbers[0] and time.monotonic() > until:
                break
            sample = kind.sample(generator(number, seed))
            signal.alarm(PATIENCE)
            try:
                found[kind.answer(held, sample)] += 1
            except (Exception, Late):
                name = kind.__name__.removeprefix("fuzz_")
                again = f"python3 python/tests/support/fuzzing.py {name} 0 {seed} {number}"
                words = f"{kind.shown(sample)}\n----\n{traceback.format_exc()}again: {again}"
                return found, words
            finally:
                signal.alarm(0)
    signal.signal(signal.SIGALRM, before)
    return found, None


def main():
    name, *more = sys.argv[1:] or ["studies"]
    seconds, seed, first = [*more, *["60", "1", "0"][len(more) :]]
    began, kind = time.monotonic(), importlib.import_module(f"fuzz_{name}")
    found, bad = run(kind, seconds=float(seconds), seed=int(seed), first=int(first))
    counts = ", ".join(f"{count} {what}" for what, count in found.most_common())
    spent = time.monotonic() - began
    print(f"{name}: {found.total()} samples of seed {seed} in {spent:.0f} s: {counts}")
    print(bad or f"{name}: each was answered", flush=True)
    return 1 if bad else 0


if __name__ == "__main__":
    sys.exit(main())
