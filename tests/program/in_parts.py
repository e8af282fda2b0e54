"""Compares what the program answers over texts of values and of precedence that several threads read, each a part, with what it
answers where one thread reads them all; and what a check answers to certificates, at each number of threads.

The texts are made up: records whose blocks rise, with blocks left out, remarks and lines without a field; some of them with two
records in the other order, a record twice, a faulty line, an end before the last line, or no last line feed. Certificates are
compared where the texts are sound, and faults with their lines where they aren't. The certificate of a sound mine is checked as
it was solved, and with lines in another order, twice, left out, or of another text or amount, or cut off.
"""
import random
import tempfile
from pathlib import Path

from program import many_mines
from program.refused_calls import run

TEXTS = 200
THREADS = range(2, 9)
ODD_LINES = ("%% a remark\n", "\n", " \t\r\n", "% 1 2\n")
CHANGES = ("swap", "again", "drop", "fault", "amount", "cut")
STRANGE = (
    "x 1\n",
    "PIT 01\n",
    "REST 0 0 1 0\n",
    "END\n",
    "SINK 0 -1 0\n",
    "SOURCE 0 0 0\n",
    "PIT 999\n",
    "9" * 70000 + "\n",
)
FAULTY = ("x 1\n", "1\n", "999 0\n", "1 1 1 x\n", "-1 0\n", "%d 0\n" % (1 << 64))


def damaged(records, chance):
    """The records with none or some of the things that keep a text from being read in parts."""
    for change in chance.sample(("swap", "again", "fault", "end", "odd"), chance.randrange(3)):
        at, other = chance.randrange(len(records)), chance.randrange(len(records))
        if change == "swap":
            records[at], records[other] = records[other], records[at]
        elif change == "again":
            records.insert(at, records[other])
        elif change == "fault":
            records.insert(at, chance.choice(FAULTY))
        elif change == "end":
            records.insert(at, "EOF\n")
        else:
            records.insert(at, chance.choice(ODD_LINES))
    text = "".join(records)
    return text[:-1] if chance.random() < 0.3 else text


def sound_records(chance):
    """How many blocks a mine has, the records of their values, and those of their precedence."""
    blocks = chance.randrange(1, 40)
    values = [
        "%d %d\n" % (b, chance.randrange(-9, 12)) for b in range(blocks) if chance.random() < 0.8
    ]
    pairs = [
        "%d 1 %d\n" % (b, chance.randrange(b)) if b and chance.random() < 0.7 else "%d 0\n" % b
        for b in range(blocks)
    ]
    return blocks, values, pairs


def header(blocks):
    """The header of a text of values."""
    return "NBLOCKS: %d\nOBJECTIVE_FUNCTION:\n" % blocks


def texts_of(seed):
    """A text of values and one of precedence, of which at most one is damaged."""
    chance = random.Random(seed)
    blocks, values, pairs = sound_records(chance)
    kind = chance.choice("up")
    body = damaged(values or ["0 1\n"], chance) if kind == "u" else "".join(values)
    return {
        "u": header(blocks) + body,
        "p": damaged(pairs, chance) if kind == "p" else "".join(pairs),
    }


def wrong(program, seed):
    """What differs by a number of threads, or nothing."""
    words = ["solve", "--upit", "u", "--prec", "p", "--threads"]
    with tempfile.TemporaryDirectory() as room:
        for name, text in texts_of(seed).items():
            (Path(room) / name).write_text(text, newline="")
        alone = run(program, [*words, "1"], room)
        for threads in THREADS:
            by_parts = run(program, [*words, str(threads)], room)
            if by_parts != alone:
                return "%r by %d threads, and %r by one" % (by_parts, threads, alone)
    return None


def changed(lines, chance):
    """A certificate with none or some of the things that make it faulty, or leave its pit unproved."""
    for change in chance.sample(CHANGES, chance.randrange(3)):
        at, other = chance.randrange(4, len(lines)), chance.randrange(4, len(lines))
        if change == "swap":
            lines[at], lines[other] = lines[other], lines[at]
        elif change == "again":
            lines.insert(at, lines[other])
        elif change == "drop" and len(lines) > 5:
            del lines[at]
        elif change == "fault":
            lines.insert(at, chance.choice(STRANGE))
        elif change == "amount":
            lines[at] = lines[at].replace("000 ", "001 ", 1)
        elif change == "cut":
            lines[at] = lines[at][: chance.randrange(len(lines[at]))]
            del lines[at + 1 :]
    return "".join(lines)


def wrong_check(program, seed):
    """What a check answers to a certificate otherwise by a number of threads, or nothing."""
    chance = random.Random(seed)
    blocks, values, pairs = sound_records(chance)
    mine = ["--upit", "u", "--prec", "p"]
    with tempfile.TemporaryDirectory() as room:
        (Path(room) / "u").write_text(header(blocks) + "".join(values), newline="")
        (Path(room) / "p").write_text("".join(pairs), newline="")
        status, output, errors = run(program, ["solve", *mine], room)
        if status:
            return "no certificate: %r" % errors
        lines = output.decode().splitlines(keepends=True)
        (Path(room) / "c").write_text(changed(lines, chance), newline="")
        words = ["check", *mine, "--threads"]
        alone = run(program, [*words, "1", "c"], room)
        for threads in THREADS:
            by_parts = run(program, [*words, str(threads), "c"], room)
            if by_parts != alone:
                return "%r by %d threads, and %r by one" % (by_parts, threads, alone)
    return None


def wrong_any(program, seed):
    """What differs by a number of threads, of texts or of a certificate, or nothing."""
    return wrong(program, seed) or wrong_check(program, seed)


def try_all(program):
    """Tries all texts."""
    return many_mines.tried("texts in parts", lambda seed: wrong_any(program, seed), TEXTS)
