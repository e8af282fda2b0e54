"""Compares what the program answers over mines of two texts, settings that list slopes and blocks, with what it answers over
the same mines by a precedence file, in which Python writes the pairs that it finds itself, and with what Python says of both.

The mines are those of regions.py: boxes with holes, with places below nothing, in any order of blocks, of up to four regions.
A certificate is the same by either, is read by plain_check.py, and is accepted over the other too. So is that of a search over
places (`--method pseudoflow`), which has the same pit and another flow. One with a thing changed gets the same line over either,
that of plain_check.py. The lines of shells and of a report are added up from the pits of
certificates at the same factors, and those of a design from the pairs.

So are mines of three texts, in which values stand beside the settings and the blocks, with what it answers over the same values
and the precedence file alone; half of these settings name prices, which aren't looked at. A design and the trace of a run get
the same lines by either too.
"""
import random
import tempfile
from collections import namedtuple
from fractions import Fraction
from pathlib import Path

from program import many_mines, plain_check, regions
from program.refused_calls import run

MINES = 500
PRICED = {
    "slopes": ["--blocks", "b", "--settings", "s"],
    "pairs": ["--prec", "p", "--blocks", "b", "--settings", "t"],
}
VALUED = {
    "slopes": ["--upit", "u", "--blocks", "b", "--settings", "v"],
    "pairs": ["--prec", "p", "--upit", "u"],
}

# The texts of a mine by the names of its files, the heights of its blocks and their tonnes, two factors, and whether there is a mill.
Mine = namedtuple("Mine", "files heights tonnes factors is_mill")


def made_up(seed):
    """A mine with prices at two factors, of which the second is higher."""
    places, region_of, slopes, is_plus, _ = regions.made_up(seed)
    chance = random.Random(-1 - seed)
    is_mill, has_column = chance.random() < 0.5, len(slopes) > 1 or chance.random() < 0.5
    blocks = range(len(places))
    tonnes = [chance.randrange(200) for _ in blocks]
    rows = [
        "%d %d %d %d %d %s %s %d %d\n"
        % (
            (b, *places[b], region_of[b])
            + (chance.randrange(200) / 10, chance.randrange(60) / 10, chance.randrange(5))
            + (tonnes[b],)
        )
        for b in blocks
    ]
    chance.shuffle(rows)
    factors = sorted(chance.sample(range(100, 3001), 2))
    prices = "revenue = 1\n%s\ntonnes = 4\nfactors = %r\n" % (
        "processing = 2\nmining = 3" if is_mill else "cost = 2",
        factors,
    )
    up = "plus" if is_plus else "minus"
    said = 'slopes = %r\n%sup = "%s"\n' % (slopes, "region = 0\n" * has_column, up)
    pairs = regions.precedence(places, region_of, slopes, is_plus, False)
    files = {"b": "".join(rows), "s": prices + said, "t": prices, "p": pairs}
    files |= {"u": values_of(chance, blocks), "v": prices * chance.randrange(2) + said}
    return Mine(files, [place[2] for place in places], tonnes, factors, is_mill)


def values_of(chance, blocks):
    """A text of values of these blocks, of which some have no record."""
    rows = [
        "%d %.1f\n" % (b, chance.randrange(-60, 140) / 10) for b in blocks if chance.random() < 0.9
    ]
    chance.shuffle(rows)
    return "NBLOCKS: %d\nOBJECTIVE_FUNCTION:\n%s" % (len(blocks), "".join(rows))


def models_at(factor):
    """The words that name a mine by either of its texts: of values where there is no factor."""
    if factor is None:
        return VALUED
    return {kind: [*words, "--factor", str(factor)] for kind, words in PRICED.items()}


def pit_of(mine, factor, certificate):
    """What is wrong with a certificate, what it says, and what each block is worth at the factor, or by its value."""
    texts = {name: text.encode() for name, text in mine.files.items()}
    if factor is None:
        worths = plain_check.worths_of_values(texts["u"])
    else:
        worths = plain_check.worths_of_prices(texts["t"], texts["b"], factor, mine.is_mill)
    said = plain_check.proof_of(certificate)
    refusal = plain_check.refusal(worths, plain_check.predecessors(texts["p"]), said)
    return refusal, said, worths


def changed(said, blocks, chance):
    """What a certificate says with one thing changed: a block of the pit, an amount, or the pair that carries one."""
    b, p = chance.randrange(blocks), chance.randrange(blocks)
    yield said._replace(pit=said.pit ^ {b})
    yield said._replace(rest={(b, p): (1, 0)} | said.rest)
    if said.source:
        ore = chance.choice(sorted(said.source))
        worth, count = said.source[ore]
        yield said._replace(source=said.source | {ore: (worth + 1, count)})
    if said.rest:
        b, q = chance.choice(sorted(said.rest))
        others = {pair: amount for pair, amount in said.rest.items() if pair != (b, q)}
        for pair in ((b, p), (q, b), (b, b)):
            yield said._replace(rest=others | {pair: said.rest[b, q]})


def lines_of(head, said):
    """The certificate that says so, after the lines of its head."""
    amounts = [
        " ".join([kind, *map(str, key if kind == "REST" else [key]), *map(str, amount)])
        for kind, by in zip(("SOURCE", "REST", "SINK"), said[1:])
        for key, amount in sorted(by.items())
    ]
    return "\n".join([*head, *("PIT %d" % b for b in sorted(said.pit)), *amounts, "END", ""])


def judged(mine, worths, said):
    """The status and the line that a check has to give, after four lines of a head; of an accepted one how its line begins."""
    rests = plain_check.predecessors(mine.files["p"].encode())
    is_closed = not (plain_check.refusal(worths, rests, said) or "").startswith("NotClosed")
    for line, (b, p) in enumerate(sorted(said.rest), 5 + len(said.pit) + len(said.source)):
        if is_closed and p not in rests.get(b, ()):
            return 3, b"", b"fault: certificate UnknownPair(%d)\n" % line
    refusal = plain_check.refusal(worths, rests, said)
    if refusal:
        return 1, b"REFUSED %s\n" % refusal.encode(), b""
    return 0, b"ACCEPTED %d " % len(said.pit), b""


def checked(program, folder, factor, name):
    """What a check of the file with this name answers by either of the mine's texts."""
    models = VALUED if factor is None else PRICED
    return [run(program, ["check", *words, name], folder) for words in models.values()]


def misjudged(program, folder, mine, factor, worths, certificate):
    """What is wrong with the lines of checks of certificates with one thing changed."""
    head = certificate.decode().split("\n")[:4]
    said, faults = plain_check.proof_of(certificate), []
    for other in changed(said, len(worths), random.Random(certificate)):
        (folder / "d").write_text(lines_of(head, other))
        checks = checked(program, folder, factor, "d")
        status, line, errors = judged(mine, worths, other)
        is_so = checks[0][::2] == (status, errors) and checks[0][1].startswith(line)
        if checks[0] != checks[1] or not is_so:
            faults.append("changed as %r: %r in place of %r %r" % (other, checks, line, errors))
    return faults


def read(line, mark):
    """The numbers of a line, exactly."""
    return [Fraction(field) for field in line.split(mark) if field != "SHELL"]


def report_of(mine, pits, worths):
    """The rows of the report, where these are the pits at the factors and the worths at the last of them."""
    rows = {}
    for b, (height, tonnes) in enumerate(zip(mine.heights, mine.tonnes)):
        shell = next((factor for factor, pit in zip(mine.factors, pits) if b in pit), None)
        if shell is not None:
            row = rows.setdefault((height, shell), [0, 0, 0])
            for i, more in enumerate((1, tonnes, worths[b])):
                row[i] += more
    return [
        [*key, count, tonnes, Fraction(worth, 10**9)]
        for key, (count, tonnes, worth) in sorted(rows.items())
    ]


def missed_by_search(program, folder, mine, factor, pit):
    """What is wrong with the certificate of a search over places, whose flow is another, and with its checks."""
    words = [*models_at(factor)["slopes"], "--method", "pseudoflow"]
    status, text, errors = run(program, ["solve", *words], folder)
    (folder / "c").write_bytes(text)
    checks = checked(program, folder, factor, "c")
    refusal, said, _ = pit_of(mine, factor, text) if status == 0 else (errors, None, None)
    if refusal or said.pit != pit:
        return ["%s: a search gave %d, %r, %s" % (factor, status, text, refusal)]
    if checks[0] != checks[1] or not checks[0][1].startswith(b"ACCEPTED %d " % len(pit)):
        return ["%s: of a search checked as %r and %r" % (factor, *checks)]
    return []


def told_apart(program, folder, mine, worths):
    """What is wrong with the lines of a design and of a trace over a mine of values, which are the same by either text."""
    faults = []
    chance = random.Random(mine.files["u"])
    design = [b for b in range(len(worths)) if chance.random() < 0.5]
    (folder / "e").write_text("".join("%d\n" % b for b in design))
    steps = ["--method", "push-relabel", "--trace", "r"]
    run(program, ["solve", *VALUED["slopes"], *steps], folder)
    for command, name in (("value", "e"), ("replay", "r")):
        by = [run(program, [command, *words, name], folder) for words in VALUED.values()]
        if by[0] != by[1] or by[0][0] > 1 or by[0][2]:
            faults.append("%s of values: %r and %r" % (command, *by))
        if command == "value":
            count, worth = by[0][1].split()[1:3]
            if (int(count), Fraction(worth.decode())) != (
                len(design),
                Fraction(sum(worths[b] for b in design), 10**9),
            ):
                faults.append("value of %r: %r" % (design, by[0]))
    return faults


def misvalued(program, folder, mine, factor, worths):
    """What is wrong with what a design of some of the blocks comes to, by either."""
    chance = random.Random(mine.files["b"])
    design = {b for b in range(len(worths)) if chance.random() < 0.6}
    (folder / "e").write_text("".join("%d\n" % b for b in design))
    rests = plain_check.predecessors(mine.files["p"].encode())
    lacking = sorted((b, p) for b in design for p in rests.get(b, ()) if p not in design)
    needs = ["OPEN %d" % len(lacking), *("NEEDS %d %d" % pair for pair in lacking[:20])]
    answers = [
        run(program, ["value", *words, "--factor", str(factor), "e"], folder)
        for words in PRICED.values()
    ]
    status, output, errors = answers[0]
    first, *others = output.decode().splitlines() or [""]
    worth = Fraction(sum(worths[b] for b in design), 10**9)
    is_so = (
        answers[0] == answers[1]
        and (status, errors) == (bool(lacking), b"")
        and first.split()[:2] == ["DESIGN", str(len(design))]
        and Fraction(first.split()[2]) == worth
        and others == (needs if lacking else ["CLOSED"])
    )
    return [] if is_so else ["valued as %r" % (answers,)]


def solved(program, folder, mine):
    """The pits at the factors, the worths at each, and what is wrong with their certificates and with that of values."""
    pits, worths, faults = [], [], []
    for factor in (*mine.factors, None):
        by = {
            kind: run(program, ["solve", *words], folder)
            for kind, words in models_at(factor).items()
        }
        (folder / "c").write_bytes(by["slopes"][1])
        checks = checked(program, folder, factor, "c")
        refusal, said, worth = pit_of(mine, factor, by["slopes"][1])
        line = b"ACCEPTED %d " % len(said.pit)
        if by["slopes"] != by["pairs"] or by["slopes"][0] != 0 or refusal:
            faults.append("%s: %s, solved as %r and %r" % (factor, refusal, *by.values()))
        if checks[0] != checks[1] or not checks[0][1].startswith(line):
            faults.append("%s: checked as %r and %r" % (factor, *checks))
        faults += missed_by_search(program, folder, mine, factor, said.pit)
        if factor is None:
            faults += told_apart(program, folder, mine, worth)
        else:
            pits.append(said.pit)
            worths.append(worth)
        if factor != mine.factors[0]:
            faults += misjudged(program, folder, mine, factor, worth, by["slopes"][1])
    faults += misvalued(program, folder, mine, mine.factors[-1], worths[-1])
    return pits, worths, faults


def wrong(program, seed):
    """What is wrong with the answers for a mine, or None."""
    mine = made_up(seed)
    with tempfile.TemporaryDirectory() as room:
        folder = Path(room)
        for name, text in mine.files.items():
            (folder / name).write_text(text)
        pits, worths, faults = solved(program, folder, mine)
        wanted = {
            "shells": [
                [factor, len(pit), Fraction(sum(worth[b] for b in pit), 10**9)]
                for factor, pit, worth in zip(mine.factors, pits, worths)
            ],
            "report": report_of(mine, pits, worths[-1]),
        }
        for command, rows in wanted.items():
            for kind, words in PRICED.items():
                status, output, errors = run(program, [command, *words], folder)
                lines = output.decode().splitlines()[command == "report" :]
                mark = "," if command == "report" else None
                if status != 0 or [read(line, mark) for line in lines] != rows:
                    faults.append("%s by %s: %r %r" % (command, kind, output, errors))
    return "; ".join(faults) or None


def try_all(program):
    """Tries every mine."""
    return many_mines.tried("two texts", lambda seed: wrong(program, seed), MINES)
