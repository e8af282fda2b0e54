"""Compares what the program answers over mines whose blocks are treated in 1 to 8 ways with what Python says of them: a block is
worth the greatest of nothing and what each way leaves of it, less its mining.

A certificate of `solve` is read by plain_check.py, which says whether its flow proves the pit of those worths, and `check` has to
accept it with their sum. The lines of `shells` are those of the pits that are so proved. With `--ways` the table of `--by-block` has
the first way of the greatest worth at the factor of the report, and the bench table the tonnes of the blocks that go it; both follow
here from those pits and from Python's own maximum. Without `--ways` both are the same but for these columns. Of one way the settings
of a mill must give the same bytes.
"""
import random
import tempfile
import tomllib
from collections import namedtuple
from fractions import Fraction
from pathlib import Path

from program import many_mines, plain_check
from program.refused_calls import run

MINES = 1000
WORDS = ["--prec", "p", "--blocks", "b", "--settings", "s"]

# The texts of a mine by the names of its files, its factors, the factor of its report, and its settings as those of a mill, if it
# has one way.
Mine = namedtuple("Mine", "files factors report as_mill")

# What an answer at a factor is: what is wrong with it, the line of shells there, and the blocks of the pit.
Answer = namedtuple("Answer", "fault line pit")


def number(chance, least, most):
    """A number with up to two digits behind the point, as texts spell it."""
    return "%g" % (chance.randrange(100 * least, 100 * most) / chance.choice((1, 10, 100)) / 10)


def settings_of(chance, columns):
    """The ways of a table with so many columns, and that of mining: often a column stands in several of them."""
    ways = [
        (chance.randrange(columns), chance.randrange(columns)) for _ in range(chance.randint(1, 8))
    ]
    return ways, chance.randrange(columns)


def record(chance, b, revenues, used, columns):
    """A record of block b on one of three benches, with its tonnes last: revenues aren't negative, and a column that isn't read holds
    anything."""
    fields = [
        number(chance, 0, 40)
        if column in revenues
        else number(chance, -5, 20)
        if column in used
        else chance.choice(("ore", "-", "1e999"))
        for column in range(columns)
    ]
    return "%d %d 0 %d %s %s\n" % (
        b,
        b,
        chance.randrange(-1, 2),
        " ".join(fields),
        number(chance, 0, 60),
    )


def made_up(seed):
    """A mine of 1 to 30 blocks at two or three factors."""
    chance = random.Random(seed)
    columns, blocks = chance.randint(1, 18), chance.randint(1, 30)
    ways, mining = settings_of(chance, columns)
    revenues = {revenue for revenue, _ in ways}
    used = revenues | {processing for _, processing in ways} | {mining}
    rows = [record(chance, b, revenues, used, columns) for b in range(blocks)]
    chance.shuffle(rows)
    factors = sorted(chance.sample(range(100, 3001), chance.randint(2, 3)))
    listed = ", ".join("{ revenue = %d, processing = %d }" % way for way in ways)
    others = "mining = %d\ntonnes = %d\nfactors = %r\n" % (mining, columns, factors)
    report = chance.choice((factors[-1], chance.randrange(3001)))
    if report != factors[-1] or chance.random() < 0.5:
        others += "report = %d\n" % report
    pairs = []
    for b in range(blocks):
        on = [p for p in range(blocks) if p != b and chance.random() < 2 / blocks]
        pairs.append("%s\n" % " ".join(map(str, [b, len(on), *on])))
    files = {"b": "".join(rows), "p": "".join(pairs), "s": "ways = [%s]\n%s" % (listed, others)}
    as_mill = "revenue = %d\nprocessing = %d\n%s" % (*ways[0], others) if len(ways) == 1 else None
    return Mine(files, factors, report, as_mill)


def pit_of(mine, factor, certificate):
    """What is wrong with a certificate by the worths that Python finds, its blocks, and what these are worth."""
    texts = {name: text.encode() for name, text in mine.files.items()}
    worths = plain_check.worths_of_prices(texts["s"], texts["b"], factor, True)
    said = plain_check.proof_of(certificate)
    refusal = plain_check.refusal(worths, plain_check.predecessors(texts["p"]), said)
    return refusal, set(said.pit), Fraction(sum(worths[b] for b in said.pit), 10**9)


def wrong_at(program, folder, mine, factor):
    """The answer at a factor."""
    solved = run(program, ["solve", *WORDS, "--factor", str(factor)], folder)
    (folder / "c").write_bytes(solved[1])
    refusal, pit, worth = pit_of(mine, factor, solved[1])
    count = len(pit)
    status, output, errors = run(program, ["check", *WORDS, "c"], folder)
    words = output.split()
    is_accepted = (
        status == 0
        and words[:2] == [b"ACCEPTED", b"%d" % count]
        and Fraction(words[2].decode()) == worth
    )
    fault = None
    if solved[0] != 0 or refusal or b"PRICE MILL %d" % factor not in solved[1].splitlines():
        fault = "%d: %s, solved as %r" % (factor, refusal, solved)
    elif not is_accepted:
        fault = "%d: %d blocks worth %s, checked as %r %r" % (factor, count, worth, output, errors)
    return Answer(fault, [Fraction(factor), Fraction(count), worth], pit)


def decimal(number, places):
    """A whole number of so many places behind the point, without trailing zeros."""
    sign, (whole, rest) = "-" * (number < 0), divmod(abs(number), 10**places)
    return sign + ("%d.%0*d" % (whole, places, rest)).rstrip("0").rstrip(".")


def way_of(left):
    """The first way that leaves most of a block, from 1, by what each leaves; none where that is nothing."""
    return left.index(max(left)) + 1 if max(left) > 0 else None


def ways_of(mine):
    """Which way each block goes at the factor of the report, its bench and its tonnes in millionths, and how many ways there are."""
    said = tomllib.loads(mine.files["s"])
    blocks = {}
    for line in mine.files["b"].splitlines():
        name, _, _, z, *columns = line.split()
        amounts = [
            Fraction(word) if word[-1].isdigit() and "e" not in word else None for word in columns
        ]
        left = [
            mine.report * amounts[way["revenue"]] / 1000 - amounts[way["processing"]]
            for way in said["ways"]
        ]
        blocks[int(name)] = way_of(left), int(z), int(amounts[-1] * 10**6)
    return blocks, len(said["ways"])


def tables_of(mine, answers):
    """The bench table and the table of blocks, each without ways and with them, of the pits that were proved."""
    blocks, count = ways_of(mine)
    texts = {name: text.encode() for name, text in mine.files.items()}
    worths = plain_check.worths_of_prices(texts["s"], texts["b"], mine.report, True)
    shells = {
        b: next((k for k, answer in zip(mine.factors, answers) if b in answer.pit), None)
        for b in blocks
    }
    by_block = [("block,shell", "way")]
    rows = {}
    for b in sorted(blocks):
        way, z, tonnes = blocks[b]
        shell = shells[b]
        by_block.append(("%d,%s" % (b, shell or ""), "%s" % (shell and way or "")))
        if shell is not None:
            row = rows.setdefault((z, shell), [0] * (3 + count))
            row[0], row[1], row[2] = row[0] + 1, row[1] + tonnes, row[2] + worths[b]
            if way:
                row[2 + way] += tonnes
    bench = [("z,shell,blocks,tonnes,worth", *("tonnes%d" % (i + 1) for i in range(count)))]
    for place, (number_of, tonnes, worth, *by_way) in sorted(rows.items()):
        front = "%d,%d,%d,%s,%s" % (*place, number_of, decimal(tonnes, 6), decimal(worth, 9))
        bench.append((front, *(decimal(each, 6) for each in by_way)))
    return bench, by_block


def text_of(lines, ways):
    """The text of such a table, with its columns of ways or without them."""
    return "".join("%s\n" % ",".join(line if ways else line[:1]) for line in lines).encode()


def wrong_tables(program, folder, mine, answers):
    """What is wrong with the tables of `shells` and `report`, with ways and without them."""
    bench, by_block = tables_of(mine, answers)
    faults = []
    for ways in (False, True):
        more = ["--by-block", "t"] + ["--ways"] * ways
        for command in ("shells", "report"):
            done = run(program, [command, *WORDS, *more], folder)
            if done[0] != 0 or (folder / "t").read_bytes() != text_of(by_block, ways):
                faults.append("%s %r by block: %r" % (command, ways, done))
            if command == "report" and done[1] != text_of(bench, ways):
                faults.append("report %r: %r" % (ways, done[1]))
    return faults


def wrong(program, seed):
    """What is wrong with the answers for a mine, or None."""
    mine = made_up(seed)
    with tempfile.TemporaryDirectory() as room:
        folder = Path(room)
        for name, text in mine.files.items():
            (folder / name).write_text(text)
        answers = [wrong_at(program, folder, mine, factor) for factor in mine.factors]
        faults = [answer.fault for answer in answers if answer.fault]
        shells = run(program, ["shells", *WORDS], folder)
        lines = [list(map(Fraction, line.decode().split()[1:])) for line in shells[1].splitlines()]
        if shells[0] != 0 or lines != [answer.line for answer in answers]:
            faults.append("shells: %r" % (shells,))
        faults += wrong_tables(program, folder, mine, answers)
        if mine.as_mill:
            (folder / "s").write_text(mine.as_mill)
            if run(program, ["shells", *WORDS], folder) != shells:
                faults.append("shells of a mill")
            faults += wrong_tables(program, folder, mine, answers)
    return "; ".join(faults) or None


def try_all(program):
    """Tries every mine."""
    return many_mines.tried("ways", lambda seed: wrong(program, seed), MINES)
