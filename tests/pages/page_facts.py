"""The sentences of README, GUIDE and SOLVERS that have numbers, made anew: of the answers that a reader saw, of the files of
examples/ and of bench/RESULTS.md. A reader has its folder `top`, the place where it types, and what it has `seen`.
"""
import csv
import math
import re

from program import walls

CLIFF = "is `ACCEPTED 33 2`: the block, ten blocks of the cliff and 22 of air. Without them it is `ACCEPTED 1 12`:"  # as tests/day finds it
MOST_PAIRS = 2**27


def table_of(results, title):
    """The rows of the first table below a heading of RESULTS, by their first cell."""
    below = results[results.index("\n%s\n" % title) :]
    rows = re.search(r"(?:^\|.*\n)+", below, re.M)[0].splitlines()[2:]
    return {
        cells[0]: cells
        for cells in ([cell.strip() for cell in row.strip("|").split("|")] for row in rows)
    }


def seconds(cell):
    return ("%.2f s" if float(cell) < 1 else "%.1f s") % float(cell)


def megabytes(cell):
    return "{:,.0f} MB".format(float(cell))


def size_rows(results):
    """What README and GUIDE say of sizes and times, by the tables of RESULTS."""
    whole = table_of(results, "## Whole runs of `pit solve`, by pseudoflow")
    check = table_of(results, "## The check of a certificate")
    readme = [
        "| %s | %s, %s | %s, %s | %s, %s, no certificate |"
        % (
            row[1],
            seconds(row[4]),
            megabytes(row[7]),
            seconds(check[name][3]),
            megabytes(check[name][6]),
            seconds(row[5]),
            megabytes(row[8]),
        )
        for name, row in whole.items()
        if name in ("marvin", "b2m")
    ]
    guide = [
        "| %s | %s | %s | %s |" % (row[1], row[2], seconds(row[4]), megabytes(row[7]))
        for row in whole.values()
    ]
    return readme, [*guide, of_places(results)]


def of_places(results):
    """What GUIDE says of a mine whose settings list the slopes."""
    title = "## `pit solve` over places"
    offsets = re.search(r"settings with (\d+) offsets", results[results.index(title) :])[1]
    *_, (blocks, _, took, memory) = table_of(results, title).values()
    return "%s blocks with %s offsets took `solve` %s and %s" % (
        blocks,
        offsets,
        seconds(took.split()[0]),
        megabytes(memory.split()[0]),
    )


def commas(number):
    return "{:,}".format(int(number))


def shell_lines(text):
    """The lines of `pit shells`: factor, blocks, worth."""
    return [
        tuple(map(int, found)) for found in re.findall(r"^SHELL (\d+) (\d+) (\d+)$", text, re.M)
    ]


def of_readme(reader):
    """Of the first screen: the answer of the check."""
    pit = tuple(map(int, re.search(r"ACCEPTED (\d+) (\d+)", reader.seen).groups()))
    return [
        "The best pit has {} blocks and is worth {:,} dollars".format(*pit),
        "# the example mine: ACCEPTED %d %d\n" % pit,
    ]


def of_table(reader):
    """Of the small table: its blocks, and the first of its pit in the spreadsheet's row."""
    folder = reader.top
    with open(folder / "examples" / "small_model.csv", newline="") as file:
        rows = list(csv.DictReader(file))
    places = {axis: sorted({int(row[axis]) for row in rows}) for axis in "xyz"}
    sizes = tuple(places[axis][1] - places[axis][0] for axis in "xyz")
    pit = re.findall(r"^PIT (\d+)$", (folder / "small.cert").read_text(), re.M)
    count, worth = re.search(r"ACCEPTED (\d+) (\d+)", reader.seen).groups()
    lines = (folder / "examples" / "small_model.csv").read_text().splitlines()
    return [
        "of {2} benches of {0} by {1} blocks, ".format(
            *(len(places[axis]) for axis in "xyz")
        ).replace("of 2 ", "of two ")
        + "each %d by %d metres and %d metres high" % sizes,
        "`.. %d %d %d small tonnes grade` writes" % sizes,
        "For blocks %d metres wide and %d high this is a wall of about %.0f degrees along the axes"
        % (sizes[0], sizes[2], math.degrees(math.atan2(sizes[2], sizes[0]))),
        "a centre at %d, %d or %d metres has the index 0, 1 or 2 where a block is %d metres wide"
        % (*places["x"][:3], sizes[0]),
        "The best pit has %s blocks, and is worth %s." % (count, commas(worth)),
        "`PIT %s` is the %s row below the header, here %s"
        % (pit[0], {"2": "third"}.get(pit[0]), rows[int(pit[0])]["id"]),
        "".join("    %s\n" % line for line in lines[:3]),
    ]


def of_copper(reader):
    """Of the example mine: its shape, its files, its prices."""
    folder = reader.top / "examples" / "copper"
    blocks = [
        list(map(int, line.split())) for line in (folder / "priced.blocks").read_text().splitlines()
    ]
    across, along, benches = (1 + max(block[axis] for block in blocks) for axis in (1, 2, 3))
    _, x, y, z, revenue, cost, tonnes, *_ = blocks[1]
    return [
        "%s benches of %d by %d blocks" % ({3: "three"}[benches], across, along),
        "block 1 is at x = %d, y = %d on bench %d, has a revenue of %s dollars and a cost of %s, and weighs %s tonnes"
        % (x, y, z, commas(revenue), commas(cost), commas(tonnes)),
        "".join(
            "    %s\n" % line for line in (folder / "priced.blocks").read_text().splitlines()[:3]
        ),
        *(
            "".join("    %s\n" % line for line in (folder / name).read_text().splitlines())
            for name in ("settings.toml", "mill.toml")
        ),
    ]


def offsets_of(reader, named):
    """The offsets of a pattern, by FORMATS, or those that offsets.py writes."""
    if named.startswith("offsets.py"):
        return walls.offsets_in(reader.asks("python3 ../%s" % named))
    return walls.named(named)


def errors(offsets, size, angle):
    """Degrees by which a deep wall is steeper than asked, at four bearings a degree: the pit opens to the hull of the offsets,
    each divided by its level."""
    outline = walls.hull(sorted({(x * size[0] / k, y * size[1] / k) for x, y, k in offsets}))
    return [
        math.degrees(math.atan2(size[2], walls.distance(outline, bearing / 4))) - angle
        for bearing in range(4 * 360)
    ]


def degrees(error):
    return "0.0" if abs(error) < 0.05 else "%+.1f" % error


def of_patterns(reader):
    """The table of what patterns err by, and the limits below it."""
    facts = []
    for named, *size in re.findall(r"^\| `(.+?)` \| (\d+) x (\d+) x (\d+) \|", reader.text, re.M):
        size, offsets = tuple(map(int, size)), offsets_of(reader, named)
        off = errors(offsets, size, 45)
        facts.append(
            "| `%s` | %d x %d x %d | %d | %d | %s | %s | %s |"
            % (
                named,
                *size,
                len(offsets),
                len(walls.needed(offsets)),
                degrees(sum(off) / len(off)),
                degrees(max(off)),
                degrees(min(off)),
            )
        )
    return facts + [
        CLIFF,
        "| `--blocks {}` | a large model. A `.prec` file has at most {:,} pairs of a block and a predecessor, so each block may have {} of them. "
        "Where no {} offsets".format(
            5_000_000, MOST_PAIRS, MOST_PAIRS // 5_000_000, MOST_PAIRS // 5_000_000
        ),
        "A pattern has at most 4,096 offsets, a `.prec` file {:,} pairs: 185 offsets fit {:,} blocks, and 25 offsets {:,}".format(
            MOST_PAIRS, MOST_PAIRS // 185 // 1000 * 1000, MOST_PAIRS // 25 // 10**5 * 10**5
        ),
    ]


def of_shells(reader):
    """Of the shells: the pit at each factor, as `pit check` has it, and what is said of some."""
    model = "--blocks priced.blocks --settings settings.toml"
    shells = shell_lines(reader.asks("pit shells %s" % model))
    for factor, count, worth in shells:
        answer = reader.asks(
            "pit solve %s --factor %d > of.cert; pit check %s of.cert" % (model, factor, model)
        )
        reader.day.same("pit check at %d" % factor, answer, "ACCEPTED %d %d\n" % (count, worth))
    by_factor = {line[0]: line for line in shells}
    best = "%d blocks, worth %s dollars" % (by_factor[1000][1], commas(by_factor[1000][2]))
    return [
        "The second checks it: %s." % best,
        "\n%s. No other set" % best,
        "the best pit has %d blocks, and is worth %s dollars at that price"
        % (by_factor[800][1], commas(by_factor[800][2])),
        "each of the {} blocks is one of the {}, and each of the {} one of the {}".format(
            by_factor[800][1], by_factor[1000][1], by_factor[1000][1], by_factor[1200][1]
        ),
        "The first %d blocks pay at half the price" % by_factor[500][1],
    ]


def of_benches(reader):
    """Of the bench table: how it is read."""
    with open(reader.place / "benches.csv", newline="") as file:
        rows = [{column: int(cell) for column, cell in row.items()} for row in csv.DictReader(file)]
    at = {(row["z"], row["shell"]): row for row in rows}
    first = [at[z, 500] for z in (2, 1)]
    half = next(worth for factor, _, worth in shell_lines(reader.seen) if factor == 500)
    return [
        "the first shell has %d blocks on the top bench and %d below, %s tonnes in all"
        % (first[0]["blocks"], first[1]["blocks"], commas(sum(row["tonnes"] for row in first))),
        "Its worth, %s and %s, is %s dollars at the full price; at half the price, as `pit shells` says, it is %s."
        % (
            *(commas(row["worth"]) for row in first),
            commas(sum(row["worth"] for row in first)),
            commas(half),
        ),
        "The rows of the shells up to 1000 have %s dollars together"
        % commas(sum(row["worth"] for row in rows if row["shell"] <= 1000)),
    ]


def of_trace(reader):
    """Of the trace: what its first lines are about, by the files of the mine."""
    values = [
        line.split() for line in (reader.place / "copper.upit").read_text().splitlines()[4:-1]
    ]
    block, value = next((int(block), int(value)) for block, value in values if int(value) > 0)
    above = (reader.place / "copper.prec").read_text().splitlines()[block].split()[2:]
    steps = len((reader.place / "copper.trace").read_text().splitlines()) - 2
    most = 2**63 // 10**17 * 10**8
    refusal = re.search(r"^(REFUSED (\d+) .*)$", reader.seen, re.M)
    return [
        "All %s steps are steps of push-relabel" % commas(steps),
        "`%s`: step %s isn't one" % refusal.groups(),
        "This is what line %d of the trace gives" % (int(refusal[2]) + 1),
        "finds block %s below it" % above[0],
        "raises the flow to block %s" % above[0],
        "gives it to block %s" % above[0],
        "Block %d is the first with a positive value, %s dollars" % (block, commas(value)),
        "reads its excess, %s dollars" % commas(value),
        "the %s dollars that came from there" % commas(value),
        "its predecessors %s and %s, in this order" % (", ".join(above[:-1]), above[-1]),
        "block %s's is the first of the lowest" % above[0],
        "the number of blocks plus 2, here %d" % (len(values) + 2),
        "sum to %s divided by the number of blocks, as %s for 1,000 blocks"
        % (commas(most), commas(most / 1000)),
    ]
