"""Reads a mine and a certificate anew, by docs/FORMATS.md alone, and says whether the pit is closed, how many blocks it
has and what it is worth, and of a certificate at GROUP PAIR whether its flow proves that no pit is better. It shares no
line with the program, and is slow.
"""
import re
import tomllib
from collections import namedtuple
from fractions import Fraction

NUMERAL = re.compile(rb"[+-]?(\d+\.?\d*|\.\d+)([eE][+-]?\d+)?")


class Unread(Exception):
    """This reader doesn't read the file, whatever the program says of it."""


def records(text):
    """The records of a text, each the list of its fields."""
    for line in text.split(b"\n"):
        fields = re.split(rb"[ \t:\r]+", line.strip(b" \t:\r"))
        if fields != [b""] and not fields[0].startswith(b"%"):
            yield fields


def whole(field):
    if not re.fullmatch(rb"\d+", field):
        raise Unread(field)
    return int(field)


def millionths(field):
    """The number of a numeral, rounded to millionths, ties away from zero."""
    if not NUMERAL.fullmatch(field):
        raise Unread(field)
    exact = Fraction(field.decode()) * 10**6
    size = (2 * abs(exact.numerator) + exact.denominator) // (2 * exact.denominator)
    return size if exact >= 0 else -size


def worths_of_values(text):
    """The worth of each block of a `.upit` text, in billionths."""
    blocks, values, is_header = None, {}, True
    for fields in records(text):
        if is_header and fields[0] == b"NBLOCKS":
            blocks = whole(fields[1])
        elif is_header and fields[0] == b"OBJECTIVE_FUNCTION":
            is_header = False
        elif not is_header and fields == [b"EOF"]:
            break
        elif not is_header:
            values[whole(fields[0])] = 1000 * millionths(fields[1])
    return [values.get(b, 0) for b in range(blocks)]


def worths_of_prices(settings, text, factor, is_mill):
    """The worth of each block of a `.blocks` text at a factor in thousandths, in billionths, by costs or by ways, of which a mill is one."""
    try:
        said = tomllib.loads(settings.decode())
    except (ValueError, RecursionError) as why:
        raise Unread(why) from None
    columns = {whole(fields[0]): fields[4:] for fields in records(text)}

    def left(b, revenue, charge):
        return factor * millionths(columns[b][revenue]) - 1000 * millionths(columns[b][charge])

    if is_mill:
        ways = [(way["revenue"], way["processing"]) for way in said.get("ways", [said])]
        return [
            max(0, *(left(b, *way) for way in ways)) - 1000 * millionths(columns[b][said["mining"]])
            for b in range(len(columns))
        ]
    return [left(b, said["revenue"], said["cost"]) for b in range(len(columns))]


def predecessors(text):
    """The predecessors of each block that has some."""
    return {whole(fields[0]): {whole(field) for field in fields[2:]} for fields in records(text)}


def verdict(files, certificate):
    """Whether the certificate's pit is closed, how many blocks it has, and its worth, exactly."""
    lines = [line.split() for line in certificate.decode().split("\n")]
    price = next(line[1:] for line in lines if line[:1] == ["PRICE"])
    pit = {int(line[1]) for line in lines if line[:1] == ["PIT"]}
    if price == ["OBJECTIVE"]:
        worths = worths_of_values(files["upit"])
    else:
        worths = worths_of_prices(
            files["settings"], files["blocks"], int(price[-1]), price[0] == "MILL"
        )
    is_closed = all(predecessors(files["prec"]).get(b, set()) <= pit for b in pit)
    return is_closed, len(pit), Fraction(sum(worths[b] for b in pit), 10**9)


# What a certificate at GROUP PAIR says: its pit, and its amounts (worth in billionths, count) by block or by pair.
Proof = namedtuple("Proof", "pit source rest sink")


def proof_of(certificate):
    """What a certificate says, of which each line is taken to have its form."""
    said = Proof(set(), {}, {}, {})
    for line in certificate.decode().split("\n"):
        match line.split():
            case ["PIT", b]:
                said.pit.add(int(b))
            case ["SOURCE", b, w, c]:
                said.source[int(b)] = int(w), int(c)
            case ["REST", b, p, w, c]:
                said.rest[int(b), int(p)] = int(w), int(c)
            case ["SINK", b, w, c]:
                said.sink[int(b)] = int(w), int(c)
    return said


def sum_of(amounts):
    """The sum of amounts."""
    worth = count = 0
    for w, c in amounts:
        worth, count = worth + w, count + c
    return worth, count


def more_than_fits(said, worths):
    """The first block that the source gives more than it may, or that gives the sink more."""
    for b, worth in enumerate(worths):
        ore, waste = max((worth, -1), (0, 0)), max((-worth, 1), (0, 0))
        if said.source.get(b, (0, 0)) > ore or said.sink.get(b, (0, 0)) > waste:
            return b
    return None


def unbalanced(said, blocks):
    """The first block out of which not the same flows as into it."""
    more = [[0, 0] for _ in range(blocks)]
    for into, out_of, (w, c) in (
        [(b, None, amount) for b, amount in said.source.items()]
        + [(None, b, amount) for b, amount in said.sink.items()]
        + [(p, b, amount) for (b, p), amount in said.rest.items()]
    ):
        for b, sign in ((into, 1), (out_of, -1)):
            if b is not None:
                more[b][0] += sign * w
                more[b][1] += sign * c
    return next((b for b, left in enumerate(more) if left != [0, 0]), None)


def refusal(worths, rests, said):
    """What FORMATS's table of refusals says of a pit and its flow, by its first row that holds; None where the flow proves the pit.

    Then no closed set is worth more, and each other one that is worth as much has more blocks: whatever set one takes, its
    amounts are no more than what the source could give and didn't, and the pit's are as much.
    """
    for b in sorted(said.pit):
        for p in sorted(rests.get(b, ())):
            if p not in said.pit:
                return "NotClosed(%d, %d)" % (b, p)
    if any(amount < (0, 0) for amounts in said[1:] for amount in amounts.values()):
        return "Negative"
    b = more_than_fits(said, worths)
    if b is not None:
        return "OverCapacity(%d)" % b
    b = unbalanced(said, len(worths))
    if b is not None:
        return "Unbalanced(%d)" % b
    given = sum_of(said.source.values())
    could = sum_of((worth, -1) for worth in worths if (worth, -1) > (0, 0))
    pit = sum_of((worths[b], -1) for b in said.pit)
    return None if pit == (could[0] - given[0], could[1] - given[1]) else "NotTight"
