#!/usr/bin/env python3
"""Writes the small mine of examples/copper: a dipping ore body under three benches.

    python3 examples/make_copper.py [FOLDER]

writes copper.blocks, copper.prec, copper.upit and copper.cert (a pit with a flow that proves it), and the same blocks
with a revenue, a cost, tonnes and a mill's two charges each: priced.blocks, with settings.toml for the cost and mill.toml
for the mill; both list the slopes, so that beside them no copper.prec is needed. copper.csv is the same mine as a planner's table, for pitplan: study.toml beside it makes of it the dollars of
priced.blocks.
Standard library alone, no random numbers: the files are the same on every machine.
The certificate's flow comes from a plain maximum-flow search made here, not from `pit`.
"""
import sys
from collections import deque
from pathlib import Path

ACROSS, ALONG, BENCHES = 11, 9, 3
COST = 1_400  # dollars to dig a block, whatever it holds
MINING = 950  # of these, dollars to dig a block that isn't treated
PROCESSING = 780  # dollars to treat a block in the mill
PRICE = 260  # dollars for a unit of grade
BIG = 1 << 60  # a block's count in the number that stands for a pair of worth and count
# what has to go before a block: the one above it and that one's four neighbours
OFFSETS = [[0, 0, 1], [1, 0, 1], [-1, 0, 1], [0, 1, 1], [0, -1, 1]]
SLOPES = "slopes = %s    # those of copper.prec" % [OFFSETS]


def number(x, y, z):
    return (z * ALONG + y) * ACROSS + x


def grade(x, y, z):
    """Grade falls off with the distance from an axis that dips as it goes along."""
    middle = 3.2 + 0.55 * y
    depth = 0.25 + 0.18 * y
    distance = abs(x - middle) + 1.6 * abs(z - depth)
    return max(0, round(24 - 7 * distance))


def revenue(x, y, z):
    """Whole dollars."""
    return PRICE * grade(x, y, z)


def haul(z):
    """Whole dollars; benches are numbered from the lowest, which costs most to haul from."""
    return 150 * (BENCHES - 1 - z)


def cost(x, y, z):
    return COST + haul(z)


def processing(x, y, z):
    """Whole dollars, where the block goes to the mill."""
    return PROCESSING


def mining(x, y, z):
    """Whole dollars, wherever the block goes."""
    return MINING + haul(z)


def tonnes(x, y, z):
    """Whole tonnes of a block of 1,000 cubic metres: rock is the heavier the richer it is."""
    return 2_600 + 10 * grade(x, y, z)


def value(x, y, z):
    return revenue(x, y, z) - cost(x, y, z)


def planners_row(x, y, z):
    """A block of copper.csv: blocks of 10 metres, kilograms of copper in a tonne at 8.50 dollars each, and dollars a tonne."""
    t = tonnes(x, y, z)
    copper = revenue(x, y, z) / (8.5 * t)
    return "C%03d,%d,%d,%d,%d,%.6f,%.6f,%.6f" % (
        number(x, y, z),
        5005 + 10 * x,
        2005 + 10 * y,
        1285 + 10 * z,
        t,
        copper,
        mining(x, y, z) / t,
        processing(x, y, z) / t,
    )


def predecessors(x, y, z):
    """The blocks on the bench above that keep a one-to-one slope: five of them inside the model."""
    places = [(x + dx, y + dy, z + dz) for dx, dy, dz in OFFSETS]
    return sorted(
        number(*place)
        for place in places
        if 0 <= place[0] < ACROSS and 0 <= place[1] < ALONG and place[2] < BENCHES
    )


class Network:
    """Maximum flow by shortest augmenting paths in layers."""

    def __init__(self, nodes):
        self.arcs = [[] for _ in range(nodes)]
        self.head, self.room = [], []

    def add(self, tail, head, capacity):
        self.arcs[tail].append(len(self.head))
        self.head.append(head)
        self.room.append(capacity)
        self.arcs[head].append(len(self.head))
        self.head.append(tail)
        self.room.append(0)
        return len(self.head) - 2

    def layers(self, source):
        level = {source: 0}
        queue = deque([source])
        while queue:
            node = queue.popleft()
            for arc in self.arcs[node]:
                if self.room[arc] > 0 and self.head[arc] not in level:
                    level[self.head[arc]] = level[node] + 1
                    queue.append(self.head[arc])
        return level

    def push(self, node, sink, most, level, place):
        if node == sink:
            return most
        while place[node] < len(self.arcs[node]):
            arc = self.arcs[node][place[node]]
            head = self.head[arc]
            if self.room[arc] > 0 and level.get(head) == level[node] + 1:
                moved = self.push(head, sink, min(most, self.room[arc]), level, place)
                if moved:
                    self.room[arc] -= moved
                    self.room[arc ^ 1] += moved
                    return moved
            place[node] += 1
        return 0

    def run(self, source, sink, endless):
        while sink in (level := self.layers(source)):
            place = [0] * len(self.arcs)
            while self.push(source, sink, endless, level, place):
                pass


def parts(amount):
    """The worth in billionths of a dollar and the count of blocks that the number stands for."""
    worth, count = divmod(amount + BIG // 2, BIG)
    return worth, count - BIG // 2


def certificate(values, pairs):
    count = len(values)
    source, sink = count, count + 1
    network = Network(count + 2)
    amounts = [v * 10**9 * BIG - 1 for v in values]
    endless = 1 + sum(a for a in amounts if a > 0)
    drawn = {b: network.add(source, b, a) for b, a in enumerate(amounts) if a > 0}
    given = {b: network.add(b, sink, -a) for b, a in enumerate(amounts) if a < 0}
    carried = {pair: network.add(*pair, endless) for pair in pairs}
    network.run(source, sink, endless)
    reached = network.layers(source)
    moved = lambda arc: network.room[arc ^ 1]
    lines = ["PITCERT 1", "BLOCKS %d" % count, "PRICE OBJECTIVE", "GROUP PAIR"]
    lines += ["PIT %d" % b for b in range(count) if b in reached]
    for word, arcs in (("SOURCE", drawn), ("REST", carried), ("SINK", given)):
        for key in sorted(arcs):
            if moved(arcs[key]):
                name = "%d %d" % key if word == "REST" else "%d" % key
                lines.append("%s %s %d %d" % (word, name, *parts(moved(arcs[key]))))
    return lines + ["END"]


def main():
    folder = Path(sys.argv[1]) if len(sys.argv) > 1 else Path(__file__).parent / "copper"
    places = [(x, y, z) for z in range(BENCHES) for y in range(ALONG) for x in range(ACROSS)]
    values = [value(*place) for place in places]
    above = [predecessors(*place) for place in places]
    pairs = [(b, p) for b, ps in enumerate(above) for p in ps]

    def write(name, lines):
        (folder / name).write_text("".join(line + "\n" for line in lines))

    write(
        "copper.blocks",
        [
            "%d %d %d %d %d %d" % (b, *place, grade(*place), values[b])
            for b, place in enumerate(places)
        ],
    )
    columns = [revenue, cost, tonnes, processing, mining]
    write(
        "priced.blocks",
        [
            " ".join(map(str, [b, *place] + [column(*place) for column in columns]))
            for b, place in enumerate(places)
        ],
    )
    write(
        "settings.toml",
        [
            "revenue = 0    # the first column after z in priced.blocks",
            "cost = 1       # the second",
            "tonnes = 2     # the third",
            "factors = [500, 650, 800, 1000, 1200]    # of the price of the revenues, in thousandths",
            "report = 1000  # the factor at which `pit report` counts worths",
            SLOPES,
        ],
    )
    write(
        "mill.toml",
        [
            "revenue = 0     # the first column after z in priced.blocks",
            "processing = 3  # the fourth: what it costs to treat a block in the mill",
            "mining = 4      # the fifth: what it costs to dig it, be it ore or waste",
            "tonnes = 2",
            "factors = [500, 650, 800, 1000, 1200]",
            SLOPES,
        ],
    )
    write(
        "copper.csv",
        ["ID,X,Y,Z,TONNES,CU_KGT,MINING,MILL", *(planners_row(*place) for place in places)],
    )
    write(
        "copper.prec",
        ["%d %d%s" % (b, len(ps), "".join(" %d" % p for p in ps)) for b, ps in enumerate(above)],
    )
    write(
        "copper.upit",
        ["NAME: copper", "TYPE: UPIT", "NBLOCKS: %d" % len(values), "OBJECTIVE_FUNCTION:"]
        + ["%d %d" % pair for pair in enumerate(values)]
        + ["EOF"],
    )
    write("copper.cert", certificate(values, pairs))


if __name__ == "__main__":
    main()
