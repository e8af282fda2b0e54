"""Walls of deep models, measured in the pits that the program finds.

A model is a box of blocks that cost one dollar each and one rich block in the middle of its lowest level; so its best pit is
that block with all that has to go first. Nothing here knows how a wall comes of offsets: the outline of the pit on each
level is the hull of the blocks that were dug there, and the wall at a bearing is the line through the distances to the
outline, level by level.
"""
import math
import re

HIGH = 1.5  # a wall may come out flatter than asked by so many degrees before the model is too narrow for it


class Deep:
    """A box of blocks of a size in metres, as wide as walls of `flattest` degrees need, when they come `out` blocks out."""

    def __init__(self, size, steepest, flattest, out=24):
        self.size = size
        self.high = round(out * max(size[:2]) * math.tan(math.radians(steepest)) / size[2])
        reach = self.high * size[2] / math.tan(math.radians(flattest - HIGH))
        self.half = [int(reach / side) + 2 for side in size[:2]]
        self.wide, self.long = (2 * half + 1 for half in self.half)
        self.rich = self.half[1] * self.wide + self.half[0]

    def __len__(self):
        return self.wide * self.long * self.high

    def place(self, block):
        """Blocks from the middle along x and y, and levels up."""
        level, rest = divmod(block, self.wide * self.long)
        return rest % self.wide - self.half[0], rest // self.wide - self.half[1], level

    def write(self, folder, name):
        rows = ("%d %d %d %d\n" % (b, *self.place(b)) for b in range(len(self)))
        (folder / (name + ".blocks")).write_text("".join(rows))
        values = "".join(
            "%d %d\n" % (b, len(self) if b == self.rich else -1) for b in range(len(self))
        )
        (folder / (name + ".upit")).write_text(
            "NBLOCKS: %d\nOBJECTIVE_FUNCTION:\n%s" % (len(self), values)
        )

    def walls(self, pit, bearings):
        """Degrees of the walls of a pit at bearings clockwise from y."""
        dug = [set() for _ in range(self.high)]
        for block in pit:
            x, y, level = self.place(block)
            dug[level].add((x, y))
        levels = range(self.high // 3, self.high)
        outlines = {
            level: hull([(x * self.size[0], y * self.size[1]) for x, y in dug[level]])
            for level in levels
        }
        found = []
        for bearing in bearings:
            out = rise(
                [(level * self.size[2], distance(outlines[level], bearing)) for level in levels]
            )
            found.append(math.degrees(math.atan2(1, out)))
        return found

    def touches_the_edge(self, pit):
        return any(
            abs(x) == self.half[0] or abs(y) == self.half[1] for x, y, _ in map(self.place, pit)
        )


def asked(slope, bearing):
    """What a slope as offsets.py takes it asks for at a bearing: one angle, or pairs, between which it changes evenly."""
    if ":" not in slope:
        return float(slope)
    pairs = sorted(tuple(map(float, pair.split(":"))) for pair in slope.split(","))
    turns = [(b + turn, a) for turn in (-360, 0, 360) for b, a in pairs]
    (low, first), (high, last) = max(p for p in turns if p[0] <= bearing), min(
        p for p in turns if p[0] > bearing
    )
    return first + (last - first) * (bearing - low) / (high - low)


def offsets_in(settings):
    return [
        tuple(map(int, offset)) for offset in re.findall(r"\[(-?\d+), (-?\d+), (\d+)\]", settings)
    ]


def named(pattern):
    """The offsets of a pattern, by docs/FORMATS.md."""
    if pattern == "nine":
        return [(x, y, 1) for x in (-1, 0, 1) for y in (-1, 0, 1)]
    levels, run, rise = map(int, pattern.split(":")[1:]) if pattern != "five" else (1, 1, 1)
    wide = range(-levels * run // rise - 1, levels * run // rise + 2)
    return [
        (x, y, k)
        for k in range(1, levels + 1)
        for x in wide
        for y in wide
        if rise * rise * (x * x + y * y) <= k * k * run * run
    ]


def needed(offsets):
    """The offsets that no sum of others comes to, by trying all sums."""
    highest = max(k for _, _, k in offsets)
    kept, reached = [], {0: {(0, 0)}}
    for level in range(1, highest + 1):
        sums = {(x + i, y + j) for i, j, k in kept for x, y in reached[level - k]}
        own = {(i, j) for i, j, k in offsets if k == level}
        kept += [(i, j, level) for i, j in own - sums]
        reached[level] = sums | own
    return kept


def hull(points):
    """The corners of the convex hull, going round against the clock (Andrew 1979)."""
    halves = []
    for ordered in (sorted(points), sorted(points, reverse=True)):
        half = []
        for p in ordered:
            while len(half) > 1 and area(half[-2], half[-1], p) <= 0:
                half.pop()
            half.append(p)
        halves += half[:-1]
    return halves


def area(o, p, q):
    return (p[0] - o[0]) * (q[1] - o[1]) - (p[1] - o[1]) * (q[0] - o[0])


def distance(corners, bearing):
    """How far from the middle an outline is, at a bearing."""
    to = math.sin(math.radians(bearing)), math.cos(math.radians(bearing))
    found = []
    for p, q in zip(corners, corners[1:] + corners[:1]):
        turn = to[0] * (q[1] - p[1]) - to[1] * (q[0] - p[0])
        if turn > 1e-12:  # the edge faces this way: its line is at most so far out
            found.append((p[0] * q[1] - p[1] * q[0]) / turn)
    return min(found, default=0.0)


def rise(points):
    """The slope of the line through points (height, distance), by least squares."""
    middle = [sum(axis) / len(points) for axis in zip(*points)]
    return sum((x - middle[0]) * (y - middle[1]) for x, y in points) / sum(
        (x - middle[0]) ** 2 for x, _ in points
    )
