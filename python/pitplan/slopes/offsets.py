"""The fewest offsets of a wall that is as steep as asked.

`pit` digs before a block those at its offsets, and before these those at theirs. So far up a pit
has the blocks that sums of offsets come to, and its outline, divided by its height, is the convex
hull of offset / level: that is the wall. Whole blocks don't come to every slope, so the wall errs,
more at some bearings than at others. `search` tries cones of several levels, stretched a little,
leaves out every offset that a sum of the others comes to, and takes the fewest that err by no more
than is allowed.

A cone whose slope changes with the bearing may have dents, where one bearing is steeper than those
beside it. The wall that is built has none: there it is flatter than asked, and the error says by
how much.

With `safe` the wall is at no bearing steeper than asked, or there is no answer. A cone that is
stretched far enough is safe at each number of levels, so what can be in the way is the number of
offsets alone.

Standard library alone: `examples/offsets.py` is a command line over this file.
"""
from __future__ import annotations

import bisect
import functools
import math
from collections.abc import Callable, Iterator, Mapping, Sequence
from dataclasses import dataclass
from typing import Tuple, Union

Offset = Tuple[int, int, int]
Angles = Union[float, Sequence[Tuple[float, float]]]
_Fits = Callable[[Sequence[Offset]], bool]

PAIRS = 1 << 27  # the most pairs of a block and a predecessor that `pit` lists
OFFSETS = 4096  # the most offsets
# degrees that a wall may err by: on average, anywhere, on average with its sign
MEAN, WORST, _SIGNED = (
    0.5,
    1.0,
    0.25,
)
# what a wall that is too steep weighs, and each degree of it, where none may be: more than all that
# is flatter
_TOO_STEEP = 1000
_SIDE = 0.25  # the least share that the lesser of the errors to both sides has of the greater
_FLATTEST, _STEEPEST = 5.0, 89.0  # degrees that may be asked for
# relative: steepnesses so near to each other are one, spelled in two ways. Sizes of blocks are: 20 m
# are 65.6167979 ft. Where columns lie on the very edge of a cone, the search has ties, and a size
# that is off in its eighth digit must break none of them.
_SAME = 1e-6
# so many degrees no two angles differ by whose tangents are the same
_EVEN = math.degrees(_SAME) / 2
# the search looks so many levels up that a wall comes 10 blocks out, at 400 stretches; then further
_TRIES = (10, 400), (
    24,
    300,
)
_MOST_LEVELS = 200
# the least and the greatest stretch, but where a safe wall needs more
NARROWEST, _WIDEST = (
    0.9,
    1.6,
)
# where a wall comes this many blocks out, a cone of that stretch has a block on each side of it
_BLOCKS_OUT = 3


class SlopeError(ValueError):
    """A slope, size or limit that can't be meant; the text says which and what to give instead.

    Attributes
    ----------
    advice
        What else to give, where it is known; else "".
    """

    advice = ""


class _OutOfRange(SlopeError):
    """A slope that is no slope in degrees."""

    def __init__(self, angle: float) -> None:
        self.advice = _in_degrees(angle)
        super().__init__(
            "a slope is from %g to %g degrees from the horizontal; there is %g"
            % (_FLATTEST, _STEEPEST, angle)
        )


def _in_degrees(angle: float) -> str:
    """What a slope out of range is in degrees, by the units that it may be in; "" where it is none.

    >>> _in_degrees(0.77)
    '44.1 for 0.77, if it is in radians; or 37.6, if it is a rise over a run'
    >>> _in_degrees(110), _in_degrees(-3)
    ('47.7 for 110, if it is a rise in percent', '')
    """
    rise, by_percent = (math.degrees(math.atan(part)) for part in (angle, angle / 100))
    if _STEEPEST < angle <= 1000:
        return "%.1f for %g, if it is a rise in percent" % (by_percent, angle)
    if not _FLATTEST <= rise or angle >= _FLATTEST:
        return ""
    if math.degrees(angle) > _STEEPEST:
        return "%.1f for %g, if it is a rise over a run" % (rise, angle)
    said = "%.1f for %g, if it is in radians; or %.1f, if it is a rise over a run"
    return said % (math.degrees(angle), angle, rise)


class TooSteep(SlopeError):
    """No offsets that fit make a wall that is nowhere steeper than asked.

    Attributes
    ----------
    nearest
        The pattern that errs least.
    advice
        What to give instead; the error's text ends in it.
    """

    advice = "lower or wider blocks, or steeper slopes: each needs fewer offsets"

    def __init__(self, nearest: Pattern) -> None:
        bearing, wall = nearest.steepest_at(), nearest.wall
        self.nearest = nearest
        self.what = (
            "a wall that is nowhere steeper than asked can't be built in blocks of %s with the"
            " offsets that pit takes: the nearest is %.1f degrees at bearing %.0f, where %.1f are"
            " asked for"
            % (
                " x ".join("%g" % side for side in wall.size),
                nearest.built(bearing),
                bearing,
                wall.slope(bearing),
            )
        )
        super().__init__("%s; take %s" % (self.what, self.advice))


@dataclass(frozen=True)
class Wall:
    """What is asked for.

    Attributes
    ----------
    size
        Metres of a block along the model's x, y and z.
    slopes
        Pairs (bearing, degrees from the horizontal), ascending. The bearing is that of the wall
        from the bottom of the pit, clockwise from north: the north wall is at 0, the east wall at
        90. Between two bearings the slope changes evenly with the bearing.
    rotation
        Bearing of the model's y axis, in degrees.
    """

    size: tuple[float, float, float]
    slopes: tuple[tuple[float, float], ...]
    rotation: float = 0.0

    def slope(self, bearing: float) -> float:
        """Degrees that are asked for at a bearing."""
        bearing %= 360
        at = bisect.bisect_right(self.slopes, (bearing, math.inf))
        low, high = self.slopes[at - 1], self.slopes[at % len(self.slopes)]
        gap = (high[0] - low[0]) % 360
        if gap == 0:
            return low[1]
        return low[1] + (high[1] - low[1]) * ((bearing - low[0]) % 360) / gap

    @functools.cached_property
    def leans(self) -> set[float]:
        """By how many degrees the slope rises for each degree of bearing, between one bearing that
        is given and the next."""
        after = self.slopes[1:] + self.slopes[:1]
        return {
            (two - one) / ((other - bearing) % 360 or 360)
            for (bearing, one), (other, two) in zip(self.slopes, after)
        }

    def turned(self, x: float, y: float) -> tuple[float, float]:
        """Metres east and north of metres along the model's axes."""
        turn = math.radians(self.rotation)
        return x * math.cos(turn) + y * math.sin(turn), y * math.cos(turn) - x * math.sin(turn)

    def stretch(self, i: int, j: int) -> float:
        """How many levels up the cone comes to the column of blocks i along x and j along y."""
        east, north = self.turned(i * self.size[0], j * self.size[1])
        if i == j == 0:
            return 0.0
        slope = self.slope(math.degrees(math.atan2(east, north)))
        return math.hypot(east, north) * math.tan(math.radians(slope)) / self.size[2]


def wall(size: Sequence[float], angles: Angles, rotation: float = 0.0) -> Wall:
    """The wall that is meant, checked.

    Parameters
    ----------
    size
        Metres of a block along x, y and z.
    angles
        Degrees from the horizontal, or pairs (bearing, degrees), in any order.
    rotation
        Bearing of the model's y axis, in degrees clockwise from north.

    Raises
    ------
    SlopeError
        Where a number is out of range, or two slopes are given at one bearing.
    """
    if len(size) != 3 or not all(math.isfinite(s) and s > 0 for s in size):
        raise SlopeError(
            "a block has three sizes above 0, as 20 20 10; there is %s"
            % " ".join("%g" % s for s in size)
        )
    if not math.isfinite(rotation):
        raise SlopeError("the rotation is a number of degrees")
    pairs = (
        [(0.0, float(angles))]
        if isinstance(angles, (int, float))
        else [(float(b), float(a)) for b, a in angles]
    )
    if not pairs:
        raise SlopeError("no slope is given; it is in degrees, as 45")
    for bearing, angle in pairs:
        if not _FLATTEST <= angle <= _STEEPEST:
            raise _OutOfRange(angle)
        if not 0 <= bearing <= 360:
            raise SlopeError(
                "a bearing is from 0 to 360 degrees clockwise from north; there is %g" % bearing
            )
    slopes = sorted({(bearing % 360, angle) for bearing, angle in pairs})
    for (bearing, one), (other, two) in zip(slopes, slopes[1:]):
        if bearing == other:
            raise SlopeError("at bearing %g there are two slopes, %g and %g" % (bearing, one, two))
    return Wall((float(size[0]), float(size[1]), float(size[2])), tuple(slopes), float(rotation))


@dataclass(frozen=True)
class Error:
    """By how many degrees a deep wall errs; above 0 is steeper than asked.

    Attributes
    ----------
    mean
        Of the error without its sign, over 360 bearings.
    signed
        Mean of the error with its sign.
    steepest, flattest
        The greatest and the least error of all bearings.
    """

    mean: float
    signed: float
    steepest: float
    flattest: float

    @property
    def worst(self) -> float:
        """The greatest error without its sign."""
        return max(self.steepest, -self.flattest)

    @property
    def is_too_steep(self) -> bool:
        """Whether a wall is steeper than asked somewhere, by more than `_EVEN`."""
        return self.steepest > _EVEN

    def badness(self, is_safe: bool = False) -> float:
        """At most 1 where all is held; otherwise the greatest share of what is allowed."""
        if is_safe:
            return max(self.mean / MEAN, self.bound(is_safe))
        lesser = min(self.steepest, -self.flattest)
        is_one_sided = self.worst > _EVEN and lesser < _SIDE * self.worst
        return max(
            self.mean / MEAN,
            self.worst / WORST,
            abs(self.signed) / _SIGNED,
            1.5 if is_one_sided else 0,
        )

    def bound(self, is_safe: bool) -> float:
        """What `badness` is at least, by the extremes alone."""
        return self.worst / WORST + (
            _TOO_STEEP * (1 + self.steepest) if is_safe and self.is_too_steep else 0
        )

    def __str__(self) -> str:
        """In words, with two decimals."""
        lean = "%.2f %s" % (abs(self.signed), "steeper" if self.signed >= 0 else "flatter")
        return (
            "%.2f degrees off on average (%s, with its sign), at most %.2f steeper and %.2f flatter"
            " than asked" % (self.mean, lean, max(self.steepest, 0), max(-self.flattest, 0))
        )


@dataclass(frozen=True)
class Pattern:
    """Offsets, and the wall that `pit` builds of them.

    Attributes
    ----------
    wall
        What was asked for.
    offsets
        The offsets (dx, dy, dz) in blocks, dz at least 1; none is a sum of others.
    levels
        The greatest dz.
    error
        By how much the wall errs.
    is_held
        Whether the error is within what is allowed.
    """

    wall: Wall
    offsets: tuple[Offset, ...]
    levels: int
    error: Error
    is_held: bool

    def built(self, bearing: float) -> float:
        """Degrees of the deep wall at a bearing."""
        return Outline(self.wall, self.offsets).slope(bearing)

    def steepest_at(self) -> float:
        """The bearing at which the wall is steepest beside what was asked; the least of several."""
        outline = Outline(self.wall, self.offsets)
        bearings: list[float] = sorted(
            bearing % 360.0
            for bearing in [*map(float, range(360)), *_steep(self.wall, outline, True)]
        )
        return max(
            bearings,
            key=lambda bearing: round(outline.slope(bearing) - self.wall.slope(bearing), 6),
        )

    def __str__(self) -> str:
        return "%d offsets, the highest %d up: a deep wall is %s" % (
            len(self.offsets),
            self.levels,
            self.error,
        )


class Outline:
    """The plan of a deep pit, for each metre of its height.

    Attributes
    ----------
    corners
        Metres east and north, clockwise, from the least bearing on.
    at
        The corners as offsets, each of one and the same level.
    """

    def __init__(self, wall: Wall, offsets: Sequence[Offset]) -> None:
        """The hull is found in whole numbers: each offset over its level, times the common multiple
        of the levels."""
        common = math.lcm(*(k for _, _, k in offsets))
        points = sorted({(i * (common // k), j * (common // k)) for i, j, k in offsets})
        x, y, z = wall.size
        hull = (_chain(points)[:-1] + _chain(points[::-1])[:-1])[::-1]
        self.at = [(i, j, common) for i, j in hull]
        turn = math.radians(wall.rotation)
        sin, cos = math.sin(turn), math.cos(turn)
        flat = [(i / common * x / z, j / common * y / z) for i, j in hull]
        corners = [(u * cos + v * sin, v * cos - u * sin) for u, v in flat]
        starts = [math.degrees(math.atan2(east, north)) % 360 for east, north in corners]
        first = starts.index(min(starts)) if starts else 0
        self.corners = tuple(corners[first:] + corners[:first])
        self._starts = starts[first:] + starts[:first]
        self._edges = list(zip(self.corners, self.corners[1:] + self.corners[:1]))
        self._is_open = len(corners) > 2 and all(_cross(p, q) < 0 for p, q in self._edges)

    def slope(self, bearing: float) -> float:
        """Degrees of the wall at a bearing from the bottom of the pit; 90 where the pit doesn't
        open to all sides."""
        if not self._is_open:
            return 90.0
        p, q = self._edges[bisect.bisect_right(self._starts, bearing % 360) - 1]
        ahead = math.sin(math.radians(bearing)), math.cos(math.radians(bearing))
        return math.degrees(math.atan2(_cross((q[0] - p[0], q[1] - p[1]), ahead), _cross(q, p)))

    def corner_slopes(self) -> Iterator[tuple[float, float]]:
        """The bearing and the degrees of the wall at each corner: there it is flattest."""
        for start, (east, north) in zip(self._starts, self.corners):
            yield start, (
                math.degrees(math.atan2(1.0, math.hypot(east, north))) if self._is_open else 90.0
            )

    def nearest(self) -> list[float]:
        """The bearings at which an edge is nearest: there the wall is steepest."""
        return [math.degrees(math.atan2(p[1] - q[1], q[0] - p[0])) for p, q in self._edges]

    def steepest_beside(self, lean: float) -> Iterator[float]:
        """The bearings at which an edge is steepest beside a slope that rises by `lean` degrees for
        each degree of bearing.

        At an angle a from where it is nearest, an edge that comes d out for each metre of height
        rises by -d sin a / (d^2 + cos^2 a) for each degree of bearing. That is `lean` at one angle
        or at none.
        """
        ends = self._starts[1:] + self._starts[:1]
        for bearing, start, end, (p, q) in zip(self.nearest(), self._starts, ends, self._edges):
            out = _cross(q, p) / math.dist(p, q)
            whole = lean * (out * out + 1)
            sine = -2 * whole / (out + math.sqrt(out * out + 4 * lean * whole))
            at = bearing + math.degrees(math.asin(sine)) if abs(sine) < 1 else math.nan
            if (at - start) % 360 <= (end - start) % 360:  # else it is beyond the edge
                yield at


def _chain(points: Sequence[tuple[int, int]]) -> list[tuple[int, int]]:
    """Half of the corners of a convex hull, of points in ascending or descending order (Andrew
    1979)."""
    chain: list[tuple[int, int]] = []
    for x, y in points:
        while len(chain) > 1:
            (ax, ay), (bx, by) = chain[-2:]
            if (bx - ax) * (y - ay) > (by - ay) * (x - ax):
                break
            chain.pop()
        chain.append((x, y))
    return chain


def _cross(p: tuple[float, float], q: tuple[float, float]) -> float:
    return p[0] * q[1] - p[1] * q[0]


def error_of(wall: Wall, outline: Outline, is_safe: bool = False) -> Error:
    """By how much a wall errs.

    The means are those of 360 bearings. The extremes are looked for at these, at the outline's
    bends, and where the slope that is asked for bends; with `is_safe` also between these, so that
    `steepest` is the greatest error of all.
    """
    off = [outline.slope(bearing) - slope for bearing, slope in enumerate(_by_degree(wall))]
    steepest, flattest = _extremes(wall, outline, is_safe)
    return Error(
        sum(abs(each) for each in off) / 360,
        sum(off) / 360,
        max(steepest, *off),
        min(flattest, *off),
    )


@functools.lru_cache(maxsize=16)
def _by_degree(wall: Wall) -> list[float]:
    return [wall.slope(bearing) for bearing in range(360)]


def _steep(wall: Wall, outline: Outline, is_safe: bool) -> Iterator[float]:
    """The bearings at which a wall may be steepest beside what is asked; with `is_safe` all of
    them."""
    yield from outline.nearest()
    yield from (bearing for bearing, _ in wall.slopes)
    for lean in wall.leans if is_safe else ():
        if lean:
            yield from outline.steepest_beside(lean)


def _extremes(
    wall: Wall, outline: Outline, is_safe: bool, flat: float = math.inf, steep: float = math.inf
) -> tuple[float, float]:
    """The greatest and the least error; the looking ends at the first that is flatter or steeper by
    more than these."""
    flattest = math.inf
    for bearing, slope in outline.corner_slopes():
        flattest = min(flattest, slope - wall.slope(bearing))
        if flattest < -flat:
            return -math.inf, flattest
    steepest = -math.inf
    for bearing in _steep(wall, outline, is_safe):
        off = outline.slope(bearing) - wall.slope(bearing)
        steepest, flattest = max(steepest, off), min(flattest, off)
        if off > steep or off < -flat:
            break
    return steepest, flattest


class _Cones:
    """The cones of one wall, stretched by different factors.

    A level of a cone is a set of columns (i, j), held as the bits of a whole number, so that a set
    is shifted, joined and compared in one operation.
    """

    def __init__(self, wall: Wall, levels: int, widest: float = _WIDEST) -> None:
        flattest = min(slope for _, slope in wall.slopes)
        reach = widest * levels * wall.size[2] / math.tan(math.radians(flattest))
        across, along = int(reach / wall.size[0]) + 1, int(reach / wall.size[1]) + 1
        self.levels, self.widest, self.across, self.wide = levels, widest, across, 2 * across + 1
        self.origin = 1 << (along * self.wide + across)
        self.along = along
        found = sorted(
            (wall.stretch(i, j), i, j)
            for i in range(-across, across + 1)
            for j in range(-along, along + 1)
        )
        self.found = [f for f in found if f[0] <= widest * levels * (1 + _SAME)]
        self.far = [far for far, _, _ in self.found]
        # sets of the nearest columns by their count, and these counts ascending
        self.sets, self.counts = {0: 0}, [0]

    def level(self, k: int, stretch: float) -> int:
        """The columns of level k of the cone; of columns as far away as each other all or none."""
        count = bisect.bisect_right(self.far, stretch * k * (1 + _SAME))
        while 0 < count < len(self.far) and self.far[count] <= self.far[count - 1] * (1 + _SAME):
            count += 1
        if count not in self.sets:
            # its columns come first here too
            near = self.counts[bisect.bisect_right(self.counts, count) - 1]
            bits = bytearray(((2 * self.along + 1) * self.wide + 7) // 8)
            for _, i, j in self.found[near:count]:
                at = (j + self.along) * self.wide + i + self.across
                bits[at >> 3] |= 1 << (at & 7)
            self.sets[count] = self.sets[near] | int.from_bytes(bits, "little")
            bisect.insort(self.counts, count)
        return self.sets[count]

    def cuts(self, narrowest: float, most: int) -> list[float]:
        """Stretches at which a cone has one block more, ascending; where there are too many, those
        of the lower levels."""
        cuts: list[float] = [1.0]
        low, high = narrowest * (1 - _SAME), self.widest * (1 + _SAME)
        for k in range(1, self.levels + 1):
            more = [far / k for far in self.far if low <= far / k <= high]
            cuts = sorted(cuts + more)
            cuts = [cut for cut, before in zip(cuts, [-1.0] + cuts) if cut > before * (1 + _SAME)]
            if len(cuts) >= most:
                break
        return cuts[:: -(-len(cuts) // most)]

    def needed(self, stretch: float) -> Iterator[list[Offset]]:
        """The offsets that no sum of others comes to, up to each level at which there are new ones,
        and 4,096 in all."""
        chosen: list[Offset] = []
        reached = [self.origin]
        for k in range(1, self.levels + 1):
            implied = 0
            for i, j, up in chosen:
                shift = j * self.wide + i
                implied |= reached[k - up] << shift if shift >= 0 else reached[k - up] >> -shift
            held = self.level(k, stretch)
            reached.append(implied | held)
            new = held & ~implied
            if len(chosen) + bin(new).count("1") > OFFSETS:
                return
            while new:
                at = (new & -new).bit_length() - 1
                chosen.append((at % self.wide - self.across, at // self.wide - self.along, k))
                new &= new - 1
            if chosen and chosen[-1][2] == k:
                yield chosen


def within(blocks: int) -> _Fits:
    """Whether offsets can't make more pairs of so many blocks than `pit` lists."""
    return lambda offsets: len(offsets) * blocks <= PAIRS


def search(
    wall: Wall, *, safe: bool = False, levels: int | None = None, fits: _Fits = within(0)
) -> Pattern:
    """The fewest offsets that hold a wall.

    Parameters
    ----------
    wall
        Its blocks and its angles.
    safe
        Whether it may be steeper than asked nowhere, at whatever bearing. Otherwise it errs to both
        sides, or not at all.
    levels
        How many levels up the offsets may lead; where None, as many as it takes, up to 200.
    fits
        Whether offsets are few enough for a model; more than 4,096 are never tried.

    Returns
    -------
    Pattern
        Of those that err by no more than 0.5 degrees on average and 1.0 at the worst bearing, and
        unless `safe` by 0.25 with their sign on average, one with the fewest offsets; where there
        is none, the one that errs least, and `is_held` is False. With `safe` no answer is steeper
        than asked, held or not: where `levels` are few it is flatter.

    Raises
    ------
    TooSteep
        Where no wall may be steeper than asked, and each that is tried is: even one level of a safe
        one has more offsets than fit.
    SlopeError
        Where not even the straight column of blocks fits, or `levels` isn't from 1 to 200.
    """
    if levels is not None and not 1 <= levels <= _MOST_LEVELS:
        raise SlopeError("levels are from 1 to %d; there is %d" % (_MOST_LEVELS, levels))
    steepest = max(slope for _, slope in wall.slopes)
    out = wall.size[2] / math.tan(math.radians(steepest)) / max(wall.size[:2])
    tried: list[Pattern] = []
    before = 0
    for blocks_out, most in _TRIES:
        high = min(_MOST_LEVELS, levels or _MOST_LEVELS, _levels_of(blocks_out, out))
        if high == before:
            break
        before = high
        cones = _Cones(wall, high)
        judged = functools.partial(_best, cones, wall, safe, fits)
        found = judged(cones.cuts(NARROWEST, most)) or judged(cones.cuts(0.0, most))
        if found is None:
            raise SlopeError(
                "not even one offset fits into the %s pairs that pit lists" % f"{PAIRS:,}"
            )
        tried.append(found)
        if found.is_held:
            break
    best = tried[-1] if _is_better(tried[-1], tried[0], safe) else tried[0]
    if safe and best.error.is_too_steep:
        flatter = _flatter(wall, min(before, _levels_of(_BLOCKS_OUT, out)), fits)
        if flatter is None:
            raise TooSteep(best)
        return flatter
    return best


def _levels_of(blocks: float, out: float) -> int:
    """How many levels up a wall comes some blocks out, where it comes `out` of them on each."""
    return math.ceil(blocks / out * (1 - _SAME))


def _flatter(wall: Wall, levels: int, fits: _Fits) -> Pattern | None:
    """The best safe pattern of cones that are stretched more than others need; None where one level
    has too many offsets before that."""
    narrow = _WIDEST
    while (first := next(_Cones(wall, 1, narrow).needed(narrow), None)) and fits(first):
        cones = _Cones(wall, levels, 2 * narrow)
        found = _best(cones, wall, True, fits, [*cones.cuts(narrow, _TRIES[0][1]), cones.widest])
        if found and not found.error.is_too_steep:
            return found
        narrow = cones.widest
    return None


def _best(
    cones: _Cones, wall: Wall, safe: bool, fits: _Fits, stretches: Sequence[float]
) -> Pattern | None:
    """The best pattern of cones that are stretched, of any number of levels; None where none
    fits."""
    best: Pattern | None = None
    least = math.inf  # badness of the best; 1 where it holds
    seen: dict[object, Error | None] = {}
    for stretch in stretches:
        corners: list[Offset] = []
        count = 0  # of the offsets that the corners are of
        for offsets in cones.needed(stretch):
            if best and best.is_held and len(offsets) > len(best.offsets) or not fits(offsets):
                break
            outline = Outline(wall, corners + offsets[count:])
            corners, count = outline.at or list(offsets), len(offsets)
            if outline.corners not in seen:  # None: the extremes alone are worse than the best
                flat = least * WORST
                steepest, flattest = _extremes(
                    wall, outline, safe, flat, max(_EVEN, least / _TOO_STEEP - 1) if safe else flat
                )
                if -flattest > flat:  # further levels make the wall flatter still
                    break
                bound = Error(0, 0, steepest, flattest).bound(safe)
                seen[outline.corners] = error_of(wall, outline, safe) if bound <= least else None
            error = seen[outline.corners]
            if error is None:
                continue
            found = Pattern(
                wall, tuple(offsets), offsets[-1][2], error, error.badness(safe) <= 1 + _SAME
            )
            if best is None or _is_better(found, best, safe):
                best, least = found, max(1.0, error.badness(safe)) * (1 + _SAME)
    return best


def _is_better(pattern: Pattern, best: Pattern, safe: bool) -> bool:
    """Whether a pattern is better than the best of those before it; of equals the first stays."""
    if pattern.is_held != best.is_held:
        return pattern.is_held
    if pattern.is_held and len(pattern.offsets) != len(best.offsets):
        return len(pattern.offsets) < len(best.offsets)
    return pattern.error.badness(safe) < best.error.badness(safe) * (1 - _SAME)


def settings_by_region(patterns: Mapping[str, Pattern]) -> str:
    """The offsets of each region as settings of `pit`: a list for each, in this order, after a
    remark of what walls they make."""
    lists = (
        "".join(f"    # {_printable(line)}\n" for line in f"{name}: {pattern}".splitlines())
        + "    [%s],\n" % ", ".join("[%d, %d, %d]" % offset for offset in pattern.offsets)
        for name, pattern in patterns.items()
    )
    return "slopes = [\n%s]\n" % "".join(lists)


def _printable(line: str) -> str:
    """A line as a remark of TOML may have it: without control characters."""
    return "".join(c if c.isprintable() else "?" for c in line)
