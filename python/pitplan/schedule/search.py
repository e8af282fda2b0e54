"""A schedule and a bound are looked for, and what is found is kept, so that a search that was
stopped goes on."""
from __future__ import annotations

import math
import tempfile
import time
from collections.abc import Callable, Iterator
from dataclasses import dataclass, replace
from decimal import Decimal
from pathlib import Path
from typing import Any, NamedTuple

import numpy as np

from ..base.arrays import Array, Floats, Ints
from ..base.files import mark
from ..pit.program import Files, Pit
from . import highs
from .annealing import Annealing
from .search_ends import ALL, GAP, KILLED, MINUTES, ROUNDS, STOPPED, End
from .block_texts import BlockTexts, is_by_blocks
from .bounds import CERTIFICATE, Bounds, Closed
from .kept_search import Bound, Kept
from .partition import MANY_CLUSTERS, Clusters, Relaxed, begun, merged, relax, shares_of, split
from .production import Production
from .destinations import Timetable
from .sorting import Sorting
from .terms import MILLION
from .unit_texts import UnitTexts
from .whole_units import by_whole_units, is_small
from .windows import Windows

_BOUND_PART = 0.6  # of the time, that the bound may take
_BOUND_TOLERANCE = 0.01  # of the gap asked for, to which the bound comes to the relaxation
_LEAST_TOLERANCE = 1e-5  # of its worth, closer than which the bound needn't come
_TRIES = 2000  # swaps between each two periods in a round
_REBUILDS = 100  # tries of a round to dig other units, at most
_REBUILT = 10_000  # units that they go over together
_SWAPS = 3  # rounds of swaps, after which come windows
_WIDTHS = (2, 3, 2)  # periods of the windows of each pass of a round
_IDLE = 2  # rounds of windows that gain nothing, after which these wait until something else does
_DEARER = 3  # times what a round of windows takes, that annealing does, about
_LEAST_SWAPS, _MOST_SWAPS = (
    150,
    4000,
)  # swaps between each two periods at each temperature of the first one
_LONGER = 1.5  # times that each annealing is longer than the one before
_OFTEN = 4  # how often it gets longer
_OF_LEFT = 0.9  # of the time that is left, which annealing may take
_STALE = 8  # rounds in a row that bring next to nothing, after which the search ends
_LONGEST = 1e9  # seconds of a search
_MOST_ROUNDS = 2**31  # more than there are ever
_NOTHING = 2e-6  # of the worth: what counts as next to nothing


@dataclass(frozen=True)
class Found:
    """How far a search is.

    Attributes
    ----------
    bound, npv : int or None
        In millionths of a unit of currency.
    closures : int
        Pits of blocks and periods that were found.
    filled : int
        Periods in which something is dug.
    """

    bound: int | None = None
    npv: int | None = None
    closures: int = 0
    filled: int = 0

    @property
    def gap(self) -> float:
        """How far the schedule is below the bound, as a share of it; infinite while one isn't
        there."""
        if self.bound is None or self.npv is None or self.bound <= 0:
            return math.inf
        return (self.bound - self.npv) / self.bound

    @property
    def facts(self) -> dict[str, Any]:
        """What ``schedule.json`` says of a search that was ended, before `pit schedule` has judged
        what it found: amounts in units of currency, None where there are none."""
        return {
            "is_judged": False,
            "npv": None if self.npv is None else f"{Decimal(self.npv) / MILLION:f}",
            "bound": None if self.bound is None else f"{Decimal(self.bound) / MILLION:f}",
            "gap_percent": self.gap * 100 if math.isfinite(self.gap) else None,
            "periods": self.filled,
            "closures": self.closures,
        }


Listener = Callable[[Found, str], None]  # how far it is, and what is done next


class Lasting(str):
    """What a listener is told that isn't what is done next, and has to stay in sight."""


class _Shared(NamedTuple):
    """Of the relaxation: its shares of units and periods, and its multipliers."""

    shares: Floats
    multipliers: Ints


class Search:
    """Looks for a schedule and for a bound of all schedules.

    Parameters
    ----------
    folder : Path
        Of the study.
    production : Production
    program : Pit
    listener : function, optional
        Called with how far it is, and what is done next.
    files : Files, optional
        Of the model, by which `pit` bounds schedules of single blocks. Default: by their units.

    Attributes
    ----------
    end : End or None
        Why the last search over this production ended; None before the first.
    """

    def __init__(
        self,
        folder: Path,
        production: Production,
        program: Pit,
        listener: Listener | None = None,
        files: Files | None = None,
    ) -> None:
        self.production, self.program = production, program
        self.kept = Kept(folder, production)
        is_of_model = files is not None and is_by_blocks(production)
        self.nodes: Bounds = (
            BlockTexts(production, files) if files and is_of_model else UnitTexts(production)
        )
        self.sorting = Sorting(production)
        self.windows = Windows(self.sorting)
        self.listener, self.found = listener, Found()
        self.rebuilds = min(_REBUILDS, _REBUILT // production.units)
        self.plan: Timetable | None = None
        self.first: Timetable | None = None  # the best that needs no relaxation
        self.rounds = self.anneals = 0  # of all kinds, and of annealing
        self.by_windows = self.by_annealing = math.inf  # what each gained last
        self.was_windows, self.idle = False, 0  # rounds of windows since something was gained
        self.told = set[str]()  # of what is damaged
        self.pace = 0.0  # seconds that annealing took for each of its tries
        self.end = self.kept.end()
        self.bound = self.kept.bound()
        if self.bound:
            self.found = replace(
                self.found, bound=self.bounded(self.bound), closures=self.bound.closures
            )
        self.take(self.kept.schedule(), keep=False)

    def run(self, gap: float, seconds: float) -> None:
        """Searches until the schedule is within a gap of the bound, nothing more is found, or the
        time is up. There is a schedule and a bound afterwards, whatever the time: a first bound is
        waited for. Why it ended is in `end`, and kept.

        Parameters
        ----------
        gap : float
            As a share: 0.001 is 0.1 %.
        seconds : float
        """
        seconds = min(seconds, _LONGEST)
        self.end = End(KILLED, gap, seconds)
        self.kept.keep_end(self.end)  # whatever ends it before it says why
        try:
            with self.sorting.ending(seconds):
                why = self.looked(gap, seconds)
            if why != GAP:  # else what was asked for is there
                self.take(self.first)
            self.ended(why)
        except KeyboardInterrupt:
            self.take(self.first)
            self.ended(STOPPED)
            raise

    def ended(self, why: str) -> None:
        """Notes why the search ended."""
        assert self.end is not None
        self.end = replace(self.end, why=why)
        self.kept.keep_end(self.end)

    def looked(self, gap: float, seconds: float) -> str:
        """Searches, and gives why it ended."""
        ends = self.sorting.ends
        highs.begin(1)  # which takes a while, before it is needed
        if self.plan is None:
            self.tell("first schedules, one pit of the series after the other")
            for begun_with in self.sorting.first_ones():
                self.take(begun_with)
                if time.monotonic() > ends:
                    break
            self.first = self.plan
        if self.found.gap > gap:
            found = self.lower(gap, time.monotonic() + seconds * _BOUND_PART)
            if found is not None:
                self.sort(found, gap, ends)
        if self.found.gap > gap and is_small(self.production):
            self.tell("all schedules of this small mine, by HiGHS")
            plan, is_all = by_whole_units(self.production, ends - time.monotonic())
            self.take(plan)
            if is_all and self.found.gap > gap:
                return ALL
        return self.swap(gap, ends)

    def tell(self, what: str) -> None:
        """Says how far it is."""
        if self.listener:
            self.listener(self.found, what)

    def arrays(self, name: str) -> dict[str, Array]:
        """What was kept under a name. What is damaged is told once."""

        def tell(what: str) -> None:
            if what not in self.told:
                self.told.add(what)
                self.tell(Lasting(what))

        return self.kept.arrays(name, tell)

    def bounded(self, bound: Bound) -> int:
        """What no schedule is worth more than, in millionths, by what `pit` says at some
        multipliers."""
        return self.nodes.total(bound.said, np.array(bound.multipliers, np.int64))

    def take(self, plan: Timetable | None, keep: bool = True, is_new: bool = False) -> None:
        """Takes a schedule where it is worth more than the one that is there, or is one to begin anew
        with."""
        if plan is None:
            return
        plan = self.sorting.shortened(plan)
        npv = self.production.npv(plan)
        if self.found.npv is not None and npv <= self.found.npv and not is_new:
            return
        wrong = self.production.wrong(plan)
        assert not wrong, wrong
        self.plan = plan
        filled = len(np.unique(plan.period[plan.period < self.production.periods]))
        self.found = replace(self.found, npv=npv, filled=filled)
        if keep:
            self.kept.keep_schedule(plan)

    def clusters(self) -> Clusters:
        """Those that an earlier search ended with, or those to begin with. Whatever numbers are kept,
        those that are the same are a cluster."""
        kept, made = self.arrays("partition"), self.production
        first, shapes = begun(made), {"dug": made.units, "sent": len(made.millable.block)}
        if any(
            name not in kept
            or kept[name].shape != (rows, made.periods)
            or kept[name].dtype.kind not in "iu"
            for name, rows in shapes.items()
        ):
            return first
        dug, sent = (kept[name].astype(np.int64) for name in shapes)
        return Clusters.renamed(dug, sent, first.there)

    def lower(self, gap: float, ends: float) -> _Shared | None:
        """Looks for better bounds, until the best is near the relaxation or the time is up; a first
        bound is waited for. Gives the shares and the multipliers of the relaxation, None where the
        time was too short for one."""
        made, cluster, last = self.production, self.clusters(), -math.inf
        answer: _Shared | None = None
        with tempfile.TemporaryDirectory(
            prefix=f".closures.{mark()}", dir=self.kept.folder
        ) as work:
            while True:
                self.tell("the bound: a plan that may split blocks, by HiGHS")
                relaxed = relax(made, cluster, self.left_until(ends))
                if relaxed is None:
                    return answer
                answer = _Shared(shares_of(cluster, relaxed), relaxed.multipliers)
                self.tell("the bound: pit proves one from that plan")
                pit = self.closed(Path(work), relaxed, self.left_until(ends))
                if pit is None:
                    return answer
                best = self.found.bound
                assert best is not None
                is_near = best / MILLION - relaxed.worth <= max(
                    _BOUND_TOLERANCE * gap, _LEAST_TOLERANCE
                ) * abs(relaxed.worth)
                if is_near or time.monotonic() > ends:
                    return answer
                if cluster.size > MANY_CLUSTERS and relaxed.worth > last * (1 + 1e-9):
                    cluster = merged(cluster, relaxed)
                last = max(last, relaxed.worth)
                parted = split(cluster, made, pit.dug, relaxed.multipliers)
                if parted.size == cluster.size:
                    return answer  # the partition is the relaxation itself
                cluster = parted
                rows = {"dug": cluster.dug.astype(np.int32), "sent": cluster.sent.astype(np.int32)}
                self.kept.keep_arrays("partition", **rows)

    def left_until(self, ends: float) -> float | None:
        """The seconds that a step of the bound may take; None before there is one."""
        return None if self.found.bound is None else ends - time.monotonic()

    def closed(self, work: Path, relaxed: Relaxed, seconds: float | None) -> Closed | None:
        """The richest pit at some multipliers, None where it takes longer; its bound is kept where
        it is the best."""
        pit = self.nodes.closed(self.program, work, relaxed.multipliers, seconds)
        if pit is None:
            return None
        closures = self.found.closures + 1
        bound = Bound(
            self.production.key,
            pit.bound,
            relaxed.multipliers.tolist(),
            pit.certificate,
            closures,
            self.program.version(),
        )
        total = self.bounded(bound)
        self.found = replace(self.found, closures=closures)
        if self.found.bound is None or total < self.found.bound:
            self.bound, self.found = bound, replace(self.found, bound=total)
            self.kept.keep_bound(bound, work / f"{CERTIFICATE}.gz")
        return pit

    def sort(self, shared: _Shared, gap: float, ends: float) -> None:
        """Schedules by the shares of the relaxation, and where periods have a fixed cost by those of
        the one without it too. They take the place of the first ones whatever these are worth: swaps
        better them sooner. The best of the first ones comes back where the search ends before that.
        """
        for shares, multipliers in (shared, *self.shared_without_cost(ends)):
            for plan in self.sorting.by_shares(shares, multipliers):
                self.tell("schedules in the order of that plan")
                self.take(plan, is_new=self.plan is self.first)
                if self.found.gap <= gap or time.monotonic() > ends:
                    return

    def shared_without_cost(self, ends: float) -> Iterator[_Shared]:
        """The relaxation over the clusters at hand as if no period had a fixed cost: where it has,
        as a period that is open in part pays for that part alone."""
        terms = self.production.terms
        if not terms.fixed_cost:
            return
        cluster = self.clusters()
        free = replace(self.production, terms=replace(terms, fixed_cost=0))
        relaxed = relax(free, cluster, ends - time.monotonic())
        if relaxed is not None:
            yield _Shared(shares_of(cluster, relaxed), relaxed.multipliers)

    def swap(self, gap: float, ends: float) -> str:
        """Swaps between neighbouring periods in rounds, then windows of these in turns with
        annealing, longer each time, until all bring next to nothing. Gives why it ended."""
        stale, seed = 0, self.seed()
        while True:
            if self.found.gap <= gap:
                return GAP
            if time.monotonic() >= ends:
                return MINUTES
            if stale >= _STALE:
                assert self.end is not None
                self.end = replace(self.end, rounds=stale)
                return ROUNDS
            assert self.found.npv is not None
            before, seed = self.found.npv, seed + 1
            self.one_round(seed)
            self.kept.keep_arrays("swaps", seed=np.array(seed))
            stale = stale + 1 if self.found.npv - before <= _NOTHING * abs(before) else 0

    def seed(self) -> int:
        """That of the last round of an earlier search; 0 where none is kept."""
        found = self.arrays("swaps").get("seed", np.array(0))
        is_one = found.shape == () and found.dtype.kind in "iu" and 0 <= found < _MOST_ROUNDS
        return int(found) if is_one else 0

    def one_round(self, seed: int) -> None:
        """One round: of swaps, and after some of these of windows or of annealing, whichever gained
        more the last time; and of rebuilding."""
        assert self.plan is not None and self.found.npv is not None and self.end is not None
        self.rounds, before = self.rounds + 1, self.found.npv
        is_for_windows = self.rounds > _SWAPS and self.is_for_windows
        if self.rounds <= _SWAPS:
            self.tell("blocks swapped between neighbouring periods")
            self.take(self.sorting.swapped(self.plan, _TRIES, seed))
        elif is_for_windows:
            self.tell("a few periods scheduled anew, by HiGHS")
            for width in _WIDTHS:
                if self.found.gap > self.end.gap:
                    self.take(self.windows.bettered(self.plan, width, seed))
            self.by_windows, self.was_windows = float(self.found.npv - before), True
        else:
            self.tell("swaps of which some lose at first (annealing)")
            self.anneals += 1
            self.anneal(self.anneals, seed)
            self.by_annealing, self.was_windows = (self.found.npv - before) / _DEARER, False
        self.take(self.sorting.rebuilt(self.plan, self.rebuilds, seed))
        self.idle = self.idle + is_for_windows if self.found.npv == before else 0

    @property
    def is_for_windows(self) -> bool:
        """Whether windows come next: both are tried, and where neither gains they take turns."""
        if self.by_windows == self.by_annealing or self.idle >= _IDLE:
            return not self.was_windows and self.idle < _IDLE
        return self.by_windows > self.by_annealing

    def anneal(self, times: int, seed: int) -> None:
        """Annealing, each half as long again as the one before up to a limit, and no longer than
        the time that is left: what is cut off while it is hot brings nothing."""
        assert self.plan is not None
        least = min(max(self.production.units, _LEAST_SWAPS), _MOST_SWAPS)
        tries, began = least * _LONGER ** min(times - 1, _OFTEN), time.monotonic()
        if self.pace:
            tries = min(tries, _OF_LEFT * (self.sorting.ends - began) / self.pace)
        self.take(Annealing(self.sorting, seed).annealed(self.plan, max(int(tries), 1)))
        self.pace = (time.monotonic() - began) / max(int(tries), 1)
