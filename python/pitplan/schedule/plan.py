"""The schedule of a study: asked for by study.toml, searched, judged by `pit schedule`, and shown
with its bound."""
from __future__ import annotations

import hashlib
from collections.abc import Mapping
from dataclasses import dataclass, replace
from decimal import Decimal
from pathlib import Path
from typing import TYPE_CHECKING, Any, NamedTuple

import numpy as np

from ..base.amounts import THOUSAND
from ..base.arrays import Array, Bools, Indices, Ints
from ..base.errors import NotAccepted, PlanError
from ..base.next_command import command
from ..base.units_shown import Scale
from ..pit.schedule_answer import Scheduled
from ..study.pit_by_pit import Rates
from .search_ends import End, Limits, SearchStopped, gap_text
from .pit_schedule import judged
from .destinations import Timetable
from .production import Production, feeds_of, production_of
from .search import Found, Listener, Search
from .terms import MILLION, refuse_no_full_price, terms_of

if TYPE_CHECKING:
    from ..study.shells import Shells

_WHOLE = Decimal(100)


def _what_would_pay(made: Production) -> str:
    """What to try where nothing is dug that pays."""
    if not (made.capacities > 0).all(axis=0).any():
        return "rates that are above 0 in the same year: no year has all of them"
    less = "a lower fixed_cost, " if made.terms.fixed_cost else ""
    return f"{less}mining_rate and mill_rate in tonnes a year, or more years"


class _Left(NamedTuple):
    """What of a pit stays in the ground: blocks of rock, tonnes, what they are worth, and whether
    a year in which they are dug has a fixed cost, which that leaves out."""

    blocks: int
    tonnes: float
    worth: float
    has_fixed_cost: bool

    def words(self, rock: Scale, currency: str) -> str:
        """It in words, its rock by this scale."""
        stay = "block of the pit stays" if self.blocks == 1 else "blocks of the pit stay"
        return (
            f"{self.blocks:,} {stay} in the ground, {rock.said(self.tonnes)} worth"
            f" {currency} {self.worth:,.0f} undiscounted"
            + (", before fixed costs" if self.has_fixed_cost else "")
        )


@dataclass(frozen=True)
class Schedule:
    """A schedule that `pit schedule` calls feasible, beside a bound that it says.

    Attributes
    ----------
    shells : Shells
    production : Production
    period : int array of shape (blocks of the model,)
        When each block is dug, from 0; -1 where it isn't.
    goes : int array of that shape
        Which way it goes where it is dug: the number of the mill or the process, from 1, and 0 to
        waste.
    judged : Scheduled
        What `pit schedule` says of it.
    fixed : Decimal
        What its fixed costs weigh, in units of currency: `judged` doesn't have them.
    bound : Decimal
        What no schedule of these terms is worth more than, in units of currency.
    closures : int
        Pits of the mine of blocks and periods that were found for it.
    end : End or None
        Why the search for it ended; None where that wasn't kept.
    """

    shells: Shells
    production: Production
    period: Indices
    goes: Ints
    judged: Scheduled
    fixed: Decimal
    bound: Decimal
    closures: int
    end: End | None = None

    @property
    def sent(self) -> Bools:
        """Whether each block of the model goes to the mill, or to a process, where it is dug."""
        return self.goes > 0

    @property
    def npv(self) -> Decimal:
        """What it is worth: what `pit schedule` says, less the fixed costs; without zeros at its end,
        as `pit` writes amounts."""
        return (Decimal(self.judged.npv) - self.fixed).normalize()

    @property
    def count(self) -> int:
        """How many blocks are dug."""
        return int((self.period >= 0).sum())

    @property
    def gap(self) -> Decimal:
        """How far it is below the bound, in percent of the bound."""
        return _WHOLE * (self.bound - self.npv) / self.bound if self.bound else Decimal(0)

    @property
    def units_a_period(self) -> float:
        """How many blocks or panels of rock are dug in a period, in the mean of those in which rock
        is."""
        made, when = self.production, self.period[self.production.blocks]
        has_rock = made.uses[0][made.unit] > 0
        dug = np.unique(made.unit[(when >= 0) & has_rock])
        return len(dug) / max(len(np.unique(when[(when >= 0) & has_rock])), 1)

    @property
    def gap_text(self) -> str:
        """The gap in words, as `search_ends.gap_text` says it."""
        return gap_text(self.gap)

    @classmethod
    def of(
        cls,
        shells: Shells,
        values: Mapping[str, Any],
        rates: Mapping[str, Any],
        limits: Limits,
        listener: Listener | None = None,
        folder: Path | None = None,
    ) -> Schedule:
        """Searches, from where an earlier search ended.

        Parameters
        ----------
        shells : Shells
            A series that has the full price.
        values : mapping
            The values of [schedule].
        rates : mapping
            Those that [shells] gives.
        limits : Limits
        listener : function, optional
            Called with how far it is.
        folder : Path, optional
            In which it is kept. Default: that of the study.

        Raises
        ------
        PlanError
            Where the terms are wrong, or no pit at the full price was found.
        SearchStopped
            After ctrl-C, with what was found kept.
        """
        place = folder or shells.study.folder
        search: Search | None = None
        try:
            made = production_for(shells, values, rates)
            search = Search(place, made, shells.study.program, listener, shells.study.files)
            search.run(*limits)
            found = cls.found_by(search, shells)
        except KeyboardInterrupt:
            raise _stopped(search, shells) from None
        if found is None:
            raise NotAccepted("no bound was found in this time", try_this="--minutes 30")
        return found

    @classmethod
    def last(
        cls,
        shells: Shells,
        values: Mapping[str, Any],
        rates: Mapping[str, Any],
        folder: Path | None = None,
    ) -> Schedule | None:
        """What was found last by these terms; None where nothing was. Nothing is searched, and
        `pit` judges what is there.

        Parameters
        ----------
        shells, values, rates, folder
            As of `of`.

        Raises
        ------
        Disagreement
            As `judged`.
        """
        place = folder or shells.study.folder
        if not (place / "runs" / "schedule").is_dir():
            return None
        try:
            made = production_for(shells, values, rates)
        except PlanError:  # of other terms than those that a schedule was found by
            return None
        files = shells.study.files
        return cls.found_by(Search(place, made, shells.study.program, None, files), shells)

    @classmethod
    def found_by(cls, search: Search, shells: Shells) -> Schedule | None:
        """The best of what a search has, as `pit` judges it; None where it has no schedule or no
        bound. Raises PlanError where nothing is dug that pays."""
        made, plan = search.production, search.plan
        if search.bound is None or search.found.bound is None or plan is None:
            return None
        if not (plan.period < made.periods).any():
            raise PlanError(
                "[schedule] by these terms nothing is dug that pays: no block fits with all above"
                " it, or none brings anything in these years",
                try_this=_what_would_pay(made),
                key=("schedule",),
            )
        search.tell("pit judges the schedule")
        bound = search.bound, search.kept.certificate
        said = judged(shells.study, made, plan, search.kept.folder, bound)
        return cls(
            shells,
            made,
            made.of_blocks(plan),
            _goes_of(made, plan, shells),
            said,
            Decimal(made.fixed(plan)) / MILLION,
            Decimal(search.found.bound) / MILLION,
            search.found.closures,
            search.end,
        )

    @property
    def facts(self) -> dict[str, Any]:
        """What ``schedule.json`` says: amounts in units of currency, each as `pit` says it."""
        terms, dug = self.production.terms, self.period >= 0
        return {
            "is_judged": True,
            "currency": self.shells.study.currency,
            "npv": f"{self.npv:f}",
            "bound": f"{self.bound:f}",
            "gap_percent": float(self.gap),
            "blocks": self.count,
            "periods": len(np.unique(self.period[dug])),
            "periods_a_year": terms.per_year,
            "closures": self.closures,
        } | (self.end.facts if self.end else {})

    @property
    def digest(self) -> str:
        """Of when each block is dug and where it goes, and of all that the bound rests on."""
        return _digest(self.production, self.period, self.goes)

    @property
    def periods(self) -> Indices:
        """The period of each block of the model, from 1; 0 where it isn't dug, and of air."""
        dug = (self.period >= 0) & self.shells.study.model.is_rock
        return np.where(dug, self.period + 1, 0).astype(np.int32)

    @property
    def years(self) -> Indices:
        """The year of each block of the model, from 1; 0 where it isn't dug, and of air."""
        each = self.production.terms.per_year
        return ((self.periods + each - 1) // each).astype(np.int32)

    @property
    def pushbacks(self) -> Indices:
        """The pushback of each block of the pit, from 1; 0 of other blocks of the model."""
        made, found = self.production, np.zeros(self.production.size, np.int32)
        found[made.blocks] = np.broadcast_to(made.pushback, made.units)[made.unit] + 1
        return found

    @property
    def ways(self) -> Array:
        """Where each block of the model goes: "mill", or the name of a process, or "waste"; ""
        where it isn't dug, and of air."""
        names = np.array(["waste", *(way.name for way in self.shells.study.priced.ways)])
        return np.where(self.periods > 0, names[self.goes], "")

    def left(self) -> _Left:
        """What of the pit stays in the ground."""
        study, pit = self.shells.study, self.production.blocks
        stays = np.zeros(len(self.period), bool)
        stays[pit] = self.period[pit] < 0
        stays &= study.model.is_rock
        tonnes = study.model.blocks.tonnes.to_numpy(float)
        return _Left(
            int(stays.sum()),
            float(tonnes[stays].sum()),
            float(study.priced.worth(THOUSAND)[stays].sum()),
            self.production.terms.fixed_cost > 0,
        )


def _goes_of(production: Production, plan: Timetable, shells: Shells) -> Ints:
    """Which way each block goes where it is dug, as `Schedule.goes` has it."""
    if production.terms.is_by_year:
        return production.ways_chosen(plan)
    return shells.study.priced.way_of(THOUSAND)


def _digest(production: Production, period: Indices, goes: Ints) -> str:
    """The digest of a schedule, as `Schedule.digest` says."""
    found = hashlib.sha256(production.key.encode())
    for each in (period, goes):
        found.update(np.ascontiguousarray(each).tobytes())
    return found.hexdigest()


def _stopped(search: Search | None, shells: Shells) -> SearchStopped:
    """What a search has once it was stopped, its schedule kept: it may have been stopped before it
    kept that itself, or before it began."""
    if search is None or search.plan is None:
        return SearchStopped(Found(), "")
    made, plan = search.production, search.plan
    search.kept.keep_schedule(plan)
    found = replace(search.found, npv=made.npv(plan))
    return SearchStopped(found, _digest(made, made.of_blocks(plan), _goes_of(made, plan, shells)))


def production_for(
    shells: Shells, values: Mapping[str, Any], rates: Mapping[str, Any]
) -> Production:
    """What the schedule of a study is made of.

    Raises
    ------
    PlanError
        As `terms_of` and `production_of`, and where the series has no pit at the full price.
    """
    study = shells.study
    refuse_no_full_price(shells.factors, command("shells", study.named))
    at = shells.factors.index(THOUSAND)
    held = shells.holds(at)
    tonnes = study.model.blocks.tonnes.to_numpy(float)
    if names := study.priced.process_names:
        of = Rates(processes=rates.get("process_rates") or {}).of(names)  # in their own order
        rates = {**rates, "process_rates": of.processes}
    feeds = [float(each[held].sum()) for each in feeds_of(study)]
    terms = terms_of(values, rates, float(tonnes[held].sum()), feeds)
    return production_of(shells, terms, at)
