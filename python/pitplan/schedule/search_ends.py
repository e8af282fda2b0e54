"""When a search for a schedule has to end, and why it ended."""
from __future__ import annotations

import math
from dataclasses import dataclass
from decimal import Decimal
from typing import TYPE_CHECKING, Any, NamedTuple

from ..base import errors, kept_json
from ..base.units_shown import counted

if TYPE_CHECKING:
    from .search import Found

GAP, MINUTES, ROUNDS, ALL, STOPPED, KILLED = (
    "gap reached",
    "minutes over",
    "no move gains",
    "all looked through",
    "ctrl-C",
    "ended from outside",
)
_PERCENT, _MINUTE = 100.0, 60.0
KINDS: dict[str, kept_json.Holds] = {
    "why": lambda value: value in (GAP, MINUTES, ROUNDS, ALL, STOPPED, KILLED),
    "gap": kept_json.is_number,
    "seconds": kept_json.is_number,
    "rounds": kept_json.is_count,
}


def gap_text(gap: Decimal | float) -> str:
    """A gap in percent with three digits that count, or two decimals, rounded up: never smaller than it is.

    >>> gap_text(0.03912), gap_text(1.001), gap_text(0)
    ('0.0392 %', '1.01 %', '0.00 %')
    """
    places = max(2, 2 - math.floor(math.log10(float(gap)))) if gap > 0 else 2
    step = 10 ** min(places, 6)
    return f"{math.ceil(gap * step) / step:.{min(places, 6)}f} %"


class SearchStopped(KeyboardInterrupt):
    """A search was stopped, with what it had found kept.

    Parameters
    ----------
    found : Found
        How far it was.
    digest : str
        Of its best schedule, as `Schedule.digest`; empty where it had none.
    """

    def __init__(self, found: Found, digest: str) -> None:
        super().__init__(found, digest)
        self.found, self.digest = found, digest

    @property
    def said(self) -> str:
        """What is kept, and what the same command does next."""
        if self.digest:
            return errors.STOPPED
        return (
            "stopped before there was a schedule: nothing of this run is kept, and the same command"
            " begins again"
        )


class Limits(NamedTuple):
    """When a search ends: at a gap, as a share (0.001 is 0.1 %), or after so many seconds."""

    gap: float
    seconds: float


@dataclass(frozen=True)
class End:
    """Why a search ended.

    Attributes
    ----------
    why : str
        One of the names above.
    gap : float
        The gap that was asked for, as a share of the bound.
    seconds : float
        That it might take.
    rounds : int
        Of swaps, windows and annealing, the last ones, that brought next to nothing.
    """

    why: str
    gap: float
    seconds: float
    rounds: int = 0

    @property
    def facts(self) -> dict[str, Any]:
        """What ``schedule.json`` says of it."""
        return {
            "ended": self.why,
            "ended_in_words": self.words,
            "asked_gap_percent": self.gap * _PERCENT,
            "asked_minutes": self.seconds / _MINUTE,
        }

    @property
    def words(self) -> str:
        """A sentence for the planner."""
        if self.why == GAP:
            return f"the search ended because the gap of {self.gap * _PERCENT:g} % was reached"
        if self.why == MINUTES:
            minutes = self.seconds / _MINUTE
            return (
                f"the search ended because its {minutes:g} minute{'s' * (minutes != 1)}"
                f" {'was' if minutes == 1 else 'were'} over; the same command goes on"
            )
        if self.why == ROUNDS:
            return (
                "the search ended because no move gained any more: nothing better came after"
                f" {counted(self.rounds, 'round')} of swaps, windows and annealing; the same command tries"
                " others"
            )
        if self.why == ALL:
            return "the search ended because all schedules of this small mine were looked through"
        if self.why == STOPPED:
            return "the search was ended by ctrl-C; the same command goes on"
        return "the search was ended from outside, as by a shutdown; the same command goes on"
