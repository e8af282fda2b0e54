"""What `pit schedule` says of a schedule."""
from __future__ import annotations

import re
from dataclasses import dataclass

from ..base.errors import NotAccepted

_ANSWER = re.compile(
    r"SCHEDULE (\d+) (-?[\d.]+)\nBROKEN (\d+)\n(?:BREAKS \d+ \d+\n)*"
    r"(?:EARLY (\d+)\n(?:WAITS \d+ \d+\n)*)?((?:OVER \d+ \d+ [\d.]+ \d+\n)*)"
    r"(?:BOUND (-?[\d.]+)\n(?:GAP ([\d.]+)\n)?)?"
)


@dataclass(frozen=True)
class Scheduled:
    """What `pit schedule` says of a schedule: `pit` is proved to say it of the very bytes of its
    files.

    Attributes
    ----------
    count : int
        How many blocks it digs.
    npv : str
        Its net present value, exactly.
    broken : int
        In how many pairs a block is dug and its predecessor later or never.
    early : int
        In how many pairs of a block and one for which it waits, as by a sink rate, it is dug too soon
        after the other, or the other never.
    over : tuple of (int, int)
        The resources and periods, both from 0, of which it uses more than there is.
    bound : str or None
        What no feasible schedule is worth more than, where a certificate was judged beside it.
    gap : str or None
        What that is more than the npv, where it is feasible.
    """

    count: int
    npv: str
    broken: int
    early: int
    over: tuple[tuple[int, int], ...]
    bound: str | None = None
    gap: str | None = None

    @property
    def is_feasible(self) -> bool:
        """Whether it keeps the slopes, what blocks wait for, and the capacities."""
        return not self.broken and not self.early and not self.over

    @classmethod
    def of_answer(cls, text: str, hint: str | None = None) -> Scheduled:
        """
        Raises
        ------
        NotAccepted
            Where `pit` says something else.
        """
        found = _ANSWER.fullmatch(text)
        if not found:
            raise NotAccepted(f"pit schedule: {text.strip()}", try_this=hint)
        count, npv, broken, early, over, bound, gap = found.groups()
        named = tuple((int(r), int(t)) for r, t in re.findall(r"OVER (\d+) (\d+)", over))
        return cls(int(count), npv, int(broken), int(early or 0), named, bound, gap)
