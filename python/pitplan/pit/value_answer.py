"""What `pit value` says of a design beside the pit of a certificate."""
from __future__ import annotations

import re
from dataclasses import dataclass

from ..base.errors import NotAccepted

_AMOUNT = r"(-?[\d.]+)"
_ANSWER = re.compile(
    rf"DESIGN (\d+) {_AMOUNT}\n(CLOSED|OPEN (\d+))\n((?:NEEDS \d+ \d+\n)*)BEST (\d+) {_AMOUNT} GAP"
    rf" {_AMOUNT}\n"
)


@dataclass(frozen=True)
class Valued:
    """What `pit value --best` says of a design: `pit` is proved to say it of the very bytes of its
    files.

    Attributes
    ----------
    said : str
        ``CLOSED``, or ``OPEN`` and in how many pairs the design has a block and not its
        predecessor.
    open : int
        How many they are.
    needs : tuple of pairs of int
        The first 20 of them, by the numbers of the block and of the predecessor.
    count, worth : int, str
        The blocks of the design, and what they are worth at the certificate's factor.
    best_count, bound : int, str
        Of the pit of the certificate.
    gap : str
        What that pit is worth more.
    """

    said: str
    open: int
    needs: tuple[tuple[int, int], ...]
    count: int
    worth: str
    best_count: int
    bound: str
    gap: str

    @property
    def is_closed(self) -> bool:
        """Whether the design has every predecessor of each of its blocks."""
        return self.open == 0

    @classmethod
    def of_answer(cls, text: str, hint: str | None = None) -> Valued:
        """
        Raises
        ------
        NotAccepted
            Where `pit` says something else, as that the certificate is refused.
        """
        found = _ANSWER.fullmatch(text)
        if not found:
            raise NotAccepted(f"pit value: {text.strip()}", try_this=hint)
        count, worth, said, pairs, needs, best_count, bound, gap = found.groups()
        named = tuple((int(b), int(p)) for b, p in re.findall(r"NEEDS (\d+) (\d+)", needs))
        return cls(said, int(pairs or 0), named, int(count), worth, int(best_count), bound, gap)
