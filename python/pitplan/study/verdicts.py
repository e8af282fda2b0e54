"""What is kept of the pits of a study, and whether it still counts: verdicts over the model as it
stands, and pits added up again."""
from __future__ import annotations

import errno
import hashlib
from functools import cached_property
from pathlib import Path
from typing import TypedDict, cast

import numpy as np

from ..base import kept_json
from ..base.arrays import Bools, Bytes
from ..base.errors import Disagreement, PlanError
from ..base.next_command import command
from ..base.units_shown import share_text
from ..model import store
from ..pit.program import Accepted, Stated
from .folder import StudyFolder

_VERDICT: dict[str, kept_json.Holds] = {
    "factor": kept_json.is_factor,
    "count": kept_json.is_count,
    "worth": kept_json.is_amount,
    "certificate": kept_json.is_none_or(kept_json.is_digest),
    "bits": kept_json.is_digest,
    "model": kept_json.is_word,
    "pit": kept_json.is_list(kept_json.is_word),
    "seconds": kept_json.is_number,
    "host": kept_json.is_word,
}


class Verdict(TypedDict):
    """What is kept of a pit: that `pit check` accepted, or, where ``certificate`` is None, as `pit
    shells` states it."""

    factor: int
    count: int
    worth: str
    certificate: str | None
    bits: str
    model: str
    pit: list[str]
    seconds: float
    host: str


class Verdicts(StudyFolder):
    """The verdicts of a study, and the pits that they are of."""

    @cached_property
    def added_up(self) -> set[tuple[int, str, int, str]]:
        """Of pits that this object added up and kept: factor, digest of the bits, count, worth."""
        return set()

    def place(self, factor: int) -> Path:
        """The folder of a factor's result (in thousandths)."""
        return self.folder / "runs" / "base" / f"f{factor:05d}"

    def verdict(self, factor: int) -> Verdict | None:
        """The verdict of a run that is done over this very model, else None."""
        try:
            return self.checked_verdict(factor)
        except kept_json.Damaged:  # the pit is found again
            return None

    def checked_verdict(self, factor: int) -> Verdict | None:
        """As `verdict`. Raises `kept_json.Damaged` where it isn't one that `Runs.kept` writes."""
        try:
            found = kept_json.read(
                self.place(factor) / "verdict.json", _VERDICT, command("shells", self.named)
            )
        except (FileNotFoundError, NotADirectoryError):
            return None
        return (
            cast(Verdict, found)
            if found["model"] == self.key and found["factor"] == factor
            else None
        )

    def certified(self, factor: int) -> Verdict | None:
        """The verdict of a pit whose certificate `pit check` accepted, over this very model, else
        None."""
        found = self.verdict(factor)
        return found if found and found["certificate"] else None

    def mask(self, factor: int) -> Bools:
        """Whether a block is in the pit at a factor (in thousandths), of shape (blocks,), with all
        checks made again. Where these very bits were added up by this object, with the same answer,
        their sum stands.

        Raises
        ------
        PlanError
            Where that pit hasn't been run over this model.
        Disagreement
            Where what is kept isn't what was accepted.
        """
        done = self.checked_verdict(factor)
        if not done:
            raise PlanError(
                f"the pit at factor {share_text(factor)} hasn't been run over this model",
                try_this=command("shells", self.named),
            )
        bits = _bits_of(self.place(factor) / "pit.npz")
        if bits is None or hashlib.sha256(bits.tobytes()).hexdigest() != done["bits"]:
            raise Disagreement(
                (
                    f"{self.place(factor) / 'pit.npz'} isn't what was"
                    f" {'accepted' if done['certificate'] else 'stated'}"
                ),
                try_this=f"take {self.place(factor)} away, then: {command('shells', self.named)}",
            )
        mask: Bools = np.unpackbits(bits, count=self.manifest["blocks"]).astype(bool)
        if (factor, done["bits"], done["count"], done["worth"]) not in self.added_up:
            self.adds_up(mask, done["count"], done["worth"], factor)
        return mask

    def agree(self, verdict: Accepted | Stated, factor: int) -> None:
        """The first two checks: the pit's worth, added up again from the planner's table in whole
        numbers, is `pit`'s to the last digit, and so is its count of blocks. Raises Disagreement
        where the two differ."""
        if verdict.factor != factor or verdict.size != self.manifest["blocks"]:
            raise Disagreement(
                f"the pit is of factor {share_text(verdict.factor)} over {verdict.size:,} blocks, and"
                f" {share_text(factor)} over {self.manifest['blocks']:,} was asked for"
            )
        self.adds_up(verdict.mask, verdict.count, verdict.worth, factor)

    def adds_up(self, mask: Bools, count: int, worth: str, factor: int) -> None:
        """Raises Disagreement where a pit's blocks aren't `count`, or the table doesn't add up to
        `worth` over them; and PlanError where the pit digs a block that `forbid` keeps, which costs
        the most that `pit` reads for one and was worth digging all the same.
        """
        ours, counted = self.priced.worth_of(mask, factor), int(np.count_nonzero(mask))
        if ours != worth or counted != count:
            raise Disagreement(
                (
                    f"at factor {share_text(factor)} pit says {count:,} blocks worth {worth}, and"
                    f" the table adds up to {counted:,} blocks worth {ours}"
                ),
                try_this=(
                    "this is a mistake in pitplan, or damage on the disk: keep"
                    f" {self.place(factor)}, and tell the maintainers"
                ),
            )
        if (mask & self.priced.forbidden).any():
            raise PlanError(
                (
                    f"[economics] forbid: at factor {share_text(factor)} the mine brings so much"
                    " that blocks are dug that may not be"
                ),
                try_this="prices and costs in thousands, or no factor as large",
            )


def _bits_of(path: Path) -> Bytes | None:
    """The blocks of a pit as `Runs.kept` packs them; None where the file is gone or damaged."""
    try:
        with np.load(path, allow_pickle=False) as file:
            bits: Bytes = file["bits"]
            return bits if bits.dtype == np.uint8 and bits.ndim == 1 else None
    except store.DAMAGED:
        return None
    except OSError as error:
        # the second where a damaged file leads before its beginning
        if error.errno not in (
            errno.ENOENT,
            errno.EINVAL,
        ):
            raise
        return None
