"""Bounds of schedules of single blocks, by the files of the study's own model.

The certificate of its best pit says which blocks count: `pit` proves that none outside it makes a
schedule better, as weights don't rise and no use is negative. So what it says is of the whole mine.
"""
from __future__ import annotations

from pathlib import Path

import numpy as np

from ..base.arrays import Ints
from ..base.files import whole_file
from ..pit.program import Files, Periodic, Pit
from ..study.building import write_numbers
from .bounds import Bounds
from .periods_text import columns_of, periods_text
from .production import Production


class BlockTexts(Bounds):
    """The bounds of a production of which each unit is a block.

    Parameters
    ----------
    production : Production
    files : Files
        Of the model.
    """

    def __init__(self, production: Production, files: Files) -> None:
        super().__init__(production)
        self.files = files

    def written(self, program: Pit, folder: Path, seconds: float | None = None) -> Periodic:
        """What blocks use and wait for, and the certificate of the best pit."""
        found = Periodic(
            self.files, folder / "uses.blocks", folder / "periods.toml", folder / "pit.cert"
        )
        if not found.uses.exists():
            program.best_of(found, seconds)
            with whole_file(found.uses) as part:
                write_numbers(part, {f"{at}": each for at, each in enumerate(self.rows())})
        return found

    def rows(self) -> list[Ints]:
        """The columns: number and place, uses, waits and, of several ways, one of zeros."""
        made, millable = self.production, self.production.millable
        numbers, none = np.arange(made.size), np.zeros(made.size, np.int64)
        uses = np.zeros((len(made.uses), made.size), np.int64)
        uses[:, made.blocks] = made.uses
        uses[millable.resource, millable.block] = millable.feeds
        found = [numbers, none, none, numbers, *uses]
        for column in made.sinking.columns():
            waits = numbers.copy()
            waits[made.blocks] = made.blocks[column]
            found.append(waits)
        return found + [none] * (made.terms.is_by_year and len(uses) > 2)

    def periods(self, multipliers: Ints) -> str:
        """The uses stand first."""
        made, count = self.production, len(self.production.uses)
        after = count + made.sinking.most
        columns, waits = columns_of(made, after), range(count, after)
        return periods_text(made, columns, waits, multipliers)


def is_by_blocks(production: Production) -> bool:
    """Whether `pit` can bound a production by the model's own files: units are blocks, each of which
    goes any of the model's ways or to waste where a schedule chooses."""
    return production.is_of_blocks
