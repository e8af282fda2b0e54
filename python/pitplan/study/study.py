"""A study: a folder that holds the model as `pit` reads it, and a proved pit for each factor.

    study.toml                                     what the planner says
    model/   mine.blocks settings.toml blocks.npz manifest.json
    runs/base/f00800/   pit.npz verdict.json, and best.cert.gz where its certificate was asked for
    out/     tables and pictures

The model and each run are written in a folder of their own and renamed, so that they are there
whole or not at all. A pit counts where its verdict names the digests of the model as it stands;
what else is there is made again. So a run that was cut off goes on where it was, and a pit of an
older model is never shown.
"""
from __future__ import annotations

from collections.abc import Sequence
from pathlib import Path

from ..base.files import sweep
from ..model.economics import Economics
from ..model.model import Model
from ..pit.program import Accepted, Pit
from ..slopes.slopes import Slopes
from .building import Building
from .runs import Runs, FactorProgress
from .shells import Shells, factors, thousandths
from .workers import run_each, run_together


class Study(Runs):
    """A study that was built.

    Parameters
    ----------
    folder : str or Path
    program : Pit, optional
        Default: found as `process.found_program` says.
    named : Path, optional
        How the user named the study, for the commands that a message names: its folder, or its
        study.toml.

    Attributes
    ----------
    manifest : dict
        ``key`` (of the two files that `pit` reads), ``files`` (sha256 by name), ``blocks``,
        ``regions`` (how many blocks each region of slopes has), ``metals``, ``currency``,
        ``source`` (the table, as `near` has it, and its sha256), ``keys`` (the digest of
        study.toml), ``pit``.

    Raises
    ------
    PlanError
        Where the folder is no study, or its making was cut off.
    """

    @classmethod
    def create(
        cls,
        folder: str | Path,
        model: Model,
        economics: Economics,
        slopes: Slopes,
        program: Pit | None = None,
        keys: str = "",
    ) -> Study:
        """Builds a study, as `Building` says.

        Parameters
        ----------
        folder : str or Path
        model : Model
        economics : Economics
        slopes : Slopes
        program : Pit, optional
        keys : str
            The digest of the text that all this was read from.

        Raises
        ------
        PlanError
            Where the model, the economics or the slopes are wrong. The study that was there stays
            as it was.
        """
        pit = program or Pit()
        Building(Path(folder), model, economics, slopes, pit, keys).write()
        return cls(folder, pit)

    def pit(self, share: float) -> Accepted:
        """The pit at a share of the price, run where it hasn't been, and checked by `pit check`
        once more.

        Parameters
        ----------
        share : float
            1.0 is the price as it stands.
        """
        factor = thousandths(share)
        self.verify()
        self.run(factor)
        found = self.program.check(self.files, self.place(factor) / "best.cert.gz")
        self.agree(found, factor)
        return found

    def shells(
        self,
        series: Sequence[int] | None = None,
        workers: int | None = None,
        progress: FactorProgress | None = None,
        certificates: bool = False,
    ) -> Shells:
        """The proved pit at each factor; those that are there already aren't run again.

        Without certificates they come from one run of `pit shells` for each 64 factors, where this
        `pit` has the option `--by-block`; a `pit` that hasn't makes a certificate of each.

        Parameters
        ----------
        series : sequence of int, optional
            Factors in thousandths, as `shells.factors` makes them. Default: 0.30 to 1.20 by 0.05.
        workers : int, optional
            How many pits are found at a time. Default: as many as processors and free memory allow.
        progress : function, optional
            Is told how far each factor is.
        certificates : bool
            Whether each pit is found by itself, with a certificate that `pit check` accepts.
        """
        found = sorted(set(series)) if series is not None else factors(0.3, 1.2, 0.05)
        sweep(self.folder / "runs" / "base")
        (run_each if certificates or not self.program.states_blocks else run_together)(
            self, found, workers, progress
        )
        return Shells(self, found)
