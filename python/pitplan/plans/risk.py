"""Many realisations of the grades, at each of some factors: how likely is a block to be dug, and
what may the mine be worth?

With a block each realisation's pit has its predecessors, so a predecessor is at least as likely as
the block. So for every likelihood the blocks of at least that are a closed pit, and of two
likelihoods the higher one's pit lies within the other's.

The grades stand in ``risk/``: ``realisations.npy`` or the planner's own file, and ``risk.json``,
which names the digest of each realisation. The pits stand in ``runs/r0017/f00800/``, as those of
the study itself, but without their certificates.
"""
from __future__ import annotations

import hashlib
import json
import tempfile
import time
from collections.abc import Callable, Iterator, Sequence
from contextlib import contextmanager
from dataclasses import asdict, dataclass, replace
from functools import cached_property
from pathlib import Path
from typing import TYPE_CHECKING, Any
from weakref import WeakKeyDictionary

import numpy as np
import pandas as pd

from ..base import kept_json
from ..base.amounts import THOUSAND, Priced, spelled
from ..base.arrays import Bools, Floats, Levels, Singles
from ..base.errors import Disagreement, MachineError, PlanError
from ..base.next_command import command
from ..base.within import refuse_outside
from ..model import store
from ..model.economics import Economics
from ..model.model import Model, TableKeys
from ..study import edges
from ..base.files import FULL, made_whole, mark, sweep
from ..base.units_shown import share_text
from ..study.study import Study
from ..study.runs import FactorProgress
from ..study.verdicts import Verdict
from ..study.building import write_blocks
from ..study.study_file import economics_of, refuse_digits
from ..table.formula import names_in
from ..table.study_keys import PROCESSES
from .grade_files import (
    alike,
    by_block,
    by_line,
    checked,
    digest_of,
    open_realisations,
    without_marks,
)
from .task_line import REALISATION, Task

if TYPE_CHECKING:
    from ..pit.program import Files

TENTHS = tuple(tenth / 10 for tenth in range(1, 10))
_SPREAD = (0.1, 0.5, 0.9)
# of each study, and of the economics as text: what all realisations of a process share
_LEAN_MODELS: WeakKeyDictionary[Study, dict[str, Model]] = WeakKeyDictionary()
_SCRATCH = "pitplan."  # folders of `.blocks` and certificates, in TMPDIR
_ROOM = "TMPDIR=/a/larger/disk: a realisation's blocks and certificate are written there"


@dataclass(frozen=True)
class Setup:
    """What ``risk.json`` says.

    Attributes
    ----------
    study : str
        The key of the model that it was made for.
    file : str
        The realisations, of shape (realisations, rows of the table); a relative path counts from
        ``risk/``.
    column : str
        The column of grades that a realisation takes the place of.
    digests : list of str
        The sha256 of each realisation.
    factors : list of int
        In thousandths, ascending.
    economics : dict
        As [economics] of study.toml.
    absent : list of str
        Cells that stand for "not estimated", as in [model]: such a number counts as 0.
    """

    study: str
    file: str
    column: str
    digests: list[str]
    factors: list[int]
    economics: dict[str, Any]
    absent: list[str]


def _folder_of(study: Study) -> Path:
    return study.folder / "risk"


def setup_of(study: Study) -> Setup | None:
    """What was asked for by `prepare` over this very model, None where nothing was. Raises Damaged
    where risk.json doesn't say it."""
    try:
        found = kept_json.read(
            _folder_of(study) / "risk.json",
            _SETUP,
            command("risk", study.named, "--realisations", "FILE"),
        )
    except FileNotFoundError:
        return None
    if found["column"] not in [metal["grade"] for metal in found["economics"]["metals"]]:
        raise kept_json.Damaged(
            (
                f"{_folder_of(study) / 'risk.json'} is damaged: column is"
                f" {kept_json.shown(found['column'])}"
            ),
            try_this=command("risk", study.named, "--realisations", "FILE"),
        )
    return Setup(**{key: found[key] for key in _SETUP}) if found["study"] == study.key else None


def _are_factors(value: Any) -> bool:
    """Whether this is a list of factors in thousandths, ascending."""
    return (
        bool(value)
        and kept_json.is_list(kept_json.is_factor)(value)
        and all(a < b for a, b in zip(value, value[1:]))
    )


def _is_economics(value: Any) -> bool:
    """Whether this is what `prepare` keeps of [economics]."""
    try:
        refuse_digits("", value)
        return isinstance(value, dict) and bool(economics_of(value).metals)
    except (PlanError, ArithmeticError, AttributeError, LookupError, TypeError, ValueError):
        return False


# What risk.json has, and what each may be. Realisations lie in the folder risk, or where the
# planner's own file does.
_SETUP: dict[str, kept_json.Holds] = {
    "study": kept_json.is_word,
    "file": (
        lambda value: kept_json.is_file_name(value)
        or kept_json.is_path(value)
        and Path(value).is_absolute()
    ),
    "column": kept_json.is_word,
    "digests": (
        lambda value: kept_json.is_list(kept_json.is_digest)(value) and 0 < len(value) < 1 << 16
    ),
    "factors": _are_factors,
    "economics": _is_economics,
    "absent": kept_json.is_list(kept_json.is_word),
}


def prepare(
    study: Study,
    economics: Economics,
    realisations: Path,
    factors: Sequence[int],
    metal: str | None = None,
    keys: TableKeys | None = None,
) -> Setup:
    """Looks through the realisations, and writes down what is to be run. No pit is found yet.

    Parameters
    ----------
    economics : Economics
        What the study was built with.
    realisations : Path
        ``.npy`` of shape (realisations, rows of the table), which stays where it is; or CSV with a
        column for each realisation and a row for each row of the table.
    factors : sequence of int
        In thousandths.
    metal : str, optional
        Whose grades these are. Default: the first metal.
    keys : TableKeys, optional
        How the table of blocks was read: realisations may have its marks for "not estimated", and
        a CSV its encoding.

    Raises
    ------
    PlanError
        Where a cell is no grade, the rows aren't those of the table, or there is no such metal.
    """
    column = _column_of(economics, metal)
    _refuse_fence(study, economics, column)
    rows = int((study.model.row_block >= 0).sum())
    absent = list(keys.absent) if keys else []
    lines = len(study.model.row_block)
    with made_whole(_folder_of(study)) as work:
        grades, file = open_realisations(realisations, work, study, keys)
        if grades.ndim != 2 or grades.shape[1] not in (rows, lines):
            shape = " x ".join(map(str, grades.shape))
            raise PlanError(
                f"the realisations are {shape}, and the table has {rows:,} rows",
                table=realisations,
                try_this="a realisation for each row of the .npy, or a column for each of a CSV",
            )
        if len(grades) >= 1 << 16 or not len(grades):
            raise PlanError(
                f"{len(grades):,} realisations: from 1 to {(1 << 16) - 1:,} can be counted",
                table=realisations,
            )
        for r in range(len(grades)):
            checked(without_marks(grades[r], absent), r, realisations)
        digests = [digest_of(grades[r]) for r in range(len(grades))]
        found = Setup(
            study.key, file, column, digests, sorted(set(factors)), _said_of(economics), absent
        )
        (work / "risk.json").write_text(json.dumps(asdict(found), indent=1))
    return found


def _said_of(economics: Economics) -> dict[str, Any]:
    """What is kept of [economics]; of processes nothing where there are none."""
    found = asdict(economics)
    return found if economics.processes else {k: v for k, v in found.items() if k != PROCESSES}


def _column_of(economics: Economics, metal: str | None) -> str:
    """The column of a metal's grades."""
    names = {m.name: m.grade for m in economics.metals}
    if metal is not None and metal not in names:
        raise PlanError(f"[economics] has no metal {metal!r}", try_this=", ".join(names))
    return names[metal or economics.metals[0].name]


def _refuse_fence(study: Study, economics: Economics, column: str) -> None:
    """Refuses realisations of a column that `forbid` names, where several rows are one block: which
    of them is kept is known of the table's own grades alone."""
    named = set().union(*(names_in(str(formula)) for formula in economics.forbid))
    if study.model.has_sub_blocks and column in named:
        raise PlanError(
            (
                f"[economics] forbid names {column}, and so do realisations over sub-blocks:"
                " what it keeps would change with each of them"
            ),
            try_this="forbid by another column",
            key=("economics", "forbid"),
        )


class Realisation(Study):
    """A study with the grades of one realisation. Its `.blocks` is made in a folder for the time of
    a run; the settings, with the slopes, are the study's.

    Parameters
    ----------
    base : Study
    setup : Setup
    number : int
        From 0.
    model : Model
        That all realisations of a process share.
    """

    def __init__(self, base: Study, setup: Setup, number: int, model: Model | None = None) -> None:
        super().__init__(base.folder, base.given, base.named)
        self.base, self.setup, self.number, self.shared = base, setup, number, model
        named = [
            base.key,
            base.manifest["files"]["blocks.npz"],
            json.dumps(setup.economics, sort_keys=True),
            setup.column,
            setup.digests[number],
        ]
        self.key = hashlib.sha256("\n".join(named).encode()).hexdigest()
        self.made: Path | None = None

    @property
    def blocks_file(self) -> Path:
        return self.made or super().blocks_file

    @cached_property
    def model(self) -> Model:
        """The study's model, without the words that pricing doesn't ask for; read once for all
        realisations of a process."""
        if self.shared is None:
            shared = _LEAN_MODELS.setdefault(self.base, {})
            key = json.dumps(self.setup.economics, sort_keys=True)
            if key not in shared:
                shared[key] = store.load_lean(self.base.where / "blocks.npz", self.setup.economics)
            self.shared = shared[key]
        return self.shared

    def forget(self) -> None:
        """Lets go of the prices: the next realisation has others."""
        self.__dict__.pop("priced", None)

    @cached_property
    def priced(self) -> Priced:
        """What the blocks bring and cost with the grades of this realisation."""
        grades = by_block(self.grades(), self.model)
        model = replace(
            self.model,
            blocks=self.model.blocks.assign(**{self.setup.column: grades}),
            notes=[],
        )
        try:
            return economics_of(self.setup.economics).priced(model)
        except PlanError as error:  # the economics stand in that file
            for each in error.each():
                each.table = each.table or _folder_of(self.base) / "risk.json"
            raise

    def grades(self) -> Singles:
        """The grades of this realisation, of shape (lines of the table below its header,).

        Raises
        ------
        PlanError
            Where they aren't those that `prepare` looked through.
        """
        path = _folder_of(self.base) / self.setup.file
        refuse_outside(path)
        try:
            found: Singles = np.ascontiguousarray(
                np.load(path, mmap_mode="r", allow_pickle=False)[self.number], np.float32
            )
        except (OSError, *store.DAMAGED) as error:
            raise PlanError(
                f"realisation {self.number} can't be read: {error}",
                table=path,
                try_this=command("risk", self.base.named, "--realisations", "FILE"),
            ) from None
        if digest_of(found) != self.setup.digests[self.number]:
            raise PlanError(
                f"realisation {self.number} has changed since pitplan risk looked through it",
                table=path,
                try_this=command("risk", self.base.named, "--realisations", "FILE"),
            )
        return by_line(without_marks(found, self.setup.absent), self.model.row_block)

    def place(self, factor: int) -> Path:
        """The folder of a factor's result (in thousandths)."""
        return self.folder / "runs" / f"r{self.number:04d}" / f"f{factor:05d}"

    keeps_certificates = False

    def room(self, work: Path) -> Path:
        """The certificate is written in this machine's scratch, and never goes over the network."""
        return self.made.parent if self.made else work

    def run(
        self,
        factor: int,
        progress: FactorProgress | None = None,
        before_keeping: Callable[[], None] | None = None,
    ) -> Verdict:
        """One pit of this realisation, as `Study.run`; the certificate isn't kept, its digest
        is."""
        done = self.verdict(factor)
        if done:
            return done
        with self.written():
            return super().run(factor, progress, before_keeping)

    @contextmanager
    def written(self) -> Iterator[Files]:
        """The files of this realisation, for the time of a run or a series of runs.

        Raises
        ------
        MachineError
            Where there is no room for them.
        """
        if self.made:
            yield self.files
            return
        start = time.monotonic()
        sweep(Path(tempfile.gettempdir()), _SCRATCH + "*")
        with tempfile.TemporaryDirectory(
            prefix=_SCRATCH + mark(), ignore_cleanup_errors=True
        ) as scratch:
            self.made = Path(scratch) / "mine.blocks"
            try:
                several = len(self.manifest["regions"]) > 1
                write_blocks(
                    self.made, self.model, self.priced, self.base.region if several else None
                )
                # `pitplan status` reckons the time that is left by what pits took
                self.preparation_seconds = time.monotonic() - start
                yield self.files
            except OSError as error:
                raise MachineError(
                    f"{error.filename or scratch}: {error.strerror}",
                    try_this=_ROOM if error.errno in FULL else None,
                ) from error
            finally:
                self.made, self.preparation_seconds = None, 0.0


def realisation(base: Study, number: int) -> Realisation:
    """A realisation of a study, as `prepare` wrote it down.

    Raises
    ------
    PlanError
        Where nothing was asked for over this model, or there is no such number.
    """
    setup = setup_of(base)
    if setup is None:
        raise PlanError(
            "no realisations were asked for over the model that stands there",
            try_this=command("risk", base.named, "--realisations", "FILE"),
        )
    if not 0 <= number < len(setup.digests):
        raise PlanError(f"there is no realisation {number}: they are 0 to {len(setup.digests) - 1}")
    return Realisation(base, setup, number)


def risk_tasks(study: Study) -> list[Task]:
    """The tasks of the realisations that were asked for: one for each, with all of its factors."""
    setup = setup_of(study)
    return (
        [Task(REALISATION, str(r), tuple(setup.factors)) for r in range(len(setup.digests))]
        if setup
        else []
    )


class Risk:
    """The pits of all realisations of a study. Each is checked again as it is read, as those of
    `Shells` are.

    Parameters
    ----------
    study : Study

    Attributes
    ----------
    factors : list of int
        In thousandths, ascending.
    runs : DataFrame
        A row for each realisation and factor: realisation, factor (a share of the price), blocks,
        rock_t, worth; where the table has resource classes the tonnes of each,
        class_<name>_rock_t.
    hits : uint16 array of shape (factors, blocks)
        In how many realisations' pits a block is.
    side, floor : int arrays of shape (factors, realisations)
        How many blocks of each pit ask for a place beside the model, and how many are the lowest of
        their column; see `edges`.

    Raises
    ------
    PlanError
        Where a pit hasn't been run, or something has changed since.
    Disagreement
        Where a check contradicts what was accepted.
    """

    def __init__(self, study: Study) -> None:
        setup = setup_of(study)
        if setup is None:
            raise PlanError(
                "no realisations were asked for over the model that stands there",
                try_this=command("risk", study.named, "--realisations", "FILE"),
            )
        study.verify()
        self.study, self.setup, self.factors, self.count = (
            study,
            setup,
            setup.factors,
            len(setup.digests),
        )
        self.hits: Levels = np.zeros((len(self.factors), study.manifest["blocks"]), np.uint16)
        tonnes = store.load_lean(
            study.where / "blocks.npz", setup.economics
        ).blocks.tonnes.to_numpy(float)
        self.side, self.floor = np.zeros((2, len(self.factors), self.count), np.int64)
        touching, on_floor = edges.touching(study), edges.on_floor(study.model)
        rows = []
        for r in range(self.count):
            one, below = Realisation(study, setup, r), np.zeros(study.manifest["blocks"], bool)
            for i, factor in enumerate(self.factors):
                mask, verdict = one.mask(factor), one.verdict(factor)
                assert verdict is not None  # its mask has just been read
                if (below & ~mask).any():
                    raise Disagreement(
                        (
                            f"realisation {r}: the pit at {share_text(self.factors[i - 1])} isn't"
                            f" within that at {share_text(factor)}, and pit proves that it is"
                        ),
                        try_this="were results of several models mixed in this folder?",
                    )
                self.hits[i] += mask
                self.side[i, r], self.floor[i, r] = np.count_nonzero(
                    mask & touching
                ), np.count_nonzero(mask & on_floor)
                below = mask
                rows.append(
                    {
                        "realisation": r,
                        "factor": factor / THOUSAND,
                        "blocks": verdict["count"],
                        "rock_t": float(tonnes[mask].sum()),
                        "worth": float(verdict["worth"]),
                        **(study.classes.rock_of(mask, tonnes) if study.classes else {}),
                    }
                )
        self.runs = pd.DataFrame(rows)

    def likelihood(self, factor: int = THOUSAND) -> Floats:
        """The share of the realisations whose pit has a block, of shape (blocks,)."""
        found: Floats = self.hits[self.at(factor)] / self.count
        return found

    def pit(self, likelihood: float, factor: int = THOUSAND) -> Bools:
        """The blocks of at least a likelihood above 0: a closed pit, within that of every lower
        likelihood. Raises PlanError where that is no likelihood."""
        if not 0 < likelihood <= 1:
            raise PlanError(f"a likelihood of {likelihood:g}: it has to be above 0 and at most 1")
        least = int(np.ceil(likelihood * self.count - 1e-9))
        found: Bools = self.hits[self.at(factor)] >= max(least, 1)
        return found

    def at(self, factor: int) -> int:
        """Where a factor stands in the series. Raises PlanError where no realisation was run at
        it."""
        if factor not in self.factors:
            raise PlanError(
                f"no realisation was run at factor {share_text(factor)}",
                try_this=", ".join(share_text(f) for f in self.factors),
            )
        return self.factors.index(factor)

    def table(self) -> pd.DataFrame:
        """The spread of blocks, tonnes and worth over the realisations, and of the tonnes of each
        resource class: a row for each factor; worth_p10 is what a tenth of the realisations doesn't
        reach."""
        rows = []
        classed = [str(name) for name in self.runs if str(name).startswith("class_")]
        for factor, of in self.runs.groupby("factor"):
            row: dict[str, Any] = {"factor": factor, "realisations": len(of)}
            for name in ("blocks", "rock_t", "worth", *classed):
                row |= {
                    f"{name}_least": of[name].min(),
                    f"{name}_mean": of[name].mean(),
                    f"{name}_most": of[name].max(),
                }
                row |= {
                    f"{name}_p{int(100 * share)}": of[name].quantile(share) for share in _SPREAD
                }
            rows.append(row)
        return pd.DataFrame(rows)

    def pits(self, factor: int = THOUSAND) -> pd.DataFrame:
        """The pits of likelihood 0.1 to 0.9: blocks, tonnes, and what each is worth on the mean and
        at least over all realisations, beside what the realisations' own best pits are worth on the
        mean; of several processes what each gets on the mean, in the columns of
        `pit_by_pit.Cells.by_process`; and the tonnes of each resource class, where the table has
        classes."""
        masks = [self.pit(share, factor) for share in TENTHS]
        worths = np.zeros((len(TENTHS), self.count))
        best, treated = np.zeros(self.count), [_Treated(self.count) for _ in masks]
        for r in range(self.count):
            one = Realisation(self.study, self.setup, r)
            worths[:, r] = [float(one.priced.worth_of(mask, factor)) for mask in masks]
            for each, mask in zip(treated, masks):
                each.add(one, mask, factor)
            verdict = one.verdict(factor)
            assert verdict is not None
            best[r] = float(verdict["worth"])
        tonnes = store.load_lean(
            self.study.where / "blocks.npz", self.setup.economics
        ).blocks.tonnes.to_numpy(float)
        classes = self.study.classes
        by_class = [
            {**each.means(), **(classes.rock_of(mask, tonnes) if classes else {})}
            for each, mask in zip(treated, masks)
        ]
        found = pd.DataFrame(
            {
                "likelihood": TENTHS,
                "blocks": [int(m.sum()) for m in masks],
                "rock_t": [float(tonnes[m].sum()) for m in masks],
                "worth_least": worths.min(axis=1),
                "worth_mean": worths.mean(axis=1),
                "worth_most": worths.max(axis=1),
                "best_mean": best.mean(),
            }
        )
        return found.join(pd.DataFrame(by_class, index=found.index))

    def of_blocks(self) -> pd.DataFrame:
        """The likelihood of each block at each factor, beside its id and row as a spreadsheet
        counts it (0: a block that was added)."""
        model, found = self.study.model, {
            f"likelihood_{spelled_factor(f)}": self.likelihood(f) for f in self.factors
        }
        return pd.DataFrame({"id": model.blocks["id"].to_numpy(), "row": model.table_row, **found})


class _Treated:
    """What each of several processes gets of a pit, added up over realisations: ore in place, feed,
    and of each metal tonnes of ore times their grade and what is recovered.

    Parameters
    ----------
    count : int
        Of the realisations.
    """

    def __init__(self, count: int) -> None:
        self.count, self.sums = count, dict[tuple[str, str], float]()

    def add(self, one: Realisation, mask: Bools, factor: int) -> None:
        """Counts a realisation in; it sends each block where that is worth most by its own grades."""
        priced, tonnes = one.priced, one.model.blocks.tonnes.to_numpy(float)
        if not priced.process_names:
            return
        ore = priced.ore_of(tonnes, factor)
        for way, goes in priced.by_way(factor):
            here = goes & mask
            of_ore = float(ore[here].sum())
            found = {"ore_t": of_ore, "feed_t": of_ore * way.feed}
            for name, units in way.metal.items():
                found[f"grade_{name}"] = float((priced.grade[name] * ore)[here].sum())
                found[f"metal_{name}"] = float(units[here].sum())
            for what, amount in found.items():
                self.sums[way.name, what] = self.sums.get((way.name, what), 0.0) + amount

    def means(self) -> dict[str, float]:
        """On the mean over the realisations; grades by tonnes of ore."""
        found = {}
        for (process, what), amount in self.sums.items():
            is_grade = what.startswith("grade_")
            over = self.sums[process, "ore_t"] if is_grade else float(self.count)
            found[f"process_{process}_{what}"] = amount / over if over else np.nan
        return found


@dataclass(frozen=True)
class _Means:
    """The mean grade of the realisations beside that of the table, each weighted by tonnes.

    Attributes
    ----------
    metal, unit : str
        Whose grade it is, and in what.
    realisations, table : float
        The means, over the same rows; nan where there are none.
    rows : int
        How many rows the realisations cover: those for which one of them at least has a grade above
        0.
    apart : tuple of int
        The realisations that have nothing to do with the table: whose correlation with it, over the
        rows that have a grade in it, is below `grade_files.NOT_ALIKE`.
    """

    metal: str
    unit: str
    realisations: float
    table: float
    rows: int
    apart: tuple[int, ...] = ()

    @property
    def share(self) -> float:
        """By which share of the table's mean the realisations' lies above it (below 0: below
        it)."""
        if self.table > 0:
            return self.realisations / self.table - 1
        return np.inf if self.realisations > 0 else 0.0


def means(study: Study, setup: Setup) -> _Means:
    """Holds the realisations against the table: a simulation whose mean is another than the
    estimate's is worth another amount in every realisation, which looks like upside or risk and is
    neither.

    Raises
    ------
    PlanError
        Where the realisations aren't those that `prepare` looked through, or a grade of the table
        is no number.
    """
    model = store.load_lean(study.where / "blocks.npz", setup.economics)
    rows = model.blocks["row"].to_numpy()
    there = rows >= 0
    total = np.zeros(int(there.sum()))
    planned_grades = model.numbers(setup.column, "realisations")[there]
    apart = []
    for r in range(len(setup.digests)):
        grades = by_block(Realisation(study, setup, r, model).grades(), model)[there]
        total += grades
        if not alike(grades, planned_grades):
            apart.append(r)
    covered = total > 0
    tonnes = model.blocks.tonnes.to_numpy(float)[there][covered]
    table = planned_grades[covered]
    metal = next(m for m in setup.economics["metals"] if m["grade"] == setup.column)
    whole = float(tonnes.sum())
    simulated, planned = (
        float((grades * tonnes).sum()) / whole if whole > 0 else np.nan
        for grades in (total[covered] / len(setup.digests), table)
    )
    return _Means(
        metal["name"], metal["grade_unit"], simulated, planned, int(covered.sum()), tuple(apart)
    )


def spelled_factor(factor: int) -> str:
    """A factor as a share of the price, for names of columns."""
    from decimal import Decimal

    return spelled(Decimal(factor) / THOUSAND)
