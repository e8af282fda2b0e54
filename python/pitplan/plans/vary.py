"""What-ifs: the proved pit at other prices, recoveries, costs and slopes, which of them moves the
worth most, and which the npv.

A price is a factor of the revenue, so the pit at a price 20 % higher is the study's own at 1.2
times the factor. Rates and the discount leave the pit as it is. Every other what-if is a study of
its own in ``vary/recovery-5/``, built by the same code. ``vary.json`` says what was asked for.
"""
from __future__ import annotations

import hashlib
import re
from collections.abc import Iterable, Sequence
from dataclasses import asdict, dataclass, replace
from pathlib import Path
from typing import TYPE_CHECKING, Any

import pandas as pd

from ..base import kept_json
from ..base.amounts import THOUSAND
from ..base.errors import PlanError
from ..base.files import write_json
from ..base.near_words import meant
from ..base.next_command import command
from ..base.units_shown import share_text
from ..model.economics import Amount, Economics
from ..model.model import Model
from ..slopes.slopes import Slopes
from ..base.arrays import Floats
from ..study import edges
from ..study.pit_by_pit import Cells, Rates, by_bench, discounted
from ..study.shells import Shells, thousandths
from ..study.study import Study
from .task_line import BASE, RUN, Task

if TYPE_CHECKING:
    from matplotlib.figure import Figure

_OF_A_METAL = ("price", "recovery")  # of all metals, or of one of them: price:gold
_OF_A_PROCESS = ("processing", "rate")  # of all processes, or of one of them: processing:leach
_PERCENT = (*_OF_A_METAL, "mining", "processing")  # of what stands in study.toml
_SLOPE = "slope"  # in degrees
RATES = ("mining_rate", "mill_rate", "rate")  # in percent; they leave the pit as it is
DISCOUNT = "discount"  # in points: from 8 % to 10 % a year are 2
WHAT = (*_PERCENT, _SLOPE, *RATES, DISCOUNT)
SINK = "sink"  # in benches; of schedules alone
_UNITS = {
    **{name: "%" for name in (*_PERCENT, *RATES)},
    _SLOPE: " degrees",
    DISCOUNT: " points",
    SINK: " benches",
}
_ONE = {" degrees": " degree", " points": " point", " benches": " bench"}
_EXAMPLES = "price=-20..20 price:gold=-10..10 recovery=-5..5 slope=-3..3 discount=-2..2"


@dataclass(frozen=True)
class Change:
    """One thing that is other than in study.toml: by percent of itself, slopes by degrees, the
    discount by points.

    Attributes
    ----------
    what : str
        One of `WHAT`, or `SINK`; or one of `_OF_A_METAL` or `_OF_A_PROCESS`, a colon, and the name of
        a metal or a process.
    by : float
    """

    what: str
    by: float

    @property
    def kind(self) -> str:
        """What is changed, without the metal or the process."""
        return self.what.partition(":")[0]

    @property
    def of(self) -> str:
        """The metal or the process that alone is changed; "" where all are."""
        return self.what.partition(":")[2]

    @property
    def keeps_pit(self) -> bool:
        """Whether the pit stays as it is, and only its npv changes."""
        return self.kind in (*RATES, DISCOUNT, SINK)

    @property
    def is_factor(self) -> bool:
        """Whether the study itself has its pit, at another factor."""
        return self.what == "price"

    @property
    def unit(self) -> str:
        """Of `by`, with the blank before it."""
        return _UNITS[self.kind]

    @property
    def name(self) -> str:
        """Of its folder. Of a name with other letters in it a digest says which.

        >>> Change("recovery", -5).name, Change("price:gold", 10).name
        ('recovery-5', 'price_gold+10')
        """
        word = re.sub(r"[^A-Za-z0-9]+", "_", self.of)[:40]
        if word != self.of:
            word += "_" + hashlib.sha256(self.of.encode()).hexdigest()[:8]
        return f"{self.kind}{'_' + word if word else ''}{self.by:+g}"

    @property
    def amount(self) -> str:
        """By how much it is other, with sign and unit.

        >>> Change("sink", -1).amount, Change("discount", 2).amount, Change("price", 1).amount
        ('-1 bench', '+2 points', '+1%')
        """
        unit = _ONE.get(self.unit, self.unit) if abs(self.by) == 1 else self.unit
        return f"{self.by:+g}{unit}"

    def __str__(self) -> str:
        return f"{called(self.what)} {self.amount}"


def called(what: str) -> str:
    """What is changed, as a reader is told.

    >>> called("price:gold"), called("mill_rate")
    ('price of gold', 'mill rate')
    """
    kind, _, metal = what.partition(":")
    return kind.replace("_", " ") + (f" of {metal}" if metal else "")


@dataclass(frozen=True)
class _Changes:
    """What ``vary.json`` says: the key of the model, the factor in thousandths, and the changes as
    (what, by)."""

    study: str
    factor: int
    changes: list[tuple[str, float]]

    def each(self) -> list[Change]:
        return [Change(what, by) for what, by in self.changes]


def changes_of(words: Iterable[str], known: Sequence[str] = WHAT) -> list[Change]:
    """The changes that words as ``price=-20..20`` or ``slope=-3,2`` ask for, of what is known.

    Raises
    ------
    PlanError
        Where a word is none, or a change is out of range.

    >>> [c.name for c in changes_of(["price=-20..20", "slope=2"])]
    ['price-20', 'price+20', 'slope+2']
    """
    found: list[Change] = []
    for word in words:
        parts = re.fullmatch(r"(\w+(?::[^=]+)?)=([-+\d.,]+?)(?:\.\.([-+\d.]+))?", word)
        if not parts:
            raise PlanError(f"{word!r} is no change", try_this=_EXAMPLES)
        kind, _, metal = parts[1].partition(":")
        if kind not in known:
            raise PlanError(
                f"{word!r}: {kind!r} isn't among what can be varied{meant(kind, known)}",
                try_this=", ".join(known),
            )
        if metal and kind not in (*_OF_A_METAL, *_OF_A_PROCESS):
            raise PlanError(
                f"{word!r}: {kind} isn't a metal's",
                try_this=f"{kind}={parts[2]}, or one of {', '.join(_OF_A_METAL)} with a metal",
            )
        try:
            values = [
                float(part) for part in [*parts[2].split(","), *([parts[3]] if parts[3] else [])]
            ]
        except ValueError:
            raise PlanError(
                f"{word!r} has something that is no number", try_this=f"{parts[1]}=-5..5"
            ) from None
        for value in values:
            _refuse_amount(word, Change(parts[1], value))
            found.append(Change(parts[1], value))
    if len({change.name for change in found}) < len(found):
        raise PlanError("a change is asked for twice")
    return found


def _refuse_amount(word: str, change: Change) -> None:
    """Refuses a change of nothing, and one that takes all."""
    said = f"{word!r}: a change of {change.by:g}{change.unit}"
    if change.by == 0:
        raise PlanError(
            f"{said} is what study.toml has, which every table shows as planned",
            try_this=f"{change.what}=-5..5",
        )
    if change.by <= -100:
        rest = "nothing of the" if change.unit == "%" else "no"
        raise PlanError(
            f"{said} leaves {rest} {called(change.what)}: it has to be above -100",
            try_this=f"{change.what}=-5..5",
        )


def prepare(
    study: Study,
    economics: Economics,
    slopes: Slopes,
    changes: Iterable[Change],
    factor: int = THOUSAND,
    rates: Rates = Rates(),
) -> _Changes:
    """Builds what the changes need, and writes down what is to be run. No pit is found yet.

    Parameters
    ----------
    economics, slopes
        What the study was built with.
    changes
        Each is taken once the model of the one before is built.
    factor : int
        In thousandths.
    rates : Rates
        Of study.toml.

    Raises
    ------
    PlanError
        Where a change can't be made, as that of a metal that isn't there: it names the change.
    """
    asked = _Changes(study.key, factor, [])
    for change in changes:
        asked.changes.append((change.what, change.by))
        try:
            _make(study, economics, slopes, change, (factor, rates))
        except PlanError as error:
            for each in error.each():
                each.what = f"{change}: {each.what}"
            raise
    write_json(study.folder / "vary" / "vary.json", asdict(asked))
    return asked


def _make(
    study: Study,
    economics: Economics,
    slopes: Slopes,
    change: Change,
    other: tuple[int, Rates],
) -> None:
    """Builds the study of a change, where it needs one of its own; else looks whether it can be
    made. `other` is the factor, and the rates."""
    factor, rates = other
    if change.is_factor:
        price_factor(factor, change)
    elif change.keeps_pit:
        rates = rates.of(study.priced.process_names)
        _other_rates(rates.over(1.0, [1.0] * len(rates.named)), change)
    else:
        e, s = changed(economics, slopes, change, study.model)
        Study.create(place(study, change.name), study.model, e, s, study.program)


def _other_rates(rates: Rates, change: Change | None) -> Rates:
    """The rates with a change; those that it doesn't concern stay."""
    if change is None or not change.keeps_pit:
        return rates
    if change.kind == DISCOUNT:
        return replace(rates, discount=round(rates.discount + change.by / 100, 12))
    share = 1 + change.by / 100
    if change.kind == "mining_rate":
        return replace(rates, mining=(rates.mining or 0.0) * share)
    refuse_other_rate(change, list(rates.processes))
    if change.kind == "mill_rate":
        return replace(rates, mill=(rates.mill or 0.0) * share)
    of = {
        name: (rate or 0.0) * (share if change.of in ("", name) else 1.0)
        for name, rate in rates.processes.items()
    }
    return replace(rates, processes=of)


def refuse_other_rate(change: Change, processes: Sequence[str]) -> None:
    """Refuses the rate of a mill where there are processes, that of processes where there is one
    mill, and that of a process that isn't there.

    Raises
    ------
    PlanError
        With what may be asked for.
    """
    if change.kind == "mill_rate" and processes:
        raise PlanError(
            "there is no mill_rate: each process has its own",
            try_this=f"rate={change.by:g}, or rate:{processes[0]}={change.by:g}",
        )
    if change.kind == "rate" and not processes:
        raise PlanError(
            "there are no processes, and the mill has mill_rate",
            try_this=f"mill_rate={change.by:g}",
        )
    if change.of and change.of not in processes:
        raise PlanError(f"no process is called {change.of!r}{meant(change.of, processes)}")


def changed(
    economics: Economics, slopes: Slopes, change: Change, model: Model
) -> tuple[Economics, Slopes]:
    """The economics and the slopes with one change. Raises PlanError where no metal is called
    so."""
    share = 1 + change.by / 100
    if change.what == _SLOPE:
        regions = (
            {name: _turned(angles, change.by) for name, angles in slopes.regions.items()}
            if slopes.regions
            else None
        )
        return economics, replace(slopes, angles=_turned(slopes.angles, change.by), regions=regions)
    if change.kind in _OF_A_METAL:
        return _of_metals(economics, change, model), slopes
    if change.kind == "processing" and (economics.processes or change.of):
        names = [process.name for process in economics.processes]
        if change.of and change.of not in names:
            raise PlanError(f"no process is called {change.of!r}{meant(change.of, names)}")
        processes = [
            replace(each, cost=_times(each.cost, share, model))
            if change.of in ("", each.name)
            else each
            for each in economics.processes
        ]
        return replace(economics, processes=tuple(processes)), slopes
    return (
        replace(economics, **{change.what: _times(getattr(economics, change.what), share, model)}),
        slopes,
    )


def _of_metals(economics: Economics, change: Change, model: Model) -> Economics:
    """The economics with another price or recovery of all metals, or of one; the recoveries that
    processes have of their own change with it."""
    share, names = 1 + change.by / 100, [metal.name for metal in economics.metals]
    if change.of and change.of not in names:
        raise PlanError(f"no metal is called {change.of!r}{meant(change.of, names)}")
    metals = tuple(
        replace(metal, **{change.kind: _times(getattr(metal, change.kind), share, model)})
        if change.of in ("", metal.name)
        else metal
        for metal in economics.metals
    )
    found = replace(economics, metals=metals)
    if change.kind != "recovery":
        return found
    processes = []
    for each in economics.processes:
        recovery = {
            name: _times(of, share, model) if change.of in ("", name) else of
            for name, of in each.recovery.items()
        }
        processes.append(replace(each, recovery=recovery))
    return replace(found, processes=tuple(processes))


def _times(amount: Amount, share: float, model: Model) -> Amount:
    """An amount times a number."""
    if isinstance(amount, str):
        return (
            f"column({amount!r}) * {share!r}"
            if amount in model.blocks.columns
            else f"({amount}) * {share!r}"
        )
    if isinstance(amount, (int, float)):
        return amount * share
    return {rock: value * share for rock, value in amount.items()}


def _turned(angles: Any, by: float) -> Any:
    """Angles by so many degrees steeper."""
    return (
        [(bearing, angle + by) for bearing, angle in angles]
        if isinstance(angles, (list, tuple))
        else angles + by
    )


def price_factor(factor: int, change: Change) -> int:
    """The factor in thousandths at which the study itself has the changed price.

    Raises
    ------
    PlanError
        Where it is none of whole thousandths: another price than that which was asked for would be
        shown.
    """
    exact = factor * (1 + change.by / 100)
    if abs(exact - round(exact)) > 1e-6:
        # no change is none that can be made
        near = round(exact) if round(exact) != factor else factor + (1 if change.by > 0 else -1)
        raise PlanError(
            (
                f"{change} of factor {share_text(factor)} is factor {exact / THOUSAND:.9g}, and"
                " factors are whole thousandths"
            ),
            try_this=f"{change.what}={100 * (near / factor - 1):+.9g}",
        )
    return thousandths(round(exact) / THOUSAND)


def place(study: Study, name: str) -> Path:
    return study.folder / "vary" / name


def asked_of(study: Study) -> _Changes | None:
    """What was asked for by `prepare` over this very model, None where nothing was."""
    path = study.folder / "vary" / "vary.json"
    try:
        found = kept_json.read(path, _ASKED, command("vary", study.named, "price=-20..20"))
    except FileNotFoundError:
        return None
    return (
        _Changes(found["study"], found["factor"], [(what, by) for what, by in found["changes"]])
        if found["study"] == study.key
        else None
    )


def is_change(value: Any) -> bool:
    """Whether this is a change that can be made: it names a folder, so that no other word may stand
    there."""
    return (
        isinstance(value, list)
        and len(value) == 2
        and isinstance(value[0], str)
        and value[0].partition(":")[0]
        in ((*_OF_A_METAL, *_OF_A_PROCESS) if ":" in value[0] else (*WHAT, SINK))
        and kept_json.is_number(value[1])
        and value[1] != 0
        and value[1] > -100
    )


# what vary.json has
_ASKED: dict[str, kept_json.Holds] = {
    "study": kept_json.is_word,
    "factor": kept_json.is_factor,
    "changes": kept_json.is_list(is_change),
}


def scenario(base: Study, name: str) -> Study:
    """The study of a what-if. Raises PlanError where none of that name was asked for over this very
    model."""
    asked = asked_of(base)
    names = (
        [each.name for each in asked.each() if not each.is_factor and not each.keeps_pit]
        if asked
        else []
    )
    if name not in names:
        raise PlanError(
            f"there is no scenario {name!r} of the model that stands there{meant(name, names)}",
            try_this=command("vary", base.named, "price=-20..20"),
        )
    return Study(place(base, name), base.given)


def task(changes: _Changes, change: Change | None) -> Task:
    """The task of a change; of the study itself where there is none."""
    if change is None or change.keeps_pit:
        return Task(RUN, BASE, (changes.factor,))
    if change.is_factor:
        return Task(RUN, BASE, (price_factor(changes.factor, change),))
    return Task(RUN, change.name, (changes.factor,))


def vary_tasks(study: Study) -> list[Task]:
    """The tasks of the what-ifs that were asked for, the study itself first."""
    asked = asked_of(study)
    each = [task(asked, change) for change in (None, *asked.each())] if asked else []
    return list(dict.fromkeys(each))


def table(study: Study, rates: Rates = Rates()) -> pd.DataFrame:
    """The pits of the what-ifs, each checked again as it is read.

    Parameters
    ----------
    rates : Rates
        Of study.toml. Those that it doesn't say are such that the study's own pit takes 15 years.

    Returns
    -------
    DataFrame
        A row for the study itself and for each change: what, by, unit, factor (a share of the
        price), blocks, rock_t, worth, difference (the worth less that of the study itself), npv
        (bench after bench, discounted as `pit_by_pit.discounted`), npv_difference, how many blocks
        of the pit ask for a place beside the model (side_blocks) and are the lowest of their column
        (floor_blocks), see `edges`; and where the table has resource classes the tonnes of each,
        class_<name>_rock_t; where there are several processes the columns of
        `pit_by_pit.Cells.by_process`.

    Raises
    ------
    PlanError
        Where one hasn't been run over the model that stands there.
    """
    asked = asked_of(study)
    if asked is None:
        raise PlanError(
            "no what-ifs were asked for over the model that stands there",
            try_this=command("vary", study.named, "price=-20..20"),
        )
    rates = rates.of(study.priced.process_names)
    pits: dict[Task, _OnePit] = {}
    rows = []
    for change in (None, *asked.each()):
        of = task(asked, change)
        if of not in pits:
            one = study if of.name == BASE else scenario(study, of.name)
            pits[of] = _OnePit.of(one, of.factors[0], study)
        if change is None:
            feeds = [float(feed.sum()) for feed in pits[of].feeds]
            rates = rates.over(float(pits[of].rock.sum()), feeds)
        rows.append(
            {
                "what": change.what if change else BASE,
                "by": change.by if change else 0.0,
                "unit": change.unit.strip() if change else "",
                "factor": of.factors[0] / THOUSAND,
                **pits[of].said,
                "npv": pits[of].npv(_other_rates(rates, change)),
            }
        )
    found = pd.DataFrame(rows)
    found.insert(7, "difference", found.worth - found.worth.iloc[0])
    found.insert(8, "npv", found.pop("npv"))
    found.insert(9, "npv_difference", found.npv - found.npv.iloc[0])
    return found


@dataclass(frozen=True)
class _OnePit:
    """The pit of a what-if: what the table says of it, and its rock, the feed of each process and its
    worth, bench by bench from the top."""

    said: dict[str, Any]
    rock: Floats
    feeds: list[Floats]
    worth: Floats

    @classmethod
    def of(cls, study: Study, factor: int, base: Study) -> _OnePit:
        """Reads it with all checks; `base` is the study itself."""
        shells = Shells(study, [factor])
        held, cells = shells.holds(0), Cells.of(shells, factor)
        tonnes = base.model.blocks.tonnes.to_numpy(float)
        mask = held[: len(tonnes)]  # blocks after those are air, which other slopes lead through
        said = {
            "blocks": shells.verdicts[0]["count"],
            "rock_t": float(tonnes[mask].sum()),
            "worth": float(shells.verdicts[0]["worth"]),
            "side_blocks": int((held & edges.touching(study)).sum()),
            "floor_blocks": int((held & edges.on_floor(study.model)).sum()),
            **cells.by_process(()),
            **(base.classes.rock_of(mask, tonnes) if base.classes else {}),
        }
        return cls(
            said,
            by_bench(cells.rock),
            [by_bench(ore) * feed for ore, feed in zip(cells.ores, cells.feed_by_ore)],
            by_bench(cells.worth),
        )

    def npv(self, rates: Rates) -> float:
        """Its worth bench after bench, discounted."""
        return discounted(self.rock, self.feeds, self.worth, rates)[0]


def tornado(table: pd.DataFrame, currency: str = "$") -> Figure:
    """The tornado charts of `table`: of the worth, and beside it of the npv. For each thing a bar
    from its lowest to its highest, the longest on top. What leaves the pit as it is, stands in that
    of the npv alone."""
    from matplotlib.figure import Figure

    what = table.iloc[1:].what
    moves = ~what.isin((*RATES, DISCOUNT))
    bars = what.nunique()
    figure = Figure(figsize=(14, 1.7 + 0.6 * bars), layout="constrained")
    left, right = figure.subplots(1, 2)
    base = table.iloc[:1]
    draw(left, pd.concat([base, table.iloc[1:][moves]]), "worth", currency)
    left.set_title("What moves the worth: a proved pit at each end", fontsize=12)
    draw(right, table, "npv", currency)
    right.set_title("What moves the npv of that pit, bench after bench", fontsize=12)
    return figure


def draw(
    axes: Any, table: pd.DataFrame, column: str, currency: str, of: str = "best pit"
) -> list[str]:
    """One tornado chart, of a column of `table`; gives what its bars are of, from the lowest up."""
    from ..base.units_shown import scale_of

    base = float(table[column].iloc[0])
    money = scale_of(table[column], currency)
    groups = sorted(
        table.iloc[1:].groupby("what"),
        key=lambda group: float(
            max(group[1][column].max(), base) - min(group[1][column].min(), base)
        ),
    )
    for at, (_, group) in enumerate(groups):
        for row in group.to_dict("records"):
            end, up = row[column], row["by"] > 0
            axes.barh(
                at,
                (end - base) / money.divisor,
                left=base / money.divisor,
                height=0.6,
                color="#8a8a8a" if up else "#f1efe9",
                hatch="" if up else "///",
                edgecolor="black",
                linewidth=0.6,
            )
            is_right = end > base or end == base and up
            axes.annotate(
                str(Change(row["what"], row["by"])).removeprefix(called(row["what"])).strip(),
                (end / money.divisor, at),
                xytext=(4 if is_right else -4, 0),
                textcoords="offset points",
                ha="left" if is_right else "right",
                va="center",
                fontsize=8,
            )
    axes.axvline(base / money.divisor, color="black", linewidth=1)
    axes.set_yticks(range(len(groups)), [called(str(name)) for name, _ in groups])
    axes.margins(x=0.18)
    name = "Worth" if column == "worth" else "Npv"
    axes.set_xlabel(f"{name} of the {of} ({money.unit}); as planned {base / money.divisor:,.2f}")
    return [str(name) for name, _ in groups]
