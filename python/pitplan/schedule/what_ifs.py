"""What-ifs of a schedule: the plan by years with one thing changed at a time, each beside a bound of
its own.

A price, a recovery, a cost or a slope makes a study of its own in ``vary/price+20/``, as those of
`plans.vary`; rates, the discount and the sink rate change the terms alone. ``vary/schedule.json``
says what was asked for, and ``runs/schedule`` of each folder has what was found.
"""
from __future__ import annotations

import hashlib
import json
from collections.abc import Iterable, Mapping
from dataclasses import asdict, dataclass
from pathlib import Path
from typing import TYPE_CHECKING, Any, NamedTuple

import pandas as pd

from ..base import kept_json
from ..base.amounts import THOUSAND
from ..base.errors import PlanError
from ..base.files import whole_file
from ..base.near_words import meant
from ..base.next_command import command
from ..plans import vary
from ..plans.task_line import BASE, SCHEDULE, Task
from ..plans.vary import DISCOUNT, RATES, SINK, WHAT, Change, refuse_other_rate
from ..study.shells import Shells
from ..study.study import Study
from .search_ends import Limits
from .terms import Rate, process_rates_of, pushbacks_of

if TYPE_CHECKING:
    from matplotlib.figure import Figure

    from ..model.economics import Economics
    from ..slopes.slopes import Slopes
    from .plan import Schedule

KNOWN = (*WHAT, SINK)
PERCENT, MINUTE = 100.0, 60.0


@dataclass(frozen=True)
class Asked:
    """What ``schedule.json`` says.

    Attributes
    ----------
    study : str
        The key of the model.
    changes : list of (what, by)
    values, rates : dict
        The values of [schedule], and those that [shells] gives, as of `Schedule.of`.
    gap, minutes : float
        At which each search ends: a gap in percent, and a time.
    """

    study: str
    changes: list[tuple[str, float]]
    values: dict[str, Any]
    rates: dict[str, Any]
    gap: float
    minutes: float

    def each(self) -> list[Change]:
        """The changes."""
        return [Change(what, by) for what, by in self.changes]

    def named(self, name: str) -> Change | None:
        """The change of a name; None is the study itself. Raises PlanError where there is none."""
        names = {change.name: change for change in self.each()}
        if name != BASE and name not in names:
            raise PlanError(f"no schedule of {name!r} was asked for{meant(name, list(names))}")
        return names.get(name)


def is_term(value: Any) -> bool:
    """Whether this may be a value of [schedule]."""
    return (
        value is None
        or kept_json.is_number(value)
        or kept_json.is_word(value)
        or kept_json.is_list(kept_json.is_number)(value)
        or isinstance(value, dict)
        and all(is_term(each) for each in value.values())
    )


def are_rates(value: Any) -> bool:
    """Whether these may be the rates of [shells], and those of processes."""
    is_rate = kept_json.is_none_or(kept_json.is_number)
    return isinstance(value, dict) and all(
        kept_json.is_table(is_rate)(each) if name == "process_rates" else kept_json.is_number(each)
        for name, each in value.items()
    )


_ASKED: dict[str, kept_json.Holds] = {
    "study": kept_json.is_word,
    "changes": kept_json.is_list(vary.is_change),
    "values": kept_json.is_table(is_term),
    "rates": are_rates,
    "gap": kept_json.is_number,
    "minutes": kept_json.is_number,
}


def prepare(
    study: Study, economics: Economics, slopes: Slopes, changes: Iterable[Change], asked: Asked
) -> None:
    """Builds what the changes need, and writes down what is to be found. No pit is found yet.

    Parameters
    ----------
    economics, slopes
        What the study was built with.
    changes
        Each is taken once the model of the one before is built.

    Raises
    ------
    PlanError
        Where a change can't be made: it names the change.
    """
    for change in changes:
        try:
            if change.keeps_pit:
                _changed_terms(asked.values, asked.rates, change)
            else:
                e, s = vary.changed(economics, slopes, change, study.model)
                Study.create(vary.place(study, change.name), study.model, e, s, study.program)
        except PlanError as error:
            for each in error.each():
                each.what = f"{change}: {each.what}"
            raise
    path = study.folder / "vary" / "schedule.json"
    path.parent.mkdir(exist_ok=True)
    with whole_file(path) as part:
        part.write_text(json.dumps(asdict(asked)))


def asked_of(study: Study) -> Asked | None:
    """What was asked for by `prepare` over this very model, None where nothing was."""
    try:
        path = study.folder / "vary" / "schedule.json"
        again = command("vary", study.named, "--schedule", "discount=-2..2")
        found = kept_json.read(path, _ASKED, again)
    except (FileNotFoundError, NotADirectoryError):
        return None
    asked = Asked(**{name: found[name] for name in _ASKED})
    return asked if asked.study == study.key else None


def must_be_asked(study: Study) -> Asked:
    """As `asked_of`. Raises PlanError where nothing was."""
    asked = asked_of(study)
    if asked is None:
        raise PlanError(
            "no schedules of what-ifs were asked for over the model that stands there",
            try_this=command("vary", study.named, "--schedule", "discount=-2..2", "price=-10..10"),
        )
    return asked


def _changed_terms(
    values: Mapping[str, Any], rates: Mapping[str, Any], change: Change | None
) -> dict[str, Any]:
    """The values of [schedule] with a change.

    Raises
    ------
    PlanError
        Where the discount or the sink rate can't be so, or study.toml has no such rate.
    """
    found = dict(values)
    if change is None or not change.keeps_pit:
        return found
    if change.kind == DISCOUNT:
        planned = (
            rates.get("discount", 0.1) if values.get("discount") is None else values["discount"]
        )
        found["discount"] = round(float(planned) + change.by / PERCENT, 12)
        if not 0 <= found["discount"] < 1:
            raise PlanError(f"a discount of {found['discount']:g} isn't from 0 to below 1")
    elif change.kind in RATES and change.kind != "mining_rate" and rates.get("process_rates"):
        found["process_rates"] = _changed_rates(process_rates_of(values, rates), change)
    elif change.kind in RATES:
        refuse_other_rate(change, ())
        rate = values.get(change.kind) or rates.get(change.kind)
        if rate is None:
            raise PlanError(f"study.toml has no {change.kind}")
        found[change.kind] = _times(rate, 1 + change.by / PERCENT)
    else:
        sink = values.get(SINK)
        if sink is None or change.by != int(change.by) or sink + change.by < 1:
            raise PlanError(
                "the sink rate is whole benches a year, at least 1"
                if sink is not None
                else "[schedule] of study.toml has no sink rate",
                try_this="sink=-1..1, beside sink = 4 in [schedule]",
            )
        found[SINK] = int(sink + change.by)
    return found


def _times(rate: Rate, share: float) -> Rate:
    """A rate, or those of the years, times a share."""
    if rate is None or isinstance(rate, (int, float)):
        return rate and rate * share
    return [each * share for each in rate]


def _changed_rates(processes: Mapping[str, Rate], change: Change) -> dict[str, Rate]:
    """The rates with a change of those processes that have one. Raises PlanError where none of those
    that it is of has one."""
    refuse_other_rate(change, list(processes))
    share = 1 + change.by / PERCENT
    concerned = [name for name in processes if change.of in ("", name)]
    if all(processes[name] is None for name in concerned):
        raise PlanError(
            f"{' and '.join(concerned)} {'has' if len(concerned) == 1 else 'have'} no rate",
            try_this="rate = 8e6 in [[economics.processes]]",
        )
    changed = {name: _times(processes[name], share) for name in concerned}
    return {name: rate for name, rate in {**processes, **changed}.items() if rate is not None}


def study_named(base: Study, name: str) -> Study:
    """The study of a what-if, the study itself where it changes the terms alone. Raises PlanError
    where none of that name was asked for over this very model."""
    change = must_be_asked(base).named(name)
    if change is None or change.keeps_pit:
        return base
    return Study(vary.place(base, name), base.given)


def what_if_tasks(study: Study) -> list[Task]:
    """The tasks of the what-ifs that were asked for, the study itself first."""
    asked = asked_of(study)
    names = [BASE, *(change.name for change in asked.each())] if asked else []
    return [Task(SCHEDULE, name, (THOUSAND,)) for name in names]


def place(base: Study, name: str) -> Path:
    """The folder in which the schedule of a what-if is kept."""
    return base.folder if name == BASE else vary.place(base, name)


class _Ended(NamedTuple):
    """The file that says that a search has ended, and what stands in it then."""

    path: Path
    digest: str


def ended(base: Study, asked: Asked, name: str) -> _Ended:
    """How the end of a search for the schedule of a what-if is written down."""
    terms = _changed_terms(asked.values, asked.rates, asked.named(name))
    rests_on = [study_named(base, name).key, terms, asked.rates, asked.gap, asked.minutes]
    digest = hashlib.sha256(json.dumps(rests_on, sort_keys=True).encode()).hexdigest()
    return _Ended(place(base, name) / "runs" / "schedule" / "ended", digest)


def is_done(base: Study, name: str) -> bool:
    """Whether the schedule of a what-if was searched for as was asked."""
    path, digest = ended(base, must_be_asked(base), name)
    try:
        return path.read_text("utf-8") == digest
    except (OSError, ValueError):
        return False


def _shells_of(study: Study, terms: Mapping[str, Any]) -> Shells:
    """The pits of a study from which its schedule begins: all that were run up to the full price,
    which order the blocks, and that at the full price; those of pushbacks are run where they
    weren't."""
    missing = [
        each for each in pushbacks_of(terms.get("pushbacks") or ()) if not study.verdict(each)
    ]
    if missing:
        study.shells(missing)
    known = [int(path.name[1:]) for path in study.place(THOUSAND).parent.glob("f[0-9]*")]
    return Shells(study, [each for each in known if each <= THOUSAND and study.verdict(each)])


def find(base: Study, name: str) -> None:
    """Searches for the schedule of a what-if, from where an earlier search ended."""
    from .plan import Schedule

    asked = must_be_asked(base)
    terms = _changed_terms(asked.values, asked.rates, asked.named(name))
    path, digest = ended(base, asked, name)
    limits = Limits(asked.gap / PERCENT, asked.minutes * MINUTE)
    shells = _shells_of(study_named(base, name), terms)
    Schedule.of(shells, terms, asked.rates, limits, folder=place(base, name))
    with whole_file(path) as part:
        part.write_text(digest, "utf-8")


def found_last(base: Study, asked: Asked, name: str) -> Schedule:
    """The schedule of a what-if, judged again. Raises PlanError where none was found."""
    from .plan import Schedule

    terms = _changed_terms(asked.values, asked.rates, asked.named(name))
    shells = _shells_of(study_named(base, name), terms)
    found = Schedule.last(shells, terms, asked.rates, place(base, name))
    if found is None:
        raise PlanError(
            f"the schedule of {name} hasn't been found",
            try_this=command("vary", base.named, "--schedule"),
        )
    return found


def table(base: Study) -> pd.DataFrame:
    """The schedules of the what-ifs, each judged by `pit` as it is read.

    Returns
    -------
    DataFrame
        A row for the study itself and for each change: what, by, unit, blocks, rock_t, years (the
        last in which something is dug), npv, npv_difference (less that of the study itself), bound,
        bound_difference, gap (how far the npv is below the bound, in percent of that), gaps (how far
        this schedule and that of the study itself may be below the best, together, in units of
        currency), is_apart (whether npv_difference is larger than that; where it isn't, the two
        can't be told apart).

    Raises
    ------
    PlanError
        Where one hasn't been found over the model that stands there.
    """
    asked, rows = must_be_asked(base), []
    for change in (None, *asked.each()):
        found = found_last(base, asked, change.name if change else BASE)
        tonnes = found.shells.study.model.blocks.tonnes.to_numpy(float)
        rows.append(
            {
                "what": change.what if change else BASE,
                "by": change.by if change else 0.0,
                "unit": change.unit.strip() if change else "",
                "blocks": found.count,
                "rock_t": float(tonnes[found.period[: len(tonnes)] >= 0].sum()),
                "years": int(found.years.max()),
                "npv": float(found.npv),
                "bound": float(found.bound),
                "gap": float(found.gap),
            }
        )
    made = pd.DataFrame(rows)
    for name in ("npv", "bound"):
        made.insert(
            list(made.columns).index(name) + 1,
            f"{name}_difference",
            made[name] - made[name].iloc[0],
        )
    return with_gaps(made)


def with_gaps(table: pd.DataFrame) -> pd.DataFrame:
    """A table of schedules, the planned one first, with ``gaps`` and ``is_apart`` as `table` has
    them.

    Parameters
    ----------
    table : DataFrame
        With ``npv`` and ``bound`` in units of currency.
    """
    below = table["bound"] - table["npv"]
    gaps = below + below.iloc[0]
    is_apart = (table["npv"] - table["npv"].iloc[0]).abs() > gaps
    return table.assign(gaps=gaps, is_apart=is_apart)


def tornado(table: pd.DataFrame, currency: str = "$") -> Figure:
    """The tornado chart of `table`: for each thing a bar from its lowest npv to its highest, the
    longest on top, and by a line up to where its bound is."""
    from matplotlib.figure import Figure

    from ..base.units_shown import scale_of

    figure = Figure(figsize=(9, 1.9 + 0.6 * table.iloc[1:].what.nunique()), layout="constrained")
    axes = figure.subplots()
    money = scale_of(table["npv"], currency)
    order = vary.draw(axes, table, "npv", currency, "schedule")
    for row in table.iloc[1:].to_dict("records"):
        at = order.index(row["what"])
        ends = [row["npv"] / money.divisor, row["bound"] / money.divisor]
        axes.plot(ends, [at - 0.36] * 2, color="#a3341f", marker="|", markersize=7, linewidth=1.2)
    axes.set_title(
        "What moves the net present value of the schedule\n"
        "(below each bar's end: up to what no schedule brings more)",
        fontsize=12,
    )
    return figure
