"""Mistakes that people make with schedules, each planted in the files of one, in its tables or in
what is kept of it, and refused: by `pit schedule --best`, by the checker that a bundle brings
along, or by the checks of this package."""
import gzip
import json
import os
import re
import shutil
from dataclasses import replace
from decimal import Decimal
from pathlib import Path

import mines
import numpy as np
import pytest
from pitplan import Disagreement, PlanError, Study
from pitplan.audit import recheck_schedule
from pitplan.audit.bundle import write_bundle
from pitplan.cli import schedule as of_screen
from pitplan.pit.program import Pit
from pitplan.schedule import Schedule
from pitplan.schedule.pit_schedule import judged
from pitplan.schedule.kept_search import Kept
from pitplan.schedule.production import Production
from pitplan.schedule.tables import Tables
from pitplan.schedule.search import Search
from pitplan.schedule.destinations import Timetable
from pitplan.schedule.unit_texts import UnitTexts
from pitplan.study.study_file import read_study_file
from pitplan.views import schedule_view
from tiny_mines import TinyMine

RICH = mines.STUDY_TOML.replace("price = 8500", "price = 24000").replace(
    "mining = 2.0", "mining = 2.0\ndilution = 0.05"
)
TERMS = """
[schedule]
years = 6
mining_rate = [350e3, 300e3]
mill_rate = 200e3
sink = 2
cutoff = "by year"
fixed_cost = 1e5
"""


RIGHT = {name: getattr(Production, name) for name in ("ways_chosen", "of_blocks")}


@pytest.fixture(scope="module")
def files(tmp_path_factory):
    """What `pit schedule --best` reads of the schedule of a tiny mine, which digs in two periods or
    more."""
    folder = tmp_path_factory.mktemp("files")
    made = TinyMine(2).production
    search = Search(folder / "search", made, Pit())
    search.run(0.0, 1e9)
    UnitTexts(made).mine(Pit(), folder, np.array(search.bound.multipliers))
    certificate = (search.kept.folder / "bound" / "bound.cert.gz").read_bytes()
    (folder / "bound.cert").write_bytes(gzip.decompress(certificate))
    dug = np.flatnonzero(search.plan.period < made.periods)
    rows = [f"{b} {search.plan.period[b]}\n" for b in dug]
    (folder / "s.txt").write_text("".join(rows))
    assert search.plan.period[dug].max() >= 1
    assert "GAP" in said_by_pit(folder)
    return folder


def said_by_pit(folder):
    """What it says, where that is a yes; else what it says instead."""
    words = "--prec units.prec --blocks units.blocks --settings units.toml --uses units.blocks"
    words += " --periods periods.toml --best bound.cert s.txt"
    paths = [word if word.startswith("--") else folder / word for word in words.split()]
    try:
        return Pit().run(["schedule", *paths])
    except PlanError as error:
        return str(error)


def of_text(name, change):
    """A change of a text of a folder, which has to be one."""

    def made(folder):
        path = folder / name
        before = path.read_text()
        path.write_text(change(before))
        assert path.read_text() != before

    return made


def of_rows(name, key, change):
    """A change of a list in a TOML text."""

    def changed(text):
        found = re.search(rf"^{key} = (.*)$", text, re.M)[1]
        return text.replace(f"{key} = {found}", f"{key} = {change(json.loads(found))}")

    return of_text(name, changed)


def worths(change):
    """What all blocks cost less what they bring."""

    def changed(text):
        rows = [row.split() for row in text.splitlines()]
        return "".join(
            " ".join([*row[:6], str(change(int(row[6]))), *row[7:]]) + "\n" for row in rows
        )

    return of_text("units.blocks", changed)


def first_year(text):
    """What is dug last is dug first."""
    rows = [row.split() for row in text.splitlines()]
    last = max(rows, key=lambda row: int(row[1]))
    return "".join(f"{b} {0 if [b, t] == last else t}\n" for b, t in rows)


def without_top(folder):
    """A block of the top bench, on which others rest, is left out."""
    resting = {int(w) for row in open(folder / "units.prec") for w in row.split()[2:]}
    rows = (folder / "s.txt").read_text().splitlines(keepends=True)
    gone = next(row for row in rows if int(row.split()[0]) in resting)
    (folder / "s.txt").write_text("".join(row for row in rows if row != gone))


@pytest.mark.parametrize(
    "change, words",
    [
        pytest.param(of_text("s.txt", first_year), r"BROKEN [1-9]|OVER 0", id="dug before what it rests on"),
        pytest.param(without_top, "BROKEN [1-9]", id="what is above was forgotten"),
        pytest.param(of_text("s.txt", lambda t: t + t.splitlines()[0] + "\n"), "fault: schedule", id="dug twice"),
        pytest.param(of_text("s.txt", lambda t: re.sub(r" \d+\n$", " 99\n", t)), "fault: schedule", id="in a year that isn't there"),
        pytest.param(of_rows("periods.toml", "capacities", lambda r: [[v // 3 for v in row] for row in r]), "OVER", id="a third of the rates"),
        pytest.param(of_rows("periods.toml", "multipliers", lambda r: [[-v - 1 for v in row] for row in r]), "fault: periods", id="a multiplier's sign"),
        pytest.param(of_rows("periods.toml", "weights", lambda r: [r[0], *r[:-1]]), "REFUSED", id="weights of the year before"),
        pytest.param(worths(lambda v: v * 11 // 10), "REFUSED", id="a stale bound after prices rose"),
        pytest.param(worths(lambda v: v * 9 // 10), "REFUSED", id="a stale bound after prices fell"),
        pytest.param(of_text("bound.cert", lambda t: t.replace("END\n", "")), "REFUSED|fault", id="a bound cut off"),
    ],
)  # fmt: skip
def test_pit_refuses(files, tmp_path, change, words):
    folder = Path(shutil.copytree(files, tmp_path / "files"))
    change(folder)
    said = said_by_pit(folder)
    assert re.search(words, said), said
    assert "GAP" not in said


class Planned:
    """A study with a schedule that has ways, a sink rate, a fixed cost and dilution, and its bundle."""

    def __init__(self, folder):
        mines.written_study(folder / "s", mines.table(6, 5, 4, 5), RICH + TERMS)
        plan = read_study_file(folder / "s")
        economics, slopes = plan.economics, plan.slopes
        Study.create(folder / "s", plan.read_model(), economics, slopes, None, plan.digest)
        self.values, self.rates = plan.values["schedule"], plan.rates
        self.shells = Study(folder / "s").shells(plan.factors)
        self.found = Schedule.of(self.shells, self.values, self.rates, (0.05, 600))
        dialect = plan.keys.dialect(plan.table)
        self.bundle = folder / "bundle"
        write_bundle(self.shells, self.bundle, plan.path, dialect, self.rates, self.values)
        self.kept = Kept(self.shells.study.folder, self.found.production)


@pytest.fixture(scope="module")
def planned(tmp_path_factory):
    return Planned(tmp_path_factory.mktemp("planned"))


def checked(bundle, monkeypatch, capsys):
    """What the bundle's checker says, in this process."""
    for script in (recheck_schedule, recheck_schedule.recheck):
        monkeypatch.setattr(script, "HERE", bundle)
    status = recheck_schedule.main()
    return status, capsys.readouterr().out


def of_cell(column, change, row=1, name="tables/schedule.csv"):
    """A cell of a table: numbers are changed as such. Row -1 is the last one."""

    def made(folder):
        path = folder / name
        lines = [line.split(",") for line in path.read_text().splitlines()]
        cells, at = lines[row], lines[0].index(column)
        assert cells[at] != (words := change(dict(zip(lines[0], cells)), cells[at]))
        cells[at] = str(words)
        path.write_text("".join(",".join(line) + "\n" for line in lines))

    return made


def times(factor):
    return lambda _, cell: float(cell) * factor


def plus(amount):
    return lambda _, cell: float(cell) + amount


def of_sunk(column, change):
    """A cell of the first row in which the sink rate binds."""

    def made(folder):
        lines = (folder / "tables" / "schedule.csv").read_text().splitlines()
        at = lines[0].split(",").index("sink_columns")
        row = next(n for n, line in enumerate(lines[1:], 1) if int(line.split(",")[at]))
        of_cell(column, change, row)(folder)

    return made


def of_ways(change):
    """The ways of all blocks, by their lines in schedule.txt."""

    def changed(text):
        rows = [row.split() for row in text.splitlines()]
        return "".join(" ".join(row) + "\n" for row in change(rows))

    return of_text("schedule/schedule.txt", changed)


def first_to_waste(rows):
    """A block that is milled goes to waste."""
    first = next(row for row in rows if row[2] == "0")
    return [[*row[:2], "1"] if row is first else row for row in rows]


def first_to_the_mill(rows):
    """A block that gains nothing by the mill goes there."""
    waste = next(row for row in reversed(rows) if row[2] == "1")
    return [[*row[:2], "0"] if row is waste else row for row in rows]


def of_terms(**changes):
    def changed(text):
        terms = json.loads(text)
        return json.dumps(terms | {name: change(terms[name]) for name, change in changes.items()})

    return of_text("schedule/terms.json", changed)


def without_dilution(text):
    rows = [row.split() for row in text.splitlines()]
    fed = ([*row[:5], str(int(row[5]) * 100 // 105), *row[6:]] for row in rows)
    return "".join(" ".join(row) + "\n" for row in fed)


def from_start(weights):
    return [round(10**6 / 1.08**t) for t in range(len(weights))]


PERIODS = "schedule/periods.toml"
BUNDLED = {
    "a year's weight shifted": (of_rows(PERIODS, "weights", lambda r: [10**6, *r[:-1]]), "weighs|flows|pair"),
    "mid-year taken as start": (of_rows(PERIODS, "weights", from_start), "weighs|flows|pair"),
    "rates of another year": (of_rows(PERIODS, "capacities", lambda r: [[row[-1], *row[:-1]] for row in r]), "uses|has"),
    "a multiplier's sign": (of_rows(PERIODS, "multipliers", lambda r: [[-v - 1 for v in row] for row in r]), "at least 0"),
    "feed without dilution": (of_text("schedule/uses.blocks", without_dilution), "of mill, and by the table"),
    "a sink of one bench more": (of_terms(sink=lambda sink: sink + 1), "sink rate|pair|flows"),
    "a sink of no year": (of_terms(lag=lambda lag: 0), "lag is 0, and has to be"),
    "a block's way forgotten": (of_ways(first_to_waste), "schedule.csv"),
    "the way of one block left out": (of_ways(lambda rows: [rows[0][:2], *rows[1:]]), "way for some blocks"),
    "a way that gains nothing": (of_ways(first_to_the_mill), "its way|schedule.csv|uses"),
    "feed that waste takes too": (of_text(PERIODS, lambda t: t.replace("[0, [1]]", "[0, 1]")), "columns of uses"),
    "a worth with a 0 more": (of_terms(npv=lambda npv: npv + ("0" if "." in npv else ".0")), "npv is .* an amount in quotes"),
    "a fixed cost of the year before": (of_terms(fixed_cost=lambda cost: cost - 1), "fixed cost|schedule.csv|flows"),
    "cash flow discounted twice": (of_cell("discounted", lambda row, v: float(v) * float(row["weight"])), "discounted"),
    "a year's worth for that so far": (of_cell("npv", lambda row, v: row["discounted"], 2), "npv"),
    "a partial last year counted whole": (of_cell("rock_t", lambda row, v: 300e3, -1), "period"),
    "the fixed cost forgotten": (of_cell("cash_flow", plus(1e5)), "line 2"),
    "the fixed cost taken twice": (of_cell("cash_flow", plus(-1e5)), "line 2"),
    "grade of the feed for that in place": (of_cell("grade_copper", times(1 / 1.05)), "line 2"),
    "metal before recovery": (of_cell("metal_copper", times(1 / 0.85)), "line 2"),
    "ore for feed": (of_cell("feed_t", lambda row, v: row["ore_t"]), "line 2"),
    "strip the other way round": (of_cell("strip", lambda row, v: 1 / float(v)), "line 2"),
    "the share of another rate": (of_cell("mill_used", lambda row, v: row["mining_used"]), "mill_used"),
    "what binds left out": (of_sunk("binds", lambda row, v: v.replace("sink", "").strip("; ")), "binds"),
    "what binds told otherwise": (of_cell("binds", lambda row, v: "" if v else "mining"), "binds"),
    "a column too many": (of_sunk("sink_columns", lambda row, v: int(v) + 1), "sink_columns"),
    "another bench that waits": (of_sunk("sink_bench", plus(15.0)), "sink_bench"),
    "a bench too deep": (of_cell("bottom", plus(-15.0)), "bottom"),
    "years counted from 0": (of_cell("year", lambda row, v: int(v) - 1), "period 1"),
    "prices of another day": (of_text("study.toml", lambda t: t.replace("24000", "25000")), "brings and costs"),
    "another discount": (of_text("study.toml", lambda t: t.replace("discount = 0.08", "discount = 0.07")), "weighs"),
}  # fmt: skip


@pytest.mark.parametrize("mistake", BUNDLED)
def test_the_bundles_checker_refuses(planned, tmp_path, monkeypatch, capsys, mistake):
    change, words = BUNDLED[mistake]
    bundle = Path(shutil.copytree(planned.bundle, tmp_path / "bundle"))
    change(bundle)
    status, said = checked(bundle, monkeypatch, capsys)
    assert status == 1, said
    assert re.search(words, said), said


def test_the_bundles_checker_takes_what_is_as_it_was(planned, monkeypatch, capsys):
    status, said = checked(planned.bundle, monkeypatch, capsys)
    assert (status, said.count("ok ")) == (0, 5), said


def test_what_is_said_before_and_after_fixed_costs_is_told_apart(planned, monkeypatch, capsys):
    """`pit` knows none: what they take from its bound is arithmetic of pitplan and of the checker."""
    years = Tables(planned.found).years()
    of_screen._tell(planned.found, years)
    said = capsys.readouterr()
    words = "by a bound that pit bound has accepted, less the fixed costs, which pitplan takes off: this"
    assert words in said.out + said.err
    note = schedule_view.schedule(planned.found, years).note
    assert "one that pit has accepted less the fixed costs, which pitplan takes off." in note
    monkeypatch.setattr(recheck_schedule.recheck, "HERE", planned.bundle)
    recheck_schedule.recheck.check_planned(
        recheck_schedule.recheck.Report(), os.environ["PIT"], False
    )
    (line,) = capsys.readouterr().out.splitlines()
    assert "before fixed costs, which recheck_schedule.py takes off: SCHEDULE" in line


def test_a_worth_less_its_fixed_costs_has_no_zero_at_its_end(planned):
    """71.5 less 1.5 is written as `pit` writes amounts, so that the checker takes it."""
    said = replace(planned.found.judged, npv="71.5")
    found = replace(planned.found, judged=said, fixed=Decimal("1.5"))
    assert found.facts["npv"] == "70"


def a_year_less(terms):
    rates = tuple(row[:-1] for row in terms.capacities)
    return replace(terms, weights=terms.weights[:-1], capacities=rates)


STALE = {
    "prices": lambda made: {"millable": made.millable._replace(gains=made.millable.gains + 1)},
    "costs": lambda made: {"values": made.values - 1},
    "dilution": lambda made: {"millable": made.millable._replace(feeds=made.millable.feeds + 1)},
    "rates": lambda made: {"terms": replace(made.terms, capacities=made.terms.capacities[::-1])},
    "years": lambda made: {"terms": a_year_less(made.terms)},
    "half years": lambda made: {"terms": replace(made.terms, per_year=2)},
    "fixed cost": lambda made: {"terms": replace(made.terms, fixed_cost=1)},
    "slopes": lambda made: {"above": made.above.turned()},
    "panels": lambda made: {"unit": np.roll(made.unit, 1)},
    "sink rate": lambda made: {"sinking": made.above},
}


@pytest.mark.parametrize("what", STALE)
def test_what_was_found_at_other_terms_is_never_read(planned, what):
    """A stale bound, and a stale schedule, after one thing changed."""
    made = replace(planned.found.production, **STALE[what](planned.found.production))
    older = Kept(planned.shells.study.folder, made)
    assert planned.kept.bound() is not None
    assert (older.bound(), older.schedule(), older.end()) == (None, None, None)


def all_at_once(plan, made):
    return Timetable(np.zeros_like(plan.period), plan.sent)


def one_left(plan, made):
    """What most rests on is left in the ground."""
    top = np.bincount(made.above.other, minlength=made.units).argmax()
    return Timetable(np.where(np.arange(made.units) == top, made.periods, plan.period), plan.sent)


def a_year_for_three_benches(plan, made):
    """What waits for the sink rate comes a year earlier."""
    waits = made.kept_by_sink(plan.period)
    return Timetable(plan.period - np.isin(np.arange(made.units), waits), plan.sent)


@pytest.mark.parametrize(
    "mistake, words",
    [
        (all_at_once, "mining in period 1 is exceeded"),
        (all_at_once, "mill in period 1 is exceeded"),
        (one_left, "break.* the slopes"),
        (a_year_for_three_benches, "break.* the sink rate"),
    ],
)
def test_the_package_refuses(planned, mistake, words):
    made, plan = planned.found.production, planned.kept.schedule()
    assert made.wrong(plan) == []
    assert any(re.search(words, each) for each in made.wrong(mistake(plan, made)))


def discounted_twice(made, plan):
    return sum(
        int(weight) ** 2 // 10**6 * int(made.values[plan.period == t].sum())
        for t, weight in enumerate(made.weights)
    )


def one_forgotten(made, plan):
    """The first block that is sent goes to waste."""
    found = RIGHT["ways_chosen"](made, plan)
    found[np.flatnonzero(found)[0]] = 0
    return found


@pytest.mark.parametrize(
    "name, mistake",
    [
        ("worth", discounted_twice),
        ("ways_chosen", one_forgotten),
        ("of_blocks", lambda made, plan: np.minimum(RIGHT["of_blocks"](made, plan), 0)),
    ],
)
def test_pit_contradicts_what_is_counted_otherwise(planned, tmp_path, monkeypatch, name, mistake):
    """A cash flow that is discounted twice, a block's way that is forgotten, and all blocks in the
    first year."""
    made, plan = planned.found.production, planned.kept.schedule()
    monkeypatch.setattr(Production, name, mistake)
    with pytest.raises(Disagreement, match="pit schedule says"):
        judged(planned.shells.study, made, plan, tmp_path)
