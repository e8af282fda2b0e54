"""A schedule under realisations of the grades, added up again from the planner's own table, beside
bounds of studies that are written by hand with a realisation's grades."""
import json
import re
import subprocess
import sys
from decimal import Decimal
from pathlib import Path
from types import SimpleNamespace

import mines
import numpy as np
import pandas as pd
import pytest
from pitplan import Disagreement, Study
from pitplan.schedule import Schedule, pit_schedule, realisations
from pitplan.schedule.pairs import Pairs
from pitplan.schedule.production import Production
from pitplan.schedule.terms import Terms, terms_of
from pitplan.study.study_file import read_study_file
from pitplan.tasks.tasks import Tasks, wanted

PITPLAN = Path(__file__).resolve().parents[3] / "bin" / "pitplan"
RICH = mines.STUDY_TOML.replace("price = 8500", "price = 24000")
TERMS = "\n[schedule]\nyears = 6\nmining_rate = [600e3, 500e3]\nmill_rate = 400e3\n"
COUNT = 4


def run(*words, status=0):
    ran = subprocess.run(
        [sys.executable, PITPLAN, *map(str, words)], capture_output=True, text=True
    )
    assert ran.returncode == status, ran.stderr + ran.stdout
    return ran.stdout + ran.stderr


@pytest.fixture(scope="module")
def risky(tmp_path_factory):
    """A study, its table with a column of years, and realisations that have more and less ore than
    the table."""
    frame = mines.table(8, 7, 5, 5)
    folder = mines.written_study(tmp_path_factory.mktemp("risky") / "s", frame, RICH + TERMS)
    r = np.random.default_rng(3)
    share = np.array([1.0, 1.3, 0.8, 1.1])[:COUNT, None]
    grades = (frame.CU.to_numpy() * share * r.lognormal(0, 0.3, (COUNT, len(frame)))).astype("f4")
    grades[1] += 0.3  # nearly all of it is ore
    np.save(folder / "grades.npy", grades)
    run("build", folder)
    run("shells", folder)
    words = ("risk", folder, "--realisations", folder / "grades.npy", "--schedule")
    assert "no schedule by the terms" in run(*words, status=3)
    run("schedule", folder, "--gap", "0.2")
    said = run(*words, "--gap", "0.2", "--minutes", "10")
    rows = pd.read_csv(folder / "out" / "schedule_t.csv")
    rows["year"] = rows.year.fillna(0).astype(int)
    return folder, said, pd.read_csv(folder / "out" / "risk_schedule.csv"), rows, grades


def of_rows(rows, grades):
    """What each row brings beyond its treatment, and whether it is milled, at grades of float32."""
    brings = (rows.TONNES * grades.astype(float) / 100 * 0.85 * 24000).round()
    treating = (rows.TONNES * rows.ROCK.map({"OXI": 7.5, "SUL": 9.0})).round()
    return (brings - treating).clip(lower=0) - (rows.TONNES * 2.0).round(), brings > treating


def test_the_npv_is_that_of_the_planners_table_with_the_realisations_grades(risky):
    _, _, table, rows, grades = risky
    assert table.realisation.tolist() == list(range(COUNT))
    for row, realisation in zip(table.itertuples(), grades):
        worth, milled = of_rows(rows, realisation)
        npv = sum(
            Decimal(str(round(1.08 ** -(year - 0.5), 6))) * int(worth[rows.year == year].sum())
            for year in range(1, rows.year.max() + 1)
        )
        assert row.npv == pytest.approx(float(npv), rel=1e-12)
        feed = (rows.TONNES * milled).groupby(rows.year).sum().drop(0, errors="ignore")
        assert row.over == pytest.approx(max(0, feed.max() / 400e3 - 1))
    assert table.over.max() > 0.05


@pytest.mark.parametrize("number", range(COUNT))
def test_the_bound_is_that_of_the_study_with_these_grades(risky, tmp_path, number):
    """The mill's rate of each year is what the schedule feeds there, where that is more."""
    _, _, table, rows, grades = risky
    row = table.iloc[number]
    _, milled = of_rows(rows, grades[number])
    feed = (rows.TONNES * milled).groupby(rows.year).sum()
    rates = [max(400e3, float(feed.get(year, 0))) for year in range(1, 7)]
    frame = rows.assign(CU=[repr(float(g)) for g in grades[number]]).drop(columns="year")
    text = RICH + TERMS.replace("mill_rate = 400e3", f"mill_rate = {rates}")
    folder = mines.written_study(tmp_path / "s", frame, text)
    plan = read_study_file(folder)
    Study.create(folder, plan.read_model(), plan.economics, plan.slopes, None, plan.digest)
    shells = Study(folder).shells(plan.factors)
    own = Schedule.of(shells, plan.values["schedule"], plan.rates, (0.002, 600))
    assert row.npv <= row.bound
    assert row.own <= row.bound
    assert float(own.npv) <= row.bound
    assert row.own <= float(own.bound)
    assert row.bound == pytest.approx(float(own.bound), rel=2e-3)
    assert row.unknown == pytest.approx(row.bound - row.npv)


def test_the_screen_has_the_spread(risky):
    _, said, table, *_ = risky
    line = next(line for line in said.splitlines() if line.strip().startswith("bound less"))
    found = [float(word.replace(",", "")) for word in re.findall(r"[\d,]+\.\d\d", line)]
    wanted_ones = [*table.unknown.quantile([0, 0.1, 0.5, 0.9, 1]), table.unknown.mean()]
    assert found == pytest.approx([value / 1e6 for value in wanted_ones], abs=0.006)
    assert "has more feed than the mill's" in said
    assert "optimal" not in said


def test_tasks_are_done_once(risky):
    folder, *_ = risky
    base = Study(folder)
    each = realisations.realised_tasks(base)
    assert [str(task) for task in each] == [f"realisation-schedule {r} 1000" for r in range(COUNT)]
    assert set(each) <= set(wanted(base, [1000]))
    assert not Tasks(folder).left(each)
    assert "done before" in run("task", folder, "realisation-schedule", "1", "1000")
    path = folder / "runs" / "r0001" / "schedule.json"
    kept = path.read_text()
    path.unlink()
    assert [str(task) for task in Tasks(folder).left(each)] == ["realisation-schedule 1 1000"]
    path.write_text(kept.replace('"own": "', '"own": "-x'))
    said = run("risk", folder, "--schedule", status=3)
    assert "schedule.json is damaged: own" in said
    path.write_text(kept)


def test_a_bound_below_the_schedule_is_never_kept(risky, monkeypatch):
    """As where the mill's rate isn't widened to what the schedule feeds."""
    folder, *_ = risky
    right = realisations.production_under

    def narrow(study, asked):
        from pitplan.schedule.plan import production_for
        from pitplan.study.shells import Shells

        made, over = right(study, asked)
        values = {**asked.values, "mill_rate": 100e3}
        return production_for(Shells(study, [1000]), values, asked.rates), over

    monkeypatch.setattr(realisations, "production_under", narrow)
    monkeypatch.setattr(realisations, "judged", lambda *words: Decimal(10**9))
    with pytest.raises(Disagreement, match="below a schedule's worth"):
        realisations.find(Study(folder), 1)


def test_the_terms_of_realisations_are_those_of_the_schedule_without_panels_and_pushbacks(tmp_path):
    """Of three years of four periods, by which nothing is ahead of anything."""
    rates = {"mining_rate": 1000.0, "discount": 0.1}
    told = {"per_year": 4, "panel": 2, "pushbacks": [0.5], "lead": 3, "sink": 4}
    terms = terms_of({**told, "years": 3}, rates, 1.0, 1.0)
    schedule = SimpleNamespace(
        production=SimpleNamespace(terms=terms), period=np.zeros(3, np.int32)
    )
    base = SimpleNamespace(folder=tmp_path, key="0" * 64)
    realisations.prepare(base, schedule, told, rates, 0.1, 1.0)
    values = json.loads((tmp_path / "risk" / "schedule.json").read_text())["values"]
    found = terms_of(values, rates, 1e9, 1e9)
    assert (found.weights, found.capacities) == (terms.weights, terms.capacities)
    assert (found.panel, found.pushbacks, found.lead, found.sink) == (1, (), 0, 4)


def test_a_schedule_under_a_realisation_pays_for_each_period_in_which_it_digs_rock(monkeypatch):
    """Blocks worth 500, 300 and -20 in the first, the last and again the last of four periods, of
    which the second digs air alone: 500 + 280 * 0.7, less 100 * 1.7."""
    said = SimpleNamespace(is_feasible=True, npv="696", broken=0, early=0, over=[])
    monkeypatch.setattr(pit_schedule, "write_texts", lambda *words: None)
    worths = np.array([500, 300, -20, 0], np.int64) * 1000
    study = SimpleNamespace(
        priced=SimpleNamespace(
            thousandths=lambda factor: worths, rounding=Decimal(1), way_of=lambda factor: None
        ),
        model=SimpleNamespace(is_rock=np.array([True, True, True, False])),
        program=SimpleNamespace(schedule=lambda *words: said),
        number=7,
    )
    terms = Terms((1_000_000, 900_000, 800_000, 700_000), ((), ()), fixed_cost=100)
    each, none = np.arange(4), np.zeros(4, np.int64)
    pairs = Pairs.of(none[:0], none[:0], 4)
    made = Production(terms, each, each, 4, none, np.stack([none, none]), none, none, pairs, pairs)
    assert realisations.judged(study, made, np.array([0, 3, 3, 1])) == 526
    said.npv = "696.1"
    with pytest.raises(Disagreement, match="realisation 7: pit schedule says 696.1"):
        realisations.judged(study, made, np.array([0, 3, 3, 1]))
