"""Bounds by the study's own files and the certificate of its best pit: those of the pit's units, and
of schedules of the whole mine."""
import subprocess
import sys
from dataclasses import replace
from decimal import Decimal

import numpy as np
import pytest

import mines
import two_ways
from bundles import with_schedule
from pitplan import PlanError, Study
from pitplan.audit.bundle import write_bundle
from pitplan.cli.schedule import _counted_here
from pitplan.schedule import Schedule
from pitplan.schedule.block_texts import BlockTexts, is_by_blocks
from pitplan.schedule.pit_schedule import judged
from pitplan.schedule.kept_search import Kept
from pitplan.schedule.plan import production_for
from pitplan.schedule.unit_texts import UnitTexts
from pitplan.study.study_file import read_study_file
from planned import RICH

TERMS = "\n[schedule]\nyears = 6\nmining_rate = 500e3\nmill_rate = 300e3\n"
KINDS = {
    "fixed": "",
    "by year": 'cutoff = "by year"\n',
    "sink": 'cutoff = "by year"\nsink = 2\nper_year = 2\n',
    "cost": "fixed_cost = 2e5\n",
}


def checked(bundle):
    """What its own script says."""
    ran = subprocess.run(
        [sys.executable, "-I", bundle / "recheck_schedule.py"], capture_output=True, text=True
    )
    assert not ran.stderr
    return ran.returncode, ran.stdout


@pytest.fixture(scope="module", params=KINDS)
def found(request, tmp_path_factory):
    folder = tmp_path_factory.mktemp("blocks")
    return with_schedule(folder, mines.table(6, 6, 5, 5), RICH + TERMS + KINDS[request.param])


def test_units_and_the_models_own_files_give_one_bound(found, tmp_path):
    """At any multipliers, to the last digit, and the same richest pit."""
    made, study = found[1].production, found[1].shells.study
    assert is_by_blocks(made)
    assert len(made.blocks) < made.size
    r = np.random.default_rng(5)
    for k in range(3):
        prices, said = r.integers(0, 10**6, made.capacities.shape) * k, []
        for nodes in (UnitTexts(made), BlockTexts(made, study.files)):
            folder = tmp_path / f"{k} {type(nodes).__name__}"
            folder.mkdir()
            said.append(nodes.closed(study.program, folder, prices, None))
        assert said[0].bound == said[1].bound
        assert (said[0].dug == said[1].dug).all()


def test_pit_says_bound_and_gap_of_what_is_shown(found):
    made, said = found[1].production, found[1].judged
    kept = Kept(found[1].shells.study.folder, made).bound()
    assert said.bound == kept.said
    assert Decimal(said.gap) == Decimal(said.bound) - Decimal(said.npv)
    if not made.terms.fixed_cost:
        assert 0 <= found[1].bound - Decimal(said.bound) < Decimal("0.000001")
        assert abs(found[1].bound - found[1].npv - Decimal(said.gap)) < Decimal("0.000001")
    assert found[1].npv <= found[1].bound


@pytest.mark.parametrize("wrong", ["said", "multipliers"])
def test_another_bound_than_the_certificates_is_refused(found, tmp_path, wrong):
    made, study = found[1].production, found[1].shells.study
    kept = Kept(study.folder, made)
    bound, plan = kept.bound(), kept.schedule()
    lower = f"{Decimal(bound.said) - 1:f}"
    raised = [[price + 1 for price in row] for row in bound.multipliers]
    changed = replace(bound, **{wrong: lower if wrong == "said" else raised})
    with pytest.raises(PlanError, match="isn't a bound any more: pit schedule"):
        judged(study, made, plan, tmp_path, (changed, kept.certificate))
    assert judged(study, made, plan, tmp_path, (bound, kept.certificate)) == found[1].judged


def test_the_bundles_checker_comes_to_that_bound(found):
    status, said = checked(found[0])
    assert status == 0, said
    assert f"worth more than {int(found[1].bound):,}." in said


@pytest.mark.parametrize("more", ["", "panel = 2\n", "pushbacks = [0.6]\nlead = 1\nsink = 3\n"])
def test_of_several_processes_a_block_goes_any_way_by_which_it_gains(tmp_path, more):
    """As `pit schedule` and the bundle's checker count it; and that brings no less than a fixed
    cut-off."""
    terms = "\n[schedule]\nyears = 5\nmining_rate = 600e3\n" + more
    text = two_ways.TEXT.replace("rate = 120e3", "rate = 60e3").replace("250e3", "100e3")
    plan = read_study_file(two_ways.written(tmp_path, terms + 'cutoff = "by year"\n', text))
    Study.create(tmp_path, plan.read_model(), plan.economics, plan.slopes, None, plan.digest)
    shells, shown = Study(tmp_path).shells(plan.factors), plan.values["schedule"]
    made = Schedule.of(shells, shown, plan.rates, (0.06, 60))
    assert set(made.production.millable.resource) == {1, 2}
    assert is_by_blocks(made.production) == (not more)
    priced, is_rock = shells.study.priced, shells.study.model.is_rock
    dug, own = made.period >= 0, priced.destinations(1000).astype(str)
    assert set(np.unique(made.ways[dug & is_rock])) == {"mill", "leach", "waste"}
    gains = np.stack([np.zeros(len(dug)), *(way.revenue - way.processing for way in priced.ways)])
    assert (gains[made.goes, np.arange(len(dug))][dug & made.sent] > 0).all()
    other = dug & made.sent & (made.ways != own)
    assert other.any()  # some go to another process
    milled, said = list(_counted_here(made))[:2]
    assert milled.startswith(f"{(dug & made.sent & is_rock).sum():,} of the blocks go to a process")
    assert said.startswith(f"{other.sum():,} of them go to another process than at the full price")
    assert (dug & ~made.sent & (own != "waste")).any()  # some that would pay are waste
    dialect = plan.keys.dialect(plan.table)
    write_bundle(shells, tmp_path / "bundle", plan.path, dialect, plan.rates, shown)
    status, said = checked(tmp_path / "bundle")
    assert status == 0, said
    fixed = Schedule.of(shells, {**shown, "cutoff": "fixed"}, plan.rates, (0.06, 60))
    assert made.bound >= fixed.bound
    assert made.bound >= made.npv > fixed.npv


@pytest.mark.parametrize("sink", ["", "sink = 2\n"])
def test_of_several_processes_units_and_the_models_own_files_give_one_bound(tmp_path, sink):
    terms = '\n[schedule]\nyears = 5\nmining_rate = 600e3\ncutoff = "by year"\n' + sink
    plan = read_study_file(two_ways.written(tmp_path, terms))
    Study.create(tmp_path, plan.read_model(), plan.economics, plan.slopes, None, plan.digest)
    shells = Study(tmp_path).shells(plan.factors)
    made = production_for(shells, plan.values["schedule"], plan.rates)
    prices, said = np.random.default_rng(5).integers(0, 10**4, made.capacities.shape), []
    for nodes in (UnitTexts(made), BlockTexts(made, shells.study.files)):
        folder = tmp_path / type(nodes).__name__
        folder.mkdir()
        said.append(nodes.closed(shells.study.program, folder, prices, None))
    assert said[0].bound == said[1].bound
    assert (said[0].dug == said[1].dug).all()
