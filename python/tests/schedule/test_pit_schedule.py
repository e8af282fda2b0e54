"""A schedule as `pit schedule` reads and judges it: its texts by the planner's own table, and an answer
that contradicts what was counted here."""
from dataclasses import replace

import numpy as np
import pandas as pd
import pytest

import pitplan as pp
from mines import study_of, table
from pitplan.pit.schedule_answer import Scheduled
from pitplan.schedule import pit_schedule
from pitplan.schedule.plan import production_for
from pitplan.schedule.sorting import Sorting

COST = {"OXI": 7.5, "SUL": 9.0}
VALUES = {"years": 4, "mining_rate": [600e3], "mill_rate": 400e3, "sink": 2}
RATES = {"discount": 0.08}


@pytest.fixture(scope="module")
def made(tmp_path_factory):
    """A study, the mine of its schedule, and a schedule."""
    study = study_of(tmp_path_factory.mktemp("m"), table(6, 5, 4, 3))
    production = production_for(study.shells([1000]), VALUES, RATES)
    return study, production, Sorting(production).by_shells()


def rock_and_feed(study):
    """Thousandths of a tonne of each block, and of those that pay at the mill."""
    frame = table(6, 5, 4, 3).set_index("IJK").loc[study.model.blocks["id"]]
    copper = frame.TONNES * frame.CU / 100 * 0.85
    pays = (copper * 8500).round() > (frame.TONNES * frame.ROCK.map(COST)).round()
    rock = (frame.TONNES * 1000).round().astype(int)
    return rock.tolist(), (rock * pays).tolist()


def numbers(path):
    return pd.read_csv(path, sep=r"\s+", header=None).T.to_numpy().tolist()


def test_blocks_use_what_the_table_says(made):
    study, _, _ = made
    blocks = np.array([7, 0, 12])
    found = pit_schedule.block_uses(study, blocks, False)
    assert found.tolist() == [[row[b] for b in blocks] for row in rock_and_feed(study)]


def test_the_texts_have_every_block_of_the_model(made, tmp_path):
    study, production, plan = made
    of_blocks, places = production.of_blocks(plan), study.model.blocks
    nothing = np.zeros(production.size, np.int64)
    pit_schedule.write_texts(tmp_path, study, production, of_blocks, nothing)
    assert {path.name for path in tmp_path.iterdir()} == set(pit_schedule.TEXTS)
    b, x, y, z, rock, feed, waits = numbers(tmp_path / "uses.blocks")
    assert b == list(range(len(study.model)))
    assert [x, y, z] == [places[name].tolist() for name in ("ix", "iy", "iz")]
    inside = np.isin(np.arange(len(b)), production.blocks)
    for column, wanted in zip((rock, feed), rock_and_feed(study)):
        assert column == (np.array(wanted) * inside).tolist()
    dug, period = numbers(tmp_path / "schedule.txt")
    assert dug == np.flatnonzero(of_blocks >= 0).tolist()
    assert period == of_blocks[dug].tolist()


def test_a_block_waits_for_the_one_two_benches_above(made, tmp_path):
    """By a sink rate of two benches, within the pit; its own number where there is none."""
    study, production, plan = made
    nothing = np.zeros(production.size, np.int64)
    pit_schedule.write_texts(tmp_path, study, production, production.of_blocks(plan), nothing)
    b, x, y, z, _, _, waits = numbers(tmp_path / "uses.blocks")
    at, pit = dict(zip(zip(x, y, z), b)), set(production.blocks.tolist())
    for block, *place, other in zip(b, x, y, z, waits):
        over = [at.get((place[0], place[1], place[2] + step)) for step in (1, 2)]
        is_held = block in pit and None not in over
        assert other == (over[1] if is_held else block)
    assert any(block != other for block, other in zip(b, waits))


def test_pit_says_what_was_counted(made, tmp_path):
    study, production, plan = made
    said = pit_schedule.judged(study, production, plan, tmp_path)
    assert said.is_feasible
    assert said.count == (production.of_blocks(plan) >= 0).sum() > 0
    assert float(said.npv) == production.worth(plan) / 1e6
    assert list(tmp_path.iterdir()) == []


@pytest.mark.parametrize(
    "change",
    [
        {"count": 3},
        {"npv": "1.5"},
        {"broken": 1},
        {"early": 2},
        {"over": ((0, 1),)},
    ],
    ids=lambda change: next(iter(change)),
)
def test_another_answer_is_never_shown(made, tmp_path, monkeypatch, change):
    study, production, plan = made
    right = pit_schedule.judged(study, production, plan, tmp_path)
    said = replace(right, **change)
    assert isinstance(said, Scheduled)
    monkeypatch.setattr(type(study.program), "schedule", lambda *_: said)
    with pytest.raises(pp.Disagreement, match=f"pit schedule says {said.count:,} block"):
        pit_schedule.judged(study, production, plan, tmp_path)
    assert list(tmp_path.iterdir()) == []
