"""How steep a design is where it breaks the slopes."""
import math
from types import SimpleNamespace

import numpy as np
import pandas as pd
import pytest

import pitplan as pp
from designs import above, as_design
from mines import study_of, table
from pitplan.plans import compare, walls
from pitplan.plans.walls import worst
from pitplan.study.predecessors import Resting


def test_the_worst_wall_of_a_shaft(tmp_path):
    """A shaft of 3 x 3 blocks straight down 4 benches in flat ground, of blocks 20 x 20 x 15, the
    slopes 45 degrees."""
    i, j, k = (
        v.ravel() for v in np.meshgrid(np.arange(15), np.arange(15), np.arange(8), indexing="ij")
    )
    for turn in (0.0, 30.0):
        t = math.radians(turn)
        frame = pd.DataFrame(
            {
                "XC": 20.0 * (i * math.cos(t) + j * math.sin(t)),
                "YC": 20.0 * (j * math.cos(t) - i * math.sin(t)),
                "ZC": 15.0 * k,
                "TONNES": 15000.0,
                "CU": np.where((i == 7) & (j == 7) & (k == 5), 90.0, 0.0),
                "ROCK": "SUL",
            }
        )
        made = study_of(
            tmp_path / f"{turn:g}" if (tmp_path / f"{turn:g}").mkdir() is None else tmp_path,
            frame,
            pp.Slopes(45, levels=4),
            rotation=turn,
        )
        made.shells([1000])
        held = (abs(i - 7) <= 1) & (abs(j - 7) <= 1) & (k >= 4)
        found = compare.compare(made, as_design(made, held)).walls
        beside = found[found.away == 20]
        assert len(beside) == 4
        assert np.allclose(beside.steepest, math.degrees(math.atan(45 / 20)))
        assert (beside.height == 45).all()
        assert (beside.bench == 60).all()
        assert sorted(np.round(beside.bearing) % 90) == [turn % 90] * 4
        assert (np.abs(found.built - 45) < 3).all()
        feet = made.model.blocks.set_index("id")
        for (
            row
        ) in (
            beside.itertuples()
        ):  # the wall lies where it is told: a step from the foot on its bearing is out of the shaft
            foot = feet.loc[row.id]
            step = (
                foot.XC + 20 * math.sin(math.radians(row.bearing)),
                foot.YC + 20 * math.cos(math.radians(row.bearing)),
            )
            at = int(
                np.argmin(
                    np.hypot(frame.XC - step[0], frame.YC - step[1]) + 1e6 * (frame.ZC != row.bench)
                )
            )
            assert not held[at]
            assert (row.x, row.y) == pytest.approx((foot.XC, foot.YC))
        # a block that stands straight above one that is dug
        under = held & ~((i == 7) & (j == 7) & (k == 6))
        above = compare.compare(made, as_design(made, under)).walls
        assert np.isnan(above.bearing).sum() == 1
        assert above[np.isnan(above.bearing)].steepest.iloc[0] == 90


def test_a_wall_is_told_from_a_block_that_breaks_the_slopes_there(tmp_path):
    made = study_of(tmp_path, table(9, 8, 5, 5), pp.Slopes(55, by="SECTOR", regions={"EAST": 35}))
    resting, ids, grid = Resting(made), made.model.blocks["id"].to_numpy(), made.model.grid
    for seed in range(5):
        held = np.random.default_rng(seed).random(len(made.model)) < 0.3
        broken = resting.broken(held)
        sectors = [
            walls.sector_of(walls.away_of(grid, dx, dy)[1]) if dx or dy else -1
            for dx, dy in broken[2][:, :2].tolist()
        ]
        there = set(zip(ids[broken[0]], sectors))
        found = worst(made.model, resting, held, broken)
        assert len(found) > 8
        assert all(
            (row.id, -1 if np.isnan(row.bearing) else walls.sector_of(row.bearing)) in there
            for row in found.itertuples()
        )


@pytest.mark.parametrize("up, window", [(1, (6, 12, 6)), (4, (8, 4, 2)), (9, (9, 2, 1))])
def test_walls_are_measured_over_six_levels_at_least(up, window):
    """Over whole times what the slopes look at; so far, in blocks, does the wall lead there."""
    assert walls._window(SimpleNamespace(offsets=[[(0, 0, 1), (2, -1, up)]])) == window
