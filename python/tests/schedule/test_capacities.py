"""Of a capacity counts what whole units may fill: the bound is lower for it, and no schedule is
lost."""
import re
import shutil
import subprocess
import sys
from dataclasses import replace
from math import gcd

import mines
import numpy as np
import pytest
from bundles import with_schedule
from pitplan.pit.program import Pit
from pitplan.schedule.search import Search
from pitplan.schedule.destinations import Millable
from planned import RICH
from tiny_mines import TinyMine

BLOCK, SPARE = 1000, 997  # of rock, and what a capacity has beyond whole blocks
TERMS = """
[schedule]
years = 6
mining_rate = 601e3
mill_rate = 401e3
"""


def alike(seed, kind):
    """A tiny mine whose blocks weigh the same, with capacities that whole blocks don't fill."""
    mine = TinyMine(seed, **kind)
    made, is_fed = mine.production, mine.feed > 0
    mine.rock[:] = BLOCK
    mine.feed = BLOCK * is_fed
    rooms = [
        int(row.sum()) // mine.periods // BLOCK * BLOCK + SPARE for row in (mine.rock, mine.feed)
    ]
    mine.terms = replace(mine.terms, capacities=tuple((room,) * mine.periods for room in rooms))
    uses = np.zeros_like(made.uses)
    for row, amounts in zip(uses, (mine.rock, mine.feed)):
        np.add.at(row, made.unit, amounts)
    mine.production = replace(made, terms=mine.terms, uses=uses)
    return mine


@pytest.mark.parametrize("seed, kind", [(2, {"panel": 2}), (5, {}), (46, {"pushbacks": True})])
def test_no_schedule_is_lost(tmp_path, seed, kind):
    """The best of all schedules by the capacities as they are told is found under those that count,
    and is below the bound."""
    mine = alike(seed, kind)
    search = Search(tmp_path, mine.production, Pit())
    search.run(0.0, 1e9)
    assert search.found.npv == mine.best() <= search.found.bound


@pytest.mark.parametrize("seed, kind", [(2, {"panel": 2}), (4, {}), (46, {"pushbacks": True})])
def test_a_capacity_is_what_whole_units_fill(seed, kind):
    made = alike(seed, kind).production
    for row, found, uses in zip(made.capacities, made.terms.capacities, made.uses):
        part = gcd(*uses.tolist())
        assert part >= BLOCK
        assert (row % part == 0).all()
        assert (row <= np.array(found)).all()
        assert (np.array(found) < row + part).all()


def test_blocks_that_may_be_sent_count_each():
    """What nothing limits has room for all, as before."""
    made = alike(4, {}).production
    each, ones = np.arange(2), np.ones(2, np.int64)
    sent = Millable(each, each, ones, np.array([300, 500]), ones)
    made = replace(made, uses=np.stack([made.uses[0], made.uses[1] * 0]), millable=sent)
    found = made.terms.capacities[1][0]
    assert (made.capacities[1] == found - found % 100).all()
    free = replace(made, terms=replace(made.terms, capacities=((), ())))
    assert (free.capacities[1] == 800).all()
    assert (free.capacities[0] == made.uses[0].sum()).all()


@pytest.fixture(scope="module")
def bundle(tmp_path_factory):
    """Of blocks of 15,000 tonnes each, of which 40 fill 600 of 601 thousand tonnes a year."""
    frame = mines.table(9, 8, 5, 5).assign(TONNES=15_000.0)
    return with_schedule(tmp_path_factory.mktemp("alike"), frame, RICH + TERMS)[0]


def checked(folder):
    ran = subprocess.run(
        [sys.executable, "-I", folder / "recheck_schedule.py"], capture_output=True, text=True
    )
    assert not ran.stderr
    return ran.returncode, ran.stdout


def test_the_bundles_checker_takes_them_for_what_they_are(bundle):
    text = (bundle / "schedule" / "periods.toml").read_text()
    rows = re.search(r"^capacities = (.*)$", text, re.M)[1]
    assert rows == str([[600_000_000] * 6, [390_000_000] * 6])
    status, said = checked(bundle)
    assert status == 0, said


@pytest.mark.parametrize("now", ["601000000", "615000000"])
def test_and_for_nothing_else(bundle, tmp_path, now):
    """The rate itself, and a block more."""
    other = shutil.copytree(bundle, tmp_path / "bundle")
    path = other / "schedule" / "periods.toml"
    path.write_text(path.read_text().replace("600000000", now, 1))
    status, said = checked(other)
    assert status == 1
    assert "of mining, and by study.toml 600000000" in said
