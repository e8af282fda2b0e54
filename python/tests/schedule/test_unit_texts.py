"""Units as a mine of `pit`: block by block, by what a definition of it says."""
import gzip
from dataclasses import replace
from decimal import Decimal

import numpy as np
import pytest

from pitplan.pit.program import Pit
from pitplan.schedule.pairs import Pairs
from pitplan.schedule.search import Search
from pitplan.schedule.destinations import Millable, Timetable
from pitplan.schedule.unit_texts import UnitTexts
from pitplan.study.building import write_numbers
from six_blocks import PERIODS, made_up
from tiny_mines import TinyMine


def read(folder, made, prices=None):
    """The rows of its files: what each block rests on, and its fields."""
    prices = np.zeros((2, made.periods), np.int64) if prices is None else prices
    mine = UnitTexts(made).mine(Pit(), folder, prices)
    rows = [list(map(int, line.split())) for line in open(mine.files.blocks)]
    above = [list(map(int, line.split())) for line in open(mine.files.prec)]
    assert [row[0] for row in above] == [row[0] for row in rows] == list(range(len(rows)))
    assert all(row[1] == len(row) - 2 for row in above)
    return [set(row[2:]) for row in above], [row[4:] for row in rows], mine.periods.read_text()


def test_a_unit_costs_what_it_brings_and_uses_what_it_does(tmp_path):
    made, pairs, sinking = made_up(1, True)
    above, rows, text = read(tmp_path, made)
    assert above == [{a for b, a in pairs if b == unit} for unit in range(6)]
    waits = dict(sinking)
    assert rows == [
        [0, 0, -int(v), *map(int, uses), waits.get(b, b)]
        for b, (v, uses) in enumerate(zip(made.values, made.uses.T))
    ]
    assert "resources = [3, 4]\n" in text
    assert text.endswith("waits = [5]\nlag = 1\n")


def test_a_block_that_may_be_sent_brings_its_gain_by_a_way(tmp_path):
    """And takes its feed by it alone; each of a unit but the first is a block of its own, tied to
    its unit."""
    made, _, _ = made_up(1, chooses=True)
    own = made.millable
    twice = Millable(*(np.append(each, each[:1]) for each in own))
    twice.block[-1] = 99
    above, rows, text = read(tmp_path, replace(made, millable=twice))
    tie, unit = 6, int(own.unit[0])
    assert tie in above[unit]
    assert above[tie] == {unit}
    gains = dict(zip(own.unit.tolist(), zip(own.gains.tolist(), own.feeds.tolist())))
    for b, (value, rock) in enumerate(zip(made.values.tolist(), made.uses[0].tolist())):
        gain, feed = gains.get(b, (0, 0))
        assert rows[b] == [gain, 0, -value, rock, feed]
    assert rows[tie] == [*gains[unit][:1], 0, 0, 0, gains[unit][1]]
    assert "resources = [3, [4]]\n" in text


def test_a_block_that_may_go_to_several_processes_has_a_way_to_each(tmp_path):
    """A column of what each brings, and the feed of each by it alone; a block is one, whatever ways it
    has."""
    made, _, _ = made_up(1, chooses=True, leaches=True)
    own = made.millable
    above, rows, text = read(tmp_path, made, np.zeros((3, made.periods), np.int64))
    assert len(rows) == 6
    assert len(own.block) > len(set(own.block.tolist()))
    of = {(b, r): (g, f) for b, _, g, f, r in zip(*(each.tolist() for each in own))}
    for b, (value, rock) in enumerate(zip(made.values.tolist(), made.uses[0].tolist())):
        (mill, fed), (leach, heaped) = (of.get((b, way), (0, 0)) for way in (1, 2))
        assert rows[b] == [mill, leach, 0, -value, rock, fed, heaped]
    assert "resources = [4, [5, 2], [2, 6]]\n" in text
    ways = "ways = [{ revenue = 0, processing = 2 }, { revenue = 1, processing = 2 }]\nmining = 3\n"
    assert (tmp_path / "units.toml").read_text() == ways
    sent = np.arange(len(own.block)) == 0
    plan = Timetable(np.zeros(made.units, np.int64), sent)
    told = UnitTexts(made).schedule_rows(plan)
    assert told["w"].tolist() == [own.resource[0] - 1 if b == own.block[0] else 2 for b in range(6)]


def test_a_clock_keeps_a_unit_back(tmp_path):
    """By its cone a panel comes in no earlier period than it says."""
    made = TinyMine(25, panel=2).production
    first = made.first_by_room
    assert first.any()
    above, rows, text = read(tmp_path, made)
    units, last = made.units, int(first.max())
    assert len(above) == units + last + 1
    for unit in range(units):
        assert {b - units for b in above[unit] if b >= units} == ({int(first[unit])} - {0})
    waits = [row[-1] for row in rows]
    assert waits[:units] == list(range(units))
    assert waits[units:] == [units, *range(units, units + last)]
    assert text.endswith("lag = 1\n")
    nodes = UnitTexts(made)
    prices = np.zeros((2, made.periods), np.int64)
    dug = nodes.closed(Pit(), tmp_path, prices, None).dug
    assert not (dug & (np.arange(made.periods) < first[:, None])).any()


def test_pit_judges_panels_of_which_some_blocks_are_sent(tmp_path):
    """Beside their bound: with ties, a clock and ways it counts what this package does."""
    mine = TinyMine(1, panel=2)
    made, ore, costs = mine.production, np.flatnonzero(mine.values > 0), mine.rock // 10
    gains, ones = (mine.values + costs)[ore], np.ones_like(ore)
    made = replace(
        made,
        terms=replace(made.terms, is_by_year=True),
        values=-np.bincount(mine.unit, costs, made.units).astype(np.int64),
        uses=made.uses * [[1], [0]],
        millable=Millable(ore, mine.unit[ore], gains, mine.rock[ore], ones),
    )
    search, nodes = Search(tmp_path, made, Pit()), UnitTexts(made)
    search.run(0.2, 1e9)
    assert nodes.ties
    assert nodes.ticks
    texts = nodes.mine(Pit(), tmp_path, np.array(search.bound.multipliers))
    write_numbers(tmp_path / "s.txt", nodes.schedule_rows(search.plan))
    best = tmp_path / "best"
    best.write_bytes(gzip.decompress(search.kept.certificate.read_bytes()))
    said = Pit().schedule(texts, tmp_path / "s.txt", best)
    assert said.is_feasible
    assert Decimal(said.npv) * 10**6 == made.worth(search.plan)
    assert said.bound == search.bound.said
    assert Decimal(said.gap) == Decimal(said.bound) - Decimal(said.npv)


@pytest.mark.parametrize(
    "per_year, first, ticks", [(1, [0, 1, 3], [0, 1, 3]), (2, [0, 1, 3], [0, 0, 2])]
)
def test_with_a_lag_of_more_periods_the_clock_is_no_faster(per_year, first, ticks):
    """It ticks once in a lag: what comes within one counts from its beginning, and what has no room
    at all after the last period."""
    made, _, _ = made_up(1, True)
    made = replace(made, terms=replace(made.terms, per_year=per_year))
    made.__dict__["first_by_room"] = np.array([*first, 0, 0, 0])
    nodes = UnitTexts(made)
    assert nodes.clock.tolist() == [*ticks, 0, 0, 0]
    assert nodes.lag * nodes.clock.max() >= PERIODS


def test_of_many_waits_the_first_eight_count():
    made, units = TinyMine(1).production, np.arange(1, 10)
    other = replace(made, sinking=Pairs.of(units * 0, units, made.units))
    assert other.sinking.most == 9
    assert len(UnitTexts(other).waits()) == 8
