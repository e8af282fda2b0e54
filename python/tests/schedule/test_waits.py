"""What blocks wait for by a sink rate, as `pit schedule` and `pit bound` read it: by hand on a
column of blocks, and against all schedules of a made-up mine. What is written wrongly doesn't pass
for what was asked."""
import re
import shutil
from dataclasses import replace
from decimal import Decimal
from pathlib import Path

import numpy as np
import pytest

import mines
from bundles import with_schedule
from pitplan import Disagreement
from pitplan.audit import recheck_schedule
from pitplan.pit.program import Pit
from pitplan.schedule import pit_schedule as of_judged, unit_texts
from pitplan.schedule.kept_search import Kept
from pitplan.schedule.pairs import Pairs
from pitplan.schedule.periods_text import periods_text
from pitplan.schedule.destinations import Timetable
from pitplan.schedule.unit_texts import UnitTexts
from six_blocks import PERIODS, best_of_all, made_up

RICH = mines.STUDY_TOML.replace("price = 8500", "price = 24000")
TERMS = "\n[schedule]\nyears = 6\nmining_rate = 500e3\nmill_rate = 400e3\n"


def bound_by(made, folder, prices):
    folder.mkdir()
    nodes = UnitTexts(made)
    return nodes.total(nodes.closed(Pit(), folder, prices, None).bound, prices)


def as_others_write(monkeypatch, columns=None, lag=None):
    """Texts of which columns, or the lag, are others."""
    if columns:
        right = Pairs.columns
        monkeypatch.setattr(Pairs, "columns", lambda pairs: columns(right(pairs)))
    if lag:
        change = lambda *words: re.sub(r"lag = (\d+)", lag, periods_text(*words))
        monkeypatch.setattr(unit_texts, "periods_text", change)


def test_a_bound_of_blocks_that_wait_is_lower_and_above_all(tmp_path, monkeypatch):
    """At the prices that nothing costs: then it is what the best pit of blocks and periods is
    worth, and nothing else. Of a column of its own numbers it is what it was without a sink rate,
    by a lag of a year more it is lower still.
    """
    found = []
    for seed in range(4):
        made, pairs, sinking = made_up(seed, True)
        made = replace(made, terms=replace(made.terms, capacities=((10**9,) * PERIODS,) * 2))
        free, none = made_up(seed)[0], np.zeros((2, PERIODS), np.int64)
        free, best = replace(free, terms=made.terms), best_of_all(made, pairs, sinking)
        assert bound_by(made, tmp_path / f"{seed} made", none) == best
        here = [bound_by(free, tmp_path / f"{seed} free", none)]
        for name, wrong in {
            "own numbers": {"columns": lambda rows: rows * 0 + np.arange(rows.shape[1])},
            "another bench": {"columns": lambda rows: np.append(rows[:, :5], [[3]], axis=1)},
            "a year more": {"lag": lambda word: f"lag = {int(word[1]) + 1}"},
        }.items():
            with monkeypatch.context() as patch:
                as_others_write(patch, **wrong)
                here.append(bound_by(made, tmp_path / f"{seed} {name}", none))
        found.append([each - best for each in here])
    free, own, bench, more = zip(*found)
    assert own == free
    assert all(each >= 0 for each in free)
    assert any(each > 0 for each in free)
    assert any(bench)
    assert min(more) < 0


@pytest.fixture(scope="module")
def sunk(tmp_path_factory):
    """A bundle of half years with a sink rate, and its schedule."""
    folder = tmp_path_factory.mktemp("sunk")
    return with_schedule(folder, mines.table(6, 6, 5, 5), RICH + TERMS + "per_year = 2\nsink = 2\n")


def rechecked(bundle, monkeypatch, capsys):
    """What the bundle's checker says, in this process."""
    for script in (recheck_schedule, recheck_schedule.recheck):
        monkeypatch.setattr(script, "HERE", bundle)
    return recheck_schedule.main(), capsys.readouterr().out


def column_of(folder):
    """For which block each waits, as it stands after the uses."""
    return [int(line.split()[6]) for line in open(folder / "schedule" / "uses.blocks")]


def test_a_block_waits_for_the_one_two_benches_above(sunk):
    """Straight above it, and in the pit alone; by the model's file of blocks."""
    bundle, found = sunk
    lines = [list(map(int, line.split()[:4])) for line in open(bundle / "model" / "mine.blocks")]
    number = {tuple(place): b for b, *place in lines}
    pit = set(found.production.blocks.tolist())
    wanted = [
        number.get((x, y, z + 2), b) if b in pit and (x, y, z + 1) in number else b
        for b, x, y, z in lines
    ]
    assert column_of(bundle) == wanted
    assert sum(a != b for b, a in enumerate(wanted)) > 20
    text = (bundle / "schedule" / "periods.toml").read_text()
    assert text.endswith("waits = [2]\nlag = 2\n")


def test_pit_takes_what_is_in_a_bundle(sunk):
    """The schedule by its texts alone, and not once a block comes a period earlier than the sink
    rate lets it."""
    bundle, found = sunk
    words = ["schedule", "--blocks", "model/mine.blocks", "--settings", "model/settings.toml"]
    words += ["--uses", "schedule/uses.blocks", "--periods", "schedule/periods.toml"]
    paths = [bundle / word if "/" in word else word for word in [*words, "schedule/schedule.txt"]]
    assert f"SCHEDULE {found.count} " in Pit().run([*paths, "--verbose"])
    made, plan = found.production, Kept(found.shells.study.folder, found.production).schedule()
    waits = made.kept_by_sink(plan.period)
    assert len(waits)
    early = Timetable(plan.period - np.isin(np.arange(made.units), waits[:1]), plan.sent)
    with pytest.raises(Disagreement, match="0 broken pairs, 1 early pair"):
        of_judged.judged(found.shells.study, made, early, bundle.parent)


def test_the_bundles_checker_comes_to_the_same_bound(sunk, monkeypatch, capsys):
    """By its own count of what each block waits for: `pit bound` has said it of a mine in which
    they do."""
    bundle, found = sunk
    assert found.production.earliest.any()
    status, said = rechecked(bundle, monkeypatch, capsys)
    assert status == 0, said
    amount = re.search(r"worth more than ([\d,.]+)\n", said)[1].replace(",", "")
    assert 0 <= found.bound - Decimal(amount) < Decimal("0.00001")  # rounded up there


MISTAKES = {
    "a lag of one period": lambda text, rows: (text.replace("lag = 2", "lag = 1"), rows),
    "the lag forgotten": lambda text, rows: (text.replace("lag = 2\n", ""), rows),
    "a year more": lambda text, rows: (text.replace("lag = 2", "lag = 4"), rows),
    "no waits": lambda text, rows: (text.replace("waits = [2]\nlag = 2\n", ""), rows),
    "its own number": lambda text, rows: (text, [row[:6] + row[:1] for row in rows]),
    "another bench": lambda text, rows: (text, [row[:6] + _upper(row, rows) for row in rows]),
}


def _upper(row, rows):
    """What the block for which one waits waits for, and else what stands there."""
    return rows[int(row[6])][6:7]


@pytest.mark.parametrize("mistake", MISTAKES)
def test_the_bundles_checker_refuses(sunk, tmp_path, monkeypatch, capsys, mistake):
    """What `pit` would be told of the sink rate has to be what study.toml says."""
    bundle = Path(shutil.copytree(sunk[0], tmp_path / "bundle"))
    periods, uses = bundle / "schedule" / "periods.toml", bundle / "schedule" / "uses.blocks"
    before = periods.read_text(), [line.split() for line in uses.read_text().splitlines()]
    after = MISTAKES[mistake](*before)
    assert after != before
    periods.write_text(after[0])
    uses.write_text("".join(" ".join(row) + "\n" for row in after[1]))
    status, said = rechecked(bundle, monkeypatch, capsys)
    assert status == 1
    assert re.match("WRONG .* (by|of) the sink rate", said), said
