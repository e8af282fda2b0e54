"""Where the sink rate binds: by hand on a column of blocks, and on a mine against what each of its
rows says."""
import math
import tomllib

import numpy as np
import pandas as pd
import pytest
from planned import TERMS, built, of_table, run
from pitplan.schedule.pairs import Pairs
from pitplan.schedule.production import Production
from pitplan.schedule.tables import binds_text
from pitplan.schedule.terms import Terms

NEVER = 5


def column(depth, sink, per_year=1):
    """Blocks 0 to depth - 1 from the top, each of which rests on the one above it."""
    below = np.arange(depth)
    ones = np.ones(depth, np.int64)
    return Production(
        Terms((10**6,) * NEVER, ((), ()), per_year=per_year, sink=sink),
        below,
        below,
        depth,
        ones,
        np.stack([ones, ones]),
        depth - 1 - below,
        below * 0,
        Pairs.of(below[1:], below[:-1], depth),
        Pairs.of(below[sink:], below[:-sink], depth),
    )


@pytest.mark.parametrize(
    "sink, per_year, period, waits",
    [
        (2, 1, [0, 0, 1, 1, 2], [2, 4]),  # two benches a year, one after the other
        (2, 1, [0, 0, 2, 2, 3], [4]),  # block 2 came a year later than the sink rate asks for
        (2, 1, [0, 1, 1, 2, 2], [3]),  # block 2 waits for block 1 as much as for block 0
        (2, 1, [0, 1, 2, 3, 4], []),  # a bench a year
        (1, 1, [0, 1, 2, 3, NEVER], [1, 2, 3]),  # what stays waits for nothing
        (2, 2, [0, 1, 2, 3, 4], [2, 3, 4]),  # half years: two benches in each two of them
        (2, 2, [0, 0, 2, 2, 4], [2, 4]),
        (2, 2, [0, 0, 3, 4, 5], []),
    ],
)
def test_what_waits_in_a_column(sink, per_year, period, waits):
    made = column(5, sink, per_year)
    assert made.kept_by_sink(np.array(period)).tolist() == waits


def test_what_binds_in_words():
    place = {"sink_x": 5010.0, "sink_y": 9030.531, "sink_bench": 1271.25}
    words = "sink (x 5,010.0, y 9,030.5: bench 1,271.25 waits)"
    assert binds_text({"binds": "mining; sink"} | place) == f"mining; {words}"
    assert binds_text({"binds": "mining; sink"} | place, True) == "mining; sink: bench 1,271.25"
    assert binds_text({"binds": "mill"} | dict.fromkeys(place, math.nan)) == "mill"
    assert binds_text({"binds": ""}) == ""


@pytest.fixture(scope="module")
def sunk(tmp_path_factory):
    folder = built(tmp_path_factory.mktemp("sunk") / "s", TERMS + "sink = 1\n")
    said = run("schedule", folder, "--gap", "5")
    return folder, said, pd.read_csv(folder / "out" / "schedule.csv")


def waiting(folder):
    """By year the places of the rows that could be dug in it but for one bench a year: the slopes
    of the settings say what each rests on, all of that is dug by then, and the row straight above
    in that very year."""
    rows = of_table(folder)
    lines = map(str.split, open(folder / "model" / "mine.blocks"))
    number = {tuple(map(int, words[1:4])): int(words[0]) for words in lines}
    rows["at"] = [
        number[round((x - 5000) / 20), round((y - 9000) / 20), round((z - 100) / 15)]
        for x, y, z in zip(rows.XC, rows.YC, rows.ZC)
    ]
    year = dict(zip(rows["at"], rows.year.fillna(99).astype(int)))
    place = dict(zip(rows["at"], zip(rows.XC, rows.YC, rows.ZC)))
    straight = {place[b]: b for b in place}
    found = {}
    (slopes,) = tomllib.loads((folder / "model" / "settings.toml").read_text())["slopes"]
    for (i, j, k), b in number.items():
        above = [number[at] for x, y, z in slopes if (at := (i + x, j + y, k + z)) in number]
        if b not in year or year[b] == 99:
            continue
        x, y, z = place[b]
        top = straight.get((x, y, z + 15))
        if top is None or year[top] != year[b] - 1:
            continue
        if all(year.get(a, 0) < year[b] for a in above):
            found.setdefault(year[b] - 1, []).append((x, y, z))
    return found


def test_a_year_in_which_it_binds_says_where(sunk):
    folder, said, years = sunk
    kept = waiting(folder)
    assert kept
    for row in years.to_dict("records"):
        here = kept.get(row["year"], [])
        assert ("sink" in str(row["binds"]).split("; ")) == bool(here)
        assert row["sink_columns"] == len({place[:2] for place in here})
        if here:
            found = row["sink_x"], row["sink_y"], row["sink_bench"]
            assert found in here
            assert found[2] == min(z for _, _, z in here)
            assert f"y {found[1]:,.1f}: bench {found[2]:,.10g} waits" in " ".join(said.split())
        else:
            assert math.isnan(row["sink_bench"])


def test_its_page_says_so_too(sunk):
    folder, _, years = sunk
    bench = years.sink_bench.dropna().iloc[0]
    assert f"sink: bench {bench:,.10g}" in (folder / "out" / "schedule.html").read_text()
