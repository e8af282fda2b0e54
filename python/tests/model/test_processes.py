"""Several ways to treat a block: what each brings and costs, and where a block goes, beside plain
Python by hand."""
import random
import tomllib

import numpy as np
import pandas as pd
import pytest

import mines
import pitplan as pp
import two_ways
from mines import costs, study_of, table
from pitplan.base.amounts import Priced, Way
from pitplan.base.errors import PlanError
from pitplan.base.study_lines import line_of
from pitplan.model import store
from pitplan.study.building import Building
from pitplan.study.study_file import read_study_file

LEACH = pp.Process("leach", 3.0, ["OXI"], {"copper": 0.6})
MILL = pp.Process("mill", {"OXI": 7.5, "SUL": 9.0})


def of_numbers(ways, mining):
    """Amounts of a few blocks, without a mine."""
    made = [
        Way(f"w{i}", np.array([r for r, _ in way]), np.array([p for _, p in way]))
        for i, way in enumerate(ways, 1)
    ]
    return Priced(tuple(made), np.array(mining))


def test_a_block_goes_where_it_is_worth_most_and_is_never_worth_less_than_waste():
    """1,000 tables of 1 to 8 ways whose amounts are small, so that many are worth as much: beside a
    plain maximum."""
    r, ties = random.Random(7), 0
    for _ in range(1000):
        count, factor = r.randint(1, 5), r.choice([0, 1, 500, 999, 1000, 1001, 1500, 3000])
        ways = [
            [(r.randint(0, 6), r.randint(-2, 6)) for _ in range(count)]
            for _ in range(r.randint(1, 8))
        ]
        mining = [r.randint(-3, 6) for _ in range(count)]
        found = of_numbers(ways, mining)
        goes, worths = [], []
        for b in range(count):
            each = [factor * way[b][0] - 1000 * way[b][1] for way in ways]
            best = max([0, *each])
            ties += each.count(best) > 1 and best > 0
            goes.append(each.index(best) + 1 if best > 0 else 0)
            worths.append(best - 1000 * mining[b])
        assert found.way_of(factor).tolist() == goes
        assert found.thousandths(factor).tolist() == worths
        assert found.treated(factor).tolist() == [way > 0 for way in goes]
        named = ["waste", *(f"w{i}" for i in range(1, 9))]
        assert found.destinations(factor).tolist() == [named[way] for way in goes]
        gains = [worth + 1000 * digging for worth, digging in zip(worths, mining)]
        assert found.gains(factor).tolist() == gains
        assert found.worth_of(np.ones(count, bool), 1000) == found.spelled(
            int(found.thousandths(1000).sum())
        )
    assert ties > 200


def test_of_as_much_the_first_counts_whatever_the_order():
    ways = [[(4, 1)], [(5, 2)], [(4, 1)]]
    assert of_numbers(ways, [0]).way_of(1000).tolist() == [1]
    assert of_numbers(ways, [0]).way_of(1001).tolist() == [2]  # 3.004, 3.005, 3.004
    assert of_numbers(ways[1:], [0]).way_of(1000).tolist() == [1]
    assert of_numbers([[(3, 3)], [(0, 0)]], [1]).way_of(1000).tolist() == [0]


def test_each_way_has_its_own_grades_costs_recoveries_and_dilution(tmp_path):
    """Worked out row by row in plain Python; a rock that a process doesn't take brings and costs
    nothing there."""
    file = read_study_file(two_ways.written(tmp_path))
    model = file.read_model()
    priced = file.economics.priced(model)
    assert [way.name for way in priced.ways] == ["mill", "leach"]
    assert [way.feed for way in priced.ways] == [pytest.approx(f) for f in two_ways.FEED.values()]
    rows = pd.read_csv(tmp_path / "t.csv").set_index("IJK").to_dict("index")
    there = set()
    for b, name in enumerate(model.blocks.id):
        ways, digging = two_ways.amounts_of(rows[name])
        for way in priced.ways:
            assert (way.revenue[b], way.processing[b]) == ways[way.name], (name, way.name)
            if ways[way.name] != (0, 0):
                for metal, units in two_ways.metal_of(rows[name], way.name).items():
                    assert way.metal[metal][b] == pytest.approx(units)
        assert priced.mining[b] == digging
        for factor in (600, 1000, 1200):
            to, gain = two_ways.goes(ways, factor)
            there.add((factor, to))
            assert priced.destinations(factor)[b] == to
            assert priced.thousandths(factor)[b] == gain - 1000 * digging
    assert {to for factor, to in there if factor == 1000} == {"mill", "leach", "waste"}
    assert {to for factor, to in there if factor == 600} == {"mill", "leach", "waste"}


def test_the_texts_for_pit_have_the_columns_of_each_way(tmp_path):
    """With regions, whose column comes after them; what is kept of the model is what was written."""
    frame = table(6, 5, 3, 2)
    study = study_of(
        tmp_path,
        frame,
        slopes=pp.Slopes(45, by="SECTOR", regions={"WEST": 40}),
        economics=costs(processing=None, processes=(MILL, LEACH)),
    )
    settings = tomllib.loads((study.where / "settings.toml").read_text())
    assert settings["ways"] == [{"revenue": 0, "processing": 1}, {"revenue": 2, "processing": 3}]
    assert (settings["mining"], settings["tonnes"], settings["region"]) == (4, 5, 6)
    assert not {"revenue", "processing", "cost"} & set(settings)
    rows = [line.split() for line in open(study.where / "mine.blocks")]
    assert {len(row) for row in rows} == {4 + 7}
    kept = store.load_priced(study.where / "blocks.npz")
    for b, row in enumerate(rows):
        amounts = [int(each) for each in row[4:9]]
        assert amounts == [
            *(int(v[b]) for way in kept.ways for v in (way.revenue, way.processing)),
            kept.mining[b],
        ]
        source = frame.iloc[study.model.blocks["row"].iloc[b]]
        assert (amounts[2] == amounts[3] == 0) == (source.ROCK == "SUL")
        assert int(row[10]) == (1 if source.SECTOR == "WEST" else 0)


@pytest.mark.parametrize("rocks", [None, ["SUL"]])
def test_one_process_means_what_a_mill_means(tmp_path, rocks):
    """The same bytes for pit, and the same amounts."""
    texts = []
    for name, economics in (
        ("a", costs(mill=rocks, dilution=0.1, mining_recovery=0.9)),
        (
            "b",
            costs(
                processing=None,
                processes=(
                    pp.Process("leach", {"OXI": 7.5, "SUL": 9.0}, rocks, {}, {}, 0.1, 0.9, 5e5),
                ),
            ),
        ),
    ):
        (tmp_path / name).mkdir()
        study = study_of(tmp_path / name, table(6, 5, 3, 2), economics=economics)
        read = [(study.where / file).read_bytes() for file in ("mine.blocks", "settings.toml")]
        texts.append(
            (read, study.priced.ways[0].feed, study.priced.ways[0].metal["copper"].tolist())
        )
        assert study.priced.process_names == []
    assert texts[0] == texts[1]


def test_a_metals_own_recovery_and_payable_count_where_a_process_says_nothing():
    frame = pd.DataFrame(
        {
            **{name: [0.0] for name in ("XC", "YC", "ZC")},
            "IJK": "a",
            "TONNES": 1000.0,
            "CU": 1.0,
            "ROCK": "OXI",
        }
    )
    copper = pp.Metal("copper", "CU", price=100, recovery=0.8, payable=0.5)
    economics = pp.Economics(
        (copper,),
        0.0,
        processes=(
            pp.Process("a", 0.0),
            pp.Process("b", 0.0, recovery={"copper": 0.4}),
            pp.Process("c", 0.0, payable={"copper": 1}),
        ),
    )
    priced = economics.priced(mines.model_of(frame))
    assert [way.revenue.tolist() for way in priced.ways] == [[400], [200], [800]]


def of_rocks(*rocks):
    """A model of one block of 1,000 tonnes of each rock, at 1 % of copper."""
    count = len(rocks)
    return mines.model_of(
        pd.DataFrame(
            {
                "XC": [20.0 * i for i in range(count)],
                "YC": [0.0] * count,
                "ZC": [0.0] * count,
                "IJK": [f"b{i}" for i in range(count)],
                "TONNES": [1000.0] * count,
                "CU": [1.0] * count,
                "ROCK": list(rocks),
            }
        )
    )


def test_tables_by_rock_say_what_they_do_of_rocks_that_a_process_takes():
    """By hand: 1,000 tonnes at 1 % are 10 tonnes of copper at 100 $; what isn't taken brings and
    costs nothing."""
    heap = pp.Process(
        "heap", {"OXI": 3.4, "MIX": 3.6}, ["OXI", "MIX"], {"copper": {"OXI": 0.6, "MIX": 0.5}}
    )
    mill = pp.Process("mill", {"SUL": 9.0, "MIX": 8.0}, ["SUL", "MIX"])
    copper = pp.Metal("copper", "CU", price=100, recovery={"SUL": 0.9, "MIX": 0.8})
    model = of_rocks("OXI", "MIX", "SUL")
    priced = pp.Economics((copper,), 0.0, processes=(heap, mill)).priced(model)
    by_rock = [list(model.blocks.rock).index(rock) for rock in ("OXI", "MIX", "SUL")]
    assert [way.revenue[by_rock].tolist() for way in priced.ways] == [[600, 500, 0], [0, 800, 900]]
    assert [way.processing[by_rock].tolist() for way in priced.ways] == [
        [3400, 3600, 0],
        [0, 8000, 9000],
    ]
    one = pp.Economics((copper,), 0.0, {"SUL": 9.0}, ["SUL"]).priced(model)
    assert one.ways[0].processing[by_rock].tolist() == [0, 0, 9000]


@pytest.mark.parametrize(
    "cost, own, of_metal, said",
    [
        ({"OXI": 3.4}, {}, 0.8, "process heap cost: nothing is said of rock MIX"),
        ({"OXI": 3.4, "MIXX": 3.6}, {}, 0.8, "no block is of rock 'MIXX'; is 'MIX' meant?"),
        (3.0, {"copper": {"MIX": 1}}, 0.8, "recovery of copper: nothing is said of rock OXI"),
        (3.0, {}, {"OXI": 1, "MIX": 1}, "recovery of copper: nothing is said of rock SUL"),
        (3.0, {}, {"OXI": 1, "SUL": 1}, "recovery of copper: nothing is said of rock MIX"),
    ],
)
def test_of_each_rock_that_a_process_takes_something_is_said(cost, own, of_metal, said):
    """A metal's own recovery is asked for the rocks of all processes that have no other."""
    heap = pp.Process("heap", cost, ["OXI", "MIX"], own)
    mill = pp.Process("mill", 9.0, ["SUL"])
    copper = pp.Metal("copper", "CU", price=100, recovery=of_metal)
    with pytest.raises(PlanError) as error:
        pp.Economics((copper,), 0.0, processes=(heap, mill)).priced(of_rocks("OXI", "MIX", "SUL"))
    (each,) = error.value.each()
    assert said in str(each)


def test_what_may_not_be_dug_costs_more_than_the_best_processes_bring():
    """At the largest factor, 10 times the price; the second process recovers nearly all."""
    frame = table(5, 5, 3, 4)
    processes = (
        pp.Process("poor", 1.0, recovery={"copper": 0.01}),
        pp.Process("rich", 1.0, recovery={"copper": 0.9}),
    )
    economics = costs(processing=None, processes=processes, forbid=["XC > 5030 and ZC < 140"])
    model = mines.model_of(frame)
    priced = economics.priced(model)
    rows = frame.set_index("IJK").to_dict("index")
    brings = sum(
        round(rows[name]["TONNES"] * rows[name]["CU"] / 100 * 0.9 * 8500)
        for name in model.blocks.id
    )
    assert priced.forbidden.any()
    assert (priced.mining[priced.forbidden] > 10 * brings).all()
    assert priced.worth_unfenced(1000)[priced.forbidden] == pytest.approx(
        [
            max(0, round(t * cu / 100 * 0.9 * 8500) - round(t)) - round(2 * t)
            for t, cu in (
                (rows[name]["TONNES"], rows[name]["CU"])
                for name in model.blocks.id[priced.forbidden]
            )
        ]
    )


@pytest.mark.parametrize(
    "more, said",
    [
        (
            dict(processing=9.0),
            "[economics] has processing, which is of one mill, and processes: each of these has its own cost",
        ),
        (dict(processing=None, mill=["OXI"]), "[economics] has mill, which is of one mill"),
        (
            dict(processing=None, processes=(MILL, MILL)),
            "[economics] two processes are called mill",
        ),
        (
            dict(processing=None, processes=tuple(pp.Process(f"p{i}", 1.0) for i in range(9))),
            "[economics] there are 9 processes, and at most 8 may be",
        ),
        (
            dict(processing=None, processes=(pp.Process("p", 1.0, recovery={"golt": 0.5}),)),
            "[economics] process p: recovery names 'golt', and no metal is called so",
        ),
        (dict(processing=None, processes=()), "[economics] has no processing"),
    ],
)
def test_what_cant_stand_together_is_named(more, said):
    with pytest.raises(PlanError) as error:
        costs(**{**dict(processes=(MILL, LEACH)), **more})
    assert said in str(error.value)


@pytest.mark.parametrize("name", ["waste", "forbidden", "", "a\nb", "mining", "sink", "a; b"])
def test_a_process_has_a_name_that_no_table_uses_otherwise(name):
    with pytest.raises(PlanError, match="tables need another name"):
        pp.Process(name, 1.0)


def test_errors_of_a_process_have_its_line(tmp_path):
    """Each in study.toml's own words, with the line where it stands."""
    two_ways.written(tmp_path)
    path = tmp_path / "study.toml"
    text = path.read_text()
    for was, now, said, line in (
        (
            'rocks = ["OXI"]',
            'rocks = ["OXY"]',
            "process leach rocks: no block is of rock 'OXY'",
            "rocks =",
        ),
        (
            "gold = 0 }",
            "gold = 40 }",
            "process leach recovery of gold is 40",
            'recovery = { copper = "0.45',
        ),
        ('"3.0 + ', '"-9 + ', "process leach costs", 'cost = "-9'),
        (
            "rate = 120e3",
            "raet = 120e3",
            "process leach has no key 'raet'; is 'rate' meant?",
            "raet =",
        ),
        (
            "mining_rate = 600e3",
            "mill_rate = 6e5",
            "mill_rate says the rate of a mill",
            "mill_rate =",
        ),
        ('name = "leach"\n', "", "process 2 has no name", "[[economics.processes]]"),
    ):
        assert was in text
        path.write_text(text.replace(was, now))
        with pytest.raises(PlanError) as error:
            file = read_study_file(tmp_path)
            file.economics.priced(file.read_model())
        (each,) = error.value.each()
        assert said in each.what, said
        assert line in line_of(path.read_text(), each.key)[1]


def test_rates_by_year_of_a_mill_are_told_as_those_of_a_process(tmp_path):
    path = two_ways.written(tmp_path) / "study.toml"
    path.write_text(path.read_text() + "\n[schedule]\nmill_rate = [0, 6e5]\n")
    with pytest.raises(PlanError) as error:
        read_study_file(path.parent)
    assert "process_rates = { mill = [0, 600000] } in [schedule]" in str(error.value)


def test_a_rate_asks_for_no_new_build(tmp_path):
    file = read_study_file(two_ways.written(tmp_path))
    Building(tmp_path, file.read_model(), file.economics, file.slopes, keys=file.digest)
    path = tmp_path / "study.toml"
    text = path.read_text()
    path.write_text(text.replace("rate = 120e3", "rate = 90e3"))
    other = read_study_file(tmp_path)
    assert other.digest == file.digest
    assert other.rates["process_rates"] == {"mill": 250e3, "leach": 90e3}
    path.write_text(text.replace("dilution = 0\n", "dilution = 0.01\n"))
    assert read_study_file(tmp_path).digest != file.digest
