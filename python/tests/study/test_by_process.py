"""Tables that tell tonnes, grades and metal by process: added up again from the planner's own
table, by two_ways.py alone."""

import numpy as np
import pandas as pd
import pytest

import mines
import pitplan as pp
import two_ways
from pitplan.plans import compare, design, phases, risk, vary
from pitplan.study import pit_by_pit
from pitplan.study.check import check
from pitplan.base.units_shown import factor_text
from pitplan.study.reserves import reserves
from pitplan.study.shells import Shells
from pitplan.study.study_file import read_study_file
from pitplan.views import page_views, pictures
from pitplan.views.export import csv, gpkg, vtu
from pitplan.views.report import contents
from pitplan.tasks.tasks import Tasks
from realisations import done
from served import pitplan
from two_ways import COLUMNS, NAMES, added_up, rows_at


@pytest.fixture(scope="module")
def shells(tmp_path_factory):
    """The pits of the mine of two ways."""
    file = read_study_file(two_ways.written(tmp_path_factory.mktemp("two")))
    folder = file.path.parent
    study = pp.Study.create(
        folder, file.read_model(), file.economics, file.slopes, keys=file.digest
    )
    return study.shells(file.factors)


@pytest.fixture(scope="module")
def rows(shells):
    """The planner's rows with the number of the first pit that has each, worked out at the full
    price."""
    of = dict(zip(shells.study.model.blocks.id, shells.shell.tolist()))
    found = rows_at(two_ways.frame())
    for row in found:
        row["shell"] = of[row["IJK"]]
    return found


def is_so(line, wanted, more=()):
    """Whether a line of a table has what rows come to: all, and by process."""
    columns = [*COLUMNS, *(f"process_{name}_{column}" for name in NAMES for column in COLUMNS)]
    for column in (*columns, "blocks", "rock_t", "waste_t", *more):
        if column in line.index:
            found = pytest.approx(wanted[column], rel=1e-9, abs=1e-9, nan_ok=True)
            assert line[column] == found, column
    assert set(columns) - {"feed_t"} <= set(line.index)


def test_each_pit_is_what_the_planners_rows_come_to(shells, rows):
    table = shells.table(process_rates={"mill": 250e3, "leach": 120e3})
    for i, line in table.iterrows():
        held = [row for row in rows if row["shell"] <= i]
        wanted = added_up(held)
        is_so(line, wanted)
        assert line.worth_at_base == pytest.approx(wanted["worth"], rel=1e-12)
    here = {row["to"] for row in rows if row["shell"] <= 2}
    assert here == {"mill", "leach", "waste"}


def test_each_process_has_its_own_rate(shells, rows):
    """The worst case: bench after bench, each as long as digging or the slower process takes, by
    hand."""
    rates = {"mill": 250e3, "leach": 120e3}
    table = shells.table(mining_rate=600e3, discount=0.08, process_rates=rates)
    ends, npv = 0.0, 0.0
    levels = sorted({row["ZC"] for row in rows if row["shell"] <= 2}, reverse=True)
    slowest = set()
    for level in levels:
        found = added_up([row for row in rows if row["ZC"] == level and row["shell"] <= 2])
        takes = {
            "mining": found["rock_t"] / 600e3,
            **{name: found[f"process_{name}_feed_t"] / rates[name] for name in NAMES},
        }
        slowest.add(max(takes, key=takes.get))
        ends += max(takes.values())
        npv += found["worth"] / 1.08 ** (ends - max(takes.values()) / 2)
    assert table.npv_worst[2] == pytest.approx(npv, rel=1e-9)
    worst = pit_by_pit.Rates(600e3, None, 0.08, {"mill": 120e3, "leach": 250e3})
    other = pit_by_pit.table(shells, 1000, worst)
    assert other.npv_worst[2] != pytest.approx(npv, rel=1e-6)
    assert "mill" in slowest
    slow = shells.table(mining_rate=600e3, discount=0.08, process_rates={"mill": 1e9, "leach": 9e3})
    assert slow.years[2] == pytest.approx(
        sum(
            max(found["rock_t"] / 600e3, found["process_leach_feed_t"] / 9e3)
            for shell in range(3)
            for level in levels
            if (found := added_up([r for r in rows if (r["ZC"], r["shell"]) == (level, shell)]))
        ),
        rel=1e-9,
    )


def test_rates_go_by_name_and_not_by_order(shells):
    """Also where one isn't told, or none is."""
    rates = {"mill": 250e3, "leach": 12e3}
    asked = dict(mining_rate=600e3, discount=0.08)
    first = shells.table(**asked, process_rates=rates)
    other = shells.table(**asked, process_rates=dict(reversed(rates.items())))
    assert (first.npv_best == other.npv_best).all()
    fifteen = shells.table(**asked)  # the largest pit's feed in 15 years, of each
    for name in NAMES:
        rates = {name: fifteen[f"process_{name}_feed_t"].iloc[-1] / 15}
        assert (shells.table(**asked, process_rates=rates).npv_best == fifteen.npv_best).all()
    with pytest.raises(pp.PlanError, match="there is a rate of 'heap', and no process"):
        shells.table(process_rates={"heap": 1e5})
    with pytest.raises(pp.PlanError, match="there is a rate of a mill, and there are processes"):
        shells.table(mill_rate=1e5)
    with pytest.raises(pp.PlanError, match="process leach rate is -1"):
        shells.table(process_rates={"leach": -1})


def test_each_bench_and_the_reserves_are_what_the_rows_come_to(shells, rows):
    for _, line in shells.benches().iterrows():
        shell = shells.factors.index(round(line.shell * 1000))
        here = [row for row in rows if (row["ZC"], row["shell"]) == (line.bench, shell)]
        is_so(line, added_up(here), ["worth"])
    table = reserves(shells.study, {"pit": (shells.shell <= 2).astype(int)})
    assert set(table["to"]) == {"mill", "leach", "waste"}
    for _, line in table.iterrows():
        here = [
            row
            for row in rows
            if row["shell"] <= 2
            and (row["ZC"], row["ROCK"], row["to"]) == (line.bench, line.rock, line["to"])
        ]
        assert line.blocks == len(here)
        assert line.rock_t == pytest.approx(sum(row["TONNES"] for row in here))
        assert line.feed_t == pytest.approx(sum(row["feed_t"] for row in here))
        assert line.worth == pytest.approx(sum(row["worth"] for row in here))
        assert line.metal_copper == pytest.approx(sum(row["metal_copper"] for row in here))


def test_at_another_factor_blocks_go_elsewhere(shells, rows):
    """What goes where is by the factor at which a table counts."""
    low = rows_at(two_ways.frame(), 600)
    moved = sum(a["to"] != b["to"] for a, b in zip(low, rows))
    assert moved > 10
    for a, b in zip(low, rows):
        a["shell"] = b["shell"]
    line = shells.table(600, process_rates=dict.fromkeys(NAMES)).iloc[1]
    is_so(line, added_up([row for row in low if row["shell"] <= 1]))


def test_pushbacks_add_up_by_process(shells, rows):
    found = phases.Phases(Shells(shells.study, [800, 1000]))
    spans = {1: (-1, 1), 2: (1, 2)}  # of the numbers of pits
    for _, line in found.table().iterrows():
        low, high = spans[int(line.pushback)]
        is_so(line, added_up([row for row in rows if low < row["shell"] <= high]))
    for _, line in found.benches().iterrows():
        low, high = spans[int(line.pushback)]
        here = [r for r in rows if low < r["shell"] <= high and r["ZC"] == line.bench]
        is_so(line, added_up(here), ["worth", "feed_t"])


def test_a_design_is_compared_by_process(shells, rows):
    study = shells.study
    held = shells.shell <= 0
    found = compare.compare(study, design.Design("d", held, np.zeros(len(held), bool)))
    for _, line in found.benches.iterrows():
        left = [row for row in rows if 0 < row["shell"] <= 2 and row["ZC"] == line.bench]
        wanted = added_up(left)
        assert line.left_ore_t == pytest.approx(wanted["ore_t"])
        for name in NAMES:
            assert line[f"left_process_{name}_ore_t"] == pytest.approx(
                wanted[f"process_{name}_ore_t"]
            )
            assert line[f"over_process_{name}_ore_t"] == 0


def test_the_page_tells_each_pit_by_process(shells, rows):
    table = shells.table(process_rates=dict.fromkeys(NAMES))
    (by,) = page_views.pits(shells, table).more
    assert by.caption == "By process"
    counts = {
        (i, to): sum(row["shell"] <= i and row["to"] == to for row in rows)
        for i in range(4)
        for to in (*NAMES, "waste")
    }
    found = [
        (factor_text(shells.factors[i]), to, f"{count:,}") for (i, to), count in counts.items()
    ]
    shown = zip(by.names, dict(by.columns)["Blocks"])
    assert [(*name.split(", "), count) for name, count in shown] == found


def test_what_ifs_of_a_process_change_it_alone(shells):
    """Its cost by percent of itself; the recovery of a metal in all processes that say their own."""
    file = read_study_file(shells.study.folder)
    model = file.read_model()
    economics = file.economics
    for word, wanted in (("processing:leach=50", (1, 1.5)), ("processing=50", (1.5, 1.5))):
        (change,) = vary.changes_of([word])
        other, _ = vary.changed(economics, file.slopes, change, model)
        before, after = economics.priced(model).ways, other.priced(model).ways
        for one, more, times in zip(before, after, wanted):
            selling = one.metal["copper"] * 300
            assert (more.revenue == one.revenue).all()
            told_now = pytest.approx((one.processing - selling) * times + selling, abs=2)
            assert more.processing == told_now
    (change,) = vary.changes_of(["recovery:copper=-10"])
    other, _ = vary.changed(economics, file.slopes, change, model)
    for before, after in zip(economics.priced(model).ways, other.priced(model).ways):
        assert after.metal["copper"] == pytest.approx(before.metal["copper"] * 0.9)
        assert after.metal["gold"] == pytest.approx(before.metal["gold"])
    for word, said in (
        ("processing:laech=5", "no process is called 'laech'"),
        ("mill_rate=5", "there is no mill_rate: each process has its own"),
        ("rate:laech=5", "no process is called 'laech'"),
    ):
        (change,) = vary.changes_of([word])
        with pytest.raises(pp.PlanError, match=said):
            if change.keeps_pit:
                rates = pit_by_pit.Rates(6e5, None, 0.08, {"mill": 1e5, "leach": 1e5})
                vary.refuse_other_rate(change, list(rates.processes))
            else:
                vary.changed(economics, file.slopes, change, model)


def test_exported_files_say_where_blocks_go(shells, rows, tmp_path):
    """As a table, for GIS and for ParaView."""
    to = {row["IJK"]: row["to"] for row in rows}
    table = csv.table_of(shells).set_index("id")
    assert (table["to"] == pd.Series(to)[table.index]).all()
    assert set(table["to"]) == {"mill", "leach", "waste"}
    benches, _ = gpkg.features(shells, [2])
    for line in benches:
        level = (line["toe"] + line["crest"]) / 2
        wanted = added_up([r for r in rows if r["shell"] <= 2 and r["ZC"] == level])
        for name in NAMES:
            column = f"process_{name}_ore_t"
            assert line[column] == pytest.approx(wanted[column])
    mesh, words = vtu.mesh_of(shells)
    words = words[words.column == "to"]
    names = dict(zip(words.number, words.word))
    ids = shells.study.model.blocks.id.to_numpy()[mesh.cell_data["block"][0]]
    assert [names[code] for code in mesh.cell_data["to"][0].tolist()] == [to[each] for each in ids]


def test_a_picture_has_a_colour_for_each_process(shells):
    paint = pictures.paint(shells, "to")
    words = {number: word for number, word in paint.ticks}
    goes = [words[each] for each in paint.values.tolist()]
    assert goes == shells.study.priced.destinations(1000).tolist()
    assert len(set(goes)) == 3
    figure = pictures.pit_by_pit(shells.table(process_rates=dict.fromkeys(NAMES)))
    (axes, *_) = figure.axes
    heights = [
        [bar.get_height() for bar in held] for held in axes.containers if len(held.patches) == 4
    ]
    assert [held.get_label() for held in axes.containers] == [
        "Ore to mill",
        "Ore to leach",
        "Waste",
    ]
    table = shells.table(process_rates=dict.fromkeys(NAMES))
    for i in range(4):
        assert heights[0][i] / heights[1][i] == pytest.approx(
            table.process_mill_ore_t[i] / table.process_leach_ore_t[i]
        )


def test_the_report_has_a_table_by_process(shells, rows):
    (table,) = contents.of_processes(shells)
    columns = {column.name: column.values for column in table.columns}
    shown = dict(zip(zip(columns["Pit at factor"], columns["To"]), columns["Ore in place"]))
    for i, factor in enumerate(shells.factors):
        for name in NAMES:
            here = [row for row in rows if row["shell"] <= i and row["to"] == name]
            ore = sum(row["ore_t"] for row in here)
            assert shown[factor / 1000, name] == pytest.approx(ore)


def test_likelihoods_have_the_means_of_each_process(tmp_path):
    """Two realisations of the grades: what each process gets of a pit is the mean over them, each
    by its own choice."""
    file = read_study_file(two_ways.written(tmp_path))
    study = pp.Study.create(
        tmp_path, file.read_model(), file.economics, file.slopes, keys=file.digest
    )
    frame = two_ways.frame()
    grades = np.stack([frame.CU * 0.7, frame.CU * 1.4]).astype(np.float32)
    np.save(tmp_path / "sims.npy", grades)
    risk.prepare(study, file.economics, tmp_path / "sims.npy", (1000,))
    found = done(study)
    line = found.pits(1000).iloc[4]
    held = dict(zip(study.model.blocks.id, found.pit(0.5, 1000).tolist()))
    sums = []
    for each in grades:
        rows = rows_at(frame.assign(CU=each.astype(float)))
        sums.append(added_up([row for row in rows if held[row["IJK"]]]))
    for name in NAMES:
        ore = [one[f"process_{name}_ore_t"] for one in sums]
        assert line[f"process_{name}_ore_t"] == pytest.approx(sum(ore) / 2)
        for metal in ("copper", "gold"):
            column = f"process_{name}_metal_{metal}"
            assert line[column] == pytest.approx(sum(one[column] for one in sums) / 2)
            graded = sum(one[f"process_{name}_grade_{metal}"] * t for one, t in zip(sums, ore))
            assert line[f"process_{name}_grade_{metal}"] == pytest.approx(graded / sum(ore))
    assert sums[0]["process_leach_ore_t"] != sums[1]["process_leach_ore_t"]


def test_what_ifs_tell_what_each_process_gets(tmp_path):
    """Of the study itself and of each change, at its own costs and rates: by hand."""
    file = read_study_file(two_ways.written(tmp_path))
    study = pp.Study.create(
        tmp_path, file.read_model(), file.economics, file.slopes, keys=file.digest
    )
    rates = pit_by_pit.Rates(600e3, None, 0.08, file.rates["process_rates"])
    changes = vary.changes_of(["processing:leach=30", "rate:leach=-50", "rate=-50"])
    vary.prepare(study, file.economics, file.slopes, changes, 1000, rates)
    tasks = Tasks(study.folder, study.program)
    for task in vary.vary_tasks(study):
        tasks.do(task)
    found = vary.table(study, rates)
    assert found.what.tolist() == ["base", "processing:leach", "rate:leach", "rate"]
    rows = rows_at(two_ways.frame())
    held = dict(zip(study.model.blocks.id, study.mask(1000).tolist()))
    wanted = added_up([row for row in rows if held[row["IJK"]]])
    for column in (f"process_{name}_{column}" for name in NAMES for column in COLUMNS):
        assert found[column][0] == pytest.approx(wanted[column]), column
    assert found.process_leach_ore_t[1] < found.process_leach_ore_t[0]
    assert found.process_mill_ore_t[1] > found.process_mill_ore_t[0]
    assert found.npv[3] < found.npv[2] <= found.npv[0] == found.npv.max()


def test_the_report_has_pushbacks_by_process(shells, rows):
    found = phases.Phases(Shells(shells.study, [800, 1000]))
    (table,) = contents.of_phase_processes(found)
    columns = {column.name: column.values for column in table.columns}
    shown = dict(zip(zip(columns["Pushback"], columns["To"]), columns["Ore in place"]))
    for k, (low, high) in {1: (-1, 1), 2: (1, 2)}.items():
        for name in NAMES:
            here = [row for row in rows if low < row["shell"] <= high and row["to"] == name]
            assert shown.get((k, name), 0.0) == pytest.approx(sum(row["ore_t"] for row in here))


def looks_of(folder, *changes, rock=None):
    """What `check` says looks wrong of the mine of two ways, with changes of study.toml; `rock` is
    what every third block of sulphide is called."""
    text = two_ways.TEXT
    for was, now in changes:
        assert was in text
        text = text.replace(was, now)
    frame = two_ways.frame()
    if rock:
        frame.loc[frame.index[frame["ROCK"] == "SUL"][::3], "ROCK"] = rock
    mines.written_study(folder, frame, text)
    found = check(folder)
    assert not found.errors, found.errors
    return frame, [str(look) for look in found.looks], [look.key for look in found.looks]


def test_a_rate_that_one_of_several_processes_has_not_is_told(tmp_path):
    _, looks, keys = looks_of(tmp_path, ("rate = 120e3\n", ""))
    assert looks == [
        "leach has no rate: the discounted cases take its feed of the largest pit in 15 years,"
        " and the plan by years has no limit for it\n  try: rate = .. in process leach"
    ]
    assert keys == [("economics", "processes", "leach", "rate")]
    assert looks_of(tmp_path)[1] == []
    none = looks_of(tmp_path, ("rate = 120e3\n", ""), ("rate = 250e3\n", ""))
    assert none[1] == []  # no process has one: the planner hasn't come to rates yet


def test_a_rock_with_grades_that_no_process_takes_is_told(tmp_path):
    """Tonnes by the table itself."""
    by_rock = ("{ OXI = 0.7, SUL = 0.85 }", "0.8")
    of_mill = ("cost = { OXI = 11.0, SUL = 9.0 }", 'cost = 9.0\nrocks = ["OXI", "SUL"]')
    frame, looks, keys = looks_of(tmp_path, by_rock, of_mill, rock="MIXED")
    tonnes = frame["TONNES"][frame["ROCK"] == "MIXED"].sum()
    (look,) = looks
    assert look.startswith(f"no process takes MIXED: {tonnes / 1e3:.2f} kt are waste; ")
    assert look.endswith('\n  try: "MIXED" in rocks of a process')
    assert keys == [("economics", "processes")]
    all_rocks = ("cost = { OXI = 11.0, SUL = 9.0 }", "cost = 9.0")
    assert looks_of(tmp_path, by_rock, all_rocks, rock="MIXED")[1] == []


def test_a_rock_without_grades_that_no_process_takes_is_waste_and_no_more(tmp_path):
    text = two_ways.TEXT.replace("{ OXI = 0.7, SUL = 0.85 }", "0.8").replace(
        "cost = { OXI = 11.0, SUL = 9.0 }", 'cost = 9.0\nrocks = ["OXI", "SUL"]'
    )
    frame = two_ways.frame()
    here = frame.index[frame["ROCK"] == "SUL"][::3]
    frame.loc[here, "ROCK"], frame.loc[here, ["CU", "AU"]] = "BARREN", 0.0
    mines.written_study(tmp_path, frame, text)
    assert check(tmp_path).looks == []


def test_a_process_that_gets_no_block_is_told(tmp_path):
    """After what comes before it: that such a cost is far off."""
    dear = ('cost = "3.0 + 0.002 * (160 - ZC)"', "cost = 90")
    _, looks, keys = looks_of(tmp_path, dear)
    assert looks == [
        "treating a tonne by leach costs 90 $; 2 to 60 is usual\n"
        "  try: cost = 9 in process leach, if that is what is meant",
        "no block goes to leach at the full price; it costs 90 $ a tonne\n"
        "  try: cost, recovery and rocks of process leach",
    ]
    assert keys == [("economics", "processes", "leach", "cost")] * 2
    _, looks, _ = looks_of(tmp_path, (dear[0], 'cost = "90 + ZC"'))
    assert looks[-1].split("\n")[0] == "no block goes to leach at the full price"


def test_a_cutoff_by_year_may_stand_beside_several_processes(tmp_path):
    two_ways.written(tmp_path, '\n[schedule]\ncutoff = "by year"\n')
    ran = pitplan("check", str(tmp_path))
    assert ran.returncode == 0, ran.stdout + ran.stderr
