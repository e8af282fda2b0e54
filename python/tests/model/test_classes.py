"""Resource classes: tables by class against pandas and plain loops over the planner's table; what
is inferred as waste."""
import subprocess
import sys
from collections import defaultdict

import numpy as np
import pandas as pd
import pytest

import pitplan as pp
from bundles import bundled
from mines import STUDY_TOML, costs, rows_of, study_of, table, written_study
from pitplan.model.classes import rank
from pitplan.plans import compare
from pitplan.plans.phases import Phases
from pitplan.plans.risk import Realisation
from pitplan.views import page, page_views
from pitplan.views.export import csv as blocks_as_csv
from pitplan.views.report import contents as report
from realisations import done, grades_of, prepared
from served import pitplan

WORDS = ["Measured", "Indicated ", "INFERRED", ""]


def classed(nx=9, ny=8, nz=5, seed=5):
    """A mine whose blocks have classes by chance; some have none."""
    frame = table(nx, ny, nz, seed)
    r = np.random.default_rng(seed)
    return frame.assign(CLASS=r.choice(WORDS, len(frame), p=[0.3, 0.3, 0.3, 0.1]))


@pytest.fixture(scope="module")
def frame():
    return classed()


@pytest.fixture(scope="module")
def shells(frame, tmp_path_factory):
    return study_of(tmp_path_factory.mktemp("mine"), frame).shells([600, 1000])


def by_hand(rows):
    """Rock, ore, grade and metal by class of some rows of the table, block by block, by the prices
    and costs of `mines.costs`."""
    found = defaultdict(lambda: {"rock_t": 0.0, "ore_t": 0.0, "graded": 0.0, "metal_copper": 0.0})
    for row in rows.itertuples():
        kind = found[row.CLASS.strip() or "none"]
        metal = row.TONNES * row.CU / 100 * 0.85
        cost = row.TONNES * {"OXI": 7.5, "SUL": 9.0}[row.ROCK]
        kind["rock_t"] += row.TONNES
        if round(metal * 8500) > round(cost):
            kind["ore_t"] += row.TONNES
            kind["graded"] += row.TONNES * row.CU
            kind["metal_copper"] += metal
    return found


def agree(row, wanted):
    """Whether a row of a table has by class what was worked out by hand, and no class more."""
    for name in ("Measured", "Indicated", "INFERRED", "none"):
        kind, before = wanted[name], f"class_{name}_"
        for column in ("rock_t", "ore_t", "metal_copper"):
            assert row[before + column] == pytest.approx(kind[column]), (name, column)
        grade = row[f"{before}grade_copper"]
        assert (
            grade == pytest.approx(kind["graded"] / kind["ore_t"])
            if kind["ore_t"]
            else np.isnan(grade)
        )
    assert sum(str(name).endswith("_ore_t") for name in row.index) == 4


def dug(frame, shells, i):
    """The rows of the table that a pit digs, by their ids."""
    ids = set(shells.study.model.blocks["id"][shells.holds(i)])
    return frame[frame.IJK.isin(ids)]


def test_pits_have_by_class_what_the_table_has(frame, shells):
    for i, row in shells.table().iterrows():
        agree(row, by_hand(dug(frame, shells, i)))
        assert sum(row[f"class_{name}_ore_t"] for name in shells.study.classes.names) == (
            pytest.approx(row["ore_t"])
        )


def test_benches_have_by_class_what_the_table_has(frame, shells):
    first = dict(zip(shells.study.model.blocks["id"], shells.shell))
    for _, row in shells.benches().iterrows():
        at = frame.IJK.map(first) == {0.6: 0, 1.0: 1}[row["shell"]]
        agree(row, by_hand(frame[at & (frame.ZC == row["bench"])]))


def test_pushbacks_have_by_class_what_the_table_has(frame, shells):
    found = Phases(shells)
    of_block = dict(zip(shells.study.model.blocks["id"], found.pushback))
    benches = found.benches()
    for _, row in benches.iterrows():
        at = frame.IJK.map(of_block) == row["pushback"]
        agree(row, by_hand(frame[at & (frame.ZC == row["bench"])]))
    for _, row in found.table(benches=benches).iterrows():
        agree(row, by_hand(frame[frame.IJK.map(of_block) == row["pushback"]]))


def test_reserves_by_bench_rock_class_and_way(frame, shells):
    """One table, whose every row is found again by loops over the planner's table."""
    found = Phases(shells)
    of_block = dict(zip(shells.study.model.blocks["id"], found.pushback))
    wanted = defaultdict(lambda: np.zeros(4))
    for row in frame.itertuples():
        metal = row.TONNES * row.CU / 100 * 0.85
        cost = row.TONNES * {"OXI": 7.5, "SUL": 9.0}[row.ROCK]
        is_ore = round(metal * 8500) > round(cost)
        worth = (round(metal * 8500) - round(cost)) * is_ore - round(row.TONNES * 2.0)
        key = (of_block[row.IJK], row.ZC, row.ROCK, row.CLASS.strip() or "none", is_ore)
        if of_block[row.IJK]:
            wanted[key] += (1, row.TONNES, row.TONNES * row.CU, metal * is_ore)
            wanted[(key, "worth")] = wanted[(key, "worth")] + worth
    rows = found.reserves()
    assert len(rows) == sum(isinstance(key[1], float) for key in wanted) > 20
    for row in rows.to_dict("records"):
        key = (row["pushback"], row["bench"], row["rock"], row["class"], row["to"] == "mill")
        blocks, tonnes, graded, metal = wanted[key]
        assert (row["blocks"], row["worth"]) == (blocks, wanted[(key, "worth")][0])
        assert row["rock_t"] == pytest.approx(tonnes)
        assert row["metal_copper"] == pytest.approx(metal)
        assert row["grade_copper"] == pytest.approx(graded / tonnes)
        assert row["feed_t"] == pytest.approx(tonnes if row["to"] == "mill" else 0)


def test_a_comparison_and_the_page_have_classes(frame, shells, tmp_path):
    b = shells.study.model.blocks
    held = (b.ix.between(3, 8) & b.iy.between(1, 5) & (b.iz >= 1)).to_numpy()
    found = compare.by_way(shells.study, held, shells.holds(1), 1000)
    for kind, mask in (
        ("both", held & shells.holds(1)),
        ("design alone", held & ~shells.holds(1)),
        ("best pit alone", shells.holds(1) & ~held),
    ):
        texts, ids = found[found["in"] == kind], set(b["id"][mask])
        for name, amounts in by_hand(frame[frame.IJK.isin(ids)]).items():
            part = texts[texts["class"] == name]
            assert part.rock_t.sum() == pytest.approx(amounts["rock_t"]), (kind, name)
            assert part[part.to == "mill"].rock_t.sum() == pytest.approx(amounts["ore_t"])
    (shown,) = page_views.pits(shells, shells.table()).more
    ore = dict(zip(shown.names, dict(shown.columns)["Ore (kt)"]))
    for i, factor in enumerate(("0.60", "1.00")):
        for name, amounts in by_hand(dug(frame, shells, i)).items():
            assert float(ore[f"{factor}, {name}"].replace(",", "")) == pytest.approx(
                amounts["ore_t"] / 1e3, abs=0.006
            )
    text = page.write(shells, tmp_path / "p.html", phases=Phases(shells)).read_text()
    assert text.count("<h2>By resource class</h2>") == 2


def test_inferred_as_waste_is_as_if_it_had_no_metal(frame, tmp_path):
    """The same pit, to the dollar, as of a table whose inferred blocks have no copper; they are dug
    as waste."""
    for name in "ab":
        (tmp_path / name).mkdir()
    wasted = study_of(tmp_path / "a", frame, economics=costs(waste_classes=["INFERRED"]))
    barren = study_of(
        tmp_path / "b", frame.assign(CU=frame.CU.where(frame.CLASS != "INFERRED", 0.0))
    )
    ours, theirs = wasted.shells([600, 1000]), barren.shells([600, 1000])
    assert [v["worth"] for v in ours.verdicts] == [v["worth"] for v in theirs.verdicts]
    assert (ours.shell == theirs.shell).all()
    assert (ours.shell < 2).any()
    last = ours.table().iloc[-1]
    assert last["class_INFERRED_ore_t"] == 0 < last["class_INFERRED_rock_t"]
    assert last["ore_t"] < study_of(tmp_path, frame).shells([1000]).table().iloc[-1]["ore_t"]


def test_realisations_have_the_same_waste(frame, tmp_path):
    """A realisation's pit is that of a table with its grades, and none where the block is inferred."""
    economics = costs(waste_classes=["INFERRED"])
    risk = done(prepared(tmp_path, 2, frame, economics, (1000,)))
    worths = risk.runs.set_index("realisation").worth
    for r, grades in enumerate(grades_of(frame, 2)):
        (tmp_path / str(r)).mkdir()
        known = np.where(frame.CLASS == "INFERRED", 0.0, grades.astype(float))
        alone = study_of(tmp_path / str(r), frame.assign(CU=known)).shells([1000])
        assert float(alone.verdicts[0]["worth"]) == worths[r]


def test_a_report_has_the_pits_by_class(frame, shells):
    (shown,) = report.of_classes(shells)
    of = {column.name: column.values for column in shown.columns}
    rows = zip(of["Pit at factor"], of["Class"], of["Ore in place"], of["Recovered copper"])
    found = {(pit, kind): amounts for pit, kind, *amounts in rows}
    for i, factor in enumerate((0.6, 1.0)):
        for name, amounts in by_hand(dug(frame, shells, i)).items():
            wanted = [amounts["ore_t"], amounts["metal_copper"]]
            assert found[factor, name] == pytest.approx(wanted)
    for name, amounts in by_hand(frame).items():
        assert found["in place", name][0] == pytest.approx(amounts["ore_t"])


def test_a_report_has_pushbacks_by_class(frame, shells):
    phases = Phases(shells)
    of_block = dict(zip(shells.study.model.blocks["id"], phases.pushback))
    (shown,) = report.of_phase_classes(phases)
    of = {column.name: column.values for column in shown.columns}
    rows = zip(of["Pushback"], of["Class"], of["Ore in place"], of["Recovered copper"])
    found = {(at, kind): amounts for at, kind, *amounts in rows}
    wanted = {
        (at, name): [amounts["ore_t"], amounts["metal_copper"]]
        for at in (1, 2)
        for name, amounts in by_hand(frame[frame.IJK.map(of_block) == at]).items()
    }
    assert wanted
    assert all(found[key] == pytest.approx(wanted[key]) for key in wanted)
    assert set(found) == set(wanted)


def test_exported_blocks_have_their_class(frame, shells):
    found = blocks_as_csv.table_of(shells, is_whole=True).set_index("id")["class"]
    wanted = frame.set_index("IJK").CLASS.str.strip().replace("", "none")
    assert found[found.index != ""].to_dict() == wanted.to_dict()


CLASSES = STUDY_TOML.replace("mining = 2.0", 'mining = 2.0\nwaste_classes = ["3"]').replace(
    "size = ", 'columns = { class = "KIND" }\nsize = '
)


def test_a_bundle_is_checked_by_the_same_classes(tmp_path):
    """Numbers as classes, some written 3.0; and a study.toml that calls another class waste doesn't
    hold."""
    frame = table(7, 6, 4, 3)
    frame["KIND"] = np.random.default_rng(2).choice(["1", "2", "3.0", "3", ""], len(frame))
    folder = bundled(tmp_path, CLASSES, frame)

    def rechecked():
        ran = subprocess.run(
            [sys.executable, "-I", str(folder / "recheck.py"), str(pit)],
            capture_output=True,
            text=True,
        )
        return ran.stdout, ran.returncode

    from pitplan.pit.process import found_program

    pit = found_program()
    said, status = rechecked()
    assert status == 0, said
    assert "everything that was looked at holds" in said, said
    found = folder / "study.toml"
    found.write_text(found.read_text().replace('waste_classes = ["3"]', 'waste_classes = ["2"]'))
    said, status = rechecked()
    assert status == 1
    assert "WRONG   what each block brings and costs" in said


def test_of_sub_blocks_the_class_is_that_of_the_most_tonnes(tmp_path):
    """By hand: 60 % of class 3 and 40 % of class 1 are no class 2.2."""
    frame = table(7, 6, 4, 3).assign(DX=20.0, DY=20.0, DZ=15.0, KIND=2)
    whole = frame.iloc[:1]
    parts = [
        whole.assign(IJK=f"p{n}", ZC=whole.ZC + shift, DZ=deep, TONNES=tonnes, KIND=kind)
        for n, (shift, deep, tonnes, kind) in enumerate(
            ((-7.5 + 4.5, 9.0, 6000.0, 3), (7.5 - 3.0, 6.0, 4000.0, 1))
        )
    ]
    frame = pd.concat([*parts, frame.iloc[1:]], ignore_index=True)
    study = study_of(
        tmp_path,
        frame,
        regularise=True,
        columns={"class": "KIND", "dx": "DX", "dy": "DY", "dz": "DZ"},
        economics=costs(waste_classes=["3"]),
    )
    kinds = np.array(study.classes.names)[study.classes.of_block]
    assert sorted(kinds.tolist()) == ["2"] * (len(kinds) - 1) + ["3"]
    (one,) = np.flatnonzero(kinds == "3")
    assert study.model.blocks.tonnes[one] == 10000
    assert study.priced.ways[0].revenue[one] == 0


def test_wrong_classes_are_told(tmp_path):
    frame = classed(7, 6, 4, 3)
    for keys, more, said in (
        (
            {},
            {"waste_classes": ["INFERED"]},
            "no block is of class 'INFERED'; is 'INFERRED' meant?",
        ),
        ({"columns": {"class": "KLASS"}}, {}, "no column 'KLASS' for class"),
        (
            {"columns": {"class": "IJK"}},
            {"waste_classes": ["x"]},
            "words, as .* are no resource classes",
        ),
    ):
        with pytest.raises(pp.PlanError, match=said):
            study_of(tmp_path, frame, economics=costs(**more), **keys)
    with pytest.raises(pp.PlanError, match=r"no column of the table is known.*\n.*columns = "):
        study_of(tmp_path, frame.drop(columns="CLASS"), economics=costs(waste_classes=["INFERRED"]))
    many = study_of(tmp_path, frame.assign(CLASS=[f"c{n % 13}" for n in range(len(frame))]))
    assert many.classes is None  # a usual name, and no classes


def test_classes_stand_from_the_best_known_on():
    for words, wanted in (
        (["INF", "MEA", "IND"], ["MEA", "IND", "INF"]),
        (["3", "10", "1"], ["1", "3", "10"]),
        (
            ["Inferido", "Medido", "other", "none", "Indicado"],
            ["Medido", "Indicado", "Inferido", "other", "none"],
        ),
    ):
        assert sorted(words, key=rank) == wanted


def test_commands_tell_of_classes(tmp_path):
    text = STUDY_TOML.replace("mining = 2.0", 'mining = 2.0\nwaste_classes = ["INFERRED"]')
    folder = written_study(tmp_path / "s", classed(7, 6, 4, 3), text)
    for words in (("build",), ("shells",), ("phases", "0.6,1.2")):
        ran = pitplan(words[0], folder, *words[1:])
        assert ran.returncode == 0, ran
        assert "Indicated" in ran.stdout, ran
    rows = rows_of(folder / "out" / "phase_reserves.csv")
    assert {row["class"] for row in rows} == {"Measured", "Indicated", "INFERRED", "none"}
    assert all(row["to"] == "waste" for row in rows if row["class"] == "INFERRED")


def test_classes_come_by_how_well_they_are_known():
    """Measured, indicated, inferred wherever the word stands, then those that study.toml lists,
    then the others."""
    words = ["POT", "3-INFERRED", "none", "Blue", "RES_MEA", "Zinc", "IND"]
    assert sorted(words, key=rank) == [
        "RES_MEA",
        "IND",
        "3-INFERRED",
        "Blue",
        "POT",
        "Zinc",
        "none",
    ]
    listed = ["Zinc", "POT", "3-INFERRED"]
    assert sorted(words, key=lambda word: rank(word, listed)) == [
        *("RES_MEA", "IND", "3-INFERRED"),
        *("Zinc", "POT", "Blue", "none"),
    ]


def test_a_study_keeps_the_order_of_its_classes(tmp_path):
    """In tables, in reserves, and of words that only waste_classes lists."""
    frame = table(7, 6, 4, 5)
    words = ["Blue", "Zinc", "Indicated", "Amber", "Measured"]
    frame["CLASS"] = [words[n % 5] for n in range(len(frame))]
    study = study_of(tmp_path, frame, economics=costs(waste_classes=["Zinc", "Blue"]))
    wanted = ["Measured", "Indicated", "Zinc", "Blue", "Amber"]
    assert study.classes.names[:5] == wanted
    rows = Phases(study.shells([600, 1000])).reserves()
    for _, part in rows.groupby(["pushback", "bench", "rock"]):
        places = part["class"].map([*wanted, "none"].index)
        assert places.is_monotonic_increasing
    of = rows.groupby("class")["blocks"].sum()
    ids = study.model.blocks["id"][study.pit(1.0).mask]
    counted = frame[frame.IJK.isin(set(ids))].groupby("CLASS").size()
    assert of.drop("none", errors="ignore").to_dict() == counted.to_dict()


def weighed(frame, model, mask):
    """The rock of each class of some blocks, row by row."""
    found, ids = defaultdict(float), set(model.blocks["id"][mask])
    for row in frame.itertuples():
        if row.IJK in ids:
            found[row.CLASS.strip() or "none"] += row.TONNES
    return found


NAMES = ("Measured", "Indicated", "INFERRED", "none")


def test_realisations_have_the_tonnes_of_each_class(frame, tmp_path):
    """Of each realisation's pit, the spread over them by pandas, and of the pits by likelihood."""
    risk = done(prepared(tmp_path, 3, frame, None, (1000,)))
    model = risk.study.model
    for r, row in risk.runs.iterrows():
        wanted = weighed(frame, model, Realisation(risk.study, risk.setup, r).mask(1000))
        for name in NAMES:
            assert row[f"class_{name}_rock_t"] == pytest.approx(wanted[name])
        assert sum(row[f"class_{name}_rock_t"] for name in NAMES) == pytest.approx(row.rock_t)
    (spread,) = risk.table().to_dict("records")
    rock = risk.runs["class_Indicated_rock_t"]
    assert spread["class_Indicated_rock_t_p50"] == pytest.approx(np.median(rock))
    assert spread["class_Indicated_rock_t_most"] == max(rock) > min(rock)
    for row in risk.pits().itertuples():
        wanted = weighed(frame, model, risk.pit(row.likelihood))
        assert row.class_Measured_rock_t == pytest.approx(wanted["Measured"])


def test_what_ifs_have_the_tonnes_of_each_class(frame, tmp_path):
    """On the screen and in the file, by the pit that each what-if has; without classes there is no
    such table."""
    folder = written_study(tmp_path / "s", frame)
    for words in (["build"], ["shells"]):
        assert pitplan(*words, folder).returncode == 0
    ran = pitplan("vary", folder, "price=-20,20")
    assert ran.returncode == 0, ran.stderr
    assert "rock of each pit by resource class" in ran.stdout
    assert "Indicated Mt" in ran.stdout
    rows = pd.read_csv(folder / "out/vary.csv")
    study = pp.Study(folder)
    assert rows["by"].tolist() == [0, -20, 20]
    for row, factor in zip(rows.to_dict("records"), (1000, 800, 1200)):
        wanted = weighed(frame, study.model, study.mask(factor))
        total = sum(row[f"class_{name}_rock_t"] for name in NAMES)
        assert total == pytest.approx(row["rock_t"])
        for name in NAMES:
            assert row[f"class_{name}_rock_t"] == pytest.approx(wanted[name])
    plain = written_study(tmp_path / "p", frame.drop(columns="CLASS"))
    assert pitplan("build", plain).returncode == 0
    ran = pitplan("vary", plain, "price=-20")
    assert ran.returncode == 0
    assert "resource class" not in ran.stdout
    assert not any("class_" in name for name in pd.read_csv(plain / "out/vary.csv"))
