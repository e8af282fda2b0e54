"""What somebody may plant in a single cell or key of a bundle who makes all its digests: numbers that
are off by less than people see, columns that no check reads, and keys that no program wrote. Each is
told, and the bundle without it holds."""
import csv
import json
import os
import re
import shutil
import subprocess
import sys
from decimal import Decimal
from pathlib import Path
from typing import NamedTuple

import numpy as np
import pandas as pd
import pytest

import mines
import two_ways
from bundles import bundled, rechecked, resealed, with_schedule
from pitplan.audit import recheck, recheck_schedule

LITTLE = Decimal("0.0005")  # of a tonne, a dollar, a metre, a percent
RICH = mines.STUDY_TOML.replace("price = 8500", "price = 24000")
PLAN = """
[schedule]
years = 6
mining_rate = [350e3, 300e3]
mill_rate = 200e3
sink = 2
fixed_cost = 1e5
pushbacks = [0.6]
"""


def classed(frame):
    """Blocks of three classes, and some of none."""
    words = ["Measured", "Indicated ", "3", ""]
    return frame.assign(CLASS=np.random.default_rng(1).choice(words, len(frame)))


@pytest.fixture(scope="module")
def whole(tmp_path_factory):
    """A mine of two processes, of two metals and of several classes, with columns added."""
    text = two_ways.TEXT.replace("[economics]\n", "widen = 1\n\n[economics]\n", 1)
    return bundled(tmp_path_factory.mktemp("whole"), text, classed(two_ways.frame()))


@pytest.fixture(scope="module")
def planned(tmp_path_factory):
    """A plan by years with a sink rate, a fixed cost and pushbacks."""
    folder, text = tmp_path_factory.mktemp("planned"), RICH + PLAN
    return with_schedule(folder, mines.table(6, 5, 4, 5), text, (0.05, 600))[0]


@pytest.fixture
def copied(request, tmp_path):
    """A copy of a bundle."""

    def made(name):
        return Path(shutil.copytree(request.getfixturevalue(name), tmp_path / name))

    return made


class Known(NamedTuple):
    """What the scripts found of an honest bundle, before they come to its tables."""

    blocks: recheck.Blocks
    shell: list
    rows: recheck.OfRows
    plan: tuple


@pytest.fixture(scope="module")
def known(request):
    """By the name of a bundle: its model and certificates are read once, for many tables."""
    kept = {}

    def made(name):
        if name not in kept:
            with pytest.MonkeyPatch.context() as patch:
                kept[name] = read(request.getfixturevalue(name), patch)
        return kept[name]

    return made


def at(folder, patch):
    for script in (recheck, recheck_schedule, recheck_schedule.recheck):
        patch.setattr(script, "HERE", folder)


def read(folder, patch):
    at(folder, patch)
    blocks, report, plan = recheck.Blocks(), recheck.Report(), ()
    rows = recheck.check_table(report, blocks, recheck.facts_of())
    shell = recheck.check_pits(report, os.environ["PIT"], blocks, False)
    assert not report.count["WRONG"]
    if (folder / "schedule").exists():
        mine = recheck_schedule.read_mine()
        periods = recheck_schedule.read_periods(mine)
        when = recheck_schedule.read_schedule(mine, len(periods.weights))
        plan = mine, periods, recheck_schedule.Asked.read(), when
    return Known(blocks, shell, rows, plan)


@pytest.fixture
def said_of(known, monkeypatch, capsys):
    """What the scripts say of the tables, or of the files and keys, of a copy of a bundle."""

    def made(folder, name, is_plan=False):
        at(folder, monkeypatch)
        found, report = known(name), recheck.Report()
        capsys.readouterr()
        if is_plan:
            try:
                recheck_schedule.check_tables(*found.plan, found.rows)
            except (recheck_schedule.Wrong, recheck_schedule.recheck.Bad) as error:
                return [f"WRONG {error}"]
            return []
        facts = report.attempt("facts.json", recheck.facts_of)
        if facts:
            words = report, found.blocks, facts
            report.attempt("the names of files and keys", recheck.check_names, *words)
            report.attempt("facts.json, model/manifest.json", recheck.check_facts, *words)
            tables = (*words, found.shell, found.rows)
            report.attempt("the rows", recheck.numbering)
            report.attempt("the tables", recheck.check_tables, *tables)
        lines = capsys.readouterr().out.splitlines()
        return [line for line in lines if line.startswith("WRONG")]

    return made


@pytest.mark.parametrize("name", ["whole", "planned"])
def test_the_honest_bundles_hold(request, said_of, name):
    folder = request.getfixturevalue(name)
    lines, status = rechecked(folder, "--plainly")
    assert (status, len(lines)) == (0, 1), lines
    assert said_of(folder, name) == []
    if name == "planned":
        assert said_of(folder, name, is_plan=True) == []
        ran = subprocess.run(
            [sys.executable, "-I", folder / "recheck_schedule.py"], capture_output=True, text=True
        )
        assert (ran.returncode, ran.stderr) == (0, ""), ran.stdout


def rows_of(path):
    with open(path, newline="") as file:
        return list(csv.reader(file))


def write_rows(path, rows):
    with open(path, "w", newline="") as file:
        csv.writer(file, lineterminator="\n").writerows(rows)


def is_a_number(cell):
    return re.fullmatch(r"-?[\d.]+(e[+-]?\d+)?", cell) is not None


@pytest.mark.parametrize("sign", [1, -1])
@pytest.mark.parametrize(
    "name, table, least",
    [
        ("whole", "pit_by_pit.csv", 52),
        ("whole", "benches.csv", 47),
        ("whole", "blocks.csv", 3),
        ("planned", "schedule.csv", 22),
        ("planned", "schedule_benches.csv", 13),
    ],
)
def test_a_number_that_is_hardly_off_is_wrong(copied, said_of, name, table, least, sign):
    """In each column of numbers, half a thousandth in the last line that has a number there."""
    folder = copied(name)
    path, missed, count = folder / "tables" / table, [], 0
    kept = rows_of(path)
    for column, title in enumerate(kept[0]):
        row = max((n for n, cells in enumerate(kept) if is_a_number(cells[column])), default=None)
        if row is None:
            continue
        count += 1
        rows = [list(cells) for cells in kept]
        rows[row][column] = str(Decimal(rows[row][column]) + sign * LITTLE)
        write_rows(path, rows)
        found = said_of(folder, name, is_plan=name == "planned")
        if not any(f"tables/{table}" in line for line in found):
            missed.append(title)
    assert not missed
    assert count >= least, count


@pytest.mark.parametrize(
    "name, table, column, times",
    [
        *(
            ("whole", "pit_by_pit.csv", column, 1.001)
            for column in ("npv_best", "npv_worst", "years")
        ),
        ("whole", "pit_by_pit.csv", "class_Measured_ore_t", 2),
        ("whole", "pit_by_pit.csv", "class_none_grade_copper", 1.1),
        ("whole", "benches.csv", "class_3_rock_t", 1.1),
        ("whole", "benches.csv", "class_Indicated_metal_gold", 1.1),
        ("planned", "schedule.csv", "fixed_cost", 0.5),
    ],
)
def test_columns_that_the_model_determines_are_worked_out_again(
    copied, said_of, name, table, column, times
):
    folder = copied(name)
    path = folder / "tables" / table
    frame = pd.read_csv(path)
    row = frame[column].to_numpy().nonzero()[0][-1]
    frame[column] = frame[column].astype(float)
    frame.loc[row, column] *= times
    frame.to_csv(path, index=False)
    found = said_of(folder, name, is_plan=name == "planned")
    assert any(f"tables/{table}" in line for line in found), found


@pytest.mark.parametrize(
    "name, table",
    [
        *(("whole", table) for table in ("pit_by_pit.csv", "benches.csv", "blocks.csv")),
        *(("planned", table) for table in ("schedule.csv", "schedule_benches.csv")),
    ],
)
@pytest.mark.parametrize("title", ["npv_after_tax", "class_Proved_ore_t", "metal_silver", ""])
def test_a_column_that_no_check_reads_is_wrong(copied, said_of, name, table, title):
    folder = copied(name)
    path = folder / "tables" / table
    write_rows(path, [[*cells, "1000000" if n else title] for n, cells in enumerate(rows_of(path))])
    found = said_of(folder, name, is_plan=name == "planned")
    words = f"tables/{table} has the column '{title}', which no check reads"
    assert any(words in line for line in found), found


def of_cell(table, column, new, holds=lambda cell: True):
    """The first cell of a column for which something holds is another one."""

    def made(folder):
        path = folder / table
        rows = rows_of(path)
        at = rows[0].index(column)
        cells = next(cells for cells in rows[1:] if holds(cells[at]))
        cells[at] = new
        write_rows(path, rows)

    return made


def of_model(at, change):
    """A field of the first line of mine.blocks in which it isn't 0."""

    def made(folder):
        path = folder / "model" / "mine.blocks"
        lines = [line.split(" ") for line in path.read_text().splitlines()]
        cells = next(cells for cells in lines if float(cells[at]))
        cells[at] = str(Decimal(cells[at]) + change)
        path.write_text("".join(" ".join(cells) + "\n" for cells in lines))

    return made


@pytest.mark.parametrize(
    "change, words",
    [
        (of_cell("tables/blocks.csv", "row", "1", lambda cell: cell == "0"), "neither 0 nor"),
        (of_cell("tables/blocks.csv", "row", "-7", lambda cell: cell == "0"), "neither 0 nor"),
        (of_cell("tables/blocks.csv", "shell", "0.0", lambda cell: not cell), "tables/blocks.csv"),
    ],
)
def test_what_was_taken_for_the_same_is_wrong(copied, said_of, change, words):
    folder = copied("whole")
    change(folder)
    found = said_of(folder, "whole")
    assert any(words in line for line in found), found


def said_of_model(folder, monkeypatch, capsys):
    """What is said of the model beside the planner's table."""
    at(folder, monkeypatch)
    recheck.check_table(recheck.Report(), recheck.Blocks(), recheck.facts_of())
    lines = capsys.readouterr().out.splitlines()
    return [line for line in lines if line.startswith("WRONG")]


def test_what_is_more_than_half_its_rounding_off_is_wrong(tmp_path, monkeypatch, capsys):
    """A block's revenue of some hundred thousands, which is rounded to a ten-thousandth; and tonnes,
    which have three decimals."""
    text = mines.STUDY_TOML.replace("mining = 2.0", "mining = 2.0\nrounding = 0.0001")
    folder = bundled(tmp_path, text)
    kept = (folder / "model" / "mine.blocks").read_text()
    assert said_of_model(folder, monkeypatch, capsys) == []
    for column, off, words in (
        (4, Decimal("0.0002"), "what each block brings and costs"),
        (7, LITTLE, "the tonnage of each block is that of its row"),
    ):
        (folder / "model" / "mine.blocks").write_text(kept)
        of_model(column, off)(folder)
        found = said_of_model(folder, monkeypatch, capsys)
        assert [words in line for line in found] == [True], found


@pytest.mark.parametrize("axis, off", [(2, 0.5), (2, -0.0005), (0, 0.0005), (1, -1.0)])
def test_a_grid_that_begins_elsewhere_is_wrong(whole, tmp_path, monkeypatch, capsys, axis, off):
    """Each bench would have another elevation, and each centre lies within a twentieth of a block."""
    folder = Path(shutil.copytree(whole, tmp_path / "copy"))
    facts = json.loads((folder / "facts.json").read_text())
    facts["grid"]["origin"][axis] += off
    (folder / "facts.json").write_text(json.dumps(facts))
    found = said_of_model(folder, monkeypatch, capsys)
    words = "the grid begins at the centre of a row: not so, along"
    assert any(words in line for line in found), found


def test_sub_blocks_and_their_classes_hold(tmp_path):
    """A block of which two parts have other classes counts as that of the most tonnes."""
    frame = classed(mines.table(5, 5, 3, 3)).assign(XINC=20.0, YINC=20.0, ZINC=15.0)
    sizes = ((4.5, 6.0, "Measured"), (-3.0, 9.0, "3"))
    parts = [
        frame.iloc[[0]].assign(
            ZC=frame.ZC[0] + up, ZINC=high, CLASS=word, TONNES=high * 1000.1, CU=high / 10
        )
        for up, high, word in sizes
    ]
    text = mines.STUDY_TOML.replace("size =", "regularise = true\nsize =")
    folder = bundled(tmp_path, text, pd.concat([frame.iloc[1:], *parts], ignore_index=True))
    assert rechecked(folder)[1] == 0
    table = pd.read_csv(folder / "tables" / "pit_by_pit.csv")
    assert {"class_Measured_ore_t", "class_3_ore_t", "class_none_rock_t"} <= set(table.columns)


def of_json(name, *way, **values):
    """Keys of a table of a JSON file that are new, or that have other values."""

    def made(folder):
        found = json.loads((folder / name).read_text())
        table = found
        for key in way:
            table = table[key]
        table |= values
        (folder / name).write_text(json.dumps(found))

    return made


MANIFEST = "model/manifest.json"
KEYS = "each key of facts.json, model/manifest.json and verdicts.json is one that pitplan writes"
MADE_OF = f"{MANIFEST} has the metals and the waste_classes of study.toml"


@pytest.mark.parametrize(
    "change, words",
    [
        (of_json("facts.json", royalty=0.05), f"{KEYS}: not so for facts.json: 'royalty'"),
        (of_json("facts.json", "grid", dip=12), f"{KEYS}: not so for facts.json: grid, 'dip'"),
        (of_json("facts.json", "dialect", quote="'"), "facts.json: dialect, 'quote'"),
        (of_json("facts.json", "columns", grade="CU"), "facts.json: columns, 'grade'"),
        (of_json("facts.json", "grid", shape=[9, 9, 9]), "the grid and the columns are those of"),
        (of_json("facts.json", depth=True), "the grid and the columns are those of"),
        (of_json("facts.json", pitplan=7), "facts.json: pitplan is 7, and has to be words"),
        (of_json(MANIFEST, notes=["reviewed"]), f"{KEYS}: not so for {MANIFEST}: 'notes'"),
        (of_json(MANIFEST, "source", path="/a"), f"{MANIFEST}: source, 'path'"),
        (of_json(MANIFEST, "source", table="table/u.csv"), "the table is the one that"),
        (of_json(MANIFEST, "files", **{"blocks.npz": "0" * 64}), "the files of model/ are those"),
        (of_json(MANIFEST, key="0" * 64), "the files of model/ are those that were built"),
        (of_json(MANIFEST, "metals", "copper", price_unit="lb"), MADE_OF),
        (of_json(MANIFEST, "metals", silver={}), MADE_OF),
        (of_json(MANIFEST, waste_classes=["3"]), MADE_OF),
        (of_json(MANIFEST, pit=["pit 9"]), "name the same pit"),
        (
            of_json("verdicts.json", 1, proved=True),
            f"{KEYS}: not so for verdicts.json: pit 2, 'pro",
        ),
        (of_json("verdicts.json", 1, host=5), "verdicts.json: pit 2, host is 5, and has to be"),
    ],
)
def test_a_key_that_pitplan_does_not_write_is_wrong(copied, said_of, change, words):
    folder = copied("whole")
    change(folder)
    found = said_of(folder, "whole")
    assert any(words in line for line in found), found


def of_text(name, old, new):
    """Text of a file that is another."""

    def made(folder):
        path = folder / name
        text = path.read_text()
        path.write_text(re.sub(old, new, text, 1, re.M))
        assert path.read_text() != text

    return made


@pytest.mark.parametrize(
    "change, words",
    [
        (
            of_json("schedule/terms.json", tax=0.3),
            "terms.json has 'tax', which pitplan writes into",
        ),
        (of_text("schedule/terms.json", '"lead":', '"lead": 9, "lead":'), "'lead' comes twice"),
        (of_text("schedule/periods.toml", r"\Z", "tax = 3\n"), "periods.toml has 'tax', which"),
        (of_text("schedule/uses.blocks", "^7 [0-9]+ ", "7 99 "), "has block 7 at another place"),
    ],
)
def test_a_key_or_a_place_that_nothing_reads_in_a_plan_is_wrong(
    copied, known, monkeypatch, change, words
):
    folder, mine = copied("planned"), known("planned").plan[0]
    change(folder)
    at(folder, monkeypatch)
    with pytest.raises((recheck_schedule.Wrong, recheck_schedule.recheck.Bad), match=words):
        recheck_schedule.read_periods(mine)


def test_the_scripts_say_it_themselves(copied):
    """Not in this process: by the text that lies in the bundle."""
    folder = copied("planned")
    of_cell("tables/schedule.csv", "fixed_cost", "100000.0005")(folder)
    resealed(folder)
    words = [sys.executable, "-I", folder / "recheck_schedule.py"]
    ran = subprocess.run(words, capture_output=True, text=True)
    assert (ran.returncode, ran.stderr) == (1, "")
    assert "period 1 comes to: fixed_cost" in ran.stdout
