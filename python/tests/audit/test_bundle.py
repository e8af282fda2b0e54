"""A bundle holds, and whatever is changed in it is found: by its digest, or, where the digests were
made again, by what it means."""
import gzip
import hashlib
import json
import os
import re
import shutil
import subprocess
import sys
import tomllib
from copy import deepcopy
from functools import reduce
from pathlib import Path

import numpy as np
import pandas as pd
import pytest

import mines
from bundles import bundled, rechecked, summed
from pitplan.audit import bundle, recheck
from pitplan.model import economics
from pitplan.slopes import offsets
from pitplan.base.errors import PlanError
from pitplan.study.study import Study
from pitplan.study.study_file import read_study_file

RICH = """[model]
table = "t.csv"
size = [20, 20, 15]
rotation = 30
absent = ["-99"]
widen = 1

[economics]
mining = "2.0 + 0.01 * abs(150 - ZC) * where(ROCK == 'OXI', 1, 1.5)"
processing = { OXI = 7.5, other = 9.0 }
dilution = 0.05
mining_recovery = 0.95
rounding = 0.01
forbid = ["XC > 5110 and ROCK != 'OXI'"]
metals = [ { name = "copper", grade = "CU", price = 8500, recovery = { OXI = 0.8, SUL = 0.9 }, payable = 0.96, selling = 300 },
           { name = "gold", grade = "AU", grade_unit = "g/t", price = 1900, price_unit = "oz", recovery = "0.5 + 0.1 * min(AU, 1)" } ]

[slopes]
angles = 45
by = "SECTOR"
regions = { WEST = 38 }

[shells]
factors = [0.6, 1.0, 1.2]
"""


@pytest.fixture(scope="module")
def whole(tmp_path_factory):
    return bundled(tmp_path_factory.mktemp("bundle"))


@pytest.fixture
def copy(whole, tmp_path):
    return Path(shutil.copytree(whole, tmp_path / "copy"))


def test_it_holds(whole):
    lines, status = rechecked(whole, "--plainly")
    assert status == 0, lines
    assert len(lines) == 1, lines
    assert lines[0].startswith("everything that was looked at holds"), lines


def test_formulas_regions_fences_rotation_and_added_blocks_are_worked_out_again(tmp_path):
    frame = mines.table(7, 6, 4, 3, 30)
    frame.loc[[3, 9], "CU"] = -99
    lines, status = rechecked(bundled(tmp_path, RICH, frame))
    assert status == 0, lines
    assert len(lines) == 1, lines


@pytest.mark.parametrize("names", [("WEST", "EAST"), ("1", "2")])
def test_a_block_has_the_slopes_of_its_own_region(tmp_path, names):
    """The two regions change places in the table, and nothing else: each block has a list of
    offsets, and not its own."""
    frame = mines.table(7, 6, 4, 3)
    frame["SECTOR"] = frame.SECTOR.map(dict(zip(("WEST", "EAST"), names)))
    folder = bundled(
        tmp_path,
        mines.STUDY_TOML.replace(
            "angles = 45", f'angles = 45\nby = "SECTOR"\nregions = {{ {names[0]} = 34 }}'
        ),
        frame,
    )
    assert rechecked(folder)[1] == 0
    path = folder / "table" / "t.csv"
    path.write_text(
        path.read_text()
        .replace(f",{names[0]}\n", ",?\n")
        .replace(f",{names[1]}\n", f",{names[0]}\n")
        .replace(",?\n", f",{names[1]}\n")
    )
    summed(folder)
    lines, status = rechecked(folder)
    assert status == 1, lines
    assert any(
        "each block is in the region of slopes that its row names: not so block" in line
        for line in lines
    ), lines


def test_a_table_of_depths_holds(tmp_path):
    frame = mines.table(7, 6, 4, 3)
    lines, status = rechecked(
        bundled(
            tmp_path,
            mines.STUDY_TOML.replace("[model]", '[model]\nz = "depth"'),
            frame.assign(ZC=500 - frame.ZC),
        )
    )
    assert status == 0, lines
    assert len(lines) == 1, lines


def test_worths_are_added_up_whatever_pit_says(copy, tmp_path):
    """A `pit` that says what the bundle does."""
    verdicts = json.loads((copy / "verdicts.json").read_text())
    for verdict, change in zip(verdicts, ({"worth": "123456789"}, {"count": 7})):
        verdict.update(change)
    (copy / "verdicts.json").write_text(json.dumps(verdicts))
    summed(copy)
    said = "\n".join(f"{v['factor']}) echo ACCEPTED {v['count']} {v['worth']};;" for v in verdicts)
    (tmp_path / "pit").write_text(
        f"#!/bin/sh\n[ $1 = check ] || exec {os.environ['PIT']} \"$@\"\ncase $(sed -n 's/^PRICE MILL //p') in\n{said}\nesac\n"
    )
    (tmp_path / "pit").chmod(0o755)
    ran = subprocess.run(
        [sys.executable, "-I", str(copy / "recheck.py"), str(tmp_path / "pit")],
        capture_output=True,
        text=True,
    )
    wrong = [line for line in ran.stdout.splitlines() if line.startswith("WRONG")]
    assert ran.returncode == 1, ran.stdout
    assert [bool(re.search("its .* blocks add up to", line)) for line in wrong[:2]] == [
        True,
        True,
    ], ran.stdout
    assert not any("pit check" in line for line in wrong), ran.stdout


def test_air_above_steep_ground_is_no_strange_block(tmp_path):
    """The blocks that slopes lead through beside a cliff have no row, and nobody asked for them."""
    frame = mines.below(8)
    folder = bundled(
        tmp_path,
        mines.STUDY_TOML.replace("size = [20, 20, 15]", "size = [10, 10, 10]"),
        frame[frame.TONNES > 0],
    )
    assert 0 in pd.read_csv(folder / "tables" / "blocks.csv").row.tolist()
    lines, status = rechecked(folder)
    assert status == 0, lines


def test_added_blocks_that_nobody_asked_for_are_found(tmp_path):
    folder = bundled(tmp_path, mines.STUDY_TOML.replace("[economics]", "widen = 1\n\n[economics]"))
    assert rechecked(folder)[1] == 0
    replaced(folder / "study.toml", "widen = 1\n", "")
    summed(folder)
    lines, status = rechecked(folder)
    assert status == 1, lines
    assert any("blocks have no row, and study.toml asks for none" in line for line in lines), lines


def test_a_pit_that_digs_what_forbid_keeps_is_found(tmp_path, monkeypatch):
    """Such a block costs twice what the mine brings at the full price, and at factor 10 that is
    worth paying."""
    frame = mines.table(5, 5, 3, 3)
    frame["CU"] = np.where((frame.XC == 5040) & (frame.YC == 9040) & (frame.ZC == 100), 20.0, 0.0)
    monkeypatch.setattr(
        economics,
        "fence_price",
        lambda priced, rounding: 2 * economics.exact_sum(priced.ways[0].revenue) + 1,
    )
    monkeypatch.setattr(Study, "adds_up", lambda *words: None)
    text = mines.STUDY_TOML.replace("[0.6, 1.0, 1.2]", "[1.0, 10.0]").replace(
        "[slopes]", 'forbid = ["XC == 5040 and YC == 9040 and ZC == 115"]\n\n[slopes]'
    )
    lines, status = rechecked(bundled(tmp_path, text, frame))
    assert status == 1, lines
    assert lines[0].startswith(
        "WRONG   no pit has a block that forbid keeps: not so for 1, the first is block"
    ), lines


CODES = """[model]
table = "t.csv"
size = [20, 20, 15]

[economics]
mining = "where(ZONE == '1', 2.0, 2.5) + 0.1 * ((CU > 0.1) + (CLAY_\u00b5 > 0.1))"
processing = "where(ROCK == 'OXI', 7.5, where(ROCK == 'SUL' and CU > 0.1, 9.0, 8.0))"
forbid = ["ZONE == '2A' and XC > 5100", "MINED == 'TRUE'"]
metals = [ { name = "copper", grade = "CU", price = 8500, recovery = "where(ROCK == 'OXI', AS, 0.85)" } ]

[slopes]
angles = 45
by = "ZONE"
regions = { 1 = 38 }

[shells]
factors = [0.6, 1.0]
"""


def test_codes_blanks_and_empty_cells_are_read_alike(tmp_path):
    """A column of codes, of which some are numbers; words with blanks around them; and cells that
    stand empty where nothing asks for them."""
    frame = mines.table(7, 6, 4, 3)
    frame["ZONE"] = ["1", "2A", "3"] * (len(frame) // 3) + ["1"] * (len(frame) % 3)
    frame["AS"] = frame.ROCK.map({"OXI": "0.7", "SUL": ""})
    frame["MINED"] = np.where(frame.XC < 5010, "TRUE", "FALSE")
    frame["CLAY_\u00b5"] = frame.AU
    frame.loc[[1, 5], "ROCK"] += " "
    frame.loc[4, "ZONE"] = " 2A "
    lines, status = rechecked(bundled(tmp_path, CODES, frame))
    assert status == 0, lines


PARTS = """[model]
table = "t.csv"
size = [20, 20, 15]
regularise = true

[economics]
mining = 2.0
processing = "where(ZONE == 3, 8.0, 9.0) + where(ROCK == 'OXI', 1, 2)"
forbid = ["LAKE == 1"]
metals = [ { name = "copper", grade = "CU", price = 8500, recovery = 0.85 } ]

[slopes]
angles = 45
by = "ZONE"
regions = { 3 = 38 }

[shells]
factors = [1.0]
"""


def test_sub_blocks_are_added_up_again(tmp_path):
    """The first block is cut: 9 m of the bench are of zone 3 and oxide, 6 m of zone 2, sulphide and
    under the lake. What is changed in one of its parts is found."""
    frame = (
        mines.table(5, 5, 3, 3)
        .assign(XINC=20.0, YINC=20.0, ZINC=15.0, ZONE=3, LAKE=0, DENSITY=2.3)
        .drop(columns="TONNES")
    )
    upper = frame.iloc[[0]].assign(
        ZC=frame.ZC[0] + 4.5, ZINC=6.0, ZONE=2, LAKE=1, ROCK="SUL", CU=1.5
    )
    lower = frame.iloc[[0]].assign(ZC=frame.ZC[0] - 3, ZINC=9.0, ROCK="OXI", CU=0.5)
    folder = bundled(tmp_path, PARTS, pd.concat([frame.iloc[1:], upper, lower], ignore_index=True))
    lines, status = rechecked(folder)
    assert status == 0, lines
    assert len(lines) == 1, lines
    path = folder / "table" / "t.csv"
    rows, line = path.read_text(), ",".join(map(str, upper.iloc[0].tolist()))
    cells = {name: i for i, name in enumerate(rows.splitlines()[0].split(","))}
    for name, value, shown in (
        ("CU", "1.6", "what each block brings and costs"),
        ("LAKE", "0", "what each block brings and costs"),
        ("ZINC", "7.0", "each sub-block lies within its block"),
        ("DENSITY", "9", "the tonnage of each block"),
        ("ZC", "200.0", "are 55 blocks, each in its first row"),
    ):
        changed = line.split(",")
        changed[cells[name]] = value
        assert rows.count(line) == 1
        path.write_text(rows.replace(line, ",".join(changed)))
        summed(folder)
        lines, status = rechecked(folder)
        assert status == 1, (name, lines)
        assert any(found.startswith("WRONG") and shown in found for found in lines), (name, lines)


FILES = [
    bundle.SUMS,
    "README.txt",
    "facts.json",
    "plainly.py",
    "recheck.py",
    "study.toml",
    "table/t.csv",
    "verdicts.json",
    *(f"certificates/f{factor:05d}.cert.gz" for factor in (600, 1000, 1200)),
    *(f"model/{name}" for name in ("manifest.json", "mine.blocks", "settings.toml")),
    *(f"tables/{name}.csv" for name in ("benches", "blocks", "pit_by_pit")),
]


def test_these_are_all_files_of_a_bundle(whole):
    assert sorted(
        path.relative_to(whole).as_posix() for path in whole.rglob("*") if path.is_file()
    ) == sorted(FILES)


@pytest.mark.parametrize("name", FILES)
def test_a_changed_byte_is_found_and_its_file_is_named(copy, name):
    """The first byte, one in the middle, and the last; of recheck.py one of its words, so that it
    goes on running."""
    path = copy / name
    kept = path.read_bytes()
    for at in (
        [kept.index(b"Checks this bundle")]
        if name == "recheck.py"
        else (0, len(kept) // 2, len(kept) - 1)
    ):
        path.write_bytes(kept[:at] + bytes([kept[at] ^ 1]) + kept[at + 1 :])
        lines, status = rechecked(copy)
        found = [
            line
            for line in lines
            if line.startswith(("WRONG   sha256 of", f"WRONG   {bundle.SUMS}"))
        ]
        assert status == 1, (at, lines)
        assert len(found) == 1 if name == bundle.SUMS else found == [f"WRONG   sha256 of {name}"], (
            at,
            lines,
        )
        assert (
            subprocess.run(
                ["sha256sum", "-c", "--quiet", "--strict", bundle.SUMS],
                cwd=copy,
                capture_output=True,
            ).returncode
            == 1
        ), at


def test_each_changed_line_end_of_the_list_is_found(copy):
    """0x0b ends a line for Python's splitlines, and not for sha256sum."""
    path = copy / bundle.SUMS
    kept = path.read_bytes()
    for at in (kept.index(b"\n"), len(kept) - 1):
        path.write_bytes(kept[:at] + b"\x0b" + kept[at + 1 :])
        assert rechecked(copy)[1] == 1
    path.write_bytes(b"0" * 64 + b"  README.txt\n" + kept)
    assert any("a second line for README.txt" in line for line in rechecked(copy)[0])


def test_files_that_are_gone_or_new_are_found(copy):
    (copy / "table" / "more.csv").write_text("1")
    assert any("more.csv isn't listed" in line for line in rechecked(copy)[0])
    (copy / "table" / "more.csv").unlink()
    (copy / "model" / "settings.toml").unlink()
    assert rechecked(copy)[1] == 1


def replaced(path, old, new):
    text = path.read_text()
    assert old in text, old
    path.write_text(text.replace(old, new, 1))


def packed(path, change):
    """Changes a packed certificate, and its digest in verdicts.json."""
    text = change(gzip.decompress(path.read_bytes()).decode()).encode()
    path.write_bytes(gzip.compress(text))
    verdicts = path.parents[1] / "verdicts.json"
    kept = json.loads(verdicts.read_text())
    next(v for v in kept if v["file"].endswith(path.name))["certificate"] = hashlib.sha256(
        text
    ).hexdigest()
    verdicts.write_text(json.dumps(kept))


def first_row(folder, change):
    """Changes the cells of the table's second row."""
    lines = (folder / "table" / "t.csv").read_text().splitlines(keepends=True)
    lines[2] = ",".join(change(lines[2].split(",")))
    (folder / "table" / "t.csv").write_text("".join(lines))


def cell(at, value):
    return lambda folder: first_row(
        folder, lambda cells: [value if i == at else c for i, c in enumerate(cells)]
    )


def other_worth(folder):
    verdicts = json.loads((folder / "verdicts.json").read_text())
    verdicts[0]["worth"] = str(int(float(verdicts[0]["worth"])) + 1)
    (folder / "verdicts.json").write_text(json.dumps(verdicts))


def swapped(folder):
    verdicts = json.loads((folder / "verdicts.json").read_text())
    (folder / "verdicts.json").write_text(json.dumps(verdicts[::-1]))


def not_nested(folder):
    """The largest pit stands for the smallest, and the smallest for the largest."""
    verdicts = json.loads((folder / "verdicts.json").read_text())
    verdicts[0], verdicts[-1] = {**verdicts[-1], "factor": verdicts[0]["factor"]}, {
        **verdicts[0],
        "factor": verdicts[-1]["factor"],
    }
    (folder / "verdicts.json").write_text(json.dumps(verdicts))


def dearer(folder):
    """Each block costs a dollar less to dig: a consistent model, but not that of the table."""
    path = folder / "model" / "mine.blocks"
    rows = [line.split() for line in path.read_text().splitlines()]
    path.write_text(
        "".join(" ".join([*row[:6], str(int(row[6]) - 1), row[7]]) + "\n" for row in rows)
    )


def more_offsets(folder):
    """A wall that asks for more than the pits have: the certificates are of another mine then."""
    ways = ", ".join(f"[{i}, {j}, 1]" for i in (-2, 0, 2) for j in (-2, 0, 2))
    replaced(folder / "model" / "settings.toml", "    [[", f"    [{ways}, [")


def told_otherwise(name, *keys, value):
    """A value of a JSON file that is another."""

    def change(folder):
        facts = json.loads((folder / name).read_text())
        at = facts
        for key in keys[:-1]:
            at = at[key]
        at[keys[-1]] = value
        (folder / name).write_text(json.dumps(facts))

    return change


def column(name, title, value):
    """A number of the first line of a table that is another."""

    def change(folder):
        path = folder / "tables" / name
        lines = path.read_text().splitlines(keepends=True)
        cells = lines[1].rstrip("\n").split(",")
        cells[lines[0].rstrip("\n").split(",").index(title)] = value
        path.write_text("".join([lines[0], ",".join(cells) + "\n", *lines[2:]]))

    return change


def twice(name, key, value):
    """A key of a JSON file with another value before its own."""

    def change(folder):
        replaced(folder / name, f'"{key}":', f'"{key}": {json.dumps(value)}, "{key}":')

    return change


def last_digits(folder, title):
    """A number of the first line of the pit-by-pit table, and it with a thousandth of a unit more."""
    lines = (folder / "tables" / "pit_by_pit.csv").read_text().splitlines()
    cell = lines[1].split(",")[lines[0].split(",").index(title)]
    return f",{cell},", f",{cell}{'' if '.' in cell else '.0'}01,"


def no_pits(folder):
    """No pit, no certificate and no line of a table: nothing contradicts anything."""
    (folder / "verdicts.json").write_text("[]")
    for path in (folder / "certificates").iterdir():
        path.unlink()
    for name in ("pit_by_pit.csv", "benches.csv"):
        path = folder / "tables" / name
        path.write_text(path.read_text().splitlines(keepends=True)[0])
    path = folder / "tables" / "blocks.csv"
    path.write_text(re.sub(r",[0-9.]+$", ",", path.read_text(), flags=re.M))


def empty_pit(folder):
    """The pit of no block is worth 0 at every factor, and is the best at factor 0 alone."""
    model = folder / "model"
    files = ["--blocks", model / "mine.blocks", "--settings", model / "settings.toml"]
    text = subprocess.run(
        [os.environ["PIT"], "solve", *files, "--factor", "0"],
        capture_output=True,
        text=True,
        check=True,
    ).stdout
    assert "PIT " not in text
    packed(folder / "certificates" / "f00600.cert.gz", lambda _: text)
    verdicts = json.loads((folder / "verdicts.json").read_text())
    verdicts[0].update(count=0, worth="0")
    (folder / "verdicts.json").write_text(json.dumps(verdicts))


CHANGES = {
    "a key of facts.json twice": (
        twice("facts.json", "currency", "EUR"),
        "facts.json: the key 'currency' comes twice in a table",
    ),
    "a key of the manifest twice": (
        twice("model/manifest.json", "blocks", 1),
        "model/manifest.json: the key 'blocks' comes twice in a table",
    ),
    "a plan that isn't there": (
        told_otherwise("facts.json", "has_schedule", value=True),
        "not so for recheck_schedule.py, schedule/bound.cert.gz",
    ),
    "a pit of another factor": (empty_pit, "the certificate at factor 0.6 is of factor 0"),
    "no pits": (no_pits, "the pits are those at the 3 factors"),
    "the factors": (
        lambda f: replaced(f / "study.toml", "factors = [0.6,", "factors = [0.5, 0.6,"),
        "the pits are those at the 4 factors",
    ),
    "a certificate of no pit": (
        lambda f: shutil.copy(
            f / "certificates" / "f00600.cert.gz", f / "certificates" / "f00500.cert.gz"
        ),
        "each certificate is that of one pit",
    ),
    "the size of blocks": (
        lambda f: replaced(f / "study.toml", "size = [20, 20, 15]", "size = [20, 20, 10]"),
        "the grid and the columns",
    ),
    "the rotation": (
        lambda f: replaced(f / "study.toml", "size =", "rotation = 30\nsize ="),
        "the grid and the columns",
    ),
    "the currency": (told_otherwise("facts.json", "currency", value="EUR"), "amounts are in"),
    "the digest of the table": (
        told_otherwise("facts.json", "sha256", value="0" * 64),
        "the table is the one",
    ),
    "the number of blocks": (told_otherwise("facts.json", "blocks", value=1), "the model has"),
    "sub-blocks": (
        told_otherwise("facts.json", "has_sub_blocks", value=True),
        "sub-blocks to be added up",
    ),
    "a line passed over": (
        told_otherwise("facts.json", "dialect", "skip", value=1),
        "are descriptions and no blocks",
    ),
    "the digest of a file": (
        told_otherwise("model/manifest.json", "files", "settings.toml", value="0" * 64),
        "the files of model/",
    ),
    "a list of offsets more": (
        lambda f: replaced(f / "model" / "settings.toml", "\n]\n", "\n    [[0, 0, 1]],\n]\n"),
        "as many lists of offsets as slopes in study.toml",
    ),
    "an offset that is left out": (
        lambda f: replaced(f / "model" / "settings.toml", "[0, 0, 1], ", ""),
        "that its angles in study.toml come to; they lack [0, 0, 1]",
    ),
    "an offset that is added": (
        lambda f: replaced(f / "model" / "settings.toml", "[0, 0, 1]", "[0, 0, 1], [9, 0, 1]"),
        "that its angles in study.toml come to; they have too much [9, 0, 1]",
    ),
    "an angle": (
        lambda f: replaced(f / "study.toml", "angles = 45", "angles = 47"),
        "the offsets of default in model/settings.toml are the",
    ),
    "how many blocks a region has": (
        told_otherwise("model/manifest.json", "regions", "default", value=7),
        "in each region of slopes as many",
    ),
    "ore of a pit": (column("pit_by_pit.csv", "ore_t", "1.0"), "tables/pit_by_pit.csv"),
    "the strip ratio of a pit": (column("pit_by_pit.csv", "strip", "9.0"), "tables/pit_by_pit.csv"),
    "the worth of a pit at the full price": (
        column("pit_by_pit.csv", "worth_at_base", "1.0"),
        "tables/pit_by_pit.csv",
    ),
    "the last digit of a worth": (
        lambda f: replaced(f / "tables" / "pit_by_pit.csv", *last_digits(f, "worth_at_factor")),
        "tables/pit_by_pit.csv",
    ),
    "the last digit of a worth at the full price": (
        lambda f: replaced(f / "tables" / "pit_by_pit.csv", *last_digits(f, "worth_at_base")),
        "tables/pit_by_pit.csv",
    ),
    "the mill's feed of a pit": (
        column("pit_by_pit.csv", "feed_t", "1.0"),
        "the grades and the metals of each pit: not so in line 2",
    ),
    "the grade of a pit": (
        column("pit_by_pit.csv", "grade_copper", "9.0"),
        "the grades and the metals of each pit: not so in line 2",
    ),
    "the metal of a bench": (
        column("benches.csv", "metal_copper", "1.0"),
        "the grades and the metals of each bench and shell: not so in line 2",
    ),
    "rock of a bench": (column("benches.csv", "rock_t", "1.0"), "tables/benches.csv"),
    "the number of a block": (column("blocks.csv", "block", "7"), "tables/blocks.csv"),
    "a worth": (other_worth, "pit check at factor 0.6"),
    "the digest of a certificate": (
        told_otherwise("verdicts.json", 0, "certificate", value="0" * 64),
        "the certificate at factor 0.6 is the one whose pit is shown",
    ),
    "pits that aren't nested": (not_nested, "the pit at 1 lies within that at 1.2"),
    "the order of the pits": (swapped, "comes after"),
    "a price": (
        lambda f: replaced(f / "study.toml", "8500", "8600"),
        "what each block brings and costs",
    ),
    "the rounding": (
        lambda f: replaced(f / "study.toml", "mining = 2.0", "rounding = 1000\nmining = 2.0"),
        "what each block brings and costs",
    ),
    "a cost": (
        lambda f: replaced(f / "study.toml", "mining = 2.0", "mining = 2.1"),
        "what each block brings and costs",
    ),
    "a grade": (cell(5, "7.5"), "what each block brings and costs"),
    "a coordinate": (cell(1, "4000"), "the place of each block"),
    "a tonnage": (cell(4, "1.0"), "the tonnage of each block"),
    "what blocks cost": (dearer, "what each block brings and costs"),
    "more offsets": (more_offsets, "pit check at factor 0.6"),
    "more offsets, looked up again": (more_offsets, "each pit has what its blocks rest on"),
    "a PIT line": (
        lambda f: packed(
            f / "certificates" / "f01000.cert.gz", lambda t: re.sub(r"PIT \d+\n", "", t, count=1)
        ),
        "pit check at factor 1",
    ),
    "a flow": (
        lambda f: packed(
            f / "certificates" / "f01000.cert.gz",
            lambda t: re.sub(r"(SOURCE \d+ )\d+", r"\g<1>1", t, count=1),
        ),
        "pit check at factor 1",
    ),
    "a shell": (
        lambda f: replaced(f / "tables" / "blocks.csv", ",0.6\n", ",1.0\n"),
        "tables/blocks.csv",
    ),
    "a row of the pit-by-pit table": (
        lambda f: replaced(f / "tables" / "pit_by_pit.csv", "\n1.0,", "\n0.9,"),
        "tables/pit_by_pit.csv",
    ),
    "a bench": (
        lambda f: (f / "tables" / "benches.csv").write_text(
            "".join((f / "tables" / "benches.csv").read_text().splitlines(keepends=True)[:-1])
        ),
        "tables/benches.csv",
    ),
    "a number of a row": (
        lambda f: replaced(f / "tables" / "blocks.csv", "\n1,", "\n1,9"),
        "each of the",
    ),
}


@pytest.mark.parametrize("what", CHANGES)
def test_what_is_changed_with_its_digests_is_found_by_what_it_means(copy, what):
    change, found = CHANGES[what]
    change(copy)
    summed(copy)
    lines, status = rechecked(copy)
    assert status == 1, lines
    assert any(line.startswith("WRONG") and found in line for line in lines), lines


def study(old, new):
    return lambda folder: replaced(folder / "study.toml", old, new)


def cell_of(name, line, at, value):
    """A cell of a file of the bundle that is another; its cells are parted by commas in a table,
    and by blanks in a file of the model."""

    def change(folder):
        lines = (folder / name).read_text().split("\n")
        mark = "," if name.endswith(".csv") else " "
        cells = lines[line].split(mark)
        cells[at] = value
        (folder / name).write_text("\n".join([*lines[:line], mark.join(cells), *lines[line + 1 :]]))

    return change


ROUNDING = "study.toml: [economics] rounding is {}, and has to be a number of at least 0.000001, with at most six decimals"
STRANGE = {
    **{
        f"rounding = {value}": (
            study("mining = 2.0", f"rounding = {value}\nmining = 2.0"),
            ROUNDING.format(said),
        )
        for value, said in (
            ("0", "0"),
            ("nan", "nan"),
            ("'a'", "'a'"),
            ("-1", "-1"),
            ("1e-7", "1e-07"),
            ("inf", "inf"),
            ("0.0000015", "1.5e-06"),
            ("true", "true"),
            ("1" * 400, "a number of very many digits"),
        )
    },
    "an angle": (
        study("angles = 45", "angles = 0"),
        "study.toml: [slopes] angles is 0, and has to be degrees from 5 to 89, or a list of bearings and degrees as [[0, 38], [90, 45]]",
    ),
    "an angle by bearing": (
        study("angles = 45", "angles = [[0, 45], [90, nan]]"),
        "study.toml: [slopes] angles is [[0, 45], [90, nan]], and has to be degrees",
    ),
    "no angles": (
        study("angles = 45", "angles = []"),
        "study.toml: [slopes] angles is [], and has to be",
    ),
    "the angles of a region": (
        study("angles = 45", "angles = 45\nby = 'SECTOR'\nregions = { WEST = 'flat' }"),
        "study.toml: [slopes] regions is {'WEST': 'flat'}, and has to be a table of angles",
    ),
    "regions without a column": (
        study("angles = 45", "angles = 45\nregions = { WEST = 38 }"),
        "study.toml: [slopes] by is '', and has to be a column of table/t.csv: 'IJK, XC, YC",
    ),
    "a size": (
        study("size = [20, 20, 15]", "size = [20, 0, 15]"),
        "study.toml: [model] size is [20, 0, 15], and has to be three numbers above 0",
    ),
    "a rotation": (
        study("size =", "rotation = 'east'\nsize ="),
        "study.toml: [model] rotation is 'east', and has to be a number",
    ),
    "marks": (
        study("size =", "absent = [-99]\nsize ="),
        "study.toml: [model] absent is [-99], and has to be a list of words",
    ),
    "columns added": (
        study("size =", "widen = -1\nsize ="),
        "study.toml: [model] widen is -1, and has to be a whole number of at least 0",
    ),
    "a section": (study("[model]", "slopes = 45\n[model]"), "study.toml isn't TOML"),
    "no section": (
        lambda f: (f / "study.toml").write_text("shells = 1\n"),
        "study.toml: [shells] is 1, and has to be a table",
    ),
    "a recovery": (
        study("recovery = 0.85", "recovery = [0.85]"),
        "study.toml: [economics] metals, number 1, recovery is [0.85], and has to be a number, a column, a formula",
    ),
    "a recovery by rock": (
        study("recovery = 0.85", "recovery = { OXI = 'all' }"),
        "study.toml: [economics] metals, number 1, recovery is {'OXI': 'all'}, and has to be",
    ),
    "a share of the price": (
        study("recovery = 0.85", "recovery = 0.85, payable = 96"),
        "study.toml: [economics] metals, number 1, payable is 96, and has to be a number from 0 to 1",
    ),
    "a price": (
        study("8500", "'8500'"),
        "study.toml: [economics] metals, number 1, price is '8500', and has to be a number of at least 0",
    ),
    "no price": (
        study("price = 8500, ", ""),
        "study.toml: [economics] metals, number 1, price isn't there, and has to be a number of at least 0",
    ),
    "a unit": (
        study("price = 8500", "price_unit = 'stone', price = 8500"),
        "price_unit is 'stone', and has to be one of t, kg, g, lb, oz, dmtu",
    ),
    "a column of grades": (
        study('grade = "CU"', 'grade = "CV"'),
        "study.toml: [economics] metals, number 1, grade is 'CV', and has to be a column of table/t.csv: 'IJK, XC, YC",
    ),
    "no metals": (
        study("metals = [ {", "metals = []\nmore = [ {"),
        "study.toml: [economics] metals is [], and has to be a list of metals",
    ),
    "dilution": (
        study("mining = 2.0", "dilution = 5\nmining = 2.0"),
        "study.toml: [economics] dilution is 5, and has to be a number from 0 to 1",
    ),
    "a formula of words": (
        study("mining = 2.0", "mining = '2 + ROCK'"),
        "study.toml: [economics] mining is '2 + ROCK', and has to be a formula that can be worked out; for row 2 of table/t.csv it can't be: it is no formula, or it counts with words",
    ),
    "a formula that is none": (
        study("mining = 2.0", "mining = '2 +'"),
        "study.toml: [economics] mining is '2 +', and has to be a formula that can be worked out",
    ),
    "a formula of too much": (
        study("mining = 2.0", "mining = '9**9**9**9'"),
        "for row 2 of table/t.csv it can't be: it gives no number",
    ),
    "a formula of another column": (
        study("mining = 2.0", "mining = '2 + ZD'"),
        "it names 'ZD', which is no column of table/t.csv",
    ),
    "a formula of another function": (
        study("mining = 2.0", "mining = 'max(2)'"),
        "'max(2)' is no part of a formula",
    ),
    "a fence that says no": (
        study("mining = 2.0", "forbid = ['XC']\nmining = 2.0"),
        "study.toml: [economics] forbid is 'XC', and has to be a formula that can be worked out; for row 2 of table/t.csv it can't be: it says neither yes nor no",
    ),
    "factors": (
        study("factors = [0.6,", "factors = ['0.6',"),
        "study.toml: [shells] factors is ['0.6', 1.0, 1.2], and has to be a list of numbers from 0 to 10",
    ),
    "a series of factors": (
        study("factors = [0.6, 1.0, 1.2]", "factors = { from = 0.6, to = nan, step = 0.2 }"),
        "study.toml: [shells] factors is {'from': 0.6, 'to': nan, 'step': 0.2}, and has to be",
    ),
    "no text": (
        lambda f: (f / "study.toml").write_bytes(b"\xff"),
        "study.toml isn't TOML in UTF-8",
    ),
    "the size of the grid": (
        told_otherwise("facts.json", "grid", "size", value=[20, 20, "15"]),
        "facts.json: grid, size is [20, 20, '15'], and has to be three numbers above 0",
    ),
    "the origin of the grid": (
        told_otherwise("facts.json", "grid", "origin", value=[float("nan"), 0, 0]),
        "facts.json: grid, origin is [nan, 0, 0], and has to be three numbers",
    ),
    "the columns": (
        told_otherwise("facts.json", "columns", "x", value="EAST"),
        "facts.json: columns, x is 'EAST', and has to be a column of table/t.csv: 'IJK, XC, YC",
    ),
    "the encoding": (
        told_otherwise("facts.json", "dialect", "encoding", value="runes"),
        "facts.json: dialect, encoding is 'runes', and has to be an encoding that Python knows",
    ),
    "the name of the table": (
        told_otherwise("facts.json", "table", value="table/u.csv"),
        "table/u.csv: No such file or directory",
    ),
    "the digests of the model": (
        told_otherwise("model/manifest.json", "files", value=7),
        "model/manifest.json: files is 7, and has to be a table of sha256",
    ),
    "offsets": (
        lambda f: (f / "model" / "settings.toml").write_text(
            "revenue = 0\nprocessing = 1\nmining = 2\ntonnes = 3\nslopes = [[[0, 0, 0]]]\n"
        ),
        "model/settings.toml: slopes is [[[0, 0, 0]]], and has to be for each of at most 64 regions a list of at most 4,096 offsets as [[0, 0, 1]], each at least one level up",
    ),
    "a column of the model": (
        lambda f: (f / "model" / "settings.toml").write_text(
            "revenue = 0\nprocessing = 1\nmining = 2\ntonnes = 'last'\n"
        ),
        "model/settings.toml: tonnes is 'last', and has to be a whole number from 0 to 65,535",
    ),
    "a place": (cell_of("model/mine.blocks", 4, 1, "east"), "model/mine.blocks: block 4 is 'east "),
    "an amount": (
        cell_of("model/mine.blocks", 4, 4, "nan"),
        "and has to be a place of three whole numbers, and numbers in the columns that model/settings.toml names",
    ),
    "the number of a block": (
        cell_of("model/mine.blocks", 4, 0, "x"),
        "model/mine.blocks: line 5 begins with no number of a block",
    ),
    "which way is up": (
        lambda f: replaced(f / "model" / "settings.toml", '"plus"', '"minus"'),
        "model/settings.toml: up is 'minus', and has to be one of plus",
    ),
    "a factor": (
        told_otherwise("verdicts.json", 0, "factor", value="0.6"),
        "verdicts.json: pit 1, factor is '0.6', and has to be a whole number from 0 to 10,000",
    ),
    "a worth": (
        told_otherwise("verdicts.json", 2, "worth", value="much"),
        "verdicts.json: pit 3, worth is 'much', and has to be a number in quotes",
    ),
    "no pit": (
        told_otherwise("verdicts.json", 1, value=None),
        "verdicts.json: pit 2 is null, and has to be a table",
    ),
    "a PIT line": (
        lambda f: packed(
            f / "certificates" / "f01000.cert.gz", lambda t: re.sub(r"PIT \d+", "PIT x", t, count=1)
        ),
        "the certificate at factor 1: a PIT line has 'x', and has to have the number of a block",
    ),
    "half a certificate": (
        lambda f: (f / "certificates" / "f01000.cert.gz").write_bytes(
            (f / "certificates" / "f01000.cert.gz").read_bytes()[:50]
        ),
        "the certificate at factor 1: the packed file is damaged",
    ),
    "a row": (
        cell_of("tables/blocks.csv", 1, 1, "two"),
        "tables/blocks.csv, line 2, column row: the cell is 'two', and has to be a whole number",
    ),
    "a shell": (
        cell_of("tables/blocks.csv", 1, 2, "nan"),
        "tables/blocks.csv, line 2, column shell: the cell is 'nan', and has to be a number",
    ),
    "tonnes of a pit": (
        cell_of("tables/pit_by_pit.csv", 1, 2, "many"),
        "tables/pit_by_pit.csv, line 2, column rock_t: the cell is 'many', and has to be a number",
    ),
    "a column of the pits": (
        cell_of("tables/pit_by_pit.csv", 0, 2, "rock"),
        "tables/pit_by_pit.csv has the column 'rock', which no check reads",
    ),
    "a bench": (
        cell_of("tables/benches.csv", 1, 0, ""),
        "tables/benches.csv, line 2, column bench: the cell is '', and has to be a number",
    ),
    "a grade": (
        cell_of("table/t.csv", 2, 5, "rich"),
        "table/t.csv, row 3, column CU: the cell is 'rich', and has to be a number",
    ),
}
NAME_OF_AN_ERROR = re.compile(r"\b[A-Z]\w*(Error|Exception|Operation|File)\b")


@pytest.mark.parametrize("what", STRANGE)
def test_a_value_that_a_key_may_not_have_is_told_with_its_file_and_what_it_has_to_be(copy, what):
    change, found = STRANGE[what]
    change(copy)
    summed(copy)
    lines, status = rechecked(copy)
    assert status == 1, lines
    assert any(line.startswith("WRONG") and found in line for line in lines), lines
    assert not any(NAME_OF_AN_ERROR.search(line) for line in lines), lines


def places_of(value, at=()):
    """The way to each value within what a JSON or TOML file has; of a list to its first two."""
    yield at
    for key, inner in (
        value.items()
        if isinstance(value, dict)
        else list(enumerate(value))[:2]
        if isinstance(value, list)
        else ()
    ):
        yield from places_of(inner, (*at, key))


def as_toml(value):
    if isinstance(value, dict):
        return (
            "{ "
            + ", ".join(f"{json.dumps(key)} = {as_toml(inner)}" for key, inner in value.items())
            + " }"
        )
    return (
        "[" + ", ".join(map(as_toml, value)) + "]"
        if isinstance(value, list)
        else "1979-05-27"
        if value is None
        else json.dumps(value).replace("Infinity", "inf").replace("NaN", "nan")
    )


VALUES = (
    0,
    -1,
    float("nan"),
    float("inf"),
    10**400,
    1e-9,
    "",
    "x",
    "1+",
    "CU",
    "\0",
    True,
    None,
    [],
    [1],
    [[0, 45]],
    {},
    {"a": 1},
)


@pytest.mark.parametrize(
    "name",
    [
        "facts.json",
        "model/manifest.json",
        "verdicts.json",
        "model/settings.toml",
        "study.toml",
    ],
)
def test_no_value_of_a_file_is_answered_by_the_name_of_an_error(
    copy, tmp_path, monkeypatch, capsys, name
):
    """Each value becomes two others, one after the other, or is taken away. `pit` is a script that
    says at once what it said of the sound bundle."""
    verdicts = json.loads((copy / "verdicts.json").read_text())
    said = "\n".join(f"{v['factor']}) echo ACCEPTED {v['count']} {v['worth']};;" for v in verdicts)
    (tmp_path / "pit").write_text(
        f"#!/bin/sh\ncase $1 in\ncheck) case $(sed -n 's/^PRICE MILL //p') in\n{said}\nesac;;\n*) echo pit;;\nesac\n"
    )
    (tmp_path / "pit").chmod(0o755)
    monkeypatch.setattr(recheck, "HERE", copy)
    text = (copy / name).read_text()
    sound = json.loads(text) if name.endswith(".json") else tomllib.loads(text)
    for n, at in enumerate(place for place in places_of(sound) if place):
        for value in (VALUES[n % len(VALUES)], VALUES[(7 * n + 3) % len(VALUES)], places_of):
            found = deepcopy(sound)
            *way, last = at
            inner = reduce(lambda of, key: of[key], way, found)
            if value is places_of:
                del inner[last]
            else:
                inner[last] = value
            (copy / name).write_text(
                json.dumps(found)
                if name.endswith(".json")
                else "".join(f"{json.dumps(key)} = {as_toml(of)}\n" for key, of in found.items())
            )
            recheck.check_all(recheck.Report(), str(tmp_path / "pit"), False)
            lines = capsys.readouterr().out.splitlines()
            assert f"WRONG   sha256 of {name}" in lines, (at, value, lines)
            assert not any(NAME_OF_AN_ERROR.search(line) for line in lines), (at, value, lines)


def test_a_formula_divides_as_numpy_does_where_another_value_is_taken(tmp_path):
    """A share of nothing is infinite, and where() passes it over, as numpy's does."""
    frame = mines.table(7, 6, 4, 3)
    assert (frame.CU == 0).any()
    text = mines.STUDY_TOML.replace(
        "mining = 2.0",
        'mining = "where(CU > 0, 2 + 0.001 / CU + sqrt(CU - 0.0), where(CU > 0, sqrt(0 - CU - 1), 2.5) + where(CU > 1, CU ** -1, 0)) + where(CU >= 0, 0, 10 ** (400 + CU))"',
    )
    lines, status = rechecked(bundled(tmp_path, text, frame))
    assert status == 0, lines


def test_a_series_may_begin_at_factor_0(tmp_path):
    """Its pit is the one of no block, which lies within each other."""
    lines, status = rechecked(
        bundled(tmp_path, mines.STUDY_TOML.replace("[0.6, 1.0, 1.2]", "[0.0, 0.6, 1.0]"))
    )
    assert status == 0, lines


def test_marks_with_a_comma_are_numbers(tmp_path):
    """As -99,0 in study.toml of a table with decimal commas, where a cell is -99 or -99,00."""
    frame = mines.table(7, 6, 4, 3)
    frame.loc[[3, 9], "CU"] = -99
    written = (
        frame.to_csv(sep=";", decimal=",", index=False)
        .replace(";-99,0;", ";-99,00;", 1)
        .replace(";-99,0;", ";-99;", 1)
    )
    assert ";-99,00;" in written
    assert ";-99;" in written
    told_at = mines.written_study(
        tmp_path, frame, mines.STUDY_TOML.replace("size =", 'absent = ["-99,0"]\nsize =')
    )
    (tmp_path / "t.csv").write_text(written)
    plan = read_study_file(told_at)
    study = Study.create(
        plan.path.parent, plan.read_model(), plan.economics, plan.slopes, keys=plan.digest
    )
    bundle.write_bundle(
        study.shells(plan.factors),
        tmp_path / "b",
        plan.path,
        plan.keys.dialect(plan.table),
        plan.rates,
    )
    lines, status = rechecked(tmp_path / "b")
    assert status == 0, lines


def test_a_packed_table_that_unpacks_without_end_is_not_read_on(copy):
    with gzip.open(copy / "table" / "t.csv.gz", "wb", 9) as file:
        for _ in range(80):
            file.write(bytes(1 << 20))
    told_otherwise("facts.json", "table", value="table/t.csv.gz")(copy)
    summed(copy)
    lines, status = rechecked(copy)
    assert status == 1, lines
    assert any("it unpacks to more than a table can have" in line for line in lines), lines


def test_letters_that_a_terminal_has_not_are_no_fault_of_the_bundle(tmp_path):
    folder = bundled(
        tmp_path, mines.STUDY_TOML.replace("mining = 2.0", 'currency = "€"\nmining = 2.0')
    )
    ran = subprocess.run(
        [sys.executable, str(folder / "recheck.py"), os.environ["PIT"]],
        capture_output=True,
        text=True,
        env={**os.environ, "PYTHONIOENCODING": "ascii"},
    )
    assert ran.returncode == 0, ran.stdout
    assert "amounts are in ?" in ran.stdout, ran.stdout


def walls(folder):
    """What recheck.py says of each region's wall: degrees steeper and flatter than study.toml asks."""
    ran = subprocess.run(
        [sys.executable, "-I", str(folder / "recheck.py"), os.environ["PIT"]],
        capture_output=True,
        text=True,
    )
    return ran.returncode, [
        (kind, region, float(steeper), float(flatter))
        for kind, region, steeper, flatter in re.findall(
            r"(?m)^(look|WRONG) +the slopes of (\w+): .* at most ([\d.]+) degrees steeper and ([\d.]+) flatter",
            ran.stdout,
        )
    ]


@pytest.mark.parametrize("angles", ["45", "[[0, 38], [90, 45], [300, 42]]"])
def test_the_walls_of_the_offsets_are_held_against_the_angles(tmp_path, angles):
    """The figures are those of `pitplan slopes`; and another angle in study.toml shows."""
    text = RICH.replace("angles = 45", f"angles = {angles}")
    folder = bundled(tmp_path, text, mines.table(7, 6, 4, 3, 30))
    file = read_study_file(folder.parent).slopes
    status, found = walls(folder)
    assert status == 0
    assert [name for _, name, *_ in found] == ["default", "WEST"]
    for (_, name, steeper, flatter), pattern in zip(
        found, file.patterns(Study(folder.parent).model.grid).values()
    ):
        outline = offsets.Outline(pattern.wall, pattern.offsets)
        error = offsets.error_of(pattern.wall, outline, is_safe=True)
        expected = max(0, error.steepest), max(0, -error.flattest)
        assert (steeper, flatter) == pytest.approx(expected, abs=0.0051)
    replaced(folder / "study.toml", "WEST = 38", "WEST = 33")
    summed(folder)
    assert walls(folder)[1][1][2] > found[1][2] + 4.9


def test_a_region_has_the_offsets_of_its_own_angles(tmp_path):
    """Two lists that change places, and an offset that the second region alone lacks."""
    folder = bundled(tmp_path, SECTORS)
    settings = folder / "model" / "settings.toml"
    text = settings.read_text()
    first, second = re.findall(r"(?m)^    \[\[.*\],$", text)
    settings.write_text(text.replace(first, "?").replace(second, first).replace("?", second))
    told_otherwise(
        "model/manifest.json",
        "files",
        "settings.toml",
        value=hashlib.sha256(settings.read_bytes()).hexdigest(),
    )(folder)
    summed(folder)
    wrong = [line for line in rechecked(folder)[0] if "the offsets of" in line]
    assert [line.split()[:4] for line in wrong] == [["WRONG", "the", "offsets", "of"]] * 2
    settings.write_text(text.replace(second, second.replace("[0, 0, 1], ", "")))
    summed(folder)
    wrong = [line for line in rechecked(folder)[0] if "the offsets of" in line]
    assert len(wrong) == 1, wrong
    assert wrong[0].startswith("WRONG   the offsets of EAST in model/settings.toml"), wrong
    assert wrong[0].endswith("they lack [0, 0, 1]"), wrong


def test_a_wall_that_is_steeper_between_two_whole_bearings_alone_is_found(tmp_path):
    """Of an angle that is asked for at bearing 0.5 alone a list of whole bearings shows the half."""
    folder = bundled(tmp_path, mines.STUDY_TOML.replace("angles = 45", "angles = 45\nsafe = true"))
    text = "angles = [[44.9, 45], [45.5, 41], [46.1, 45], [225, 45]]"
    replaced(folder / "study.toml", "angles = 45", text)
    summed(folder)
    status, found = walls(folder)
    kind, _, steeper, _ = found[0]
    assert status == 1
    assert kind == "WRONG"
    assert steeper > 3


def test_a_wall_that_is_steeper_than_a_safe_one_is_found(tmp_path):
    folder = bundled(tmp_path, mines.STUDY_TOML.replace("angles = 45", "angles = 45\nsafe = true"))
    assert walls(folder) == (0, [("look", "default", 0.0, walls(folder)[1][0][3])])
    replaced(folder / "study.toml", "angles = 45", "angles = 42")
    summed(folder)
    assert walls(folder)[0] == 1
    assert walls(folder)[1][0][0] == "WRONG"


@pytest.mark.parametrize("shape", [(5, 4, 3), (9, 8, 5)])
def test_a_certificate_of_another_mine_is_told_in_words(copy, tmp_path, shape):
    """Of a smaller one, and of a larger one: the pits after it are looked at all the same."""
    other = mines.study_of(tmp_path, mines.table(*shape, 1))
    other.run(1000)
    shutil.copy(other.place(1000) / "best.cert.gz", copy / "certificates" / "f01000.cert.gz")
    lines, status = rechecked(copy)
    blocks = [
        len((folder / "mine.blocks").read_text().splitlines())
        for folder in (other.blocks_file.parent, copy / "model")
    ]
    found = [
        line
        for line in lines
        if "another mine, of {:,} blocks, and the model has {:,}".format(*blocks) in line
    ]
    assert status == 1, lines
    assert blocks[0] != blocks[1], lines
    assert len(found) == 1, lines
    assert "at factor 1:" in found[0], lines
    assert any("blocks that the model hasn't" in line for line in lines) == (
        blocks[0] > blocks[1]
    ), lines
    assert not any("Error" in line for line in lines), lines
    assert any("tables/pit_by_pit.csv" in line for line in lines), lines
    assert not any("at factor 1.2" in line for line in lines), lines


def test_no_name_leads_out_of_the_bundle(copy, tmp_path):
    outside = tmp_path / "outside"
    outside.write_text("x")
    digest = hashlib.sha256(b"x").hexdigest()
    sums = (copy / bundle.SUMS).read_text()
    for name in ("../outside", str(outside), "table/../../outside", "link"):
        if name == "link":
            (copy / "link").symlink_to(outside)
        (copy / bundle.SUMS).write_text(sums + f"{digest}  {name}\n")
        lines, status = rechecked(copy)
        assert status == 1, (name, lines)
        assert any("leads out of the bundle" in line for line in lines), (name, lines)


def test_a_certificate_that_unpacks_without_end_is_not_read_on(copy):
    path = copy / "certificates" / "f01000.cert.gz"
    with gzip.open(path, "wb", 9) as file:
        for _ in range(60):
            file.write(bytes(1 << 20))
    ways = ", ".join(f"[{n}, 0, 1]" for n in range(4000))
    for damage in (
        lambda: None,
        lambda: replaced(copy / "model" / "settings.toml", "    [[", f"    [{ways}, ["),
    ):  # nor where the sender lists offsets that lead to no block
        damage()
        summed(copy)
        lines, status = rechecked(copy)
        assert status == 1, lines
        assert any("unpacks to more than" in line for line in lines), lines


SECTORS = mines.STUDY_TOML.replace(
    "angles = 45", 'angles = 45\nlevels = 2\nby = "SECTOR"\nregions = { EAST = 32 }'
)


def test_predecessors_are_looked_up_by_the_offsets_of_each_block_s_own_region(
    tmp_path, monkeypatch
):
    folder = bundled(tmp_path, SECTORS)
    monkeypatch.setattr(recheck, "HERE", folder)
    blocks = recheck.Blocks()
    wanted = mines.predecessors(folder / "model")
    assert [blocks.above(b) for b in range(len(wanted))] == wanted
    assert sum(map(len, wanted)) <= blocks.most_pairs()
    for region, offsets in enumerate(blocks.slopes):  # each of them leads to a block somewhere
        own = {
            tuple(q - p for p, q in zip(blocks.places[b], blocks.places[above]))
            for b, on in enumerate(wanted)
            for above in on
            if blocks.region(b) == region
        }
        assert own == set(map(tuple, offsets))
    regions = [blocks.region(b) for b in range(len(wanted))]
    assert any(regions[b] < regions[p] for b, on in enumerate(wanted) for p in on)
    assert any(regions[b] > regions[p] for b, on in enumerate(wanted) for p in on)


def test_slopes_of_several_regions_without_a_column_of_them_are_found(tmp_path):
    """All blocks would have the slopes of the first, whatever their rows name; and nothing else
    contradicts that."""
    folder = bundled(tmp_path, SECTORS)
    replaced(folder / "model" / "settings.toml", "region = 4\n", "")
    blocks = folder / "model" / "mine.blocks"
    lines = [line.rsplit(" ", 1)[0] for line in blocks.read_text().splitlines()]
    blocks.write_text("".join(f"{line}\n" for line in lines))
    count = len(lines)
    told_otherwise("model/manifest.json", "regions", value={"default": count, "EAST": 0})(folder)
    summed(folder)
    lines, status = rechecked(folder)
    assert status == 1
    assert any(
        line.startswith("WRONG   each block is in the region of slopes that its row names: not so")
        for line in lines
    ), lines


def test_a_block_of_no_region_is_told(tmp_path):
    folder = bundled(tmp_path, SECTORS)
    cell_of("model/mine.blocks", 4, 8, "2")(folder)
    summed(folder)
    lines, status = rechecked(folder)
    assert status == 1
    assert any(
        "the region of block 4 is '2', and has to be a number of the 2 slopes" in line
        for line in lines
    ), lines


@pytest.mark.parametrize(
    "name",
    ["README.txt", "verdicts.json", "table/t.csv", "certificates/f01000.cert.gz", bundle.SUMS],
)
def test_a_pipe_among_the_files_is_refused_and_not_waited_for(copy, name):
    (copy / name).unlink()
    os.mkfifo(copy / name)
    ran = subprocess.run(
        [sys.executable, "-I", str(copy / "recheck.py"), os.environ["PIT"]],
        capture_output=True,
        text=True,
        timeout=60,
    )
    assert ran.returncode == 1, ran.stdout
    assert f"{name} is no regular file" in ran.stdout, ran.stdout
    assert "Traceback" not in ran.stderr, ran.stdout


def test_bytes_for_a_terminal_are_not_printed(copy):
    replaced(copy / "verdicts.json", '"worth": "', '"worth": "\\u001b[2J')
    summed(copy)
    ran = subprocess.run(
        [sys.executable, str(copy / "recheck.py"), os.environ["PIT"]], capture_output=True
    )
    assert ran.returncode == 1
    assert b"\x1b" not in ran.stdout


def test_no_path_of_the_planner_s_machine_is_in_it(tmp_path):
    """Where the table lies far from the study, the study names it by its whole path; the bundle, by
    its place in the bundle."""
    (tmp_path / "data").mkdir()
    mines.table(7, 6, 4, 3).to_csv(tmp_path / "data" / "t.csv", index=False)
    folder = bundled(
        tmp_path / "a" / "b" / "c", mines.STUDY_TOML.replace('"t.csv"', f'"{tmp_path}/data/t.csv"')
    )
    assert (
        json.loads((folder.parent / "model" / "manifest.json").read_text())["source"]["table"]
        == f"{tmp_path}/data/t.csv"
    )
    files = [
        path for path in folder.rglob("*") if path.is_file() and path.name != "study.toml"
    ]  # that one as the planner wrote it
    assert len(files) > 10
    assert not [path for path in files if str(tmp_path) in path.read_text("latin-1")]
    source = json.loads((folder / "model" / "manifest.json").read_text())["source"]
    assert hashlib.sha256((folder / source["table"]).read_bytes()).hexdigest() == source["sha256"]
    assert rechecked(folder)[1] == 0


def test_a_folder_that_is_there_is_left_alone(whole, tmp_path):
    (tmp_path / "there").mkdir()
    plan = read_study_file(whole.parent)
    with pytest.raises(PlanError, match="is there already"):
        bundle.write_bundle(
            Study(whole.parent).shells(plan.factors),
            tmp_path / "there",
            plan.path,
            plan.keys.dialect(plan.table),
        )
    assert not list((tmp_path / "there").iterdir())


def test_a_table_that_has_changed_since_is_not_bundled(tmp_path):
    plan = read_study_file(mines.written_study(tmp_path / "s"))
    shells = Study.create(
        plan.path.parent, plan.read_model(), plan.economics, plan.slopes, keys=plan.digest
    ).shells(plan.factors)
    plan.table.write_text(plan.table.read_text().replace("SUL", "OXI", 1))
    with pytest.raises(
        PlanError, match="the table that the study was built from isn't there any more"
    ):
        bundle.write_bundle(
            shells, tmp_path / "b", plan.path, plan.keys.dialect(plan.table), plan.rates
        )
    assert not (tmp_path / "b").exists()


def test_the_command(whole, tmp_path):
    top = Path(__file__).resolve().parents[3]
    ran = subprocess.run(
        [str(top / "bin" / "pitplan"), "bundle", str(whole.parent), str(tmp_path / "b")],
        capture_output=True,
        text=True,
    )
    assert ran.returncode == 0, ran.stderr
    digest = hashlib.sha256((tmp_path / "b" / bundle.SUMS).read_bytes()).hexdigest()
    assert digest in ran.stdout
    assert rechecked(tmp_path / "b")[1] == 0
