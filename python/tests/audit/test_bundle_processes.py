"""A bundle of a study with several processes holds, and whatever is changed of where blocks go is
found, with digests made again."""
import csv
import hashlib
import json
import re
import shutil
from pathlib import Path

import pytest

import two_ways
from bundles import bundled, rechecked, summed


@pytest.fixture(scope="module")
def whole(tmp_path_factory):
    return bundled(tmp_path_factory.mktemp("bundle"), two_ways.TEXT, two_ways.frame())


def test_it_holds_and_each_certificate_is_checked_plainly(whole):
    lines, status = rechecked(whole, "--plainly")
    assert status == 0, lines
    assert len(lines) == 1, lines
    assert lines[0].startswith("everything that was looked at holds"), lines


def test_it_holds_where_tables_by_rock_say_nothing_of_rocks_that_a_process_does_not_take(tmp_path):
    text = two_ways.TEXT.replace('"3.0 + 0.002 * (160 - ZC)"', "{ OXI = 3.4 }")
    text = text.replace('copper = "0.45 + 0.1 * min(CU, 1)"', "copper = { OXI = 0.5 }")
    assert text.count("{ OXI = 3.4 }") == text.count("{ OXI = 0.5 }") == 1
    folder = bundled(tmp_path, text, two_ways.frame())
    assert rechecked(folder)[1] == 0
    of_toml("{ OXI = 3.4 }", "{ OXI = 3.5 }")(folder)
    summed(folder)
    lines, status = rechecked(folder)
    assert status == 1
    assert any("what each block brings and costs" in line for line in lines), lines


def of_toml(was, now):
    """Another study.toml."""

    def change(folder):
        path = folder / "study.toml"
        text = path.read_text()
        assert was in text
        path.write_text(text.replace(was, now))

    return change


def of_cell(table, column, value):
    """Another value in a column of a table, of its third line."""

    def change(folder):
        path = folder / "tables" / table
        with open(path, newline="") as file:
            rows = list(csv.DictReader(file))
        rows[2][column] = str(value(float(rows[2][column])))
        with open(path, "w", newline="") as file:
            writer = csv.DictWriter(file, list(rows[0]))
            writer.writeheader()
            writer.writerows(rows)

    return change


def of_model(swap):
    """Other columns in model/mine.blocks."""

    def change(folder):
        path = folder / "model" / "mine.blocks"
        lines = [line.split() for line in open(path)]
        path.write_text("".join(" ".join(swap(line)) + "\n" for line in lines))
        for_manifest(folder, "mine.blocks")

    return change


def for_manifest(folder, name):
    """The digest of a file of the model, as the manifest has it."""
    path = folder / "model" / "manifest.json"
    manifest = json.loads(path.read_text())
    manifest["files"][name] = hashlib.sha256((folder / "model" / name).read_bytes()).hexdigest()
    path.write_text(json.dumps(manifest))


def one_way(folder):
    """Settings that name the mill alone: the leach is never tried."""
    path = folder / "model" / "settings.toml"
    text = path.read_text()
    path.write_text(re.sub(r", \{ revenue = 2, processing = 3 \}", "", text))
    assert path.read_text() != text
    for_manifest(folder, "settings.toml")


@pytest.mark.parametrize(
    "change, said",
    [
        (of_toml("gold = 0 }", "gold = 0.1 }"), "what each block brings and costs"),
        (of_toml("payable = { copper = 0.99 }", ""), "what each block brings and costs"),
        (of_toml("dilution = 0\n", ""), "what each block brings and costs"),
        (of_toml('rocks = ["OXI"]', ""), "what each block brings and costs"),
        (of_toml("mining_recovery = 0.95", ""), "what each block brings and costs"),
        (of_toml('"3.0 + 0.002', '"3.1 + 0.002'), "what each block brings and costs"),
        (of_toml('name = "leach"', 'name = "heap"'), "has the column 'process_leach_ore_t', which"),
        (of_toml("mining = 2.0", "mining = 2.0\nprocessing = 9"), "processing beside them"),
        (of_model(lambda row: [*row[:7], row[5], *row[8:]]), "what each block brings and costs"),
        (of_model(lambda row: [*row[:4], *row[6:8], *row[4:6], *row[8:]]), "brings and costs"),
        (one_way, "names other columns of mine.blocks than pitplan writes"),
        (of_cell("pit_by_pit.csv", "process_leach_ore_t", lambda v: v + 9), "pit_by_pit.csv"),
        (of_cell("pit_by_pit.csv", "process_mill_metal_gold", lambda v: v + 9), "pit_by_pit.csv"),
        (of_cell("pit_by_pit.csv", "process_leach_feed_t", lambda v: v * 1.05), "pit_by_pit.csv"),
        (of_cell("pit_by_pit.csv", "feed_t", lambda v: v * 1.01), "pit_by_pit.csv"),
        (of_cell("benches.csv", "process_mill_grade_copper", lambda v: v * 1.1), "benches.csv"),
    ],
)
def test_what_is_changed_is_found(whole, tmp_path, change, said):
    folder = Path(shutil.copytree(whole, tmp_path / "copy"))
    change(folder)
    summed(folder)
    lines, status = rechecked(folder)
    assert status == 1, lines
    assert any(said in line for line in lines if line.startswith("WRONG")), lines
