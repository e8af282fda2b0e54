"""The model as MineLib's files: the pairs against a plain search, the values against the text that
`pit` reads, and the pit of the three files against that of the two."""
import subprocess
import tomllib
from decimal import Decimal

import pytest

import pitplan as pp
from mines import STUDY_TOML, pairs_of, places_of, predecessors, rows_of, table, written_study
from served import pitplan

TEXT = STUDY_TOML.replace(
    "angles = 45", 'angles = 45\nlevels = 4\nby = "SECTOR"\nregions = { EAST = 36 }'
).replace("mining = 2.0", "mining = 2.0\nrounding = 0.01")


@pytest.fixture(scope="module")
def exported(tmp_path_factory):
    """A study of two regions, built; no pit of it was found."""
    folder = written_study(tmp_path_factory.mktemp("m") / "s", table(7, 6, 4, 3), TEXT)
    assert pitplan("build", folder).returncode == 0
    return folder, pitplan("export", folder, "--to", "minelib")


def test_the_pairs_are_those_of_each_block_s_own_region(exported):
    """By the two texts; and by the planner's own table, whose SECTOR says which slope a row has."""
    folder, ran = exported
    assert ran.returncode == 0, ran.stderr
    lines = (folder / "out/mine.prec").read_text().splitlines()
    found = [list(map(int, line.split())) for line in lines]
    wanted = predecessors(folder / "model")
    assert found == [[block, len(on), *on] for block, on in enumerate(wanted)]
    rows = rows_of(folder / "t.csv")
    at = {place: row for row, place in enumerate(places_of(rows))}
    slopes = tomllib.loads((folder / "model/settings.toml").read_text())["slopes"]
    for (x, y, z), row in at.items():
        ways = slopes[rows[row]["SECTOR"] == "EAST"]
        above = {at.get((x + i, y + j, z + k)) for i, j, k in ways} - {None}
        assert {block for block in found[row][2:] if block < len(rows)} == above  # else added air
    assert f"{len(pairs_of(folder / 'model')):,} pairs of a block and a predecessor" in ran.stdout
    assert (folder / "out/mine.blocks").read_bytes() == (folder / "model/mine.blocks").read_bytes()


def test_the_values_are_those_at_the_full_price(exported):
    folder, _ = exported
    lines = (folder / "out/mine.upit").read_text().splitlines()
    rows = [line.split() for line in (folder / "model/mine.blocks").read_text().splitlines()]
    worths = [max(Decimal(r[4]) - Decimal(r[5]), Decimal(0)) - Decimal(r[6]) for r in rows]
    at = lines.index("OBJECTIVE_FUNCTION:")
    assert f"NBLOCKS: {len(rows)}" in lines[:at]
    assert lines[-1] == "EOF"
    found = [line.split() for line in lines[at + 1 : -1]]
    assert [(int(b), Decimal(v)) for b, v in found] == list(enumerate(worths))
    assert any("." in v for _, v in found)


def test_the_pit_of_the_three_files_is_that_of_the_two(exported, program):
    folder, _ = exported
    words = ["--prec", folder / "out/mine.prec", "--upit", folder / "out/mine.upit"]
    ran = subprocess.run([program, "solve", *words], capture_output=True, text=True, check=True)
    held = [int(line[4:]) for line in ran.stdout.splitlines() if line.startswith("PIT ")]
    assert held == pp.Study(folder).pit(1.0).blocks.tolist()


def test_no_other_file_of_a_study_lists_pairs(exported):
    folder, _ = exported
    assert [path.relative_to(folder).as_posix() for path in folder.rglob("*.prec")] == [
        "out/mine.prec"
    ]


def test_files_that_arent_those_of_the_build_are_not_exported(tmp_path):
    folder = written_study(tmp_path / "s")
    assert pitplan("build", folder).returncode == 0
    path = folder / "model/settings.toml"
    path.write_text(path.read_text().replace("[0, 0, 1]", "[0, 1, 1]", 1))
    ran = pitplan("export", folder, "--to", "minelib")
    assert ran.returncode == 3, ran.stderr
    assert "isn't the file that the build made" in ran.stderr
    assert not (folder / "out/mine.prec").exists()
