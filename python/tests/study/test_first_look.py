"""What `pitplan init` finds in a table, and the study.toml that it writes."""
import tomllib

import numpy as np
import pytest

from mines import table
from pitplan.study import first_look
from pitplan.base.errors import PlanError
from pitplan.study.study_file import read_study_file
from served import pitplan


@pytest.mark.parametrize("angle", [0.0, 30.0, -17.5, 44.0])
@pytest.mark.parametrize("size", [(20, 20, 15), (25, 10, 5), (10, 25, 12.5)])
def test_init_finds_the_grid(tmp_path, angle, size):
    table(9, 8, 4, 3, rotation=angle, size=size).to_csv(tmp_path / "t.csv", index=False)
    look = first_look.look_at(tmp_path / "t.csv")
    assert look.size == pytest.approx(size)
    assert look.rotation == pytest.approx(angle, abs=0.01)


def test_init_sees_marks_sub_blocks_and_descriptions(tmp_path):
    f = table(6, 5, 3, 3).assign(XINC=20.0, YINC=20.0, ZINC=15.0)
    f.loc[4, "CU"] = -99
    f.loc[3, "XINC"] = 10.0
    lines = f.to_csv(index=False).splitlines(keepends=True)
    (tmp_path / "t.csv").write_text(lines[0] + "Variable types:,,,,,,,,,,,\n" + "".join(lines[1:]))
    look = first_look.look_at(tmp_path / "t.csv")
    assert look.absent == ["-99"]
    assert look.has_sub_blocks
    assert look.size == (20, 20, 15)
    assert look.dialect.skip == 1
    text = first_look.written(look, "t.csv")
    (tmp_path / "study.toml").write_text(text)
    file = read_study_file(tmp_path)
    assert file.keys.absent == ["-99"]
    assert file.keys.regularise


def test_init_tells_marks_of_nines_and_each_of_several(tmp_path):
    f = table(6, 5, 3, 3)
    f.loc[4, "CU"], f.loc[7, "CU"], f.loc[9, "AU"] = -9, -99, -9
    f.to_csv(tmp_path / "t.csv", index=False)
    look = first_look.look_at(tmp_path / "t.csv")
    assert sorted(look.absent) == ["-9", "-99"]
    assert {"CU", "AU"} <= set(look.grades)
    notes = [note for note in look.notes if "not estimated" in note]
    assert notes == [
        '-99 stands for "not estimated" in CU, and counts as 0',
        '-9 stands for "not estimated" in CU, AU, and counts as 0',
    ]
    (tmp_path / "study.toml").write_text(first_look.written(look, "t.csv"))
    model = read_study_file(tmp_path).read_model()
    assert model.blocks.CU.min() >= 0
    f.loc[7, "CU"] = -8  # no such mark, so none of the others either: `build` names its row
    f.to_csv(tmp_path / "t.csv", index=False)
    assert first_look.look_at(tmp_path / "t.csv").absent == ["-9"]


def test_init_names_rocks_without_the_blanks_around_them(tmp_path):
    """As `build` reads them; else the rocks that init shows are none that the model has."""
    f = table(6, 5, 3, 3)
    f.loc[::2, "ROCK"] += "  "
    f.to_csv(tmp_path / "t.csv", index=False)
    assert sorted(first_look.look_at(tmp_path / "t.csv").rocks) == ["OXI", "SUL"]


def test_init_offers_no_mark_where_a_place_is_none(tmp_path):
    f = table(4, 4, 3, 3).astype({"XC": object})
    f.loc[3, "XC"] = ""
    f.to_csv(tmp_path / "t.csv", index=False)
    with pytest.raises(
        PlanError,
        match="row 5, column XC: the cell is empty\n  try: fill its place in, or take the row out",
    ):
        first_look.look_at(tmp_path / "t.csv")


@pytest.mark.parametrize(
    "column, values, wanted",
    [
        ("SECTOR", None, ("SECTOR", ["EAST", "WEST"])),
        ("Dominio geotécnico", None, ("Dominio geotécnico", ["EAST", "WEST"])),
        ("GEOTECH", [1, 2, None], ("GEOTECH", ["1", "2"])),
        ("Géotech Dom.", None, ("Géotech Dom.", ["EAST", "WEST"])),
        ("CLASS", None, ("", [])),
        ("SECTOR", [f"S{n}" for n in range(13)], ("", [])),
        ("SECTOR", ["all"], ("", [])),
    ],
)
def test_init_names_the_column_of_regions(tmp_path, column, values, wanted):
    f = table(6, 5, 4, 3)
    f = f.rename(columns={"SECTOR": column}).assign(
        **({column: np.resize(np.array(values, object), len(f))} if values else {})
    )
    f.to_csv(tmp_path / "t.csv", index=False)
    look = first_look.look_at(tmp_path / "t.csv")
    assert (look.region, look.regions) == wanted
    if (
        look.region
    ):  # with the marks of comments taken away it is a study whose slopes go by that column
        text = (
            first_look.written(look, "t.csv")
            .replace('# by = "', 'by = "')
            .replace("# regions = {", "regions = {")
        )
        (tmp_path / "study.toml").write_text(text)
        slopes = read_study_file(tmp_path).slopes
        assert slopes.by == column
        assert dict(slopes.regions) == dict.fromkeys(look.regions, 45)
        said = pitplan("init", "t.csv", cwd=tmp_path)
        assert (
            f"regions of slopes, if you want them: {column} ({', '.join(look.regions)})"
            in said.stdout
        ), said.stderr


@pytest.mark.parametrize(
    "code, wanted",
    [
        (lambda f: np.where(f.XC < 5060, 101, 205), ["101", "205"]),
        (lambda f: np.where(f.XC < 5060, 1.0, np.nan) + (f.YC > 9040), ["1", "2"]),
        (lambda f: np.where(f.ZC < 130, 1, 2), []),  # as rock
        (lambda f: np.arange(len(f)) % 3 + 1, []),  # as a class of resources
        (lambda f: np.where(f.XC < 5060, 0, 1), []),  # as a flag
        (lambda f: np.where(f.XC < 5060, 1.5, 2.5), []),
        (lambda f: f.XC * 100 + f.YC, []),
    ],
    ids=["codes", "with empty cells", "by level", "mixed", "yes and no", "halves", "many"],
)
def test_init_names_a_column_of_codes_that_go_up(tmp_path, code, wanted):
    """A name says nothing here: whole numbers that are the same over whole columns are offered, and
    others aren't."""
    f = table(6, 5, 4, 3).drop(columns="SECTOR")
    f.assign(GTC=code(f)).to_csv(tmp_path / "t.csv", index=False)
    look = first_look.look_at(tmp_path / "t.csv")
    assert look.regions == wanted
    assert look.region == ("GTC" if wanted else "")


def test_the_numbers_of_many_sectors_are_no_grade(tmp_path):
    f = table(6, 5, 4, 3)
    f.assign(SECTOR=np.arange(len(f)) % 14).to_csv(tmp_path / "t.csv", index=False)
    assert first_look.look_at(tmp_path / "t.csv").grades == ["CU", "AU"]


def test_no_cell_of_a_table_ends_a_line_of_study_toml(tmp_path):
    """A cell may have several lines; in study.toml the second would be a line of its own, as a
    price."""
    f = table(6, 5, 4, 3)
    f["ROCK"], f["SECTOR"] = f.ROCK + '"]\nforbid = ["1 > 0"]\n#', f.SECTOR + "\nsafe = true"
    f.to_csv(tmp_path / "t.csv", index=False)
    look = first_look.look_at(tmp_path / "t.csv")
    assert any("\n" in rock for rock in look.rocks)
    assert any("\n" in name for name in look.regions)
    (tmp_path / "study.toml").write_text(first_look.written(look, "t.csv"))
    file = read_study_file(tmp_path)
    assert not file.economics.forbid
    assert not file.slopes.safe


def test_a_metal_with_a_few_grades_below_0_is_still_a_metal(tmp_path):
    f = table(6, 5, 3, 3)
    f.loc[4, "CU"], f.loc[7, "CU"] = -0.004, -0.003
    f.to_csv(tmp_path / "t.csv", index=False)
    look = first_look.look_at(tmp_path / "t.csv")
    assert "CU" in look.grades
    assert 'grade = "CU"' in first_look.written(look, "t.csv")


def test_a_metal_with_unknown_words_among_its_grades_is_told(tmp_path):
    f = table(6, 5, 4, 3)
    f["CU"] = f.CU.astype(object)
    f.loc[7, "CU"] = "pendiente"
    f.to_csv(tmp_path / "t.csv", index=False)
    look = first_look.look_at(tmp_path / "t.csv")
    assert "CU" in look.grades
    assert look.absent == []
    assert any(
        "column CU, row 9: the cell is no number: it is 'pendiente'" in note for note in look.notes
    )


@pytest.mark.parametrize(
    "rocks, oxides, sulphides",
    [
        (["OXI", "SUL"], ["OXI"], ["SUL"]),
        (["Oxide", "sulphide", "waste"], ["Oxide"], ["sulphide"]),
        (["OX_N", "OX_S", "SULF"], ["OX_N", "OX_S"], ["SULF"]),
        (["OXIDOS", "SULFUROS"], ["OXIDOS"], ["SULFUROS"]),
        (["OXI", "FRESH"], [], []),
        (["BOX", "SULTAN"], [], []),
        (["SUL"], [], ["SUL"]),
    ],
)
def test_rocks_that_are_called_oxide_and_sulphide(tmp_path, rocks, oxides, sulphides):
    frame = table(6, 5, 3, 3)
    frame["ROCK"] = [rocks[i % len(rocks)] for i in range(len(frame))]
    frame.to_csv(tmp_path / "t.csv", index=False)
    look = first_look.look_at(tmp_path / "t.csv")
    assert (sorted(look.oxides), sorted(look.sulphides)) == (oxides, sulphides)
    text = first_look.written(look, "t.csv")
    assert ("[[economics.processes]]" in text) == bool(oxides)
    said = pitplan("init", str(tmp_path / "t.csv"), "--study", str(tmp_path / "s")).stdout
    assert ("processes, if you want them: " in said) == bool(oxides)


@pytest.mark.parametrize("more", [["MIXED"], ["MIXED", "TRANS"], [f"R{i}" for i in range(20)]])
def test_no_rock_is_left_out_of_the_processes_that_init_offers(tmp_path, more):
    """What is neither oxide nor sulphide goes to the mill; of very many rocks, all by no list."""
    frame, rocks = table(9, 8, 5, 5), ["OXI", "SUL", *more]
    weights = [9, 9, *(1 for _ in more)]
    kinds = [rock for rock, weight in zip(rocks, weights) for _ in range(weight)]
    frame["ROCK"] = [kinds[i % len(kinds)] for i in range(len(frame))]
    frame.to_csv(tmp_path / "t.csv", index=False)
    text = first_look.written(first_look.look_at(tmp_path / "t.csv"), "t.csv")
    lines = [line[2:] for line in text.split("\n") if line.startswith("# ")]
    offered = lines[lines.index("[[economics.processes]]") :]
    mill, leach = offered[: offered.index('name = "leach"')], offered
    listed = [line for line in mill if line.startswith("rocks = ")]
    assert listed or len(more) == 20
    for line in listed:
        assert sorted(tomllib.loads(line)["rocks"]) == sorted(rocks)
    assert 'rocks = ["OXI"]' in leach


def mostly_below(frame, column, share, limits):
    """A table with the cells of a column below detection in so many of its rows, a limit after the
    other; and how many these are."""
    count = round(share * len(frame))
    said = frame[column].astype(object)
    said.iloc[:count] = [limits[n % len(limits)] for n in range(count)]
    return frame.assign(**{column: said}), count


@pytest.mark.parametrize("mark, form", [("<0.01", {}), ("<0,01", {"sep": ";", "decimal": ","})])
def test_a_grade_that_is_mostly_below_detection_is_one_and_is_counted(tmp_path, mark, form):
    known = table(6, 5, 4, 3)
    frame, count = mostly_below(known, "AU", 0.7, [mark])
    frame.to_csv(tmp_path / "t.csv", index=False, **form)
    look = first_look.look_at(tmp_path / "t.csv")
    assert look.grades == ["CU", "AU"]
    assert look.absent == [mark]
    assert f'{mark} stands for "not estimated" in AU, and counts as 0' in look.notes
    assert [note for note in look.notes if "below detection" in note] == [
        f"{count} of {len(frame)} cells of AU are below detection, as {mark}, and count as 0, by"
        " absent in study.toml: where they are to count for more, write numbers into the table"
    ]
    (tmp_path / "study.toml").write_text(first_look.written(look, "t.csv"))
    file = read_study_file(tmp_path)
    assert [metal.grade for metal in file.economics.metals] == ["CU", "AU"]
    assert file.read_model().blocks.AU.sum() == pytest.approx(known.AU.iloc[count:].sum())


def test_init_says_how_many_cells_are_below_detection(tmp_path):
    frame, count = mostly_below(table(6, 5, 4, 3), "AU", 0.7, ["<0.01", "<0.005"])
    frame.to_csv(tmp_path / "t.csv", index=False)
    ran = pitplan("init", "t.csv", cwd=tmp_path)
    assert "grades: CU, AU\n" in ran.stdout, ran.stderr
    assert f"{count} of {len(frame)} cells of AU are below detection, as <0.005" in ran.stderr
    assert 'absent = ["<0.005", "<0.01"]' in (tmp_path / "t" / "study.toml").read_text()


def test_where_few_cells_are_below_detection_they_are_told_as_other_marks_are(tmp_path):
    frame, _ = mostly_below(table(6, 5, 4, 3), "AU", 0.2, ["<0.01"])
    frame.to_csv(tmp_path / "t.csv", index=False)
    look = first_look.look_at(tmp_path / "t.csv")
    assert look.notes == ['<0.01 stands for "not estimated" in AU, and counts as 0']


def test_classes_that_begin_with_less_than_are_words(tmp_path):
    """`<10` is the commonest of three classes of depth, and no grade below detection."""
    frame = table(6, 5, 4, 3)
    classes = ["<10", "<10", "<10", "10-20", ">20"]
    frame["DEPTH"] = [classes[n % 5] for n in range(len(frame))]
    frame.to_csv(tmp_path / "t.csv", index=False)
    look = first_look.look_at(tmp_path / "t.csv")
    assert look.grades == ["CU", "AU"]
    assert (look.absent, look.notes) == ([], [])


def test_a_tonnage_factor_in_cubic_feet_is_no_copper(tmp_path):
    """Columns as a package of short tons names them: what is tried keeps the words that were typed."""
    names = {"XC": "East (ft)", "YC": "North (ft)", "ZC": "Elev (ft)", "TONNES": "TF cu ft/st"}
    frame = table(5, 4, 3, 3).rename(columns={**names, "CU": "Ag opt"})
    frame.to_csv(tmp_path / "t.csv", index=False)
    asked = pitplan("init", "t.csv", "--study", "my mine", cwd=tmp_path)
    words = "init t.csv --study 'my mine' --column 'x=East (ft)' --column 'y=North (ft)'"
    assert words in asked.stderr
    given = dict(x="East (ft)", y="North (ft)", z="Elev (ft)")
    look = first_look.look_at(tmp_path / "t.csv", given)
    assert "copper" not in first_look.written(look, "t.csv")
    assert 'grade = "Ag opt", grade_unit = "oz/st"' in first_look.written(look, "t.csv")
