"""Which column of a table is which, by usual names and by one's own."""
import pytest

from mines import table
from pitplan.base.error_text import lines_of
from pitplan.base.errors import PlanError
from pitplan.table.column_names import misnamed, which_columns
from tables import read, refusal


PACKAGES = {
    "Datamine": dict(IJK="IJK", XC="XC", YC="YC", ZC="ZC", TONNES="TONNES", ROCK="ROCK"),
    "Vulcan": dict(
        IJK="ijk",
        XC="centroid_x",
        YC="centroid_y",
        ZC="centroid_z",
        TONNES="tonnes",
        ROCK="rocktype",
    ),
    "Surpac": dict(IJK="id", XC="x", YC="y", ZC="z", TONNES="tonnes", ROCK="rock_type"),
    "Micromine": dict(IJK="INDEX", XC="EAST", YC="NORTH", ZC="RL", TONNES="TONNES", ROCK="LITH"),
    "MineSight": dict(
        IJK="BLOCK", XC="EASTING", YC="NORTHING", ZC="ELEV", TONNES="TONS", ROCK="ROCK"
    ),
    "Portuguese": dict(
        IJK="bloco", XC="leste", YC="norte", ZC="cota", TONNES="toneladas", ROCK="rocha"
    ),
    "of a local grid": dict(XC="EW", YC="NS", ZC="RL"),
    "of a local grid, in words": dict(XC="East_West", YC="North-South", ZC="Elevation_m"),
    "of a survey": dict(XC="UTM_E", YC="UTM_N", ZC="Altitude"),
    "with units": dict(XC="EASTING_M", YC="NORTHING_M", ZC="RL_M"),
    "French": dict(IJK="bloc", XC="est", YC="nord", ZC="cote", TONNES="tonnage", ROCK="roche"),
}


@pytest.mark.parametrize("package", PACKAGES)
def test_the_usual_names_of_columns_are_known(tmp_path, package):
    f = table(4, 3, 3, 1)
    plain, found = read(tmp_path, f), read(
        tmp_path, f.rename(columns=PACKAGES[package]), package + ".csv"
    )
    for column in ("id", "ix", "iy", "iz", "tonnes", "rock", "row"):
        assert (plain.blocks[column] == found.blocks[column]).all()


@pytest.mark.parametrize(
    "change",
    [
        lambda text: text.split("\n", 1)[1],
        lambda text: "My mine\n" + text,
        lambda text: text.replace(",", "|"),
    ],
)
def test_a_first_line_that_is_no_header_is_told(tmp_path, change):
    said = refusal(tmp_path, None, text=change(table(4, 3, 3, 1).to_csv(index=False)).encode())
    assert "the first line isn't the header line" in said
    assert ".." not in said


def test_names_of_ones_own(tmp_path):
    f = table(4, 3, 3, 1).rename(columns={"XC": "Ostwert", "TONNES": "Masse", "IJK": "Nr"})
    assert "no column is known as x" in refusal(tmp_path, f)
    assert (
        read(tmp_path, f, columns={"x": "Ostwert", "tonnes": "Masse", "id": "Nr"})
        .blocks["id"]
        .str.startswith("b")
        .all()
    )
    assert "is 'Ostwert' meant?" in refusal(
        tmp_path, f, columns={"x": "Ostwerte", "tonnes": "Masse"}
    )
    assert "is 'tonnes' meant?" in refusal(tmp_path, f, columns={"tons": "Masse"})


def test_names_that_were_looked_for_are_told():
    """Those of the axes that weren't found, before what to try, in the terminal alone."""
    with pytest.raises(PlanError) as error:
        which_columns(["A", "B", "ZC", "ZONE"], {}, "t.csv")
    said, x, y, advice = lines_of(error.value)
    assert said == "t.csv: no column is known as x, y; the header line has A, B, ZC, ZONE"
    for line, key, names in ((x, "x", "xc east easting ew este"), (y, "y", "yc north ns norte")):
        start, end = f"  looked for {key} as ", ", in capitals or not"
        assert line.startswith(start)
        assert line.endswith(end)
        assert set(names.split()) <= set(line[len(start) : -len(end)].split(", "))
    assert " rl," not in x + y
    assert advice.startswith("  try: ")


def test_only_columns_that_may_have_coordinates_are_offered(tmp_path):
    """Of a table without usual names: MERID isn't like mid_x, ESTADO has words, and ESTAN grades;
    EASTINGX has coordinates, and so has PLACE-Y, by its letter, of a model that is turned."""
    f = table(6, 5, 4, 3).rename(columns={"XC": "MERID", "YC": "PARAL", "ZC": "HOEHE"})
    f["ESTADO"], f["ESTAN"] = "ok", f.CU
    assert 'x = "..", y = "..", z = ".."' in refusal(tmp_path, f)
    f["EASTINGX"] = f.MERID
    assert 'x = "EASTINGX", y = "..", z = ".."' in refusal(tmp_path, f)
    turned = table(6, 5, 4, 3, rotation=30).rename(columns={"XC": "EASTINGX", "YC": "PLACE-Y"})
    assert 'x = "..", y = "PLACE-Y"}' in refusal(tmp_path, turned).replace(" }", "}")


def test_east_west_is_x_and_north_south_is_y_where_the_usual_names_arent_there():
    assert misnamed({"x": "NS", "y": "EW", "z": "RL"}) == {"x": "y", "y": "x"}
    found = which_columns(["EW", "NS", "RL", "X", "Y"], {}, "t.csv")
    assert (found["x"], found["y"]) == ("X", "Y")


def test_unknown_keys_name_the_nearest(tmp_path):
    assert "is 'rotation' meant?" in refusal(tmp_path, table(3, 3, 2, 1), rotatoin=3)
    assert 'z is \'up\', and has to be "elevation" or "depth"' in refusal(
        tmp_path, table(3, 3, 2, 1), z="up"
    )
    assert "three numbers above 0" in refusal(tmp_path, table(3, 3, 2, 1), size=(1, 2))


def test_the_usual_spanish_names_of_ids_and_rocks():
    found = which_columns(["CODIGO", "ESTE", "NORTE", "COTA", "DENS", "LITO"], {}, "t.csv")
    assert found == {
        "id": "CODIGO",
        "x": "ESTE",
        "y": "NORTE",
        "z": "COTA",
        "density": "DENS",
        "rock": "LITO",
    }


def test_a_column_is_one_axis_alone():
    given = {"x": "E", "y": "RL m", "z": "RL m"}
    with pytest.raises(PlanError, match="column 'RL m' is named for y and z") as told:
        which_columns(["E", "N", "RL m"], given, "t.csv")
    assert told.value.key == ("model", "columns", "y")
