"""The keys of study.toml are described once: what reads, writes and documents them follows from
that description."""
import dataclasses
import re
import subprocess
import tomllib
from pathlib import Path

import pytest

import pitplan as pp
from mines import STUDY_TOML, table, written_study
from pitplan.study import first_look, study_reference, study_template
from pitplan.table import study_keys
from pitplan.model.economics import Economics, Metal
from pitplan.model.model import TableKeys
from pitplan.slopes.slopes import Slopes
from pitplan.study.study_file import read_study_file
from pitplan.table.study_keys import KEYS, METALS, SECTIONS, Key
from pitplan.base.study_lines import line_of

TOP = Path(__file__).resolve().parents[3]
PLANTED = (
    Key(
        "economics",
        "reclaim",
        "number",
        "what closing the mine costs a tonne",
        "Closure",
        "{currency} a tonne",
        least=0,
        most=9,
        default=0.25,
    ),
    Key(METALS, "premium", "number", "what is paid above the price", default=0.5),
)


@pytest.fixture
def planted(monkeypatch):
    """Two keys more in the description, and nowhere else."""
    monkeypatch.setattr(study_keys, "KEYS", (*KEYS, *PLANTED))
    for module in (study_template, study_reference):
        monkeypatch.setattr(module, "KEYS", (*KEYS, *PLANTED))


def text_of(folder):
    table(7, 6, 4, 3).to_csv(folder / "t.csv", index=False)
    return first_look.written(first_look.look_at(folder / "t.csv"), "t.csv")


def test_a_planted_key_is_everywhere(tmp_path, planted):
    text = text_of(tmp_path)
    assert re.search(r"^reclaim = 0\.25 +# what closing the mine costs a tonne$", text, re.M)
    assert "premium = 0.5 }" in text
    assert tomllib.loads(text)["economics"]["reclaim"] == 0.25
    assert (
        "| `reclaim` | what closing the mine costs a tonne | a number from 0 to 9; currency a tonne | `0.25` |\n"
        in study_reference.tables()
    )
    schema = study_reference.schema()["properties"]["economics"]["properties"]
    assert schema["reclaim"] == {
        "type": "number",
        "description": "what closing the mine costs a tonne",
        "default": 0.25,
        "minimum": 0,
        "maximum": 9,
    }
    assert "premium" in schema["metals"]["items"]["properties"]
    (tmp_path / "study.toml").write_text(text.replace("reclaim = 0.25", "reclaim = 4"))
    assert read_study_file(tmp_path).values["economics"]["reclaim"] == 4
    (tmp_path / "study.toml").write_text(text.replace("reclaim = 0.25", "reclaim = 40"))
    with pytest.raises(pp.PlanError) as error:
        read_study_file(tmp_path)
    assert (
        error.value.said
        == "study.toml: [economics] reclaim is 40, and has to be a number from 0 to 9"
    )
    assert error.value.key == ("economics", "reclaim")
    (tmp_path / "study.toml").write_text(re.sub("reclaim = .*", "", text))
    assert read_study_file(tmp_path).values["economics"]["reclaim"] == 0.25


def names(kind):
    """The keys that make a value of a dataclass, with their defaults."""
    found = {}
    for field in dataclasses.fields(kind):
        if field.init:
            found[field.name] = (
                field.default_factory()
                if field.default_factory is not dataclasses.MISSING
                else field.default
            )
    return found


@pytest.mark.parametrize(
    "section, kind",
    [("model", TableKeys), ("economics", Economics), (METALS, Metal), ("slopes", Slopes)],
)
def test_each_key_fills_a_field_of_the_same_default(section, kind):
    fields, keys = names(kind), {
        name: key
        for name, key in study_keys.keys_of(section).items()
        if (section, name) != ("model", "table")
    }
    assert set(fields) == set(keys)
    for name, key in keys.items():
        default = fields[name]
        assert (default is dataclasses.MISSING) == key.is_needed, name
        assert key.is_needed or (
            key.default == (list(default) if isinstance(default, tuple) else default)
        ), name


def test_the_reference_in_the_documents_is_this_one():
    document = (TOP / "docs" / "STUDY.md").read_text()
    assert document == study_reference.with_tables(
        document
    ), "python3 -m pitplan.study.study_reference docs/STUDY.md makes it anew"
    assert [section for section in re.findall(r"^## \[(\w+)\]$", document, re.M)] == list(SECTIONS)


def test_shells_complete_the_columns_that_a_key_names():
    (columns,) = (key for key in KEYS if key.kind == "columns")
    assert (
        f'"init --column") words="{" ".join(columns.choices)}"'
        in (TOP / "completions" / "pitplan.bash").read_text()
    )


def test_the_schema_takes_what_the_reader_takes(tmp_path):
    jsonschema = pytest.importorskip("jsonschema")
    schema = study_reference.schema()
    jsonschema.Draft202012Validator.check_schema(schema)
    good = [
        text_of(tmp_path),
        STUDY_TOML,
        *((path.read_text()) for path in TOP.glob("examples/**/study.toml")),
    ]
    for text in good:
        jsonschema.validate(tomllib.loads(text), schema)
    for was, now in (
        ("size = [20, 20, 15]", "size = [20, 20]"),
        ("mining = 2.0", "minning = 2.0"),
        ("angles = 45", "angles = [[0, 38, 3]]"),
        ("discount = 0.08", "discount = 1"),
        ("recovery = 0.85", "payable = 96.5"),
        ("[0.6, 1.0, 1.2]", "{ from = 0.3, to = 1.2 }"),
        ("[20, 20, 15]", "[20, 0, 15]"),
        ('"CU"', "7"),
    ):
        assert was in STUDY_TOML
        wrong = STUDY_TOML.replace(was, now)
        with pytest.raises(jsonschema.ValidationError):
            jsonschema.validate(tomllib.loads(wrong), schema)
        with pytest.raises(pp.PlanError):
            read_study_file(written_study(tmp_path / "s", text=wrong))


UNITS = [
    ("AU_PPB", "ppb"),
    ("CUPCT", "%"),
    ("MO_PPM", "ppm"),
    ("AU_GPT", "g/t"),
    ("Ag (g/t)", "g/t"),
    ("Zn %", "%"),
    ("AU", "g/t"),
    ("CU", "%"),
    ("ley_mo", "ppm"),
    ("CU_PPM", "ppm"),
    ("AU_PPM", "ppm"),
]


@pytest.mark.parametrize(
    "column, metal",
    [
        ("gold gpt", ("gold", "g/t", "oz", 1900)),
        ("LEY_COBRE", ("copper", "%", "t", 8500)),
        ("AUPPB", ("gold", "ppb", "oz", 1900)),
        ("ag_ppm", ("silver", "ppm", "oz", 23)),
    ],
)
def test_init_knows_a_metal_by_its_sign_and_by_its_name(tmp_path, column, metal):
    written = metals_of_init(tmp_path, column)
    assert written == {"CU": ("copper", "%", "t", 8500), column: metal}


def metals_of_init(folder, column):
    """The metals that `init` writes where a column of grades is called so: name, units and price,
    by their column."""
    frame = table(6, 5, 4, 7).rename(columns={"AU": column})
    frame.to_csv(folder / "t.csv", index=False)
    text = first_look.written(first_look.look_at(folder / "t.csv"), "t.csv")
    keys = ("name", "grade_unit", "price_unit", "price")
    found = tomllib.loads(text)["economics"]["metals"]
    return {metal["grade"]: tuple(metal[key] for key in keys) for metal in found}


@pytest.mark.parametrize("column, is_seen", [("S_pct", True), ("AU", False), ("Hardness", False)])
def test_init_tells_a_grade_that_no_metal_uses(tmp_path, column, is_seen):
    assert (column in metals_of_init(tmp_path, column)) == (column == "AU")
    ran = subprocess.run(
        [TOP / "bin/pitplan", "init", "t.csv"], cwd=tmp_path, capture_output=True, text=True
    )
    assert ran.returncode == 0, ran.stderr
    words = f"column {column} holds a grade and no metal uses it"
    assert (words in ran.stdout + ran.stderr) == is_seen


def test_the_text_of_init_offers_no_unit_that_a_name_contradicts(tmp_path):
    for column, unit in UNITS:
        table(7, 6, 4, 3).rename(columns={"CU": column, "AU": "other"}).to_csv(
            tmp_path / "t.csv", index=False
        )
        text = first_look.written(first_look.look_at(tmp_path / "t.csv"), "t.csv")
        assert {
            metal["grade"]: metal["grade_unit"]
            for metal in tomllib.loads(text)["economics"]["metals"]
        }[column] == unit, column


@pytest.mark.parametrize("air, weight", [("AIR", 0.0), ("AIRE", 1500.0), ("XX", 0.0), ("9", 0.0)])
def test_the_text_of_init_offers_no_air_as_the_mills(tmp_path, air, weight):
    frame = table(7, 6, 4, 3)
    frame["ROCK"] = frame["ROCK"].where(frame["ZC"] < 115, air)
    frame["TONNES"] = frame["TONNES"].where(frame["ZC"] < 115, weight)
    frame.to_csv(tmp_path / "t.csv", index=False)
    text = first_look.written(first_look.look_at(tmp_path / "t.csv"), "t.csv")
    (mill,) = re.findall(r"^# mill = (\[.*?\])", text, re.M)
    assert sorted(tomllib.loads(f"mill = {mill}")["mill"]) == ["OXI", "SUL"]


WRONG = """[model]
table = "t.csv"
size = [20, 20]
rotation = "north"
missing = "ar"

[economics]
minning = 2.0
processing = true
dilution = 5
metals = [
    { name = "copper", grade = "CU", price = -8500, recovry = 0.85 },
    { grade = "AU", price = 1900, grade_unit = "g per t" },
]

[slopes]
angles = "steep"

[shells]
discount = 8
"""
# each wrong thing of WRONG: its key, the line that it stands in, what is said of it
TOLD = [
    (("model", "size"), 3, "has to be three numbers above 0"),
    (("model", "rotation"), 4, "has to be a number"),
    (("model", "missing"), 5, '"refuse", "air" or "rock"; is \'air\' meant?'),
    (("economics", "minning"), 8, "has no key 'minning'; is 'mining' meant?"),
    (("economics", "mining"), 7, "has no mining"),
    (("economics", "processing"), 9, "processing is true"),
    (("economics", "dilution"), 10, "a number from 0 to 1"),
    (("economics", "metals", "copper", "price"), 12, "try: price = 0, selling = 8500"),
    (("economics", "metals", "copper", "recovry"), 12, "is 'recovery' meant?"),
    (("economics", "metals", 1, "name"), 13, "metal 2 has no name"),
    (("economics", "metals", 1, "grade_unit"), 13, '"%", "kg/t"'),
    (("slopes", "angles"), 17, "degrees as 45, or by bearing"),
    (("shells", "discount"), 20, "discount is 8"),
]


def test_all_wrong_keys_are_told_with_their_lines(tmp_path):
    with pytest.raises(pp.PlanError) as error:
        read_study_file(written_study(tmp_path / "s", text=WRONG))
    found = {each.key: each for each in error.value.each()}
    assert set(found) == {key for key, _, _ in TOLD}
    assert len(error.value.each()) == len(TOLD)
    for key, line, said in TOLD:
        assert said in str(found[key]), key
        assert line_of(WRONG, key) == (line, WRONG.splitlines()[line - 1]), key
    data = found[("model", "size")].as_data()
    assert data["key"] == ["model", "size"]
    assert data["table"] == "study.toml"
    assert data["try"] == "size = [20, 20, 10]"


def test_a_line_is_found_whatever_the_blanks():
    text = "[economics]\nprocessing = { OXI = 7.5 , SUL = 9 }\ndilution   =  5  # x\nmetals = [\n   { name = 'a' , price = 3 },\n]\n"
    for key, line in (
        (("economics", "dilution"), 3),
        (("economics", "processing", "SUL"), 2),
        (("economics", "metals", "a", "price"), 5),
        (("economics", "mill"), 1),
        (("slopes",), None),
    ):
        assert (line_of(text, key) or (None,))[0] == line, key


def test_the_first_wrong_cells_of_a_column_are_told(tmp_path):
    frame = table(7, 6, 4, 3)
    frame["CU"], frame["XC"] = frame["CU"].astype(object), frame["XC"].astype(object)
    frame.loc[[4, 7, *range(30, 60)], "CU"] = "N/S"
    frame.loc[5, "XC"] = "far"
    plan = read_study_file(written_study(tmp_path / "s", frame))
    with pytest.raises(pp.PlanError) as error:
        plan.read_model()
    assert error.value.row == 5
    assert error.value.column == "XC"
    frame.loc[5, "XC"] = 5000.0
    frame = frame.drop(5)
    plan = read_study_file(written_study(tmp_path / "s", frame))
    with pytest.raises(pp.PlanError) as error:
        plan.economics.priced(plan.read_model())
    assert error.value.row == 4
    assert [cell.row for cell in error.value.cells[:2]] == [6, 29]
    assert len(error.value.cells) == 19
    assert error.value.key == ("economics", "metals", "copper", "grade")
    assert {cell.text for cell in error.value.cells} == {"N/S"}
