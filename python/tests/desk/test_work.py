"""What the desk says of a table and a study is what a command in a terminal says."""
import gzip
import io
import re
import subprocess
import sys
from pathlib import Path

import ezdxf
import pytest
from matplotlib.colors import to_rgb
from matplotlib.image import imread

pytest.importorskip("starlette")
from starlette.applications import Starlette
from starlette.testclient import TestClient

from pitplan.desk import routes, work
from pitplan.desk.folder import Folder
from pitplan.desk.guard import Guard
from pitplan.desk.routes import Desk
from processes import TOP, gone, started
from served import pitplan

ASKED = ("look", "check", "rose", "cells?row=3", "ground", "pulse")
HILL = (TOP / "examples" / "hill.csv").read_text()
ORIGIN = "http://desk"


@pytest.fixture
def root(tmp_path):
    (tmp_path / "hill.csv").write_text(HILL)
    return tmp_path


@pytest.fixture(scope="module")
def anywhere(tmp_path_factory):
    """A desk whose processes are kept for all tests of this file."""
    desk = Desk(Folder(tmp_path_factory.mktemp("desk")), 10**9)
    yield desk
    desk.end()


@pytest.fixture
def desk(anywhere):
    client = TestClient(
        Guard(Starlette(routes=anywhere.routes()), "t", {"desk": ORIGIN}, "c"), base_url=ORIGIN
    )
    client.headers["origin"] = ORIGIN
    client.cookies.set("c", "t")
    root = anywhere.folder.root
    for path in root.iterdir():
        if path.is_file():
            path.unlink()
    (root / "hill.csv").write_text(HILL)
    client.root = root
    return client


def begun(desk, name, table="hill.csv", **more):
    answer = desk.post("/api/studies", json={"table": table, "name": name, **more}).json()
    assert answer == {"study": name}, answer
    return desk.root / name


def changed(desk, name, *changes):
    changes = [{"path": path, "value": value} for path, value in changes]
    return desk.patch(f"/api/studies/{name}", json={"changes": changes})


def test_a_grade_that_is_mostly_below_detection_is_told_as_numbers(desk):
    header, *lines = HILL.splitlines()
    at, count = header.split(",").index("AU"), len(lines)
    for n in range(count - 2):
        cells = lines[n].split(",")
        lines[n] = ",".join([*cells[:at], "<0.005", *cells[at + 1 :]])
    for n, gold in ((count - 2, "0.2"), (count - 1, "0.6")):
        cells = lines[n].split(",")
        lines[n] = ",".join([*cells[:at], gold, *cells[at + 1 :]])
    (desk.root / "hill.csv").write_text("\n".join([header, *lines]) + "\n")
    begun(desk, "below")
    seen = desk.get("/api/studies/below/look").json()
    assert seen["grades"] == ["CU", "AU"]
    assert seen["absent"] == ["<0.005"]
    assert any(
        f"{count - 2:,} of {count:,} cells of AU are below" in note for note in seen["notes"]
    )
    gold = next(column for column in seen["columns"] if column["name"] == "AU")
    assert (gold["is"], gold["told"]) == ("grade", ["0.2", "0.4", "0.6", f"{count - 2:,}", ""])


def test_a_study_is_begun_as_init_does(desk, tmp_path):
    study = begun(desk, "begun")
    (tmp_path / "hill.csv").write_text(HILL)
    ran = pitplan("init", "hill.csv", "--study", "begun", cwd=tmp_path)
    assert ran.returncode == 0, ran.stderr
    wanted = (tmp_path / "begun" / "study.toml").read_text()
    assert (study / "study.toml").read_text() == wanted
    again = desk.post("/api/studies", json={"table": "hill.csv", "name": "begun"})
    assert again.status_code == 409
    for name in ("begun-2", "begun-3"):
        assert desk.post("/api/studies", json={"copy": "begun"}).json() == {"study": name}
        assert (desk.root / name / "study.toml").read_text() == wanted
    assert desk.post("/api/studies", json={"copy": "nowhere"}).status_code == 404
    assert desk.post("/api/studies", json={"copy": "../begun"}).status_code == 404


def test_what_a_route_asks_a_process_for_is_there():
    """By its name, since the server loads none of it."""
    there = {
        "begin",
        "cells",
        "check",
        "ground",
        "kind_of",
        "look",
        "overview",
        "rose",
        "rose_picture",
    }
    text = Path(routes.__file__).read_text()
    asked = re.findall(r"self\.(?:quick|heavy)[(,] ?\"(\w+)\"", text)
    assert set(asked) == there
    assert all(callable(getattr(work, name)) for name in asked)


def test_the_check_is_the_one_of_the_terminal(desk):
    study = begun(desk, "checked")
    changes = (["economics", "metals", "copper", "price_unit"], "lb"), (["slopes", "angles"], 50)
    assert changed(desk, "checked", *changes).status_code == 200
    answer = desk.get("/api/studies/checked/check").json()
    ran = pitplan("check", study)
    assert ran.returncode == 0
    looks = re.findall(r"look: (.*)\n  try: (.*)", ran.stderr)
    assert answer["looks"]
    assert [it["said"] for it in answer["looks"]] == [
        f"{what}; try: {advice}" for what, advice in looks
    ]
    rows = [line.split() for line in ran.stdout.splitlines() if line.split()[:1] == ["all"]]
    assert answer["tonnage"]["rows"][-1] == [cell for cell in rows[0]]
    assert f"{answer['blocks']:,} blocks of 20 x 20 x 10" in ran.stdout
    heights = sorted({float(row.split(",")[3]) for row in HILL.splitlines()[1:]}, reverse=True)
    assert answer["benches"] == heights


def test_errors_are_pitplans_with_their_key_their_line_and_their_remedy(desk):
    rows = HILL.splitlines()
    cells = rows[125].split(",")
    cells[5] = "trace"
    rows[125] = ",".join(cells)
    (desk.root / "north.csv").write_text("\n".join(rows) + "\n")
    study = begun(desk, "north", "north.csv")
    changed(desk, "north", (["economics", "dilution"], 3), (["slopes", "angles"], 1))
    text = (study / "study.toml").read_text()
    text = re.sub(r"absent = \[.*?\]", 'absent = ["-99"]', text)
    (study / "study.toml").write_text(text)
    answer = {tuple(e["key"][:2]): e for e in desk.get("/api/studies/north/check").json()["errors"]}
    lines = text.splitlines()
    dilution = answer["economics", "dilution"]
    assert lines[dilution["line"] - 1].startswith("dilution = 3")
    assert ("slopes", "angles") in answer
    cell = next(e for e in answer.values() if e["row"])
    assert (cell["row"], cell["column"]) == (126, "CU")
    assert "'trace'" in cell["said"]
    remedy = cell["remedy"]
    assert (remedy["key"], remedy["value"], remedy["adds"]) == (
        ["model", "absent"],
        ["trace"],
        True,
    )
    ran = pitplan("check", study)
    assert all(error["said"] in ran.stderr for error in answer.values())
    near = desk.get("/api/studies/north/cells?row=126").json()["rows"]
    assert [row for row, _ in near] == [1, 125, 126, 127]
    assert near[2][1][5] == "trace"
    assert near[0][1] == HILL.splitlines()[0].split(",")
    changed(desk, "north", (["model", "absent"], ["-99", "trace"]), (["economics", "dilution"], 0))
    changed(desk, "north", (["slopes", "angles"], 45))
    assert desk.get("/api/studies/north/check").json()["errors"] == []


def test_columns_whose_names_are_not_known_are_asked_for(desk):
    (desk.root / "odd.csv").write_text(HILL.replace("XC,YC,ZC", "un,deux,trois", 1))
    answer = desk.post("/api/studies", json={"table": "odd.csv", "name": "odd"}).json()
    assert answer["header"][1:4] == ["un", "deux", "trois"]
    assert answer["found"] == {"id": "BLOCKID", "density": "SG", "rock": "ROCK"}
    assert answer["errors"][0]["try"] == work.ASK_COLUMNS
    assert not (desk.root / "odd").exists()
    begun(desk, "odd", "odd.csv", columns={"x": "un", "y": "deux", "z": "trois"})


def test_what_is_written_while_a_study_is_read_is_noticed(desk, anywhere, monkeypatch):
    path = begun(desk, "meanwhile") / "study.toml"
    quick = anywhere.quick

    async def slow(do, *words):
        found = await quick(do, *words)
        path.write_text(path.read_text() + "# more\n")
        return found

    monkeypatch.setattr(anywhere, "quick", slow)
    read = desk.get("/api/studies/meanwhile").json()
    now = desk.get("/api/studies/meanwhile/pulse").json()
    assert read["pulse"]["etag"] != now["etag"]


def test_what_a_table_looks_like(desk):
    begun(desk, "looked")
    answer = desk.get("/api/studies/looked/look").json()
    assert (answer["rows"], answer["size"], answer["rotation"]) == (5041, [20, 20, 10], 30)
    assert answer["regions"] == ["NORTH", "SOUTH"]
    assert answer["grades"] == ["CU", "AU"]
    column = {each["name"]: each for each in answer["columns"]}
    cu = [float(row.split(",")[5]) for row in HILL.splitlines()[1:]]
    least, mean, most = column["CU"]["numbers"]
    assert (least, most) == (min(cu), max(cu))
    assert mean == pytest.approx(sum(cu) / len(cu))
    without = sum(",-99," in f"{row}," for row in HILL.splitlines()[1:])
    assert column["AU"]["told"][3] == f"{without:,}"
    assert column["CU"]["told"] == [
        f"{min(cu):.4g}",
        f"{sum(cu) / len(cu):.4g}",
        f"{max(cu):.4g}",
        "",
        "",
    ]
    assert column["BLOCKID"]["told"][4].startswith("5,041, as ")
    assert answer["differs"] == []
    changed(desk, "looked", (["model", "size"], [20, 20, 5]), (["model", "absent"], ["-9"]))
    changed(desk, "looked", (["model", "rotation"], None))
    differs = desk.get("/api/studies/looked/look").json()["differs"]
    assert differs == [["size", [20, 20, 10]], ["rotation", 30], ["absent", ["-99"]]]
    assert column["ROCK"]["words"] == ["SUL", "OXI", "OVB"]
    assert column["CU"]["is"] == "grade"
    assert answer["init"]["economics"]["metals"][0]["price"] == 8500


def test_pictures_and_the_rose(desk):
    begun(desk, "drawn")
    for what in ("ground", "CU", "ROCK"):
        answer = desk.get(f"/api/studies/drawn/ground?what={what}")
        assert answer.headers["content-type"] == "image/png"
        assert answer.content[:4] == b"\x89PNG"
    no = desk.get("/api/studies/drawn/ground?what=NOWHERE").json()
    assert "there is no column 'NOWHERE'" in no["errors"][0]["said"]
    answer = desk.get("/api/studies/drawn/rose").json()
    assert answer["names"] == ["bearing", "asked", "built", "error"]
    assert {row[1] for row in answer["rows"]} == {"45.0"}
    ran = pitplan("slopes", desk.root / "drawn")
    lines = [line.split() for line in ran.stdout.splitlines()]
    assert all(row in lines for row in answer["rows"]), (ran.stdout, answer)
    assert all(line in ran.stdout for line in answer["said"]), (ran.stdout, answer)
    walls = [[float(cell) for cell in row] for row in answer["rows"]]
    assert [wall[0] for wall in walls] == list(range(0, 360, 45))
    assert max(abs(built - 45) for _, _, built, _ in walls) < 1
    assert all(abs(built - asked - error) < 0.11 for _, asked, built, error in walls)
    assert all(row[3][0] in "+-" for row in answer["rows"])
    answer = desk.get("/api/studies/drawn/rose.png")
    assert answer.headers["content-type"] == "image/png"
    assert answer.content[:4] == b"\x89PNG"


def test_a_word_that_is_meant_otherwise_and_a_look_have_a_change_that_mends_them(desk):
    begun(desk, "meant")
    changed(desk, "meant", (["economics", "mining"], "2.0 + ZD / 100 + ZDX"))
    answer = desk.get("/api/studies/meant/check").json()["errors"]
    right = {"key": ["economics", "mining"], "value": "2.0 + ZC / 100 + ZDX"}
    assert [each["remedy"] for each in answer] == [
        {**right, "when": "", "adds": False, "other": None, "also": []}
    ]
    mill = ["OXl", "SUL"]
    changed(desk, "meant", (["economics", "mining"], 2.5), (["economics", "mill"], mill))
    answer = desk.get("/api/studies/meant/check").json()["errors"]
    assert [each["remedy"]["value"] for each in answer] == [["OXI", "SUL"]]
    changed(desk, "meant", (["economics", "mill"], None))
    price = (["economics", "metals", 0, "price"], 8.5), (["economics", "metals", 0, "selling"], 0.4)
    changed(desk, "meant", *price)
    looks = desk.get("/api/studies/meant/check").json()["looks"]
    unit = ["economics", "metals", "copper", "price_unit"]
    assert [look["remedy"] for look in looks if look["remedy"]] == [
        {"key": unit, "value": "kg", "when": "", "adds": False, "other": None, "also": []}
    ]
    assert changed(desk, "meant", (unit, "kg")).json()["values"]["economics"]["metals"][0] == {
        **desk.get("/api/studies/meant").json()["values"]["economics"]["metals"][0],
        "price_unit": "kg",
    }


def metal(words, key):
    return words.json()["values"]["economics"]["metals"][0][key]


def test_what_is_typed_as_a_number_is_one_where_it_can_be_read_in_one_way(desk):
    begun(desk, "read")
    at = ["economics", "metals", 0]
    for text, number in (("0,965", 0.965), ("1.250,5", 1250.5), ("1 250", 1250), ("0.9", "0.9")):
        assert metal(changed(desk, "read", ([*at, "price"], text)), "price") == number
    assert metal(changed(desk, "read", ([*at, "price"], "9,250")), "price") == "9,250"
    assert metal(changed(desk, "read", ([*at, "name"], "1,5")), "name") == "1,5"
    angles = [[0, "38,5"], [180, 45]]
    answer = changed(desk, "read", (["slopes", "angles"], angles), (["model", "absent"], ["-9,5"]))
    assert answer.json()["values"]["slopes"]["angles"] == [[0, 38.5], [180, 45]]
    assert answer.json()["values"]["model"]["absent"] == ["-9,5"]
    mining = ["economics", "mining"]
    assert changed(desk, "read", (mining, "2,5")).json()["values"]["economics"]["mining"] == 2.5


LISTED = """
[[economics.processes]]
name = "mill"
cost = 9.00
[[economics.processes]]
name = "leach"
rocks = ["OXI"]
cost = 4.00
recovery = { copper = 0.6 }
"""


@pytest.mark.parametrize("listed", ["", LISTED], ids=["by the desk", "as init's comment has it"])
def test_ways_to_treat_a_block_are_added_one_after_the_other(desk, listed):
    name = "listed" if listed else "unlisted"
    study = begun(desk, name)
    text = (study / "study.toml").read_text()
    if listed:
        text = text.replace("processing = 9.00", "# processing = 9.00")
        (study / "study.toml").write_text(text.replace("\n[slopes]", f"{listed}\n[slopes]"))
    else:
        changed(desk, name, (["economics", "processes"], [{"name": "mill", "cost": 9}]))
    at = ["economics", "processes"]
    for n in (len(listed and "12") or 1, len(listed and "123") or 2):
        answer = changed(desk, name, ([*at, n], {"name": f"process {n}", "cost": 4.0}))
        assert answer.status_code == 200, answer.text
        assert answer.json()["values"]["economics"]["processes"][n]["name"] == f"process {n}"
    assert "# mill = " in (study / "study.toml").read_text()  # and all else stands


def test_what_a_plan_by_years_refuses_is_told_as_check_does(desk):
    study = begun(desk, "yearly")
    ways = [{"name": "mill", "cost": 9, "rate": 1e6}, {"name": "leach", "cost": 4, "rate": 1e6}]
    cutoff = (["schedule", "cutoff"], "by year"), (["schedule", "pushbacks"], [0.8, 0.4])
    changed(desk, "yearly", (["economics", "processes"], ways), *cutoff)
    changed(desk, "yearly", (["economics", "processing"], None), (["shells", "mill_rate"], None))
    answer = desk.get("/api/studies/yearly/check").json()["errors"]
    ran = pitplan("check", study)
    assert [each["key"] for each in answer] == [["schedule", "pushbacks"]]
    assert answer[0]["said"] in ran.stderr, ran.stderr
    assert answer[0]["try"] == "pushbacks = [0.4, 0.8]"


def test_a_table_that_is_corrected_is_noticed_and_its_rows_are_counted_anew(desk):
    begun(desk, "corrected")
    before = desk.get("/api/studies/corrected/pulse").json()
    assert desk.get("/api/studies/corrected/look").json()["rows"] == 5041
    (desk.root / "hill.csv").write_text("\n".join(HILL.splitlines()[:-40]) + "\n")
    assert desk.get("/api/studies/corrected/pulse").json()["table"] != before["table"]
    assert desk.get("/api/studies/corrected/look").json()["rows"] == 5001
    changed(desk, "corrected", (["model", "skip"], 5))
    assert desk.get("/api/studies/corrected/look").json()["rows"] == 4996
    (desk.root / "hill.csv").unlink()
    assert desk.get("/api/studies/corrected/pulse").json()["table"] == ""


def test_what_is_missing_is_told_at_its_own_key_and_a_rate_of_a_mill_has_a_way_out(desk):
    begun(desk, "missing")
    changed(desk, "missing", (["economics", "mining"], None))
    answer = desk.get("/api/studies/missing/check").json()["errors"]
    assert [each["key"] for each in answer] == [["economics", "mining"]]
    ways = [{"name": "mill", "cost": 9}]
    changed(desk, "missing", (["economics", "mining"], 2), (["economics", "processes"], ways))
    answer = desk.get("/api/studies/missing/check").json()["errors"]
    of_rate = next(each for each in answer if each["key"] == ["shells", "mill_rate"])
    assert of_rate["remedy"] == {**of_rate["remedy"], "key": ["shells", "mill_rate"], "value": None}


def test_a_stale_change_is_refused_and_another_key_is_not(desk):
    study = begun(desk, "two")
    price = {"path": ["economics", "metals", 0, "price"], "was": 8500}
    first = desk.patch("/api/studies/two", json={"changes": [{**price, "value": 9000}]})
    assert first.json()["values"]["economics"]["metals"][0]["price"] == 9000
    other = {"path": ["slopes", "angles"], "was": 45, "value": 44}
    assert desk.patch("/api/studies/two", json={"changes": [other]}).status_code == 200
    late = desk.patch("/api/studies/two", json={"changes": [{**price, "value": 7000}]})
    assert late.status_code == 409
    assert late.json()["stale"]
    text = desk.get("/api/studies/two").json()
    late = desk.patch(
        "/api/studies/two", json={"text": "x = 1\n", "etag": first.json()["pulse"]["etag"]}
    )
    assert late.status_code == 409
    assert (study / "study.toml").read_text() == text["text"]
    etag = text["pulse"]["etag"]
    taken = desk.patch("/api/studies/two", json={"text": "# mine\n" + text["text"], "etag": etag})
    assert taken.status_code == 200
    assert taken.json()["text"].startswith("# mine\n")


def test_a_text_that_another_one_replaces_is_kept_where_it_is_asked_for(desk):
    study = begun(desk, "kept")
    first = (study / "study.toml").read_text()
    for text, kept in (("a = 1\n", ""), ("b = 2\n", "-2"), (first, "-3"), ("a = 1\n", "")):
        there, etag = (study / "study.toml").read_text(), desk.get("/api/studies/kept").json()
        body = {"text": text, "etag": etag["pulse"]["etag"], "keeps": True}
        answer = desk.patch("/api/studies/kept", json=body).json()
        assert answer["kept"] == f"study.toml.before{kept}"
        assert (study / answer["kept"]).read_text() == there


def test_the_text_of_a_run_comes_in_place_of_the_one_that_stands_there(desk):
    study = begun(desk, "ran")
    first = (study / "study.toml").read_text()
    run = study / "log" / "desk" / "0003-build"
    run.mkdir(parents=True)
    (run / "study.toml").write_text("# of then\n" + first)
    (run / "asked.json").write_text(
        '{"what": "build", "typed": [], "steps": [], "began": 0, "who": "", "asked": {}}'
    )
    (run / "ended-0-0").touch()
    etag = desk.get("/api/studies/ran").json()["pulse"]["etag"]
    asked = {"run": 3, "etag": etag, "keeps": True}
    answer = desk.patch("/api/studies/ran", json=asked).json()
    assert answer["text"] == "# of then\n" + first
    assert (study / answer["kept"]).read_text() == first
    assert desk.patch("/api/studies/ran", json=asked).status_code == 409
    again = {"run": 4, "etag": answer["pulse"]["etag"]}
    assert desk.patch("/api/studies/ran", json=again).status_code == 404
    assert (study / "study.toml").read_text() == answer["text"]


def test_a_text_that_is_no_toml_is_kept_and_told(desk):
    begun(desk, "broken")
    answer = desk.get("/api/studies/broken").json()
    bad = answer["text"].replace("rotation = 30", "rotation = = 30")
    desk.patch("/api/studies/broken", json={"text": bad, "etag": answer["pulse"]["etag"]})
    found = desk.get("/api/studies/broken").json()
    assert found["values"] is None
    assert found["text"] == bad
    assert "isn't TOML" in desk.get("/api/studies/broken/check").json()["errors"][0]["said"]
    assert changed(desk, "broken", (["slopes", "angles"], 44)).status_code == 422


def test_a_table_that_unpacks_to_far_too_much_is_refused(desk):
    with gzip.open(desk.root / "bomb.csv.gz", "wb", 9) as file:
        file.write(b"XC,YC,ZC,SG,CU\n")
        for _ in range(100):
            file.write(b"0,0,0,2.5,0.00\n" * 70_000)
    answer = desk.post("/api/studies", json={"table": "bomb.csv.gz", "name": "bomb"}).json()
    assert "unpacks to more than" in answer["errors"][0]["said"], answer
    (desk.root / "bomb.csv.gz").unlink()


def test_a_design_is_looked_at_when_it_comes(desk):
    begun(desk, "designed")
    outlines = ezdxf.new("R2010")
    square = [(0, 0), (100, 0), (100, 100), (0, 100)]
    outlines.modelspace().add_lwpolyline(square, dxfattribs={"layer": "PIT"})
    text = io.StringIO()
    outlines.write(text)
    at = "/api/studies/designed/designs"
    answer = desk.put(f"{at}/lines.dxf", content=text.getvalue().encode())
    assert answer.status_code == 422
    error = answer.json()["errors"][0]
    assert error["said"] == "lines.dxf: has no faces, but LWPOLYLINE"
    assert "triangulate it" in error["try"]
    assert desk.put(f"{at}/none.dxf", content=b"no DXF").status_code == 422
    assert not list((desk.root / "designed" / "designs").iterdir())
    faces = (TOP / "examples" / "hill-design.dxf").read_bytes()
    for name, content, kind in (
        ("faces.dxf", faces, "surface"),
        ("points.csv", b"x,y,z\n1,2,3\n", "surface"),
        ("ids.csv", b"BLOCKID,note\nH00001,x\n", "ids"),
        ("ids.txt", b"H00001\nH00002\n", "ids"),
    ):
        assert desk.put(f"{at}/{name}", content=content).json()["as"] == kind, name
    assert (
        len(desk.get("/api/studies/designed/pulse").json()["designs"]) == 4
    )  # others see them, too


def test_ids_are_held_against_the_table_before_a_build(desk):
    study = begun(desk, "unbuilt")
    at = "/api/studies/unbuilt/designs"
    for name, content, row in (
        ("letter.txt", b"Dear all,\nthe pit is late.\n", "letter.txt, row 2: 'the pit is late.'"),
        ("ids.csv", b"BLOCKID\nH00001\nH99999\n", "ids.csv, row 3: 'H99999'"),
    ):
        answer = desk.put(f"{at}/{name}", content=content)
        assert answer.status_code == 422, name
        error = answer.json()["errors"][0]
        assert error["said"].startswith(f"{row} is the id of no block"), error
        assert error["try"] == "ids as in column BLOCKID of the table"
    assert not list((study / "designs").iterdir())
    (study / "study.toml").write_text("[model]\n")  # with nothing to hold them against
    assert desk.put(f"{at}/ids.txt", content=b"b1\nb2\n").json()["as"] == "ids"


def test_what_pitplan_has_written_and_what_is_nonsense_is_no_design(desk):
    study = begun(desk, "wrong")
    for words in (["build"], ["shells"], ["export", "--to", "dxf"]):
        ran = pitplan(*words, study)
        assert ran.returncode == 0, ran.stderr
    at = "/api/studies/wrong/designs"
    ours = (study / "out" / "shells.dxf").read_bytes()
    for name, content, words in (
        ("shells.dxf", ours, "it has the outlines of pits, pushbacks or years that pitplan export"),
        ("noise.txt", bytes(range(256)), "is neither a text nor a DXF"),
        ("letter.txt", b"Dear all,\nthe pit is late.\n", "is the id of no block"),
    ):
        answer = desk.put(f"{at}/{name}", content=content)
        assert answer.status_code == 422, name
        assert words in answer.json()["errors"][0]["said"], name
    ids = [row.split(",")[0] for row in HILL.splitlines()[1:4]]
    assert desk.put(f"{at}/ids.txt", content="\n".join(ids).encode()).json()["as"] == "ids"


def test_a_refusal_says_who_was_first_and_calls_a_key_as_its_field(desk):
    study = begun(desk, "first")
    price = {"path": ["economics", "metals", "copper", "price"], "was": 8500}
    asked = {"changes": [{**price, "value": 9000}], "who": "Ana"}
    assert desk.patch("/api/studies/first", json=asked).status_code == 200
    late = desk.patch("/api/studies/first", json={"changes": [{**price, "value": 1}], "who": "Bo"})
    assert late.json()["errors"][0]["said"] == (
        "Price ([economics] metals.copper.price) was changed meanwhile, by Ana on the desk; yours"
        " isn't written"
    )
    text = (study / "study.toml").read_text()
    (study / "study.toml").write_text(text.replace("price = 9000", "price = 9100"))
    late = desk.patch("/api/studies/first", json={"changes": [{**price, "value": 1}], "who": "Bo"})
    assert "by an editor or a command; yours" in late.json()["errors"][0]["said"]


def test_what_is_nested_too_deep_is_told_so(desk):
    study = begun(desk, "deep")
    deep = "[" * 20_000 + "]" * 20_000
    answer = desk.patch(
        "/api/studies/deep", content=deep, headers={"content-type": "application/json"}
    )
    assert answer.status_code == 400
    assert answer.json()["errors"][0]["what"].endswith("too deep")
    (study / "study.toml").write_text(f"[model]\ntable = {deep}\n")
    assert desk.get("/api/studies/deep").json()["values"] is None
    answer = desk.get("/api/studies/deep/check").json()["errors"]
    assert [error["what"] for error in answer] == ["isn't TOML: it is nested too deep"]
    answer = changed(desk, "deep", (["slopes", "angles"], 44))
    assert answer.status_code == 400
    assert "nested too deep" in answer.json()["errors"][0]["said"]
    assert all("recursion" not in str(desk.get(f"/api/studies/deep/{it}").json()) for it in ASKED)


A_DESK = """import sys; sys.path.insert(0, {python!r})
import asyncio, os, threading
from pathlib import Path
from pitplan.desk.worker import Worker
ask = Worker(Path({root!r}))
thread = threading.Thread(target=ask.begin)
thread.start()
thread.join()
print(*[asyncio.run(ask(os.getpid)) for _ in range(2)], flush=True)
sys.stdin.read()
"""


def test_the_processes_of_a_desk_that_is_killed_end_and_not_with_the_thread_that_began_them(
    tmp_path,
):
    code = A_DESK.format(python=str(TOP / "python"), root=str(tmp_path))
    desk = started([sys.executable, "-c", code], stdin=subprocess.PIPE)
    first, second = map(int, desk.stdout.readline().split())
    assert first == second
    desk.kill()
    assert gone([first], 60)


def test_the_key_of_the_rose_has_each_region(desk):
    """Below the walls stands a line for each: its colours by matplotlib's own names."""
    begun(desk, "four")
    path = desk.root / "four" / "study.toml"
    four = """angles = 44
by = "where(ZC < 1040, 'LOW', SECTOR)"
regions = { NORTH = 38, SOUTH = 40, LOW = 42 }"""
    path.write_text(re.sub(r"(?m)^angles = .*$", four, path.read_text()))
    image = imread(io.BytesIO(work.rose_picture(desk.root / "four")))[..., :3]
    key = image[-len(image) // 8 :].reshape(-1, 3)
    for colour in ("C0", "C1", "C2", "C3"):
        assert (abs(key - to_rgb(colour)).max(axis=1) < 0.02).any(), colour


def test_tonnes_by_a_formula_are_not_missed(desk):
    """A table with neither tonnes nor density is told, until a formula says what blocks weigh."""
    (desk.root / "heavy.csv").write_text(HILL.replace(",SG,", ",FACTOR,", 1))
    columns = {"x": "XC", "y": "YC", "z": "ZC"}
    begun(desk, "heavy", "heavy.csv", columns=columns)
    path = desk.root / "heavy" / "study.toml"

    def missed():
        return [it for it in work.look(path.parent)["notes"] if "tonnes or density" in it]

    assert len(missed()) == 1
    path.write_text(path.read_text().replace("\nsize", '\ntonnes = "FACTOR * 4000"\nsize', 1))
    assert not missed()


def test_a_table_whose_name_has_a_blank_is_typed_as_a_shell_takes_it(desk):
    (desk.root / "big hill.csv").write_text(HILL)
    typed = {it["path"]: it["typed"] for it in desk.get("/api/folder").json()["tables"]}
    assert typed["big hill.csv"] == "pitplan init 'big hill.csv'"
    assert typed["hill.csv"] == "pitplan init hill.csv"
