"""The first screens in a browser: a table whose columns aren't known, metals that are added,
numbers that can be read in two ways."""
import tomllib

import pytest

pytest.importorskip("selenium")
pytest.importorskip("starlette")

from desks import Desk
from processes import TOP

HILL = (TOP / "examples" / "hill.csv").read_text()
PRICE = "i.economics.metals.0.price"


@pytest.fixture
def begin(browser, tmp_path):
    """Opens a desk over one table, and begins a study of it."""
    desks = []

    def begun(text, name="mine.csv"):
        (tmp_path / name).write_bytes(text if isinstance(text, bytes) else text.encode())
        desks.append(Desk(tmp_path))
        browser.get(desks[-1].door)
        browser.press_on("button", "begin a study")
        return tmp_path / name.removesuffix(".csv")

    yield begun
    for desk in desks:
        desk.end()


def values_of(study):
    return tomllib.loads((study / "study.toml").read_text())


def marked(browser, place):
    """The fields of a metal that have the mark of an example."""
    code = (
        "return [...document.querySelectorAll('.metals tbody:nth-of-type(' + %s + ') .example')]"
        ".map(e => e.parentElement.querySelector('input').id.split('.').pop())"
    )
    return set(browser.script(code, place))


def test_a_grade_that_no_metal_uses_is_told_and_added_with_marks(browser, begin):
    study = begin(HILL.replace(",AU,", ",S_pct,", 1))
    words = "column S_pct holds a grade and no metal uses it"
    browser.sees(words, "#main .looks")
    assert [metal["grade"] for metal in values_of(study)["economics"]["metals"]] == ["CU"]
    browser.click("[id='to.money']")
    browser.sees(words, "#main .looks")
    browser.script(
        "const e = [...document.querySelectorAll('.looks button')]"
        ".find(e => e.innerText === 'add metal of S_pct'); e.focus(); e.click()"
    )
    at = "return document.activeElement.id"
    name = "i.economics.metals.1.name"  # the button is no more
    browser.until(lambda: browser.script(at) == name, "the focus is on what was added")
    assert values_of(study)["economics"]["metals"][1]["grade"] == "S_pct"
    browser.until(lambda: words not in browser.text(), "nothing is left to tell")
    assert marked(browser, 2) == {"price", "payable", "recovery"} == marked(browser, 1)
    for key, text in (("price", "0"), ("payable", "1"), ("recovery", "0.9")):
        browser.types(f"i.economics.metals.1.{key}", text)
    browser.until(lambda: marked(browser, 2) == set(), "no mark")


def test_columns_of_metals_have_units_and_the_size_of_a_block_is_in_a_line(browser, begin):
    begin(HILL)
    browser.there("[id='i.model.size.2']")
    tops = "return [0, 1, 2].map(k => document.getElementById(`i.model.size.${k}`).offsetTop)"
    assert len(set(browser.script(tops))) == 1
    browser.click("[id='to.money']")
    browser.there(".metals th")
    heads = (
        "return [...document.querySelectorAll('.metals thead th')].map(e => e.textContent.trim())"
    )
    assert {"Price $", "Payable share", "Selling cost $ a unit"} <= set(browser.script(heads))
    browser.types("i.economics.metals.1.currency", "EUR")
    assert {"Price", "Selling cost"} <= set(browser.script(heads))  # in dollars of one metal alone


def test_gold_by_its_name_is_gold_and_what_is_taken_out_is_told(browser, begin):
    study = begin(HILL.replace(",AU,", ",gold gpt,", 1))
    browser.sees("5,041 rows")
    assert browser.script("return document.activeElement.id") == "main"  # whence Tab goes on
    gold = values_of(study)["economics"]["metals"][1]
    known = {"name": "gold", "grade_unit": "g/t", "price_unit": "oz", "price": 1900}
    assert gold == {**gold, **known, "grade": "gold gpt"}
    browser.click("[id='to.money']")
    browser.press_on(".metals tbody:nth-of-type(2) button", "×")
    browser.press_on(".looks button", "add gold of gold gpt")
    browser.there("[id='i.economics.metals.1.price']")
    browser.waits()
    assert values_of(study)["economics"]["metals"][1] == gold
    browser.picks(
        "i.economics.metals.1.grade", "CU"
    )  # the price is none of the planner's so either
    assert marked(browser, 2) == {"price", "payable", "recovery"}
    browser.picks("i.economics.metals.1.grade", "gold gpt")
    browser.press_on("button", "+ a metal")
    browser.there("[id='i.economics.metals.2.price']")
    browser.waits()
    names = [metal["name"] for metal in values_of(study)["economics"]["metals"]]
    assert names == ["copper", "gold", "metal"]


def test_the_boxes_of_columns_hold_the_guesses_and_one_button_goes_on(browser, begin):
    study = begin(HILL.replace("XC,YC,ZC,SG", "X_LOC,Y_LOC,Z_LOC,WT", 1))
    browser.sees("no column is known as x, y, z")
    boxes = "return ['x', 'y', 'z', 'rock', 'density'].map(k => document.getElementById('n.' + k).value)"
    assert browser.script(boxes) == ["X_LOC", "Y_LOC", "Z_LOC", "ROCK", ""]
    text = browser.text(".card")
    assert "--" not in text
    assert "pitplan" not in text
    assert 'press "Go on"' in text
    buttons = (
        "return [...document.querySelectorAll('#main .card')][0].querySelectorAll('button').length"
    )
    assert browser.script(buttons) == 1
    browser.sees("No column is known as tonnes or density", ".card .look")
    browser.picks("n.density", "WT")
    browser.until(lambda: "No column is known as tonnes" not in browser.text(), "no question")
    browser.click("#named")
    browser.sees("5,041 blocks")
    columns = values_of(study)["model"]["columns"]
    assert columns == {**columns, "x": "X_LOC", "y": "Y_LOC", "z": "Z_LOC", "density": "WT"}


def test_a_column_that_was_chosen_wrong_is_chosen_again_and_nothing_else_is_lost(browser, begin):
    study = begin(
        HILL.replace("XC,YC,ZC,SG", "ROCKS_X,Nordwert,Kote,WT", 1).replace("ROCK,", "X,", 1)
    )
    browser.sees("no column is known as")
    for key, name in {"x": "X", "y": "Nordwert", "z": "Kote", "density": "WT"}.items():
        browser.picks(f"n.{key}", name)
    browser.click("#named")
    browser.sees("choose another column in its place", ".fault")
    boxes = "return ['x', 'y', 'z', 'density'].map(k => document.getElementById('n.' + k).value)"
    assert browser.script(boxes) == ["X", "Nordwert", "Kote", "WT"]
    browser.picks("n.x", "ROCKS_X")
    browser.click("#named")
    browser.sees("5,041 blocks")
    columns = values_of(study)["model"]["columns"]
    assert columns == {**columns, "x": "ROCKS_X", "y": "Nordwert", "z": "Kote", "density": "WT"}


def test_a_table_in_another_encoding_is_asked_for_it(browser, begin):
    study = begin(HILL.replace("SUL", "SÜL").encode("cp1252"))
    browser.sees("isn't text in UTF-8", ".fault")
    assert "--" not in browser.text(".fault")
    assert "init" not in browser.text(".fault")
    browser.fills("#encoding", "cp1252")
    browser.click("#named")
    browser.sees("5,041 rows")
    assert values_of(study)["model"]["encoding"] == "cp1252"


def test_a_number_with_two_readings_has_a_button_for_each_and_stretches_nothing(browser, begin):
    study = begin(HILL)
    browser.click("[id='to.money']")
    browser.there(f"[id='{PRICE}']")
    places = "return [...document.querySelectorAll('.metals th')].map(e => Math.round(e.getBoundingClientRect().left))"
    for reading in (9.25, 9250):
        browser.until(lambda: not browser.text(".fault"), "no error")
        before = browser.script(places)
        browser.types(PRICE, "9,250")
        browser.sees("price = 9250", ".k-metals .fault")
        assert browser.script(places) == before
        browser.press_on(".mend", f"put it in: price = {reading:g}")
        browser.until(
            lambda: values_of(study)["economics"]["metals"][0]["price"] == reading, str(reading)
        )


def test_errors_elsewhere_are_told_by_their_screens(browser, begin):
    study = begin(HILL)
    browser.sees("5,041 rows")
    text = (study / "study.toml").read_text()
    text = text.replace("dilution = 0", "dilution = 3").replace("mining = 2.50", "mining = -1")
    (study / "study.toml").write_text(text.replace("angles = 45", "angles = 1"))
    browser.sees("2 errors on Prices and costs")
    browser.sees("1 error on Slopes")
    browser.press_on("#main .look a", "Slopes")
    browser.sees("What is asked for")
    browser.sees("2 errors on Prices and costs")
    assert "on Slopes" not in browser.text("#main")


def test_regions_that_are_numbers_are_all_offered(browser, begin):
    study = begin(HILL.replace(",NORTH", ",110").replace(",SOUTH", ",120"))
    browser.sees("5,041 rows")
    browser.click("[id='to.slopes']")
    browser.press_on("button", "regions by SECTOR")
    browser.press_on("button", "+ 120")
    browser.until(
        lambda: len(values_of(study)["slopes"].get("regions", {})) == 2, "both regions are written"
    )
    assert set(values_of(study)["slopes"]["regions"]) == {"110", "120"}


def test_a_hole_is_told_and_its_keys_are_in_sight(browser, begin):
    rows = HILL.splitlines(keepends=True)
    header = rows[0].rstrip().split(",")
    x, y, z = (header.index(name) for name in ("XC", "YC", "ZC"))
    columns = {}
    for at, row in enumerate(rows[1:], 1):
        cells = row.split(",")
        columns.setdefault((cells[x], cells[y]), []).append((float(cells[z]), at))
    highest = max(columns.values(), key=len)
    begin("".join(row for at, row in enumerate(rows) if at != sorted(highest)[1][1]))
    browser.sees("has no row, with blocks above and below it", "#main")
    assert browser.script("return document.querySelector('#folded.wrong').open")
    browser.sees(
        "1 error below: Places without a row", "#main p.look"
    )  # before anything is scrolled
    browser.press_on("p.look button", "Places without a row")
    at = "return document.activeElement.closest('.field')?.id"
    browser.until(lambda: browser.script(at) == "f.model.missing", "its field")


def test_many_holes_are_listed_and_filled_with_their_domain(browser, begin):
    rows = HILL.splitlines(keepends=True)
    header = rows[0].rstrip().split(",")
    at = [header.index(name) for name in ("XC", "YC", "ZC")]
    cells = [row.split(",") for row in rows]
    columns = {}
    for n, row in enumerate(cells[1:], 1):
        columns.setdefault((row[at[0]], row[at[1]]), []).append((float(row[at[2]]), n))
    high = [sorted(column) for column in columns.values() if len(column) > 4]
    gone = {high[0][1][1], high[0][2][1], high[-1][1][1]}
    study = begin("".join(row for n, row in enumerate(rows) if n not in gone))
    browser.click(".places summary")
    browser.sees("show all 3 places", ".places")
    listed = "return [...document.querySelectorAll('.places li')].map(e => e.innerText)"
    found = {tuple(float(v) for v in it.strip("()").split(",")) for it in browser.script(listed)}
    for n in gone:
        place = [float(cells[n][i]) for i in at]
        assert any(all(abs(a - b) < 1 for a, b in zip(place, it)) for it in found), (place, found)
    mean = browser.text("[id='f.model.missing'] .try").partition("fill = ")[2]
    browser.press_on("[id='f.model.missing'] .mend", 'put it in: missing = "rock", fill = ')
    browser.until(lambda: values_of(study)["model"]["missing"] == "rock", "what a hole is")
    filled = values_of(study)["model"]["fill"]
    assert tomllib.loads(f"fill = {mean}")["fill"] == filled  # as the error says it
    browser.press_on("button", "+ SECTOR")
    browser.picks("i.model.fill.SECTOR", "SOUTH")
    browser.picks("i.model.fill.rock", "SUL")
    browser.sees("3 blocks added where rows are missing", "#main")
    assert values_of(study)["model"]["fill"] == {**filled, "rock": "SUL", "SECTOR": "SOUTH"}


def test_statistics_leave_out_the_marks_that_the_planner_adds(browser, begin):
    rows = HILL.splitlines()
    at = rows[0].split(",").index("CU")
    for n, mark in ((5, "-7"), (9, "-5")):
        cells = rows[n].split(",")
        cells[at] = mark
        rows[n] = ",".join(cells)
    study = begin("\n".join(rows) + "\n")
    least = (
        "return [...document.querySelectorAll('.columns tbody tr')]"
        ".find(r => r.cells[0].innerText === 'CU')?.cells[2].innerText"
    )
    browser.until(lambda: browser.script(least) == "-7", "the least of all")
    for mark, then in (("-7", "-5"), ("-5", "0")):
        browser.types("i.model.absent", mark)
        browser.until(lambda: browser.script(least) == then, f"without {mark}")
    assert {"-7", "-5"} <= set(values_of(study)["model"]["absent"])
    browser.sees("without -99, -7, -5", "#main")


PAYABLE = "i.economics.metals.0.payable"


def test_a_share_with_a_decimal_comma_is_a_number(browser, begin):
    study = begin(HILL)
    browser.click("[id='to.money']")
    browser.types("i.economics.metals.0.payable", "0,965")
    assert values_of(study)["economics"]["metals"][0]["payable"] == 0.965
    assert browser.script(f"return document.getElementById('{PAYABLE}').value") == "0.965"
    browser.until(lambda: not browser.text(".fault"), "no error")


def test_examples_are_listed_before_a_build_and_a_field_says_what_it_is(browser, begin):
    study = begin(HILL)
    browser.sees("5,041 rows")
    drawn = "return getComputedStyle(document.querySelector('.drawn'), '::before').content"
    browser.there(".drawn img.ground")
    assert "is being drawn" in browser.script(drawn)  # below a picture that isn't there yet
    browser.click("[id='to.pits']")
    listed = "Still examples, and not yours: Cost of digging, Cost of treating, Overall slope, "
    browser.sees(listed, "#main p.look")
    rates = "Rate of digging, Rate of milling, Discount, Price of copper"
    browser.sees(rates, "#main p.look")
    browser.sees("= 20,000,000 tonnes a year", "[id='f.shells.mining_rate']")
    browser.script("document.getElementById('i.shells.discount').focus()")
    browser.sees("Discount: a share a year", ".help")
    assert browser.script("return document.querySelector('#text li.at i').innerText") == "# a year"
    browser.types("i.shells.discount", "0,09")
    browser.until(lambda: "Discount" not in browser.text("#main p.look"), "it is the planner's")
    assert values_of(study)["shells"]["discount"] == 0.09
