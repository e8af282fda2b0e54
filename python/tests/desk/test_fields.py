"""Each key of study.toml has a field, and each kind of value is written by its form as the reader
takes it."""
import shutil
import tomllib

import pytest

pytest.importorskip("selenium")
pytest.importorskip("starlette")

from desks import NAMELESS, WIDE, Desk
from pitplan.table.study_keys import KEYS, LISTS
from processes import TOP

SCREENS = ("table", "money", "slopes", "pits", "pits/years")
SHOWN = "return [...document.querySelectorAll('#main .field')].map(e => e.id)"
LISTED = """return [...document.querySelectorAll('#main .metals [id^="i."], #main .metals label')]
    .map(e => e.id || e.htmlFor)"""
WITHOUT_A_FIELD = {}  # of a key: why it has none


@pytest.fixture
def study(browser, tmp_path):
    """A study of the example with a class of resources, open at the desk."""
    rows = (TOP / "examples" / "hill.csv").read_text().splitlines()
    marked = [f"{row},{'INF' if at % 9 else 'IND'}" for at, row in enumerate(rows[1:])]
    (tmp_path / "hill.csv").write_text("\n".join([f"{rows[0]},CLASS", *marked]) + "\n")
    shutil.copytree(TOP / "examples" / "hill", tmp_path / "hill")
    desk = Desk(tmp_path)
    browser.get(desk.door)
    browser.press_on("a", "hill")
    browser.sees("5,041 rows")
    yield Opened(browser, desk, tmp_path / "hill")
    desk.end()


class Opened:
    """A study at a desk, and what stands in its study.toml."""

    def __init__(self, browser, desk, folder):
        self.browser, self.desk, self.folder = browser, desk, folder

    def goes(self, screen, words):
        self.browser.get(f"{self.desk.address}/#/hill/{screen}")
        self.browser.sees(words, "#main")

    @property
    def values(self):
        return tomllib.loads((self.folder / "study.toml").read_text())

    def has(self, section, key, value):
        """Waits until a value is written."""
        self.browser.until(
            lambda: self.values.get(section, {}).get(key) == value,
            f"{key} = {value} in place of {self.values.get(section, {}).get(key)}",
        )

    def press(self, key, words):
        """Presses a button beside a key's field."""
        self.browser.press_on(f"[id='f.{key}'] button", words)

    def well(self):
        """That pitplan takes all that is written."""
        self.browser.until(lambda: not self.browser.text("#main .fault"), "no error")


def test_each_key_has_a_field(study):
    """The rate of a mill has one until there are processes, each of which has its own."""
    shown, listed = set(), set()
    for has_processes in (False, True):
        if has_processes:
            study.goes("money", "Nothing looks wrong")
            study.press("economics.processes", "+ a way to treat a block")
            study.browser.there("[id='i.economics.processes.0.name']")
        for screen in SCREENS:
            study.goes(screen, "")
            study.browser.there("#main .field")
            shown |= set(study.browser.script(SHOWN))
            listed |= set(study.browser.script(LISTED))
            if has_processes and screen == "pits/years":
                assert "f.schedule.mill_rate" not in study.browser.script(SHOWN)
    for key in KEYS:
        if (key.section, key.name) in WITHOUT_A_FIELD:
            continue
        if key.section in LISTS:
            assert f"i.economics.{key.section}.0.{key.name}" in listed, key
        else:
            assert f"f.{key.section}.{key.name}" in shown, key
    known = {f"f.{key.section}.{key.name}" for key in KEYS}
    assert shown <= known


def test_ways_to_treat_a_block_are_added_changed_and_taken_out(study):
    study.goes("money", "Nothing looks wrong")
    cost, rocks = (study.values["economics"][key] for key in ("processing", "mill"))
    at = "i.economics.processes"
    study.press("economics.processes", "+ a way to treat a block")
    mill = {"name": "mill", "rocks": rocks, "cost": cost, "rate": 1.5e6}
    study.has("economics", "processes", [mill])
    assert {"processing", "mill"} & set(study.values["economics"]) == set()
    assert "mill_rate" not in study.values["shells"]  # it is the mill's now
    study.browser.there(f"[id='{at}.0.name']")
    study.press("economics.processes", "+ a way to treat a block")
    study.browser.there(f"[id='{at}.1.name']")
    study.browser.types(f"{at}.1.name", "leach")
    study.browser.picks(f"{at}.1.cost.how", "one number")
    study.browser.types(f"{at}.1.cost", "3.5")
    study.browser.types(f"{at}.1.rate", "2e6")
    study.browser.types(f"{at}.1.dilution", "0.01")
    study.browser.types(f"{at}.1.mining_recovery", "0.99")
    study.press("economics.processes", "+ copper")
    study.browser.until(
        lambda: any("recovery" in each for each in study.values["economics"]["processes"]),
        "a recovery of its own",
    )
    first, second = study.values["economics"]["processes"]
    assert list(first["recovery"]) == ["copper"]
    assert second == {
        **{"name": "leach", "cost": 3.5, "rate": 2e6},
        **{"dilution": 0.01, "mining_recovery": 0.99},
    }
    study.browser.types(f"{at}.0.recovery.copper", "0.7")
    study.browser.picks(f"{at}.0.recovery.copper.how", "by rock")
    study.browser.there(f"[id='{at}.0.recovery.copper.OXI']")
    study.browser.types(f"{at}.0.recovery.copper.OXI", "0.6")
    recovery = study.values["economics"]["processes"][0]["recovery"]["copper"]
    assert recovery == {"SUL": 0.7, "OXI": 0.6, "OVB": 0.7}
    study.well()
    study.browser.sees("leach", "#main")
    for size in ((1280, 800), (1920, 1080)):
        study.browser.resized(*size)
        assert study.browser.script(WIDE) == []
        assert study.browser.script(NAMELESS) == []
    study.browser.types(f"{at}.1.rate", "-4")
    study.browser.sees("rate", ".metals .fault")
    study.browser.types(f"{at}.1.rate", "4e6")
    study.well()
    for left in (1, 0):
        study.browser.press_on(".k-processes tbody:nth-of-type(1) tr:first-child button", "×")
        study.browser.until(
            lambda: len(study.values["economics"].get("processes", [])) == left, f"{left} left"
        )


def test_each_kind_of_value_is_written_by_its_form(study):
    see = study.browser
    study.goes("table", "5,041 blocks")
    see.types("i.model.tonnes", "SG * 4000")
    study.has("model", "tonnes", "SG * 4000")
    see.picks("i.model.columns.class", "CLASS")
    study.has("model", "columns", {"class": "CLASS"})
    study.press("model.units", "+ length")
    study.has("model", "units", {"length": "m"})
    see.picks("i.model.units.length", "ft")
    study.has("model", "units", {"length": "ft"})
    study.press("model.units", "×")
    study.has("model", "units", None)
    see.types("i.model.size.2", "5")
    study.has("model", "size", [20, 20, 5])
    see.press_on(".look button", "size = [20,20,10]")
    study.has("model", "size", [20, 20, 10])
    study.goes("money", "In the ground")
    see.types("i.economics.waste_classes", "INF")
    study.has("economics", "waste_classes", ["INF"])
    see.types("i.economics.metals.1.currency", "EUR")
    see.sees("EUR", "[id='f.economics.exchange']")
    study.press("economics.exchange", "+ EUR")
    see.types("i.economics.exchange.EUR", "1.1")
    study.has("economics", "exchange", {"EUR": 1.1})
    study.well()
    study.goes("slopes", "What is asked for")
    study.press("slopes.ramp", "+ ramp")
    whole = {"width": 25, "grade": 0.10, "height": 300, "turns": 2}
    study.has("slopes", "ramp", whole)
    see.types("i.slopes.ramp.turns", "1")
    see.picks("i.slopes.ramp.how", "by region")
    study.has("slopes", "ramp", {"NORTH": {**whole, "turns": 1}, "SOUTH": {**whole, "turns": 1}})
    see.there("[id='i.slopes.ramp.SOUTH.width']")
    see.types("i.slopes.ramp.SOUTH.width", "30")
    see.picks("i.slopes.ramp.how", "in all walls")
    study.has("slopes", "ramp", {**whole, "turns": 1})
    see.press_on("[id='f.slopes.regions'] .word button", "×")
    study.has("slopes", "regions", {"NORTH": [[90, 44], [270, 44]]})
    study.well()


def test_the_terms_of_a_plan_by_years_are_written(study):
    see, at = study.browser, "i.schedule"
    study.goes("pits/years", "Terms of the plan")
    for key, text in (("years", "6"), ("per_year", "2"), ("sink", "4"), ("fixed_cost", "1e6")):
        see.types(f"{at}.{key}", text)
        study.has("schedule", key, float(text))
    see.types(f"{at}.pushbacks", "0.5, 0.8")
    study.has("schedule", "pushbacks", [0.5, 0.8])
    see.picks(f"{at}.cutoff", "by year")
    see.types(f"{at}.mining_rate", "4e6")
    see.types(f"{at}.mining_rate", "4e6, 7e6")  # several numbers are those of the years
    study.has("schedule", "mining_rate", [4e6, 7e6])
    see.picks(f"{at}.mining_rate.how", "the same each year")
    study.has("schedule", "mining_rate", 7e6)
    see.types(f"{at}.mining_rate", "4,5e6")
    study.has("schedule", "mining_rate", 4.5e6)
    see.types(f"{at}.mining_rate", "4e6")
    study.has("schedule", "mining_rate", 4e6)
    see.picks(f"{at}.mining_rate.how", "year by year")
    study.has("schedule", "mining_rate", [4e6])
    see.types(f"{at}.mining_rate", "4e6, 6e6, ")  # whose last comma says nothing
    study.has("schedule", "mining_rate", [4e6, 6e6])
    see.types(f"{at}.mining_rate", "4e6, 5e6")
    study.has("schedule", "mining_rate", [4e6, 5e6])
    see.picks(f"{at}.mining_rate.how", "the same each year")
    study.has("schedule", "mining_rate", 5e6)
    study.well()
    see.types(f"{at}.discount", "8")
    see.press_on(".mend", "put it in: discount = 0.08")
    study.has("schedule", "discount", 0.08)
    assert study.values["shells"] == {**study.values["shells"], "discount": 0.08}
    study.goes("slopes", "1")
    study.goes("pits/years", "Terms of the plan")
    see.types(f"{at}.lead", "-1")
    see.sees("lead", "[id='f.schedule.lead'] .fault")
    study.goes("money", "In the ground")
    see.sees("1 error on Plan by years", "#main")
    see.press_on("#main .look a", "Plan by years")
    see.types(f"{at}.lead", "")
    study.well()


def test_a_table_is_dropped_on_its_place(study, tmp_path):
    """By the mouse, and not by a dialog."""
    see = study.browser
    shutil.copy(tmp_path / "hill.csv", tmp_path.parent / "dropped.csv")
    see.get(f"{study.desk.address}/#/")
    see.there("#pick")
    x, y = see.script(
        "const b = document.querySelector('.drop').getBoundingClientRect();"
        " return [b.x + b.width / 2, b.y + b.height / 2]"
    )
    data = {"items": [], "files": [str(tmp_path.parent / "dropped.csv")], "dragOperationsMask": 1}
    for kind in ("dragEnter", "dragOver", "drop"):
        words = {"type": kind, "x": x, "y": y, "data": data}
        see.driver.execute_cdp_cmd("Input.dispatchDragEvent", words)
        if kind == "dragOver":
            see.there(".drop.over")
    see.sees("5,041 rows")
    assert (tmp_path / "dropped" / "study.toml").exists()
