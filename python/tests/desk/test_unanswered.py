"""What is typed and chosen before the desk has answered what was typed before: none of it is lost."""
import shutil
import tomllib

import pytest

pytest.importorskip("selenium")
pytest.importorskip("starlette")

from desks import Desk
from processes import TOP

# answers come to the page once they are let go: those of changes, or those of the study as it stands
HOLDS = """
window.held = [];
window.fetched ??= window.fetch;
window.fetch = (path, how) => window.fetched(path, how).then(answer => (
  how.method === %s && (how.method === "PATCH" || /studies\\/hill$/.test(path))
    ? new Promise(done => { window.held.push(() => done(answer)); }) : answer));
"""
# the next change is written, and the desk has no memory left to answer it
BREAKS = """
window.fetched ??= window.fetch;
window.fetch = (path, how) => window.fetched(path, how).then(answer => {
  if (how.method !== "PATCH") return answer;
  window.fetch = window.fetched;
  return new Response('{"errors": [{"said": "no memory is left"}]}',
    { status: 503, headers: { "content-type": "application/json" } });
});
"""
FREES = "window.fetch = window.fetched; window.held.splice(0).forEach(free => free());"
HELD = "return window.held.length"
DRAWS = "dispatchEvent(new HashChangeEvent('hashchange'))"
PENDING = "return document.documentElement.dataset.pending"
RAMP = {"width": 25, "grade": 0.10, "height": 300, "turns": 2}


@pytest.fixture
def page(browser, tmp_path):
    """The example's study, open at the desk."""
    shutil.copy(TOP / "examples" / "hill.csv", tmp_path)
    shutil.copytree(TOP / "examples" / "hill", tmp_path / "hill")
    desk = Desk(tmp_path)
    browser.get(desk.door)
    browser.press_on("a", "hill")
    browser.sees("5,041 rows")
    yield Page(browser, desk, tmp_path / "hill" / "study.toml")
    desk.end()


class Page:
    """The page of a study whose answers can be held back, and its study.toml."""

    def __init__(self, browser, desk, file):
        self.browser, self.desk, self.file = browser, desk, file

    def goes(self, screen, css):
        self.browser.get(f"{self.desk.address}/#/hill/{screen}")
        self.browser.there(css)

    def holds(self, method="PATCH"):
        self.browser.script(HOLDS, method)

    def is_held(self, count=1):
        self.browser.until(lambda: self.browser.script(HELD) == count, f"{count} answers held")

    def frees(self):
        """Lets all answers go, and waits until nothing is under way."""
        self.browser.script(FREES)
        self.waits()

    def waits(self):
        self.browser.until(lambda: self.browser.script(PENDING) == "0", "all is written")

    def refused(self):
        """What the desk has refused."""
        return self.browser.text("#say .bad")

    def fills(self, ident, text):
        self.browser.fills(f'[id="{ident}"]', text)

    def values(self, section):
        return tomllib.loads(self.file.read_text())[section]


@pytest.fixture
def ramp(page):
    """The same page with a ramp in all walls, as it is written first."""
    page.goes("slopes", "[id='f.slopes.ramp'] button")
    page.browser.press_on("[id='f.slopes.ramp'] button", "+ ramp")
    page.browser.there("[id='i.slopes.ramp.turns']")
    page.waits()
    return page


def test_a_choice_is_made_of_the_number_that_was_typed_before(ramp):
    ramp.holds()
    ramp.fills("i.slopes.ramp.turns", "1")
    ramp.is_held()
    ramp.fills("i.slopes.ramp.how", "by region")
    ramp.frees()
    each = {**RAMP, "turns": 1}
    assert ramp.values("slopes")["ramp"] == {"NORTH": each, "SOUTH": each}
    assert ramp.refused() == ""


def test_a_choice_is_made_of_the_number_as_the_desk_has_read_it(ramp):
    ramp.holds()
    ramp.fills("i.slopes.ramp.width", "1,250.5")
    ramp.is_held()
    ramp.fills("i.slopes.ramp.how", "by region")
    ramp.frees()
    assert ramp.values("slopes")["ramp"]["NORTH"]["width"] == 1250.5


def test_a_number_is_typed_over_one_as_the_desk_has_read_it(ramp):
    ramp.holds()
    ramp.fills("i.slopes.ramp.width", "1,250.5")
    ramp.is_held()
    ramp.fills("i.slopes.ramp.width", "30")
    ramp.frees()
    assert ramp.values("slopes")["ramp"]["width"] == 30
    assert ramp.refused() == ""


def test_a_number_is_typed_into_a_group_that_is_on_its_way(page):
    page.goes("slopes", "[id='f.slopes.ramp'] button")
    page.holds()
    page.browser.press_on("[id='f.slopes.ramp'] button", "+ ramp")
    page.is_held()
    page.browser.script(DRAWS)  # as the end of a check does
    page.fills("i.slopes.ramp.turns", "1")
    page.frees()
    assert page.values("slopes")["ramp"] == {**RAMP, "turns": 1}
    assert page.refused() == ""


@pytest.mark.parametrize("waits", [True, False], ids=["after", "before"])
def test_a_choice_is_made_of_a_number_that_was_written_without_an_answer(ramp, waits):
    """Chosen after the desk has failed to answer, or before."""
    ramp.browser.script(BREAKS)
    ramp.fills("i.slopes.ramp.turns", "1")
    if waits:
        ramp.waits()
    ramp.fills("i.slopes.ramp.how", "by region")
    ramp.waits()
    each = {**RAMP, "turns": 1}
    assert ramp.values("slopes")["ramp"] == {"NORTH": each, "SOUTH": each}
    assert ramp.refused() == "no memory is left"


def test_words_and_rocks_of_a_list_go_one_after_the_other(page):
    page.goes("money", "[id='i.economics.forbid']")
    page.holds()
    for text in ("ZC < 900", "ZC > 1100"):
        page.fills("i.economics.forbid", text)
    for rock in ("OXI", "SUL"):
        page.browser.click(f"[id='i.economics.mill.{rock}']")
    page.is_held()
    page.frees()
    assert page.values("economics")["forbid"] == ["ZC < 900", "ZC > 1100"]
    assert page.values("economics").get("mill", []) == []


def test_metals_that_are_taken_out_are_those_that_were_pressed(page):
    page.goes("money", ".metals tbody")
    page.browser.press_on("#main button", "+ a metal")
    page.browser.there("[id='i.economics.metals.2.name']")
    page.waits()
    page.holds()
    for name in ("copper", "metal"):
        page.browser.click(f"[title='take {name} out']")
    page.is_held()
    page.frees()
    names = [metal["name"] for metal in page.values("economics")["metals"]]
    assert names == ["gold"]


def test_an_answer_of_before_a_change_undoes_nothing_on_the_page(ramp):
    ramp.holds("GET")
    ramp.file.write_text(ramp.file.read_text() + "# by an editor\n")
    ramp.is_held()  # the page reads it again
    ramp.fills("i.slopes.ramp.turns", "1")
    ramp.waits()
    ramp.frees()
    ramp.browser.script(DRAWS)
    code = "return document.getElementById('i.slopes.ramp.turns').value"
    assert ramp.browser.script(code) == "1"
    ramp.fills("i.slopes.ramp.how", "by region")
    ramp.waits()
    assert ramp.values("slopes")["ramp"]["SOUTH"] == {**RAMP, "turns": 1}
    assert ramp.refused() == ""
