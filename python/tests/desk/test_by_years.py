"""A study with a plan by years at the desk: its page with the years in a frame, its files, and what
else goes by years."""
import pytest

pytest.importorskip("numba")
pytest.importorskip("selenium")
pytest.importorskip("starlette")

from desks import Chromium, Desk
from planned import built, of_table, run

TABLE = """
if (!document.documentElement?.dataset.ready) return null;
const years = document.querySelector("#view-1");
return years && [years.getAttribute("aria-label"), [...years.querySelectorAll("tbody")[0].rows]
  .map(row => [...row.cells].slice(0, 2).map(cell => Number(cell.textContent.replaceAll(",", ""))))];
"""


PLAN = """
if (!document.documentElement?.dataset.ready) return null;
return [...document.querySelector("#tables tbody").rows].map(row => [...row.cells].slice(0, 2)
  .map(cell => Number(cell.textContent.replaceAll(",", ""))));
"""


@pytest.fixture(scope="module")
def planned(tmp_path_factory):
    folder = tmp_path_factory.mktemp("mines")
    study = built(folder / "planned")
    run("schedule", study, "--gap", "5")
    run("page", study)  # without the years
    return study


def test_a_plan_by_years_is_shown_and_saved(planned):
    desk, browser = Desk(planned.parent), Chromium()
    try:
        browser.get(f"{desk.door}")
        browser.press_on("a", "planned")
        browser.click("[id='to.pits']")
        browser.click("[id='part.page']")
        browser.there("iframe.page")
        browser.click("[id='by.years']")
        browser.sees("pitplan page planned --schedule")
        browser.click("#make")
        browser.hears("page: done")
        label, rows = browser.within("iframe.page", TABLE)
        dug = of_table(planned)
        count = dug[dug.year > 0].year.value_counts().sort_index()
        assert label == "Schedule by years"
        assert rows == [[year, blocks] for year, blocks in count.items()]
        browser.click("[id='part.files']")
        browser.sees("pitplan export planned --to dxf,vtu,csv --schedule")
        browser.click("#write")
        for name in ("years.dxf", "years.csv", "schedule.csv", "pits.html"):
            browser.there(f"a[download][href*='out/{name}']")
            assert browser.saved(f"out/{name}") == (planned / "out" / name).stat().st_size
        browser.click("[id='to.vary']")
        browser.click("[id='if.sink']")
        words = (
            "pitplan vary planned price=-20..20 recovery=-5..5 slope=-3..3 sink=-1..1 --schedule"
        )
        browser.sees(words, "#main")
        assert not browser.complaint()
        assert not browser.complaints()
    finally:
        browser.close()
        desk.end()


SHOWN = """
const [main, all] = [document.getElementById("main"), [...document.querySelectorAll("#main :is(img, iframe)")]];
if (all.length < 4 || !all.every(e => e.naturalWidth !== 0)) return null;
return all.map(e => [e.alt ?? e.className, e.getBoundingClientRect().height / main.clientHeight]);
"""
OUT_OF_SIGHT = (
    "return [...document.querySelectorAll('.scroll')].map(e => e.scrollWidth - e.clientWidth)"
)


def test_the_years_come_first_and_nothing_is_beside_the_screen(planned):
    desk, browser = Desk(planned.parent), Chromium("1024,700")
    try:
        browser.get(desk.door)
        browser.sees("below its bound")
        assert browser.script(OUT_OF_SIGHT) == [0]  # of the studies, to the last button
        wide = "return document.getElementById('nav').offsetWidth"
        widths = set()  # study.toml is beside some of them
        for screen in ("pits/run", "pits/page", "history"):
            browser.get(f"{desk.address}/#/planned/{screen}")
            widths.add(browser.script(wide))
        assert len(widths) == 1
        browser.resized(1280, 800)
        browser.get(f"{desk.address}/#/planned/pits/years")
        shown = browser.until(lambda: browser.script(SHOWN), "the pictures")
        assert [name.split("-")[0:2] for name, _ in shown[:2]] == [
            ["out/schedule", "years.png"],
            ["page"],
        ]
        kinds = {name.removeprefix("out/schedule-").split("-")[0] for name, _ in shown[2:]}
        assert kinds == {"plan", "section"}
        assert 0.3 < shown[0][1] < 1  # of the window, below the head of the page
        assert "least width for machines, in m" in browser.text("#main")
        browser.get(f"{desk.address}/#/planned/pushbacks")
        browser.sees("least width for machines, in m")
    finally:
        browser.close()
        desk.end()


def test_a_plan_by_years_is_found_and_the_model_is_saved_for_other_optimisers(tmp_path):
    study = built(tmp_path / "mines" / "hill", terms="")
    desk, browser = Desk(study.parent), Chromium()
    try:
        browser.get(desk.door)
        browser.press_on("a", "hill")
        browser.sees("rows", "#main")
        browser.get(f"{desk.address}/#/hill/pits/years")
        browser.types("i.schedule.mining_rate", "500e3")
        browser.types("i.schedule.mill_rate", "300e3")
        browser.fills("#gap", "5")
        browser.fills("#minutes", "2")
        browser.fills("#mining_width", "20")
        browser.sees("pitplan schedule hill --gap 5 --minutes 2 --mining-width 20", "#main")
        browser.click("#schedule")
        browser.hears("plan by years: done")
        browser.sees("pit schedule says: feasible", "#main")
        dug = of_table(study)
        count = dug[dug.year > 0].year.value_counts().sort_index()
        rows = browser.within("iframe.page", PLAN)
        assert rows == [[year, blocks] for year, blocks in count.items()]
        browser.there("img[alt='out/schedule-years.png']")
        browser.click("[id='part.files']")
        browser.sees("out/schedule_t.csv", "#main")
        for kind in ("dxf", "vtu", "csv", "minelib"):
            browser.click(f"[id='kind.{kind}']")
        browser.sees("pitplan export hill --to minelib", "#main")
        browser.click("#write")
        browser.hears("files: done")
        browser.sees(".upit", "#main")
        assert list((study / "out").rglob("*.upit"))
        assert not browser.complaint()
        assert not browser.complaints()
    finally:
        browser.close()
        desk.end()
