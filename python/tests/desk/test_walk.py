"""A planner's day at the desk, in real browsers: from a dropped table to saved files. Complaints of
a browser are failures."""
import csv
import os
import shutil
import signal
import tomllib

import pytest

pytest.importorskip("selenium")
pytest.importorskip("starlette")

from desks import PATIENCE, Chromium, Desk, Fox
from processes import TOP

HILL, DESIGN = TOP / "examples" / "hill.csv", TOP / "examples" / "hill-design.dxf"
IN_A_FRAME = """
if (!document.documentElement?.dataset.ready) return null;
let cookie = "none"; try { cookie = document.cookie } catch { cookie = "refused" }
let reads = "yes"; try { reads = window.parent.document.title } catch { reads = "refused" }
return [cookie, reads, document.querySelectorAll("canvas").length]
"""


@pytest.fixture(scope="module", params=[Chromium, Fox], ids=["chromium", "firefox"])
def browser(request):
    found = request.param()
    yield found
    found.close()


def values_of(folder):
    return tomllib.loads((folder / "study.toml").read_text())


def test_from_a_dropped_table_to_saved_files(browser, tmp_path):
    desk = Desk(tmp_path)
    assert "127.0.0.1" not in desk.greeting
    assert f"http://localhost:{desk.port}/?token=" in desk.greeting
    browser.get(desk.address)
    browser.sees("Open the address that")
    browser.get(desk.door)
    browser.sees("Drop a table of blocks here")
    browser.complaints()  # of what was refused before
    browser.gives("#pick", HILL)
    browser.sees("5,041 rows")
    browser.sees("1,823 places above the highest block")
    study = tmp_path / "hill"
    prices(browser, study)
    slopes(browser, study)
    pits(browser, study)
    plans(browser, study)
    assert not browser.complaint()
    assert not browser.complaints()
    desk.end()


def prices(browser, study):
    """Prices and costs, two of them wrong at first."""
    browser.click("[id='to.money']")
    browser.sees("all\t5,041")
    browser.types("i.economics.metals.0.price", "8600")
    assert values_of(study)["economics"]["metals"][0]["price"] == 8600
    assert "# the share of the ore that reaches the mill" in (study / "study.toml").read_text()
    browser.types("i.economics.dilution", "3")
    browser.sees("has to be a number from 0 to 1", "[id='f.economics.dilution']")
    browser.there("#text li.wrong")
    browser.types("i.economics.dilution", "0.03")
    browser.picks("i.economics.mining.how", "column or formula")
    browser.types("i.economics.mining", "2.0 + 0.03 * (1125 - ZD) / 10")
    browser.sees("is 'ZC' meant", "[id='f.economics.mining']")
    browser.types("i.economics.mining", "2.0 + 0.03 * (1125 - ZC) / 10")
    browser.sees("Nothing looks wrong")
    assert values_of(study)["economics"]["mining"] == "2.0 + 0.03 * (1125 - ZC) / 10"


def slopes(browser, study):
    """Slopes by region and bearing."""
    browser.click("[id='to.slopes']")
    browser.types("i.slopes.angles", "44")
    browser.press_on("button", "regions by SECTOR")
    browser.sees("NORTH", "table.data")
    browser.picks("i.slopes.regions.NORTH.how", "by bearing")
    browser.types("i.slopes.regions.NORTH.0.1", "38")
    browser.sees("38.0", "table.data")
    assert values_of(study)["slopes"]["regions"]["NORTH"][0] == [0, 38]


def pits(browser, study):
    """Build, find, look, save."""
    browser.click("[id='to.pits']")
    browser.types("i.shells.factors.from", "0.6")
    browser.types("i.shells.factors.to", "1")
    browser.types("i.shells.factors.step", "0.4")
    browser.sees("2 pits, at 0.6, 1 of the price")
    browser.sees("pitplan shells hill", "#main")
    browser.click("#all")
    browser.sees("2 of 2 pits proved", "#state")
    browser.sees("pit_shell")
    browser.there("tr.best")
    fits = "const t = document.querySelector('tr.best').closest('.scroll'); return t.scrollWidth <= t.clientWidth"
    assert browser.script(fits), "the table of the pits is cut"
    with open(study / "out" / "pit_by_pit.csv") as file:
        best = list(csv.DictReader(file))[-1]
    browser.sees(f"{int(best['blocks']):,}", "tr.best")
    browser.click("[id='part.page']")
    cookie, reads, canvases = browser.within("iframe.page", IN_A_FRAME)
    assert (cookie, reads) == ("refused", "refused")
    assert canvases > 0
    browser.click("[id='part.pictures']")
    browser.there("img[alt='out/pit-by-pit.png']")
    browser.click("[id='part.files']")
    for name in ("pit_by_pit.csv", "hill.csv", "pits.html"):
        assert browser.saved(f"out/{name}") == (study / "out" / name).stat().st_size
    browser.click("#write")
    browser.sees("out/shells.dxf")


def plans(browser, study):
    """Pushbacks, a design, and what was run."""
    browser.click("[id='to.pushbacks']")
    for factor in ("0.6", "1"):
        browser.click(f"[id='phase.{factor}']")
    browser.fills("#width", "40")
    browser.sees("pitplan phases hill 0.6,1 --mining-width 40")
    browser.click("#cut")
    browser.sees("pushbacks, worths in million")
    browser.sees("pushbacks done by", "#main")
    browser.click("[id='to.designs']")
    browser.gives("#pick", study / "out" / "shells.dxf")  # outlines, as the desk itself writes them
    browser.sees("has no faces", "#main .fault")
    assert not list((study / "designs").iterdir())
    browser.gives("#pick", DESIGN)
    browser.sees("pitplan compare hill --surface hill/designs/hill-design.dxf --factor 1")
    browser.click("#compare")
    browser.sees("the design breaks the slopes")
    browser.sees("design done by", "#main")
    assert (study / "out" / "compare-hill-design" / "walls.csv").exists()
    browser.click("[id='to.history']")
    browser.sees("pitplan export hill --to dxf,vtu,csv")
    chips = "return [...document.querySelectorAll('.runs-of .chip')].map(e => e.classList[1])"
    assert browser.script(chips) == ["warn", "good", "good", "good"]  # of the design, of all else
    assert not (study / "log" / "desk" / "0005-x").exists()


SLOW = """#!/bin/sh
case "$1" in shells) sleep 600;; esac
exec {pit} "$@"
"""


@pytest.fixture
def planned(tmp_path):
    """A folder with a study of the example's table, as init writes it, whose pits take long."""
    folder = tmp_path / "mines"
    shutil.copytree(TOP / "examples" / "hill", folder / "hill")
    shutil.copy(HILL, folder)
    slow = tmp_path / "slow-pit"
    slow.write_text(SLOW.format(pit=os.environ["PIT"]))
    slow.chmod(0o755)
    return folder, slow


def test_a_desk_that_is_restarted_finds_its_run(browser, planned):
    folder, slow = planned
    desk = Desk(folder, PIT=str(slow))
    browser.get(desk.door)
    browser.press_on("a", "hill")
    browser.click("[id='to.pits']")
    browser.sees("pitplan build hill")
    browser.click("#all")
    browser.sees("pitplan shells hill", "#running")
    browser.there("#running progress")
    desk.process.send_signal(signal.SIGKILL)
    desk.process.communicate(timeout=PATIENCE)  # its workers have the same output, and end with it
    browser.until(
        lambda: browser.script("return document.body.classList.contains('away')"), "it is away"
    )
    again = Desk(folder, port=desk.port, PIT=str(slow))
    browser.until(
        lambda: not browser.script("return document.body.classList.contains('away')"), "it is back"
    )
    browser.sees("pitplan shells hill", "#running")
    browser.click("#stop")
    browser.sees("build, and pits stopped by", "#main")
    browser.there("#all:not([disabled])")
    again.end()


def test_what_is_typed_waits_for_a_desk_that_was_restarted_with_another_token(browser, planned):
    folder, _ = planned
    desk = Desk(folder)
    browser.get(desk.door)
    browser.press_on("a", "hill")
    browser.click("[id='to.money']")
    browser.there("[id='i.economics.metals.0.price']")
    before = values_of(folder / "hill")["economics"]["metals"][0]["price"]
    desk.end()
    again = Desk(folder, port=desk.port, PITPLAN_DESK_TOKEN="another")
    banner = "return getComputedStyle(document.body, '::after').content"
    browser.until(lambda: "started again" in browser.script(banner), "that it was restarted")
    browser.fills("[id='i.economics.metals.0.price']", str(before + 100))
    browser.until(lambda: "started again" in browser.script(banner), "still")
    code = "return document.getElementById('i.economics.metals.0.price').value"
    assert browser.script(code) == str(before + 100)
    assert values_of(folder / "hill")["economics"]["metals"][0]["price"] == before
    browser.script("fetch('/?token=another')")  # as another tab opens it
    browser.sees(f"price = {before + 100}", "#text")
    assert values_of(folder / "hill")["economics"]["metals"][0]["price"] == before + 100
    assert "started again" not in browser.script(banner)
    again.end()


def test_two_people_at_once(browser, planned):
    folder, _ = planned
    desk, other = Desk(folder), Chromium()
    try:
        for each in (browser, other):
            each.get(desk.door)
            each.press_on("a", "hill")
            each.click("[id='to.money']")
            each.there("[id='i.economics.metals.0.price']")
        before = values_of(folder / "hill")["economics"]["metals"][0]["price"]
        other.types("i.economics.metals.0.price", str(before + 100))
        code = "return document.getElementById('i.economics.metals.0.price').value"
        browser.until(lambda: browser.script(code) == str(before + 100), "the other's price")
        # what the other has seen is old now, and a change of it is refused; another one is taken
        text = (folder / "hill" / "study.toml").read_text()
        fresh = text.replace(f"price = {before + 100}", f"price = {before + 200}")
        (folder / "hill" / "study.toml").write_text(fresh)
        other.types("i.economics.metals.0.price", str(before + 300))
        other.hears("was changed meanwhile")
        other.until(lambda: other.script(code) == str(before + 200), "what stands there now")
        assert values_of(folder / "hill")["economics"]["metals"][0]["price"] == before + 200
        # one is still typing when the other's change comes
        box = "const e = document.getElementById('i.economics.metals.0.price');"
        browser.script(box + f"e.focus(); e.value = '{before + 400}'")
        other.types("i.economics.metals.0.price", str(before + 500))
        browser.sees(f"price = {before + 500}", "#text")
        browser.script(box + "e.dispatchEvent(new Event('change')); e.blur()")
        browser.hears("was changed meanwhile")
        browser.until(lambda: browser.script(code) == str(before + 500), "what stands there now")
        assert values_of(folder / "hill")["economics"]["metals"][0]["price"] == before + 500
        browser.types("i.economics.metals.0.price", str(before + 600))
        assert values_of(folder / "hill")["economics"]["metals"][0]["price"] == before + 600
    finally:
        other.close()
        desk.end()
