"""The desk's pages: by keys alone, at two widths, with enough contrast, and with texts that would
be markup."""
import csv
import json
import os
import shutil
import subprocess
import time
import tomllib

import pytest

pytest.importorskip("selenium")
pytest.importorskip("starlette")
from selenium.webdriver.common.keys import Keys

from desks import NAMELESS, WIDE, Chromium, Desk
from pitplan.base.files import host, write_json
from pitplan.desk import runs
from processes import TOP, said

SCREENS = ("table", "money", "slopes", "pits", "pushbacks", "designs", "vary", "history")
PARTS = ("pits/years", "pits/pictures", "pits/files", "pits/page")
MARKUP = '<img src=x onerror="document.title=1">'


@pytest.fixture(scope="module")
def folder(tmp_path_factory):
    """A study with pits, and one whose columns, rocks and errors are markup."""
    folder = tmp_path_factory.mktemp("mines")
    shutil.copytree(TOP / "examples" / "hill", folder / "hill")
    shutil.copy(TOP / "examples" / "hill.csv", folder)
    text = (folder / "hill" / "study.toml").read_text()
    (folder / "hill" / "study.toml").write_text(
        text + "factors = [0.6, 1.0]\n" * ("factors" not in text)
    )
    for words in (["build"], ["shells"], ["page"], ["plot"]):
        said(*words, "hill", cwd=folder)
    rows = (folder / "hill.csv").read_text().replace("SECTOR", MARKUP.replace('"', "'"), 1)
    (folder / "odd.csv").write_text(rows.replace("OVB", "<b>OVB</b>"))
    said("init", "odd.csv", cwd=folder)
    odd = folder / "odd" / "study.toml"
    odd.write_text(odd.read_text().replace("mining = 2.50", f"mining = '{MARKUP}'"))
    return folder


@pytest.fixture(scope="module")
def desk(folder):
    found = Desk(folder)
    from processes import STARTED

    STARTED.remove(found.process)  # it is for all tests of this file
    yield found
    found.end()


@pytest.fixture(scope="module")
def browser(desk):
    found = Chromium()
    found.get(desk.door)
    found.sees("Studies")
    yield found
    assert not found.complaints()
    found.close()


def shown(browser, desk, where):
    browser.get(f"{desk.address}/#/{where}")
    browser.there("main section.card, main iframe, main .tabs, main .drop")
    browser.until(lambda: browser.script("return document.body.innerText.length > 100"), where)
    loaded = "return [...document.images].every(i => i.complete)"
    browser.until(lambda: browser.script(loaded), "its pictures")


@pytest.mark.parametrize("size", [(1280, 800), (1920, 1080)], ids=str)
@pytest.mark.parametrize("screen", [*SCREENS, *PARTS])
def test_nothing_is_cut_off(browser, desk, size, screen):
    browser.resized(*size)
    shown(browser, desk, f"hill/{screen}")
    assert browser.script(WIDE) == []
    shots = os.environ.get("DESK_SHOTS")
    if shots:
        browser.shot(f"{shots}/{screen.replace('/', '-')}-{size[0]}.png")


# WCAG 2: at least 4.5 for texts, 3 for large ones; what can't be pressed is excepted.
CONTRAST = """
const light = c => { const [r, g, b] = c.map(v => { v /= 255; return v <= 0.03928 ? v / 12.92 : ((v + 0.055) / 1.055) ** 2.4; }); return 0.2126 * r + 0.7152 * g + 0.0722 * b; };
const parts = text => text.match(/[\\d.]+/g).map(Number);
const back = e => { for (; e; e = e.parentElement) { const [r, g, b, a = 1] = parts(getComputedStyle(e).backgroundColor); if (a > 0.5) return [r, g, b]; } return [255, 255, 255]; };
const low = new Set();
const walker = document.createTreeWalker(document.body, NodeFilter.SHOW_TEXT);
let count = 0;
for (let n = walker.nextNode(); n; n = walker.nextNode()) {
  const e = n.parentElement, style = getComputedStyle(e);
  if (!n.data.trim() || !e.getClientRects().length || e.closest(":disabled, .old, script")) continue;
  count += 1;
  const [a, b] = [light(parts(e instanceof SVGElement ? style.fill : style.color).slice(0, 3)), light(back(e))];
  const ratio = (Math.max(a, b) + 0.05) / (Math.min(a, b) + 0.05);
  const size = parseFloat(style.fontSize), isLarge = size >= 24 || (size >= 18.66 && style.fontWeight >= 700);
  if (ratio < (isLarge ? 3 : 4.5)) low.add(`${ratio.toFixed(2)} ${style.color} ${n.data.trim().slice(0, 40)}`);
}
for (const e of document.querySelectorAll("input[placeholder]")) {
  const style = getComputedStyle(e, "::placeholder");
  const [a, b] = [light(parts(style.color).slice(0, 3)), light(back(e))];
  const ratio = (Math.max(a, b) + 0.05) / (Math.min(a, b) + 0.05);
  if (ratio < 4.5 || Number(style.opacity) < 1) low.add(`${ratio.toFixed(2)} ${style.color} ${e.placeholder}`);
}
return [count, [...low]]
"""


@pytest.mark.parametrize("where", [*(f"hill/{screen}" for screen in SCREENS), "odd/money", ""])
def test_texts_stand_out_from_their_ground(browser, desk, where):
    browser.resized(1280, 800)
    shown(browser, desk, where)
    count, low = browser.script(CONTRAST)
    assert count > 10
    assert low == []


@pytest.mark.parametrize("screen", [*SCREENS, *PARTS])
def test_every_field_has_a_name(browser, desk, screen):
    shown(browser, desk, f"hill/{screen}")
    nameless = browser.script(NAMELESS)
    assert nameless == []


def tab_to(browser, ident, most=160):
    """Presses Tab until a field has the focus; each on the way shows that it has it."""
    for _ in range(most):
        browser.keys(Keys.TAB)
        code = "const e = document.activeElement; return [e.id, getComputedStyle(e).outlineStyle, e.matches('input[type=file]'), e.tagName]"
        found, outline, is_file, tag = browser.script(code)
        assert outline != "none" or is_file or tag == "BODY" or found == "main", found
        if found == ident:
            return
    raise AssertionError(f"no way to {ident} by keys")


def test_all_of_it_is_done_by_keys(browser, desk, folder):
    shutil.copytree(folder / "hill", folder / "keys")
    browser.get(f"{desk.address}/#/keys/money")
    browser.sees("In the ground")
    browser.there("[id='i.economics.metals.0.price']")
    tab_to(browser, "i.economics.metals.0.price")
    browser.keys(Keys.CONTROL, "a")
    browser.keys("9100", Keys.TAB)
    browser.until(lambda: "9100" in (folder / "keys" / "study.toml").read_text(), "the price")
    assert browser.script("return document.activeElement.id") != "i.economics.metals.0.price"
    browser.script("document.activeElement.blur()")
    browser.get("about:blank")
    browser.get(f"{desk.address}/#/keys/money")
    browser.sees("In the ground")
    tab_to(browser, "skip", 1)
    tab_to(browser, "to.pits")
    browser.keys(Keys.ENTER)
    browser.sees("Series of pits")
    tab_to(browser, "build")
    browser.keys(Keys.SPACE)
    browser.sees("build done by", "#main")
    browser.there("#main .chip.good")
    browser.sees("built in keys")


def test_the_focus_comes_back_to_a_button_that_was_off_meanwhile(browser, desk, folder):
    shutil.copytree(folder / "hill", folder / "focus")
    browser.get(f"{desk.address}/#/focus/pits")
    browser.there("#build:not([disabled])")
    browser.script("const e = document.querySelector('#build'); e.focus(); e.click()")
    browser.sees("build done by", "#main")
    at = "return document.activeElement.id"
    browser.until(lambda: browser.script(at) == "build", "the focus is back")


COVERED = """
document.body.classList.add("%s");
const bad = [...document.querySelectorAll("#top a, #top input, #nav a")].filter(e => {
  const box = e.getBoundingClientRect();
  return !e.contains(document.elementFromPoint(box.x + box.width / 2, box.y + box.height / 2));
}).map(e => e.outerHTML.slice(0, 80));
document.body.classList.remove("%s");
return bad
"""


@pytest.mark.parametrize("state", ["away", "shut"])
def test_the_band_of_a_desk_that_is_away_covers_nothing(browser, desk, state):
    browser.resized(1280, 800)
    shown(browser, desk, "hill/table")
    assert browser.script(COVERED.replace("%s", state)) == []


def test_advice_is_for_who_has_no_command_line(browser, desk, folder):
    said("init", "hill.csv", "--study", "advised", cwd=folder)
    browser.get(f"{desk.address}/#/advised/slopes")
    browser.there("[id='i.slopes.by'] option[value='SECTOR']")
    browser.picks("i.slopes.by", "SECTOR")
    browser.sees('press "+" at a region', "[id='f.slopes.by'] .fault")
    assert "NORTH = 38" not in browser.text("[id='f.slopes.by'] .fault")
    run = folder / "advised" / "log" / "desk" / "0001-build"
    run.mkdir(parents=True)
    asked = {"what": "build", "typed": ["pitplan build advised"], "steps": [["build", "advised"]]}
    more = {"who": "Ana", "asked": {"what": "build"}, "began": 0, "root": str(folder)}
    (run / "asked.json").write_text(json.dumps({**asked, **more}))
    events = [
        {"event": "begin", "command": ["pitplan", "build", "advised"]},
        {"event": "error", "said": "too much", "try": "fewer --workers: memory was short"},
    ]
    (run / "events.jsonl").write_text("".join(f"{json.dumps(each)}\n" for each in events))
    (run / "ended-4-1").touch()
    browser.get("about:blank")
    browser.get(f"{desk.address}/#/advised/pits")
    browser.sees("end other programs on that machine: memory was short", "#main .step .fault")
    assert "--workers" not in browser.text("#main .fault")


HIDDEN = """
return [...document.querySelectorAll("#main .scroll")].filter(e => e.scrollWidth > e.clientWidth + 1)
  .map(e => `${e.scrollWidth} of ${e.clientWidth}: ${e.innerText.slice(0, 60)}`)
"""


def test_tables_of_pushbacks_and_of_slopes_fit(browser, desk, folder):
    """As a planner sees them on a screen of 1,280 pixels."""
    shutil.copytree(folder / "hill", folder / "fits")
    browser.resized(1280, 800)
    browser.get(f"{desk.address}/#/fits/pushbacks")
    for factor in ("0.6", "1"):
        browser.click(f"[id='phase.{factor}']")
    browser.click("#cut")
    browser.sees("pushbacks done by", "#main")
    assert browser.script(HIDDEN) == []
    browser.click("[id='to.slopes']")
    browser.click("#slopes")
    browser.sees("slopes done by", "#main")
    assert browser.script(HIDDEN) == []


def test_tables_that_a_terminal_made_are_shown(browser, desk, folder):
    """Of the latest pits, with the worth of each and a mark on the best; and not once more beside
    what a run of the desk has told."""
    shutil.copytree(folder / "hill", folder / "typed")
    said("phases", "typed", "0.6,1", cwd=folder)
    browser.get("about:blank")  # or factors that were ticked elsewhere still are
    browser.get(f"{desk.address}/#/typed/pits")
    browser.sees("out/pit_by_pit.csv", "#main h3")
    with open(folder / "typed" / "out" / "pit_by_pit.csv") as file:
        best = next(row for row in csv.DictReader(file) if float(row["factor"]) == 1)
    assert f"{float(best['worth_at_base']):,.0f}" in browser.text("#main tr.best")
    heads = browser.text("#main table thead")
    for head in ("worth at base ($)", "rock (t)", "grade gold (g/t)", "metal gold (oz)"):
        assert head in heads
    browser.get(f"{desk.address}/#/typed/pushbacks")
    browser.sees("out/phases.csv", "#main h3")
    for factor in ("0.6", "1"):
        browser.click(f"[id='phase.{factor}']")
    browser.click("#cut")
    browser.sees("pushbacks done by", "#main")
    browser.until(lambda: "out/phases.csv" not in browser.text("#main"), "the run's own table")


HELD = """const asks = window.fetch;
window.fetch = async (path, how) => {
  if (how?.method === 'PATCH') await new Promise(done => { window.lets = done; });
  return asks(path, how);
};"""
DRAWS = "for (let n = 0; n < 3; n += 1) dispatchEvent(new HashChangeEvent('hashchange'))"
VALUES = "return ['0.price', '0.payable', '1.price'].map(k => document.getElementById('i.economics.metals.' + k).value)"


def test_what_is_typed_stays_while_it_is_on_its_way_and_the_page_is_drawn_anew(
    browser, desk, folder
):
    shutil.copytree(folder / "hill", folder / "slowly")
    study = folder / "slowly" / "study.toml"
    browser.get(f"{desk.address}/#/slowly/money")
    browser.sees("In the ground")
    browser.there("[id='i.economics.metals.1.price']")
    browser.script(HELD)
    for key, text in (("0.price", "9111"), ("0.payable", "0.9")):
        browser.fills(f"[id='i.economics.metals.{key}']", text)
    half = (
        "const e = document.getElementById('i.economics.metals.1.price'); e.focus(); e.value = '17'"
    )
    browser.script(half)  # still being typed
    for _ in range(2):
        browser.until(lambda: browser.script("return Boolean(window.lets)"), "it is on its way")
        browser.script(DRAWS)
        assert browser.script(VALUES) == ["9111", "0.9", "17"]
        browser.script("const go = window.lets; window.lets = null; go()")
    browser.until(lambda: "payable = 0.9," in study.read_text(), "both are written")
    browser.until(lambda: browser.script(PENDING) == "0", "they are answered")
    assert browser.script(VALUES) == ["9111", "0.9", "17"]
    # an error elsewhere comes to stand above the box
    text = study.read_text().replace("angles = 44", "angles = 1", 1)
    study.write_text(text)
    browser.sees("1 error on Slopes", "#main")
    assert browser.script(VALUES) == ["9111", "0.9", "17"]
    at = browser.script("return document.activeElement.id")
    assert at == "i.economics.metals.1.price"  # which somebody still types in
    assert browser.script(PENDING) == "0"  # and that isn't sent before it is left
    browser.get("about:blank")


def test_an_older_study_is_taken_again_and_results_of_another_one_are_marked(browser, desk, folder):
    shutil.copytree(folder / "hill", folder / "again")
    study = folder / "again" / "study.toml"
    browser.get(f"{desk.address}/#/again/pits")
    browser.click("#build")
    browser.sees("build done by", "#main")
    ran = study.read_text()
    browser.get("about:blank")  # a page that knows nothing of the run, nor of other studies
    browser.get(f"{desk.address}/#/again/money")
    browser.sees("Nothing looks wrong")
    browser.types("i.economics.metals.0.price", "7777")
    browser.until(lambda: study.read_text() != ran, "the price is written")
    typed = study.read_text()
    for part in ("page", "pictures", "files", "run"):
        browser.get(f"{desk.address}/#/again/pits/{part}")
        browser.sees("of the study before it was changed", "#main .before")
    for answer, wanted in (("#no", typed), ("#yes", ran)):
        browser.click("[id='to.history']")
        browser.sees("take its study.toml again")
        browser.script(f"{TAKE} {TAKE}")
        browser.there("#asks[open]")
        assert browser.script("return document.querySelectorAll('dialog[open]').length") == 1
        browser.click(answer)
        browser.until(
            lambda: browser.script("return !document.querySelector('#asks').open"), "it is shut"
        )
        browser.until(lambda: study.read_text() == wanted, answer)
    browser.hears("kept as study.toml.before")
    assert study.with_name("study.toml.before").read_text() == typed
    browser.until(lambda: not browser.text("#main .before"), "no mark")


TAKE = """[...document.querySelectorAll("button")].find(
    e => e.innerText.startsWith("take its")).click();"""
SLOW = """const asks = window.fetch;
window.fetch = async (path, how) => {
  if (path.endsWith('/odd')) await new Promise(done => { setTimeout(done, 4000); });
  return asks(path, how);
};
location.hash = '#/odd/pits'"""


def test_nothing_of_another_study_is_left_to_press_while_one_is_read(browser, desk):
    shown(browser, desk, "hill/pits")
    browser.there("#build")
    browser.script(SLOW)
    browser.sees("is read", "#main")
    assert not browser.script("return Boolean(document.querySelector('#build'))")
    browser.there("#build")
    assert browser.text("#top h1") == "odd"
    browser.get("about:blank")  # the next test asks as the page does


def test_a_page_that_is_not_there_is_made_alone_and_a_picture_is_of_a_bench(browser, desk, folder):
    shutil.copytree(folder / "hill", folder / "pageless")
    (folder / "pageless" / "out" / "pits.html").unlink()
    browser.get(f"{desk.address}/#/pageless/pits/page")
    browser.sees("pitplan page pageless")
    browser.click("#make")
    browser.there("iframe.page")
    browser.click("[id='part.pictures']")
    rows = (folder / "hill.csv").read_text().splitlines()[1:]
    benches = sorted({float(row.split(",")[3]) for row in rows}, reverse=True)
    middle = benches[len(benches) // 2]
    browser.sees(f"pitplan plot pageless --bench {middle:g}", "#main")
    browser.click("#draw")
    browser.sees("picture done by", "#main")
    browser.click("[id='part.files']")
    browser.sees("pitplan bundle pageless pageless/bundle-0001", "#main")


def test_an_older_page_is_marked_where_the_latest_run_was_stopped(browser, desk, folder):
    shutil.copytree(folder / "hill", folder / "stopped")
    browser.get(f"{desk.address}/#/stopped/pits/page")
    browser.there("iframe.page")
    assert not browser.text("#earlier")
    run = folder / "stopped" / "log" / "desk" / "0001-shells"
    run.mkdir(parents=True)
    steps = [["shells", "stopped"]]
    asked = {"what": "shells", "typed": ["pitplan shells stopped"], "steps": steps, "who": "Ana"}
    written = (folder / "stopped" / "out" / "pits.html").stat().st_mtime
    found = {**asked, "asked": {"what": "shells"}, "began": written + 60, "root": str(folder)}
    (run / "asked.json").write_text(json.dumps(found))
    (run / "study.toml").write_bytes((folder / "stopped" / "study.toml").read_bytes())
    (run / "ended-130-1").touch()
    for part in ("page", "pictures", "files"):
        browser.get("about:blank")
        browser.get(f"{desk.address}/#/stopped/pits/{part}")
        browser.sees("is stopped, and hasn't made it anew", "#earlier")
    os.utime(folder / "stopped" / "out" / "pits.html", (written + 90, written + 90))
    browser.get("about:blank")
    browser.get(f"{desk.address}/#/stopped/pits/page")
    browser.there("iframe.page")
    assert not browser.text("#earlier")


def test_who_has_never_seen_a_terminal_is_told_what_comes_next(browser, desk, folder):
    said("init", "hill.csv", "--study", "fresh", cwd=folder)
    browser.get(f"{desk.address}/#/fresh")
    for words in ("The table was read", "are made up", "how steep", "Build, and find the pits"):
        browser.sees(words, ".guide")
        assert "pitplan" not in browser.text(".guide")
        if browser.text("#then"):
            browser.click("#then")
    assert not browser.text("#then")


def test_a_number_with_a_separator_is_named_and_put_right_by_a_button(browser, desk, folder):
    shutil.copytree(folder / "hill", folder / "separated")
    study = folder / "separated" / "study.toml"
    browser.get(f"{desk.address}/#/separated/money")
    price = "i.economics.metals.0.price"
    browser.sees("In the ground")
    browser.types(price, "9,250")
    browser.sees("',' between thousands", ".k-metals .fault")
    browser.sees("price = 9250", ".k-metals .fault .mend")
    browser.script("document.querySelector('.k-metals .fault .mend').focus()")
    browser.keys(Keys.ENTER)
    browser.until(lambda: "price = 9250," in study.read_text(), "it is put in")
    browser.until(lambda: not browser.text(".fault"), "no error")
    at = "return document.activeElement.id"
    browser.until(lambda: browser.script(at) == price, "the focus is on its field")
    browser.types(price, "1.250,5")  # which is one number alone
    assert "price = 1250.5," in study.read_text()


def test_a_study_that_cannot_be_read_hides_no_other_one(browser, desk, folder):
    shutil.copytree(TOP / "examples" / "hill", folder / "shut")
    (folder / "shut" / "model" / "manifest.json").mkdir(parents=True)
    browser.get("about:blank")
    browser.get(f"{desk.address}/#/")
    browser.sees("can't be read", "#main .chip.bad")
    browser.press_on("#main td a", "shut")
    browser.hears("manifest.json: Is a directory")
    browser.press_on("#main td a", "hill")
    browser.sees("5,041 rows", "#main")
    shutil.rmtree(folder / "shut")


def test_no_card_is_empty_while_something_is_wrong(browser, desk, folder):
    shutil.copytree(folder / "hill", folder / "steep")
    browser.get(f"{desk.address}/#/steep/slopes")
    browser.types("i.slopes.angles", "145")
    browser.sees("from 5 to 89 degrees", "[id='f.slopes.angles'] .fault")
    browser.sees("Nothing can be said before that is put right", "#main")
    bare = "return [...document.querySelectorAll('#main .card')].filter(e => e.innerText.trim() === e.querySelector('h2')?.innerText).length"
    assert browser.script(bare) == 0


def test_what_ifs_are_named_and_take_a_decimal_comma(browser, desk):
    browser.get(f"{desk.address}/#/hill/vary")
    for words in ("costs of treating", "slope angles", "points: from 8 % to 10 % a year are 2"):
        browser.sees(words, "#main table")
    browser.fills("[id='if.price.0']", "-12,5")
    browser.sees("pitplan vary hill price=-12.5..20 recovery=-5..5 slope=-3..3", "#main")
    browser.fills("[id='if.price.0']", "9,250")  # which may be either
    browser.sees("'9,250' is no number; try: digits, and a point before decimals", "#main .typed")
    browser.fills("[id='if.price.0']", "-20")


def test_what_rates_and_a_sink_rate_are_for(browser, desk, folder):
    """Where [schedule] has no rates, a plan by years has those of [shells]; a sink rate is of
    columns of blocks, of pushbacks or not."""
    plain = shutil.copytree(folder / "hill", folder / "sinks") / "runs" / "schedule"
    browser.get(f"{desk.address}/#/sinks/pits")
    both = "for the discounted cases, and for a plan by years that has none of its own"
    browser.sees(f"Rates and the discount are {both}", "#main")
    plain.mkdir()
    (plain / "schedule.npz").touch()
    browser.get("about:blank")
    browser.get(f"{desk.address}/#/sinks/vary")
    browser.click("[id='by.years']")
    browser.sees("how fast a column of blocks sinks", "#main table")


def test_a_term_that_the_plan_by_years_takes_from_elsewhere_is_shown_in_its_box(browser, desk):
    shown(browser, desk, "hill/pits/years")
    usual = "return document.getElementById('i.schedule.discount').placeholder"
    assert browser.script(usual) == "0.08"
    assert "0.08" in browser.text("[id='line.shells.discount']")


NEVER_ENDS = """const asks = window.fetch;
window.fetch = async (path, how) => {
  const answer = await asks(path, how);
  if (!path.includes("?from=")) return answer;
  const far = { command: "", what: "", at: 0, of: 0 };
  const told = { ...await answer.json(), state: "running", far };
  return new Response(JSON.stringify(told), { headers: { "content-type": "application/json" } });
}"""


def test_the_end_of_a_run_is_told_whatever_sees_it_first(browser, desk, folder):
    """A look at the whole study, before the look at the run itself."""
    shutil.copytree(folder / "hill", folder / "ends")
    browser.get("about:blank")
    browser.get(f"{desk.address}/#/ends/pits")
    browser.there("#build:not([disabled])")
    browser.script(NEVER_ENDS)
    browser.click("#build")
    browser.hears("build: done")
    browser.get("about:blank")  # the next test asks as the page does


def test_the_manual_is_a_link_where_it_is_there(browser, desk):
    browser.get(f"{desk.address}/#/")
    browser.sees("The manual")
    address = browser.script(
        "return [...document.links].find(a => a.innerText === 'The manual').href"
    )
    browser.get(address)
    browser.sees("pitplan")
    assert address.startswith(f"{desk.address}/manual/")


def test_texts_stay_texts(browser, desk):
    """Columns, rocks and formulas that would be markup."""
    browser.get(f"{desk.address}/#/odd/table")
    browser.sees("<b>OVB</b>")
    browser.sees("<img src=x onerror=")
    browser.click("[id='to.money']")
    browser.sees(MARKUP, "[id='f.economics.mining'] .fault")
    assert browser.script("return document.querySelectorAll('img[src=x], main b b').length") == 0
    assert browser.script("return document.title") == "odd - pitplan desk"
    refused = "try { document.body.innerHTML = '<p>x'; return 'taken' } catch { return 'refused' }"
    assert browser.script(refused) == "refused"
    assert any("TrustedHTML" in line for line in browser.complaints())


def test_an_advice_is_put_in_and_a_row_is_shown(browser, desk, folder):
    rows = (folder / "hill.csv").read_text().splitlines()
    cells = rows[125].split(",")
    cells[5] = "trace"
    rows[125] = ",".join(cells)
    (folder / "north.csv").write_text("\n".join(rows) + "\n")
    said("init", "north.csv", cwd=folder)
    text = (folder / "north" / "study.toml").read_text()
    absent = next(line for line in text.splitlines() if line.startswith("absent"))
    (folder / "north" / "study.toml").write_text(text.replace(absent, 'absent = ["-99"]'))
    browser.get(f"{desk.address}/#/north/table")
    browser.sees("1 error on Prices and costs")
    assert not browser.text(".guide")  # the table was refused
    browser.click("#nav a.wrong")
    browser.sees("'trace'", "[id='f.economics.metals']")
    browser.click(".row")
    browser.there("tr.this td.mark")
    assert browser.text("tr.this td.mark") == "trace"
    assert browser.text("tr.this th") == "126"
    browser.click(".mend")
    browser.until(
        lambda: 'absent = ["-99", "trace"]' in (folder / "north" / "study.toml").read_text(),
        "the advice",
    )
    browser.sees("Nothing looks wrong")
    browser.sees("are made up", ".guide")


LATE = """const asks = window.fetch;
window.fetch = async (path, how) => {
  if (how?.method === 'PATCH') await new Promise(done => { setTimeout(done, 1500); });
  return asks(path, how);
}"""
PENDING = "return document.documentElement.dataset.pending ?? '0'"
PRICE = "i.economics.metals.0.price"


@pytest.mark.parametrize(
    "then, other, stays",
    [
        ("9250", None, 9250),
        ("8500", None, 8500),  # what stood there before
        ("9250", 7000, 7000),  # another's change isn't written over
    ],
)
def test_a_correction_while_the_first_change_is_on_its_way(
    browser, desk, folder, then, other, stays
):
    name = f"late-{then}-{other}"
    shutil.copytree(folder / "hill", folder / name)
    study = folder / name / "study.toml"
    browser.get("about:blank")
    browser.get(f"{desk.address}/#/{name}/money")
    browser.sees("Nothing looks wrong")
    browser.script(LATE)
    browser.fills(f"[id='{PRICE}']", "9100")
    browser.fills(f"[id='{PRICE}']", then)
    if other:
        study.write_text(study.read_text().replace("price = 8500", f"price = {other}"))
    browser.until(lambda: browser.script(PENDING) == "0", "both are answered")
    assert tomllib.loads(study.read_text())["economics"]["metals"][0]["price"] == stays
    assert ("was changed meanwhile" in browser.text("#say")) == bool(other)
    value = f"return document.getElementById('{PRICE}').value"
    browser.until(lambda: browser.script(value) == str(stays), "what stands there")
    browser.get("about:blank")  # the next test asks as the page does


def test_a_text_that_is_refused_stays_open_and_a_second_save_is_taken(browser, desk, folder):
    shutil.copytree(folder / "hill", folder / "texts")
    study = folder / "texts" / "study.toml"
    first = study.read_text()
    browser.get(f"{desk.address}/#/texts/table")
    browser.click("#edit")
    browser.there("#edits")
    browser.script(
        "const e = document.getElementById('edits'); e.value = '# typed\\n' + e.value;"
        " e.dispatchEvent(new Event('input'))"
    )
    study.write_text("# of an editor\n" + first)
    browser.click("#save")
    browser.hears("was changed meanwhile, by an editor")
    browser.until(lambda: browser.script(PENDING) == "0", "it is answered")
    typed = "return document.getElementById('edits')?.value ?? ''"
    assert browser.script(typed).startswith("# typed")
    assert study.read_text() == "# of an editor\n" + first
    browser.click("#save")
    browser.there("#edit")
    assert study.read_text() == "# typed\n" + first


CUT = """return [...document.querySelectorAll("#top h1, #stop")].filter(e => e.scrollWidth > e.clientWidth
    || e.getBoundingClientRect().right > document.querySelector(".who").getBoundingClientRect().left)
    .map(e => e.outerHTML)"""


def test_the_name_of_a_study_is_whole_while_something_runs(browser, desk, folder):
    name = "a-long-name-of-a-study"
    shutil.copytree(folder / "hill", folder / name)
    run = folder / name / "log" / "desk" / "0001-all"
    run.mkdir(parents=True)
    steps = [["build", name], ["shells", name]]
    asked = {"what": "all", "typed": [f"pitplan {a} {b}" for a, b in steps], "steps": steps}
    more = {"who": "Ana", "asked": {"what": "all"}, "began": time.time(), "root": str(folder)}
    (run / "asked.json").write_text(json.dumps({**asked, **more}))
    (run / "study.toml").write_bytes((folder / name / "study.toml").read_bytes())
    begun = [{"event": "begin", "command": line.split()} for line in asked["typed"]]
    (run / "events.jsonl").write_text("".join(f"{json.dumps(each)}\n" for each in begun))
    (run / "going").touch()
    going = subprocess.Popen(["sleep", "600"], start_new_session=True)
    try:
        found = {"pid": going.pid, "since": runs.since(going.pid), "host": host()}
        write_json(run / "process.json", found)
        browser.resized(1280, 800)
        browser.get(f"{desk.address}/#/{name}/pits")
        browser.there("#running #stop")
        browser.sees(f"pitplan shells {name}", "#running")
        assert browser.script(CUT) == []
        assert browser.script(WIDE) == []
    finally:
        going.kill()
        going.wait()


def test_a_design_that_breaks_the_slopes_is_marked(browser, desk, folder):
    shutil.copytree(folder / "hill", folder / "broken")
    browser.get("about:blank")  # what was said of another study stays for half a minute
    browser.get(f"{desk.address}/#/broken/designs")
    browser.gives("#pick", TOP / "examples" / "hill-design.dxf")
    browser.there("#compare:not([disabled])")
    browser.until(lambda: "is on its way" not in browser.text("#say"), "it has come")
    browser.click("#compare")
    browser.sees("the design breaks the slopes", "#main p.look")
    browser.sees("design done by", "#main")
    browser.sees("done", "#main .chip.warn")
    browser.click("[id='to.history']")
    browser.sees("done", ".runs-of .chip.warn")
    browser.hears("design: done")
    assert not browser.text("#say .bad")
