"""The page in real browsers, against the tables, the pits and the certificates that it was made of."""
from decimal import Decimal
import copy
import re
import shutil
from collections import Counter
from types import SimpleNamespace

import numpy as np
import pytest

pytest.importorskip("selenium")
from selenium.webdriver.common.by import By
from selenium.webdriver.common.keys import Keys

import pitplan as pp
from browsers import Firefox, chromium, opened, ready
from mines import costs, shells_of, study_of, table as mine, written_study
from pitplan.plans import compare, design
from pitplan.views import page, page_views
from pitplan.cli.pictures import page as page_command
from pitplan.plans.phases import Phases
from pitplan.plans.risk import Realisation
from realisations import done, prepared

MARKUP = '</script></title><img src=x onerror="window.broken=1"><script>window.broken=1</script>{{data}}&amp;'
PITS, PHASES, DESIGN = range(3)
SIZE = np.array([20, 20, 15])


@pytest.fixture(scope="module")
def shells(tmp_path_factory):
    """Pits of a mine whose metal is called by markup."""
    metal = pp.Metal(MARKUP, "CU", price=8500, recovery=0.85)
    return shells_of(tmp_path_factory.mktemp("mine"), economics=costs(metals=(metal,)))


@pytest.fixture(scope="module")
def table(shells):
    return shells.table(mining_rate=3e5, mill_rate=2e5, discount=0.08)


@pytest.fixture(scope="module")
def phases(shells):
    return pp.Phases(pp.Shells(shells.study, [600, 1200]))


@pytest.fixture(scope="module")
def compared(shells):
    """A design with walls that stand upright: it digs beyond the best pit, leaves some of it, and
    breaks the slopes."""
    b = shells.study.model.blocks
    held = (b.ix.between(3, 8) & b.iy.between(1, 5) & (b.iz >= 1)).to_numpy()
    return compare.compare(
        shells.study, design.Design("upright", held, np.zeros(len(b), bool)), 1000
    )


@pytest.fixture(scope="module")
def file(shells, table, phases, compared, tmp_path_factory):
    return page.write(
        shells, tmp_path_factory.mktemp("page") / "pits.html", table, MARKUP, phases, compared
    )


@pytest.fixture(scope="module")
def risk(tmp_path_factory):
    """Five realisations of a mine that is turned."""
    folder = tmp_path_factory.mktemp("risk")
    return done(prepared(folder, 5, mine(8, 7, 5, 5, rotation=30.0), factors=(1000,), rotation=30))


@pytest.fixture(scope="module")
def browser():
    driver = chromium()
    yield driver
    driver.quit()


@pytest.fixture(scope="module")
def all_views(browser, file):
    opened(browser, file)
    return browser


def chosen(browser, view):
    """Chooses a view by keys."""
    box = browser.find_element(By.ID, "what")
    box.send_keys(Keys.HOME, *[Keys.ARROW_DOWN] * view)
    ready(lambda: browser.execute_script("return V === D.views[arguments[0]] && H === V.H", view))
    return browser


@pytest.fixture
def pits_view(all_views):
    return chosen(all_views, PITS)


@pytest.fixture
def phases_view(all_views):
    return chosen(all_views, PHASES)


@pytest.fixture
def design_view(all_views):
    return chosen(all_views, DESIGN)


@pytest.fixture
def likelihood_view(browser, risk, file, tmp_path_factory):
    opened(
        browser,
        page.write_likelihood(risk, 1000, tmp_path_factory.mktemp("page") / "likelihood.html"),
    )
    yield browser
    opened(browser, file)


def slider(browser):
    return browser.find_element(By.ID, "pit")


def text_of(browser, name):
    return browser.find_element(By.ID, name).text


def facts(browser, side=1):
    """What is told beside the picture: in its first column, or in another."""
    return dict(
        browser.execute_script(
            "return [...document.querySelectorAll('#facts tbody tr')].map(r => [0, arguments[0]].map(k => r.cells[k].innerText.trim()))",
            side,
        )
    )


def number(text):
    return float(text.replace(",", ""))


UNITS = {"kt": 1e3, "Mt": 1e6, "million $": 1e6, "thousand $": 1e3}


def amount(words, name):
    """What is told of a fact, in its unit, and how exactly."""
    full = next(n for n in words if n.partition(" (")[0] == name)
    unit = UNITS.get(full.rpartition("(")[2][:-1], 1)
    return number(words[full]) * unit, 0.00501 * unit if unit > 1 else 0.501


def has(words, name, value):
    shown, within = amount(words, name)
    return abs(shown - value) <= within


def rows_of(browser, table=0):
    return browser.execute_script(
        "const t = [...document.querySelectorAll('#tables table')].filter(t => t.offsetParent); return [...t[arguments[0]].tBodies[0].rows].map(r => [...r.cells].map(c => c.innerText.trim()))",
        table,
    )


def test_it_opens_without_a_word_on_the_console(pits_view, shells):
    assert pits_view.title == f"{MARKUP}: nested pits"
    assert pits_view.find_element(By.TAG_NAME, "h1").text == pits_view.title
    assert pits_view.execute_script("return document.documentElement.lang") == "en"
    assert text_of(pits_view, "step") == "1.00"
    assert slider(pits_view).get_attribute("max") == str(len(shells.factors))
    assert not pits_view.find_element(By.ID, "none").is_displayed()
    assert pits_view.get_log("browser") == []


def test_the_slider_goes_by_keys(pits_view, shells):
    slider(pits_view).send_keys(Keys.HOME)
    assert text_of(pits_view, "step") == "The ground as it is"
    assert set(facts(pits_view).values()) == {"-"}
    assert not pits_view.find_elements(By.CSS_SELECTOR, "tr[aria-current]")
    for factor in ("0.60", "0.80", "1.00", "1.20"):
        slider(pits_view).send_keys(Keys.ARROW_RIGHT)
        assert (
            text_of(pits_view, "step")
            == factor
            == slider(pits_view).get_attribute("aria-valuetext")
        )
        assert pits_view.find_element(By.CSS_SELECTOR, "tr[aria-current] th").text == factor
    slider(pits_view).send_keys(Keys.END, Keys.ARROW_LEFT)
    assert text_of(pits_view, "step") == "1.00"


def test_facts_are_those_of_the_table_and_of_pit(pits_view, shells, table):
    slider(pits_view).send_keys(Keys.HOME)
    for i, row in enumerate(table.to_dict("records")):
        slider(pits_view).send_keys(Keys.ARROW_RIGHT)
        shown = facts(pits_view)
        assert (
            number(shown["Blocks"])
            == row["blocks"]
            == shells.verdicts[i]["count"]
            == np.count_nonzero(shells.shell <= i)
        )
        worth = shown["Worth at its own factor, proved ($)"].replace(",", "")
        assert Decimal(worth) == Decimal(str(shells.verdicts[i]["worth"]))
        assert len(worth.partition(".")[2]) == max(
            len(str(verdict["worth"]).partition(".")[2]) for verdict in shells.verdicts
        )
        at = shells.study.model.blocks["iz"][shells.shell <= i]
        assert number(shown["Toe of the lowest bench (m)"]) == 100 - 15 / 2 + 15 * at.min()
        for name, column in (
            ("Ore", "ore_t"),
            ("Waste", "waste_t"),
            ("Worth at factor 1", "worth_at_base"),
            ("Discounted, best case", "npv_best"),
            ("Discounted, worst case", "npv_worst"),
        ):
            assert has(shown, name, row[column]), (name, shown, row[column])
        assert abs(number(shown["Strip ratio (t/t)"]) - row["strip"]) < 0.00501
        assert abs(number(shown["Years"]) - row["years"]) < 0.0501
        assert rows_of(pits_view)[i][1:] == list(shown.values())
        assert text_of(pits_view, "step") == rows_of(pits_view)[i][0]
        assert len(pits_view.find_elements(By.CSS_SELECTOR, "tr[aria-current]")) == 1


def test_facts_of_a_pushback_are_its_own(phases_view, phases):
    found = phases.table()
    assert slider(phases_view).get_attribute("max") == "2" == text_of(phases_view, "step")
    assert text_of(phases_view, "slides") == "After pushback"
    slider(phases_view).send_keys(Keys.HOME)
    for row in found.to_dict("records"):
        slider(phases_view).send_keys(Keys.ARROW_RIGHT)
        shown = facts(phases_view)
        assert (
            number(shown["Blocks"])
            == row["blocks"]
            == np.count_nonzero(phases.pushback == row["pushback"])
        )
        assert number(shown["Factor of its pit"]) == row["factor"]
        assert number(shown["Thinnest (m)"]) == row["width"]
        assert (number(shown["From (m)"]), number(shown["Down to (m)"])) == (
            row["top"],
            row["bottom"],
        )
        assert all(
            has(shown, name, row[column])
            for name, column in (
                ("Ore", "ore_t"),
                ("Waste", "waste_t"),
                ("Worth at factor 1", "worth"),
            )
        ), shown


def test_beside_a_pushback_stand_all_up_to_it(phases_view, phases):
    slider(phases_view).send_keys(Keys.HOME)
    for k in (1, 2):
        slider(phases_view).send_keys(Keys.ARROW_RIGHT)
        shown = facts(phases_view, 2)
        heads = phases_view.execute_script(
            "return [...document.querySelectorAll('#facts thead th')].map(e => e.textContent)"
        )
        assert heads == [
            f"pushback\N{NO-BREAK SPACE}{k} alone",
            f"up to pushback\N{NO-BREAK SPACE}{k}",
        ]
        here, study = (phases.pushback > 0) & (phases.pushback <= k), phases.shells.study
        b = study.model.blocks[here]
        assert number(shown["Blocks"]) == here.sum()
        assert has(shown, "Ore", b.tonnes[study.priced.treated(1000)[here]].sum())
        assert has(shown, "Worth at factor 1", float(study.priced.worth_of(here, 1000)))
        toe, crest = 100 - 15 / 2 + 15 * b.iz.min(), 100 + 15 / 2 + 15 * b.iz.max()
        assert (number(shown["Down to (m)"]), number(shown["From (m)"])) == (toe, crest)
        alone = ("Factor of its pit", "Benches", "Thinnest (m)")  # these aren't added up
        assert [shown[name] for name in alone] == [""] * 3


def test_a_pit_has_one_column_of_facts(pits_view):
    assert not pits_view.find_element(By.CSS_SELECTOR, "#facts thead").is_displayed()
    assert pits_view.execute_script(
        "return [...document.querySelectorAll('#facts tbody tr')].every(r => r.cells.length === 2)"
    )


def test_facts_of_a_design_and_of_the_best_pit(design_view, shells, compared):
    study, b = shells.study, shells.study.model.blocks
    milled = study.priced.treated(1000)
    rows = {row[0]: row[1:] for row in rows_of(design_view)}
    assert list(rows) == ["upright", "best pit"]
    for name, mask, worth in (
        ("upright", compared.design.held, study.priced.worth_of(compared.design.held, 1000)),
        ("best pit", study.mask(1000), study.verdict(1000)["worth"]),
    ):
        shown = dict(zip(facts(design_view), rows[name]))
        assert number(shown["Blocks"]) == mask.sum()
        assert shown["Worth at factor 1.00, exact ($)"].replace(",", "") == worth
        assert has(shown, "Ore", b.tonnes[mask & milled].sum())
        assert has(shown, "Waste", b.tonnes[mask & ~milled].sum())
    said = text_of(design_view, "said")
    assert f"pit value says of the design: {compared.said}" in said
    assert "breaks the slopes" in said
    assert f"{int(compared.repair.gap):,}" in said
    benches = np.array([[number(cell) for cell in row] for row in rows_of(design_view, 1)])
    for column, mask in (
        (1, compared.design.held),
        (2, compared.optimum),
        (3, compared.optimum & ~compared.design.held),
        (5, compared.design.held & ~compared.optimum),
    ):
        wanted = [b.tonnes[mask & (b.iz == (z - 100) / 15)].sum() for z in benches[:, 0]]
        assert np.allclose(benches[:, column] * 1e3, wanted, atol=6) or np.allclose(
            benches[:, column], wanted, atol=1
        )


DUG = "let n = 0; for (let c = 0; c < N; c++) if (H[c] !== NONE) n += H[c] - H[arguments[0] * N + c]; return n"


def test_the_heights_add_up_to_each_surface(all_views, shells, phases, compared):
    counts = (
        [v["count"] for v in shells.verdicts],
        [np.count_nonzero(phases.pushback == 1), np.count_nonzero(phases.pushback)],
        [compared.design.held.sum(), compared.optimum.sum()],
    )
    for view, wanted in enumerate(counts):
        chosen(all_views, view)
        assert [all_views.execute_script(DUG, i + 1) for i in range(len(wanted))] == wanted
    ground = shells.study.model.blocks.groupby(["ix", "iy"])["iz"].max()
    heights = np.array(all_views.execute_script("return [...H.subarray(0, N)]")).reshape(
        shells.study.model.grid.shape[:2]
    )
    assert all(heights[i, j] == top + 1 for (i, j), top in ground.items())


PIXELS = """const g = document.getElementById("picture").getContext("webgl"), w = g.drawingBufferWidth, h = g.drawingBufferHeight, p = new Uint8Array(4 * w * h);
g.readPixels(0, 0, w, h, g.RGBA, g.UNSIGNED_BYTE, p); const seen = new Map(), all = new Uint32Array(p.buffer); let sum = 7;
for (let k = 0; k < all.length; k += 3) { seen.set(all[k], (seen.get(all[k]) || 0) + 3); sum = Math.imul(sum ^ all[k], 16777619); }
return [seen.size, Math.max(...seen.values()) / (w * h), sum]"""


def test_the_picture_isnt_blank_and_follows_the_slider_and_the_controls(pits_view, shells):
    seen = []
    slider(pits_view).send_keys(Keys.HOME)
    for _ in range(len(shells.factors) + 1):
        colours, largest, picture = pits_view.execute_script(PIXELS)
        assert colours > 3
        assert largest < 0.95
        seen.append(picture)
        slider(pits_view).send_keys(Keys.ARROW_RIGHT)
    assert len(set(seen)) == len(np.unique(shells.shell[shells.shell < len(shells.factors)])) + 1
    pits_view.find_element(By.ID, "stretch").send_keys(Keys.END)
    assert text_of(pits_view, "times") == "5"
    stretched = pits_view.execute_script(PIXELS)[2]
    pits_view.find_element(By.ID, "stretch").send_keys(Keys.HOME)
    pits_view.find_element(By.ID, "plan").click()
    above = pits_view.execute_script(PIXELS)[2]
    pits_view.find_element(By.ID, "colour").send_keys(Keys.END)
    coloured = pits_view.execute_script(PIXELS)[2]
    pits_view.find_element(By.ID, "colour").send_keys(Keys.HOME)
    pits_view.find_element(By.ID, "slant").click()
    assert len({stretched, above, coloured, pits_view.execute_script(PIXELS)[2]}) == 4


# What the page has to show, worked out by NumPy and pandas from the blocks. A kind is a row of the key: its name.


def kinds_of(view, shells, phases, compared):
    """The name of each block's kind in a view."""
    if view == DESIGN:
        held, best = compared.design.held, compared.optimum
        return np.select(
            [held & best, held, best],
            ["in both", "beyond the best pit", "left by the design"],
            "rock that isn't dug",
        )
    first = {PITS: shells.shell, PHASES: np.where(phases.pushback > 0, phases.pushback - 1, 2)}[
        view
    ]
    return np.array(
        [*{PITS: ["0.60", "0.80", "1.00", "1.20"], PHASES: ["1", "2"]}[view], "rock that isn't dug"]
    )[first]


def patterns(browser, wanted):
    box = browser.find_element(By.ID, "patterns")
    if box.is_selected() != wanted:
        box.send_keys(Keys.SPACE)
    assert box.is_selected() == wanted


def key_of(browser):
    """The colour that stands beside each name in the key below a cut."""
    return {
        name: tuple(colour)
        for name, colour in browser.execute_script(
            "return [...document.querySelectorAll('#key li')].filter(li => li.querySelector('canvas')).map(li => [li.textContent, [...li.querySelector('canvas').getContext('2d').getImageData(6, 4, 1, 1).data]])"
        )
    }


def cut(browser, way, at):
    """Cuts as the keys of `test_a_cut_goes_by_keys` do: y along the model's x axis, x along its y
    axis, z a plan."""
    browser.execute_script(
        """const [way, at] = arguments, box = document.getElementById("way"), slide = document.getElementById("cut");
        if (box.value !== way) { box.value = way; box.onchange(); }
        slide.value = at; slide.oninput();""",
        way,
        at,
    )
    assert browser.find_element(By.ID, "cut").get_attribute("value") == str(at)


POINTS = """const c = document.getElementById("profile"), d = devicePixelRatio, all = c.getContext("2d").getImageData(0, 0, c.width, c.height).data;
return arguments[0].map(([x, y]) => { const at = 4 * (Math.round(y * d) * c.width + Math.round(x * d)); return [all[at], all[at + 1], all[at + 2], all[at + 3]]; })"""
LEFT, TOP, INNER = 98, 10, (-0.28, -0.17, -0.06, 0.06, 0.17, 0.28)


def layout(browser, model, way):
    """Where a place (index along x, y and z, whole at a block's centre) is drawn in a cut, in
    points of the screen."""
    grid, (room, tall) = model.grid, browser.execute_script(
        "return [document.getElementById('section').clientWidth - 34, Math.max(360, Math.round(innerHeight * 0.8))]"
    )
    if way == "z":
        east, north = (
            np.array(v)
            for v in grid.world(
                [-0.5, grid.shape[0] - 0.5, -0.5, grid.shape[0] - 0.5],
                [-0.5, -0.5, grid.shape[1] - 0.5, grid.shape[1] - 0.5],
                0,
            )[:2]
        )
        scale = min((room - LEFT - 44) / np.ptp(east), tall / np.ptp(north))

        def plan(ix, iy, _):
            e, n, _ = grid.world(ix, iy, 0)
            return LEFT + (e - east.min()) * scale, TOP + (north.max() - n) * scale

        return plan
    axis = 0 if way == "y" else 1
    scale = min(
        (room - LEFT - 10) / (grid.shape[axis] * grid.size[axis]),
        tall / (grid.shape[2] * grid.size[2]),
    )
    return lambda ix, iy, iz: (
        LEFT + ((ix, iy)[axis] + 0.5) * grid.size[axis] * scale,
        TOP + (grid.shape[2] - 0.5 - iz) * grid.size[2] * scale,
    )


def cells(browser, model, way, blocks, inner=INNER):
    """The colours within the cell of each block of a cut, the most frequent first."""
    place, points = layout(browser, model, way), []
    step = {"y": (1, 0, 0, 0, 0, 1), "x": (0, 1, 0, 0, 0, 1), "z": (1, 0, 0, 0, 1, 0)}[way]
    for b in blocks.itertuples():
        points += [
            place(
                b.ix + u * step[0] + v * step[3],
                b.iy + u * step[1] + v * step[4],
                b.iz + u * step[2] + v * step[5],
            )
            for u in inner
            for v in inner
        ]
    found = browser.execute_script(POINTS, [[float(x), float(y)] for x, y in points])
    return [
        Counter(map(tuple, found[k : k + len(inner) ** 2])).most_common()
        for k in range(0, len(found), len(inner) ** 2)
    ]


@pytest.mark.parametrize("view", [PITS, PHASES, DESIGN])
def test_sections_and_plans_show_what_each_block_is(all_views, shells, phases, compared, view):
    model, kinds, seen = shells.study.model, kinds_of(view, shells, phases, compared), set()
    chosen(all_views, view)
    patterns(all_views, False)
    each = sorted({int(model.blocks.iy[kinds == kind].iloc[0]) for kind in set(kinds)})
    for way, axis, at in (*(("y", "iy", at) for at in each), ("x", "ix", 8), ("z", "iz", 2)):
        cut(all_views, way, at)
        blocks, key = model.blocks[model.blocks[axis] == at], key_of(all_views)
        assert set(kinds[blocks.index]) <= set(key)
        for kind, colours in zip(kinds[blocks.index], cells(all_views, model, way, blocks)):
            seen.add(kind)
            if kind == "rock that isn't dug":
                assert colours[0][0][3] < 255  # dots on paper
            else:
                assert colours[0][0] == key[kind], (way, at, kind)
    assert seen == set(kinds)
    patterns(all_views, True)


def test_a_cut_fills_its_canvas_at_every_width(all_views):
    """The canvas ends where the picture does: 10 points beside a section, 44 beside a plan with its
    arrow to the north; and the picture is as wide as the page, or as high as four fifths of the
    window."""
    chosen(all_views, PITS)
    try:
        for width, height in ((1280, 900), (1920, 1080), (700, 1000)):
            all_views.set_window_size(width, height)
            room, inner = all_views.execute_script(
                "drawCut(); return [document.getElementById('section').clientWidth - 34, innerHeight]"
            )
            for way, beside in (("y", 10), ("z", 44)):
                cut(all_views, way, 2)
                wide, right, foot = all_views.execute_script(
                    "const c = document.getElementById('profile').getBoundingClientRect(); return [c.width, CUT.right, CUT.foot]"
                )
                assert abs(wide - right - beside) <= 2, (width, way, wide, right)
                assert room - wide <= 2 or foot - 10 >= 0.79 * max(450, inner), (width, way)
    finally:
        all_views.set_window_size(1300, 900)


def test_colours_are_spaced_by_tonnes(pits_view, shells, table, phases):
    """From shade to shade it is as far as from middle to middle of the tonnes of two pits, but for
    a quarter that is shared out evenly."""
    rock = table["rock_t"].tolist()
    of_phase = phases.table()["rock_t"].tolist()
    for view, adds in (
        (0, [rock[0], *(b - a for a, b in zip(rock, rock[1:]))]),
        (1, of_phase),
    ):
        found = pits_view.execute_script("return D.views[arguments[0]].tones", view)
        apart = [(a + b) / 2 for a, b in zip(adds, adds[1:])]
        wanted = [0.0]
        for gap in apart:
            wanted.append(wanted[-1] + 0.25 / len(apart) + 0.75 * gap / sum(apart))
        assert np.allclose(found, wanted), (found, wanted)
    shades = pits_view.execute_script(
        "return V.steps.map((_, k) => colourOf(k + 1)).map((c, k) => ramp(V.tones[k]).every((part, n) => part === c[n]))"
    )
    assert shades == [True] * len(shells.factors)


def test_colours_of_three_pushbacks_go_by_their_tonnes(shells):
    """What each pushback adds, by the table's tonnes: of two any spacing is the same."""
    found = Phases(pp.Shells(shells.study, [600, 800, 1200]))
    rock = [shells.study.model.blocks.TONNES[found.pushback == k].sum() for k in (1, 2, 3)]
    assert len(set(rock)) == 3
    first, last = (rock[0] + rock[1]) / 2, (rock[1] + rock[2]) / 2
    shown = page.of_view(page_views.phases(found))["tones"]
    assert shown == pytest.approx([0.0, 0.125 + 0.75 * first / (first + last), 1.0])


def test_benches_have_ticks_and_round_labels(pits_view):
    """Of benches every first, second, fifth or tenth has its elevation: by hand for a floor of 92.5
    and benches of 15."""
    for room, toes in (
        (10, [92.5, 107.5, 122.5, 137.5, 152.5, 167.5]),
        (25, [92.5, 122.5, 152.5]),
        (45, [92.5, 167.5]),
    ):
        found = pits_view.execute_script(
            "return benches(15, arguments[0]).map(k => D.floor + k * SZ)", room
        )
        assert found == toes, (room, found)


def test_four_metals_have_room_at_1280_points(browser, file, tmp_path):
    """A table that runs out of the page hides its last columns."""
    metals = [
        pp.Metal(name, column, price=price, grade_unit=unit, recovery=0.85)
        for name, column, price, unit in (
            ("copper", "CU", 8500, "%"),
            ("gold", "AU", 5e7, "g/t"),
            ("silver", "AU", 7e5, "ppm"),
            ("molybdenum", "CU", 400, "%"),
        )
    ]
    frame = mine(9, 8, 5, 5).assign(TONNES=lambda f: f.TONNES * 100)
    found = study_of(tmp_path, frame, economics=costs(metals=metals)).shells([600, 1000])
    browser.set_window_size(1280, 900)
    try:
        opened(browser, page.write(found, tmp_path / "p.html"))
        wide, has = browser.execute_script(
            "const s = document.querySelector('.scroll'); return [s.scrollWidth, s.clientWidth]"
        )
        assert wide <= has < 1280, (wide, has)
        assert len(facts(browser)) == 18
    finally:
        browser.set_window_size(1300, 900)
        opened(browser, file)


def test_a_cut_goes_by_keys(pits_view):
    box, slide = pits_view.find_element(By.ID, "way"), pits_view.find_element(By.ID, "cut")
    for way, keys, name in (
        ("y", [Keys.HOME, Keys.ARROW_RIGHT], "northing 9,020 (row 1)"),
        ("x", [Keys.END], "easting 5,160 (column 8)"),
        ("z", [Keys.END, Keys.ARROW_LEFT], "bench 137.5 (toe) to 152.5 m (crest), level 3"),
    ):
        box.send_keys(Keys.HOME, *[Keys.ARROW_DOWN] * "yxz".index(way))
        assert box.get_attribute("value") == way
        slide.send_keys(*keys)
        assert (
            text_of(pits_view, "where")
            == name
            == pits_view.find_element(By.ID, "cut").get_attribute("aria-valuetext")
        )


def test_a_block_is_told_by_keys(pits_view, shells, phases, compared):
    model, kinds = shells.study.model, kinds_of(PITS, shells, phases, compared)
    cut(pits_view, "z", 2)
    profile, middle = pits_view.find_element(By.ID, "profile"), (
        model.grid.shape[0] // 2,
        model.grid.shape[1] // 2,
    )
    profile.send_keys(Keys.ARROW_UP)
    for step, key in (((0, 0), None), ((1, 0), Keys.ARROW_RIGHT), ((1, -1), Keys.ARROW_DOWN)):
        profile.send_keys(key) if key else None
        ix, iy = np.add(middle, step)
        shown = text_of(pits_view, "there")
        block = model.blocks[
            (model.blocks.ix == ix) & (model.blocks.iy == iy) & (model.blocks.iz == 2)
        ]
        assert shown.startswith(f"{5000 + 20 * ix:,} E, {9000 + 20 * iy:,} N, 130 m. ")
        assert shown.endswith("no rock" if block.empty else kinds[block.index[0]]), (shown, ix, iy)


def test_elevations_are_in_the_units_of_the_coordinates(tmp_path):
    """Of a model in feet: beside the picture, of a cut, of a block and under the pointer."""
    feet = shells_of(tmp_path, series=[1000], units={"length": "ft"})
    browser = chromium()
    try:
        opened(browser, page.write(feet, tmp_path / "p.html"))
        cut(browser, "z", 3)
        browser.find_element(By.ID, "profile").send_keys(Keys.ARROW_UP)
        browser.execute_script(
            """const to = document.querySelector("canvas"), at = to.getBoundingClientRect();
            to.dispatchEvent(new PointerEvent("pointermove",
              { clientX: at.left + at.width / 2, clientY: at.top + at.height / 2 }));"""
        )
        marks = browser.find_elements(By.CLASS_NAME, "mark")
        toes = [mark.get_attribute("textContent") for mark in marks[4:6]]
        assert toes == ["92.5 ft –", "107.5 ft –"]
        assert text_of(browser, "where") == "bench 137.5 (toe) to 152.5 ft (crest), level 3"
        assert " N, 145 ft. " in text_of(browser, "there")
        assert re.search(r" N, [\d.,]+ ft$", text_of(browser, "here"))
    finally:
        browser.quit()


def test_black_and_white_tells_kinds_apart(all_views, shells, phases, compared):
    """Patterns differ from kind to kind, on the colours and in the key; of many kinds the colours
    go from dark to light."""
    model = shells.study.model
    for view, plain in ((PHASES, "1"), (DESIGN, "in both")):
        chosen(all_views, view)
        patterns(all_views, True)
        kinds, found = kinds_of(view, shells, phases, compared), {}
        for at in (1, 3, 5):
            cut(all_views, "y", at)
            blocks = model.blocks[model.blocks.iy == at]
            for kind, colours in zip(kinds[blocks.index], cells(all_views, model, "y", blocks)):
                found.setdefault(kind, []).append(colours[0][1] / len(INNER) ** 2)
        assert len(found) > 2
        for kind, shares in found.items():
            assert kind == "rock that isn't dug" or (np.median(shares) > 0.97) == (kind == plain), (
                kind,
                shares,
            )
        keys = all_views.execute_script(
            "return [...document.querySelectorAll('#key canvas')].map(c => c.toDataURL())"
        )
        assert len(set(keys)) == len(keys)
    chosen(all_views, PITS)
    patterns(all_views, False)
    light = [luminance("#%02x%02x%02x" % tuple(colour[:3])) for colour in swatches(all_views)]
    assert (np.diff(light) > 0.01).all()
    assert len(light) == len(shells.factors)


def swatches(browser):
    """The colours beside the names in the table."""
    return browser.execute_script(
        "return [...document.querySelectorAll('tbody .swatch')].filter(c => c.offsetParent).map(c => [...c.getContext('2d').getImageData(6, 4, 1, 1).data])"
    )


def test_a_pushback_is_named_where_it_has_most_room(phases_view, shells, phases, compared):
    """With patterns off and no surface shown nothing over the cells is white but the rim of a name."""
    patterns(phases_view, False)
    slider(phases_view).send_keys(Keys.HOME)
    model, kinds = shells.study.model, kinds_of(PHASES, shells, phases, compared)
    for kind in ("1", "2"):
        at = int(model.blocks.iy[kinds == kind].mode()[0])
        cut(phases_view, "y", at)
        blocks = model.blocks[(model.blocks.iy == at) & (kinds == kind)]
        named = [
            any(colour == (255, 255, 255, 255) for colour, _ in colours)
            for colours in cells(phases_view, model, "y", blocks, np.linspace(-0.5, 0.5, 40))
        ]
        assert 1 <= sum(named) <= 4, (kind, named)
    patterns(phases_view, True)


def edge_share(browser, model, way, block):
    """How much of the lower edge of a block's cell is a line and no gap."""
    place = layout(browser, model, way)
    points = [place(block.ix + u, block.iy, block.iz - 0.5) for u in np.linspace(-0.42, 0.42, 61)]
    best = 0.0
    for off in (-1, 0, 1):
        found = browser.execute_script(POINTS, [[float(x), float(y) + off] for x, y in points])
        best = max(best, np.mean([sum(c[:3]) < 330 and c[3] > 200 for c in found]))
    return best


def test_the_design_is_dashed_and_the_best_pit_is_a_full_line(
    design_view, shells, phases, compared
):
    patterns(design_view, False)
    model, kinds = shells.study.model, kinds_of(DESIGN, shells, phases, compared)
    b, shares = model.blocks, {"beyond the best pit": [], "left by the design": []}
    kind_at = dict(zip(zip(b.ix, b.iy, b.iz), kinds))
    for at in range(model.grid.shape[1]):
        cut(design_view, "y", at)
        for block in b[b.iy == at].itertuples():
            if (
                kinds[block.Index] in shares
                and kind_at.get((block.ix, block.iy, block.iz - 1)) == "rock that isn't dug"
            ):
                shares[kinds[block.Index]].append(edge_share(design_view, model, "y", block))
    patterns(design_view, True)
    assert shares["beyond the best pit"], shares
    assert all(0.3 < share < 0.9 for share in shares["beyond the best pit"]), shares
    assert shares["left by the design"], shares
    assert min(shares["left by the design"]) > 0.95, shares


# A mine with blocks that may not be dug, whose corners and benches need one and two decimals, and its easting alone of both.

ODD = (25, 20, 7.5)


@pytest.fixture(scope="module")
def keeping(tmp_path_factory):
    """Its pits, and a design that digs some of these blocks."""
    found = study_of(
        tmp_path_factory.mktemp("keeping"),
        mine(9, 8, 5, 5, size=ODD),
        economics=costs(forbid=["SECTOR == 'EAST' and ZC < 110"]),
        size=ODD,
    ).shells([600, 1000])
    b = found.study.model.blocks
    return found, compare.compare(
        found.study, design.Design("deep", (b.ix > 6).to_numpy(), np.zeros(len(b), bool)), 1000
    )


@pytest.fixture
def keeping_view(browser, keeping, file, tmp_path_factory):
    opened(
        browser,
        page.write(keeping[0], tmp_path_factory.mktemp("page") / "keeping.html", design=keeping[1]),
    )
    yield browser
    opened(browser, file)


# How many crosses lie on the surface where all but the lowest bench is dug: two lines each, of two points.
CROSSES = """const kept = FORBIDDEN, heights = H.slice();
for (let c = 0; c < N; c++) if (H[c] !== NONE) H[c] = 1;
const all = surface(0, false).lines.length; FORBIDDEN = null; const others = surface(0, false).lines.length;
FORBIDDEN = kept; H.set(heights); return (all - others) / 12"""


def test_what_may_not_be_dug_is_crossed_and_told(keeping_view, keeping):
    model = keeping[0].study.model
    b = model.blocks
    kept = ((b.SECTOR == "EAST") & (b.ZC < 110)).to_numpy()
    assert kept.any()
    assert not (keeping[0].holds(1) & kept).any()
    patterns(keeping_view, False)
    for at in range(8):
        cut(keeping_view, "y", at)
        rock = b[(b.iy == at) & ~keeping[0].holds(1)]
        for block, colours in zip(
            rock.index, cells(keeping_view, model, "y", rock, np.linspace(-0.3, 0.3, 13))
        ):
            assert any(130 < colour[3] < 255 for colour, _ in colours) == kept[block], (at, block)
        assert ("may not be dug" in key_of(keeping_view)) == bool(kept[rock.index].any())
    cut(keeping_view, "z", 1)
    for block in b[b.iz == 1].itertuples():
        keeping_view.execute_script(
            "tellBlock(arguments[0], arguments[1])", int(block.ix), int(block.iy)
        )
        assert text_of(keeping_view, "there").endswith("; may not be dug") == kept[block.Index]
    assert keeping_view.execute_script(CROSSES) == (kept & (b.iz == 0)).sum() > 0
    chosen(keeping_view, 1)
    assert (
        f"digs {int((kept & (b.ix > 6)).sum())} blocks that forbid keeps from being dug"
        in text_of(keeping_view, "said")
    )


DRAWN = """const said = [], kind = CanvasRenderingContext2D.prototype, real = kind.fillText;
kind.fillText = function (text, ...more) { said.push(text); real.call(this, text, ...more); };
drawCut(); kind.fillText = real; return said"""


def decimals(texts):
    """How many decimals the numbers of some texts have."""
    return {len(found[1]) for text in texts for found in re.findall(r"(\d[\d,]*)\.?(\d*)", text)}


def test_numbers_of_one_kind_have_as_many_decimals(keeping_view):
    marks = [
        e.get_attribute("textContent") for e in keeping_view.find_elements(By.CLASS_NAME, "mark")
    ]
    assert {"4,987.5 E\n8,990.0 N", "5,212.5 E\n9,150.0 N", "96.25 m –", "133.75 m –"} <= set(marks)
    assert decimals(text for text in marks if "N" in text) == {1}
    assert decimals(text for text in marks if "m" in text) == {2}
    cut(keeping_view, "y", 2)
    drawn = keeping_view.execute_script(DRAWN)
    assert {"4,987.5 E, 9,040.0 N", "5,212.5 E, 9,040.0 N"} <= set(drawn)
    assert decimals(text for text in drawn if "m" in text) == {2}
    assert text_of(keeping_view, "where") == "northing 9,040 (row 2)"
    cut(keeping_view, "z", 2)
    for end in (" E", " N –"):
        ticks = [text for text in keeping_view.execute_script(DRAWN) if text.endswith(end)]
        assert len(ticks) > 1
        assert decimals(ticks) == {0}
    assert text_of(keeping_view, "where") == "bench 111.25 (toe) to 118.75 m (crest), level 2"
    assert decimals(row[2] for row in rows_of(keeping_view)) == {2}


FROM_ABOVE = """const v = document.getElementById("view"), bar = document.getElementById("bar"), g = document.getElementById("picture").getContext("webgl");
const metre = bar.getBoundingClientRect().width / parseFloat(bar.textContent.replace(/,/g, "")), w = g.drawingBufferWidth, h = g.drawingBufferHeight, d = w / v.clientWidth;
return arguments[0].map(([east, north]) => { const p = new Uint8Array(4); g.readPixels(Math.round(w / 2 + east * metre * d), Math.round(h / 2 + north * metre * d), 1, 1, g.RGBA, g.UNSIGNED_BYTE, p); return [...p]; })"""


@pytest.mark.parametrize(
    "view, step", [(PITS, 3), (PHASES, 2), (PHASES, 1), (DESIGN, 1), (DESIGN, 2)]
)
def test_from_above_each_column_has_the_colour_of_what_is_open(
    all_views, shells, phases, compared, view, step
):
    """Off the middle of each column, where neither benches nor the frame of the cut are drawn."""
    model, kinds = shells.study.model, kinds_of(view, shells, phases, compared)
    chosen(all_views, view)
    patterns(all_views, False)
    slider(all_views).send_keys(Keys.HOME, *[Keys.ARROW_RIGHT] * step)
    all_views.find_element(By.ID, "plan").click()
    cut(all_views, "z", 0)
    colours = {}
    for at in range(model.grid.shape[1]):
        cut(all_views, "y", at)
        colours |= key_of(all_views)
    surface = (
        shells.shell <= step - 1
        if view == PITS
        else (phases.pushback > 0) & (phases.pushback <= step)
    )
    places, wanted = [], []
    for (ix, iy), blocks in model.blocks.groupby(["ix", "iy"]):
        dug = blocks[surface[blocks.index]]
        if view == DESIGN:
            differ = [
                k for k in kinds[blocks.index] if k in ("beyond the best pit", "left by the design")
            ]
            kind = differ[0] if differ else "in both" if "in both" in kinds[blocks.index] else None
        else:
            kind = kinds[dug.iz.idxmin()] if len(dug) else None
        wanted.append(kind)
        places.append(
            [
                float(20 * (ix - (model.grid.shape[0] - 1) / 2) + 6),
                float(20 * (iy - (model.grid.shape[1] - 1) / 2) + 4),
            ]
        )
    all_views.find_element(By.ID, "way").send_keys(Keys.END)
    for kind, found in zip(wanted, all_views.execute_script(FROM_ABOVE, places)):
        true = np.array(colours[kind][:3] if kind else (184, 178, 168), float)
        assert (
            np.abs(np.array(found[:3]) / max(sum(found[:3]), 1) - true / true.sum()).max() < 0.02
        ), (kind, found, true)
    all_views.find_element(By.ID, "slant").click()
    patterns(all_views, True)


# The page of likelihood, over a turned model.


def shares_of(risk):
    """In how many of the realisations' pits each block is, from the pits that were kept."""
    hits = np.zeros(len(risk.study.model), int)
    for r in range(risk.count):
        with np.load(risk.study.folder / "runs" / f"r{r:04d}" / "f01000" / "pit.npz") as kept:
            hits += np.unpackbits(kept["bits"], count=len(hits))
    return hits


def test_pits_by_likelihood(likelihood_view, risk):
    browser, hits, model = likelihood_view, shares_of(risk), risk.study.model
    assert browser.title == f"{risk.study.folder.name}: likelihood over 5 realisations"
    assert browser.get_log("browser") == []
    assert text_of(browser, "step") == "50%"
    assert not browser.find_element(By.ID, "which").is_displayed()
    assert not browser.find_element(
        By.ID, "patterns"
    ).is_selected()  # nine patterns would tell less than they hide
    tenths = list(range(9, 0, -1))
    priced = [Realisation(risk.study, risk.setup, r).priced for r in range(risk.count)]
    slider(browser).send_keys(Keys.HOME)
    for tenth in tenths:
        slider(browser).send_keys(Keys.ARROW_RIGHT)
        mask, shown = 10 * hits >= tenth * risk.count, facts(browser)
        assert text_of(browser, "step") == f"{10 * tenth}%"
        assert number(shown["Blocks"]) == mask.sum()
        assert has(shown, "Rock", model.blocks.tonnes[mask].sum())
        assert browser.execute_script(DUG, 10 - tenth) == mask.sum()
        worths = [float(p.worth_of(mask, 1000)) for p in priced]
        for name, value in (
            ("Worth, least", min(worths)),
            ("Worth, mean", np.mean(worths)),
            ("Worth, most", max(worths)),
        ):
            assert has(shown, name, value), (name, shown, value)
    light = [luminance("#%02x%02x%02x" % tuple(colour[:3])) for colour in swatches(browser)]
    assert (np.diff(light) > 0.01).all()  # the likeliest is darkest
    assert len(light) == 9
    means = [
        np.mean([float(p.worth_of(10 * hits >= tenth * risk.count, 1000)) for p in priced])
        for tenth in tenths
    ]
    assert (
        f"Of these 9 pits that of at least {10 * tenths[int(np.argmax(means))]}% is worth most on the mean"
        in browser.find_element(By.TAG_NAME, "body").text
    )
    own = risk.runs.worth.to_numpy()
    spread = dict(
        zip(
            [
                c.text.split(" (")[0]
                for c in browser.find_elements(By.CSS_SELECTOR, "section table")[1].find_elements(
                    By.CSS_SELECTOR, "thead th"
                )
            ],
            rows_of(browser, 1)[0],
        )
    )
    unit = 1e6 if abs(own).max() >= 1e7 else 1e3
    for name, value in (
        ("Worth, least", own.min()),
        ("Worth, p10", np.quantile(own, 0.1)),
        ("Worth, median", np.median(own)),
        ("Worth, p90", np.quantile(own, 0.9)),
        ("Worth, most", own.max()),
    ):
        assert abs(number(spread[name]) * unit - value) <= 0.00501 * unit, (name, spread, value)


def test_a_turned_plan_and_sections_by_likelihood(likelihood_view, risk):
    browser, hits, model = likelihood_view, shares_of(risk), risk.study.model
    name = np.array(["rock that isn't dug", *(f"{10 * t}%" for t in range(1, 10))])[
        np.minimum(10 * hits // risk.count, 9)
    ]
    seen = set()
    for way, axis, at in (("z", "iz", 2), ("z", "iz", 3), ("y", "iy", 3), ("x", "ix", 2)):
        cut(browser, way, at)
        blocks, key = model.blocks[model.blocks[axis] == at], key_of(browser)
        for kind, colours in zip(name[blocks.index], cells(browser, model, way, blocks)):
            seen.add(kind)
            assert (
                colours[0][0][3] < 255
                if kind == "rock that isn't dug"
                else colours[0][0] == key[kind]
            ), (way, at, kind, colours)
    assert len(seen) > 2
    assert text_of(browser, "where") == "column 2"


def test_the_picture_turns_by_keys_and_leaves_the_slider_alone(pits_view):
    before, at = pits_view.execute_script(PIXELS)[2], slider(pits_view).get_attribute("value")
    pits_view.find_element(By.ID, "picture").send_keys(Keys.ARROW_LEFT, "+")
    assert pits_view.execute_script(PIXELS)[2] != before
    assert slider(pits_view).get_attribute("value") == at
    pits_view.find_element(By.ID, "slant").click()


def test_north_is_where_the_needle_points(pits_view):
    pits_view.find_element(By.ID, "plan").click()
    turn = float(
        re.findall(
            r"rotate\(([-\d.e]+)\)",
            pits_view.find_element(By.ID, "needle").get_attribute("transform"),
        )[0]
    )
    assert abs(turn) < 0.5  # from above north is up
    marks = {
        e.text: e.location for e in pits_view.find_elements(By.CLASS_NAME, "mark") if " N" in e.text
    }
    (south, low), (north, high) = sorted(
        ((number(t.split()[2]), p["y"]) for t, p in marks.items())
    )[::3]
    assert south < north
    assert low > high
    pits_view.find_element(By.ID, "slant").click()


def test_text_of_the_user_stays_text(pits_view):
    assert pits_view.execute_script("return window.broken") is None
    assert not pits_view.find_elements(By.TAG_NAME, "img")
    assert any(MARKUP in name for name in facts(pits_view))
    head = [e.text for e in pits_view.find_elements(By.CSS_SELECTOR, "thead th")]
    assert any(" ".join(MARKUP.split()) in " ".join(h.split()) for h in head)


def test_the_page_asks_no_network(pits_view, file):
    text = file.read_text()
    assert not re.findall(
        r"<(?:script|link|img|iframe|object|embed)[^>]*\s(?:src|href|data)\s*=", text
    )
    assert pits_view.execute_script("return performance.getEntriesByType('resource').length") == 0
    blocked = pits_view.execute_async_script(
        "const done = arguments[0]; fetch('https://example.org/').then(() => done('fetched'), () => done('blocked'))"
    )
    assert blocked == "blocked"
    inserted = pits_view.execute_script(
        "const s = document.createElement('script'); s.textContent = 'window.inserted = 1'; document.body.append(s); return window.inserted || 0"
    )
    assert inserted == 0  # only the scripts whose digests the policy names are run
    assert all("Content Security Policy" in e["message"] for e in pits_view.get_log("browser"))


def test_each_control_has_a_name_and_they_come_in_order(pits_view):
    for control in pits_view.find_elements(
        By.CSS_SELECTOR, "input, select, button, #picture, #profile, [role=region]"
    ):
        if control.is_displayed():
            assert control.accessible_name.strip(), control.get_attribute("outerHTML")
    pits_view.execute_script("const h = document.querySelector('h1'); h.tabIndex = -1; h.focus()")
    order = []
    for _ in range(11):
        pits_view.switch_to.active_element.send_keys(Keys.TAB)
        order.append(pits_view.switch_to.active_element.get_attribute("id"))
    assert order == [
        "what",
        "pit",
        "patterns",
        "stretch",
        "colour",
        "plan",
        "slant",
        "picture",
        "way",
        "cut",
        "profile",
    ]


@pytest.mark.parametrize("scheme", ["light", "dark"])
def test_text_stands_out_from_its_ground(all_views, scheme):
    """Contrast of at least 4.5, as WCAG asks of text."""
    all_views.execute_cdp_cmd(
        "Emulation.setEmulatedMedia",
        {"features": [{"name": "prefers-color-scheme", "value": scheme}]},
    )
    pairs = all_views.execute_script(
        """const s = getComputedStyle(document.documentElement), v = n => s.getPropertyValue(n).trim();
        return [[v("--ink"), v("--paper")], [v("--ink"), v("--sky")], [v("--on-ink"), v("--on")]]"""
    )
    all_views.execute_cdp_cmd("Emulation.setEmulatedMedia", {"features": []})
    for one, other in pairs:
        low, high = sorted((luminance(one), luminance(other)))
        assert (high + 0.05) / (low + 0.05) >= 4.5, (scheme, one, other)


def luminance(colour):
    digits = colour[1:] if len(colour) == 7 else "".join(2 * c for c in colour[1:])
    parts = np.array([int(digits[k : k + 2], 16) / 255 for k in (0, 2, 4)])
    return float(
        np.where(parts <= 0.04045, parts / 12.92, ((parts + 0.055) / 1.055) ** 2.4)
        @ [0.2126, 0.7152, 0.0722]
    )


def test_a_narrow_window_needs_no_sideways_scroll(design_view):
    design_view.set_window_size(500, 900)
    wide = design_view.execute_script("return document.documentElement.scrollWidth - innerWidth")
    design_view.set_window_size(1300, 900)
    assert wide <= 0


def test_without_webgl_the_numbers_and_the_sections_are_there(browser, file):
    script = {
        "source": "const real = HTMLCanvasElement.prototype.getContext; HTMLCanvasElement.prototype.getContext = function (kind, ...more) { return kind.includes('webgl') ? null : real.call(this, kind, ...more); }"
    }
    added = browser.execute_cdp_cmd("Page.addScriptToEvaluateOnNewDocument", script)
    try:
        opened(browser, file)
        assert "WebGL" in text_of(browser, "none")
        assert not browser.find_element(By.ID, "drawing").is_displayed()
        slider(browser).send_keys(Keys.HOME, Keys.ARROW_RIGHT)
        assert (
            facts(browser)["Blocks"]
            == browser.find_element(By.CSS_SELECTOR, "tr[aria-current] td").text
            != "-"
        )
        cut(browser, "y", 3)
        assert len(key_of(browser)) > 2
    finally:
        browser.execute_cdp_cmd("Page.removeScriptToEvaluateOnNewDocument", added)
        opened(browser, file)
        browser.get_log("browser")


@pytest.mark.skipif(
    not (shutil.which("firefox-esr") and shutil.which("xvfb-run")),
    reason="firefox-esr or xvfb isn't installed",
)
def test_firefox(file, shells, compared):
    firefox = Firefox()
    try:
        firefox.get(f"file://{file}")
        ready(lambda: firefox.execute_script("return document.documentElement.dataset.ready"))
        assert firefox.execute_script("return document.getElementById('none').hidden")
        seen = []
        for keys, factor in (
            ("\ue011", "The ground as it is"),
            ("\ue014", "0.60"),
            ("\ue010", "1.20"),
        ):
            firefox.press("#pit", keys)
            assert (
                firefox.execute_script("return document.getElementById('step').textContent")
                == factor
            )
            colours, largest, picture = firefox.execute_script(PIXELS)
            assert colours > 3
            assert largest < 0.95
            seen.append(picture)
        assert len(set(seen)) == 3
        assert (
            firefox.execute_script(
                "return document.querySelector('#facts td:nth-child(2)').textContent"
            )
            == f"{shells.verdicts[-1]['count']:,}"
        )
        firefox.press("#what", "\ue010")
        ready(
            lambda: firefox.execute_script(
                "return document.getElementById('slides').textContent === 'Surface of'"
            )
        )
        assert (
            firefox.execute_script(
                "return document.querySelector('#facts td:nth-child(2)').textContent"
            )
            == f"{compared.design.held.sum():,}"
        )
        firefox.press("#way", "\ue010")
        assert firefox.execute_script(
            "return document.getElementById('where').textContent"
        ).startswith("bench ")
        counted = firefox.execute_script(
            "const c = document.getElementById('profile'), p = c.getContext('2d').getImageData(0, 0, c.width, c.height).data, s = new Set(); for (let k = 0; k < p.length; k += 4) s.add(p[k] << 16 | p[k + 1] << 8 | p[k + 2]); return s.size"
        )
        assert counted > 5
    finally:
        firefox.close()


# Without a browser.


def test_a_surface_with_an_overhang_is_refused(shells, compared):
    hung = copy.copy(shells)
    b = shells.study.model.blocks
    hung.shell = np.full_like(shells.shell, len(shells.factors))
    low = b.index[b["iz"] == 0][0]
    hung.shell[low] = 0
    with pytest.raises(
        pp.PlanError, match=f"pit at factor 0.60 has block {b['id'][low]} without all that is above"
    ):
        page_views.pits(hung, shells.table())
    held = np.zeros(len(b), bool)
    held[low] = True
    broken = SimpleNamespace(**{**vars(compared), "design": design.Design("holes", held, ~held)})
    with pytest.raises(
        pp.PlanError,
        match=f"the design holes has block {b['id'][low]} without all that is above it",
    ):
        page_views.design(shells.study, broken)


def test_three_js_that_isnt_there_is_told(shells, tmp_path, monkeypatch):
    monkeypatch.setattr(page, "THREE_JS", tmp_path)
    with pytest.raises(pp.PlanError, match="apt install libjs-three"):
        page.write(shells, tmp_path / "p.html")
    assert list(tmp_path.iterdir()) == []


def test_the_command_takes_pushbacks_and_a_design_in_the_planners_words(tmp_path):
    from pitplan.cli.build import build
    from pitplan.cli.shells import shells as shells_command

    folder = written_study(tmp_path / "s")
    build(folder)
    shells_command(folder, None)

    def run(**words):
        page_command(
            folder,
            **{
                **dict(
                    phases=None,
                    design=None,
                    layer=[],
                    column=None,
                    value=None,
                    factor=1.0,
                    title="North pit",
                    is_schedule=False,
                ),
                **words,
            },
        )

    run()
    path = folder / "out/pits.html"
    assert "<title>North pit: nested pits</title>" in path.read_text()
    assert path.read_text().count("<section ") == 1
    ids = pp.Study(folder).model.blocks["id"][pp.Study(folder).mask(600)]
    (tmp_path / "d.txt").write_text("\n".join(ids) + "\n")
    run(phases="0.6,1.0", design=tmp_path / "d.txt")
    text = path.read_text()
    assert text.count("<section ") == 3
    assert "Design d beside the best pit" in text
    (tmp_path / "d.csv").write_text("X_LOCAL,NORTH,RL\n1,2,3\n")
    for words, said in (
        (
            dict(design=tmp_path / "d.csv"),
            r"d.csv: is it ids of blocks or points of a surface\? Its columns are X_LOCAL, NORTH, RL\n  try: call its column of ids IJK, or",
        ),
        (dict(design=tmp_path / "none.dxf"), "none.dxf: there is no such file"),
        (dict(design=tmp_path / "none.csv"), "none.csv: there is no such file"),
        (dict(column="PIT"), "no column 'PIT'"),
        (dict(phases="0.6,0.9"), "0.9 hasn't been run; the nearest that have are 0.6, 1"),
        (dict(phases="1,0.6"), "aren't in ascending order"),
        (dict(design=tmp_path / "d.txt", factor=0.9), "the pit at factor 0.9 hasn't been run"),
        (dict(design=tmp_path / "d.txt", column="CU"), "one of --design FILE and --column NAME"),
    ):
        with pytest.raises(pp.PlanError, match=said):
            run(**words)
    assert path.read_text() == text  # what was there stays


def test_a_design_file_is_told_by_its_columns(shells, tmp_path):
    model = shells.study.model
    x, y, z = model.xyz()
    corners = [(4990, 8990), (5170, 8990), (4990, 9150), (5170, 9150)]
    (tmp_path / "s.csv").write_text("x,y,z\n" + "".join(f"{e},{n},130\n" for e, n in corners))
    assert (design.by_file(model, tmp_path / "s.csv").held == (z > 130)).all()
    some = model.blocks[model.blocks.iz == 4].head(3)
    (tmp_path / "t.csv").write_text("IJK,XC,YC,ZC\n" + "".join(f"{i},1,2,3\n" for i in some["id"]))
    assert set(np.flatnonzero(design.by_file(model, tmp_path / "t.csv").held)) == set(some.index)
