"""Feet, short tons and ounces a short ton: the study is that of the same mine in metres and tonnes,
whose figures were worked out in loops."""
import dataclasses
import re
import subprocess
import sys

import pytest

import pitplan as pp
from bundles import bundled
from mines import COPPER, SIZE, STUDY_TOML, study_of, table, written_study
from pitplan.base import units
from processes import said

POUND, OUNCE, FOOT = 0.45359237, 31.1034768, 0.3048  # kg, g, m: of the agreement of 1959
SHORT = 2000 * POUND / 1000  # tonnes
GOLD = pp.Metal("gold", "AU", 1500, "oz/st", "oz", 0.6)
COSTS = {"metals": (GOLD,), "mining": 2.0, "processing": 9.0}
IMPERIAL = {"length": "ft", "weight": "st"}
FRAME = table(8, 7, 5, 5).assign(AU=lambda f: (f.CU / 10).round(4))  # feet, short tons


def priced(row):
    """What a block in short tons brings and costs: its ounces are grade times weight."""
    brings, treating = row["AU"] * row["TONNES"] * 0.6 * 1500, 9.0 * row["TONNES"]
    return round(brings), round(treating), round(2.0 * row["TONNES"])


def test_ounces_a_short_ton_need_no_factor(tmp_path):
    model = study_of(tmp_path, FRAME, economics=pp.Economics(**COSTS), units=IMPERIAL).model
    found = pp.Economics(**COSTS).priced(model)
    for at, row in enumerate(FRAME.to_dict("records")):
        amounts = (found.ways[0].revenue[at], found.ways[0].processing[at], found.mining[at])
        assert amounts == pytest.approx(priced(row), abs=1)
        assert found.ways[0].metal["gold"][at] == pytest.approx(row["AU"] * row["TONNES"] * 0.6)


def test_the_mine_in_metres_and_tonnes_is_the_same(tmp_path):
    """Each block as heavy, each cost for as much rock: the pit has the same blocks, and its worth
    is the same but for rounding."""
    (tmp_path / "own").mkdir()
    own = FRAME.assign(TONNES=FRAME.TONNES * SHORT, AU=FRAME.AU * OUNCE / SHORT)
    for axis in ("XC", "YC", "ZC"):
        own[axis] *= FOOT
    metric = pp.Economics(
        (dataclasses.replace(GOLD, grade_unit="g/t"),), 2.0 / SHORT, 9.0 / SHORT, rounding=0.01
    )
    theirs = study_of(
        tmp_path / "own",
        own,
        economics=metric,
        size=tuple(side * FOOT for side in SIZE),
    ).pit(1.0)
    economics = pp.Economics(**COSTS, rounding=0.01)
    ours = study_of(tmp_path, FRAME, economics=economics, units=IMPERIAL).pit(1.0)
    assert ours.mask.tolist() == theirs.mask.tolist()
    assert float(ours.worth) == pytest.approx(float(theirs.worth), abs=0.05 * len(FRAME))
    assert ours.count > 20


@pytest.mark.parametrize(
    "given, weight",
    [
        ({}, 20 * 20 * 15 * 2.5),
        ({"length": "ft"}, 20 * 20 * 15 * FOOT**3 * 2.5),
        ({"weight": "st"}, 20 * 20 * 15 * 2.5 / SHORT),
        (IMPERIAL, 20 * 20 * 15 * FOOT**3 * 2.5 / SHORT),
    ],
)
def test_a_density_is_tonnes_a_cubic_metre(tmp_path, given, weight):
    frame = FRAME.drop(columns="TONNES").assign(SG=2.5)
    frame.to_csv(tmp_path / "t.csv", index=False)
    model = pp.read_table(tmp_path / "t.csv", size=SIZE, units=given)
    assert model.blocks.tonnes.tolist() == pytest.approx([weight] * len(frame))


def test_units_by_hand():
    """An ounce a short ton is 34.2857 g/t, a pound a short ton 500 g/t, a short ton unit 20 pounds."""
    assert units.GRADES["oz/st"] == pytest.approx(34.285714, rel=1e-7)
    assert units.GRADES["lb/st"] == pytest.approx(500.0)
    assert units.PRICES["st"] == pytest.approx(2000 * 453.59237)
    assert units.PRICES["stu"] == pytest.approx(20 * 453.59237)
    assert units.metal_in_a_tonne("zinc", "%", "lb") == pytest.approx(22.0462262)


@pytest.mark.parametrize("wrong", [{"length": "feet"}, {"weight": "ton"}, {"area": "ft"}, "ft"])
def test_other_units_are_told(tmp_path, wrong):
    FRAME.to_csv(tmp_path / "t.csv", index=False)
    with pytest.raises(pp.PlanError, match=r"\[model\] units is .*has to be a table as"):
        pp.read_table(tmp_path / "t.csv", size=SIZE, units=wrong)


def test_a_metal_is_sold_in_a_currency_of_its_own(tmp_path):
    """Copper in dollars of 950 pesos and gold in pesos: amounts are whole pesos, worked out block
    by block."""
    copper = pp.Metal("copper", "CU", 8500, recovery=0.85, selling=300, currency="US$")
    gold = pp.Metal("gold", "AU", 1_800_000, "g/t", "oz", 0.6)
    economics = pp.Economics(
        (copper, gold), 1900, 8550, currency="CLP", exchange={"US$": 950, "EUR": 1030}
    )
    model = study_of(tmp_path, FRAME, economics=economics).model
    found = economics.priced(model)
    for at, row in enumerate(FRAME.to_dict("records")):
        t = row["TONNES"]
        units = (t * row["CU"] / 100 * 0.85, t * row["AU"] * 0.6 / OUNCE)
        brings = units[0] * 8500 * 950 + units[1] * 1_800_000
        assert found.ways[0].revenue[at] == pytest.approx(brings, abs=1)
        assert found.ways[0].processing[at] == pytest.approx(8550 * t + units[0] * 300 * 950, abs=1)


def test_a_currency_without_a_rate_is_told():
    words = "currency is 'USD', and exchange says nothing of it; is 'US\\$' meant"
    copper = pp.Metal("copper", "CU", 8500, currency="USD")
    with pytest.raises(pp.PlanError, match=words):
        pp.Economics((copper,), 1, 1, currency="CLP", exchange={"US$": 950})
    for wrong in ({"US$": 0}, {"US$": -1}, {"US$": "950"}, 950):
        with pytest.raises(
            pp.PlanError, match="exchange is .* has to be a table of numbers above 0"
        ):
            pp.Economics((COPPER,), 1, 1, exchange=wrong)


TOML = STUDY_TOML.replace(
    'table = "t.csv"', 'table = "t.csv"\nunits = { length = "ft", weight = "st" }'
).replace(
    'grade = "CU", price = 8500',
    'grade = "CU", grade_unit = "lb/st", price = 4, price_unit = "lb"',
)


def pounds():
    return table(7, 6, 4, 3).assign(CU=lambda f: f.CU * 20)


def test_tables_and_pictures_say_their_units(tmp_path):
    folder = written_study(tmp_path / "s", pounds(), TOML)
    built = said("build", folder)
    assert "ore Mst" in built
    assert "copper lb/st" in built
    assert "Mt " not in built
    pits = said("shells", folder)
    assert re.search(r"waste [Mk]st\b", pits)
    thin = said("phases", folder, "0.6,1.0", "--mining-width", "40")
    assert "from ft" in thin
    assert "thinnest ft" in thin
    wide = said("phases", folder, "0.6,1.0", "--widen", "40")
    assert "widened to 40 ft: " in wide
    assert re.search(r" [Mk]st\), ", wide)
    assert not re.search(r"\d (m|[Mk]?t)\b", wide)
    ramp = "ramp = { width = 25, grade = 0.10, height = 300, turns = 2 }\n"
    path = folder / "study.toml"
    path.write_text(path.read_text().replace("[slopes]\n", f"[slopes]\n{ramp}"))
    walls = said("slopes", folder)
    assert "over 300 ft a wall is" in walls
    assert "of a ramp of 25 ft adds 50.0" in walls.replace(
        "ramp of 25 ft add ", "ramp of 25 ft adds "
    )
    from pitplan.views import page_views, pictures

    shells = pp.Shells(pp.Study(folder), [600, 1000])
    assert pictures.plan(shells, 100).axes[0].get_xlabel() == "Easting (ft)"
    names = [name for name, _ in page_views.pits(shells, shells.table()).table.columns]
    assert "Toe of the lowest bench (ft)" in names
    assert "Strip ratio (st/st)" in names
    assert any(name.startswith("Ore (") and name.endswith("st)") for name in names)


def test_classes_say_their_units(tmp_path):
    """Where a table has classes, they are in short tons, too; the page's scale is in feet."""
    frame = pounds().assign(CLASS=lambda f: ["MEA", "INF"] * (len(f) // 2))
    shells = study_of(tmp_path, frame, units=IMPERIAL).shells([600, 1000])
    study = shells.study
    from pitplan.model.grade_tonnage import by_class
    from pitplan.views import page, page_views
    from pitplan.views.report import contents

    sets = {"pit": shells.holds(1)}
    lines = by_class(study.model, study.priced, study.manifest["metals"], study.classes, sets)
    rows = [row for row, dug in zip(frame.to_dict("records"), shells.holds(1)) if dug]
    for line in lines.to_dict("records"):
        tonnes = sum(row["TONNES"] for row in rows if row["CLASS"] == line["class"])
        assert line["Mst"] == pytest.approx(tonnes / 1e6)
    assert len(lines) == 2
    (of_page,) = page_views.by_kinds(study, "Factor", sets)
    assert "Strip ratio (st/st)" in [name for name, _ in of_page.columns]
    (of_report,) = contents.of_classes(shells)
    assert {c.unit for c in of_report.columns if c.name.endswith("in place")} == {"st"}
    assert page.data_of(study, [])["unit"] == "ft"


def test_a_bundle_in_short_tons_is_worked_out_again(tmp_path, program):
    frame = pounds().drop(columns="TONNES").assign(SG=2.5)
    text = TOML.replace('price_unit = "lb"', 'price_unit = "lb", selling = 0.2, currency = "EUR"')
    text = text.replace("mining = 2.0", 'currency = "CAD"\nexchange = { EUR = 1.5 }\nmining = 2.0')
    folder = bundled(tmp_path, text, frame)
    words = [sys.executable, folder / "recheck.py", program]
    found = subprocess.run(words, capture_output=True, text=True)
    assert found.returncode == 0, found.stdout


def test_elevations_in_feet_have_few_decimals(tmp_path):
    """A mine of metres whose coordinates were made feet: by hand, benches begin at 303.4777,
    352.6903 and 401.9029 feet."""
    frame = table(9, 8, 5, 5)
    for axis in ("XC", "YC", "ZC"):
        frame[axis] = (frame[axis] / FOOT).round(6)
    size = ", ".join(f"{side / FOOT:.7f}" for side in SIZE)
    text = STUDY_TOML.replace("[20, 20, 15]", f'[{size}]\nunits = {{ length = "ft" }}')
    folder = written_study(tmp_path / "s", frame, text)
    said("build", folder)
    said("shells", folder)
    cut = said("phases", folder, "0.6,1.0", "--mining-width", "131")
    assert " 303.5 " in cut
    assert not re.search(r"\d\.\d{4}", cut)
    drawn = said("plot", folder, "--bench", "401.9")
    assert drawn.strip().endswith("plan-401.9.png")
    drawn = said("plot", folder)
    assert re.search(r"plan-\d{3}\.\d\.png", drawn)
    from pitplan.views import pictures, plane

    shells = pp.Shells(pp.Study(folder), [600, 1000])
    assert [plane.bench_at(shells.study.model, at) for at in (352.6, 352.7, 401.9)] == [0, 1, 2]
    axes = pictures.section(shells, row=3).axes[0]
    labels = [axes.yaxis.get_major_formatter()(at) for at in axes.get_yticks()]
    assert labels
    assert all(re.fullmatch(r"\d{3}\.\d", label) for label in labels)
    assert axes.get_title().startswith("Section at northing 29,724.4, looking north")
