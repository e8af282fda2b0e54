"""Beside a cliff a slope leads through air that tables have no rows for: the pits are those of the
table that has these rows."""
from dataclasses import replace

import numpy as np
import pytest

import pitplan as pp
from mines import CUBE, WASTE, below, study_of
from pitplan.plans import compare, compare_words, design, vary
from pitplan.study import strange_worths
from pitplan.slopes.steep_ground import led_through, with_air
from served import pitplan


def dug(study, factor=1000):
    """The rock of the best pit by its ids, and what it is worth."""
    b = study.shells([factor])
    held = b.holds(0) & (study.model.blocks.tonnes.to_numpy() > 0)
    return set(study.model.blocks.id[held]), b.verdicts[0]["worth"]


@pytest.mark.parametrize(
    "slopes",
    [
        pp.Slopes(45),
        pp.Slopes(40, by="SECTOR", regions={"LEFT": [[0, 35], [180, 50]]}),
        pp.Slopes(45, levels=1),
    ],
)
def test_a_cliff_is_dug_back_whether_or_not_air_has_rows(tmp_path, slopes):
    f = below(8)
    (tmp_path / "a").mkdir(), (tmp_path / "b").mkdir()
    whole = study_of(tmp_path / "a", f, slopes, WASTE, size=CUBE)
    lean = study_of(tmp_path / "b", f[f.TONNES > 0], slopes, WASTE, size=CUBE)
    ids, worth = dug(lean)
    assert (ids, worth) == dug(whole)
    assert any(name in ids for name in f.IJK[f.XC >= 90])
    added = lean.model.blocks["row"] < 0
    assert added.any()
    assert (lean.model.blocks.tonnes[added] == 0).all()
    assert lean.priced.worth(1000)[added].any() == 0
    assert len(lean.model) < len(whole.model)
    assert "blocks of air added" in lean.model.notes[-1]


@pytest.mark.parametrize(
    "mining, cost",
    [
        ("2 + 0.1 * sqrt(TOPO - ZC)", lambda f: 2 + 0.1 * np.sqrt(np.maximum(0, f.TOPO - f.ZC))),
        ("0.5 + 0.02 * (TOPO - ZC)", lambda f: 0.5 + 0.02 * np.maximum(0, f.TOPO - f.ZC)),
    ],
)
def test_a_formula_that_goes_by_the_ground_is_not_asked_of_added_air(tmp_path, mining, cost):
    """Above the ground it gives no number, or less than nothing, and air weighs nothing: the pits
    are those of the same costs in a column."""
    f = below(8)
    rock = f.TONNES > 0
    f["TOPO"] = f.ZC.where(rock).groupby([f.XC, f.YC]).transform("max") + 5
    f["COST"] = cost(f)
    (tmp_path / "a").mkdir(), (tmp_path / "b").mkdir()
    forbid = ["sqrt(TOPO - ZC) > 9"]
    lean = study_of(
        tmp_path / "a",
        f[rock],
        pp.Slopes(45),
        replace(WASTE, mining=mining, forbid=forbid),
        size=CUBE,
    )
    whole = study_of(
        tmp_path / "b",
        f,
        pp.Slopes(45),
        replace(WASTE, mining="COST", forbid=["TOPO - ZC > 81"]),
        size=CUBE,
    )
    assert dug(lean) == dug(whole)
    assert dug(lean)[0]
    assert (lean.model.blocks["row"] < 0).any()
    assert not strange_worths.of_forbid(lean.model, replace(WASTE, forbid=forbid))
    assert lean.priced.forbidden.sum() == whole.priced.forbidden.sum() > 0


def test_a_formula_without_a_number_names_no_row_of_a_block_that_has_none(tmp_path):
    f = below(1)
    f[f.TONNES > 0].to_csv(tmp_path / "t.csv", index=False)
    model = pp.read_table(tmp_path / "t.csv", size=CUBE, widen=1)
    with pytest.raises(pp.PlanError, match="gives no number here") as error:
        replace(WASTE, mining="2 + sqrt(XC)").priced(model)
    assert error.value.row is None
    assert "row 1" not in str(error.value)


def test_no_air_is_added_where_the_ground_is_nowhere_steeper_than_the_slopes(tmp_path):
    f = below(1)
    f[f.TONNES > 0].to_csv(tmp_path / "t.csv", index=False)
    model = pp.read_table(tmp_path / "t.csv", size=CUBE)
    assert with_air(model, pp.Slopes(45)) is model
    f.to_csv(tmp_path / "t.csv", index=False)
    model = pp.read_table(tmp_path / "t.csv", size=CUBE)
    assert with_air(model, pp.Slopes(25)) is model  # the air has its rows


@pytest.mark.parametrize("seed", range(30))
def test_which_air_is_led_through(seed):
    """Against a search from place to place."""
    r = np.random.default_rng(seed)
    shape = tuple(map(int, r.integers(1, 6, 3)))
    top = r.integers(0, shape[2] + 1, shape[:2])
    there = np.arange(shape[2]) < top[:, :, None]
    air, region = ~there, r.integers(0, 2, shape)
    offsets = [
        [(*map(int, r.integers(-2, 3, 2)), int(r.integers(1, 4))) for _ in range(r.integers(1, 5))]
        for _ in range(2)
    ]

    def after(place):
        found = [tuple(a + b for a, b in zip(place, offset)) for offset in offsets[region[place]]]
        return [to for to in found if all(0 <= a < n for a, n in zip(to, shape))]

    def search(starts, step):
        found, left = set(), list(starts)
        while left:
            for to in step(left.pop()):
                if air[to] and to not in found:
                    found.add(to)
                    left.append(to)
        return found

    places = [tuple(map(int, place)) for place in np.argwhere(np.ones(shape, bool))]
    before = {place: [p for p in places if place in after(p)] for place in places}
    rock = [place for place in places if there[place]]
    wanted = search(rock, after) & search(rock, before.__getitem__)
    assert set(map(tuple, np.argwhere(led_through(there, air, region, offsets)).tolist())) == wanted


def test_what_if_slopes_lead_through_more_air(tmp_path):
    f = below(8)
    f = f[f.TONNES > 0]
    study = study_of(tmp_path, f, pp.Slopes(60), WASTE, size=CUBE)
    vary.prepare(study, WASTE, pp.Slopes(60), vary.changes_of(["slope=-20"]))
    study.run(1000), vary.scenario(study, "slope-20").run(1000)
    found = vary.table(study)
    other = vary.scenario(study, "slope-20")
    assert len(other.model) > len(study.model)
    assert found.rock_t[1] == other.model.blocks.tonnes[other.mask(1000)].sum() > found.rock_t[0]


def test_build_says_how_much_air_was_added(tmp_path):
    f = below(8)
    f[f.TONNES > 0].to_csv(tmp_path / "t.csv", index=False)
    (tmp_path / "study.toml").write_text(
        '[model]\ntable = "t.csv"\nsize = [10, 10, 10]\n[economics]\nmining = 2.0\nprocessing = 9.0\n'
        'metals = [ { name = "copper", grade = "CU", price = 8500 } ]\n[slopes]\nangles = 45\n'
    )
    ran = pitplan("build", tmp_path)
    assert ran.returncode == 0
    assert (
        ran.stdout.count(
            "blocks of air added, without tonnes: slopes lead through them to rock above, where the ground is steep"
        )
        == 1
    )


def test_a_wall_that_air_leads_to_has_no_block_of_the_table_at_its_foot(tmp_path):
    """A design of the low ground alone: what it leaves of the cliff breaks the slopes, which lead
    to it through air too."""
    f = below(8)
    study = study_of(tmp_path, f[f.TONNES > 0], pp.Slopes(45), WASTE, size=CUBE)
    study.shells([1000])
    found = compare.compare(study, design.by_ids(study.model, f.IJK[(f.TONNES > 0) & (f.XC < 50)]))
    said = "\n".join(compare_words.verdict_lines(found, "$"))
    assert (found.pairs.id == "").any()
    assert "from block  at" not in said
    assert ("from an added block at" in said) == (found.walls.head(3).id == "").any()
    assert found.repair.held[study.model.blocks.id.isin(f.IJK[f.XC >= 90])].any()
