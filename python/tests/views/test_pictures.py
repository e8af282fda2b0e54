"""Pictures: where each block is drawn, which colour it gets, what the axes say; without looking at
pixels."""
import copy

import matplotlib.image
import numpy as np
import pytest
from hypothesis import given, strategies as st
from matplotlib import colormaps
from shapely.geometry import Polygon
from shapely.ops import unary_union

import pitplan as pp
from mines import costs, shells_of, study_of, table
from pitplan.views import pictures, plane
from pitplan.model.grid import Grid
from pitplan.model.model import Model
from pitplan.views.pictures import Style
from pitplan.views.pit_colours import tones


@pytest.fixture(scope="module")
def shells(tmp_path_factory):
    return shells_of(tmp_path_factory.mktemp("mine"))


@pytest.fixture(scope="module")
def turned(tmp_path_factory, shells):
    """The same pits in a model that is turned by 30 degrees."""
    found = copy.copy(shells)
    found.study = copy.copy(shells.study)
    model = copy.copy(shells.study.model)
    g = model.grid
    model.grid = Grid(g.origin, g.size, g.shape, 30.0)
    found.study.__dict__["model"] = model
    return found


@given(st.integers(0, 10**6), st.sampled_from([0.0, 40.0]))
def test_borders_are_those_that_shapely_finds(seed, rotation):
    r = np.random.default_rng(seed)
    g = Grid((0.0, 0.0, 0.0), (10.0, 5.0, 2.0), (5, 4, 1), rotation)
    model = Model(table(5, 4, 1, 1, size=g.size).assign(ix=0, iy=0, iz=0, tonnes=1.0), g)
    cut = plane.bench(model, 0)
    inside = r.random((4, 5)) < 0.5
    x, y = plane.borders(inside, cut)
    drawn = np.nansum(np.hypot(np.diff(x), np.diff(y)))
    cells = [
        Polygon(
            [(cut.across[c], cut.up[c]) for c in ((j, i), (j, i + 1), (j + 1, i + 1), (j + 1, i))]
        )
        for j, i in zip(*np.nonzero(inside))
    ]
    assert (
        abs(
            drawn
            - (unary_union([c.buffer(1e-7, join_style=2) for c in cells]).length if cells else 0)
        )
        < 1e-4
    )


def test_a_bench_has_its_toe_and_not_its_crest(shells):
    model = shells.study.model  # its lowest centre is at 100, its benches are 15 high
    assert [plane.bench_at(model, z) for z in (92.5, 100, 107.49, 107.5)] == [0, 0, 0, 1]
    assert title(pictures.plan(shells, 110)) == (
        "Bench 107.5 (toe) to 122.5 m (crest): first pit with each block"
    )
    for z in (92.4, 92.5 + 15 * model.grid.shape[2], 1e9):
        with pytest.raises(pp.PlanError, match="no bench"):
            plane.bench_at(model, z)


def title(figure):
    return figure.axes[0].get_title()


def drawn(figure):
    """The values of the cells that are drawn, nan where none is."""
    mesh = next(c for c in figure.axes[0].collections if hasattr(c, "get_coordinates"))
    height, width = (n - 1 for n in mesh.get_coordinates().shape[:2])
    return np.ma.filled(np.ma.asarray(mesh.get_array(), float), np.nan).reshape(height, width)


def test_a_plan_shows_the_first_pit_of_each_block(shells):
    model = shells.study.model
    cells = drawn(pictures.plan(shells, 110))
    for b in model.blocks[model.blocks["iz"] == 1].itertuples():
        first = shells.shell[b.Index]
        assert (
            cells[b.iy, b.ix] == first
            if first < len(shells.factors)
            else np.isnan(cells[b.iy, b.ix])
        )


def test_a_section_shows_a_column_of_the_table(shells):
    model = shells.study.model
    cells = drawn(pictures.section(shells, north=9000 + 3 * 20 + 9, style=Style("CU")))
    row = model.blocks[model.blocks["iy"] == 3]
    assert np.allclose(cells[row["iz"], row["ix"]], row["CU"])
    assert np.isfinite(cells).sum() == len(row)
    worth = drawn(pictures.section(shells, column=2, style=Style("value")))
    there = model.blocks[model.blocks["ix"] == 2]
    assert np.allclose(
        worth[there["iz"], there["iy"]], shells.study.priced.worth(1000)[there.index]
    )


def test_words_have_a_colour_each(shells):
    found = pictures.paint(shells, "ROCK")
    names = dict(found.ticks)
    assert [names[v] for v in found.values] == shells.study.model.blocks["ROCK"].tolist()


def test_many_words_are_drawn_as_others(shells):
    other = copy.copy(shells)
    other.study = copy.copy(shells.study)
    model = copy.copy(shells.study.model)
    n = len(model)
    model.blocks = model.blocks.assign(
        KIND=[f"k{i % 20:02d}" if i >= n // 2 else "most" for i in range(n)]
    )
    other.study.__dict__["model"] = model
    found = pictures.paint(other, "KIND")
    assert len(found.ticks) == pictures.MANY_WORDS + 1
    assert found.ticks[-1][1] == "others"
    assert "most" in dict(found.ticks).values()


def test_a_turned_model_names_its_axis_and_no_false_east(turned):
    along = pictures.section(turned, row=2)
    assert (
        along.axes[0].get_xlabel() == "Distance along the model's x axis (m), towards bearing 120°"
    )
    assert "looking towards bearing 030°" in title(along)
    assert " E, " in title(along)
    assert "towards bearing 030°" in pictures.section(turned, column=2).axes[0].get_xlabel()
    assert pictures.plan(turned, 100).axes[0].get_xlabel() == "Easting (m)"
    for words in ({"north": 9000.0}, {"east": 5000.0}):
        with pytest.raises(pp.PlanError, match="turned by 30 degrees.*\n.*N, from 0 to"):
            pictures.section(turned, **words)


def test_elevations_of_a_flat_section_dont_overlap(tmp_path):
    shells = study_of(tmp_path, table(40, 3, 10, 1)).shells([1000])
    for style in (Style(), Style(exaggeration=0.2)):
        figure = pictures.section(shells, row=1, style=style)
        figure.canvas.draw()
        boxes = [label.get_window_extent() for label in figure.axes[0].get_yticklabels()]
        assert len(boxes) >= 2
        assert all(low.y1 <= high.y0 for low, high in zip(boxes, boxes[1:]))


def test_the_row_of_a_section_has_most_of_the_pit_and_isnt_the_models_last(shells):
    assert pictures.fullest_row(np.array([9, 1, 4, 2, 9])) == 2
    assert pictures.fullest_row(np.array([3, 0, 0, 7])) == 3
    assert pictures.fullest_row(np.array([1, 2])) == 1
    here, last = copy.copy(shells), shells.study.model.grid.shape[1] - 1
    rows = shells.study.model.blocks["iy"].to_numpy()
    here.shell = np.where(
        (rows == last) | ((rows == 2) & (shells.study.model.blocks["ix"] > 2)),
        0,
        len(shells.factors),
    )
    assert (here.shell[rows == last] == 0).sum() > (here.shell[rows == 2] == 0).sum() > 0
    assert pictures.middle_of(here)[1] == 2


@pytest.mark.parametrize("nx, words", [(5, 1), (6, 1), (7, 2), (25, 7), (400, 20)])
def test_a_flat_section_is_drawn_higher_and_says_so(tmp_path, nx, words):
    """Blocks of 20 x 20 x 15: a section of one level and six columns is 120 by 15, an eighth; a
    fifth is aimed at."""
    frame = table(nx, 3, 1, 1)
    figure = pictures.section(
        study_of(tmp_path, frame, economics=costs(mining=0.01)).shells([1000]), row=1
    )
    assert figure.axes[0].get_aspect() == words
    assert title(figure).endswith(f"\nvertical exaggeration {words}") == (words > 1)


def test_what_may_not_be_dug_has_a_pattern_of_its_own(tmp_path):
    frame = table(9, 8, 5, 5)
    shells = study_of(
        tmp_path, frame, economics=costs(forbid=["SECTOR == 'EAST' and ZC < 110"])
    ).shells([600, 1000])
    blocks = shells.study.model.blocks
    fence = ((blocks.SECTOR == "EAST") & (blocks.ZC < 110)).to_numpy()
    assert (shells.study.priced.forbidden == fence).all()
    for colour in ("shell", "value", "CU"):
        figure = pictures.section(shells, row=3, style=Style(colour))
        assert "May not be dug" in [t.get_text() for t in figure.legends[0].get_texts()]
        crosses = [p for p in figure.axes[0].patches if p.get_hatch() == pictures.FENCE_HATCH]
        assert len(crosses) == 1
        assert crosses[0].get_zorder() > figure.axes[0].collections[0].get_zorder()
        cells = {(x, y) for x, y in np.round(crosses[0].get_path().vertices, 6).tolist()}
        here = blocks[fence & (blocks.iy == 3)]
        runs = np.flatnonzero(np.diff(np.pad(np.isin(np.arange(9), here.ix), 1).astype(int)))
        assert len(here)
        assert cells == {(5000 + 20 * i - 10.0, 92.5 + 15 * up) for i in runs for up in (0, 1)}
    above = pictures.plan(shells, 120)
    assert "May not be dug" not in [t.get_text() for t in above.legends[0].get_texts()]
    assert (
        pictures.paint(shells, "value").norm.vmin > -1e7
    )  # the price of a fence would make all else pale


def test_a_grade_is_drawn_with_its_unit(shells):
    """CU is the grade of copper in percent in that study; ZC is no grade."""
    labels = [pictures.paint(shells, name).label for name in ("CU", "ZC")]
    assert labels == ["CU (%)", "ZC"]
    bars = [axes.get_ylabel() for axes in pictures.plan(shells, 100, style=Style("CU")).axes]
    assert "CU (%)" in bars


def test_colours_of_pits_are_spaced_by_tonnes(shells):
    """By hand: from the middle of 10 of 100 tonnes to the next it is 10, then 35, then 40, of 85 in
    all."""
    found = tones([10, 10, 60, 20])
    assert np.allclose(
        np.diff(found), [1 / 12 + 0.75 * 10 / 85, 1 / 12 + 0.75 * 35 / 85, 1 / 12 + 0.75 * 40 / 85]
    )
    assert np.allclose(tones([0, 0, 0, 0]), [0, 1 / 3, 2 / 3, 1])
    assert tones([]) == []
    assert (
        min(np.diff(tones([0, 0, 0, 1e9]))) > 0.08
    )  # a pit that adds nothing has a shade of its own
    blocks, count = shells.study.model.blocks, len(shells.factors)
    adds = [blocks.TONNES[shells.shell == i].sum() for i in range(count)]
    wanted = colormaps["viridis"]([0.9 * at for at in tones(adds)])[:, :3]
    assert np.allclose(pictures.paint(shells, "shell").colours.colors, wanted, atol=0.01)


@pytest.mark.parametrize(
    "low, high, count, most, words",
    [
        (3702, 6, 28, 8, [3720 + 30 * k for k in range(6)]),  # 29 toes and crests, every fifth
        (3702, 6, 28, 12, [3720 + 30 * k for k in range(6)]),  # every second would be 15
        (1000, 10, 12, 13, [1000 + 10 * k for k in range(13)]),
        (1000, 10, 12, 12, [1000 + 20 * k for k in range(7)]),
        (92.5, 15, 5, 2, [92.5, 167.5]),
    ],
)
def test_labels_of_benches_are_every_first_second_fifth_or_tenth(low, high, count, most, words):
    toes = low + high * np.arange(count + 1.0)
    found = pictures.bench_ticks(toes, most)
    step = np.diff(found)
    assert len(found) <= most
    assert set(found) <= set(toes)
    assert len(step) == 0 or (step == step[0]).all() and step[0] / high in (1, 2, 5, 10)
    assert found.tolist() == words


def test_each_bench_of_a_section_has_a_tick(shells):
    axes = pictures.section(shells, north=9040.0).axes[0]
    toes = [92.5 + 15 * k for k in range(shells.study.model.grid.shape[2] + 1)]
    assert sorted({*axes.get_yticks(), *axes.get_yticks(minor=True)}) == toes


def test_sections_say_where_they_look(shells):
    north, east = pictures.section(shells, north=9040.0), pictures.section(shells, east=5040.0)
    assert "northing 9,040, looking north" in title(north)
    assert north.axes[0].get_xlabel() == "Easting (m)"
    assert "easting 5,040, looking west" in title(east)
    assert east.axes[0].get_xlabel() == "Northing (m)"
    assert "vertical exaggeration 3" in title(
        pictures.section(shells, row=1, style=Style(exaggeration=3.0))
    )
    assert pictures.section(shells, row=1, style=Style(exaggeration=3.0)).axes[0].get_aspect() == 3
    assert pictures.plan(shells, 100).axes[0].get_aspect() == 1
    assert all((t - 92.5) % 15 == 0 for t in north.axes[0].get_yticks())  # toes of benches


def test_a_place_beside_the_model_is_told(shells):
    for words in (
        {"north": 8989.0},
        {"east": 1e9},
        {"row": -1},
        {"column": 99},
        {},
        {"row": 1, "east": 5000.0},
    ):
        with pytest.raises(pp.PlanError):
            pictures.section(shells, **words)


def test_a_column_that_isnt_there_names_the_nearest(shells):
    with pytest.raises(pp.PlanError, match="'SECTR' to colour by.*'?SECTOR"):
        pictures.plan(shells, 100, Style("SECTR"))
    with pytest.raises(pp.PlanError, match="no pit at factor 0.7\n.*0.60, 0.80"):
        pictures.plan(shells, 100, Style(pit=0.7))


def test_outlines_differ_by_their_strokes(shells):
    figure = pictures.plan(shells, 130)
    keys = figure.legends[0].get_lines()
    assert len({line.get_linestyle() for line in keys}) == len(keys) >= 2
    texts = [t.get_text() for t in figure.legends[0].get_texts()]
    assert texts[0] == "Pit at factor 1.00"
    assert "Rock in no pit" in texts
    assert (
        pictures.plan(shells, 130, Style(pit=0.8)).legends[0].get_texts()[0].get_text()
        == "Pit at factor 0.80"
    )


def test_the_scale_bar_is_as_long_as_it_says(shells):
    figure = pictures.plan(shells, 100)
    low, high = figure.axes[0].get_xlim()
    bar = next(a for a in figure.axes[0].artists if type(a).__name__ == "AnchoredSizeBar")
    length = float(bar.txt_label.get_text().replace(",", "").split()[0])
    assert bar.size_bar.get_children()[0].get_width() == length
    assert 0.05 * (high - low) < length <= (high - low) / 5


def test_pit_by_pit_has_the_tonnes_and_rings_the_greatest(shells):
    found = shells.table(mining_rate=3e5, mill_rate=2e5, discount=0.3)
    figure = pictures.pit_by_pit(found, "€", "mine")
    left, right = figure.axes
    bars = [[b.get_height() for b in group] for group in left.containers]
    assert np.allclose(bars[0], found["ore_t"] / 1e3) or np.allclose(bars[0], found["ore_t"] / 1e6)
    unit = found["ore_t"].sum() / sum(bars[0])
    assert np.allclose(bars[1], found["waste_t"] / unit)
    assert {1e3: "(kt)", 1e6: "(Mt)"}[round(unit)] in left.get_ylabel()
    assert "€" in right.get_ylabel()
    assert left.get_ylim()[0] == 0
    rings = [line for line in right.lines if line.get_markersize() > 8]
    assert [int(line.get_xdata()[0]) for line in rings] == [
        int(found[c].argmax()) for c in ("worth_at_base", "npv_best", "npv_worst")
    ]
    strokes = [line.get_linestyle() for line in right.lines if line not in rings]
    assert len(set(strokes)) == 3
    assert [t.get_text() for t in left.get_xticklabels()] == ["0.60", "0.80", "1.00", "1.20"]


def test_save_writes_whole_or_nothing(shells, tmp_path, monkeypatch):
    figure = pictures.plan(shells, 100)
    path = pictures.save(figure, tmp_path / "new" / "plan.png")
    assert matplotlib.image.imread(path).shape[0] > 300
    assert [p.name for p in path.parent.iterdir()] == ["plan.png"]
    before = path.read_bytes()

    def torn(where, **_):
        where.write_bytes(b"half")
        raise OSError("No space left on device")

    monkeypatch.setattr(figure, "savefig", torn)
    with pytest.raises(OSError):
        pictures.save(figure, path)
    assert path.read_bytes() == before
    assert [p.name for p in path.parent.iterdir()] == ["plan.png"]


def test_pits_that_dont_pay_are_drawn_as_none(shells):
    poor = copy.copy(shells)
    poor.shell = np.full_like(shells.shell, len(shells.factors))
    figure = pictures.plan(poor, 100)
    assert figure.legends[0].get_texts()[0].get_text() == "Pit at factor 1.00: not here"
    assert np.isnan(drawn(figure)).all()
