"""What the pictures of a schedule show is what its tables have."""
import copy
from types import SimpleNamespace

import mines
import numpy as np
import pitplan as pp
import pytest
import two_ways
from matplotlib.backends.backend_agg import FigureCanvasAgg
from pitplan import Study
from pitplan.schedule import Schedule
from pitplan.schedule.tables import Tables
from pitplan.study.study_file import read_study_file
from PIL import Image
from pitplan.views import pictures, schedule_pictures


def drawn(folder, text):
    """The picture of a plan by years of a mine of several processes, and the texts of its first
    legend."""
    plan = read_study_file(two_ways.written(folder, "\n[schedule]\nmining_rate = 600e3\n", text))
    Study.create(folder, plan.read_model(), plan.economics, plan.slopes)
    shells = Study(folder).shells(plan.factors)
    made = Schedule.of(shells, plan.values["schedule"], plan.rates, (0.3, 600))
    figure = schedule_pictures.by_year(made, Tables(made).years())
    FigureCanvasAgg(figure).draw()
    return figure, figure.axes[0].get_legend().get_texts()


def boxes(artists):
    return [artist.get_window_extent() for artist in artists]


def overlap(a, b):
    return a.x0 < b.x1 and b.x0 < a.x1 and a.y0 < b.y1 and b.y0 < a.y1


@pytest.mark.parametrize(
    "third", ["flotation", "flotation of sulphides in the north"], ids=["short", "long"]
)
def test_entries_of_three_processes_stand_within_the_picture_beside_what_is_drawn(tmp_path, third):
    way = f"""[[economics.processes]]
name = "{third}"
rocks = ["SUL"]
cost = 5.0
recovery = {{ copper = 0.5, gold = 0.2 }}
rate = 90e3

[slopes]"""
    figure, texts = drawn(
        tmp_path / "s", two_ways.TEXT.replace("[slopes]", way).replace("8500", "20000")
    )
    said = {text.get_text().replace("\n", " ") for text in texts}
    assert {f"Ore to {third}", f"Feed of {third}", f"Feed that {third} may get"} <= said
    assert len(said) == 11  # three of each process, rock that may be dug, and waste
    named = [each for axes in figure.axes[:2] for each in axes.get_legend().get_texts()]
    assert len(named) == 15  # the money's four too
    shown, plots = boxes(named), plots_of(figure)
    for i, box in enumerate(shown):
        assert 0 < box.x0 < box.x1 < figure.bbox.width
        assert 0 < box.y0 < box.y1 < figure.bbox.height
        assert not any(overlap(box, other) for other in [*plots, *shown[:i]])
    assert min(text.get_size() for text in texts) >= 8


def plots_of(figure):
    """What each of its axes takes with ticks and titles, without its legend."""
    for axes in figure.axes:
        if axes.get_legend():
            axes.get_legend().set_in_layout(False)
    return [axes.get_tightbbox() for axes in figure.axes]


def test_a_picture_of_two_processes_has_room_in_a_usual_window(tmp_path):
    """As it is saved: 1,280 points across, 800 high. No row reaches into the next."""
    figure, texts = drawn(tmp_path / "s", two_ways.TEXT)
    with Image.open(pictures.save(figure, tmp_path / "years.png")) as saved:
        wide, high = saved.size
    assert 1000 < wide <= 1280
    assert 600 < high <= 800
    FigureCanvasAgg(figure).draw()
    tonnes, money, *grades = plots_of(figure)
    assert max(box.y1 for box in grades) < tonnes.y0 < tonnes.y1 < figure.bbox.height
    assert 0 < money.y0 < money.y1 < min(box.y0 for box in grades)
    assert all(box.x0 > 0 for box in (tonnes, money, *grades))
    assert all(text.get_size() == 9 for text in texts)


def test_what_stays_in_the_ground_is_said_in_the_picture(found):
    """The blocks of the last year, as of a plan that doesn't dig them: their tonnes by the model."""
    years, made = Tables(found).years(), copy.copy(found)
    whole = schedule_pictures.by_year(found, years).axes[0]
    assert not any("in the ground" in text.get_text() for text in whole.texts)
    last = found.period == found.period.max()
    object.__setattr__(made, "period", np.where(last, -1, found.period))
    figure = schedule_pictures.by_year(made, Tables(made).years())
    axes, model = figure.axes[0], found.shells.study.model
    stays = last & model.is_rock
    (line,) = [text for text in axes.texts if "in the ground" in text.get_text()]
    assert line.get_text().startswith(f"{stays.sum():,} blocks of the pit stay in the ground, ")
    tonnes = model.blocks.tonnes.to_numpy()[stays].sum()
    assert f" {tonnes / 1e3:,.2f} kt worth $ " in line.get_text()
    FigureCanvasAgg(figure).draw()
    title, box = axes.title.get_window_extent(), line.get_window_extent()
    assert axes.get_window_extent().y1 < box.y0 < box.y1 <= title.y0 < title.y1 < figure.bbox.height
    assert 0 < box.x0 < box.x1 < figure.bbox.width


def test_pictures_are_named_after_the_study_and_not_after_its_table(found):
    """Its folder is s, its table t.csv."""
    years = schedule_pictures.by_year(found, Tables(found).years())
    section = schedule_pictures.section(found, schedule_pictures.middle_of(found)[1])
    assert [each.axes[0].get_title()[:2] for each in (years, section)] == ["s:"] * 2


def heights(axes, label):
    bars = next(bars for bars in axes.containers if bars.get_label() == label)
    return [bar.get_height() for bar in bars]


def line(axes, label):
    return next(each for each in axes.lines if each.get_label() == label).get_ydata()


def test_bars_are_the_years_and_lines_the_rates_and_the_bound(found):
    years = Tables(found).years()
    tonnes, money, grades = schedule_pictures.by_year(found, years).axes
    kilo = 1e3 if "kt" in tonnes.get_ylabel() else 1e6
    assert heights(tonnes, "Ore") == pytest.approx((years.ore_t / kilo).tolist())
    assert heights(tonnes, "Waste") == pytest.approx((years.waste_t / kilo).tolist())
    rates = line(tonnes, "Rock that may be dug")
    assert (rates * kilo).tolist() == pytest.approx([600e3] + [500e3] * len(years.index))
    assert line(tonnes, "Feed that may be milled") * kilo == pytest.approx(400e3)
    assert line(tonnes, "Feed of the mill") * kilo == pytest.approx(years.feed_t.to_numpy())
    unit = 1e6 if "million" in money.get_ylabel() else 1e3
    assert heights(money, "Cash flow") == pytest.approx((years.cash_flow / unit).tolist())
    weighed = years.cash_flow / 1.08 ** (years.year - 0.5)
    assert heights(money, "Discounted") == pytest.approx((weighed / unit).tolist(), rel=1e-5)
    assert line(money, "Net present value so far")[-1] * unit == pytest.approx(float(found.npv))
    assert line(money, "No schedule brings more")[0] * unit == pytest.approx(float(found.bound))
    assert found.gap_text in tonnes.get_title()
    assert grades.lines[0].get_ydata().tolist() == pytest.approx(years.grade_copper.tolist())
    assert grades.get_title("left") == "copper (%)"
    assert grades.get_ylabel() == "Grade\nof ore"
    assert grades.get_ylim()[0] == 0


def test_a_section_and_a_bench_show_the_year_of_each_block(found):
    """Placed by the blocks' own numbers, and not by the plane that the picture is drawn from."""
    model = found.shells.study.model
    b, year = model.blocks, np.where(model.is_rock, found.period, -1)
    toe, row = schedule_pictures.middle_of(found)
    level = round((toe - 92.5) / 15)  # the lowest centre is at 100
    for figure, at, across, up in (
        (schedule_pictures.section(found, row), b.iy == row, b.ix, b.iz),
        (schedule_pictures.plan(found, toe), b.iz == level, b.ix, b.iy),
    ):
        mesh = figure.axes[0].collections[0]
        shown = np.ma.filled(mesh.get_array().reshape(mesh._coordinates.shape[0] - 1, -1), np.nan)
        assert at.sum() > 10
        assert np.nanmax(shown) >= 2
        wanted = np.full(shown.shape, np.nan)
        for i, j, t in zip(across[at], up[at], year[at.to_numpy()]):
            wanted[j, i] = t if t >= 0 else np.nan
        assert np.array_equal(shown, wanted, equal_nan=True)


def test_the_bench_and_the_section_are_those_where_most_is_to_be_seen(found):
    """The bench on which most years dig, by its toe, and the row with most blocks, beyond which the
    model has others: by the table."""
    toe, row = schedule_pictures.middle_of(found)
    blocks = found.shells.study.model.blocks.assign(year=found.period + 1)
    dug = blocks[(blocks.year > 0) & (blocks.tonnes > 0)]
    years = dug.groupby("ZC").year.nunique()
    assert years[toe + 7.5] == years.max() > years.min()
    counts = dug.groupby("YC").size().drop([blocks.YC.min(), blocks.YC.max()])
    assert counts[9000 + 20 * row] == counts.max()


@pytest.fixture(scope="module")
def thin(tmp_path_factory):
    """A section of small blocks, of which each year digs a bench; the lowest first, which a picture
    doesn't mind."""
    folder = tmp_path_factory.mktemp("thin")
    mines.table(64, 5, 12, 3).to_csv(folder / "t.csv", index=False)
    model = pp.read_table(folder / "t.csv", size=mines.SIZE)
    years = SimpleNamespace(
        shells=SimpleNamespace(study=SimpleNamespace(model=model, folder=folder)),
        period=model.blocks.iz.to_numpy() - 2,
        production=SimpleNamespace(terms=SimpleNamespace(per_year=1)),
    )
    figure = schedule_pictures.section(years, 2)
    FigureCanvasAgg(figure).draw()
    return figure


def test_outlines_leave_most_of_a_year_that_is_one_block_thin_in_its_colour(thin):
    """By the picture's own points: a bench of 15 m has a line and its casing above and below, half
    of each within it."""
    axes = thin.axes[0]
    low, high = axes.transData.transform([(5000, 107.5), (5000, 122.5)])[:, 1]
    points = (high - low) * 72 / thin.dpi
    outlines = [line for line in axes.lines if line.get_path_effects()]
    assert len(outlines) == 10
    for line in outlines:
        (casing,) = line.get_path_effects()
        assert 0 < line.get_linewidth() < casing._gc["linewidth"] <= points / 3


def test_the_scale_names_the_first_year_and_the_last(thin):
    """Of ten there is room for fewer."""
    named = [label.get_text() for label in thin.axes[1].get_yticklabels()]
    assert len(named) < 10
    assert (named[0], named[-1]) == ("1", "10")
    boxes = [label.get_window_extent() for label in thin.axes[1].get_yticklabels()]
    assert all(low.y1 < high.y0 for low, high in zip(boxes, boxes[1:]))


def test_a_section_by_year_has_the_toes_of_benches_beside_it(thin):
    axes = thin.axes[0]
    toes = [92.5 + 15 * i for i in range(13)]  # of twelve benches, and the last crest
    assert sorted({*axes.get_yticks(), *axes.get_yticks(minor=True)}) == toes
