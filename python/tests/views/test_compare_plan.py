"""The plan of a bench with a design and the best pit: areas, colours and words."""
from types import SimpleNamespace

import numpy as np
import pandas as pd
import pytest
from matplotlib.colors import to_hex

import pitplan as pp
from designs import as_design
from mines import study_of, table
from pitplan.plans import compare
from pitplan.views import compare_plan


@pytest.fixture(scope="module")
def study(tmp_path_factory):
    """A study whose pits at two factors are there."""
    made = study_of(tmp_path_factory.mktemp("m"), table(9, 8, 5, 5))
    made.shells([600, 1000])
    return made


def test_the_plan_draws_what_both_have(study):
    held, best = study.mask(600), study.mask(1000)
    found = compare.compare(study, as_design(study, held))
    bench = compare_plan.widest_bench(found)
    level = np.isclose(study.model.blocks.ZC, bench)
    axes = compare_plan.plan(study.model, found, bench).axes[0]
    areas = [
        sum(
            abs(np.cross(p.vertices[1] - p.vertices[0], p.vertices[-2] - p.vertices[0]))
            for p in c.get_paths()
        )
        for c in axes.collections
    ]
    assert np.allclose(
        np.array(areas) / 400,
        [(mask & level).sum() for mask in (held & best, best & ~held, held & ~best)],
        atol=1e-3,
    )
    assert (best & ~held & level).sum() > 0
    kinds = axes.figure.legends[0].get_patches()
    assert [
        text.get_text().removesuffix(": none here")
        for text in axes.figure.legends[0].get_texts()[:3]
    ] == ["In both", "Left by the design", "Beyond the best pit"]
    assert [(to_hex(c.get_facecolor()[0]), c.get_hatch()) for c in axes.collections] == [
        (to_hex(p.get_facecolor()), p.get_hatch()) for p in kinds
    ]


def test_the_bench_is_the_one_that_differs_by_most_tonnes():
    benches = pd.DataFrame(
        {"bench": [130.0, 115.0, 100.0], "left_t": [4e3, 0.0, 5e3], "over_t": [3e3, 6.5e3, 0.0]}
    )
    assert compare_plan.widest_bench(SimpleNamespace(benches=benches)) == 130.0
    assert compare_plan.widest_bench(SimpleNamespace(benches=benches[1:])) == 115.0
    assert np.isnan(compare_plan.widest_bench(SimpleNamespace(benches=benches[:0])))


def test_what_is_nowhere_on_the_bench_is_said_in_the_legend(study):
    """A design that is the best pit leaves nothing, and takes nothing beyond it."""
    found = compare.compare(study, as_design(study, study.mask(1000)))
    elevation = float(study.model.blocks.ZC[study.mask(1000)].max())
    figure = compare_plan.plan(study.model, found, elevation)
    assert [text.get_text() for text in figure.legends[0].get_texts()] == [
        "In both",
        "Left by the design: none here",
        "Beyond the best pit: none here",
        "Best pit",
        "Design",
    ]
    assert "beside the best pit at factor 1.00" in figure.axes[0].get_title()


def test_a_bench_that_the_model_lacks_is_refused(study):
    found = compare.compare(study, as_design(study, study.mask(600)))
    with pytest.raises(pp.PlanError, match="bench"):
        compare_plan.plan(study.model, found, 5000.0)


def test_the_frame_is_around_the_cells_with_a_margin_of_an_eighth():
    """Cells from x 20 to 60 and y 10 to 20, of blocks of 20 by 10."""
    x, y = np.meshgrid(np.arange(6) * 20.0, np.arange(5) * 10.0)
    cut = SimpleNamespace(across=x, up=y)
    cells = np.zeros((4, 5), bool)
    cells[1, 1:3] = True
    (left, right), (low, top) = compare_plan._frame(cells, cut)
    assert (left, right) == pytest.approx((20 - 0.12 * 40, 60 + 0.12 * 40))
    assert (low, top) == pytest.approx((10 - 0.12 * 10, 20 + 0.12 * 10))
    assert compare_plan._frame(cells & False, cut) == ((0.0, 100.0), (0.0, 40.0))
