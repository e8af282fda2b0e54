"""Colours of pits go from dark to light, and one rich block leaves the others theirs."""
from types import SimpleNamespace

import numpy as np
import pandas as pd
import pytest

from pitplan.views import pictures


def luminance(colours):
    return np.asarray(colours)[:, :3] @ [0.2126, 0.7152, 0.0722]


@pytest.mark.parametrize("count", [1, 2, 9, 64, 200])
def test_colours_go_from_dark_to_light(count):
    """Also where nearly all tonnes come with one pit."""

    class Series:
        factors = list(range(count))
        shell = np.arange(count + 1)
        study = SimpleNamespace(
            model=SimpleNamespace(
                blocks=pd.DataFrame({"tonnes": np.where(shell == count // 2, 1e6, 1.0)})
            )
        )

    colours = pictures.paint_shells(Series()).colours(np.arange(count))
    assert (np.diff(luminance(colours)) > 0).all()
    assert luminance(colours)[-1] < 0.85  # paper is 1
    scale = pictures.paint_numbers(np.arange(100.0), "x").colours(np.linspace(0, 1, 50))
    assert (np.diff(luminance(scale)) < 0.005).all()


def test_one_rich_block_doesnt_make_all_others_pale():
    values = np.concatenate([np.linspace(0, 1, 999), [1e6, np.nan]])
    found = pictures.paint_numbers(values, "x")
    assert found.norm.vmax < 1.1
    assert found.beyond in ("max", "both")
    assert pictures.paint_numbers(np.full(5, 2.0), "x").norm(2.0) == 0.5
    assert pictures.paint_numbers(np.full(3, np.nan), "x").norm.vmax == 1
