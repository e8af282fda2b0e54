"""A section by likelihood."""
import numpy as np
import pytest

from mines import costs
from realisations import done, prepared


def test_a_section_has_the_likelihood_of_its_blocks(tmp_path):
    from pitplan.views.risk_pictures import section

    found = done(prepared(tmp_path, 5, economics=costs(forbid=["SECTOR == 'EAST' and ZC < 110"])))
    last = found.study.model.grid.shape[1] - 1
    by_row = np.bincount(found.study.model.blocks.iy, weights=found.likelihood(1000))
    own = section(found, 1000)
    assert (
        f"northing {9000 + 20 * (1 + int(np.argmax(by_row[1:last]))):,}" in own.axes[0].get_title()
    )
    assert "May not be dug" in [text.get_text() for text in own.legends[0].get_texts()]
    row = 3
    figure = section(found, 1000, row)
    shown = figure.axes[0].collections[0].get_array()
    light = np.asarray(figure.axes[0].collections[0].cmap(np.linspace(0, 1, 20)))[:, :3] @ [
        0.2126,
        0.7152,
        0.0722,
    ]
    assert (np.diff(light) < 0).all()  # the likelier, the darker
    assert figure.axes[0].collections[0].get_clim() == (0, 1)
    shown = np.ma.filled(shown, np.nan).ravel()
    here = found.likelihood(1000)[found.study.model.blocks.iy.to_numpy() == row]
    assert sorted(shown[~np.isnan(shown)]) == pytest.approx(sorted(here[here > 0]))
