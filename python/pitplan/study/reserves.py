"""Reserves as one table: what lies in each part of a mine, by bench, rock, resource class and where
it goes."""
from __future__ import annotations

from collections.abc import Mapping
from typing import TYPE_CHECKING

import numpy as np
import pandas as pd

from ..base.amounts import THOUSAND
from ..base.arrays import Array, Bools, Floats

if TYPE_CHECKING:
    from .study import Study


def reserves(study: Study, parts: Mapping[str, Array], base: int = THOUSAND) -> pd.DataFrame:
    """A row for each part, bench, rock, class and way that has rock, the benches from the top.

    Parameters
    ----------
    study : Study
    parts : mapping of str to array of shape (blocks,)
        The first columns: their names, and what each block has there. A block that has a 0 in one
        of them is left out.
    base : int
        The factor, in thousandths, at which ore and worths count.

    Returns
    -------
    DataFrame
        The columns of `parts`; ``bench`` (elevation of the blocks' centres), ``rock``, ``class``
        where the table has classes, ``to`` (the name of a process, "mill" where there are none, or
        "waste"); ``blocks``, ``rock_t`` (tonnes in place), ``feed_t`` (what is treated), ``worth``;
        and for each metal ``grade_<metal>`` (of these tonnes in place, whatever becomes of them)
        and ``metal_<metal>`` (recovered). Where a part of a block's tonnes is ore, its rest is
        waste without metal, and the block counts where its ore goes.
    """
    model, priced = study.model, study.priced
    held: Bools = model.is_rock & np.logical_and.reduce([part != 0 for part in parts.values()])
    tonnes, treated = model.blocks["tonnes"].to_numpy(float), priced.treated(base)
    feed = np.array([0.0, *(way.feed for way in priced.ways)])[priced.way_of(base)]
    graded = tonnes if priced.part is None else tonnes * priced.part
    keys: dict[str, Array] = {
        **parts,
        "level": -model.blocks["iz"].to_numpy(),
        "rock": model.blocks["rock"].to_numpy(object),
    }
    classes = study.classes
    if classes:
        keys["class"] = classes.of_block  # by which they are sorted
    keys["to"] = priced.destinations(base)
    amounts = {
        "blocks": np.ones(len(model), np.int64),
        "rock_t": np.where(treated, graded, tonnes),
        "feed_t": graded * feed,
        "worth": priced.worth(base),
    }
    metal = priced.metal_of(base)
    for name, grade in priced.grade.items():
        amounts |= {f"grade_{name}": grade * graded, f"metal_{name}": metal[name]}
    frame = pd.DataFrame({name: values[held] for name, values in {**keys, **amounts}.items()})
    if priced.part is not None:
        frame = pd.concat([frame, _rests(frame, (tonnes - graded)[held])])
    found = frame.groupby(list(keys), sort=True, dropna=False)[list(amounts)].sum().reset_index()
    if classes:
        found["class"] = np.array(classes.names, object)[found["class"].to_numpy()]
    for name in priced.grade:
        found[f"grade_{name}"] /= found["rock_t"]
    grid = model.grid
    found["level"] = grid.origin[2] - found["level"] * grid.size[2]
    return found.rename(columns={"level": "bench"})


def _rests(frame: pd.DataFrame, rests: Floats) -> pd.DataFrame:
    """What is dug with the ore of blocks that are treated: rows that count as no block."""
    is_split = (frame["to"] != "waste").to_numpy() & (rests > 0)
    found = frame[is_split].assign(to="waste", rock_t=rests[is_split])
    nothing = {name: 0 for name in found if name in ("blocks", "feed_t", "worth")}
    nothing |= {name: 0.0 for name in found if name.startswith(("grade_", "metal_"))}
    return found.assign(**nothing)
