"""Designs of a pit that are made up: surfaces, faces, and a table of sub-blocks."""
import ezdxf
import numpy as np
import pandas as pd
from matplotlib.tri import LinearTriInterpolator, Triangulation

from mines import STUDY_TOML
from pitplan.plans import design

HALVES = (
    pd.DataFrame(  # a whole block, one of two halves, and one of a half of rock below one of air
        {
            "IJK": ["a", "b1", "b2", "c1", "c2"],
            "XC": [10, 30, 30, 50, 50.0],
            "YC": 10.0,
            "ZC": [5, 2.5, 7.5, 2.5, 7.5],
            "XINC": 20.0,
            "YINC": 20.0,
            "ZINC": [10, 5, 5, 5, 5.0],
            "TONNES": [8000, 3000, 5000, 4000, 0.0],
            "CU": 0.5,
            "ROCK": "SUL",
            "CUT": [0, 1, 0, 1, 0],
            "LAKE": [1, 0, 0, 0, 0],
        }
    )
)
HALVES_TOML = STUDY_TOML.replace("size = [20, 20, 15]", "size = [20, 20, 10]\nregularise = true")


def bowl(model, points=140, seed=3):
    """Points of a made-up pit's surface, in true coordinates, and its triangles."""
    r = np.random.default_rng(seed)
    u, v = r.uniform(-0.4, model.grid.shape[0] - 0.6, points), r.uniform(
        -0.4, model.grid.shape[1] - 0.6, points
    )
    depth = 4.5 - 4.2 * np.exp(-((u - 4) ** 2 + (v - 3.5) ** 2) / 9) + r.uniform(-0.2, 0.2, points)
    return np.round(np.column_stack(model.grid.world(u, v, depth)), 3)


def above(model, points, triangles=None):
    """The blocks above a surface by matplotlib's own interpolation."""
    middle = points[:, :2].mean(axis=0)
    x, y, z = model.xyz()
    tri = Triangulation(*(points[:, :2] - middle).T, triangles)
    return (
        z > LinearTriInterpolator(tri, points[:, 2])(x - middle[0], y - middle[1]).filled(np.inf),
        tri.triangles,
    )


def face(*corner):
    document = ezdxf.new("R2010")
    document.modelspace().add_3dface([(0, 0, 0), (1, 0, 0), corner])
    return document


def as_design(study, held):
    return design.Design("d", held, np.zeros(len(held), bool))
