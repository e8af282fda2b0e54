"""Small made-up mines for the tests."""
import csv
import math
import tempfile
import tomllib
from pathlib import Path

import numpy as np
import pandas as pd
import pytest

import pitplan as pp

SIZE = (20, 20, 15)
COPPER = pp.Metal("copper", "CU", price=8500, recovery=0.85)
GOLD = pp.Metal("gold", "AU", price=60, grade_unit="g/t", price_unit="g", recovery=0.7)
TWO_METALS = {"metals": (COPPER, GOLD), "dilution": 0.1, "mining_recovery": 0.9}


def table(nx, ny, nz, seed, rotation=0.0, size=SIZE):
    """A model with a hill, in the names of Datamine, its rows shuffled."""
    r = np.random.default_rng(seed)
    i, j, k = (
        v.ravel() for v in np.meshgrid(np.arange(nx), np.arange(ny), np.arange(nz), indexing="ij")
    )
    t = math.radians(rotation)
    u, v = i * size[0], j * size[1]
    f = pd.DataFrame(
        {
            "IJK": [f"b{n:03d}" for n in range(len(i))],
            "XC": 5000 + u * math.cos(t) + v * math.sin(t),
            "YC": 9000 - u * math.sin(t) + v * math.cos(t),
            "ZC": 100.0 + k * size[2],
            "TONNES": np.round(r.uniform(12000, 18000, len(i)), 1),
            "CU": np.round(np.maximum(0, r.normal(0.1, 0.5, len(i))), 3),
            "AU": np.round(np.maximum(0, r.normal(0, 0.2, len(i))), 3),
            "ROCK": r.choice(["OXI", "SUL"], len(i)),
            "SECTOR": np.where(i < nx // 2, "WEST", "EAST"),
        }
    )
    top = r.integers(max(1, nz - 2), nz + 1, (nx, ny))
    return f[k < top[i, j]].sample(frac=1, random_state=seed).reset_index(drop=True)


def costs(**more):
    return pp.Economics(
        **{**dict(metals=(COPPER,), mining=2.0, processing={"OXI": 7.5, "SUL": 9.0}), **more}
    )


CUBE = (10, 10, 10)
WASTE = costs(
    metals=(pp.Metal("copper", "CU", price=8500, recovery=0.85),),
    mining=2.0,
    processing=9.0,
    mill=["SUL"],
)


def below(cliff, seed=1, shape=(16, 7, 12), low=3):
    """Low ground with ore in it, and beside it a cliff of so many blocks; with its rows of air,
    which have no tonnes."""
    r = np.random.default_rng(seed)
    i, j, k = (v.ravel() for v in np.meshgrid(*map(np.arange, shape), indexing="ij"))
    is_rock = k < np.where(i >= 9, low + cliff, low)
    ore = is_rock & (i < 7) & (k < low - 1) & (r.random(len(i)) < 0.5)
    return pd.DataFrame(
        {
            "IJK": [f"b{n:04d}" for n in range(len(i))],
            "XC": 10.0 * i,
            "YC": 10.0 * j,
            "ZC": 5.0 + 10 * k,
            "TONNES": np.where(is_rock, 2500.0, 0.0),
            "CU": np.where(ore, np.round(r.uniform(1, 4, len(i)), 2), 0.0),
            "ROCK": np.where(is_rock, "SUL", "AIRE"),
            "SECTOR": np.where(j < 4, "LEFT", "RIGHT"),
        }
    )


def study_of(folder, frame, slopes=None, economics=None, **keys):
    """The study of a table, built in `folder`."""
    path = Path(folder) / "t.csv"
    frame.to_csv(path, index=False)
    model = pp.read_table(path, **{**dict(size=SIZE), **keys})
    study = pp.Study.create(
        Path(folder) / "s", model, economics or costs(), slopes or pp.Slopes(45)
    )
    files = {"mine.blocks", "settings.toml", "blocks.npz", "manifest.json"}
    assert {path.name for path in study.where.iterdir()} == files  # no list of pairs
    return study


def predecessors(folder):
    """What each block rests on, ascending: the blocks at the offsets of its own region. Looked up
    plainly from the two texts that `pit` reads, in a study's folder of the model."""
    settings = tomllib.loads((folder / "settings.toml").read_text())
    assert settings["up"] == "plus"
    rows = [list(map(float, line.split())) for line in open(folder / "mine.blocks")]
    assert [row[0] for row in rows] == list(range(len(rows)))
    at = {tuple(row[1:4]): block for block, row in enumerate(rows)}
    column = settings.get("region")
    regions = [0 if column is None else int(row[4 + column]) for row in rows]
    near = (
        {(row[1] + i, row[2] + j, row[3] + k) for i, j, k in settings["slopes"][region]}
        for row, region in zip(rows, regions)
    )
    return [sorted(at[place] for place in places if place in at) for places in near]


def pairs_of(folder):
    """The pairs of a block and a predecessor, ascending, likewise."""
    return [(block, other) for block, on in enumerate(predecessors(folder)) for other in on]


def model_of(frame, **keys):
    """The model of a table."""
    with tempfile.TemporaryDirectory() as folder:
        frame.to_csv(Path(folder) / "t.csv", index=False)
        return pp.read_table(Path(folder) / "t.csv", **{**dict(size=SIZE), **keys})


def refusal(call, *words, **keys):
    """What is said where a call is refused."""
    with pytest.raises(pp.PlanError) as error:
        call(*words, **keys)
    return str(error.value)


def shells_of(folder, seed=5, series=(600, 800, 1000, 1200), **keys):
    return study_of(folder, table(9, 8, 5, seed), **keys).shells(series)


STUDY_TOML = """[model]
table = "t.csv"
size = [20, 20, 15]

[economics]
mining = 2.0
processing = { OXI = 7.5, SUL = 9.0 }
metals = [ { name = "copper", grade = "CU", price = 8500, recovery = 0.85 } ]

[slopes]
angles = 45

[shells]
factors = [0.6, 1.0, 1.2]
mining_rate = 1e6
mill_rate = 5e5
discount = 0.08
"""


def written_study(folder, frame=None, text=STUDY_TOML):
    """A folder with a study.toml and its table, not built."""
    folder.mkdir(parents=True, exist_ok=True)
    (table(7, 6, 4, 3) if frame is None else frame).to_csv(folder / "t.csv", index=False)
    (folder / "study.toml").write_text(text)
    return folder


def rows_of(path):
    """The rows of a table as text."""
    with open(path, newline="") as file:
        return list(csv.DictReader(file))


def places_of(rows):
    """The block index of each row, by its coordinates (an unturned model)."""
    low = [min(float(row[axis]) for row in rows) for axis in ("XC", "YC", "ZC")]
    return [
        tuple(
            round((float(row[axis]) - least) / size)
            for axis, least, size in zip(("XC", "YC", "ZC"), low, (20, 20, 15))
        )
        for row in rows
    ]
