"""The pits of random small mines against igraph's maximum flow, over a network that is made here
from the CSV alone."""

import igraph
import numpy as np
import pytest
from hypothesis import given, strategies as st

import pitplan as pp
from mines import places_of, rows_of, costs, study_of, table

SIZES = st.integers(2, 6)


def worth_of(row, share):
    """What a block is worth at a share of the price, in whole dollars at the full price: by hand,
    as the tests' costs say."""
    tonnes = float(row["TONNES"])
    revenue = round(tonnes * float(row["CU"]) * 0.01 * 0.85 * 8500)
    processing = round(tonnes * {"OXI": 7.5, "SUL": 9.0}[row["ROCK"]])
    return max(revenue * share - processing, 0) - round(tonnes * 2.0)


def best_worth(rows, offsets_of, share, worth_of=worth_of):
    """The worth of the best closed set: all revenue less igraph's maximum flow."""
    at = {place: b for b, place in enumerate(places_of(rows))}
    worth = [worth_of(row, share) for row in rows]
    n = len(rows)
    edges, capacities = [], []
    for b, value in enumerate(worth):
        edges.append((n, b) if value > 0 else (b, n + 1))
        capacities.append(abs(value))
    for (x, y, z), b in at.items():
        for dx, dy, dz in offsets_of(rows[b]):
            if (x + dx, y + dy, z + dz) in at:
                edges.append((b, at[x + dx, y + dy, z + dz]))
                capacities.append(1e12)
    return sum(v for v in worth if v > 0) - igraph.Graph(n + 2, edges, directed=True).maxflow_value(
        n, n + 1, capacities
    )


@given(SIZES, SIZES, st.integers(2, 5), st.integers(0, 10**6), st.sampled_from([0.6, 1.0, 1.35]))
def test_a_pit_is_worth_what_an_independent_flow_says(tmp_path_factory, nx, ny, nz, seed, share):
    folder = tmp_path_factory.mktemp("s")
    study = study_of(folder, table(nx, ny, nz, seed))
    found = study.pit(share)
    offsets = study.offsets["default"]
    assert float(found.worth) == pytest.approx(
        best_worth(rows_of(folder / "t.csv"), lambda row: offsets, share), abs=1e-4
    )


@given(SIZES, SIZES, st.integers(2, 4), st.integers(0, 10**6))
def test_with_regions_too(tmp_path_factory, nx, ny, nz, seed):
    folder = tmp_path_factory.mktemp("s")
    study = study_of(
        folder, table(nx, ny, nz, seed), pp.Slopes(45, by="SECTOR", regions={"EAST": 32})
    )
    found = study.pit(1.0)
    offsets = study.offsets
    assert len(offsets) == 2
    assert float(found.worth) == pytest.approx(
        best_worth(
            rows_of(folder / "t.csv"),
            lambda row: offsets["EAST" if row["SECTOR"] == "EAST" else "default"],
            1.0,
        ),
        abs=1e-4,
    )


def with_a_penalty(row, share):
    """`worth_of` where each kilogram of arsenic in the concentrate costs 2.50, whatever copper
    brings."""
    tonnes = float(row["TONNES"])
    revenue = round(tonnes * float(row["CU"]) * 0.01 * 0.85 * 8500)
    processing = round(
        tonnes * {"OXI": 7.5, "SUL": 9.0}[row["ROCK"]]
        + tonnes * float(row["AS"]) / 1000 * 0.9 * 2.5
    )
    return max(revenue * share - processing, 0) - round(tonnes * 2.0)


@pytest.mark.parametrize("share", [0.6, 1.0, 1.35])
def test_a_penalty_element_moves_the_pit(tmp_path, share):
    frame = table(6, 6, 4, 11)
    frame["AS"] = np.random.default_rng(3).integers(0, 9000, len(frame))
    by_kilogram = {
        "metals": (
            pp.Metal("copper", "CU", price=8500, recovery=0.85),
            pp.Metal(
                "arsenic",
                "AS",
                price=0,
                grade_unit="ppm",
                price_unit="kg",
                recovery=0.9,
                selling=2.5,
            ),
        )
    }
    by_formula = {"processing": "where(ROCK == 'OXI', 7.5, 9.0) + 2.5 * 0.9 * AS / 1000"}
    pits = []
    for name, economics in (
        ("none", costs()),
        ("metal", costs(**by_kilogram)),
        ("formula", costs(**by_formula)),
    ):
        (tmp_path / name).mkdir()
        study = study_of(tmp_path / name, frame, economics=economics)
        pits.append(study.pit(share))
        offsets = study.offsets["default"]
    assert float(pits[1].worth) == pytest.approx(
        best_worth(
            rows_of(tmp_path / "metal" / "t.csv"), lambda row: offsets, share, with_a_penalty
        ),
        abs=1e-4,
    )
    assert pits[1].worth == pits[2].worth
    assert (pits[1].mask == pits[2].mask).all()
    assert float(pits[1].worth) < float(pits[0].worth)


@given(SIZES, SIZES, st.integers(1, 4), st.integers(0, 10**6), st.floats(-180, 180))
def test_a_turned_model_is_the_same_model(tmp_path_factory, nx, ny, nz, seed, angle):
    a, b = (tmp_path_factory.mktemp(name) for name in "ab")
    plain = study_of(a, table(nx, ny, nz, seed))
    turned_table = table(nx, ny, nz, seed, rotation=angle)
    turned = study_of(b, turned_table, rotation=angle)
    assert plain.blocks_file.read_bytes() == turned.blocks_file.read_bytes()
    x, y, z = turned.model.xyz()
    assert np.allclose(x, turned_table.XC)
    assert np.allclose(y, turned_table.YC)
    assert np.allclose(z, turned_table.ZC)


@given(st.integers(0, 10**6), st.sampled_from([0.01, 0.1, 1.0, 1000.0]))
def test_amounts_of_any_rounding_add_up(tmp_path_factory, seed, rounding):
    study = study_of(
        tmp_path_factory.mktemp("s"), table(5, 4, 3, seed), economics=costs(rounding=rounding)
    )
    for factor in (333, 1000, 1777):
        study.run(factor)  # raises Disagreement where pit's worth isn't the table's


def test_pits_are_nested_and_their_shells_are_the_differences(tmp_path):
    study = study_of(tmp_path, table(9, 8, 5, 5))
    shells = study.shells([600, 800, 1000, 1200])
    masks = [study.pit(factor / 1000).mask for factor in shells.factors]
    for i, mask in enumerate(masks):
        assert (shells.holds(i) == mask).all()
        assert i == 0 or (masks[i - 1] <= mask).all()
    assert masks[0].sum() < masks[-1].sum()
