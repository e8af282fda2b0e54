"""A designed pit beside the best one: a design that is best, inside, broken, mended."""
import csv
import gzip
import json
import math
from decimal import Decimal

import ezdxf
import numpy as np
import pandas as pd
import pytest
from hypothesis import given, strategies as st
from shapely.geometry import Point, Polygon

import pitplan as pp
from designs import above, face
from mines import STUDY_TOML, pairs_of, study_of, table, written_study
from pitplan.plans import compare, design
from pitplan.pit.value_answer import Valued
from processes import TOP
from served import pitplan
from designs import as_design


def wanted(study, held, factor=1000):
    """What a set of blocks is worth by the planner's own numbers."""
    f = pd.DataFrame(
        {
            "revenue": study.priced.ways[0].revenue,
            "processing": study.priced.ways[0].processing,
            "mining": study.priced.mining,
        }
    )[held]
    return (
        int((np.maximum(f.revenue * factor - f.processing * 1000, 0) - f.mining * 1000).sum())
        / 1000
    )


def test_the_best_pit_itself(study):
    best = study.mask(1000)
    found = compare.compare(study, as_design(study, best))
    assert found.said == "CLOSED"
    assert found.is_closed
    assert found.gap == "0"
    assert found.repair is None
    assert found.worth == found.bound == study.verdict(1000)["worth"]
    assert not len(found.pairs)
    assert not len(found.walls)
    assert found.share("0") == 0
    assert (found.benches.left_t == 0).all()
    assert (found.benches.over_t == 0).all()
    assert (found.benches.design_t == found.benches.best_t).all()


@pytest.mark.parametrize("factor", [600, 1200])
def test_a_design_that_keeps_the_slopes(study, factor):
    held, best = study.mask(factor), study.mask(1000)
    assert all(held[p] for b, p in pairs_of(study.where) if held[b])
    assert (held != best).any()
    found = compare.compare(study, as_design(study, held))
    assert found.said == "CLOSED"
    assert found.is_closed
    assert found.repair is None
    assert found.share(found.gap) == pytest.approx(1 - wanted(study, held) / wanted(study, best))
    assert float(found.worth) == wanted(study, held)
    assert float(found.bound) == wanted(study, best)
    assert float(found.gap) == wanted(study, best) - wanted(study, held) > 0
    b = study.model.blocks
    left, over = best & ~held, held & ~best
    for row in found.benches.itertuples():
        here = np.isclose(b.ZC, row.bench)
        for mask, tonnes, ore, worth in (
            (left, row.left_t, row.left_ore_t, row.left_worth),
            (over, row.over_t, row.over_ore_t, row.over_worth),
        ):
            part = b.TONNES[mask & here]
            assert tonnes == pytest.approx(part.sum())
            assert ore == pytest.approx(part[study.priced.treated(1000)[part.index]].sum())
            assert worth == pytest.approx(wanted(study, mask & here))
        assert row.design_t == pytest.approx(b.TONNES[held & here].sum())
        assert row.best_t == pytest.approx(b.TONNES[best & here].sum())
    assert found.benches.design_t.sum() == pytest.approx(b.TONNES[held].sum())
    assert found.benches.bench.is_monotonic_decreasing


@given(st.integers(0, 10**6))
def test_a_design_that_breaks_slopes(study, seed):
    r = np.random.default_rng(seed)
    held = study.mask(1200) & (r.random(len(study.model)) < r.choice([0.5, 0.9, 0.99]))
    broken = sorted((b, p) for b, p in pairs_of(study.where) if held[b] and not held[p])
    found = compare.compare(study, as_design(study, held))
    if not broken:
        assert found.is_closed
        return
    assert found.said == f"OPEN {len(broken)}"
    assert not found.is_closed
    assert found.gap is None
    assert float(found.worth) == wanted(study, held)
    ids = study.model.blocks["id"]
    sector = study.model.blocks.set_index("id").SECTOR
    for wall in found.walls[found.walls.built.notna()].itertuples():  # of the region of its foot
        assert abs(wall.built - {"EAST": 38, "WEST": 45}[sector[wall.id]]) <= 1
    assert list(zip(found.pairs.id, found.pairs.needs)) == [(ids[b], ids[p]) for b, p in broken]
    assert found.walls.pairs.sum() == len(broken)
    whole, todo = set(), list(np.flatnonzero(held))  # a plain search upwards
    above = {}
    for b, p in pairs_of(study.where):
        above.setdefault(b, []).append(p)
    while todo:
        b = todo.pop()
        if b not in whole:
            whole.add(b)
            todo += above.get(b, [])
    mended = np.isin(np.arange(len(held)), list(whole))
    assert (found.repair.held == mended).all()
    assert found.repair.blocks == mended.sum() - held.sum()
    assert float(found.repair.worth) == wanted(study, mended)
    assert float(found.repair.gap) == wanted(study, study.mask(1000)) - wanted(study, mended) >= 0
    assert found.repair.tonnes == pytest.approx(study.model.blocks.TONNES[mended & ~held].sum())


def test_ore_alone_is_worth_more_than_any_pit_and_no_gap_is_told(tmp_path):
    made = study_of(tmp_path, table(9, 8, 5, 5))
    made.shells([1000])
    held = made.priced.worth(1000) > 0
    found = compare.compare(made, as_design(made, held))
    assert Decimal(found.worth) > Decimal(found.bound)
    assert found.gap is None
    assert Decimal(found.repair.gap) >= 0


def test_a_closed_set_above_the_bound_is_never_shown():
    none = (np.empty(0, int),) * 3
    compare.agree(
        Valued("CLOSED", 0, (), 2, "11", 3, "11", "0"),
        np.array([True, True, False]),
        none,
        "11",
        "11",
    )
    with pytest.raises(pp.Disagreement, match="none is worth more than 1"):
        compare.agree(
            Valued("CLOSED", 0, (), 2, "11", 3, "1", "-10"),
            np.array([True, True, False]),
            none,
            "11",
            "1",
        )


def test_another_certificate_is_never_taken(study, monkeypatch):
    certificate = compare.Certificate(study, 1000)
    monkeypatch.setattr(
        study,
        "verdict",
        lambda factor, verdict=study.verdict(1000): {**verdict, "certificate": "0" * 64},
    )
    with pytest.raises(pp.Disagreement, match="isn't the certificate that was accepted"):
        certificate.judge(study.mask(1000))


def test_a_stepped_surface_with_upright_faces_gives_the_pit_itself(tmp_path, study):
    """The pit's own stepped surface as quads: floors and upright walls."""
    model, held = study.model, study.mask(1000)
    b, g = model.blocks, model.grid
    floor = np.full(g.shape[:2], np.inf)
    np.minimum.at(floor, (b.ix[held], b.iy[held]), b.iz[held] - 0.5)
    document = ezdxf.new("R2010")
    space = document.modelspace()
    for (i, j), level in np.ndenumerate(floor):
        if np.isfinite(level):
            corners = [
                tuple(map(float, g.world(i + a, j + c, level)))
                for a, c in ((-0.5, -0.5), (0.5, -0.5), (0.5, 0.5), (-0.5, 0.5))
            ]
            space.add_3dface(corners)
            space.add_3dface(
                [
                    corners[0],
                    corners[1],
                    (*corners[1][:2], corners[1][2] + 15),
                    (*corners[0][:2], corners[0][2] + 15),
                ]
            )
    document.saveas(tmp_path / "d.dxf")
    found = design.by_surface(model, tmp_path / "d.dxf")
    assert (found.held == held).all()
    assert compare.compare(study, found).gap == "0"


def test_air_and_added_rock_are_no_fault_of_a_design_by_ids(tmp_path):
    f = table(7, 7, 5, 4)
    (tmp_path / "whole").mkdir()
    whole = study_of(tmp_path / "whole", f)
    dug = whole.shells([1200]).holds(0)
    places = {
        (x, y, z): (b, held)
        for x, y, z, b, held in zip(
            whole.model.blocks.ix, whole.model.blocks.iy, whole.model.blocks.iz, f.index, dug
        )
    }
    gone = next(
        b
        for (x, y, z), (b, held) in places.items()
        if held and (x, y, z + 1) in places and places.get((x, y, z - 1), (0, False))[1]
    )
    made = study_of(tmp_path, f.drop(index=gone), missing="air")
    made.shells([1200])
    best = made.mask(1200)
    ids = made.model.blocks["id"][best & (made.model.blocks.row >= 0)]
    added = (made.model.blocks.row < 0).to_numpy()
    assert (best & added).any()
    found = compare.compare(made, design.by_ids(made.model, ids), 1200)
    assert found.gap == "0"
    assert any("can't name" in note for note in found.design.notes)


def triangles_in(path):
    """The triangles of a DXF's 3D faces, by its pairs of lines alone: a code, and what it says. A
    face has four corners, the last of which may be that before it."""
    lines = path.read_text().splitlines()
    faces, is_face = [], False
    for code, said in zip(map(int, lines[::2]), map(str.strip, lines[1::2])):
        if code == 0:
            is_face = said == "3DFACE"
            if is_face:
                faces.append({})
        elif is_face:
            faces[-1][code] = said
    corners = [
        [tuple(float(face[10 * axis + i]) for axis in (1, 2, 3)) for i in range(4)]
        for face in faces
    ]
    return [
        triangle
        for a, b, c, d in corners
        for triangle in ((a, b, c), (a, c, d))
        if len(set(triangle)) == 3
    ]


def lowest_over(triangles, places):
    """The lowest elevation of triangles over each place (east, north), by shapely and the plane
    through three corners; upright ones are over none."""
    found = dict.fromkeys(places, math.inf)
    points = np.array(list(found))
    for triangle in triangles:
        plan = Polygon([corner[:2] for corner in triangle])
        if plan.area < 1e-6:
            continue
        least, most = np.array(plan.bounds[:2]), np.array(plan.bounds[2:])
        a, b, c = map(np.array, triangle)
        normal = np.cross(b - a, c - a)
        for place in map(
            tuple, points[((points >= least) & (points <= most)).all(axis=1)].tolist()
        ):
            if plan.intersects(Point(place)):
                found[place] = min(
                    found[place], a[2] - (normal[:2] @ (np.array(place) - a[:2])) / normal[2]
                )
    return found


def dollars(row):
    """What a block is worth at the full price, by the costs of the study below: in decimals, which
    are exact."""
    tonnes = Decimal(row["SG"]) * 20 * 20 * 10
    revenue, processing, mining = (
        tonnes * each
        for each in (Decimal(row["CU"]) / 100 * Decimal("0.85") * 8501, 9, Decimal("2.2"))
    )
    return max(round(revenue) - round(processing), 0) - round(mining)


HILL = (
    STUDY_TOML.replace('"t.csv"', f'"{TOP / "examples/hill.csv"}"')
    .replace("[20, 20, 15]", '[20, 20, 10]\nrotation = 30\nabsent = ["-99"]')
    .replace("mining = 2.0", "mining = 2.2")
    .replace("8500", "8501")
    .replace("{ OXI = 7.5, SUL = 9.0 }", "9.0")
    .replace("[0.6, 1.0, 1.2]", "[1.0]")
)


def test_the_figures_of_a_design_by_faces_come_out_by_another_way(tmp_path):
    """Count, worth and tonnes of the example's design from its DXF, the table and the certificate,
    without a reader of this package."""
    folder = written_study(tmp_path / "s", text=HILL)
    assert (
        pitplan("build", folder).returncode
        == 0
        == pitplan("shells", folder, "--certificates").returncode
    )
    ran = pitplan("compare", folder, "--surface", TOP / "examples/hill-design.dxf")
    assert ran.returncode == 1, ran.stderr
    with open(TOP / "examples/hill.csv", newline="") as file:
        rows = list(csv.DictReader(file))
    tonnes = [float(row["SG"]) * 20 * 20 * 10 for row in rows]
    worth = list(map(dollars, rows))
    triangles = triangles_in(TOP / "examples/hill-design.dxf")
    ground = lowest_over(triangles, {(float(row["XC"]), float(row["YC"])) for row in rows})
    above = [float(row["ZC"]) - ground[float(row["XC"]), float(row["YC"])] for row in rows]
    assert min(map(abs, above)) > 1e-4  # no centre lies on a face
    designed = {b for b, height in enumerate(above) if height > 0}
    text = gzip.decompress((folder / "runs/base/f01000/best.cert.gz").read_bytes()).decode()
    best = {int(line[4:]) for line in text.splitlines() if line.startswith("PIT ")}
    pairs = [(b, p) for b, p in pairs_of(folder / "model") if b in designed and p not in designed]
    summary = json.loads((folder / "out/compare-hill-design/summary.json").read_text())
    assert (
        summary["blocks"],
        int(summary["worth"]),
        summary["best_blocks"],
        int(summary["bound"]),
        summary["broken_pairs"],
    ) == (
        len(designed),
        sum(worth[b] for b in designed),
        len(best),
        sum(worth[b] for b in best),
        len(pairs),
    )
    for name, blocks in (
        ("tonnes", designed),
        ("best_tonnes", best),
        ("left_tonnes", best - designed),
        ("over_tonnes", designed - best),
    ):
        assert summary[name] == pytest.approx(sum(tonnes[b] for b in blocks)), name
        assert blocks, name
    benches = pd.read_csv(folder / "out/compare-hill-design/benches.csv").set_index("bench")
    for bench in {float(rows[b]["ZC"]) for b in designed | best}:
        for name, blocks in (("left", best - designed), ("over", designed - best)):
            here = [b for b in blocks if float(rows[b]["ZC"]) == bench]
            assert benches[f"{name}_t"][bench] == pytest.approx(sum(tonnes[b] for b in here))
            assert benches[f"{name}_worth"][bench] == sum(worth[b] for b in here)
    assert f"{len(designed):,} blocks" in ran.stdout
    assert f"{sum(worth[b] for b in designed):,}" in ran.stdout


def test_the_ore_of_a_bench_is_what_pays_at_the_factor_of_the_comparison(study):
    """At 0.6 of the price, by the amounts that `pit` gets."""
    left, way = study.mask(1000) & ~study.mask(600), study.priced.ways[0]
    pays, pays_in_full = (way.revenue * factor > way.processing * 1000 for factor in (600, 1000))
    assert (pays != pays_in_full)[left].any()
    benches = compare.by_bench(study, study.mask(600), study.mask(1000), 600)
    tonnes = study.model.blocks.TONNES
    assert benches.left_ore_t.sum() == pytest.approx(tonnes[left & pays].sum())
