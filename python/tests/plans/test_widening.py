"""Pushbacks that are made wide: against plain loops over cells, predecessors as a plain search
finds them, and circles by shapely."""
import itertools
import math
import re
from types import SimpleNamespace

import numpy as np
import pandas as pd
import pytest
from shapely.geometry import Point, box
from shapely.ops import unary_union

import pitplan as pp
from mines import predecessors, rows_of, study_of, table, written_study
from pitplan.base.errors import Disagreement
from pitplan.plans.phases import Phases
from pitplan.plans import widths
from pitplan.plans.widening import Between, Widening, judged, squares
from served import pitplan

# A seed, the size of blocks, the width, the rotation; and of 1 and 10, whose ore is a dome, how many blocks some pushback leaves at least.
MINES = [
    (1, (20, 20, 15), 60.0, 0.0),
    (10, (20, 20, 15), 60.0, 30.0),
    (5, (20, 20, 15), 60.0, 30.0),
    (7, (20, 10, 15), 40.0, 0.0),
]
DOMES = {1: 5, 10: 5}


def widened(folder, seed, size, width, rotation):
    frame, series = table(11, 10, 5, seed, rotation=rotation, size=size), [450, 650, 1000]
    if seed in DOMES:
        flat, series = table(13, 12, 5, seed), [250, 400, 1000]
        away = np.hypot(flat.XC - 5120, flat.YC - 9110)
        chance = np.random.default_rng(seed).normal(0, 0.15, len(flat))
        frame = table(13, 12, 5, seed, rotation=rotation)
        frame = frame.assign(CU=np.round(np.maximum(0, 1.2 - away / 90 + chance), 3))
    study = study_of(folder, frame, pp.Slopes(50), size=size, rotation=rotation)
    shells = study.shells(series)
    found = Widening(shells, width).mines
    least = max(int((shells.holds(k) & ~found[k]).sum()) for k in range(3))
    assert least >= DOMES.get(seed, 0)
    return shells, found


@pytest.fixture(scope="module", params=MINES, ids=lambda mine: f"seed{mine[0]}")
def mine(request, tmp_path_factory):
    seed, size, width, rotation = request.param
    folder = tmp_path_factory.mktemp("m")
    return (*widened(folder, seed, size, width, rotation), width)


def needs_of(study):
    """What each block rests on, by the files that pit reads."""
    return predecessors(study.where)


def test_each_mine_is_closed_and_lies_between_proved_pits(mine):
    shells, mines, _ = mine
    pits = [set(np.flatnonzero(shells.holds(i)).tolist()) for i in range(3)]
    found = [set(np.flatnonzero(held).tolist()) for held in mines]
    needs = needs_of(shells.study)
    for held in found:
        assert all(above in held for block in held for above in needs[block])
    assert found[0] <= found[1] <= found[2] == pits[2]
    assert found[0] <= pits[1]
    assert pits[0] <= found[1] <= pits[2]
    assert found[:2] != pits[:2]  # else there was nothing to see


def planes_of(shells, mines, k, level):
    """The cells that a pushback digs on a bench, and those that were dug before and have their
    floor, block by block."""
    b, new, floor = shells.study.model.blocks, set(), set()
    before = mines[k - 1] if k else np.zeros(len(b), bool)
    at = {place: n for n, place in enumerate(zip(b.ix, b.iy, b.iz))}
    for (i, j, z), n in at.items():
        below = at.get((i, j, z - 1))
        if z == level and mines[k][n] and not before[n]:
            new.add((i, j))
        if z == level and before[n] and (below is None or not before[below]):
            floor.add((i, j))
    return new, floor


def covered(cell, cells, size, width):
    """Whether a square of whole cells or a circle within some cells covers a cell, or comes to a
    quarter of a cell beside its centre."""
    across = [math.ceil(width / side - 1e-9) for side in size]
    for low in itertools.product(
        range(cell[0] - across[0] + 1, cell[0] + 1), range(cell[1] - across[1] + 1, cell[1] + 1)
    ):
        if all(
            (low[0] + i, low[1] + j) in cells for i in range(across[0]) for j in range(across[1])
        ):
            return True
    area = unary_union(
        [
            box(i * size[0], j * size[1], (i + 1) * size[0], (j + 1) * size[1]).buffer(1e-6)
            for i, j in cells
        ]
    )
    centre = Point((cell[0] + 0.5) * size[0], (cell[1] + 0.5) * size[1])
    room = area.buffer(-(width / 2 - 1e-4), 64)
    return not room.is_empty and room.distance(centre) <= width / 2 + min(size) / 4 + 1e-3


def test_what_isnt_told_as_thin_is_wide_by_shapely(mine):
    shells, mines, width = mine
    size = shells.study.model.grid.size[:2]
    benches = Phases(shells, width, mines).benches()
    before = Phases(shells, width).benches()
    for k in range(3):
        for level in range(shells.study.model.grid.shape[2]):
            new, floor = planes_of(shells, mines, k, level)
            thin = {cell for cell in new if not covered(cell, new | floor, size, width)}
            toe = 100 + 15.0 * level
            row = benches[(benches.pushback == k + 1) & (benches.bench == toe)]
            assert (len(row) == 1) == bool(new)
            assert len(thin) <= (int(row.narrow_blocks.iloc[0]) if new else 0), (k, level, thin)
    first = benches[benches.pushback < 3].narrow_blocks.sum()
    assert first < before[before.pushback < 3].narrow_blocks.sum()


def test_what_is_told_as_thin_has_no_room(mine):
    """By loops: no square over the cell within the next pit and the floor, unless something was
    left there."""
    shells, mines, width = mine
    b, size = shells.study.model.blocks, shells.study.model.grid.size[:2]
    across = [math.ceil(width / side - 1e-9) for side in size]
    search = Widening(shells, width)
    for k in range(2):
        before = mines[k - 1] if k else np.zeros(len(b), bool)
        for level in range(shells.study.model.grid.shape[2]):
            new, floor = planes_of(shells, mines, k, level)
            may = floor | {
                (i, j)
                for i, j, z, n in zip(b.ix, b.iy, b.iz, range(len(b)))
                if z == level and shells.holds(k + 1)[n] and not before[n] and b.tonnes[n] > 0
            }
            was_left = (shells.holds(k) & ~mines[k]).any()
            thin = np.argwhere(search.thin(mines[k], before, level))
            for cell in map(tuple, [] if was_left else thin):
                lows = itertools.product(
                    range(cell[0] - across[0] + 1, cell[0] + 1),
                    range(cell[1] - across[1] + 1, cell[1] + 1),
                )
                assert not any(
                    all((x + i, y + j) in may for i in range(across[0]) for j in range(across[1]))
                    for x, y in lows
                ), (k, level, cell)


def flat(rows, folder, width=40.0):
    """A mine of one bench: 1 is a block that pays at 0.6 of the price, 2 at the full price, 0
    never. After each pushback."""
    grades = {"1": 0.5, "2": 0.2, "0": 0.0}
    frame = pd.DataFrame(
        [
            {
                "IJK": f"{i}.{j}",
                "XC": 20.0 * i,
                "YC": 20.0 * j,
                "ZC": 100.0,
                "TONNES": 15000.0,
                "CU": grades[mark],
                "ROCK": "SUL",
            }
            for j, row in enumerate(reversed(rows))
            for i, mark in enumerate(row)
        ]
    )
    shells = study_of(folder, frame).shells([600, 1000])
    found = Widening(shells, width)
    marks = np.full(shells.study.model.grid.shape[:2], "0")
    for mark, held in (("2", found.mines[1]), ("1", found.mines[0])):
        b = shells.study.model.blocks[held]
        marks[b.ix, b.iy] = mark
    return ["".join(row) for row in marks.T[::-1]], Phases(shells, width, found.mines)


def test_a_thin_strip_takes_the_row_beside_it(tmp_path):
    """By hand: the lower of two rows that would do, and the last row has the floor of what was dug
    for room."""
    found, phases = flat(["0000000", "0222220", "0111110", "0222220", "0000000"], tmp_path)
    assert found == ["0000000", "0222220", "0111110", "0111110", "0000000"]
    assert phases.benches()[["width", "narrow_blocks"]].to_numpy().tolist() == [[40, 0], [60, 0]]


def test_a_spur_is_left_where_that_moves_less(tmp_path):
    """By hand: for 60 m, three blocks, to widen the spur takes two, to leave it is one. The last
    pushback is wide with it."""
    rows = ["00000000", "01112220", "01111220", "01112220", "00000000"]
    found, phases = flat(rows, tmp_path, 60.0)
    assert found == ["00000000", "01112220", "01112220", "01112220", "00000000"]
    assert phases.benches().narrow_blocks.tolist() == [0, 0]


def test_a_spur_is_widened_where_that_moves_no_more(tmp_path):
    """By hand: for 40 m, two blocks, one more beside the spur does it."""
    rows = ["00000000", "01112220", "01111220", "01112220", "00000000"]
    found, phases = flat(rows, tmp_path, 40.0)
    assert found == ["00000000", "01112220", "01111220", "01111220", "00000000"]
    assert phases.benches().narrow_blocks.tolist() == [0, 0]


def test_a_small_pit_is_widened_and_not_left_as_a_whole(tmp_path):
    """By hand: one block within the next pit, for 60 m: three by three blocks, of those that would
    do the first."""
    rows = ["00000000", "02222200", "02212200", "02222200", "00000000"]
    found, phases = flat(rows, tmp_path, 60.0)
    assert found == ["00000000", "01112200", "01112200", "01112200", "00000000"]
    assert phases.benches().narrow_blocks.tolist() == [0, 0]


def test_a_pushback_of_which_nothing_is_left_is_told(tmp_path):
    """For 100 m, five by five blocks, the first pushback digs the whole of the next pit."""
    rows = ["0000000", "0222220", "0222220", "0221220", "0222220", "0222220", "0000000"]
    with pytest.raises(
        pp.PlanError, match=r"pushback 2 \(factor 1\) has nothing left.*\n.*leave that"
    ):
        flat(rows, tmp_path, 100.0)


def test_what_has_no_room_stays_and_is_told(tmp_path):
    """A spur of two blocks that the next pit has nothing beside: it isn't left either, as it would
    be as thin then."""
    rows = ["00000000", "01111220", "01111220", "01100000", "00100000", "00100000"]
    found, phases = flat(rows, tmp_path)
    assert found == rows
    assert phases.benches().narrow_blocks.tolist() == [2, 0]


def test_squares_by_hand():
    """Two by two: one new cell covers both ends of a step; where a cell has no room there is no
    answer."""

    def plane(*rows):
        return np.array([[mark == "x" for mark in row] for row in rows])

    may = plane("xxx.", "xxx.", "..x.")
    has = plane("x...", "....", "....")
    more, still = squares(may, has, plane("x...", "....", "...."), [2, 2])
    assert more.tolist() == plane(".x..", "xx..", "....").tolist()
    assert not still.any()
    has = plane("x...", "xx..", "....")
    more, still = squares(may, has, plane("x...", ".x..", "..x."), [2, 2])
    assert more.tolist() == plane(".x..", "....", "....").tolist()
    assert still.tolist() == plane("....", "....", "..x.").tolist()
    more, still = squares(may, has, plane("x...", "....", "...."), [4, 4])
    assert not more.any()
    assert still.sum() == 1


def test_pit_judges_each_mine(mine):
    """`pit value` says CLOSED and the worth that the blocks add up to by the prices of
    `mines.costs`; an open one is refused."""
    shells, mines, _ = mine
    b = shells.study.model.blocks
    cost = b.rock.map({"OXI": 7.5, "SUL": 9.0}).fillna(0.0)
    metal, treating = np.rint(b.tonnes * b.CU / 100 * 0.85 * 8500), np.rint(b.tonnes * cost)
    worth = np.maximum(metal - treating, 0) - np.rint(b.tonnes * 2.0)
    for held, said in zip(mines, judged(shells.study, mines, 1000)):
        assert said.said == "CLOSED"
        assert float(said.worth) == worth[held].sum()
        assert said.count == held.sum()
    broken, needs = mines[0].copy(), needs_of(shells.study)
    broken[next(needs[n][0] for n in np.flatnonzero(broken) if needs[n])] = False
    with pytest.raises(Disagreement, match="isn't closed, by pit value: OPEN"):
        judged(shells.study, [broken], 1000)


def test_the_command_widens_and_says_what_can_not_be(tmp_path):
    folder = written_study(tmp_path / "s", table(11, 10, 5, 1))
    assert pitplan("build", folder).returncode == 0
    assert pitplan("shells", folder).returncode == 0
    plain = pitplan("phases", folder, "0.6,1.0", "--mining-width", "40")
    ran = pitplan("phases", folder, "0.6,1.0", "--widen", "40")
    assert ran.returncode == 0, ran.stderr
    match = re.search(
        r"pushback 1 widened to 40 m: (\d+) blocks? of the next pit taken in \(([\d.]+) Mt\), (\d+) blocks? left for it .*\n"
        r"  pit value says CLOSED, worth \$ ([\d,]+) at factor 1; the pits beside it are worth \$ ([\d,]+) \(factor 0.6\) and \$ ([\d,]+) \(factor 1\)",
        ran.stdout,
    )
    assert match
    assert int(match[1]) + int(match[3]) > 0
    assert "the mine keeps the slopes" in ran.stdout
    assert "is a proved pit;" in plain.stdout
    rows = {row["id"]: row["pushback"] for row in rows_of(folder / "out" / "phase_blocks.csv")}
    frame = pd.read_csv(folder / "t.csv")
    first = frame[frame.IJK.map(rows) == "1"]
    metal = np.rint(first.TONNES * first.CU / 100 * 0.85 * 8500)
    treating = np.rint(first.TONNES * first.ROCK.map({"OXI": 7.5, "SUL": 9.0}))
    worth = np.maximum(metal - treating, 0).sum() - np.rint(first.TONNES * 2.0).sum()
    assert float(match[4].replace(",", "")) == worth
    assert float(match[4].replace(",", "")) <= float(match[6].replace(",", ""))
    wrong = pitplan("phases", folder, "0.6,1.0", "--widen", "40", "--mining-width", "40")
    assert wrong.returncode == 3
    assert "are one width" in wrong.stderr
    none = pitplan("phases", folder, "0.6,1.0", "--widen", "0")
    assert none.returncode == 3
    assert "--widen is 0, and has to be above 0" in none.stderr
    large = pitplan("phases", folder, "0.6,1.0", "--widen", "900")
    assert large.returncode == 0
    assert "stays thinner than 900 m" in large.stderr
    assert "0 blocks of the next pit taken in (0.00 Mt), 0 blocks left" in large.stdout
    assert "none of the others is a best one" in ran.stdout
    assert "After each pushback the mine is a proved pit;" in large.stdout
    assert "no" not in re.findall(r"After .*", large.stdout)[0].split()


def test_what_is_said_of_the_mines_names_those_that_are_no_pit(tmp_path):
    """Of three pushbacks, the second of which takes one block more than its pit."""
    shells = study_of(tmp_path, table(11, 10, 5, 1)).shells([500, 700, 1000])
    pits = [shells.holds(i) for i in range(3)]
    as_cut = Phases(shells, 20.0, pits)
    assert as_cut.moved == []
    assert as_cut.set_text.endswith("after each the mine is a proved pit")
    more = pits[1].copy()
    more[np.flatnonzero(pits[2] & ~pits[1])[0]] = True
    found = Phases(shells, 20.0, [pits[0], more, pits[2]])
    assert found.moved == [2]
    assert found.set_text.endswith(
        "after 2 it is no best pit, and after the others it is a proved one"
    )


def test_what_has_to_be_dug_is_not_left(tmp_path):
    """The spur of the mine above may be left, and may not where the pushback has to dig it."""
    rows = ["00000000", "01112220", "01111220", "01112220", "00000000"]
    _, phases = flat(rows, tmp_path, 60.0)
    shells, search = phases.shells, Widening(phases.shells, 60.0)
    none = np.zeros(len(shells.study.model), bool)
    spur = np.zeros(shells.study.model.grid.shape[:2], bool)
    spur[4, 2] = True
    for low, count in ((none, 1), (shells.holds(0), 0)):
        part = Between(shells.holds(0), none, low, shells.holds(1), none.copy())
        left, cells = search.gone(part, 0, spur)
        assert (int(left.sum()), cells) == (count, count)


@pytest.mark.parametrize("more", [1e-6, 1e-4, 0.019])
def test_a_width_that_is_a_hair_more_than_whole_blocks_takes_no_more(tmp_path, more):
    """By hand: 40 m are two blocks of 20 m, and so are 40.0001; a thousandth of a block counts as
    none."""
    rows = ["00000000", "01112220", "01111220", "01112220", "00000000"]
    found, phases = flat(rows, tmp_path, 40.0 + more)
    assert found == ["00000000", "01112220", "01111220", "01111220", "00000000"]
    assert phases.benches().narrow_blocks.tolist() == [0, 0]


def test_a_width_that_is_more_takes_more(tmp_path):
    """By hand: 40.5 m are three blocks, as 60 are."""
    rows = ["00000000", "02222200", "02212200", "02222200", "00000000"]
    found, _ = flat(rows, tmp_path, 40.5)
    assert found == ["00000000", "01112200", "01112200", "01112200", "00000000"]


def test_circles_have_the_same_tolerance():
    """A disc of blocks is as wide as its distance map says, and a width of a hundredth of a metre
    more is that width."""
    i, j = np.mgrid[:15, :15]
    disc = np.hypot(i - 7, j - 7) < 6.2
    wanted = widths.widths(disc, (20, 20), 200.0) >= 200.0
    assert 20 < wanted.sum() < disc.sum() + 1
    assert ((widths.widths(disc, (20, 20), 200.01) >= 200.01) == wanted).all()


def test_the_way_that_moves_fewer_tonnes_for_each_cell_is_taken():
    """By hand, of blocks of 100 t: to take three in makes three cells wide, to leave two one."""
    three, two = np.arange(5) < 3, np.arange(5) >= 3
    search = SimpleNamespace(tonnes=np.full(5, 100.0))
    search.taken, search.gone = lambda *_: (three, 3), lambda *_: (two, 1)
    assert Widening.better(search, None, 0, None) is three
    search.taken = lambda *_: (three, 1)
    assert Widening.better(search, None, 0, None) is two
    search.taken = search.gone = lambda *_: (two, 0)
    assert Widening.better(search, None, 0, None) is None


def test_a_pushback_of_which_air_alone_would_stay_is_not_left(tmp_path):
    """One block of rock, which the next pushback has room for, and a block of air."""
    rows = ["00000000", "02222200", "02212200", "02222200", "00000000"]
    shells = flat(rows, tmp_path, 60.0)[1].shells
    search, b = Widening(shells, 60.0), shells.study.model.blocks
    air, none = ((b.ix == 1) & (b.iy == 1)).to_numpy(), np.zeros(len(b), bool)
    search.rock = search.rock & ~air
    small = np.zeros(shells.study.model.grid.shape[:2], bool)
    small[3, 2] = True
    part = Between(shells.holds(0) | air, none, none, shells.holds(1), none.copy())
    left, cells = search.gone(part, 0, small)
    assert (left == shells.holds(0)).all()
    assert cells == 0
