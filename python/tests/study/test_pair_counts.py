"""Pairs of a block and a predecessor are counted at the build, and a mine without walls is told."""
import subprocess

import numpy as np
import pytest

import pitplan as pp
from mines import SIZE, pairs_of, study_of, table
from pitplan.study import pair_counts


@pytest.mark.parametrize("seed", range(4))
def test_the_pairs_are_those_that_pit_makes_of_the_two_texts(tmp_path, seed):
    """As many lines as `pit slopes` writes predecessors, by regions and holes."""
    frame = table(7, 6, 5, seed)
    slopes = pp.Slopes(45, by="SECTOR", regions={"WEST": 34}, levels=2)
    study = study_of(tmp_path, frame[frame.index % 9 != 3], slopes, missing="air")
    ran = subprocess.run(
        [study.program.program, "slopes", *study.files.words(), "--pattern", "settings"],
        capture_output=True,
        text=True,
        check=True,
    )
    found = study.pairs
    assert found.count == sum(int(line.split()[1]) for line in ran.stdout.splitlines())
    counts = np.bincount(study.region)
    assert found.listed == sum(n * len(ways) for n, ways in zip(counts, study.offsets.values()))


def test_blocks_with_a_predecessor_are_counted_by_the_pairs(tmp_path):
    study = study_of(tmp_path, table(6, 5, 4, 2), pp.Slopes(38, levels=3))
    b = study.model.blocks
    place = np.column_stack([b.ix, b.iy, b.iz])
    found, lower = study.pairs, b.iz.to_numpy() < b.iz.max()
    known = pairs_of(study.where)
    assert found.with_any == len({i for i, _ in known if lower[i]})
    aside = {i for i, p in known if lower[i] and (place[i, :2] != place[p, :2]).any()}
    assert found.with_any_aside == len(aside)
    assert found.lower == lower.sum()
    assert 0 < found.with_any_aside <= found.leading_aside <= found.lower


def counted(places, offsets):
    """The pairs of blocks at some places, all of one region."""
    at = np.array(places)
    index = np.full(at.max(axis=0) + 1, -1, np.int32)
    index[tuple(at.T)] = np.arange(len(at))
    return pair_counts.counted_pairs(index, np.zeros(len(at), np.int64), [offsets])


FIVE = [(0, 0, 1), (1, 0, 1), (-1, 0, 1), (0, 1, 1), (0, -1, 1)]
BOX = [(i, j, k) for i in range(3) for j in range(3) for k in range(3)]


def test_a_box_is_counted_by_hand():
    """Of 18 blocks below the top each rests on the one above; 12 + 12 steps to each side."""
    found = counted(BOX, FIVE)
    assert (found.count, found.listed) == (18 + 4 * 12, 27 * 5)
    assert (found.lower, found.with_any) == (18, 18)
    assert (found.leading_aside, found.with_any_aside) == (18, 18)
    assert not list(found.strange())


@pytest.mark.parametrize(
    "scale, said",
    [
        ((10, 10, 10), "0 of the 18 blocks below the highest level rest on another by the slopes"),
        ((1, 1, 10), "0 of the 18 blocks below the highest level rest on another by the slopes"),
        ((10, 10, 1), "0 of the 18 blocks that slopes lead aside from rest on a block of another"),
    ],
)
def test_coordinates_in_metres_are_told(scale, said):
    """The places are ten times as far apart as the offsets lead, along some axes."""
    found = counted([tuple(np.multiply(place, scale)) for place in BOX], FIVE)
    (strange,) = found.strange()
    assert str(strange).startswith(said)
    assert strange.key == ("model", "size")


def test_more_pairs_than_a_list_holds_are_nothing_strange():
    """`pit` finds pits, draws shells and values designs without a list of them."""
    assert not list(pair_counts.PairCounts((1 << 27) + 1, 1 << 30, 9, 9, 9, 9).strange())


def test_build_says_how_many_there_are(tmp_path):
    """And a study of a build that counted none counts them itself."""
    study = study_of(tmp_path, table(6, 5, 4, 2), pp.Slopes(38, levels=3), size=SIZE)
    del study.manifest["pairs"]
    assert study.pairs == pp.Study(study.folder).pairs
    assert str(study.pairs).startswith(f"{len(pairs_of(study.where)):,} pairs of a block and a")
