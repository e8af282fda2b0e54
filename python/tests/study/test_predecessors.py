"""Which block rests on which: by the two texts that `pit` reads, and by igraph."""
import igraph
import numpy as np
import pytest

import pitplan as pp
from mines import pairs_of, study_of, table
from pitplan.study.predecessors import Resting


@pytest.fixture(scope="module", params=[0.0, 25.0])
def study(request, tmp_path_factory):
    """A study of two regions of slopes, straight and turned."""
    slopes = pp.Slopes(45, by="SECTOR", regions={"EAST": 38})
    frame = table(6, 5, 4, 5, rotation=request.param)
    return study_of(tmp_path_factory.mktemp("m"), frame, slopes, rotation=request.param)


@pytest.fixture(scope="module")
def graph(study):
    return igraph.Graph(len(study.model), pairs_of(study.where), directed=True)


def test_predecessors_are_those_that_pit_read(study):
    b, p, offset = Resting(study).broken(np.ones(len(study.model), bool))
    assert not len(b)
    resting = Resting(study)
    found = {
        pair
        for blocks, above, _ in resting.pairs(np.arange(len(study.model)))
        for pair in zip(blocks.tolist(), above.tolist())
    }
    assert found == set(pairs_of(study.where))


def test_what_rests_on_a_block_is_the_same_pairs_from_above(study):
    wanted = set(pairs_of(study.where))
    for block in (0, len(study.model) // 2, len(study.model) - 1):
        found = {
            (other, one)
            for blocks, others, _ in Resting(study).on(np.array([block]))
            for one, other in zip(blocks.tolist(), others.tolist())
        }
        assert found == {(b, p) for b, p in wanted if p == block}


def test_offsets_lead_from_a_block_to_its_predecessor(study):
    place = study.model.blocks[["ix", "iy", "iz"]].to_numpy()
    for blocks, others, offset in Resting(study).pairs(np.arange(len(study.model))):
        assert (place[others] - place[blocks] == offset).all()


def test_broken_pairs_are_those_of_the_texts_ascending(study):
    held = np.random.default_rng(3).random(len(study.model)) < 0.5
    blocks, others, offsets = Resting(study).broken(held)
    wanted = [(b, p) for b, p in sorted(pairs_of(study.where)) if held[b] and not held[p]]
    assert list(zip(blocks.tolist(), others.tolist())) == wanted != []
    assert offsets.shape == (len(wanted), 3)


def test_what_is_mended_is_all_that_can_be_reached(study, graph):
    random = np.random.default_rng(4)
    for share in (0.02, 0.1, 0.5):
        held = random.random(len(study.model)) < share
        reached = {
            v for block in np.flatnonzero(held) for v in graph.subcomponent(block, mode="out")
        }
        assert set(np.flatnonzero(Resting(study).mended(held)).tolist()) == reached


def test_only_what_may_be_added_is(study, graph):
    """A way up that leads through another block is none."""
    held = np.zeros(len(study.model), bool)
    held[int(study.model.blocks.iz.argmin())] = True
    may = np.random.default_rng(5).random(len(study.model)) < 0.6
    inner = graph.copy()
    inner.delete_edges([edge.index for edge in graph.es if not may[edge.target]])
    reached = set(inner.subcomponent(int(np.flatnonzero(held)[0]), mode="out"))
    assert set(np.flatnonzero(Resting(study).mended(held, may)).tolist()) == reached
