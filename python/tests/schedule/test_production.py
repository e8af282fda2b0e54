"""The mine of a schedule in whole numbers."""
from dataclasses import replace

from pitplan.pit.program import Pit
from pitplan.schedule.kept_search import Kept
from pitplan.schedule.search import Search
from pitplan.schedule.destinations import Millable
from six_blocks import PERIODS, made_up


def test_a_production_of_which_anything_differs_has_another_key(tmp_path):
    """So what was kept of the one is never read for the other."""
    made, _, _ = made_up(1, True)
    terms = made.terms
    others = [
        replace(made, values=made.values + 1),
        replace(made, uses=made.uses + 1),
        replace(made, blocks=made.blocks + 1),
        replace(made, unit=made.unit[::-1].copy()),
        replace(made, size=made.size + 1),
        replace(made, above=made.sinking),
        replace(made, sinking=made.above),
        replace(made, millable=Millable(*[made.blocks] * 5)),
        replace(made, terms=replace(terms, fixed_cost=1)),
        replace(made, terms=replace(terms, per_year=2)),
        replace(made, terms=replace(terms, weights=(1_000_000, 866_784, 787_986))),
        replace(made, terms=replace(terms, capacities=((1,) * PERIODS, terms.capacities[1]))),
    ]
    assert len({made.key, *(other.key for other in others)}) == len(others) + 1
    search = Search(tmp_path, made, Pit())
    search.run(0.0, 5)
    assert Kept(tmp_path, made).bound()
    assert Kept(tmp_path, made).arrays("schedule")
    for other in others:
        kept = Kept(tmp_path, other)
        assert kept.bound() is None
        assert kept.schedule() is None
        assert not kept.arrays("schedule")
        assert not kept.arrays("partition")
