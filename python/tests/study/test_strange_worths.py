"""Amounts that look like those of another unit, and rock that is too light or too heavy, are told."""
import pytest

import pitplan as pp
from mines import COPPER, costs, model_of, table
from pitplan.study.strange_worths import of_forbid, of_tonnes, of_worths


@pytest.fixture(scope="module")
def frame():
    return table(5, 4, 4, 6)


def strange(model, priced, economics):
    """All that is told of a model's tonnes and worths."""
    return [*of_tonnes(model), *of_worths(priced, economics), *of_forbid(model, economics)]


COPPER_T = pp.Metal("copper", "CU", price=8500, recovery=0.85)


@pytest.mark.parametrize(
    "keys, said",
    [
        (dict(), []),
        (
            dict(metals=(pp.Metal("copper", "CU", price=8500, price_unit="lb", recovery=0.85),)),
            ["times what digging and treating it costs"],
        ),
        (
            dict(metals=(pp.Metal("copper", "CU", price=3.9, recovery=0.85),)),
            [
                "no block pays for its treatment at the full price, so each pit up to factor 1 is empty"
            ],
        ),
        (
            dict(
                metals=(
                    COPPER_T,
                    pp.Metal("gold", "AU", price=60, grade_unit="g/t", price_unit="t"),
                )
            ),
            ["gold brings"],
        ),
        (dict(mill=[]), ["no block pays for its treatment"]),
        (dict(forbid=["XC > 6000"]), ["forbid = 'XC > 6000' holds for no block"]),
        (dict(forbid=["XC > 5000"]), []),
        (dict(metals=(pp.Metal("arsenic", "CU", price=0, selling=1), COPPER_T)), []),
    ],
)
def test_what_looks_like_another_unit_is_told(frame, keys, said):
    found = model_of(frame)
    looks = strange(found, costs(**keys).priced(found), costs(**keys))
    assert len(looks) == len(said), looks
    assert all(part in str(look) for part, look in zip(said, looks)), looks


def test_a_metals_share_of_what_all_bring_is_told_in_percent(frame):
    found = costs(
        metals=(COPPER, pp.Metal("gold", "AU", price=60, grade_unit="g/t", price_unit="t"))
    )
    copper, gold = (frame.TONNES * frame.CU / 100 * 0.85 * 8500).sum(), (
        frame.TONNES * frame.AU / 1e6 * 60
    ).sum()
    assert str(strange(model_of(frame), found.priced(model_of(frame)), found)[0]).startswith(
        f"gold brings {100 * gold / (copper + gold):.2g} % of what all metals bring"
    )


@pytest.mark.parametrize("factor, said", [(1, 0), (1000, 1), (0.001, 1), (0, 1)])
def test_rock_that_is_too_light_or_too_heavy_is_told(frame, factor, said):
    frame = frame.copy()
    frame["TONNES"] *= factor
    assert len(of_tonnes(model_of(frame))) == said
