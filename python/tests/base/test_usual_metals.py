"""Metals by the names of columns: signs, words of four languages, units within names."""
import pytest

from pitplan.base.usual_metals import METALS, metal_of, unit_of, usual_price


@pytest.mark.parametrize(
    "column, metal, unit",
    [
        ("CU", "copper", None),
        ("CU_PCT", "copper", "%"),
        ("CUPCT", "copper", "%"),
        ("CuT", "copper", None),
        ("ley_cobre", "copper", None),
        ("au_gpt", "gold", "g/t"),
        ("AUPPB", "gold", "ppb"),
        ("teor_ouro", "gold", None),
        ("gold gpt", "gold", "g/t"),
        ("Ag (g/t)", "silver", "g/t"),
        ("argent", "silver", None),
        ("MO_PPM", "molybdenum", "ppm"),
        ("plomo", "lead", None),
        ("U3O8_ppm", "uranium", "ppm"),
        ("FE_KGT", "iron", "kg/t"),
        ("CUTOFF", None, None),
        ("AUDIT", None, None),
        ("COST", None, None),
        ("TONNES", None, None),
        ("PBX", None, None),
    ],
)
def test_a_column_is_read(column, metal, unit):
    found = metal_of(column)
    assert (found and found[0]) == metal
    assert unit_of(column) == unit


def test_prices_are_for_a_gram():
    """A tonne has a million grams, a troy ounce 31.1034768, a pound 453.59237."""
    assert usual_price("copper") == pytest.approx(8500 / 1e6)
    assert usual_price("Cobre") == usual_price("copper")
    assert usual_price("gold") == pytest.approx(1900 / 31.1034768)
    assert usual_price("molybdenum") == pytest.approx(15 / 453.59237)
    for metal in ("iron", "uranium", "lithia", "unobtainium"):
        assert usual_price(metal) is None


def test_a_metal_stands_once():
    names = [name for name, *_ in METALS.values()]
    assert len(names) == len(set(names))
    assert all(metal_of(name)[0] == name for name in names)
