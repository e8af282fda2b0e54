"""What several commands print of tonnes, classes, regions and pits of nothing."""
from types import SimpleNamespace

import numpy as np
import pandas as pd

from pitplan.base.strange import Strange
from pitplan.cli import tables


class Pits:
    """A series of pits, of which the last has a block or none."""

    def __init__(self, has_block):
        self.factors, self.has_block = [600, 1200], has_block

    def __len__(self):
        return len(self.factors)

    def holds(self, i):
        return np.array([self.has_block and i == 1, False])


def test_only_where_the_largest_pit_is_empty_it_is_said(capsys):
    tables.warn_of_nothing(Pits(True))
    assert capsys.readouterr().err == ""
    tables.warn_of_nothing(Pits(False))
    said = capsys.readouterr().err
    assert "no pit has a block, up to factor 1.2" in said
    assert "try: prices, costs and units" in said


def slopes_of(counts, others, by="SECTOR"):
    """Slopes with regions, and how many blocks of rock each has."""
    return SimpleNamespace(
        regions={"N": 40},
        by=by,
        rock_by_region=lambda model: counts,
        rock_of_default=lambda model: others,
    )


def test_regions_have_their_blocks_and_the_values_of_all_others(capsys):
    model = SimpleNamespace(blocks=pd.DataFrame({"SECTOR": ["N", "S"]}))
    tables.print_regions(slopes_of({"default": 3, "N": 1200}, {"S": 2, "": 1}), model)
    assert capsys.readouterr().out.splitlines() == [
        "  blocks of rock by region: default 3, N 1,200",
        "  default are those whose SECTOR is S 2, nothing 1",
    ]
    many = {f"S{i}": 1 for i in range(tables._MOST_LISTED + 2)}
    tables.print_regions(slopes_of({"N": 1}, many, "XC > 5"), model)
    first, second = capsys.readouterr().out.splitlines()
    assert first == "  blocks of rock by region, as the formula has them: N 1"
    assert second.endswith(" and 2 more")


def test_slopes_without_regions_say_nothing(capsys):
    tables.print_regions(SimpleNamespace(regions={}), None)
    assert capsys.readouterr().out == ""


def test_what_looks_wrong_is_told_one_after_the_other(capsys):
    tables.tell_strange(
        [Strange("a price of 85", "", "a tonne"), Strange("a rate of 3 t", "", "Mt")]
    )
    said = capsys.readouterr().err
    assert said.index("look: a price of 85") < said.index("look: a rate of 3 t")


def test_sets_without_a_block_have_no_table(capsys):
    study = SimpleNamespace(model=None, priced=None, manifest={"metals": {}})
    tables.print_kinds(study, {"": np.zeros(3, bool)}, "the pit")
    assert capsys.readouterr().out == ""
