"""How amounts, lengths and grades are shown: by hand."""
import math

import pytest

from pitplan.base.units_shown import alike, grade_places, length_text, lengths
from pitplan.base.shown_cells import cells_of
from pitplan.views.page_views import grade_texts
from pitplan.views.report import xlsx
from pitplan.views.report.contents import Column

FOOT = 0.3048


@pytest.mark.parametrize(
    "value, wanted",
    [
        (1040.0, "1,040"),
        (1007.5, "1,007.5"),
        (1006.25, "1,006.25"),
        (30 / FOOT, "98.4"),  # 98.425197
        (1000 / FOOT, "3,280.8"),  # 3280.839895
        (-12.0, "-12"),
        (98.96, "98.96"),
        (98.9612, "99.0"),
    ],
)
def test_a_length_has_few_decimals(value, wanted):
    assert length_text(value) == wanted
    assert length_text(value, "") == wanted.replace(",", "")
    assert lengths([value]) == [wanted]


def test_lengths_of_a_column_have_as_many_decimals():
    assert lengths([30 / FOOT, 100.0, math.nan]) == ["98.4", "100.0", "-"]
    assert lengths([6.25, 12.5]) == ["6.25", "12.50"]


def test_small_grades_have_three_digits_that_count():
    """Gold in ounces a short ton: 1 g/t is 0.0292."""
    assert cells_of([0.0291667, 0.0041]) == ["0.0292", "0.0041"]
    assert cells_of([0.002917]) == ["0.00292"]
    assert cells_of([0.402, 1.3]) == ["0.402", "1.300"]
    assert grade_texts([0.0291667, 0.0041]) == ["0.02917", "0.00410"]
    assert grade_places([0.0291667], 3, 3) == 4
    assert grade_places([0.4], 3, 3) == 3
    assert grade_places([], 3, 3) == grade_places([math.nan, 0.0], 3, 3) == 3
    assert grade_places([1234.0]) == 0


def test_exact_numbers_of_a_column_have_as_many_decimals():
    assert alike(["3,576.5", "12", "-0.125"]) == ["3,576.500", "12.000", "-0.125"]
    assert alike(["1", "2,000"]) == ["1", "2,000"]
    assert alike([]) == []


def test_a_workbook_shows_small_grades_with_four_digits():
    """A cell's format: 0.00291 ounces a short ton has six decimals, and 1.3 percent the usual four."""
    for grade, places in ((0.00291, 6), (1.3, 4), (math.nan, 4)):
        column = Column("Grade of gold", "oz/st", "grade", [grade, math.nan])
        assert xlsx.format_of(column) == "#,##0." + places * "0"
    assert xlsx.format_of(Column("Factor", "", "factor", [0.85])) == "0.00#"
