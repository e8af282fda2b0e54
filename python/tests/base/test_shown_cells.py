"""How the cells of a table are written."""
import math

import pytest


@pytest.mark.parametrize(
    "values, shown",
    [
        ([178.4, 52.12, math.nan], ["178.40", "52.12", ""]),
        ([52.12, 0.133, 0.0], ["52.120", "0.133", "0.000"]),
        ([99.9994, 1.0], ["99.999", "1.000"]),
        ([99.9996, 1.0], ["100.00", "1.00"]),
        ([1308.64, 48.7], ["1,308.6", "48.7"]),
        ([999.996, 0.5], ["1,000.0", "0.5"]),
        ([9999.96], ["10,000"]),
        ([14770.4, 0.0], ["14,770", "0"]),
        ([-178.4, 52.12], ["-178.40", "52.12"]),
        ([5041, 12], ["5,041", "12"]),
        ([math.nan], [""]),
    ],
)
def test_a_column_of_a_table_has_one_number_of_decimals(values, shown):
    from pitplan.base.shown_cells import cells_of

    assert cells_of(values) == shown
