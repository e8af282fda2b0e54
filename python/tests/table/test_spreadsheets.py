"""Tables as they are written: numbers without what adding up has left after their last digit."""
import math

import numpy as np
import pandas as pd
from pitplan.table.spreadsheets import write_table


def test_numbers_have_the_digits_that_a_float_holds(tmp_path):
    r = np.random.default_rng(4)
    found = np.concatenate(
        [
            r.uniform(-1, 1, 4000) * 10.0 ** r.integers(-7, 15, 4000),
            [26.8 * 300, 0.1 + 0.2, 1e-12, -0.0, 2.0**53, 1e300, np.nan, np.inf],
            10.0 ** np.arange(-7, 15) * (1 - 2**-53),  # next below a power of ten
        ]
    )
    write_table(pd.DataFrame({"v": found, "word": "=1"}), tmp_path / "t.csv")
    cells = pd.read_csv(tmp_path / "t.csv", dtype=str, keep_default_na=False).v
    for value, cell in zip(found.tolist(), cells):
        if 1e-8 <= abs(value) < 1e15:
            assert float(f"{float(cell):.15g}") == float(cell), value  # it has 15 digits
            assert math.isclose(float(cell), value, rel_tol=5.1e-15), value
        elif value == value:
            assert float(cell) == value
        else:
            assert cell == ""
    assert cells[4000] == "8040.0"
