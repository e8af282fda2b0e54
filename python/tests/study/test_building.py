"""The files that `pit` reads, as a study is built: numbers as pandas spells them."""
import hashlib
from decimal import Decimal

import numpy as np
import pandas as pd
from hypothesis import given, strategies as st

from pitplan.base.amounts import as_text
from pitplan.study import building

rows = st.lists(
    st.tuples(
        st.integers(-(2**63), 2**63 - 1),
        st.floats(allow_nan=False, allow_infinity=False).map(lambda x: round(x, 3)),
        st.integers(-(10**12), 10**12),
    ),
    max_size=9,
)


@given(rows, st.integers(1, 4))
def test_numbers_are_written_as_pandas_writes_them(tmp_path_factory, found, piece):
    folder = tmp_path_factory.mktemp("numbers")
    whole, real, amounts = (list(it) for it in zip(*found)) if found else ([], [], [])
    columns = {
        "b": np.arange(len(found)),
        "whole": np.array(whole, np.int64),
        "real": np.array(real, float),
        "exact": as_text(np.array(amounts, np.int64), Decimal("0.01")),
    }
    before, building.ROWS = building.ROWS, piece
    try:
        digest = building.write_numbers(folder / "ours", columns)
    finally:
        building.ROWS = before
    pd.DataFrame(columns).to_csv(folder / "pandas", sep=" ", header=False, index=False)
    text = (folder / "pandas").read_bytes()
    assert (folder / "ours").read_bytes() == text
    assert digest == hashlib.sha256(text).hexdigest()
