"""A table on its grid: what can be none is told."""
import pytest

import mines
import pitplan as pp
from pitplan.base.errors import PlanError


def test_a_name_with_a_byte_of_zeros_is_told():
    with pytest.raises(PlanError, match="can't be opened"):
        pp.read_table("\0", size=mines.SIZE)


@pytest.mark.filterwarnings("error")
@pytest.mark.parametrize("size", [(1e-320, 20, 15), (20, 20, 1e-300), (1e-9, 20, 15)])
def test_a_size_of_next_to_nothing_is_told(tmp_path, size):
    mines.table(4, 4, 3, 1).to_csv(tmp_path / "t.csv", index=False)
    with pytest.raises(PlanError, match="more than 1,000,000,000 blocks of .* away"):
        pp.read_table(tmp_path / "t.csv", size=size)


@pytest.mark.parametrize(
    "what, keys", [("widen = 9", {"widen": 9 * 10**18}), ("widen = 100,000", {"widen": 100_000})]
)
def test_a_model_is_not_widened_without_end(tmp_path, what, keys):
    mines.table(4, 4, 3, 1).to_csv(tmp_path / "t.csv", index=False)
    with pytest.raises(PlanError, match=what):
        pp.read_table(tmp_path / "t.csv", size=mines.SIZE, **keys)
