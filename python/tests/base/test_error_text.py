"""Errors as a terminal shows them."""
import pytest

import mines
import pitplan as pp
from pitplan.base.errors import PlanError


def test_words_that_a_terminal_would_obey_are_shown_and_not_sent(tmp_path):
    frame = mines.table(4, 4, 3, 1)
    frame["ROCK"] = "\x1b[2J\x07"
    frame.to_csv(tmp_path / "t.csv", index=False)
    with pytest.raises(PlanError) as caught:
        mines.costs().priced(pp.read_table(tmp_path / "t.csv", size=mines.SIZE))
    assert "\\x1b[2J\\x07" in str(caught.value)
    assert str(caught.value).replace("\n  try: ", "").isprintable()
