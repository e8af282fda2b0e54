"""Tables of the terminal are whole at 80 columns."""
import io
import re

import pytest
from rich.console import Console

from pitplan.cli import console
from pitplan.base.narrow_tables import folded

PHASES = (
    "pushback",
    "factor",
    "from m",
    "to m",
    "ore Mt",
    "waste Mt",
    "strip",
    "copper %",
    "gold g/t",
    "silver g/t",
    "copper t",
    "gold oz",
    "silver oz",
    "worth",
    "thinnest m",
    "at bench",
)
SHELLS = (
    "factor",
    "blocks",
    "ore Mt",
    "waste Mt",
    "strip",
    "zinc %",
    "silver g/t",
    "arsenic ppm",
    "worth",
    "best case",
    "worst case",
    "years",
)
ROCKS = (
    "rock",
    "blocks",
    "Mt",
    "ore Mt",
    "zinc %",
    "zinc t",
    "silver g/t",
    "silver oz",
    "arsenic ppm",
    "arsenic kg",
)
RISK = ("factor", "worth p10", "p50", "p90", "mean", "rock p10", "p50", "p90")


def cells(names, rows=4):
    return [[f"{10 ** (1 + (i + at) % 6):,}.25" for i in range(len(names))] for at in range(rows)]


@pytest.mark.parametrize("width", [60, 80, 100, 160])
@pytest.mark.parametrize(
    "names, words",
    [(PHASES, 0), (SHELLS, 0), (ROCKS, 1), (RISK, 0), (("bearing", "asked", "built"), 0)],
    ids=["phases", "shells", "rocks", "risk", "slopes"],
)
@pytest.mark.parametrize("cell", [None, "1.5"], ids=["wide cells", "narrow cells"])
def test_a_table_is_whole(monkeypatch, names, words, width, cell):
    rows, file = [[cell] * len(names)] if cell else cells(names), io.StringIO()
    monkeypatch.setattr(console, "out", Console(width=width, file=file, highlight=False))
    console.print_columns("a table", names, rows, word_columns=words, has_total=True)
    lines = file.getvalue().splitlines()
    assert max(len(line.rstrip()) for line in lines) <= width
    assert "\u2026" not in file.getvalue()
    shown = re.findall(r"\S+", file.getvalue())
    for name in names:
        assert all(word in shown for word in name.split()), name
    for row in rows:
        assert all(cell in shown for cell in row), row


def test_the_first_columns_stand_in_each_part():
    found = folded(PHASES, cells(PHASES), 80)
    assert found.is_narrow
    assert len(found.parts) > 1
    assert all(part[0] == 0 for part in found.parts)
    assert sorted(i for part in found.parts for i in part[1:]) == list(range(1, len(PHASES)))
    assert folded(("a", "b"), [("1", "2")], 80).parts == [[0, 1]]
    assert not folded(("a", "b"), [("1", "2")], 80).is_narrow
    assert folded(("a", "b"), [("1" * 90, "2" * 90)], 80).parts == [
        [0, 1]
    ]  # one column beside the first, whatever it takes
