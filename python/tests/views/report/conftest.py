"""A study with its reports, which tests of each kind of report read."""
import pytest

from mines import rows_of, table, written_study
from processes import said
from report_rows import NASTY, TITLE, TOML, priced


@pytest.fixture(scope="session")
def reported(tmp_path_factory):
    """A study with its reports, and the table's rows with the first pit of each."""
    folder = tmp_path_factory.mktemp("r") / "s"
    frame = table(9, 8, 5, 5)
    frame["ROCK"] = frame["ROCK"].replace("OXI", NASTY)
    written_study(folder, frame, TOML)
    for words in (["build"], ["shells"], ["report", "--phases", "0.6,1.0", "--title", TITLE]):
        said(*words, folder)
    rows = rows_of(folder / "t.csv")
    shells = {row["IJK"]: row["pit_shell"] for row in rows_of(folder / "out/t.csv")}
    for row in rows:
        row["shell"] = float(shells[row["IJK"]] or 9)
        priced(row)
    return folder, rows
