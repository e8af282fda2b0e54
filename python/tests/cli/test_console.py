"""What all commands share of a terminal."""
import os
import re

from mines import written_study
from processes import said


def test_columns_of_the_environment_count_off_a_terminal(tmp_path):
    """A table that is piped is as wide as COLUMNS says, each of its figures is there, and without
    COLUMNS it has more room."""
    folder = written_study(tmp_path / "s")
    metals = ", ".join(f'{{ name = "m{i}", grade = "AU", price = 1.0 }}' for i in range(7))
    text = (folder / "study.toml").read_text()
    (folder / "study.toml").write_text(re.sub("metals = .*", f"metals = [ {metals} ]", text))
    bare = {name: value for name, value in os.environ.items() if name != "COLUMNS"}
    wide, narrow = (said("check", folder, env={**bare, **more}) for more in ({}, {"COLUMNS": "80"}))
    tables = [out[out.index("in place") : out.index("no errors")] for out in (wide, narrow)]
    widest = [max(len(line.rstrip()) for line in shown.splitlines()) for shown in tables]
    assert 80 < widest[0] <= 160
    assert widest[1] <= 80
    figures = [set(re.findall(r"[\d,]+\.\d+", shown)) for shown in tables]
    assert figures[0] == figures[1]
    assert len(figures[0]) > 3
