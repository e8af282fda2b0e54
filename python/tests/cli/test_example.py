"""The example mine of examples/copper as a planner has it, against the shells that docs/GUIDE.md
prints of the same mine."""
import re
import shutil
from pathlib import Path

import pitplan as pp
from pitplan.study.study_file import read_study_file

TOP = Path(__file__).resolve().parents[3]


def guide_shells():
    """The shells with the mill that the guide shows: factor, blocks, worth."""
    text = (TOP / "docs" / "GUIDE.md").read_text()
    answer = re.search(r"pit shells .* --settings mill\.toml\n((?: *SHELL .*\n)+)", text)
    return [
        tuple(map(int, row))
        for row in re.findall(r"SHELL (\d+) (\d+) (\d+)", answer[1] if answer else "")
    ]


def test_copper_has_the_shells_of_the_guide(tmp_path):
    for name in ("copper.csv", "study.toml"):
        shutil.copy(TOP / "examples" / "copper" / name, tmp_path / name)
    plan = read_study_file(tmp_path)
    study = pp.Study.create(tmp_path, plan.read_model(), plan.economics, plan.slopes)
    shells = study.shells(plan.factors)
    assert [(v["factor"], v["count"], int(v["worth"])) for v in shells.verdicts] == guide_shells()
    assert len(guide_shells()) == 5
    amounts = [line.split()[4:7] for line in study.blocks_file.read_text().splitlines()]
    priced = [
        line.split()
        for line in (TOP / "examples" / "copper" / "priced.blocks").read_text().splitlines()
    ]
    assert amounts == [[row[4], row[7], row[8]] for row in priced]


def test_the_examples_are_what_their_scripts_write(tmp_path):
    import subprocess
    import sys

    for script, names in (
        ("make_copper.py", ["copper/copper.csv"]),
        ("make_hill.py", ["hill.csv"]),
    ):
        (tmp_path / "examples" / "copper").mkdir(parents=True, exist_ok=True)
        shutil.copy(TOP / "examples" / script, tmp_path / "examples" / script)
        subprocess.run([sys.executable, str(tmp_path / "examples" / script)], check=True)
        for name in names:
            assert (tmp_path / "examples" / name).read_bytes() == (
                TOP / "examples" / name
            ).read_bytes()


def test_the_mine_of_run_example_is_that_of_the_walk():
    text = re.search(
        r"    \$ cat hill/study\.toml\n((?:    .*\n|\n)+?)\nWhat each key",
        (TOP / "docs" / "PLANNING.md").read_text(),
    )[1]
    walk = "".join(line.removeprefix("    ") for line in text.splitlines(True))
    path = TOP / "examples" / "hill" / "study.toml"
    assert path.read_text() == walk.replace('"../examples/hill.csv"', '"../hill.csv"')
    plan = read_study_file(path.parent)
    assert len(plan.read_model()) == 5041
    assert len(plan.factors) == 9
