"""Headings have the study's own name, and beside it that of its table."""
import os
from pathlib import Path
from types import SimpleNamespace

import pytest
from pitplan.cli import schedule as schedule_command
from pitplan.schedule.tables import Tables
from pitplan.study.study_file import read_study_file
from pitplan.views import page
from pitplan.views.report import gathered
from pitplan.views.study_names import name_of, table_of


def of(folder, table="t.csv"):
    """A study by its folder, and by its table's path from there."""
    return SimpleNamespace(
        folder=Path(folder),
        table=Path(folder) / table if table else None,
        model=SimpleNamespace(name="made"),
    )


@pytest.mark.parametrize(
    "folder", [".", "../north-2027", "", "{}/north-2027", "{}/south/../north-2027"]
)
def test_a_study_is_called_as_its_folder_however_that_is_named(folder, tmp_path, monkeypatch):
    (tmp_path / "north-2027").mkdir()
    monkeypatch.chdir(tmp_path / "north-2027")
    assert name_of(of(folder.format(tmp_path))) == "north-2027"


def test_a_study_without_a_name_has_that_of_its_model():
    assert name_of(of(os.sep)) == "made"


def test_a_table_is_called_as_its_file():
    assert table_of(of("north-2027", "../tables/hill.csv.gz")) == "hill.csv.gz"
    assert table_of(of("north-2027", None)) == ""


def test_pages_of_a_study_have_its_name_and_that_of_its_table(found, tmp_path):
    """The study lies in the folder s, and its table is t.csv."""
    path = page.write(found.shells, tmp_path / "p.html")
    schedule_command._write_page(found, Tables(found).years())
    for text, heading in (
        (path.read_text(), "s: nested pits"),
        ((found.shells.study.folder / "out/schedule.html").read_text(), "s: schedule by years"),
        (page.write(found.shells, path, title="North").read_text(), "North: nested pits"),
    ):
        assert f"<title>{heading}</title>" in text
        assert f'<h1>{heading}</h1><p class="note">of the table t.csv</p></header>' in text


def test_a_report_has_the_studys_name_and_beside_it_its_table(found):
    plan = read_study_file(found.shells.study.folder)
    report = gathered(found.shells, plan)
    assert report.title == "s"
    assert report.facts[0] == ("Table", "t.csv")
    assert gathered(found.shells, plan, title="North").title == "North"
