"""A report of a study with a plan by years; its figures are added up from the planner's own table."""
import openpyxl
import pytest

pytest.importorskip("numba")

from planned import WEIGHTS, built, of_table, run
from processes import command


@pytest.fixture(scope="module")
def planned(tmp_path_factory):
    """A study with a plan by years and its report, and the rows of its table by years."""
    folder = built(tmp_path_factory.mktemp("years") / "s")
    run("schedule", folder, "--gap", "5")
    run("report", folder)
    return folder, of_table(folder)


def test_a_report_has_the_plan_by_years(planned):
    folder, rows = planned
    book = openpyxl.load_workbook(folder / "out" / "report.xlsx")
    heads, *lines = book["Plan by years"].iter_rows(values_only=True)
    at = {str(head).partition(" (")[0]: i for i, head in enumerate(heads)}
    dug = rows[rows.year > 0]
    assert [line[at["Period"]] for line in lines] == sorted(dug.year.unique())
    npv = 0.0
    for line in lines:
        here = dug[dug.year == line[at["Period"]]]
        discounted = here.worth.sum() * WEIGHTS[int(line[at["Period"]])]
        npv += discounted
        assert line[at["Rock"]] == pytest.approx(here.TONNES.sum())
        assert line[at["Ore"]] == pytest.approx(here.ore.sum())
        assert line[at["Waste"]] == pytest.approx((here.TONNES - here.ore).sum())
        grade = (here.ore * here.CU).sum() / here.ore.sum() if here.ore.sum() else None
        assert line[at["Grade of copper"]] == pytest.approx(grade)
        assert line[at["Toe of the lowest bench"]] == here.ZC.min() - 7.5
        assert line[at["Cash flow"]] == pytest.approx(here.worth.sum(), abs=2)
        assert line[at["Discounted"]] == pytest.approx(discounted, rel=1e-6)
        assert line[at["Discounted so far"]] == pytest.approx(npv, rel=1e-6)
    cover = " ".join(str(cell.value) for row in book.worksheets[0] for cell in row)
    assert f"worth $ {int(npv):,} today, at most" in cover


def test_a_plan_of_other_terms_is_not_shown_and_told(planned):
    folder, _ = planned
    path = folder / "study.toml"
    text = path.read_text()
    path.write_text(text.replace("years = 6", "years = 5"))
    ran = command("report", folder, "--xlsx")
    said, faults = ran.communicate(timeout=600)
    path.write_text(text)
    assert ran.returncode == 0, faults
    assert "the plan by years isn't in it" in faults
    assert "pitplan schedule" in faults
    book = openpyxl.load_workbook(folder / "out" / "report.xlsx")
    assert "Plan by years" not in book.sheetnames
