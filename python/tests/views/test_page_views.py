"""What the page shows of each view."""
import two_ways
from mines import study_of, table as mine
from pitplan import Study
from pitplan.study.study_file import read_study_file
from pitplan.views import page_views
from pitplan.plans.phases import Phases


def test_tables_by_process_say_what_their_rows_are_of(tmp_path):
    """A row such as "1, mill" is of a pushback, and "0.60, mill" of a factor."""
    plan = read_study_file(two_ways.written(tmp_path / "s"))
    Study.create(tmp_path / "s", plan.read_model(), plan.economics, plan.slopes)
    shells = Study(tmp_path / "s").shells([600, 1000])
    view = page_views.pits(shells, shells.table())
    assert "Discounted by the rates of [shells]: dug pit after pit" in view.note
    (pits,) = view.more
    (pushbacks,) = page_views.phases(Phases(shells)).more
    assert (pits.first, pits.names[0]) == ("Factor, to", "0.60, mill")
    assert (pushbacks.first, pushbacks.names[0]) == ("Pushback, to", "1, mill")


def test_air_within_rock_is_no_overhang(tmp_path):
    """Air weighs nothing and is in no pushback; a pushback that leads through it has all rock above
    it."""
    frame = mine(9, 8, 5, 5)
    shells = study_of(tmp_path, frame[(frame.ZC != 130) | (frame.XC < 5050)], missing="air").shells(
        [600, 1000]
    )
    found, b = Phases(shells), shells.study.model.blocks
    levels = page_views.phases(found).levels
    dug = b[found.pushback > 0]
    lowest = dug.groupby(["ix", "iy"]).iz.min()
    assert (shells.holds(1) & (b.tonnes == 0)).any()
    assert all(levels[-1][at] == low for at, low in lowest.items())
