"""Which pushbacks `phases` cut last: what is noted of them, and that the same ones come again or none."""
import json

import pytest

from pitplan import PlanError, Shells
from pitplan.base.kept_json import Damaged
from pitplan.plans.last_pushbacks import again, keep, kept_in
from pitplan.plans.phases import Phases
from pitplan.plans.widening import Widening

WIDTH = 60.0


@pytest.fixture
def noted(study):
    """A function that notes pushbacks, widened or as cut; the note goes with the test."""
    out = study.folder / "out"
    out.mkdir(exist_ok=True)

    def note(factors, width=None):
        shells = Shells(study, factors)
        mines = Widening(shells, width).mines if width else None
        made = Phases(shells, width, mines)
        keep(made, out)
        return made

    yield note
    (out / "phases.json").unlink(missing_ok=True)


def test_nothing_is_noted_where_no_pushbacks_were_cut(study):
    assert kept_in(study.folder / "out") is None
    assert kept_in(study.folder / "model" / "mine.blocks") is None


def test_what_is_noted_is_read_again(study, noted):
    noted([600, 1000])
    found = kept_in(study.folder / "out")
    assert (found["factors"], found["widen"]) == ([600, 1000], None)
    noted([600, 1200], WIDTH)
    found = kept_in(study.folder / "out")
    assert (found["factors"], found["widen"]) == ([600, 1200], WIDTH)


@pytest.mark.parametrize(
    "change",
    [
        lambda note: note.pop("factors"),
        lambda note: note.update(widen=-1),
        lambda note: note.update(factors="600"),
        lambda note: note.update(blocks="x"),
    ],
)
def test_a_note_that_is_damaged_is_refused_and_says_how_it_is_made_again(study, noted, change):
    noted([600, 1000])
    path = study.folder / "out" / "phases.json"
    note = json.loads(path.read_text())
    change(note)
    path.write_text(json.dumps(note))
    with pytest.raises(Damaged, match="is damaged") as refused:
        kept_in(study.folder / "out")
    assert refused.value.try_this == "pitplan phases once more"


def test_pushbacks_as_cut_are_cut_again(study, noted):
    shells = Shells(study, [600, 1000])
    for note in (lambda: None, lambda: noted([600, 1000])):
        note()
        found, said = again(shells)
        assert (found.pushback == Phases(shells).pushback).all()
        assert said == "pushbacks as cut between proved pits"


def test_widened_ones_are_widened_again(study, noted):
    made = noted([600, 1000], WIDTH)
    shells = Shells(study, [600, 1000])
    assert (made.pushback != Phases(shells).pushback).any()
    found, said = again(shells)
    assert (found.pushback == made.pushback).all()
    assert said == "pushbacks widened to 60 m, as phases widened them last"


def test_other_factors_are_as_cut_and_it_is_said_which_were_widened(study, noted):
    noted([600, 1000], WIDTH)
    shells = Shells(study, [600, 1200])
    found, said = again(shells)
    assert (found.pushback == Phases(shells).pushback).all()
    assert said.endswith("those that were widened last end at 0.6,1")


def test_what_comes_out_otherwise_is_never_shown(study, noted):
    noted([600, 1000], WIDTH)
    path = study.folder / "out" / "phases.json"
    path.write_text(json.dumps(json.loads(path.read_text()) | {"blocks": "0" * 64}))
    with pytest.raises(PlanError, match="at 0.6,1 aren't those that were widened to 60") as refused:
        again(Shells(study, [600, 1000]))
    assert str(refused.value.try_this).endswith("0.6,1 --widen 60")
