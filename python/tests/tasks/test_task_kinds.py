"""What the tasks of each kind do: a class for each kind that a line may name."""
from pathlib import Path
from types import SimpleNamespace

import pytest

from pitplan.plans import risk, task_line, vary
from pitplan.plans.task_line import Task, task_of
from pitplan.schedule import realisations, what_ifs
from pitplan.study.study import Study
from pitplan.tasks.tasks import done_line
from pitplan.tasks.task_kinds import KINDS, TaskKind

SCHEDULES = {"schedule", "realisation-schedule"}


def study_with(*factors):
    """A study that has verdicts over some factors, in a folder of its own."""
    return SimpleNamespace(
        verdict=lambda factor: {"worth": "1"} if factor in factors else None,
        place=lambda factor: Path("runs") / f"f{factor:05d}",
    )


def test_each_kind_that_a_line_may_name_has_a_class():
    assert set(KINDS) == set(task_line._IS_NUMBERED)
    assert len({type(kind) for kind in KINDS.values()}) == len(KINDS)
    for word, is_numbered in task_line._IS_NUMBERED.items():
        assert task_of([word, "017", "800"]).name == ("17" if is_numbered else "017")


def test_of_pits_those_without_a_verdict_are_missing():
    task, study = Task("run", "base", (600, 800, 1000)), study_with(800)
    for word in ("run", "realisation"):
        assert KINDS[word].missing(None, study, task) == [600, 1000]
        assert KINDS[word].pits(study, [600, 1000]) == [600, 1000]
        assert KINDS[word].place(None, study, task) == Path("runs")


@pytest.mark.parametrize("is_done", [True, False])
def test_a_schedule_is_missing_until_its_search_has_ended(monkeypatch, is_done):
    asked = []
    for module in (what_ifs, realisations):
        monkeypatch.setattr(module, "is_done", lambda *of: asked.append(of) or is_done)
    wanted = [] if is_done else [1000]
    for word, name in (("schedule", "price+20"), ("realisation-schedule", "17")):
        assert KINDS[word].missing("base", study_with(1000), Task(word, name, (1000,))) == wanted
    assert asked == [("base", "price+20"), ("base", 17)]


def test_a_schedule_s_pit_is_found_where_it_is_not_there():
    assert KINDS["schedule"].pits(study_with(1000), [800, 1000]) == [800]
    assert KINDS["realisation-schedule"].pits(study_with(1000), [800, 1000]) == [800, 1000]


def test_a_schedule_is_searched_for_after_its_pits(monkeypatch):
    found = []
    for module in (what_ifs, realisations):
        monkeypatch.setattr(module, "find", lambda *of: found.append(of))
    for word, kind in KINDS.items():
        kind.finish("base", "17")
        assert kind.leaves_a_folder == (word in SCHEDULES)
    assert found == [("base", "17"), ("base", 17)]


def test_schedules_of_what_ifs_that_share_a_pit_have_folders_of_their_own(tmp_path):
    base, study = Study.__new__(Study), study_with()
    base.folder = tmp_path
    tasks = [Task("schedule", name, (1000,)) for name in ("base", "discount+2", "mill_rate+10")]
    places = [KINDS["schedule"].place(base, study, task) for task in tasks]
    assert len(set(places)) == 3
    assert places[0] == tmp_path / "runs" / "schedule"
    one = KINDS["realisation-schedule"].place(
        base, study, Task("realisation-schedule", "3", (1000,))
    )
    assert one == Path("runs") / "runs" / "schedule"


def test_all_tasks_come_in_the_order_of_their_kinds(monkeypatch):
    for module, name in (
        (vary, "vary_tasks"),
        (risk, "risk_tasks"),
        (what_ifs, "what_if_tasks"),
        (realisations, "realised_tasks"),
    ):
        monkeypatch.setattr(module, name, lambda _, name=name: [name])
    found = [task for kind in KINDS.values() for task in kind.wanted(None, [800, 1000])]
    own = [Task("run", "base", (factor,)) for factor in (800, 1000)]
    assert found == [*own, "vary_tasks", "risk_tasks", "what_if_tasks", "realised_tasks"]


def test_what_is_said_of_a_task():
    pits, plan = Task("realisation", "3", (800, 1000)), Task("schedule", "base", (1000,))
    assert done_line(pits, 2) == "realisation 3 800,1000: 2 pits found"
    assert done_line(pits, 1) == "realisation 3 800,1000: 1 pit found"
    assert done_line(pits, 0) == "realisation 3 800,1000: done before"
    assert done_line(plan, 1) == "schedule base 1000: schedule found"


def test_a_new_kind_has_to_say_its_study_and_its_tasks():
    with pytest.raises(TypeError, match="study, wanted"):
        TaskKind()
