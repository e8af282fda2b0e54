"""How far a run of several commands is, by its events."""
from pitplan.base.events import progress

COMMANDS = ("pitplan build hill", "pitplan shells hill", "pitplan vary hill")


def test_before_anything_is_told_it_begins():
    far = progress([], COMMANDS)
    assert far == {"command": "pitplan build hill", "what": "begins", "at": 0, "of": 0}


def test_the_last_command_counts_its_own_steps_and_pits():
    events = [
        {"event": "begin"},
        {"event": "step", "what": "reading the table"},
        {"event": "step", "what": "looking for offsets"},
    ]
    far = progress(events, COMMANDS)
    assert (far["command"], far["what"]) == ("pitplan build hill", "looking for offsets")
    events += [
        {"event": "begin"},
        {"event": "pit", "factor": 300, "state": "solving", "of": 19},
        {"event": "pit", "factor": 300, "state": "proved", "of": 19},
        {"event": "pit", "factor": 300, "state": "done", "of": 19},
        {"event": "pit", "factor": 350, "state": "done", "of": 19},
        {"event": "pit", "factor": 400, "state": "killed", "of": 19},
    ]
    far = progress(events, COMMANDS)
    assert far == {
        "command": "pitplan shells hill",
        "what": "2 of 19 pits proved",
        "at": 2,
        "of": 19,
    }


def test_what_an_earlier_command_has_done_is_not_told_of_the_next():
    events = [
        {"event": "begin"},
        {"event": "step", "what": "looking for offsets"},
        {"event": "pit", "factor": 300, "state": "done", "of": 19},
        {"event": "begin"},
    ]
    far = progress(events, COMMANDS)
    assert far == {"command": "pitplan shells hill", "what": "begins", "at": 0, "of": 0}


def test_a_search_tells_what_it_has_found():
    events = [{"event": "begin"}, {"event": "step", "what": "the bound", "far": "3 years filled"}]
    assert progress(events, COMMANDS)["what"] == "the bound: 3 years filled"


def test_tasks_count_before_pits():
    events = [
        *[{"event": "begin"}] * 3,
        {"event": "pit", "factor": 1000, "state": "done", "of": 1},
        {"event": "task", "task": "price=-20", "done": 3, "of": 7},
    ]
    far = progress(events, COMMANDS)
    assert far == {"command": "pitplan vary hill", "what": "3 of 7", "at": 3, "of": 7}
