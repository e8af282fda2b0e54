"""Lines of pits in a log, and their events."""
import json

import pytest

from pitplan.base import events
from pitplan.cli import progress
from pitplan.cli.progress import pits_shown


@pytest.fixture
def heard(monkeypatch):
    """The events of a command."""
    found = []
    monkeypatch.setattr(events, "event", lambda name, **words: found.append((name, words)))
    return found


def test_a_line_for_each_pit_once_and_for_each_that_was_killed(capsys, heard):
    with pits_shown([600, 1000], 2) as listener:
        for what, share in (("solving", 0.2), ("proved", 1.0), ("killed", 0.0), ("done", 1.0)):
            listener(600, what, share)
        listener(1000, "done", 1.0)
    lines = capsys.readouterr().err.splitlines()
    assert [line.split(" after ")[0] for line in lines] == [
        "factor 0.6 proved: 1 of 2",
        "factor 0.6 killed: 1 of 2",
        "factor 1 done: 2 of 2",
    ]


def test_each_hundredth_is_one_event(capsys, heard):
    with pits_shown([850], 1) as listener:
        for share in (0.1, 0.104, 0.109, 0.11, 0.5):
            listener(850, "solving", share)
    assert [words["share"] for _, words in heard] == [0.1, 0.11, 0.5]
    assert {json.dumps(words | {"share": 0}) for _, words in heard} == {
        json.dumps({"factor": 850, "state": "solving", "share": 0, "of": 1})
    }


def test_on_a_terminal_a_pit_that_is_done_has_no_line_any_more(monkeypatch, heard):
    from rich.console import Console

    monkeypatch.setattr(progress, "err", Console(force_terminal=True, width=100, quiet=True))
    with pits_shown([600, 1000], 2) as listener:
        listener(600, "solving", 0.5)
        listener(600, "done", 1.0)
        listener(1000, "proved", 0.0)
    assert [words["state"] for _, words in heard] == ["solving", "done", "proved"]
