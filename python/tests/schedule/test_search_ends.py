"""Why a search ended is told, and kept for who looks later; each end is brought about, on mines of
a few blocks."""
from dataclasses import replace

import pytest
from pitplan.pit.program import Pit
from pitplan.schedule import search as searching, sorting
from pitplan.schedule.search_ends import ALL, GAP, KILLED, MINUTES, ROUNDS, STOPPED
from pitplan.schedule.kept_search import Kept
from pitplan.schedule.search import Search
from tiny_mines import TinyMine

FOREVER = 1e9  # seconds


@pytest.fixture
def search(tmp_path):
    """Of a mine whose best schedule is known to be below each bound."""
    return Search(tmp_path, TinyMine(2, panel=2).production, Pit())


def kept(search):
    return Kept(search.kept.folder.parent.parent, search.production).end()


def stopped(error):
    def raised(*words):
        raise error

    return raised


def test_a_gap_that_is_reached(search):
    search.run(0.9, FOREVER)
    assert search.end.why == GAP
    assert search.end.words == "the search ended because the gap of 90 % was reached"
    assert kept(search) == search.end


def test_all_schedules_of_a_small_mine(search):
    search.run(0.0, FOREVER)
    assert search.end.why == ALL
    assert kept(search) == search.end


def test_minutes_that_are_over(search, monkeypatch):
    monkeypatch.setattr(searching, "is_small", lambda _: False)
    search.run(0.0, 0.0)
    assert search.end.why == MINUTES
    assert "its 0 minutes were over; the same command goes on" in search.end.words
    assert "its 1 minute was over" in replace(search.end, seconds=60.0).words


def test_no_move_that_gains(search, monkeypatch):
    monkeypatch.setattr(searching, "is_small", lambda _: False)
    search.run(0.0, FOREVER)
    assert search.end.why == ROUNDS
    assert f"after {search.end.rounds} rounds of swaps, windows and annealing" in search.end.words
    assert search.end.rounds >= 2
    assert "after 1 round of" in replace(search.end, rounds=1).words


def test_ctrl_c(search, monkeypatch):
    monkeypatch.setattr(searching, "is_small", lambda _: False)
    monkeypatch.setattr(sorting.Sorting, "swapped", stopped(KeyboardInterrupt()))
    with pytest.raises(KeyboardInterrupt):
        search.run(0.0, FOREVER)
    assert kept(search).why == STOPPED
    assert search.plan is not None


def test_what_ends_it_from_outside(search, monkeypatch):
    """The end of an earlier search isn't told of one that was killed."""
    search.run(0.9, FOREVER)
    monkeypatch.setattr(searching, "is_small", lambda _: False)
    monkeypatch.setattr(Search, "swap", stopped(OSError("as a kill, which runs nothing more")))
    with pytest.raises(OSError, match="as a kill"):
        search.run(0.0, FOREVER)
    assert kept(search).why == KILLED
    assert "ended from outside" in kept(search).words


def test_the_end_of_another_production_is_none(search):
    search.run(0.9, FOREVER)
    dearer = replace(search.production, values=search.production.values + 1)
    assert Kept(search.kept.folder.parent.parent, dearer).end() is None
