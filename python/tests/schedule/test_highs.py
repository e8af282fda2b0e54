"""HiGHS in its own processes: it answers as SciPy does, and ctrl-C ends it at once."""
import os
import signal
import threading
import time

import numpy as np
import pytest
from pitplan.base.errors import MachineError
from pitplan.schedule import highs
from pitplan.schedule.sorting import Sorting
from scipy import optimize
from scipy.sparse import csr_matrix
from tiny_mines import TinyMine

LONG, SOON = 120.0, 30.0  # seconds: that HiGHS would take, and within which it is ended


@pytest.fixture
def hard():
    """A program of which nobody looks through all schedules in such a time: shares of weights that
    few sums meet."""
    random = np.random.default_rng(1)
    weights = random.integers(1, 1000, (30, 60))
    gains = weights.sum(axis=0) + random.integers(0, 100, 60)
    return gains, csr_matrix(weights), weights.sum(axis=1) // 3


def when_busy(do, count):
    """Does something in a thread as soon as so many processes are at work."""

    def waits():
        while len(highs._busy) < count:
            time.sleep(0.01)
        time.sleep(0.5)  # in which HiGHS has begun
        do()

    threading.Thread(target=waits, daemon=True).start()


def press_ctrl_c():
    os.kill(os.getpid(), signal.SIGINT)


def test_it_answers_as_scipy_does(hard):
    gains, table, limits = hard
    found = highs.milp(gains, table, limits, node_limit=1)
    wanted = optimize.milp(
        -gains,
        constraints=optimize.LinearConstraint(table, -np.inf, limits),
        bounds=optimize.Bounds(0, 1),
        integrality=np.ones(60),
        options={"node_limit": 1},
    )
    assert found.status == wanted.status
    assert found.shares.tolist() == wanted.x.tolist()


def test_a_relaxation_has_its_prices():
    table = csr_matrix([[1.0, 2.0]])
    found = highs.linprog(np.array([1.0, 3.0]), table, np.array([2.0]), "highs-ds")
    assert found.shares.tolist() == [0.0, 1.0]
    assert found.prices.tolist() == [1.5]


def test_none_found_is_none():
    found = highs.milp(np.array([1.0]), csr_matrix([[1.0]]), np.array([-1.0]))
    assert found.shares is None
    assert found.status == 2


def test_an_error_of_scipy_is_raised_here():
    with pytest.raises(RuntimeError, match="ValueError"):
        highs.linprog(np.array([np.nan]), csr_matrix([[1.0]]), np.array([1.0]), "highs-ds")


def test_one_process_solves_one_program_after_the_other(hard):
    highs.milp(*hard, node_limit=1)
    first = highs._idle[-1].run.pid
    highs.milp(*hard, node_limit=1)
    assert highs._idle[-1].run.pid == first


def test_ctrl_c_ends_it(hard):
    when_busy(press_ctrl_c, 1)
    began = time.monotonic()
    with pytest.raises(KeyboardInterrupt):
        highs.milp(*hard, time_limit=LONG)
    assert time.monotonic() - began < SOON
    assert not highs._busy


def test_ctrl_c_ends_two_windows_at_a_time(hard):
    sorting = Sorting(TinyMine(2, panel=2).production)
    sorting.threads = 2
    sorting.ends = time.monotonic() + LONG
    when_busy(press_ctrl_c, 2)
    began = time.monotonic()
    with pytest.raises(KeyboardInterrupt):
        sorting.at_once(lambda s: highs.milp(*hard, time_limit=LONG), range(0, 8, 2))
    assert time.monotonic() - began < SOON
    assert not highs._busy
    assert sorting.is_late


def test_one_that_goes_on_after_its_time_limit_is_ended(hard, monkeypatch):
    """As crossover does: it is as if the limit had been kept, and another process takes its place.
    Here it gets less time than its limit, which it needs."""
    monkeypatch.setattr(highs, "_GRACE", 1.0 - LONG)
    found = highs.milp(*hard, time_limit=LONG)
    assert (found.status, found.shares) == (1, None)
    assert not highs._busy
    assert highs.milp(*ONE).shares.tolist() == [1.0]


def test_a_process_that_somebody_ends_is_told(hard):
    when_busy(lambda: [each.run.kill() for each in list(highs._busy)], 1)
    with pytest.raises(MachineError, match="the process of HiGHS was ended"):
        highs.milp(*hard, time_limit=LONG)
    again = highs.milp(np.array([1.0]), csr_matrix([[1.0]]), np.array([1.0]))
    assert again.shares.tolist() == [1.0]


@pytest.fixture
def failing(monkeypatch, tmp_path):
    """HiGHS fails within itself in each process that is started while a file is there, which it is
    not after the first one where it is to fail once."""

    def fails(is_once):
        there = tmp_path / "fails"
        there.touch()
        code = f"""
import os, sys
from pathlib import Path
sys.path.insert(0, {highs._PACKAGE!r})
from pitplan.schedule import highs
there = Path({str(there)!r})
if there.exists():
    highs._receive(sys.stdin.buffer)
    if {is_once}:
        there.unlink()
    os.abort()
highs.serve()
"""
        monkeypatch.setattr(highs, "_CODE", code)
        monkeypatch.setattr(highs, "_failures", 0)
        for each in highs._idle:
            each.end()
        highs._idle.clear()

    yield fails
    for each in highs._idle:
        each.end()
    highs._idle.clear()


ONE = np.array([1.0]), csr_matrix([[1.0]]), np.array([1.0])


def test_a_failure_within_highs_is_no_answer(failing):
    failing(is_once=True)
    found = highs.milp(*ONE)
    assert (found.status, found.shares) == (4, None)
    assert found.message.startswith("HiGHS failed within itself, by SIGABRT")
    assert highs.milp(*ONE).shares.tolist() == [1.0]
    assert highs._failures == 0


def test_five_failures_within_highs_end_the_search(failing):
    failing(is_once=False)
    for _ in range(4):
        assert highs.milp(*ONE).shares is None
    with pytest.raises(MachineError, match="HiGHS failed within itself, by SIGABRT"):
        highs.milp(*ONE)


def test_a_relaxation_is_tried_twice(failing):
    failing(is_once=True)
    assert highs.linprog(*ONE, "highs-ds").shares.tolist() == [1.0]


def test_a_relaxation_that_fails_twice_is_told(failing):
    failing(is_once=False)
    with pytest.raises(MachineError, match="HiGHS failed within itself"):
        highs.linprog(*ONE, "highs-ds")
