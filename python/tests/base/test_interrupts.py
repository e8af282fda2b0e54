"""Ctrl-C that Python has dropped ends a wait all the same."""
import contextlib
import signal
import subprocess
import threading
from concurrent.futures import ThreadPoolExecutor

import pytest
from pitplan.base import interrupts
from processes import TOP


@pytest.fixture
def fresh(monkeypatch):
    monkeypatch.setattr(interrupts, "_asked", [])


def test_each_future_comes_once_it_is_done(fresh):
    with ThreadPoolExecutor(3) as pool:
        futures = [pool.submit(int, text) for text in ("1", "2", "x")]
        found = list(interrupts.as_they_end(futures))
    assert set(found) == set(futures)
    assert len(found) == 3


def test_a_stop_that_was_dropped_ends_the_wait(fresh):
    end = threading.Event()
    with ThreadPoolExecutor(1) as pool:
        future = pool.submit(end.wait, 600)
        with contextlib.suppress(KeyboardInterrupt):  # as a callback of the collector does
            interrupts.stop(signal.SIGINT, None)
        with pytest.raises(KeyboardInterrupt):
            list(interrupts.as_they_end([future]))
        end.set()


def test_ctrl_c_stays_ignored_where_it_is():
    code = (
        "import signal, sys; sys.path.insert(0, sys.argv[1]); from pitplan.base import interrupts;"
        "interrupts.hear(); first = signal.getsignal(signal.SIGINT) is interrupts.stop;"
        "signal.signal(signal.SIGINT, signal.SIG_IGN); interrupts.hear();"
        "print(first, signal.getsignal(signal.SIGINT) is signal.SIG_IGN)"
    )
    words = ["/usr/bin/python3", "-I", "-c", code, str(TOP / "python")]
    assert subprocess.run(words, capture_output=True, text=True).stdout == "True True\n"


# A second signal comes at each line of what the handler of the first calls.
WITHIN = """import signal, sys; sys.path.insert(0, sys.argv[1]); from pitplan.base import interrupts
def trace(frame, event, argument):
    if event == "line" and frame.f_code is not interrupts.stop.__code__:
        try:
            signal.raise_signal(signal.SIGINT)
        except KeyboardInterrupt:
            pass
    return trace
signal.signal(signal.SIGINT, interrupts.stop)
sys.settrace(trace)
try:
    interrupts.stop(signal.SIGINT, None)
except KeyboardInterrupt:
    sys.settrace(None)
print("ended")
"""


def test_a_signal_within_the_handler_of_another_waits_for_nothing():
    words = ["/usr/bin/python3", "-I", "-c", WITHIN, str(TOP / "python")]
    assert subprocess.run(words, capture_output=True, text=True, timeout=60).stdout == "ended\n"


def test_a_second_end_of_a_parent_disturbs_nothing(fresh):
    before = signal.signal(signal.SIGTERM, interrupts.stop)
    try:
        with pytest.raises(KeyboardInterrupt):
            signal.raise_signal(signal.SIGTERM)
        signal.raise_signal(signal.SIGTERM)
    finally:
        signal.signal(signal.SIGTERM, before)
    with pytest.raises(KeyboardInterrupt):
        interrupts.raise_if_asked()
