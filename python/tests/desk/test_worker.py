"""The process that works for the desk: what takes too long or too much, and what kills it."""
import asyncio
import functools
import os
import resource
import signal
import time
from pathlib import Path

import pytest

pytest.importorskip("starlette")

import numpy as np
import pandas as pd

from desks import Desk
from pitplan.base import machine
from pitplan.desk import worker
from pitplan.desk.worker import PATIENCE, Worker
from processes import gone


def test_what_takes_too_long_is_ended_and_the_next_question_is_answered(tmp_path, monkeypatch):
    monkeypatch.setattr(worker, "PATIENCE", 1)
    ask = Worker(tmp_path)

    async def both():
        await asyncio.wrap_future(ask.begin().submit(len, "it is there"))
        began, pids = time.monotonic(), list(ask.pool._processes)
        late = await ask(time.sleep, 900)
        took = time.monotonic() - began
        monkeypatch.setattr(worker, "PATIENCE", 120)
        return late, took, pids, await ask(len, "four")

    late, took, pids, then = asyncio.run(both())
    ask.end()
    assert "longer than 1 seconds" in late["errors"][0]["said"]
    assert took < 600
    assert then == 4
    assert len(pids) == 1
    assert gone(pids)


def test_a_process_that_wants_too_much_memory_says_so(tmp_path):
    ask = Worker(tmp_path)
    least, most = asyncio.run(ask(resource.getrlimit, resource.RLIMIT_AS))
    ask.end()
    whole = machine.whole_memory()
    assert 0.5 * whole < least <= most < whole
    answer = worker.answered(lambda: len(bytearray(1 << 60)))  # as a larger table would
    assert answer["errors"][0]["said"] == "memory was refused"


def test_a_process_takes_no_more_than_the_control_group_of_the_desk_may(tmp_path, monkeypatch):
    """As in a container of 4 gigabytes on a machine of 64."""
    (tmp_path / "own").write_text("0::/\n")
    (tmp_path / "memory.max").write_text("4000000000\n")
    (tmp_path / "meminfo").write_text("MemTotal:   62500000 kB\n")
    seen = functools.partial(machine.whole_memory, tmp_path, tmp_path / "own", tmp_path / "meminfo")
    set_to = []
    monkeypatch.chdir(tmp_path)
    monkeypatch.setattr(worker, "whole_memory", seen)
    monkeypatch.setattr(worker, "only_within", lambda root: None)
    monkeypatch.setattr(worker, "_end_with_the_desk", lambda: None)
    monkeypatch.setattr(resource, "setrlimit", lambda kind, limits: set_to.append((kind, limits)))
    worker.settle(tmp_path)
    [(kind, (least, most))] = set_to
    assert kind == resource.RLIMIT_AS
    assert 2 * 10**9 < least <= most < 4 * 10**9


def test_a_process_that_was_killed_costs_no_question(tmp_path):
    ask = Worker(tmp_path)

    async def both():
        first = await ask(os.getpid)
        os.kill(first, signal.SIGKILL)
        return first, await ask(os.getpid)

    first, second = asyncio.run(both())
    ask.end()
    assert isinstance(second, int)
    assert second != first
    assert gone([first], 20)


ENDS = """
def ends(path):
    import os
    with open(path, "a") as marks:
        marks.write("x\\n")
    os._exit(9)
"""


def test_a_question_that_ends_its_process_is_asked_twice_alone_and_told(tmp_path, monkeypatch):
    (tmp_path / "deadly.py").write_text(ENDS)
    monkeypatch.syspath_prepend(str(tmp_path))
    from deadly import ends

    ask = Worker(tmp_path)

    async def both():
        return await ask(ends, str(tmp_path / "marks")), await ask(len, "four")

    dead, then = asyncio.run(both())
    ask.end()
    assert "was ended" in dead["errors"][0]["said"]
    assert then == 4
    assert (tmp_path / "marks").read_text() == "x\n" * 2


def test_a_question_after_one_that_takes_too_long_is_answered(tmp_path, monkeypatch):
    monkeypatch.setattr(worker, "PATIENCE", 5)
    ask = Worker(tmp_path)

    async def both():
        await asyncio.wrap_future(ask.begin().submit(len, "it is there"))
        slow = asyncio.create_task(ask(time.sleep, 60))
        await asyncio.sleep(2)
        monkeypatch.setattr(worker, "PATIENCE", 120)
        return await asyncio.gather(slow, ask(len, "four"))

    late, then = asyncio.run(both())
    ask.end()
    assert "longer than" in late["errors"][0]["said"]
    assert then == 4


pytest.importorskip("starlette")


BYTES, SIDES = 300_000_000, (240, 200)
MOST = 300_000_000  # bytes of memory that the server may take


def written(path):
    """A table of more than `BYTES`: rows of levels of the same grid, one below the other."""
    nx, ny = SIDES
    x, y = (each.ravel() * 20.0 for each in np.meshgrid(range(nx), range(ny), indexing="ij"))
    chance, rows = np.random.default_rng(7), 0
    with open(path, "w") as file:
        while file.tell() < BYTES:
            level = {
                "XC": x + 430_000.125,
                "YC": y + 7_215_000.375,
                "ZC": 900.0 - 10 * rows / len(x),
            }
            level |= {name: chance.gamma(2, 0.2, len(x)).round(9) for name in ("CU", "AU", "MO")}
            level |= {"SG": 2.7, "ROCK": "SULPHIDE"}
            pd.DataFrame(level).to_csv(file, index=False, header=rows == 0)
            rows += len(x)
    return rows


def peak(process):
    """The most memory that a process has had, in bytes."""
    status = Path(f"/proc/{process.pid}/status").read_text()
    return 1024 * int(status.split("VmHWM:")[1].split()[0])


@pytest.mark.skipif("DEEP" not in os.environ, reason="tests/run --deep tries it")
def test_a_table_of_300_mb_is_taken_and_looked_at(tmp_path):
    rows = written(tmp_path / "large.csv")
    (tmp_path / "mines").mkdir()
    desk = Desk(tmp_path / "mines")
    with open(tmp_path / "large.csv", "rb") as file:
        answer, sent = desk.asks("PUT", "/api/tables/large.csv", file, "text/csv")
    assert answer["bytes"] == (tmp_path / "large.csv").stat().st_size > BYTES
    answer, begun = desk.asks("POST", "/api/studies", {"table": "large.csv"})
    assert answer == {"study": "large"}, answer
    look, looked = desk.asks("GET", "/api/studies/large/look")
    assert look["rows"] == rows
    assert look["grades"] == ["CU", "AU", "MO"]
    check, checked = desk.asks("GET", "/api/studies/large/check")
    assert check["errors"] == []
    assert check["blocks"] == rows
    most = peak(desk.process)
    assert max(sent, begun, looked, checked) < PATIENCE
    print(
        f"{rows:,} rows: sent {sent:.1f} s, begun {begun:.1f} s, looked at {looked:.1f} s,"
        f" checked {checked:.1f} s; the server's memory at most {most / 1e6:.0f} MB"
    )
    assert most < MOST
    desk.end()
