"""HiGHS in processes of their own, called as programs over shares from 0 to 1: within this one no
ctrl-C would be heard before it is done. Arrays go by pipes between this process and those that it
has started, without pickles."""
from __future__ import annotations

import io
import json
import os
import shutil
import signal
import struct
import subprocess
import sys
import threading
import zipfile
from contextlib import suppress
from dataclasses import dataclass
from pathlib import Path
from typing import IO, Any, NamedTuple

import numpy as np
from scipy.sparse import csr_matrix

from ..base.arrays import Floats
from ..base.errors import MachineError
from ..base.interrupts import raise_if_asked
from ..pit.process import ending

_PACKAGE = str(Path(__file__).resolve().parents[2])  # the folder that has pitplan
_CODE = f"import sys; sys.path.insert(0, {_PACKAGE!r}); from pitplan.schedule.highs import serve; serve()"
_LENGTH = struct.Struct("<Q")  # of what follows, in bytes
# How its process ends where HiGHS fails within itself, as after it spoilt its own memory.
_FAILED = {
    -each for each in (signal.SIGABRT, signal.SIGSEGV, signal.SIGBUS, signal.SIGFPE, signal.SIGILL)
}
_NO_ANSWER = 4  # SciPy's status of a program that came to no end
_MOST_FAILURES = 5  # of whole shares, one after the other
_AT_LIMIT = 1  # SciPy's status where a limit was reached
_GRACE = 3.0  # seconds after a time limit, which HiGHS needn't keep, when its process is ended
_LOCK = threading.Lock()
_failures = 0  # since the last answer
_idle: list[_Solver] = []
_busy: set[_Solver] = set()


class _Failed(MachineError):
    """HiGHS failed within itself, which another program, or another try, need not do."""


@dataclass
class Answer:
    """What HiGHS gives.

    Attributes
    ----------
    status : int
        SciPy's: 0 for the best, 1 at a limit, and others; 4 where HiGHS failed within itself.
    message : str
        The same in words.
    shares : Floats or None
        The shares, None where it has found none.
    prices : Floats
        What a unit more of each limit is worth; of a program of whole shares none.
    """

    status: int
    message: str
    shares: Floats | None
    prices: Floats


def milp(gains: Floats, table: Any, limits: Floats, **options: float) -> Answer:
    """The whole shares of most gain, each 0 or 1, of which the table's sums stay within limits.

    Parameters
    ----------
    gains : Floats
        A gain for each share.
    table : sparse array
        A row for each limit, a column for each share.
    limits : Floats
        What no row's sum is more than.
    options : float
        Those of `scipy.optimize.milp`.

    Raises
    ------
    MachineError
        Where its process was ended, as where memory is short, or HiGHS failed within itself five
        times, one after the other.
    KeyboardInterrupt
        Where it was ended by `stop` after ctrl-C.
    """
    try:
        found = _solved({"options": options}, gains, table, limits)
    except _Failed as error:
        if _failed_again() >= _MOST_FAILURES:
            raise
        return Answer(_NO_ANSWER, str(error), None, np.zeros(0))
    _failed_again(back_to=0)
    return found


def _failed_again(back_to: int | None = None) -> int:
    """Counts a failure, or from the beginning; how many there were since an answer."""
    global _failures
    with _LOCK:
        _failures = _failures + 1 if back_to is None else back_to
        return _failures


def linprog(gains: Floats, table: Any, limits: Floats, method: str, **options: float) -> Answer:
    """Likewise of shares that may be parts, by a method of `scipy.optimize.linprog`. It is tried
    twice where HiGHS fails within itself."""
    words = {"method": method, "options": options}
    try:
        return _solved(words, gains, table, limits)
    except _Failed:
        return _solved(words, gains, table, limits)


def begin(count: int) -> None:
    """Starts so many processes, where there aren't as many. They end with the thread that starts them:
    the main one starts those that others use."""
    with _LOCK:
        _idle[:] = [each for each in _idle if each.run.poll() is None]
        while len(_idle) < count:
            _idle.append(_Solver())


def stop() -> None:
    """Ends all that is being solved."""
    with _LOCK:
        for each in _busy:
            each.run.kill()


def _send(to: IO[bytes], words: dict[str, Any], **arrays: Any) -> None:
    """Writes words and arrays into a pipe."""
    text = io.BytesIO()
    np.savez(text, words=np.frombuffer(json.dumps(words).encode(), np.uint8), **arrays)
    to.write(_LENGTH.pack(text.tell()) + text.getbuffer())
    to.flush()


class _Message(NamedTuple):
    """Words and arrays that went through a pipe."""

    words: dict[str, Any]
    arrays: Any


def _receive(pipe: IO[bytes]) -> _Message:
    """The next words and arrays of a pipe. Raises EOFError where there are none, or they end early."""
    before = pipe.read(_LENGTH.size)
    if len(before) < _LENGTH.size:
        raise EOFError
    text = pipe.read(_LENGTH.unpack(before)[0])
    try:
        arrays = np.load(io.BytesIO(text), allow_pickle=False)
        return _Message(json.loads(arrays["words"].tobytes()), arrays)
    except (ValueError, zipfile.BadZipFile):
        raise EOFError from None


class _Solver:
    """A process that solves one program after the other, and ends when this one does."""

    def __init__(self) -> None:
        setpriv = shutil.which("setpriv")
        before = [setpriv, "--pdeathsig", "KILL", "--"] if setpriv else []
        try:
            self.run = subprocess.Popen(
                [*before, sys.executable, "-I", "-c", _CODE],
                stdin=subprocess.PIPE,
                stdout=subprocess.PIPE,
                process_group=0,  # ctrl-C is for this process, which ends it
            )
        except OSError as error:
            raise MachineError(f"no process for HiGHS can be started: {error.strerror}") from None

    def answer(self, words: dict[str, Any], gains: Floats, table: Any, limits: Floats) -> Answer:
        """What it gives. Raises EOFError and OSError where it was ended."""
        assert self.run.stdin and self.run.stdout
        rows = csr_matrix(table)
        _send(
            self.run.stdin,
            words | {"shape": rows.shape},
            gains=gains,
            data=rows.data,
            indices=rows.indices,
            indptr=rows.indptr,
            limits=limits,
        )
        found, arrays = _receive(self.run.stdout)
        if "error" in found:
            raise RuntimeError(found["error"])
        shares = arrays["shares"] if found["has_shares"] else None
        return Answer(found["status"], found["message"], shares, arrays["prices"])

    def end(self) -> None:
        """Ends it, whatever it does."""
        self.run.kill()
        with suppress(OSError):  # what it wasn't given any more
            self.run.communicate()


def _solved(words: dict[str, Any], gains: Floats, table: Any, limits: Floats) -> Answer:
    """What a process gives, which is free for others then; one that gave nothing is ended, and so is
    one that goes on after its time limit, as crossover does for minutes."""
    begin(1)
    with _LOCK:
        raise_if_asked()
        process = _idle.pop() if _idle else _Solver()
        _busy.add(process)
    limit = words["options"].get("time_limit")
    try:
        with ending(process.run, None if limit is None else limit + _GRACE) as late:
            found = process.answer(words, gains, table, limits)
    except BaseException as error:
        process.end()
        if not isinstance(error, (EOFError, OSError)):
            raise
        raise_if_asked()
        if late.is_set():
            return Answer(_AT_LIMIT, "it didn't keep its time limit", None, np.zeros(0))
        raise _how_it_ended(process.run.returncode) from None
    finally:
        with _LOCK:
            _busy.discard(process)
    if late.is_set():
        process.end()
        return found
    with _LOCK:
        _idle.append(process)
    return found


def _how_it_ended(status: int) -> MachineError:
    """The error of a process that gave no answer, by its status."""
    if status in _FAILED:
        return _Failed(
            f"HiGHS failed within itself, by {signal.Signals(-status).name}",
            try_this="the same command, which goes on",
        )
    return MachineError(
        "the process of HiGHS was ended: memory was short, or somebody ended it",
        try_this="the same command, which goes on; or a machine with more memory",
    )


def _found(words: dict[str, Any], arrays: Any) -> Any:
    """What SciPy gives of a program that came by a pipe."""
    from scipy import optimize

    gains, limits = arrays["gains"], arrays["limits"]
    parts = (arrays["data"], arrays["indices"], arrays["indptr"])
    table = csr_matrix(parts, tuple(words["shape"]))
    if "method" in words:
        return optimize.linprog(
            -gains,
            A_ub=table,
            b_ub=limits,
            bounds=(0, 1),
            method=words["method"],
            options=words["options"],
        )
    return optimize.milp(
        -gains,
        constraints=optimize.LinearConstraint(table, -np.inf, limits),
        bounds=optimize.Bounds(0, 1),
        integrality=np.ones(len(gains)),
        options=words["options"],
    )


def serve() -> None:
    """In such a process: solves what comes, until nothing more does."""
    answers = os.fdopen(os.dup(sys.stdout.fileno()), "wb")
    os.dup2(sys.stderr.fileno(), sys.stdout.fileno())  # what HiGHS prints is no answer
    with suppress(EOFError, BrokenPipeError):
        while True:
            words, arrays = _receive(sys.stdin.buffer)
            try:
                found = _found(words, arrays)
            except Exception as error:
                _send(answers, {"error": f"{type(error).__name__}: {error}"})
                continue
            has_shares = found.x is not None
            has_prices = "method" in words and found.status == 0
            prices = -found.ineqlin.marginals if has_prices else []
            said = {"status": int(found.status), "message": found.message}
            _send(
                answers,
                said | {"has_shares": has_shares},
                shares=found.x if has_shares else [],
                prices=prices,
            )
