"""The program `pit` as a process: where it is, how it is started, heard, fed and ended, and its faults
in the planner's terms."""
from __future__ import annotations

import os
import shutil
import signal
import subprocess
import sys
import threading
import time
from collections.abc import Callable, Iterable, Iterator, Mapping, Sequence
from contextlib import contextmanager
from pathlib import Path
from typing import Union

from ..base.errors import Killed, MachineError, PlanError
from ..base.files import ROOM
from ..base.interrupts import raise_if_asked

LineListener = Callable[[str], None]  # a line of `--progress`
Word = Union[str, int, Path]
TOP = Path(__file__).resolve().parents[3]
# where this repository's build puts it
BUILT = (
    TOP / "out" / "pit",
    TOP / "crates" / "pit" / "out" / "pit",
)
_LARGE_PAGES = "glibc.malloc.hugetlb=1"  # a setting of the C library
_HINTS = {
    "No space left on device": ROOM,
    "Disk quota exceeded": ROOM,
    "UNSETTLED": "the run was cut off before its pit was proved: tell the maintainers of this mine",
    "TooLarge": (
        "the amounts are too large together: rounding = 1000 in [economics], or prices and costs in"
        " thousands"
    ),
    "memory": "memory was refused: fewer --workers",
    "device": "a file couldn't be read or written: is the disk full?",
}
# a file of the study isn't as it was written, or this package writes what `pit` doesn't take
_OTHERWISE = "pitplan build, which makes the model anew; else tell the maintainers"
_TOO_MANY_PAIRS = "fault: slope TooMany"  # what `pit` says where it has to list more than so many
_PAIRS = 1 << 27


class OutOfTime(Exception):
    """A run took longer than it might."""


def found_program() -> str:
    """Where `pit` is: as PIT in the environment says, on the path, where this repository builds it,
    or beside the command.

    Raises
    ------
    PlanError
        Where it is nowhere.
    """
    named = os.environ.get("PIT")
    if named:
        where = shutil.which(named)
        if not where:
            raise PlanError(f"PIT in the environment is {named!r}, and there is no such program")
        return str(Path(where).resolve())
    beside = Path(sys.argv[0]).resolve().parent / "pit"
    where = shutil.which("pit") or next(
        (str(path) for path in (*BUILT, beside) if os.access(path, os.X_OK)), None
    )
    if not where:
        raise PlanError(
            "the program pit isn't there",
            try_this="./install in the repository, or PIT=/path/to/pit",
        )
    return where


class Process:
    """The program `pit`, and the runs of it that go on.

    Parameters
    ----------
    program : str or Path, optional
        Where it is. Default: found as `found_program` says.
    """

    def __init__(self, program: str | Path | None = None) -> None:
        self.program = str(program) if program else found_program()
        self.running: set[subprocess.Popen[bytes]] = set()
        self.is_stopped = False
        self.lock = threading.Lock()

    def run(
        self,
        words: Sequence[Word],
        out: Path | None = None,
        on_line: LineListener | None = None,
        fed: Iterable[bytes] | None = None,
        seconds: float | None = None,
    ) -> str:
        """Runs `pit`.

        Parameters
        ----------
        words : sequence
            Of its command line.
        out : Path, optional
            The file that its standard output is written to.
        on_line : function, optional
            Called with each line that says how far it is.
        fed : iterable of bytes, optional
            What it gets on its standard input; all of it is gone through, also where `pit` reads no
            more.
        seconds : float, optional
            After which it is ended. Default: never.

        Returns
        -------
        str
            Its standard output; with `out`, nothing where it is done, and the answer where that is
            no.

        Raises
        ------
        PlanError, MachineError
            Where it ended with another status than 0 or 1, or by a signal: with its own words, and
            what to try.
        OutOfTime
            Where it was ended.
        """
        lines: list[str] = []
        with open(out, "wb") if out else open(os.devnull, "wb") as target:
            run = self.started(
                words,
                target.fileno() if out else subprocess.PIPE,
                subprocess.PIPE if fed is not None else subprocess.DEVNULL,
            )
            ear = threading.Thread(target=_listen, args=(run, lines, on_line), daemon=True)
            ear.start()
            try:
                with ending(run, seconds) as late:
                    text, status = _said_by(run, fed or ())
            finally:
                ear.join()
                with self.lock:
                    self.running.discard(run)
        if late.is_set() and status < 0:
            raise OutOfTime
        if status == 1 and out:
            return out.read_text(errors="replace")[:1000]
        if status in (0, 1):
            return text
        raise self.ended(str(words[0]), status, " ".join(lines))

    def started(self, words: Sequence[Word], output: int, stdin: int) -> subprocess.Popen[bytes]:
        """Starts `pit`, so that it ends when this process does: setpriv is of util-linux, which
        Debian always has. Raises MachineError where it can't be started, and KeyboardInterrupt
        after `stop`."""
        setpriv = shutil.which("setpriv")
        before = [setpriv, "--pdeathsig", "KILL", "--"] if setpriv else []
        raise_if_asked()
        with self.lock:
            if self.is_stopped:
                raise KeyboardInterrupt
            try:
                # ctrl-C is for this process, which ends it
                run = subprocess.Popen(
                    [*before, self.program, *map(str, words)],
                    stdin=stdin,
                    stdout=output,
                    stderr=subprocess.PIPE,
                    env=_with_large_pages(os.environ),
                    process_group=0,
                )
            except OSError as error:
                raise MachineError(f"{self.program} can't be started: {error.strerror}") from None
            self.running.add(run)
        return run

    def stop(self) -> None:
        """Ends all that runs, and starts nothing more."""
        with self.lock:
            self.is_stopped = True
            for run in self.running:
                _ended_now(run)

    def restart(self) -> None:
        """Lets runs be started again after `stop`."""
        with self.lock:
            self.is_stopped = False

    def ended(self, command: str, status: int, fault: str) -> PlanError:
        """The error of a run that ended with another status than 0 or 1."""
        if self.is_stopped:
            return MachineError("stopped")
        if fault.endswith(_TOO_MANY_PAIRS):
            return PlanError(
                "[slopes] the offsets make more pairs of a block and a predecessor over this model"
                f" than pit lists, {_PAIRS:,}",
                try_this="fewer levels in [slopes], steeper angles, or larger blocks",
                key=("slopes",),
            )
        how = (
            f"was ended by {signal.Signals(-status).name}"
            if status < 0
            else f"ended with status {status}"
        )
        said = f"pit {command} {how}" + (f": {fault}" if fault else "")
        if status == -signal.SIGKILL:
            hint = "fewer --workers: memory was short, or somebody ended it"
            return Killed(said, try_this=hint)
        kind = MachineError if status < 0 or status == 4 else PlanError
        return kind(said, try_this=hint_of(fault))


def _with_large_pages(around: Mapping[str, str]) -> dict[str, str]:
    """An environment in which the C library asks the system for large pages, unless it says
    otherwise itself: of two values the last one counts."""
    own = around.get("GLIBC_TUNABLES")
    return {**around, "GLIBC_TUNABLES": ":".join([_LARGE_PAGES] + ([own] if own else []))}


def _ended_now(run: subprocess.Popen[bytes]) -> None:
    """Ends a run and all that it started: it is the first of a process group of its own."""
    if run.poll() is None:
        os.killpg(run.pid, signal.SIGKILL)


def _said_by(run: subprocess.Popen[bytes], pieces: Iterable[bytes]) -> tuple[str, int]:
    """What a run says that is given some bytes, and its status; it is ended where that fails."""
    try:
        _feed(run, pieces)
        text = run.stdout.read().decode(errors="replace") if run.stdout else ""
        return text, run.wait()
    except BaseException:
        _ended_now(run)
        run.wait()
        raise


@contextmanager
def ending(run: subprocess.Popen[bytes], seconds: float | None) -> Iterator[threading.Event]:
    """Ends a run, the first of a process group, after some seconds, unless it is done before; the
    event says that it did."""
    late = threading.Event()

    def end() -> None:
        late.set()
        _ended_now(run)

    timer = threading.Timer(max(seconds or 0.0, 0.0), end)
    if seconds is not None:
        timer.start()
    try:
        yield late
    finally:
        timer.cancel()


def left_until(ends: float | None) -> float | None:
    """The seconds until then; None where nothing ends."""
    return None if ends is None else ends - time.monotonic()


def hint_of(said: str) -> str:
    """What to try where `pit` says this in place of an answer."""
    return next((hint for key, hint in _HINTS.items() if key in said), _OTHERWISE)


def _listen(run: subprocess.Popen[bytes], lines: list[str], on_line: LineListener | None) -> None:
    """Takes in what `pit` says on standard error: how far it is, and what is wrong."""
    assert run.stderr is not None
    for raw in run.stderr:
        line = raw.decode(errors="replace").rstrip()
        if not line.startswith("progress:"):
            lines.append(line)
        elif on_line:
            on_line(line)


def _feed(run: subprocess.Popen[bytes], pieces: Iterable[bytes]) -> None:
    """Hands bytes to a run, as long as it takes them."""
    takes = run.stdin is not None
    for piece in pieces:
        try:
            if takes and run.stdin:
                run.stdin.write(piece)
        except BrokenPipeError:
            takes = False
    try:
        if run.stdin:
            run.stdin.close()
    except BrokenPipeError:
        pass
