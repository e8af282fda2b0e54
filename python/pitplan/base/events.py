"""What a command does, as JSON lines beside its words: for faces other than a terminal, and for
`pitplan status`.

They are written to the file that ``PITPLAN_EVENTS`` in the environment names, and to
``log/last.jsonl`` of the study, where they are those of the last command that had it. Each line has
``time`` (seconds since 1970) and ``event``:

    begin   command (list of words), pid, host
    wait    what: who has the study, before this command waits for its turn
    step    what, of what is begun; of a search also far, what it has found
    pit     factor (thousandths), state (solving, proved, done, killed), share (0 to 1), of (how
            many pits were asked for)
    task    task (its words), done (how many are), of
    look    what, try
    error   as `errors.PlanError.as_data`, and line, of study.toml
    said    what: a line of the command's answer
    table   title, names (of its columns), rows (lists of words): a table of the command's answer
    end     status: the exit status
"""
from __future__ import annotations

import json
import os
import sys
import time
from collections.abc import Callable, Iterator, Mapping, Sequence
from contextlib import contextmanager, suppress
from dataclasses import dataclass, field
from pathlib import Path
from typing import IO, Any

from .errors import PlanError

FILE = "PITPLAN_EVENTS"  # in the environment: the file that gets the lines
_LAST = Path("log", "last.jsonl")  # of a study: the lines of the last command that had it


@dataclass
class _Sinks:
    """The files that are written to, of this process."""

    files: list[IO[str]] = field(default_factory=list)


_SINKS = _Sinks()


def event(kind: str, **data: Any) -> None:
    """Writes a line to each file. What can't be written is left out: nobody's pit depends on it."""
    named = os.environ.pop(FILE, None)  # processes that this one starts don't write there
    if named:
        _also(Path(named), "a")
    if _SINKS.files:
        line = (
            json.dumps(
                {"time": round(time.time(), 3), "event": kind, **data},
                ensure_ascii=False,
                default=str,
            )
            + "\n"
        )
        for sink in _SINKS.files:
            with suppress(OSError, ValueError):
                sink.write(line)


def _also(path: Path, mode: str = "w") -> None:
    """Writes to a file, too, from now on; each line at once."""
    with suppress(OSError):
        _SINKS.files.append(
            open(path, mode, encoding="utf-8", errors="backslashreplace", buffering=1)
        )


def begin() -> None:
    """Says which command begins."""
    event("begin", command=words(), pid=os.getpid(), host=os.uname().nodename)


def progress(events: Sequence[Mapping[str, Any]], commands: Sequence[str]) -> dict[str, Any]:
    """How far a run of several commands is by its events: which of these it is at, what is told of
    it, and how many of how many parts are done."""
    begun = [at for at, each in enumerate(events) if each["event"] == "begin"]
    now = events[begun[-1] :] if begun else events
    latest = {str(each["event"]): each for each in now}
    pits = [each for each in now if each["event"] == "pit"]
    done = {each["factor"] for each in pits if each["state"] in ("proved", "done")}
    of = latest.get("task", latest.get("pit", {})).get("of", 0)
    count = latest["task"]["done"] if "task" in latest else len(done)
    what = step_words(latest["step"]) if "step" in latest else "begins"
    if of:
        what = f"{count} of {of}" + ("" if "task" in latest else " pits proved")
    return {"command": commands[max(len(begun) - 1, 0)], "what": what, "at": count, "of": of}


def step_words(step: Mapping[str, Any]) -> str:
    """What is begun, and what a search has found."""
    return f"{step['what']}: {step['far']}" if "far" in step else str(step["what"])


@contextmanager
def of_study(folder: Path) -> Iterator[Callable[[int, PlanError | None], None]]:
    """Writes to a study's own file, too, as long as a command has the study. The function that it
    gives says there how the command ends."""
    others, _SINKS.files = _SINKS.files, []
    if (folder / _LAST).parent.is_dir():
        _also(folder / _LAST)
    own = list(_SINKS.files)
    begin()
    _SINKS.files = [*others, *own]

    def ends(status: int, wrong: PlanError | None = None) -> None:
        _SINKS.files = own
        if wrong:
            error(wrong)
        end(status)

    try:
        yield ends
    finally:
        _SINKS.files = others


def end(status: int) -> None:
    """Says how the command ended, and closes the files."""
    event("end", status=status)
    for sink in _SINKS.files:
        with suppress(OSError):
            sink.close()
    _SINKS.files = []


def look(text: str) -> None:
    """Says what a planner should look at."""
    what, _, advice = text.partition("\n  try: ")
    event("look", what=what, **({"try": advice} if advice else {}))


def error(error: PlanError, study_toml: Path | None = None) -> None:
    """Says each error, with the number of its line of study.toml, where it has one."""
    if _SINKS.files:
        from .error_text import errors_as_data

        for fault in errors_as_data(error, study_toml):
            event("error", **fault)


def of_last_run(folder: Path) -> list[dict[str, Any]]:
    """The events of the last command that had a study; a line that is cut off, as where the machine
    went down, is left out."""
    return read_on(folder / _LAST)[0]


def read_on(path: Path, place: int = 0, most: int = -1) -> tuple[list[dict[str, Any]], int]:
    """The events of a file from a byte on, and the byte after them. A line that isn't whole yet is
    left for the next time, and one that is no event is left out; of a file that isn't there nothing
    is told.

    Parameters
    ----------
    path : Path
    place : int
        The byte.
    most : int
        Bytes that are read. Default: all.
    """
    found, new = [], b""
    with suppress(OSError), open(path, "rb") as file:
        file.seek(place)
        new = file.read(most)
    whole = new[: new.rfind(b"\n") + 1]
    for line in whole.splitlines():
        with suppress(ValueError):  # cut off where the disk was full
            entry = json.loads(line)
            if isinstance(entry, dict) and "event" in entry:
                found.append(entry)
    return found, place + len(whole)


def words() -> list[str]:
    """The command line of this process, as it was typed."""
    return ["pitplan", *sys.argv[1:]]
