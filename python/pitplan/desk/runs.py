"""Commands of pitplan that the desk has started, each run in a folder `log/desk/0007-shells` of its
study: they outlive the desk.

    asked.json    the commands, with what was asked for, by whom and when
    process.json  the process that does them
    log           what they print
    events.jsonl  what they do, as `base.events` has it
    study.toml    as it was then
    going         until they have ended; then it is renamed, which takes no room on a full disk, to `ended-STATUS-STEP`

One at a time over a study: the run holds the study's own lock, as a command in a terminal does, and
the system lets it go when the last process of the run ends.
"""
from __future__ import annotations

import json
import os
import shlex
import shutil
import signal
import subprocess
import sys
import time
from collections.abc import Mapping, Sequence
from contextlib import suppress
from dataclasses import asdict, dataclass, field
from pathlib import Path
from typing import Any

from ..base import events
from ..base.files import host, write_json
from ..base.within import NAME as WITHIN
from ..study import study_lock
from .folder import HOME

_PACKAGE = str(Path(__file__).resolve().parents[2])  # the folder that has pitplan
_START = f"import sys; sys.path.insert(0, {_PACKAGE!r}); "
_COMMAND = _START + "from pitplan.cli.main import main; main()"
_RUNNER = _START + "from pitplan.desk.runs import _do_all; _do_all(sys.argv[1])"
_STOPPED = 130
_BOOT = Path("/proc/sys/kernel/random/boot_id")  # another one after each start of the machine
_children: list[subprocess.Popen[bytes]] = []  # those that this desk has to bury


@dataclass(frozen=True)
class Wanted:
    """What a run is to do: `what` is in its folder's name; `steps` are the words of each command
    after `pitplan`, each only where those before it were done; `asked` is kept, so that the same
    can be asked for again."""

    what: str
    steps: Sequence[Sequence[str]]
    who: str = ""
    asked: Mapping[str, Any] = field(default_factory=dict)

    @property
    def typed(self) -> list[str]:
        """The commands as a planner types them in the desk's folder."""
        return [shlex.join(["pitplan", *step]) for step in self.steps]


def start(root: Path, study: Path, wanted: Wanted) -> int:
    """Starts a run in the folder `root`, outside of which it reads nothing, and gives its number.
    Raises turns.Held where another command has the study, and OSError where its folder can't be
    written."""
    lock = study_lock.open_lock(study)
    if lock is None:
        raise PermissionError(13, "nothing can be written there", str(study))
    with lock:
        study_lock.taken(lock, study, waits=False, waiting=None)
        number = 1 + max((run["number"] for run in of(study)), default=0)
        folder = study / HOME / f"{number:04d}-{wanted.what}"
        folder.mkdir(parents=True)
        try:
            shutil.copyfile(study / "study.toml", folder / "study.toml")
            asked = {**asdict(wanted), "typed": wanted.typed, "began": time.time()}
            write_json(folder / "asked.json", asked)
            (folder / "going").touch()
            _spawned(folder, root, lock.fileno())
        except OSError:
            shutil.rmtree(folder, ignore_errors=True)
            raise
    return number


def _spawned(folder: Path, root: Path, lock: int) -> None:
    """Starts the run's own process, in a session of its own, which inherits the lock."""
    around = {**os.environ, study_lock.PASSED: str(lock), WITHIN: str(root)}
    around[events.FILE] = str(folder / "events.jsonl")
    with open(folder / "log", "wb") as log:
        run = subprocess.Popen(
            [sys.executable, "-I", "-c", _RUNNER, str(folder)],
            cwd=root,
            env=around,
            stdin=subprocess.DEVNULL,
            stdout=log,
            stderr=log,
            start_new_session=True,
            pass_fds=(lock,),
        )
    write_json(folder / "process.json", {"pid": run.pid, "since": since(run.pid), "host": host()})
    _children.append(run)


def _do_all(name: str) -> None:
    """The run's own process: does the commands, hears ctrl-C for them, and leaves how they ended."""
    folder, stopped = Path(name), list[int]()
    asked = read(folder / "asked.json")
    # a handler, since what is ignored would be ignored by the commands, too
    signal.signal(signal.SIGINT, lambda *_: stopped.append(1))
    status, at, lock = 0, 0, int(os.environ[study_lock.PASSED])
    with suppress(OSError), open(lock, "a", encoding="utf-8", closefd=False) as held:
        study_lock.write_holder(held, ["; ".join(asked["typed"])])
    for at, words in enumerate(asked["steps"], 1):
        with suppress(OSError):  # on a full disk the commands say so
            os.write(sys.stdout.fileno(), f"$ {asked['typed'][at - 1]}\n".encode())
        command = [sys.executable, "-I", "-c", _COMMAND, *words]
        ended = subprocess.run(command, stdin=subprocess.DEVNULL, pass_fds=(lock,)).returncode
        before, status = status, _STOPPED if stopped else 128 - ended if ended < 0 else ended
        if words[0] == "page" and asked["what"] == "compare" and not stopped:
            status = before  # of the design; why the page can't show it stands in the log
        if stopped or not is_done(status, words):
            break
    os.utime(folder / "going")
    os.rename(folder / "going", folder / f"ended-{status}-{at}")


def is_done(status: int, words: Sequence[str]) -> bool:
    """Whether a command said all it was asked for: `compare` ends with 1 where slopes are broken."""
    return status == 0 or (status == 1 and words[0] == "compare")


def of(study: Path) -> list[dict[str, Any]]:
    """All runs of a study, the latest first."""
    for child in list(_children):
        if child.poll() is not None:
            with suppress(ValueError):  # a run that is started in another thread looks, too
                _children.remove(child)
    found = [_run_in(folder) for folder in (study / HOME).glob("[0-9]*-*") if folder.is_dir()]
    return sorted(filter(None, found), key=lambda run: -int(run["number"]))


def _run_in(folder: Path) -> dict[str, Any] | None:
    """A run, and how far it is; None where it was never begun."""
    asked = read(folder / "asked.json")
    if asked is None:
        return None
    asked.pop("root", None)  # as earlier versions had it
    steps, end = asked.pop("steps"), next(folder.glob("ended-*-*"), None)
    run = {**asked, "number": int(folder.name.partition("-")[0]), "folder": folder}
    run |= {**(read(folder / "process.json") or {}), "status": None}
    if end is None:
        return {**run, "state": _unended(run), "seconds": time.time() - asked["began"]}
    status, at = (int(part) for part in end.name.split("-")[1:])
    well = is_done(status, steps[0] if at else [""])
    state = "done" if well else "stopped" if status == _STOPPED else "failed"
    seconds = end.stat().st_mtime - asked["began"]
    return {**run, "state": state, "status": status, "at": at, "seconds": seconds}


def _unended(run: Mapping[str, Any]) -> str:
    """The state of a run that has left no end: it runs, or was killed."""
    if run.get("host", host()) != host():
        return f"runs on {run['host']}"
    young = "pid" not in run and time.time() - run["began"] < 5
    runs = young or (run.get("since") is not None and since(run["pid"]) == run["since"])
    return "running" if runs else "killed"


def stop(run: Mapping[str, Any]) -> bool:
    """As ctrl-C would: what is done is kept. Whether there was something to stop."""
    if run["state"] != "running" or since(run.get("pid", 0)) != run.get("since", ""):
        return False
    os.killpg(run["pid"], signal.SIGINT)
    return True


def since(pid: int) -> str | None:
    """When a process was started: with its number it names one process of this machine. None where it is no more."""
    with suppress(OSError):
        state, *rest = Path(f"/proc/{pid}/stat").read_text().rpartition(")")[2].split()
        return None if state == "Z" else f"{_BOOT.read_text().strip()} {rest[18]}"
    return None


def read(path: Path) -> Any:
    """What such a file says; None where it isn't there."""
    with suppress(OSError, ValueError):
        return json.loads(path.read_text())
    return None
