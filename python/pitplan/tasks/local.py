"""Tasks on this machine: a few processes, each of which is handed one line of words after another.

A process of this package for each, and not a thread: a realisation's prices are worked out in
Python. The processes end with the one that started them, and their `pit` with them. One that dies
is started again, with the task that it had in hand.
"""
from __future__ import annotations

import json
import os
import shutil
import signal
import subprocess
import sys
import threading
from collections.abc import Callable, Iterable, Sequence
from concurrent.futures import ThreadPoolExecutor
from pathlib import Path
from queue import Empty, SimpleQueue

from ..base.errors import Disagreement, MachineError, NotAccepted, PlanError
from ..base.machine import free_memory, processors
from ..base.interrupts import as_they_end
from ..plans.task_line import Task
from ..study.study import Study
from ..study.workers import SHARE
from .tasks import memory_of_task

_TRIES = 3
_PATIENCE = 20  # seconds that a process gets to take away what it has half done
_START = "import sys; sys.path.insert(0, {!r}); from pitplan.cli.main import main; main()"
TaskListener = Callable[
    [Task, int, int], None
]  # a task that is done, how many are, and of how many


def processes_for(study: Study, wanted: int | None = None) -> int:
    """How many tasks run at a time: as asked or as there are processors, and no more than free
    memory has room for."""
    room = int(SHARE * free_memory() / memory_of_task(study))
    return max(1, min(wanted or processors(), room))


def run_local(
    study: Study,
    tasks: Iterable[Task],
    workers: int | None = None,
    on_done: TaskListener | None = None,
) -> int:
    """Does tasks on this machine. Those that are done already are passed over by whoever lists them
    (`Tasks.left`).

    Parameters
    ----------
    workers : int, optional
        How many at a time, as `processes_for`.
    on_done : function, optional
        Called with each task that is done.

    Returns
    -------
    int
        How many processes died and were started again.

    Raises
    ------
    PlanError
        Where a task fails, with its words; or a task's process died three times. What is done is
        kept.
    KeyboardInterrupt
        The same. No process is left.
    """
    left = list(tasks)
    queue: SimpleQueue[Task] = SimpleQueue()
    for task in left:
        queue.put(task)
    if not left:
        return 0
    count = min(processes_for(study, workers), len(left))
    team = [_Worker(study, queue) for _ in range(count)]
    lock, done = threading.Lock(), [0]

    def tell(task: Task) -> None:
        with lock:
            done[0] += 1
            if on_done:
                on_done(task, done[0], len(left))

    with ThreadPoolExecutor(count) as pool:
        try:
            futures = [pool.submit(worker.work, tell) for worker in team]
            for future in as_they_end(futures):
                future.result()
        finally:
            for worker in team:
                worker.end()
    return sum(worker.deaths for worker in team)


class _Worker:
    """A process that does one task after another of a queue; started again when it dies."""

    def __init__(self, study: Study, queue: SimpleQueue[Task]) -> None:
        self.study, self.queue, self.deaths, self.is_ended = study, queue, 0, False
        self.process: subprocess.Popen[str] | None = None
        self.lock = threading.Lock()

    def work(self, tell: Callable[[Task], None]) -> None:
        """Takes tasks until there are no more. Raises MachineError where a task's process was ended
        each time that it was tried."""
        while not self.is_ended:
            try:
                task = self.queue.get_nowait()
            except Empty:
                break
            for attempt in range(_TRIES):
                if self.does(task):
                    tell(task)
                    break
                self.deaths += 1
                if self.is_ended:
                    return
            else:
                raise MachineError(
                    f"{task}: its process was ended {_TRIES} times",
                    try_this="fewer --workers: memory was short, or somebody ended it",
                )
        self.let_go()

    def does(self, task: Task) -> bool:
        """Hands a task to the process; whether it is done, or the process died. Raises what the
        task failed with."""
        process = self.running()
        try:
            assert process.stdin and process.stdout
            process.stdin.write(f"{task}\n")
            process.stdin.flush()
            said = process.stdout.readline()
        except (BrokenPipeError, ValueError):
            said = ""
        if said == "" or not said.endswith("\n"):
            process.wait()
            return False
        answer = json.loads(said)
        if "what" in answer:
            raise {
                "NotAccepted": NotAccepted,
                "Disagreement": Disagreement,
                "MachineError": MachineError,
            }.get(answer["kind"], PlanError)(f"{task}: {answer['what']}", try_this=answer["try"])
        return True

    def running(self) -> subprocess.Popen[str]:
        """The process, started where it isn't there. Raises KeyboardInterrupt where the tasks were
        stopped."""
        with self.lock:
            if self.is_ended:
                raise KeyboardInterrupt
            if self.process is None or self.process.poll() is not None:
                setpriv = shutil.which("setpriv")
                before = [setpriv, "--pdeathsig", "TERM", "--"] if setpriv else []
                start = _START.format(str(Path(__file__).resolve().parents[2]))
                environment = {**os.environ, "PIT": self.study.program.program}
                # ctrl-C is for this process, which ends it
                self.process = subprocess.Popen(
                    [
                        *before,
                        sys.executable,
                        "-I",
                        "-c",
                        start,
                        "task",
                        str(self.study.folder),
                        "-",
                    ],
                    stdin=subprocess.PIPE,
                    stdout=subprocess.PIPE,
                    text=True,
                    env=environment,
                    process_group=0,
                )
            return self.process

    def let_go(self) -> None:
        """Ends the process when it has nothing in hand."""
        with self.lock:
            if self.process and self.process.stdin:
                self.process.stdin.close()
                try:
                    self.process.wait(_PATIENCE)
                except subprocess.TimeoutExpired:
                    pass  # `end` sees to it

    def end(self) -> None:
        """Ends the process: it takes away what it has half done, and its `pit` ends with it."""
        with self.lock:
            self.is_ended = True
            if self.process is None or self.process.poll() is not None:
                return
            self.process.send_signal(signal.SIGTERM)
            try:
                self.process.wait(_PATIENCE)
            except subprocess.TimeoutExpired:
                os.killpg(self.process.pid, signal.SIGKILL)
                self.process.wait()


def _answer_to(error: BaseException) -> str:
    """What a process says of a task that failed, in a line."""
    if isinstance(error, PlanError):
        place = str(error).split("\n  try: ")[0]
        return json.dumps({"what": place, "try": error.try_this, "kind": type(error).__name__})
    words = (
        "memory was refused"
        if isinstance(error, MemoryError)
        else f"{getattr(error, 'filename', '') or ''}: {getattr(error, 'strerror', error)}"
    )
    return json.dumps(
        {
            "what": words,
            "try": "fewer --workers" if isinstance(error, MemoryError) else None,
            "kind": "MachineError",
        }
    )


def serve(
    do: Callable[[Task], object],
    lines: Iterable[str],
    say: Callable[[str], None],
    parse: Callable[[Sequence[str]], Task],
) -> None:
    """The process's own side: does the tasks of its standard input, and says a line of each."""
    for line in lines:
        try:
            do(parse(line.split()))
            said = json.dumps({"done": True})
        except (PlanError, OSError, MemoryError) as error:
            said = _answer_to(error)
        say(said)
