"""Several pits at a time on this machine: a thread for each, that waits for its `pit`."""
from __future__ import annotations

from collections.abc import Callable, Sequence
from concurrent.futures import Future, ThreadPoolExecutor
from dataclasses import dataclass

from ..base.errors import Killed
from ..base.machine import free_memory, processors
from ..base.interrupts import as_they_end
from ..pit.program import MOST_FACTORS
from .runs import Runs, FactorProgress
from .verdicts import Verdict

# bytes of `pit solve`: a tenth more than was measured at 84,000 blocks, 0.4 and 2.6 million pairs
_PER_BLOCK, _PER_PAIR = (
    350,
    22,
)
_OWN_PER_BLOCK = 40  # bytes a block of this process, for each pit at a time
SHARE = 0.8  # of the free memory, that may be taken
_SECONDS_A_BLOCK, _SECONDS_A_PAIR = 2.5e-6, 1.4e-7  # of `pit solve` and `pit check`, likewise


@dataclass(frozen=True)
class _Guess:
    """What finding one pit will take, about."""

    pairs: int
    memory: int
    seconds: float


def guess_of(study: Runs) -> _Guess:
    """A first guess by the number of blocks and of their pairs; how long a mine takes depends on
    the mine."""
    blocks, pairs = study.manifest["blocks"], study.pairs.count
    return _Guess(
        pairs, memory_of(blocks, pairs), blocks * _SECONDS_A_BLOCK + pairs * _SECONDS_A_PAIR
    )


def memory_of(blocks: int, pairs: int) -> int:
    """Bytes that finding one pit takes, about."""
    return blocks * (_PER_BLOCK + _OWN_PER_BLOCK) + pairs * _PER_PAIR


def workers_for(study: Runs, wanted: int | None = None) -> int:
    """How many pits are found at a time: as asked or as there are processors, and no more than free
    memory has room for."""
    room = int(SHARE * free_memory() / guess_of(study).memory)
    return max(1, min(wanted or processors(), room))


def run_each(
    study: Runs,
    factors: Sequence[int],
    workers: int | None = None,
    progress: FactorProgress | None = None,
) -> None:
    """Finds the pits that aren't there yet. A `pit` that somebody ends, as the system does where
    memory is short, is started once more, alone, when the others are done.

    Raises
    ------
    PlanError
        As `Runs.run`; what runs then is ended, and what is done is kept.
    KeyboardInterrupt
        The same.
    """
    study.program.restart()
    left = _missing(factors, study.certified, progress)
    if left:
        # nothing is kept before the files are known to be those of the build
        with study.verifying() as before_keeping:
            for factor in _at_once(
                study,
                sorted(left, reverse=True),
                workers_for(study, workers),
                progress,
                before_keeping,
            ):
                _one(study, factor, progress, before_keeping)


def _missing(
    factors: Sequence[int], there: Callable[[int], Verdict | None], progress: FactorProgress | None
) -> list[int]:
    """The factors whose pits aren't there; of the others it tells that they are done."""
    left = [factor for factor in factors if not there(factor)]
    for factor in factors:
        if progress and factor not in left:
            progress(factor, "done", 1.0)
    return left


def run_together(
    study: Runs,
    factors: Sequence[int],
    workers: int | None = None,
    progress: FactorProgress | None = None,
) -> None:
    """Finds the pits that aren't there yet, without certificates: one run of `pit shells` for each
    `MOST_FACTORS` of them. A run that somebody ends, as the system does where memory is short, is
    started once more, one factor at a time.

    Raises
    ------
    PlanError
        As `Runs.run_series`; what runs then is ended, and the runs that are done are kept.
    KeyboardInterrupt
        The same.
    """
    study.program.restart()
    left = _missing(sorted(factors), study.verdict, progress)
    if not left:
        return
    with study.verifying() as before_keeping, ThreadPoolExecutor(1) as pool:
        for at in range(0, len(left), MOST_FACTORS):
            some = left[at : at + MOST_FACTORS]
            try:
                _series(
                    study,
                    pool,
                    some,
                    min(workers_for(study, workers), len(some)),
                    progress,
                    before_keeping,
                )
            except Killed:
                if progress:
                    progress(some[-1], "killed", 0.0)
                _series(study, pool, some, 1, progress, before_keeping)


def _series(
    study: Runs,
    pool: ThreadPoolExecutor,
    factors: Sequence[int],
    workers: int,
    progress: FactorProgress | None,
    before_keeping: Callable[[], None],
) -> None:
    """One run of `pit shells`; what the tables of a series need is read beside it."""
    running = pool.submit(study.run_series, factors, workers, progress, before_keeping)
    try:
        study.read_ahead()
        for done in as_they_end([running]):
            done.result()
    except BaseException:
        study.program.stop()
        study.program.restart()
        raise


def _one(
    study: Runs, factor: int, progress: FactorProgress | None, before_keeping: Callable[[], None]
) -> Verdict:
    """Runs one factor, and tells that it is done."""
    done = study.run(factor, progress, before_keeping)
    if progress:
        progress(factor, "done", 1.0)
    return done


def _at_once(
    study: Runs,
    factors: Sequence[int],
    workers: int,
    progress: FactorProgress | None,
    before_keeping: Callable[[], None],
) -> list[int]:
    """Runs all factors, the dearest first, and returns those whose `pit` was killed."""
    killed: list[int] = []
    with ThreadPoolExecutor(workers) as pool:
        running: dict[Future[Verdict], int] = {
            pool.submit(_one, study, factor, progress, before_keeping): factor for factor in factors
        }
        try:
            study.read_ahead()
            for future in as_they_end(running):
                try:
                    future.result()
                except Killed:
                    killed.append(running[future])
                    if progress:
                        progress(running[future], "killed", 0.0)
        except BaseException:
            study.program.stop()
            for future in running:
                future.cancel()
            raise
    return killed
