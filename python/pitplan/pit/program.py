"""What each run of `pit` gives, which `process` starts: an `Accepted` or a `Stated`, or an error in
the planner's terms. Only `audit/recheck.py` runs it apart."""
from __future__ import annotations

import gzip
import math
import re
import time
from collections.abc import Callable, Iterator, Sequence
from contextlib import nullcontext
from dataclasses import InitVar, dataclass
from functools import cached_property
from pathlib import Path

import numpy as np

from ..base.arrays import Bools, Ints
from ..base.errors import Disagreement, NotAccepted, PlanError
from ..base.units_shown import share_text
from .certificate_lines import PitLines, packed, refuse_other_count
from .process import LineListener, OutOfTime, Process, Word, hint_of, left_until
from .schedule_answer import Scheduled
from .value_answer import Valued

_Progress = Callable[[int, int], None]
_CHUNK_SIZE = 1 << 20  # bytes of a certificate that are read at a time
BEGUN = object()  # what only Pit.check hands to an Accepted, and Pit.series to a Stated
MOST_FACTORS = 64  # of one run of `pit shells`
_FULL_PRICE = 1000  # the factor in thousandths
_ABOVE = 1 << 30  # of a block that no pit of a series has: above all factors


@dataclass(frozen=True)
class Accepted:
    """A pit that `pit check` has accepted. `Pit.check` alone makes one, of the very bytes that were
    checked.

    Attributes
    ----------
    count : int
        How many blocks the pit has.
    worth : str
        What it is worth at its factor, as `pit` spells it.
    blocks : int array of shape (count,)
        The numbers of its blocks, ascending.
    factor : int
        Of the revenue, in thousandths.
    certificate : str
        The sha256 of the certificate.
    size : int
        Of the model, in blocks.
    """

    count: int
    worth: str
    blocks: Ints
    factor: int
    certificate: str
    size: int
    begun: InitVar[object] = None

    def __post_init__(self, begun: object) -> None:
        if begun is not BEGUN:
            raise TypeError("an Accepted is made by Pit.check alone")

    @property
    def mask(self) -> Bools:
        """Whether a block is in the pit, of shape (blocks of the model,)."""
        found = np.zeros(self.size, bool)
        found[self.blocks] = True
        return found


@dataclass(frozen=True)
class Stated:
    """A pit as `pit shells --by-block` states it. `Pit.series` alone makes one, of one run's lines
    and table of blocks.

    No certificate of it is kept. That it is the best pit at its factor rests on the program: it is
    proved to check each pit with a flow before it prints a line.

    Attributes
    ----------
    count : int
        How many blocks the pit has, by the line.
    worth : str
        What it is worth at its factor, by the line.
    factor : int
        Of the revenue, in thousandths.
    mask : bool array of shape (size,)
        Whether a block is in the pit, by the table of blocks.
    """

    count: int
    worth: str
    factor: int
    mask: Bools
    begun: InitVar[object] = None

    def __post_init__(self, begun: object) -> None:
        if begun is not BEGUN:
            raise TypeError("a Stated is made by Pit.series alone")

    @property
    def size(self) -> int:
        """Of the model, in blocks."""
        return len(self.mask)

    @property
    def certificate(self) -> None:
        """There is none."""
        return None


@dataclass(frozen=True)
class Files:
    """The files of a model with a mill or ways: what each block brings and costs, and settings, whose
    slopes say which blocks go before it, or else a list that does."""

    blocks: Path
    settings: Path
    prec: Path | None = None

    def words(self) -> list[Word]:
        listed: list[Word] = ["--prec", self.prec] if self.prec else []
        return [*listed, "--blocks", self.blocks, "--settings", self.settings]


@dataclass(frozen=True)
class Periodic:
    """A model at the full price with what its blocks use, a `.blocks` file, and its periods; and the
    certificate of its best pit, where the bound is to be of that pit's blocks."""

    files: Files
    uses: Path
    periods: Path
    pit: Path | None = None

    def words(self) -> list[Word]:
        return [*self.files.words(), "--uses", self.uses, "--periods", self.periods]

    def within(self) -> list[Word]:
        return ["--pit", self.pit] if self.pit else []


@dataclass(frozen=True)
class Bounded:
    """What `pit bound` says of a certificate. `Pit.bound` alone makes one.

    Attributes
    ----------
    bound : str
        What no feasible schedule is worth more than.
    nodes : int array
        The richest pit of the mine of blocks and periods: the numbers of its nodes, ascending.
    certificate : str
        The sha256 of the certificate.
    """

    bound: str
    nodes: Ints
    certificate: str
    begun: InitVar[object] = None

    def __post_init__(self, begun: object) -> None:
        if begun is not BEGUN:
            raise TypeError("a Bounded is made by Pit.bound alone")


class Pit(Process):
    """The program `pit`, command by command.

    Parameters
    ----------
    program : str or Path, optional
        Where it is. Default: found as `process.found_program` says.
    """

    def version(self) -> list[str]:
        """The lines of ``pit --version``."""
        try:
            return self.run(["--version"]).strip().splitlines()
        except PlanError:
            return ["unknown"]

    def slopes(self, files: Files, out: Path) -> None:
        """Writes the predecessors of each block as a `.prec` file, by the slopes of a model's
        settings: for programs that read no slopes, and for lists that go on after it.

        Raises
        ------
        PlanError
            Where `pit` refuses the slopes, as where there are too many pairs.
        """
        self.run(["slopes", *files.words(), "--pattern", "settings", "--verbose"], out)

    def best(
        self,
        files: Files,
        factor: int,
        certificate: Path,
        progress: _Progress | None = None,
        keeps_certificate: bool = True,
    ) -> Accepted:
        """The best pit at a factor: its certificate is written, then checked as the file that was
        written, and kept packed.

        Parameters
        ----------
        factor : int
            Of the revenue, in thousandths.
        certificate : Path
            The file to write; when it is done, it lies packed at the same name with ``.gz`` added.
        progress : function, optional
            Called with how many blocks of how many are settled.
        keeps_certificate : bool
            Whether the certificate is kept; otherwise only its digest is.

        Raises
        ------
        NotAccepted
            Where there was no certificate, or the check refuses it.
        """
        more: list[Word] = ["--progress"] if progress else []
        said = self.run(
            ["solve", *files.words(), "--factor", factor, "--verbose", *more],
            certificate,
            _settled(progress) if progress else None,
        )
        if said:
            raise NotAccepted(
                f"pit solve at factor {share_text(factor)}: {said.strip()}", try_this=hint_of(said)
            )
        with packed(certificate) if keeps_certificate else nullcontext() as kept:
            found = self.check(files, certificate, kept)
        certificate.unlink()
        return found

    def check(self, files: Files, certificate: Path, kept: gzip.GzipFile | None = None) -> Accepted:
        """Lets `pit check` judge a certificate. The bytes of the file are read once: handed to `pit
        check`, digested, and their PIT lines read, so that what is accepted is what is returned.

        Parameters
        ----------
        certificate : Path
            Packed where its name ends in ``.gz``.
        kept : GzipFile, optional
            The same bytes are written to it.

        Raises
        ------
        NotAccepted
            Where it doesn't answer ACCEPTED.
        """
        lines = PitLines()
        count, worth = self.judged(files, certificate, lines, kept)
        size, factor, blocks = lines.found()
        refuse_other_count(count, blocks)
        return Accepted(count, worth, blocks, factor, lines.digest.hexdigest(), size, BEGUN)

    def judged(
        self,
        files: Files,
        certificate: Path,
        lines: PitLines,
        kept: gzip.GzipFile | None = None,
    ) -> tuple[int, str]:
        """What `pit check` says of a certificate: how many blocks its pit has, and what it is
        worth. `lines` takes in the same bytes.

        Raises
        ------
        NotAccepted
            Where it doesn't answer ACCEPTED.
        """
        line = self.answer_of(["check", *files.words()], certificate, lines, kept)
        found = re.fullmatch(r"ACCEPTED (\d+) (-?[\d.]+)", line)
        if not found:
            raise NotAccepted(f"pit check: {line}", try_this=hint_of(line))
        return int(found[1]), found[2]

    def answer_of(
        self,
        words: Sequence[Word],
        certificate: Path,
        lines: PitLines,
        kept: gzip.GzipFile | None = None,
        seconds: float | None = None,
    ) -> str:
        """What `pit` says of a certificate, which it gets on its standard input. Raises OutOfTime
        where that takes longer than some seconds."""
        ends = math.inf if seconds is None else time.monotonic() + seconds

        def pieces() -> Iterator[bytes]:
            with (
                gzip.open(certificate, "rb")
                if certificate.suffix == ".gz"
                else open(certificate, "rb")
            ) as file:
                while data := file.read(_CHUNK_SIZE):
                    if time.monotonic() >= ends:
                        raise OutOfTime
                    lines.take(data)
                    if kept:
                        kept.write(data)
                    yield data

        return self.run([*words, "--verbose", "/dev/stdin"], fed=pieces(), seconds=seconds).strip()

    def bound(
        self, mine: Periodic, certificate: Path, seconds: float | None = None
    ) -> Bounded | None:
        """Finds the richest pit of a mine's blocks and periods, node t * n + b for block b of n by
        the end of period t, and lets `pit bound` judge it. With a pit these are its blocks,
        numbered by their order.

        Parameters
        ----------
        mine : Periodic
        certificate : Path
            The file to write; when it is done, it lies packed at the same name with ``.gz`` added.
        seconds : float, optional
            That finding and judging it may take: then None is what it gives. Default: as long as
            they take.

        Raises
        ------
        NotAccepted
            Where there was no certificate, or `pit bound` refuses it.
        """
        ends = None if seconds is None else time.monotonic() + seconds
        both = [*mine.words(), *mine.within()]
        if not self.solved([*both, "--factor", _FULL_PRICE], certificate, seconds):
            return None
        lines = PitLines()
        try:
            with packed(certificate) as kept:
                words: list[Word] = ["bound", *both]
                line = self.answer_of(words, certificate, lines, kept, left_until(ends))
        except OutOfTime:
            return None
        found = re.fullmatch(r"BOUND (-?[\d.]+)", line)
        if not found:
            raise NotAccepted(f"pit bound: {line}", try_this=hint_of(line))
        certificate.unlink()
        return Bounded(found[1], lines.numbers(), lines.digest.hexdigest(), BEGUN)

    def solved(
        self, words: Sequence[Word], certificate: Path, seconds: float | None = None
    ) -> bool:
        """Writes what `pit solve` finds; false where that takes longer than some seconds.

        Raises
        ------
        NotAccepted
            Where it finds nothing.
        """
        try:
            said = self.run(["solve", *words, "--verbose"], certificate, seconds=seconds)
        except OutOfTime:
            return False
        if said:
            raise NotAccepted(f"pit solve: {said.strip()}", try_this=hint_of(said))
        return True

    def best_of(self, mine: Periodic, seconds: float | None = None) -> None:
        """Writes the certificate of a mine's best pit, which it names. Raises OutOfTime where that
        takes longer than some seconds."""
        assert mine.pit is not None
        words: list[Word] = [*mine.files.words(), "--factor", _FULL_PRICE]
        if not self.solved(words, mine.pit, seconds):
            raise OutOfTime

    def schedule(self, mine: Periodic, schedule: Path, best: Path | None = None) -> Scheduled:
        """Lets `pit schedule` judge a schedule at the full price, with the certificate of a bound
        beside the bound too.

        Parameters
        ----------
        mine : Periodic
        schedule : Path
            A text with the number of a block, its period and, where that is chosen, its way in each
            line.
        best : Path, optional
            As `pit solve --periods` wrote it.
        """
        priced: list[Word] = ["--factor", _FULL_PRICE]
        if best:
            priced = ["--best", best, *mine.within()]
        said = self.run(["schedule", *mine.words(), *priced, "--verbose", schedule])
        return Scheduled.of_answer(said, hint_of(said))

    def value(self, files: Files, design: Path, certificate: Path) -> Valued:
        """Lets `pit value` judge a design beside the pit of a certificate, at its factor.

        Parameters
        ----------
        design : Path
            A text with the number of a block in each line.
        certificate : Path
            As `pit solve` wrote it.

        Raises
        ------
        NotAccepted
            Where the certificate is refused.
        """
        said = self.run(["value", *files.words(), "--verbose", "--best", certificate, design])
        return Valued.of_answer(said, hint_of(said))

    @cached_property
    def states_blocks(self) -> bool:
        """Whether its `shells` has the option `--by-block`, which older ones haven't."""
        try:
            return "--by-block" in self.run(["shells", "--help"])
        except PlanError:
            return False

    def series(
        self,
        files: Files,
        factors: Sequence[int],
        work: Path,
        workers: int = 1,
        proved: Callable[[int], None] | None = None,
    ) -> list[Stated]:
        """The best pits at up to `MOST_FACTORS` factors, from one run of `pit shells --by-block`.

        Parameters
        ----------
        factors : sequence of int
            In thousandths, ascending.
        work : Path
            A folder for the settings and the table of blocks.
        workers : int
            Factors that are solved at a time.
        proved : function, optional
            Called with each factor whose pit is proved.

        Raises
        ------
        NotAccepted
            Where `pit` finds no pit at one of the factors.
        Disagreement
            Where its lines and its table of blocks aren't of these factors and this model.
        """
        settings, table = work / "series.toml", work / "by_block.csv"
        settings.write_text(files.settings.read_text() + f"factors = {list(factors)}\n")
        words: list[Word] = [
            *Files(files.blocks, settings).words(),
            "--by-block",
            table,
            "--workers",
            workers,
            "--verbose",
        ]
        said = self.run(
            ["shells", *words, *(["--progress"] if proved else [])],
            on_line=_each_proved(proved) if proved else None,
        )
        lines = re.findall(r"^SHELL (\d+) (\d+) (-?[\d.]+)$", said, re.MULTILINE)
        if not lines:
            raise NotAccepted(f"pit shells: {said.strip()}", try_this=hint_of(said))
        if [int(factor) for factor, _, _ in lines] != list(factors) or len(lines) != said.count(
            "\n"
        ):
            raise Disagreement(
                f"pit shells was asked for {len(factors)} factors, and its lines are of others",
                try_this="tell the maintainers",
            )
        shell = _shell_of_blocks(table, factors)
        return [
            Stated(int(count), worth, int(factor), shell <= int(factor), BEGUN)
            for factor, count, worth in lines
        ]


def _settled(progress: _Progress) -> LineListener:
    """Tells of how many blocks `pit solve` says that they are settled."""

    def on_line(line: str) -> None:
        found = re.match(r"progress: (\d+) of (\d+) blocks settled", line)
        if found:
            progress(int(found[1]), int(found[2]))

    return on_line


def _each_proved(proved: Callable[[int], None]) -> LineListener:
    """Tells each factor of which `pit shells` says that its pit is proved."""

    def on_line(line: str) -> None:
        found = re.match(r"progress: factor (\d+): the pit is proved", line)
        if found:
            proved(int(found[1]))

    return on_line


def _shell_of_blocks(table: Path, factors: Sequence[int]) -> Ints:
    """The first factor whose pit has each block, in thousandths, of shape (blocks,); above all
    factors where none has it.

    Raises
    ------
    Disagreement
        Where the table isn't one of all blocks, ascending, with these factors.
    """
    import pandas as pd

    try:
        found = pd.read_csv(
            table,
            dtype={"block": np.int64, "shell": np.float64},
            keep_default_na=False,
            na_values=[""],
            skip_blank_lines=False,
        )
        block, shell = found["block"].to_numpy(), found["shell"].to_numpy()
        is_right = (
            list(found.columns) == ["block", "shell"]
            and (block == np.arange(len(block))).all()
            and np.isin(shell[~np.isnan(shell)], list(factors)).all()
        )
    except (ValueError, KeyError, OverflowError):
        is_right = False
    if not is_right:
        raise Disagreement(
            "the table of blocks that pit shells wrote isn't one of all blocks and these factors",
            try_this="is the disk full? else tell the maintainers",
        )
    first: Ints = np.nan_to_num(shell, nan=float(_ABOVE)).astype(np.int64)
    return first
