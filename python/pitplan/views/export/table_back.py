"""The planner's own table with columns more, byte for byte otherwise."""
from __future__ import annotations

import codecs
import gzip
import io
from collections.abc import Iterable, Iterator, Mapping
from pathlib import Path
from typing import IO, TYPE_CHECKING, cast

import numpy as np

from ...base.arrays import Array, Ints
from ...base.digests import sha256_unless_known
from ...base.errors import PlanError
from ...base.next_command import command
from ...base.files import whole_file
from ...base.units_shown import share_text
from ...table.csv_text import dialect_of, head_of, names_of, open_table, separator_of

if TYPE_CHECKING:
    from ...study.shells import Shells
    from ...study.study import Study

_COLUMN = "pit_shell"
_BLANKS = b" \t\n\r\x0b\x0c"  # what `bytes.strip` takes away
CHUNK_SIZE = 1 << 22  # bytes of a table that are written at a time


def pieces(stream: IO[bytes]) -> Iterator[bytes]:
    """Some megabytes of whole records at a time."""
    while text := stream.read(CHUNK_SIZE) + stream.readline():
        more, is_open = [text], text.count(
            b'"'
        ) % 2 if b'"' in text else 0  # to count takes fifty times as long as to look
        while is_open and (line := stream.readline()):  # a cell in quotes goes on
            more.append(line)
            is_open ^= line.count(b'"') % 2
        yield b"".join(more)


def records(lines: Iterable[bytes]) -> Iterator[bytes]:
    """The records of a table: a line each, or several where a cell in quotes has line ends."""
    held = b""
    for line in lines:
        held += line
        if held.count(b'"') % 2 == 0:
            yield held
            held = b""
    if held:
        yield held


def _plain_ends(text: bytes) -> tuple[bytes, Ints] | None:
    """The line end of a piece that has a record in each line and the same end at each, and the
    places after its lines; None for any other piece."""
    if b'"' in text or not text.endswith(b"\n"):
        return None
    each = np.frombuffer(text, np.uint8)
    places: Ints = np.flatnonzero(each == ord("\n")) + 1
    end = b"\r\n" if b"\r" in text else b"\n"
    if end == b"\r\n" and not (
        np.count_nonzero(each == ord("\r")) == len(places)
        and (each[np.maximum(places - 2, 0)] == ord("\r")).all()
    ):
        return None
    return None if _has_blank_line(text, places) else (end, places)


def _has_blank_line(text: bytes, places: Ints) -> bool:
    """Whether one of the lines of a text is blank; such a line begins with a blank or with its
    end."""
    starts = np.append(0, places[:-1])
    is_blank = np.isin(np.frombuffer(text, np.uint8)[starts], np.frombuffer(_BLANKS, np.uint8))
    return any(
        not text[start:stop].strip()
        for start, stop in zip(starts[is_blank].tolist(), places[is_blank].tolist())
    )


def _with_column(record: bytes, more: bytes) -> bytes:
    """A record with a cell more, its line end as it was."""
    body = record.rstrip(b"\r\n")
    return body + more + record[len(body) :]


def write(shells: Shells, target: Path, decimal: str | None = None) -> int:
    """Writes the study's table again, with a column `pit_shell` after the others: the share of the
    price at which a pit first has the row's block, with the table's own mark of a decimal, and
    nothing where none has it. The way back is by row, never by coordinates.

    Parameters
    ----------
    shells : Shells
    target : Path
        Packed where its name ends in ``.gz``.
    decimal : str, optional
        The table's mark of a decimal. Default: found out by its first lines.

    Returns
    -------
    int
        How many rows have a shell.

    Raises
    ------
    PlanError
        Where the table isn't there any more, or isn't the one that the study was built from.
    """
    study = shells.study
    path, decimal = unchanged_table(study), decimal or ""
    if not decimal:  # where 0,5 is a number, 0.5 is a word, and 1.1 a day of January
        decimal = dialect_of(path, "latin-1").decimal
    shares = [share_text(factor).replace(".", decimal) for factor in shells.factors] + [""]
    block = study.model.row_block
    shell = np.where(block >= 0, shells.shell[np.maximum(block, 0)], len(shells.factors))
    with_columns(path, target, [_COLUMN], [(share,) for share in shares], shell)
    return int(np.count_nonzero(shell < len(shells.factors)))


def write_columns(
    study: Study, columns: Mapping[str, Array], target: Path, encoding: str | None = None
) -> int:
    """Writes the study's table again, with columns after the others.

    Parameters
    ----------
    study : Study
    columns : mapping
        By name, which gets a number after it where the table has such a column: a word or a number
        of each block; nothing is written where it is "" or 0.
    target : Path
        Packed where its name ends in ``.gz``.
    encoding : str, optional
        Of the table, in which the cells are written too. Default: UTF-8.

    Returns
    -------
    int
        How many rows have something.

    Raises
    ------
    PlanError
        As `write`, and where the table's encoding has no such letter.
    """
    path, block = unchanged_table(study), study.model.row_block
    kind, words = np.zeros(len(block), np.int64), list[tuple[str, ...]]([()])
    for values in columns.values():
        each, at = np.unique(values, return_inverse=True)
        kind, old = kind * len(each) + at[np.maximum(block, 0)], words
        words = [(*before, str(word) if word else "") for before in old for word in each.tolist()]
    nothing = ("",) * len(columns)
    kind = np.where(block >= 0, kind, len(words))
    with_columns(path, target, list(columns), [*words, nothing], kind, encoding)
    return int(np.count_nonzero(np.array([any(each) for each in (*words, nothing)])[kind]))


def unchanged_table(study: Study) -> Path:
    """The table that a study was built from.

    Raises
    ------
    PlanError
        Where it isn't there any more, or is another one.
    """
    path = study.table
    if path is None:
        raise PlanError("the study was made of no file", try_this="shells.of_blocks()")
    if not path.is_file() or sha256_unless_known(path) != study.manifest["source"]["sha256"]:
        raise PlanError(
            "isn't the table that the study was built from"
            if path.is_file()
            else "the study's table is gone",
            table=path,
            try_this=command("build", study.named),
        )
    return path


def with_columns(
    path: Path,
    target: Path,
    names: list[str],
    cells: list[tuple[str, ...]],
    kind: Array,
    encoding: str | None = None,
) -> None:
    """Writes a table again with columns more, in its own encoding; `kind` says which of the cells
    each row has, the last ones where it has no more."""
    header = head_of(path, "latin-1", 1)[0]
    mark = separator_of(header)
    there = names_of(header, mark)
    head = "".join(mark + _free_name(there, name) for name in names)
    texts = [_encoded("".join(mark + cell for cell in each), encoding) for each in cells]
    rewrite(path, target, head.encode(), texts, kind)


def _encoded(text: str, encoding: str | None) -> bytes:
    """Cells as a table in some encoding has them. Raises PlanError where it has no such letter."""
    name = codecs.lookup(encoding or "utf-8").name
    try:
        return text.encode("utf-8" if name == "utf-8-sig" else name)  # whose mark begins a file
    except UnicodeEncodeError as error:
        letter = text[error.start]
        raise PlanError(
            f"{letter!r} of {text[1:]!r} can't be written in {encoding}, the table's encoding",
            try_this=f"a name of the process in letters of {encoding}; or the table saved as UTF-8",
        ) from None


def _free_name(names: list[str], wanted: str) -> str:
    """A name, or with a number where the table has such a column."""
    return next(
        name for name in (wanted, *(f"{wanted}_{n}" for n in range(2, 1000))) if name not in names
    )


def rewrite(path: Path, target: Path, head: bytes, cells: list[bytes], shell: Array) -> None:
    """The table with a cell more in each record, written beside `target` and renamed."""
    with whole_file(target) as part, open_table(path) as old, cast(
        IO[bytes], gzip.open(part, "wb", 1) if target.suffix == ".gz" else open(part, "wb")
    ) as new:
        new.write(_with_column(next(records(old)), head))
        row = 0
        for text in pieces(old):
            row += _write_piece(new, text, cells, shell[row:])


def _write_piece(new: IO[bytes], text: bytes, cells: list[bytes], shell: Array) -> int:
    """Writes the records of a piece, each with the cell that `shell` says, the last one where it
    has no more; returns how many they are."""
    plain = _plain_ends(text)
    if plain:  # nearly all of a large table
        new.write(b"".join(with_cells(text, plain, cells, shell)))
        return len(plain[1])
    count = 0
    for count, record in enumerate(records(io.BytesIO(text)), 1):
        cell = cells[shell[count - 1]] if count <= len(shell) else cells[-1]
        new.write(_with_column(record, cell) if record.strip() else record)
    return count


def with_cells(
    text: bytes, plain: tuple[bytes, Ints], cells: list[bytes], shell: Array
) -> Iterator[bytes]:
    """The lines of a plain piece, each with its cell: those that have the same one and stand below
    each other go at once."""
    end, places = plain
    kinds = np.append(
        shell[: len(places)], np.full(max(len(places) - len(shell), 0), len(cells) - 1)
    )
    last = np.append(np.flatnonzero(np.diff(kinds)), len(places) - 1)  # of each run of lines
    ends, start = [cell + end for cell in cells], 0
    for stop, kind in zip(places[last].tolist(), kinds[last].tolist()):
        yield text[start:stop].replace(end, ends[kind])
        start = stop
