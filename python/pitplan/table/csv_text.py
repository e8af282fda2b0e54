"""Tables as text: CSV and CSV.gz with commas, semicolons or tabs, with or without a byte order
mark."""
from __future__ import annotations

import codecs
import csv
import difflib
import gzip
import io
import os
import re
import warnings
import zlib
from collections import Counter
from collections.abc import Collection, Iterator, Mapping, Sequence
from contextlib import suppress
from dataclasses import dataclass
from itertools import zip_longest
from pathlib import Path
from typing import IO, Any, cast

import numpy as np
import pandas as pd

from ..base.arrays import Floats
from ..base.errors import MOST_CELLS, Cell, PlanError, Remedy
from ..base.machine import free_memory
from ..base.typed_numbers import count_of
from ..base.within import is_outside, refuse_outside
from .marks import are_limits

_SEPARATORS = ",;\t"
_THOUSANDS = re.compile(r"[+-]?[1-9]\d{0,2}(([,'\s]\d{3})+(\.\d+)?|([.\s]\d{3})+,\d+)")
_COMMA_DECIMAL = re.compile(r"([+-]?\d*),(\d+(?:[eE][+-]?\d+)?)")
# a whole number with thousands separators, or one with three decimals
_GROUPED = re.compile(r"[+-]?[1-9]\d{0,2}([.,])\d{3}(\1\d{3})*")
# bytes that any table may unpack to, and how many times its size a larger one may
SMALL, _MOST_TIMES = (
    1 << 26,
    200,
)
CHUNK_SIZE = 1 << 20  # bytes of a table that are looked through at a time
_HELD = 3  # bytes of memory that a byte of a table takes while it is read
SAY_ENCODING = (
    'save it as "CSV UTF-8"; or tell init --encoding cp1252, or say encoding = "cp1252" in [model]'
)
_TABLES = (".csv", ".csv.gz", ".txt", ".dat", ".asc")  # how files are called that may be tables
_ALIKE = 0.6  # from 0 to 1: names of files that are less alike aren't offered
_MOST_NAMES = 6  # names of files that are told
_MOST_WORDS = 1000  # different cells that a column of codes has at most; one of numbers with a mark among them has more
_ROWS_OF_HEAD = 2000  # of a table, by which it is told which columns may have coordinates
_EVEN = 0.75  # the share of the steps between centres that are as long as the shortest
NO_WEIGHT = 'its tonnes or density in that cell: a cell that counts as "not estimated" weighs 0, and makes air of rock'
NO_PLACE = "fill its place in, or take the row out"  # what to try where a coordinate is no number
PLAIN = re.compile(r"[+-]?(\d+\.?\d*|\.\d+)([eE][+-]?\d+)?")
_OF_NO_TABLE = ("idna", "punycode", "unicode-escape", "raw-unicode-escape")
_LIKE_A_NUMBER = re.compile(r"[-+]?[\d.,]*\d[\d.,]*(e[-+]?\d+)?", re.IGNORECASE)
_LETTERED = str.maketrans("OolI", "0011")  # letters that are typed for digits


@dataclass(frozen=True)
class Dialect:
    """How a table is written: its separator, the mark of a decimal, its encoding, and how many
    lines stand between the header line and the first block (as the descriptions that some packages
    export)."""

    separator: str = ","
    decimal: str = "."
    encoding: str = "utf-8-sig"
    skip: int = 0


class _Unpacked(io.RawIOBase):
    """The bytes of a packed table, which is refused where it unpacks to far more than a table does,
    or to more than the free memory takes: a few bytes can stand for more than any machine holds."""

    def __init__(self, path: Path) -> None:
        self.path, self.file = path, gzip.open(path, "rb")
        size, memory = _MOST_TIMES * path.stat().st_size, free_memory() // _HELD
        self.left, self.why = (
            max(SMALL, min(size, memory)),
            f"{_MOST_TIMES} times its size"
            if size <= memory
            else f"{memory:,} bytes, which is what the free memory takes",
        )

    def readable(self) -> bool:
        return True

    def readinto(self, buffer: Any) -> int:
        """Unpacks the next bytes.

        Raises
        ------
        PlanError
            Where they are more than `_MOST_TIMES` the packed ones, or the free memory over `_HELD`.
        """
        count = self.file.readinto(buffer)
        self.left -= count
        if self.left < 0:
            raise PlanError(
                f"unpacks to more than {self.why}",
                table=self.path,
                try_this="is it a table? Unpack it, and look",
            )
        return count

    def close(self) -> None:
        self.file.close()
        super().close()


def open_table(path: Path) -> IO[bytes]:
    """The table's bytes, unpacked where its name ends in ``.gz``.

    Raises
    ------
    PlanError
        Where there is no such file, it can't be opened, or it is a pipe.
    """
    refuse_outside(path)
    try:
        if path.is_fifo():
            raise PlanError(
                "is a pipe, and a table is read more than once",
                table=path,
                try_this="a file with what the pipe gives",
            )
        if path.suffix.lower() == ".gz":
            return cast(IO[bytes], io.BufferedReader(_Unpacked(path), 1 << 18))
        return open(path, "rb")
    except FileNotFoundError:
        raise PlanError("there is no such file", table=path, try_this=_tables_near(path)) from None
    except (OSError, ValueError) as error:  # ValueError: a name with a byte of zeros
        raise PlanError(
            f"can't be opened: {getattr(error, 'strerror', None) or error}", table=path
        ) from None


def _tables_in(folder: Path) -> list[str]:
    """The names of a folder's files that may be tables."""
    return [name for name in sorted(os.listdir(folder)) if name.lower().endswith(_TABLES)]


def tables_like(path: Path) -> list[Path]:
    """The tables that may be meant where there is none at a path: one that is called so but for
    large and small letters, those with nearly that name, or one of that name a folder up or
    down."""
    folder = path.parent
    if not folder.is_dir():
        return []
    folded = {name.lower(): name for name in reversed(_tables_in(folder))}
    if path.name.lower() in folded:
        return [folder / folded[path.name.lower()]]
    near = difflib.get_close_matches(path.name.lower(), folded, 3, _ALIKE)
    if near:
        return [folder / folded[name] for name in near]
    around = [
        folder / ".." / path.name,
        *(each.with_name(path.name) for each in folder.glob("*/*.csv")),
    ]
    return [each for each in around if not is_outside(each) and each.is_file()][:1]


def _tables_near(path: Path) -> str:
    """What to try where there is no such table: those that may be meant, or those that there
    are."""
    folder = path.parent
    if not folder.is_dir():
        return f"another folder: there is no {folder}"
    like, names = tables_like(path), _tables_in(folder)
    if like and like[0].name.lower() == path.name.lower() and like[0].parent == folder:
        return f"{like[0]}, which is there: large and small letters count"
    if like and like[0].parent == folder:
        return " or ".join(map(str, like))
    if like:
        return os.path.relpath(like[0])
    if names:
        return f"one of the tables of that folder: {', '.join(names[:_MOST_NAMES])}" + (
            ", .." if len(names) > _MOST_NAMES else ""
        )
    return f"a path to a CSV file: the folder {folder} has none"


def head_of(path: Path, encoding: str = "utf-8-sig", lines: int = 12) -> list[str]:
    """The first lines of a table, without their ends.

    Raises
    ------
    PlanError
        Where the file has no line, is a spreadsheet's own file, or isn't text in `encoding`.
    """
    try:
        with open_table(path) as file:
            raw = [line for line in (file.readline(1 << 20) for _ in range(lines)) if line]
    except (OSError, EOFError, zlib.error) as error:
        raise PlanError(f"can't be read: {error}", table=path) from None
    start = raw[0][:4] if raw else b""
    if start[:2] in (b"\xff\xfe", b"\xfe\xff"):
        raise PlanError("is text in UTF-16", table=path, try_this='save it as "CSV UTF-8"')
    if start in (b"PK\x03\x04", b"\xd0\xcf\x11\xe0"):
        raise PlanError(
            "is a spreadsheet and no text", table=path, try_this='save it as "CSV UTF-8"'
        )
    if b"\0" in b"".join(raw[:1]):
        raise PlanError(
            "has bytes of zeros in its header line: it is text in UTF-16, or no text",
            table=path,
            try_this='save it as "CSV UTF-8"',
        )
    if not _is_encoding(encoding):
        raise PlanError(
            f"{encoding!r} is no encoding that is known",
            table=path,
            try_this='"utf-8", or "cp1252" as Excel saves in western Europe and Latin America',
        )
    try:
        text = [line.decode(encoding).rstrip("\r\n") for line in raw]
    except UnicodeDecodeError:
        raise _no_text(path, encoding) from None
    if not text or not text[0].strip():
        raise PlanError("has no header line", table=path)
    if "\r" in text[0]:
        raise PlanError(
            "a carriage return stands within the header line",
            table=path,
            row=-1,
            try_this='save it as "CSV UTF-8", in which lines end as on Windows or Unix',
        )
    if text[0].count('"') % 2:
        raise PlanError(
            "a name in the header line goes on in the next line",
            table=path,
            row=-1,
            try_this="names of columns in one line each",
        )
    return text


def _is_encoding(name: str) -> bool:
    """Whether Python knows an encoding of this name that tables may be in."""
    try:
        return codecs.lookup(name).name not in _OF_NO_TABLE and bool("x".encode(name))
    except (LookupError, ValueError):  # none, one of bytes, or a name with odd characters
        return False


def _no_text(path: Path, encoding: str) -> PlanError:
    """The error of a table that isn't text in an encoding: the first row that isn't, and the byte
    there."""
    called = encoding.replace("utf-8-sig", "UTF-8")
    with suppress(OSError, EOFError, zlib.error), open_table(path) as file:
        for row, line in enumerate(file, -1):
            try:
                line.decode(encoding)
            except UnicodeDecodeError as error:
                return PlanError(
                    (
                        f"isn't text in {called}: the byte {line[error.start]:#04x} stands"
                        f" after {line[:error.start].decode(encoding, 'replace')[-20:]!r}"
                    ),
                    table=path,
                    row=row,
                    try_this=SAY_ENCODING,
                )
    return PlanError(f"isn't text in {called}", table=path, try_this=SAY_ENCODING)


def separator_of(header: str) -> str:
    """The separator that a header line has most often."""
    return max(_SEPARATORS, key=header.count)


def names_of(header: str, separator: str) -> list[str]:
    """The names of the columns, without blanks and quotes around them; those without a name are
    called by number. Raises PlanError where that line is none."""
    try:
        names = [
            name.strip()
            for name in next(csv.reader([header], delimiter=separator, skipinitialspace=True))
        ]
    except csv.Error as error:  # a name of more than 128 kB
        raise PlanError(f"the header line is none: {error}", row=-1) from None
    while names and not names[-1]:
        names.pop()  # a separator at the end of the header line
    return [name or f"column {i + 1}" for i, name in enumerate(names)]


def dialect_of(path: Path, encoding: str = "utf-8-sig") -> Dialect:
    """Looks at the first lines of a table and says how it is written.

    Lines below the header whose cells are words where later lines have numbers are counted as
    descriptions.
    """
    head = head_of(path, encoding)
    separator = separator_of(head[0])
    rows = [line.split(separator) for line in head[1:] if line.strip()]
    cells_of = [cell.strip() for row in rows for cell in row]
    with_comma = [cell for cell in cells_of if _COMMA_DECIMAL.fullmatch(cell)]
    has_points = any(
        "." in cell and PLAIN.fullmatch(cell) and not _GROUPED.fullmatch(cell) for cell in cells_of
    )
    # else 14,100 is whole beside 0.45
    commas = (
        separator != ","
        and with_comma
        and not (has_points and all(map(_GROUPED.fullmatch, with_comma)))
    )
    decimal = "," if commas else "."
    counts = [
        sum(bool(PLAIN.fullmatch(cell.strip().replace(decimal, "."))) for cell in row)
        for row in rows
    ]
    skip = next((i for i, n in enumerate(counts) if n >= 3), 0)
    return Dialect(separator, decimal, encoding, skip)


def _first_cells(path: Path, dialect: Dialect) -> dict[str, list[str]]:
    """The cells of each column in a table's first rows, with a point in decimals."""
    first, *rows = head_of(path, dialect.encoding, 1 + dialect.skip + _ROWS_OF_HEAD)
    lines = filter(str.strip, rows[dialect.skip :])
    names = names_of(first, dialect.separator)
    with suppress(csv.Error):  # a cell of more than 128 kB
        columns = zip_longest(*csv.reader(lines, delimiter=dialect.separator), fillvalue="")
        return {
            name: [cell.strip().replace(dialect.decimal, ".") for cell in column]
            for name, column in zip(names, columns)
        }
    return {}


def with_numbers(path: Path, dialect: Dialect) -> list[str]:
    """The columns that have something like a number in one of a table's first rows."""
    cells = _first_cells(path, dialect)
    return [name for name, column in cells.items() if any(map(_LIKE_A_NUMBER.fullmatch, column))]


def numbers_and_grids(path: Path, dialect: Dialect) -> dict[str, bool]:
    """The columns that have a number in each of a table's first rows, and whether these are spaced
    as centres of blocks are, along the axes of a model that isn't turned."""
    return {
        name: _is_of_a_grid(np.array(column, float))
        for name, column in _first_cells(path, dialect).items()
        if all(map(PLAIN.fullmatch, column))
    }


def _is_of_a_grid(values: Floats) -> bool:
    """Whether each of some numbers comes twice and more, and most that follow each other are as far
    apart as the nearest two are; so is one number alone, as of a level."""
    different = np.unique(values)
    steps = np.diff(different)
    is_even = not len(steps) or (steps <= 1.02 * steps.min()).mean() > _EVEN
    return bool(is_even and len(different) <= max(len(values) / 2, 1))


def dialect_beside(path: Path, encoding: str | None) -> Dialect:
    """How a table that belongs to a table of blocks is written: in UTF-8 where it is that, or else
    in the encoding of the table of blocks, since one program saved both."""
    if encoding:
        try:
            with suppress(OSError, EOFError, zlib.error), open_table(path) as file:
                for line in file:
                    line.decode()
        except UnicodeDecodeError:
            return dialect_of(path, encoding)
    return dialect_of(path)


def read_frame(path: Path, dialect: Dialect, words: Collection[str] = ()) -> pd.DataFrame:
    """A table as it stands: a row for each line that isn't blank, under the names of the header
    line.

    Parameters
    ----------
    path : Path
        CSV, or CSV.gz.
    dialect : Dialect
        How it is written.
    words : collection of str
        Columns that are read as text, as block ids and rock codes: 007 stays 007.

    Returns
    -------
    DataFrame
        Its index is the row below the header, counted from 0, blank lines counted too: index 3 is
        row 5 of a spreadsheet.

    Raises
    ------
    PlanError
        Where the file isn't such a table: with the row, where there is one.
    """
    names = names_of(head_of(path, dialect.encoding, 1)[0], dialect.separator)
    refuse_doubled(names, path)
    _refuse_returns(path, dialect)
    frame = _parsed(path, dialect, names, words)
    frame.index = pd.RangeIndex(dialect.skip, dialect.skip + len(frame))
    if dialect.decimal == ",":
        _points_for_commas(frame, words, path)
    blank = frame[next((name for name in names if name not in words), names[0])].isna().to_numpy()
    if blank.any():
        some = frame[blank]
        blank[blank] = (some.isna() | some.eq("")).all(axis=1).to_numpy()
        frame = frame[~blank]
    if not len(frame):
        raise PlanError("has no rows below its header line", table=path)
    return frame


def _refuse_returns(path: Path, dialect: Dialect) -> None:
    """Refuses a carriage return within a row and outside quotes: half of the readers begin a row
    there, and the others don't."""
    try:
        with open_table(path) as file:
            if not has_lone_return(file):
                return
        with open_table(path) as file, io.TextIOWrapper(
            file, dialect.encoding, newline="\n"
        ) as text:
            _tell_return(text, path, dialect.separator)
    except UnicodeDecodeError:
        raise _no_text(path, dialect.encoding) from None
    except (EOFError, OSError, zlib.error) as error:
        raise PlanError(f"can't be read: {error}", table=path) from None


def has_lone_return(file: IO[bytes]) -> bool:
    """Whether a carriage return stands before something else than the end of a line."""
    left = b""
    while piece := file.read(CHUNK_SIZE):
        piece = left + piece
        if piece.count(b"\r") > piece.count(b"\r\n") + piece.endswith(b"\r"):
            return True
        left = piece[-1:] if piece.endswith(b"\r") else b""
    return False


def _tell_return(text: IO[str], path: Path, separator: str) -> None:
    """Raises the error of the first row with a carriage return outside quotes; nothing where all
    stand in quotes, or at the ends of lines."""
    last = ""

    def lines() -> Iterator[str]:
        nonlocal last
        for last in text:
            yield last

    row = -2
    try:
        for row, _ in enumerate(
            csv.reader(lines(), delimiter=separator, skipinitialspace=True), -1
        ):
            pass
    except csv.Error as error:
        if "new-line" in str(error):  # of a cell of more than 128 kB it says something else
            before = last.rstrip("\r\n").partition("\r")[0]
            raise PlanError(
                f"a carriage return stands within the row, after {before[-20:]!r}",
                table=path,
                row=row + 1,
                try_this=(
                    "take it out; or quotes around that cell, which a spreadsheet sets by"
                    " itself where it saves CSV"
                ),
            ) from None


def rows_about(path: Path, row: str, encoding: str, most: int) -> list[tuple[int, list[str]]]:
    """The header of a table and the rows about one, by its number as a spreadsheet counts them, each
    with at most so many cells. Raises PlanError where that is no number."""
    middle, found = count_of(row, "the row"), []
    dialect = dialect_of(path, encoding)
    with open_table(path) as file:
        for number, line in zip(range(1, middle + 2), file):
            if number == 1 or number >= middle - 1:
                text = line.decode(dialect.encoding, "replace").rstrip("\r\n")
                found.append((number, _cells_of(text, dialect.separator)[:most]))
    return found


def _cells_of(text: str, separator: str) -> list[str]:
    """The cells of a line, of which one in quotes may have the separator; one that is no record is cut
    at each."""
    with suppress(csv.Error):
        return next(csv.reader([text], delimiter=separator, skipinitialspace=True), [])
    return text.split(separator)


def refuse_doubled(names: Sequence[str], path: object) -> None:
    """Refuses a name that two columns have. Raises PlanError that names it."""
    doubled = next((name for name, count in Counter(names).items() if count > 1), None)
    if doubled is not None:
        raise PlanError(
            f"two columns are called {doubled}", table=path, try_this="another name for one of them"
        )


def _points_for_commas(frame: pd.DataFrame, words: Collection[str], path: Path) -> None:
    """Makes 2.438 of the cell 2,438 in columns that pandas left as words, since a mark as "-" or
    "<0,01", or a point in place of a comma, stands among the numbers. The marks stay as they
    are."""
    for name in frame.columns:
        if name in words or frame[name].dtype.kind in "iufb":
            continue
        values = frame[name]
        _refuse_points(values, path)
        swapped = (
            values.astype(object)
            .where(values.map(type) == str)
            .str.replace(f"^{_COMMA_DECIMAL.pattern}$", r"\1.\2", regex=True)
        )
        spelt = swapped.where(swapped.notna(), values)
        found = pd.to_numeric(spelt, errors="coerce")
        # 0,15 and 0.15 are numbers both
        frame[name] = found if found.notna().equals(spelt.notna()) else spelt


def _refuse_points(values: pd.Series, path: Path) -> None:
    """Refuses points in a column of numbers of a table whose decimals have a comma, where 8.200 may
    be eight thousand or eight. Where another cell, as 0.15, can't be a whole number, they are
    decimals."""
    filled = values[values.notna() & ~are_limits(values)]
    text = filled.astype(str).str.strip()
    is_plain, is_text = text.str.fullmatch(PLAIN.pattern), filled.map(type) == str
    pointed = is_plain & is_text & text.str.contains(".", regex=False)
    if (
        pointed.any()
        and text[pointed].str.fullmatch(_GROUPED.pattern).all()
        and (is_plain | text.str.fullmatch(_COMMA_DECIMAL.pattern)).mean() > 0.5
    ):
        row = pointed.idxmax()
        raise PlanError(
            f"the cell is {text[row]!r}, with a point, and decimals of this table have a comma",
            table=path,
            row=int(row),
            column=values.name,
            try_this="take the thousands separators out; or a comma in its place, if it is a decimal",
        )


def _parsed(
    path: Path, dialect: Dialect, names: Sequence[str], words: Collection[str]
) -> pd.DataFrame:
    """The cells of a table by pandas; a row with more cells than the header line is told, never cut
    off."""
    given: dict[str, Any] = dict(
        sep=dialect.separator,
        decimal=dialect.decimal,
        encoding=dialect.encoding,
        header=None,
        skiprows=1 + dialect.skip,
        skipinitialspace=True,
        keep_default_na=False,
        na_values={name: [""] for name in ("", *names) if name not in words},
        skip_blank_lines=False,
        index_col=False,
        dtype={name: str for name in words if name in names},
    )
    try:
        with warnings.catch_warnings():
            warnings.simplefilter("ignore", pd.errors.DtypeWarning)  # number_column tells the cell
            warnings.simplefilter("error", pd.errors.ParserWarning)
            try:
                with open_table(path) as file:
                    return _of_one_kind(
                        pd.read_csv(file, names=list(names), **given), path, names, given
                    )
            except pd.errors.ParserWarning:
                with open_table(path) as file:
                    return _of_one_kind(
                        _without_ends(
                            pd.read_csv(file, names=[*names, ""], **given),
                            names,
                            path,
                            dialect.skip,
                        ),
                        path,
                        [*names, ""],
                        given,
                    )
    except pd.errors.ParserWarning:
        raise _too_long(path, dialect, len(names)) from None
    except pd.errors.EmptyDataError:
        raise PlanError("has no rows below its header line", table=path) from None
    except pd.errors.ParserError as error:
        raise _uneven(path, str(error), len(names)) from None
    except UnicodeDecodeError:
        raise _no_text(path, dialect.encoding) from None
    except (EOFError, OSError, zlib.error) as error:
        raise PlanError(f"can't be read: {error}", table=path) from None


def _of_one_kind(
    frame: pd.DataFrame, path: Path, names: Sequence[str], options: Mapping[str, Any]
) -> pd.DataFrame:
    """The table with each column of few words as text throughout. pandas reads a large table piece
    by piece: where a piece has numbers alone, 007 is 7 there, and another code than the 007 of a
    piece that has a word too. And of the words TRUE and FALSE, in any spelling, it makes what is no
    word."""
    mixed = [
        name
        for name in frame.columns
        if frame[name].dtype.kind in "bO"
        and pd.api.types.infer_dtype(frame[name], skipna=True).startswith(("mixed", "boolean"))
        and frame[name].nunique() <= _MOST_WORDS
    ]
    if mixed:
        with open_table(path) as file:
            text = pd.read_csv(
                file,
                names=list(names),
                **{
                    **options,
                    "usecols": mixed,
                    "dtype": str,
                    "na_values": {name: [""] for name in mixed},
                },
            )
        frame[mixed] = text[mixed]
    return frame


def _too_long(path: Path, dialect: Dialect, width: int) -> PlanError:
    """The error of the first row that has more cells than the header line."""
    with suppress(csv.Error), open_table(path) as file, io.TextIOWrapper(
        file, dialect.encoding, newline=""
    ) as text:  # a cell of more than 128 kB
        for row, cells_of in enumerate(csv.reader(text, delimiter=dialect.separator), -1):
            if row >= dialect.skip and len(cells_of) > width:
                return PlanError(
                    f"has {len(cells_of)} cells, and the header line {width}",
                    table=path,
                    row=row,
                    try_this="is there a separator within a number or a name?",
                )
    return PlanError("has rows with more cells than the header line", table=path)


def said_of_skipped(skip: int) -> str:
    """What is said of lines between the header line and the first block."""
    return (
        f"{skip} lines below the header hold no blocks"
        if skip > 1
        else "1 line below the header holds no block"
    )


def _without_ends(frame: pd.DataFrame, names: Sequence[str], path: Path, skip: int) -> pd.DataFrame:
    """The table without the empty column that a separator at the end of each row makes; `skip`
    lines below the header hold no blocks."""
    more = frame[""].notna().to_numpy()
    if more.any():
        row = int(np.argmax(more))
        raise PlanError(
            f"has {len(names) + 1} cells, and the header line {len(names)}",
            table=path,
            row=row + skip,
            try_this="is there a separator within a number or a name?",
        )
    kept: pd.DataFrame = frame[list(names)]
    return kept


def _uneven(path: Path, said: str, width: int) -> PlanError:
    """pandas' words for a row that is too long, in the planner's."""
    found = re.search(r"Expected \d+ fields in line (\d+), saw (\d+)", said)
    if not found:
        return PlanError(f"isn't a table: {said.strip()}", table=path)
    return PlanError(
        f"has {found[2]} cells, and the header line {width}",
        table=path,
        row=int(found[1]) - 2,
        try_this="is there a separator within a number or a name?",
    )


def number_column(
    values: pd.Series, table: object, absent: Collection[str] = (), hint: str | None = None
) -> Floats:
    """A column as numbers.

    Parameters
    ----------
    values : Series
        Its name is the column, its index the row below the header line.
    absent : collection of str
        Cells that stand for "not estimated", as "-99", "-" or "" for an empty one; they count as 0.
    hint : str, optional
        What to try where a cell is empty, or a word, of a column in which none may be absent.

    Returns
    -------
    float array of shape (len(values),)

    Raises
    ------
    PlanError
        At the first cell that is no number or not finite: with its row, what stands there, and what
        to try.
    """
    if values.dtype.kind not in "iuf":
        values = _numbers_of(values, table, absent, hint)
    found: Floats = values.to_numpy(dtype=float, copy=True)
    marks = numbers_among(absent)
    if marks:
        found[np.isin(found, marks)] = 0.0
    if "" in absent:
        found[np.isnan(found)] = 0.0
    bad = ~np.isfinite(found)
    if bad.any():
        row = int(np.argmax(bad))
        what = "empty" if np.isnan(found[row]) else "not finite"
        raise PlanError(
            f"{_cells(int(bad.sum()))} {what}",
            table=table,
            row=int(values.index[row]),
            column=values.name,
            try_this=hint or (not_estimated("", absent) if what == "empty" else None),
        ).with_cells(
            Cell(int(values.index[i]), "" if np.isnan(found[i]) else f"{found[i]:g}")
            for i in np.flatnonzero(bad)[1:MOST_CELLS]
        )
    return found


def numbers_among(absent: Collection[str]) -> list[float]:
    """The cells that stand for "not estimated" and are numbers, with a point or a comma in
    decimals.

    >>> numbers_among(["-99,5", "-99", "-", ""])
    [-99.5, -99.0]
    """
    spelt = [_COMMA_DECIMAL.sub(r"\1.\2", mark.strip()) for mark in absent]
    return [float(mark) for mark in spelt if PLAIN.fullmatch(mark)]


def _cells(n: int) -> str:
    return "the cell is" if n == 1 else f"{n:,} cells are"


def _numbers_of(
    values: pd.Series, table: object, absent: Collection[str], hint: str | None = None
) -> pd.Series:
    """The numbers that a column of words spells; the first word that spells none is told."""
    empty = values.isna()
    text = values.astype(str).str.strip().mask(empty, "")
    known = text.isin([mark.strip() for mark in absent])
    found = pd.to_numeric(text.mask(known, "0"), errors="coerce")
    bad = found.isna().to_numpy()
    if bad.any():
        row = int(np.argmax(bad))
        cell = str(text.iloc[row])
        n = int(bad.sum())
        what = "the cell is no number" if n == 1 else f"{n:,} cells are no numbers, the first is"
        there = f" {cell!r}" if cell else " empty"
        raise PlanError(
            what + (": it is" if n == 1 else "") + there,
            table=table,
            row=int(values.index[row]),
            column=values.name,
            try_this=_remedy(
                cell, hint, bool(text[~bad].str.contains(".", regex=False).any()), absent
            ),
        ).with_cells(
            Cell(int(values.index[i]), str(text.iloc[i])) for i in np.flatnonzero(bad)[1:MOST_CELLS]
        )
    return found.astype(float)


def not_estimated(mark: str, absent: Collection[str]) -> Remedy:
    """The remedy by which a mark stands for "not estimated", beside those that do already.

    >>> str(not_estimated("-", ["-99"]))
    'absent = ["-99", "-"] in [model], if that stands for "not estimated"'
    """
    what = "that" if mark else "an empty cell"
    when = f'if {what} stands for "not estimated"'
    return Remedy(("model", "absent"), [mark], when, adds=True, has=tuple(absent))


def _digits_of(cell: str) -> str | None:
    """The number that a cell spells with letters that look like digits; None where it is none such.

    >>> _digits_of("0.35O"), _digits_of("l2"), _digits_of("OIL"), _digits_of("0.35")
    ('0.350', '12', None, None)
    """
    found = cell.translate(_LETTERED)
    is_one = found != cell and re.search(r"\d", cell) is not None
    spelt = PLAIN.fullmatch(found) or _COMMA_DECIMAL.fullmatch(found)
    return found if is_one and spelt else None


def _remedy(
    cell: str, hint: str | None, has_points: bool, absent: Collection[str] = ()
) -> str | Remedy:
    """What to try where a cell is no number; `hint` where none may be absent. Whether others of the
    column have points: then it is this cell that is written otherwise."""
    digits = _digits_of(cell)
    if digits is not None:
        other = "" if hint else f"; or {not_estimated(cell, absent)}"
        return f"{digits} in that cell, if a letter stands for a digit{other}"
    if _COMMA_DECIMAL.fullmatch(cell) and (not _GROUPED.fullmatch(cell) or cell.startswith("0")):
        if has_points:
            return f"{cell.replace(',', '.')} in that cell, as the others of the column have it"
        return Remedy(("model", "decimal"), ",")
    if _THOUSANDS.fullmatch(cell):
        return "take the thousands separators out"
    return hint or not_estimated(cell, absent)
