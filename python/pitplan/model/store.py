"""A model as arrays in one file, without pickles: a file that a stranger sends can hold numbers and
words, and no code."""
from __future__ import annotations

import json
import lzma
import re
import tokenize
import unicodedata
import zipfile
import zlib
from collections.abc import Iterator, Mapping, Sequence
from contextlib import contextmanager
from dataclasses import asdict
from pathlib import Path
from typing import Any

import numpy as np
import pandas as pd

from ..base.amounts import Priced, Way, rounding_of
from ..base.arrays import Array, Bools, Floats, Ints
from ..base.errors import PlanError
from ..base.kept_json import words_in
from ..base.units import Units
from ..base.next_command import command
from .classes import CLASS
from .grid import Grid
from .model import Model
from .weights import ORE

# What numpy and zipfile raise of a file that is damaged.
DAMAGED = (
    ValueError,
    KeyError,
    TypeError,
    IndexError,
    EOFError,
    OverflowError,
    RuntimeError,
    zipfile.BadZipFile,
    zlib.error,
    lzma.LZMAError,
    tokenize.TokenError,
)
_COLUMN, _WORDS, _METAL, _GRADE = "column ", "words ", "metal ", "grade "
_NUMBERS = "iufb"  # kinds of columns of numbers
# columns that pricing and `.blocks` ask for, beside those that [economics] names
_ASKED = (
    "ix",
    "iy",
    "iz",
    "row",
    "tonnes",
    "rock",
)


def _words_as_bytes(words: Any) -> Array:
    """Words as one array of UTF-8 bytes, a line each: a fixed width for all would take the longest
    one's for each. An empty cell is a line without words."""
    return np.frombuffer(
        "\n".join("" if word != word else str(word).replace("\n", " ") for word in words).encode(),
        np.uint8,
    )


def _bytes_as_words(data: Array, count: int) -> Array:
    return np.array(bytes(data).decode().split("\n") if count else [], dtype=object)


def _arrays_of(ways: Sequence[Way]) -> dict[str, Array]:
    """The arrays of each way to treat blocks; of the second and further ones with its number."""
    arrays: dict[str, Array] = {}
    for number, way in enumerate(ways):
        before = f"{number} " if number else ""
        arrays |= {f"{before}revenue": way.revenue, f"{before}processing": way.processing}
        arrays |= {f"{before}{_METAL}{name}": units for name, units in way.metal.items()}
    return arrays


def _array(file: Any, name: str, kinds: str, size: int | None = None) -> Any:
    """An array of a file, of shape (size,), whose type is of one of these kinds of NumPy's. Raises
    TypeError where it is another."""
    found = file[name]
    if found.dtype.kind not in kinds or found.ndim != 1 or size not in (None, len(found)):
        raise TypeError(f"{name} is of {found.dtype} and {found.shape}")
    return found


def _ways_in(file: Any, facts: dict[str, Any]) -> tuple[Way, ...]:
    """The ways that `_arrays_of` made arrays of; one mill in files that name none."""
    found, size = [], facts["blocks"]
    for number, (name, feed) in enumerate(facts.get("processes", [["mill", facts["feed"]]])):
        before = f"{number} " if number else ""
        metal = {
            each.removeprefix(before + _METAL): _array(file, each, _NUMBERS, size)
            for each in file.files
            if each.startswith(before + _METAL)
        }
        revenue = _array(file, f"{before}revenue", "i", size)
        processing = _array(file, f"{before}processing", "i", size)
        found.append(Way(str(name), revenue, processing, metal, float(feed)))
    return tuple(found)


def save(path: Path, model: Model, priced: Priced, region: Ints) -> None:
    """Writes a model, what its blocks bring and cost, and the region of slopes of each block."""
    arrays: dict[str, Array] = {
        **_arrays_of(priced.ways),
        "mining": priced.mining,
        "forbidden": priced.forbidden,
        "unfenced": priced.unfenced,
        "row_block": model.row_block,
        "region": region.astype(np.uint16),
    }
    if priced.part is not None:
        arrays["part"] = priced.part
    if model.parts is not None:
        weights = np.zeros(len(model.row_block))
        weights[model.parts.frame["row"].to_numpy()] = model.parts.frame["tonnes"].to_numpy(float)
        arrays["row_tonnes"] = weights
    arrays |= {_GRADE + name: grade for name, grade in priced.grade.items()}
    for name in model.blocks.columns:
        values = model.blocks[name]
        arrays |= (
            {_WORDS + name: _words_as_bytes(values)}
            if values.dtype.kind not in "iufb"
            else {_COLUMN + name: values.to_numpy()}
        )
    g = model.grid
    facts = {
        "origin": g.origin,
        "size": g.size,
        "shape": g.shape,
        "rotation": g.rotation,
        "name": model.name,
        "notes": model.notes,
        "depth": model.depth,
        "fenced": list(model.fenced[0]) if model.fenced else None,
        "columns": model.columns,
        "units": asdict(model.units),
        "order": list(map(str, model.blocks.columns)),
        "blocks": len(model),
        "rounding": str(priced.rounding),
        "feed": priced.ways[0].feed,
        "processes": [[way.name, way.feed] for way in priced.ways],
    }
    np.savez(path, told=np.frombuffer(json.dumps(facts).encode(), np.uint8), **arrays)


@contextmanager
def _open_kept(path: Path) -> Iterator[Any]:
    """The arrays of a file.

    Raises
    ------
    PlanError
        Where they aren't those of `save`, as where one of them would need code to be read.
    """
    try:
        with np.load(path, allow_pickle=False) as file:
            yield file
    except DAMAGED:
        raise PlanError(
            "isn't a model that pitplan wrote",
            table=path,
            try_this=command("build", path.parent.parent),
        ) from None


def _facts_of(file: Any) -> dict[str, Any]:
    facts: dict[str, Any] = json.loads(bytes(file["told"]).decode())
    return facts


def _three(values: list[Any]) -> tuple[Any, Any, Any]:
    x, y, z = values
    return x, y, z


def load_model(path: Path) -> Model:
    """The model that `save` wrote."""
    with _open_kept(path) as file:
        facts = _facts_of(file)
        columns = {
            name: _array(file, _COLUMN + name, _NUMBERS, facts["blocks"])
            if _COLUMN + name in file.files
            else _bytes_as_words(file[_WORDS + name], facts["blocks"])
            for name in facts["order"]
        }
        return _model_from(pd.DataFrame(columns, copy=False), file, facts)


def _refuse_outside(indices: Any, least: int, end: int) -> None:
    """Raises ValueError where these aren't whole numbers from `least` to below `end`."""
    indices = np.asarray(indices)
    if (
        indices.dtype.kind != "i"
        or len(indices)
        and not (least <= indices.min() and indices.max() < end)
    ):
        raise ValueError("an index of a block or of a row is another")


def _model_from(blocks: pd.DataFrame, file: Any, facts: dict[str, Any]) -> Model:
    """The model of a file that `save` wrote, of some of its columns."""
    row_block = _array(file, "row_block", "i")
    for name, end in zip(("ix", "iy", "iz"), _three(facts["shape"])):
        if name in blocks.columns:
            _refuse_outside(blocks[name], 0, end)
    if "row" in blocks.columns:
        _refuse_outside(blocks["row"], -1, len(row_block))
    _refuse_outside(row_block, -1, len(blocks))
    return Model(
        blocks,
        Grid(
            _three(facts["origin"]),
            _three(facts["size"]),
            _three(facts["shape"]),
            facts["rotation"],
        ),
        facts["name"],
        facts["notes"],
        facts["columns"],
        row_block,
        facts["depth"],
        fenced=_fenced_of(file, facts),
        units=Units(**facts.get("units", {})),
        row_tonnes=_row_tonnes_of(file),
    )


def load_lean(path: Path, economics: Mapping[str, Any]) -> Model:
    """The model that `save` wrote, without the columns that pricing by these economics doesn't ask
    for: the planner's names of 10,000,000 blocks take a gigabyte."""
    # as Python reads the plain words of a formula
    said = unicodedata.normalize("NFKC", "\n".join(words_in(economics)))
    with _open_kept(path) as file:
        facts = _facts_of(file)
        columns: dict[str, Any] = {}
        asked = {*_ASKED, facts["columns"].get(ORE)}
        asked |= {facts["columns"].get(CLASS)} if economics.get("waste_classes") else set()
        for name in facts["order"]:
            if (
                name not in asked
                and not re.search(
                    rf"(?<!\w){re.escape(unicodedata.normalize('NFKC', name))}(?!\w)", said
                )
                and not set("'\"\\") & set(name)
            ):
                continue  # a name with quotes may stand there in another spelling
            if _COLUMN + name in file.files:
                columns[name] = _array(file, _COLUMN + name, _NUMBERS, facts["blocks"])
            else:  # each word once, however many blocks have it
                codes, words = pd.factorize(_bytes_as_words(file[_WORDS + name], facts["blocks"]))
                columns[name] = words[codes]
        return _model_from(pd.DataFrame(columns), file, facts)


def _fenced_of(file: Any, facts: dict[str, Any]) -> tuple[Sequence[str], Bools] | None:
    """The formulas of `forbid` and the blocks that they keep, of a model with sub-blocks."""
    if facts.get("fenced") is None:
        return None
    return facts["fenced"], _array(file, "forbidden", "b", facts["blocks"])


def _row_tonnes_of(file: Any) -> Floats | None:
    """What each row of the table weighs, where several are one block."""
    return _array(file, "row_tonnes", _NUMBERS) if "row_tonnes" in file.files else None


def load_priced(path: Path) -> Priced:
    """What the blocks bring and cost; the planner's own columns aren't read."""
    with _open_kept(path) as file:
        facts = _facts_of(file)
        size = facts["blocks"]
        grades = [name for name in file.files if name.startswith(_GRADE)]
        return Priced(
            _ways_in(file, facts),
            _array(file, "mining", "i", size),
            rounding_of(facts["rounding"]),
            {name[len(_GRADE) :]: _array(file, name, _NUMBERS, size) for name in grades},
            _array(file, "forbidden", "b", size),
            _array(file, "unfenced", "i") if "unfenced" in file.files else np.zeros(0, np.int64),
            _array(file, "part", _NUMBERS, size) if "part" in file.files else None,
        )


def load_region(path: Path) -> Ints:
    """The region of slopes of each block: 0 is "default", the others in the order of
    ``study.toml``."""
    with _open_kept(path) as file:
        region: Ints = _array(file, "region", "u").astype(np.int64)
        return region
