"""A study is built: the files that `pit` reads, made of a model, of economics and of slopes."""
from __future__ import annotations

import hashlib
import json
import os
from collections.abc import Mapping
from dataclasses import asdict, dataclass, field, replace
from pathlib import Path
from typing import Any

import numpy as np

from ..base.amounts import Priced, as_text
from ..base.arrays import Ints
from ..base.digests import sha256
from ..base.files import made_whole, sweep
from ..model import store
from ..model.classes import CLASS
from ..model.economics import Economics
from ..model.model import Model
from ..model.subblocks import coded
from ..pit.program import Pit
from ..slopes.slope_settings import offsets_listed
from ..slopes.slopes import Slopes
from ..slopes.steep_ground import with_air
from .folder import READ
from .pair_counts import counted_pairs

_WAY = ("revenue", "processing")  # the columns of each way to treat a block
_AFTER = ("mining", "tonnes")  # those after them
ROWS = 1 << 16  # that are text at a time


@dataclass(frozen=True)
class Building:
    """What a study is built of.

    Attributes
    ----------
    folder : Path
    model : Model
    economics : Economics
    slopes : Slopes
    program : Pit
    keys : str
        The digest of the text that all this was read from.
    """

    folder: Path
    model: Model
    economics: Economics
    slopes: Slopes
    program: Pit = field(default_factory=Pit)
    keys: str = ""

    def write(self) -> None:
        """Makes the files that `pit` reads. A model that stands there already is replaced once the
        new one is whole. Where the ground is steeper than the slopes, blocks of air are added, as
        `steep_ground.with_air` says.

        Raises
        ------
        PlanError
            Where the model, the economics or the slopes are wrong. The study that was there stays
            as it was.
        """
        model, economics, slopes = self.model, self.economics, self.slopes
        model = with_air(
            coded(model, _codes_of(economics, slopes) | {model.columns.get(CLASS, "")}), slopes
        )
        priced = economics.priced(model)
        if model.has_sub_blocks:
            model = replace(model, fenced=(economics.forbid, priced.forbidden))
        region, names = slopes.region_of(model), slopes.names
        self.folder.mkdir(parents=True, exist_ok=True)
        sweep(self.folder, ".model.*")
        with made_whole(self.folder / "model") as work:
            digest = write_blocks(
                work / "mine.blocks", model, priced, region if len(names) > 1 else None
            )
            (work / "settings.toml").write_text(
                _settings_text(len(priced.ways))
                + slopes.settings(model.grid, _column_of_regions(len(priced.ways)))
            )
            store.save(work / "blocks.npz", model, priced, region)
            files = {
                path.name: digest if path.name == "mine.blocks" else sha256(path)
                for path in sorted(work.iterdir())
            }
            counts = np.bincount(region, minlength=len(names)).tolist()
            listed = offsets_listed((work / "settings.toml").read_text())
            manifest = {
                **self._manifest(model, files, dict(zip(names, counts))),
                "pairs": asdict(counted_pairs(model.index, region, listed)),
            }
            (work / "manifest.json").write_text(json.dumps(manifest, indent=1))

    def _manifest(
        self, model: Model, files: dict[str, str], regions: dict[str, int]
    ) -> dict[str, Any]:
        """What is known of a model: the digests of its files, how many blocks are in each region,
        and what it was made of."""
        economics = self.economics
        return {
            "key": _key_of(files),
            "files": files,
            "blocks": len(model),
            "regions": regions,
            "pit": self.program.version(),
            "keys": self.keys,
            "notes": model.notes,
            "source": {"table": near(model.source, self.folder), "sha256": sha256(model.source)}
            if model.source
            else None,
            "currency": economics.currency,
            "waste_classes": list(economics.waste_classes),
            "metals": {
                m.name: {
                    "grade": m.grade,
                    "grade_unit": m.grade_unit,
                    "price_unit": m.price_unit,
                }
                for m in economics.metals
            },
        }


def _codes_of(economics: Economics, slopes: Slopes) -> set[str]:
    """The columns of codes. A metal's grade is one only where `by` is that column itself."""
    grades = {metal.grade for metal in economics.metals}
    return economics.codes() | (slopes.codes() - grades) | {slopes.by or ""}


def near(table: Path, folder: Path) -> str:
    """How a file in a study's folder names the table: from that folder where it is near, so that
    the two can be moved together and used from anywhere; else by its whole path."""
    found = os.path.relpath(table.resolve(), folder.resolve())
    return found if found.count("..") <= 2 else str(table.resolve())


def _key_of(files: dict[str, str]) -> str:
    """What names a model: the digest of the digests of the two files that `pit` reads."""
    return hashlib.sha256("".join(files[name] for name in READ).encode()).hexdigest()


def _column_of_regions(ways: int) -> int:
    """The column of `mine.blocks` that has regions, of a mine whose blocks may go so many ways."""
    return len(_WAY) * ways + len(_AFTER)


def columns(ways: int) -> list[str]:
    """What the columns of `mine.blocks` are, likewise, in their order."""
    numbers = [""] if ways == 1 else [f" {number}" for number in range(1, ways + 1)]
    return [*(f"{name}{number}" for number in numbers for name in _WAY), *_AFTER]


def _settings_text(ways: int) -> str:
    """Which columns of `mine.blocks` hold prices and tonnes, as `pit` reads it: of one way as of a
    mill, of several a table for each."""
    if ways == 1:
        return "".join(f"{name} = {i}\n" for i, name in enumerate(columns(1)))
    each = (f"{{ revenue = {2 * i}, processing = {2 * i + 1} }}" for i in range(ways))
    after = "".join(f"{name} = {2 * ways + i}\n" for i, name in enumerate(_AFTER))
    return f"ways = [{', '.join(each)}]\n{after}"


def write_blocks(path: Path, model: Model, priced: Priced, region: Ints | None = None) -> str:
    """`.blocks`: number, place, revenue and processing of each way, mining, all exact decimals,
    tonnes, and each block's region of slopes, where there are several. Gives the file's digest."""
    b = model.blocks
    amounts = {
        f"{name} {number}": as_text(getattr(way, name), priced.rounding)
        for number, way in enumerate(priced.ways)
        for name in _WAY
    }
    return write_numbers(
        path,
        {
            "b": np.arange(len(b)),
            "x": b.ix.to_numpy(),
            "y": b.iy.to_numpy(),
            "z": b.iz.to_numpy(),
            **amounts,
            "mining": as_text(priced.mining, priced.rounding),
            "tonnes": np.round(b.tonnes.to_numpy(), 3),
            **({} if region is None else {"region": region}),
        },
    )


def write_numbers(path: Path, columns: Mapping[str, Any]) -> str:
    """Columns of numbers as `pit` reads them: a line for each row, and a blank between two. Gives
    the SHA-256 of the bytes as they were written, so that the file isn't read for it."""
    arrays = [np.asarray(column) for column in columns.values()]
    line, digest = " ".join(["%s"] * len(arrays)) + "\n", hashlib.sha256()
    with open(path, "wb") as file:
        for at in range(0, len(arrays[0]), ROWS):
            rows = zip(*(array[at : at + ROWS].tolist() for array in arrays))
            text = "".join([line % row for row in rows]).encode("ascii")
            digest.update(text)
            file.write(text)
    return digest.hexdigest()
