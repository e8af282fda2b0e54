"""The folder of a study that was built: its paths, its manifest, and the digests of its files."""
from __future__ import annotations

from collections.abc import Callable, Iterator
from concurrent.futures import ThreadPoolExecutor
from contextlib import contextmanager
from dataclasses import fields
from functools import cached_property
from pathlib import Path
from typing import Any

from ..base import kept_json
from ..base.amounts import Priced
from ..base.arrays import Ints
from ..base.digests import sha256_unless_known
from ..base.errors import PlanError
from ..base.next_command import command
from ..model import store
from ..model.classes import Classes, classes_of
from ..model.model import Model
from ..pit.program import Files, Pit
from ..slopes.slope_settings import offsets_listed
from ..slopes.offsets import Offset
from . import edges
from .pair_counts import PairCounts, counted_pairs

_IS_WORDS = kept_json.is_list(kept_json.is_word)
_IS_PAIRS = kept_json.is_one({each.name: kept_json.is_count for each in fields(PairCounts)})
READ = ("mine.blocks", "settings.toml")
_OLDER = "mine.prec"  # what a build of an older version left: a list of all pairs
# What manifest.json and a verdict have at least, and what each may be. A file of the model lies
# beside the manifest, and nowhere else.
_MANIFEST: dict[str, kept_json.Holds] = {
    "key": kept_json.is_digest,
    "files": lambda value: kept_json.is_table(kept_json.is_digest, kept_json.is_file_name)(value)
    and {*READ, "blocks.npz"} <= set(value),
    "blocks": kept_json.is_count,
    "regions": kept_json.is_table(kept_json.is_count),
    "metals": kept_json.is_table(
        kept_json.is_one(
            {
                "grade": kept_json.is_word,
                "grade_unit": kept_json.is_word,
                "price_unit": kept_json.is_word,
            }
        )
    ),
    "currency": kept_json.is_word,
    "source": kept_json.is_none_or(
        kept_json.is_one({"table": kept_json.is_path, "sha256": kept_json.is_digest})
    ),
    "keys": kept_json.is_word,
    "pit": kept_json.is_list(kept_json.is_word),
}


class StudyFolder:
    """The files of a study that was built, with the parameters and attributes of `Study`."""

    def __init__(
        self, folder: str | Path, program: Pit | None = None, named: Path | None = None
    ) -> None:
        self.folder, self.named = Path(folder), named or Path(folder)
        self.where = self.folder / "model"
        if (self.where / _OLDER).exists():
            raise PlanError(
                f"{self.folder} was built by an older version of pitplan: its model has a list of"
                f" predecessors ({_OLDER}), which now follow from the slopes in settings.toml",
                try_this=command("build", self.named),
            )
        try:
            self.manifest = kept_json.read(
                self.where / "manifest.json", _MANIFEST, command("build", self.named)
            )
        except (FileNotFoundError, NotADirectoryError):
            raise PlanError(
                f"{self.folder} is no study, or was never built",
                try_this=command("build", self.named),
            ) from None
        self.key: str = self.manifest["key"]
        self.given = program

    @cached_property
    def program(self) -> Pit:
        return self.given or Pit()

    @cached_property
    def version(self) -> list[str]:
        """What the program that finds and checks pits here says of itself; the build may have had
        another."""
        return self.program.version()

    @property
    def table(self) -> Path | None:
        """The table that the study was built from; None where it was made of no file."""
        source = self.manifest["source"]
        return self.folder / source["table"] if source else None

    @property
    def currency(self) -> str:
        """Of its amounts, as study.toml calls it."""
        return str(self.manifest["currency"])

    @property
    def blocks_file(self) -> Path:
        return self.where / "mine.blocks"

    @property
    def settings_file(self) -> Path:
        return self.where / "settings.toml"

    @property
    def files(self) -> Files:
        return Files(self.blocks_file, self.settings_file)

    @cached_property
    def offsets(self) -> dict[str, list[Offset]]:
        """The offsets of each region of slopes by its name, as the text of settings lists them.

        Raises
        ------
        PlanError
            Where it isn't there.
        Damaged
            Where it lists none, or not those of so many regions.
        """
        names: list[str] = list(self.manifest["regions"])
        try:
            listed = offsets_listed(self.settings_file.read_text("utf-8"))
            if len(listed) != len(names):
                raise ValueError(f"it lists {len(listed)} slopes, and there are {len(names)}")
        except FileNotFoundError:
            raise PlanError(
                f"{self.settings_file} is gone", try_this=command("build", self.named)
            ) from None
        except (ValueError, RecursionError) as error:
            raise kept_json.Damaged(
                f"{self.settings_file} is damaged: {error}", try_this=command("build", self.named)
            ) from None
        return dict(zip(names, listed))

    @cached_property
    def pairs(self) -> PairCounts:
        """The pairs of a block and a predecessor, as the build counted them; of a study whose build
        counted none they are counted now."""
        counted: Any = self.manifest.get("pairs")
        if _IS_PAIRS(counted):
            return PairCounts(**counted)
        return counted_pairs(self.model.index, self.region, list(self.offsets.values()))

    @cached_property
    def model(self) -> Model:
        model = store.load_model(self.where / "blocks.npz")
        self._refuse_other_count(len(model))
        return model

    @cached_property
    def priced(self) -> Priced:
        """What each block brings and costs.

        Raises
        ------
        Damaged
            Where the manifest is of another number of blocks, or of other metals.
        """
        priced = store.load_priced(self.where / "blocks.npz")
        self._refuse_other_count(len(priced.mining))
        if priced.grade.keys() != self.manifest["metals"].keys():
            raise kept_json.Damaged(
                f"{self.where / 'manifest.json'} names other metals than blocks.npz beside it",
                try_this=command("build", self.named),
            )
        return priced

    @cached_property
    def classes(self) -> Classes | None:
        """The resource class of each block; None where the table has no column of it."""
        listed: list[str] = self.manifest.get("waste_classes") or []
        return classes_of(self.model, listed if _IS_WORDS(listed) else [])

    @cached_property
    def region(self) -> Ints:
        """The region of slopes of each block, of shape (blocks,): an index into `offsets`."""
        region = store.load_region(self.where / "blocks.npz")
        self._refuse_other_count(len(region))
        return region

    def _refuse_other_count(self, blocks: int) -> None:
        """Raises Damaged where the model has another number of blocks than its manifest says."""
        if blocks != self.manifest["blocks"]:
            raise kept_json.Damaged(
                f"{self.where / 'manifest.json'} says {self.manifest['blocks']:,} blocks, and"
                f" blocks.npz beside it has {blocks:,}",
                try_this=command("build", self.named),
            )

    @cached_property
    def sides(self) -> list[Ints]:
        """For each region of slopes how high up a block of each column asks for a place beside or
        below the model; see `edges.highest_touching`."""
        return list(edges.highest_touching(self.model, self.offsets.values()))

    def read_ahead(self) -> None:
        """Reads what the tables of a series will need, while its first pits are looked for."""
        self.model, self.priced, self.region, self.sides

    def verify(self) -> None:
        """Takes the digests of the model's files again; of a file that this process has digested
        and that hasn't been touched since, as `digests` tells it, that digest stands.

        Raises
        ------
        PlanError
            Where a file isn't the one that the build made.
        """
        for name, digest in self.manifest["files"].items():
            path = self.where / name
            if not path.is_file() or sha256_unless_known(path) != digest:
                raise PlanError(
                    f"{path} isn't the file that the build made"
                    if path.is_file()
                    else f"{path} is gone",
                    try_this=command("build", self.named),
                )

    def refuse_changed(self, path: Path, keys: str, table: Path) -> None:
        """Refuses a study whose study.toml or table isn't any more what it was built from.

        Parameters
        ----------
        path : Path
            The study.toml.
        keys : str
            Its digest, as `StudyFile.digest`.
        table : Path
            What it names.

        Raises
        ------
        PlanError
            Where one of them has changed.
        """
        build = command("build", self.named)
        if self.manifest["keys"] != keys:
            raise PlanError(f"{path} has changed since the study was built", try_this=build)
        source = self.manifest["source"]
        if source and table.is_file() and sha256_unless_known(table) != source["sha256"]:
            raise PlanError(
                "the table has changed since the study was built", table=table, try_this=build
            )

    @contextmanager
    def verifying(self) -> Iterator[Callable[[], None]]:
        """Takes the digests beside what is done within. The function that it gives waits for them;
        what `verify` raises comes in place of any other error, since it explains them."""
        with ThreadPoolExecutor(1) as pool:
            digests = pool.submit(self.verify)
            try:
                yield digests.result
            except (PlanError, OSError):
                digests.result()
                raise
            digests.result()
