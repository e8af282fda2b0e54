"""The commands that a button of the desk stands for. Numbers come as numbers, and names are of
files that are there: no word of the browser's is an option, and no shell reads any of them."""
from __future__ import annotations

import math
import re
from collections.abc import Mapping, Sequence
from pathlib import Path
from typing import Any

from ..base.errors import PlanError
from ..base.typed_numbers import as_number
from ..views.export.kinds import KINDS
from .folder import BUNDLE, DESIGNS, Folder

_Fields = Mapping[str, Any]  # what the browser sends with a button, or what is kept of a run
_VARIED = ("price", "recovery", "mining", "processing", "slope", "discount", "sink")
_CRS = re.compile(r"(EPSG:\d{4,6})?")
_CUTS = {"bench": "--bench", "row": "--row", "column": "--column"}
_AGAIN = ("build", "all")  # runs after which pushbacks and designs are of another model
_Words = list[str]


class Commands:
    """What may be asked for over one study. Of the `runs` before, the latest first, the page keeps
    the pushbacks and the design that were asked for last."""

    def __init__(self, folder: Folder, study: Path, runs: Sequence[_Fields]) -> None:
        self.folder, self.study, self.runs = folder, study, runs
        self.name = study.name

    def steps(self, fields: _Fields) -> list[_Words]:
        """The words of each command after `pitplan`. Raises PlanError where one is none of its."""
        what = fields.get("what")
        try:
            return [[word, self.name, *words] for word, *words in self._words_of(what, fields)]
        except (KeyError, TypeError, ValueError, OverflowError) as error:
            raise PlanError(f"{what}: {error} is missing or wrong") from None

    def _words_of(self, what: Any, fields: _Fields) -> list[_Words]:
        """The same without the study, which comes first in each."""
        pits = [["shells", *_flag("certificates", fields)], self._page(None, None), ["plot"]]
        match what:
            case "build" | "slopes":
                return [[what]]
            case "shells":
                return pits
            case "all":
                return [["build"], *pits]
            case "schedule":
                return [["schedule", *_numbers(fields, "gap", "minutes", "mining_width")]]
            case "risk":
                return [["risk", "--schedule"]]
            case "page":
                page = self._page(self._latest("phases"), self._latest("compare"))
                return [page + _flag("schedule", fields)]
            case "phases":
                cut = ["phases", _shares(fields["factors"]), *_numbers(fields, "mining_width")]
                return [cut, self._page(fields, self._latest("compare"))]
            case "compare":
                kind = "--ids" if fields.get("as") == "ids" else "--surface"
                words = ["compare", kind, self._design(fields), *_factor(fields)]
                return [words, self._page(self._latest("phases"), fields)]
            case "vary":
                return [
                    ["vary", *_changes(fields), *(_flag("schedule", fields) or _factor(fields))]
                ]
            case "plot":
                colour = f"--colour={fields.get('colour') or 'shell'}"
                return [["plot", _CUTS[fields["cut"]], _number(fields["at"]), colour]]
            case "export":
                more = _flag("corners", fields, "--cut-corners") + _flag("schedule", fields)
                return [["export", "--to", *_kinds(fields), *more]]
            case "bundle":
                return [["bundle", self._new_bundle()]]
        raise PlanError(f"the desk has no {what!r}")

    def _design(self, fields: _Fields) -> str:
        """A dropped design, as a planner names it in the desk's folder."""
        path = self.folder.file(str(fields["design"]), DESIGNS, self.study / "designs")
        if not path.is_file():
            raise PlanError(f"there is no design {path.name}", try_this="drop its file here")
        return f"{self.name}/designs/{path.name}"

    def _page(self, cut: _Fields | None, design: _Fields | None) -> _Words:
        """The page of the pits, with pushbacks and a design."""
        cuts = ["--phases", _shares(cut["factors"])] if cut else []
        beside = ["--design", self._design(design), *_factor(design)] if design else []
        return ["page", *cuts, *beside]

    def _latest(self, what: str) -> _Fields | None:
        """What was asked for last, where that is of the model that stands there."""
        done = [run for run in self.runs if run["state"] == "done"]
        built = max((run["number"] for run in done if run["what"] in _AGAIN), default=0)
        newer = (run["asked"] for run in done if run["what"] == what and run["number"] > built)
        return next(newer, None)

    def _new_bundle(self) -> str:
        """A folder for an auditor that isn't there yet."""
        found = (re.match(r"\d{4}", it.name[len(BUNDLE) :]) for it in self.study.glob(f"{BUNDLE}*"))
        last = max((int(number[0]) for number in found if number), default=0)
        return f"{self.name}/{BUNDLE}{last + 1:04d}"


def _changes(fields: _Fields) -> _Words:
    """What-ifs: each a name, and the least and the greatest change."""
    changes = fields["changes"]
    wrong = [name for name, *_ in changes if name not in _VARIED]
    if wrong or not changes:
        said = f"{wrong[0]!r} can't be varied" if wrong else "nothing is changed"
        raise PlanError(said, try_this=", ".join(_VARIED))
    return [f"{name}={_number(least)}..{_number(most)}" for name, least, most in changes]


def _kinds(fields: _Fields) -> _Words:
    """Kinds of files for CAD, GIS, ParaView and spreadsheets, and their coordinate system."""
    kinds = [kind for kind in KINDS if kind in fields["kinds"]]
    crs = str(fields.get("crs") or "")
    if not kinds:
        raise PlanError("no kind of file is chosen", try_this=", ".join(KINDS))
    if not _CRS.fullmatch(crs):
        raise PlanError(f"{crs!r} is no coordinate system", try_this="EPSG:32719")
    return [",".join(kinds), *(["--crs", crs] if crs else [])]


def _flag(key: str, fields: _Fields, option: str = "") -> _Words:
    """An option without a value, where it is asked for."""
    return [option or f"--{key}"] if fields.get(key) is True else []


def _numbers(fields: _Fields, *keys: str) -> _Words:
    """Options with a number, where they are asked for."""
    given = [(key, fields[key]) for key in keys if fields.get(key) is not None]
    return [it for key, value in given for it in (f"--{key}".replace("_", "-"), _number(value))]


def _factor(fields: _Fields) -> _Words:
    """The pit that is meant: at the price as it is, where no other one is named."""
    return ["--factor", _number(fields.get("factor", 1))]


def _number(value: Any) -> str:
    """A number as a command line has it."""
    value = as_number(value)
    is_one = isinstance(value, (int, float)) and not isinstance(value, bool)
    if not is_one or not math.isfinite(value):
        raise PlanError(f"{value!r} is no number", try_this="digits, and a point before decimals")
    return f"{value:.10g}"


def _shares(values: Any) -> str:
    """Factors of the price as a command line has them."""
    if not isinstance(values, list) or not values:
        raise PlanError("no factors are chosen", try_this="one pit at least")
    return ",".join(map(_number, values))
