"""The plan by years that was shown last, as ``out/schedule.json`` tells it: found without a search,
without `pit` and without the model, so that a list of studies can have it."""
from __future__ import annotations

import hashlib
import json
import math
from collections.abc import Mapping
from dataclasses import dataclass
from decimal import Decimal
from pathlib import Path
from typing import TYPE_CHECKING, Any

from ..base import kept_json
from ..base.errors import PlanError
from ..base.next_command import command
from ..study.last_run import now_at
from .search_ends import gap_text

if TYPE_CHECKING:
    from ..study.study import Study

_KINDS: dict[str, kept_json.Holds] = {
    "is_judged": lambda value: isinstance(value, bool),
    "npv": kept_json.is_none_or(kept_json.is_amount),
    "gap_percent": kept_json.is_none_or(kept_json.is_number),
    "basis": kept_json.is_digest,
}


@dataclass(frozen=True)
class _LastPlan:
    """A plan by years.

    Attributes
    ----------
    npv : Decimal or None
        In units of currency; None where a search was ended before it had one.
    gap : float or None
        How far it is below the bound, in percent of that; None where there is no bound.
    is_judged : bool
        Whether `pit schedule` has judged it: not where a search was stopped.
    is_stale : bool
        Whether it is of another model, of other rates or of another [schedule].
    """

    npv: Decimal | None
    gap: float | None
    is_judged: bool
    is_stale: bool

    def words(self, currency: str) -> str:
        """What it is worth and how far it is below its bound, in words."""
        if self.npv is None:
            return "its search was stopped before it had one"
        gap = (
            "no bound yet" if self.gap is None else f"at most {gap_text(self.gap)} below its bound"
        )
        judged = "" if self.is_judged else ", of a search that was stopped"
        stale = ", but of other terms or prices than study.toml has now" if self.is_stale else ""
        return f"net present value {currency} {math.floor(self.npv):,}, {gap}{judged}{stale}"

    def short(self, currency: str) -> str:
        """What it is worth, and how far it is below its bound, or that it is old; and whether its
        search was stopped."""
        worth = "none yet" if self.npv is None else f"{self.npv / 10**6:,.1f} million {currency}"
        gap = "" if self.gap is None else f", at most {gap_text(self.gap)} below its bound"
        stopped = "" if self.is_judged else ", of a search that was stopped"
        return worth + (", of older terms" if self.is_stale else gap) + stopped


def basis_of(model: str, values: Mapping[str, Any], rates: Mapping[str, Any]) -> dict[str, str]:
    """What ``schedule.json`` says of what its plan rests on: a digest of the model's key, the values
    of [schedule], and the rates that [shells] and processes give where it has none of its own."""
    others = {name: rate for name, rate in rates.items() if values.get(name) is None}
    told, own = values.get("process_rates") or {}, rates.get("process_rates") or {}
    if rest := {name: rate for name, rate in own.items() if name not in told}:
        others["process_rates"] = rest
    text = json.dumps([model, _plain(values), _plain(others)], sort_keys=True, default=str)
    return {"basis": hashlib.sha256(text.encode()).hexdigest()}


def _plain(value: Any) -> Any:
    """The same for values that mean the same: 1 and 1.0, and a list that says its last value twice."""
    if isinstance(value, Mapping):
        return {name: _plain(each) for name, each in value.items()}
    if isinstance(value, (list, tuple)):
        found = [_plain(each) for each in value]
        while len(found) > 1 and found[-1] == found[-2]:
            found.pop()
        return found
    return float(value) if isinstance(value, int) and not isinstance(value, bool) else value


def last_plan(
    study: Path, model: str, values: Mapping[str, Any], rates: Mapping[str, Any]
) -> _LastPlan | None:
    """The plan by years that was shown last; None where none was since the model was built.

    Parameters
    ----------
    study : Path
        Its folder.
    model : str
        The key of the model that stands there.
    values, rates : mapping
        As of `Schedule.of`, as study.toml has them now.

    Raises
    ------
    Damaged
        Where ``schedule.json`` isn't one that `pitplan schedule` writes.
    """
    again = f"{command('schedule', study, '--minutes', '0')}, which writes it anew"
    path = study / "out" / "schedule.json"
    if path.is_dir():
        raise kept_json.Damaged(
            f"{path} is a folder, and has to be a file", try_this=f"rm -r {path}"
        )
    try:
        found = kept_json.read(path, _KINDS, again)
    except (FileNotFoundError, NotADirectoryError):
        return None
    return _LastPlan(
        None if found["npv"] is None else Decimal(found["npv"]),
        found["gap_percent"],
        found["is_judged"],
        found["basis"] != basis_of(model, values, rates)["basis"],
    )


def plan_said(
    study: Study, values: Mapping[str, Any], rates: Mapping[str, Any]
) -> list[str] | None:
    """The plan by years of a study in words, as a list of studies has it: a mark ("good", "warn" where
    it is old or its search was stopped, "bad" where its file is damaged, "" while the first search
    runs), in short, and at length; None where there is none. Without values and rates it is of others.
    """
    try:
        found = last_plan(study.folder, study.key, values, rates)
    except PlanError as error:
        return ["bad", "its file is damaged", error.said]
    if found is None:
        far = now_at(study.folder, "schedule")
        return None if far is None else ["", "its search runs", f"its search runs: {far}"]
    is_good = found.is_judged and not found.is_stale
    return ["good" if is_good else "warn", found.short(study.currency), found.words(study.currency)]
