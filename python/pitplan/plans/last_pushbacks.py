"""Which pushbacks a study's last `phases` cut: those that a report and a page show too."""
from __future__ import annotations

import hashlib
from pathlib import Path
from typing import TYPE_CHECKING, Any

from ..base import kept_json
from ..base.errors import PlanError
from ..base.files import write_json
from ..base.next_command import command
from ..base.units_shown import share_text
from .phases import Phases
from .widening import Widening

if TYPE_CHECKING:
    from ..study.shells import Shells

_NAME = "phases.json"  # in the study's `out`, beside the tables of these pushbacks
_KINDS = {
    "factors": kept_json.is_list(kept_json.is_factor),
    "widen": kept_json.is_none_or(lambda value: kept_json.is_number(value) and value > 0),
    "blocks": kept_json.is_digest,
}


def _digest_of(phases: Phases) -> str:
    """sha256 of the pushback of each block."""
    return hashlib.sha256(phases.pushback.astype("<i2").tobytes()).hexdigest()


def keep(phases: Phases, folder: Path) -> None:
    """Notes which pushbacks these are: their factors, and to what they were widened."""
    kept = {
        "factors": list(phases.shells.factors),
        "widen": None if phases.mines is None else phases.mining_width,
        "blocks": _digest_of(phases),
    }
    write_json(folder / _NAME, kept)


def kept_in(folder: Path) -> dict[str, Any] | None:
    """What `keep` noted in a study's `out`; None where it noted nothing.

    Raises
    ------
    Damaged
        Where it isn't one of `keep`'s.
    """
    try:
        return kept_json.read(folder / _NAME, _KINDS, "pitplan phases once more")
    except (FileNotFoundError, NotADirectoryError):
        return None


def again(shells: Shells) -> tuple[Phases, str]:
    """The pushbacks of a series of pits, widened where the study's last `phases` widened these; and
    which set that is, in words.

    Raises
    ------
    PlanError
        Where they come out otherwise than they did then.
    """
    kept = kept_in(shells.study.folder / "out")
    if kept is None or kept["widen"] is None:
        found = Phases(shells)
        return found, f"pushbacks {found.set_name}"
    named = ",".join(map(share_text, kept["factors"]))
    if kept["factors"] != list(shells.factors):
        found = Phases(shells)
        return found, f"pushbacks {found.set_name}: those that were widened last end at {named}"
    found = Phases(shells, kept["widen"], Widening(shells, kept["widen"]).mines)
    if _digest_of(found) != kept["blocks"]:
        raise PlanError(
            f"the pushbacks at {named} aren't those that were widened to {kept['widen']:g} last",
            try_this=f"{command('phases', shells.study.named, named)} --widen {kept['widen']:g}",
        )
    return found, f"pushbacks {found.set_name}, as phases widened them last"
