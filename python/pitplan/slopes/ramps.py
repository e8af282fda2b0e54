"""What a ramp takes from a wall: overall angles from the angles between its ramps.

A wall of some height whose rock stands at an angle b between ramps, berms counted in, is height /
tan b wide in plan. Each time that a ramp passes it comes its width, so the overall angle is
atan(height / (height / tan b + passes * width)) (Hustrulid, Kuchta and Martin, Open Pit Mine
Planning and Design, on overall slope angles).
"""
from __future__ import annotations

import math
from collections.abc import Mapping
from dataclasses import dataclass
from typing import Any

from ..base.errors import KeyPath, PlanError, Remedy
from ..base.units_shown import length_text
from ..table.value_kinds import has_ramp
from .offsets import Angles

_STEEPEST_GRADE = 0.3  # of a ramp: what is more was told in percent


@dataclass(frozen=True)
class Ramp:
    """The ramp in a wall.

    Attributes
    ----------
    width : float
        With its berm and ditch; lengths are in the unit of the coordinates.
    grade : float
        How far it rises for each unit along.
    height : float
        Of the wall.
    turns : float or None
        How often it passes the wall over this height.
    around : float or None
        How long a turn is in plan, where `turns` isn't told: it rises by `grade` of that.
    """

    width: float
    grade: float
    height: float
    turns: float | None = None
    around: float | None = None

    @property
    def passes(self) -> float:
        """How often the ramp passes the wall."""
        return (
            self.turns
            if self.turns is not None
            else self.height / (self.grade * (self.around or math.inf))
        )

    def overall(self, angle: float) -> float:
        """The overall angle of a wall whose rock stands at an angle between its ramps, in degrees.

        >>> round(Ramp(25, 0.1, 300, turns=2).overall(45), 2)
        40.6
        """
        away = self.height / math.tan(math.radians(angle)) + self.passes * self.width
        return math.degrees(math.atan2(self.height, away))

    def of_angles(self, angles: Angles) -> Angles:
        """The overall angles of angles, or of pairs of bearing and angle."""
        if isinstance(angles, (int, float)):
            return self.overall(angles)
        return [(bearing, self.overall(angle)) for bearing, angle in angles]

    def spelled(self, angles: Angles, unit: str = "m") -> str:
        """Which overall angles come of which, and why; lengths in a unit."""
        each = (
            [angles] if isinstance(angles, (int, float)) else sorted({angle for _, angle in angles})
        )
        made = ", ".join(f"{self.overall(angle):.1f}" for angle in each)
        asked, plan = ", ".join(f"{angle:g}" for angle in each), [
            f"{self.height / math.tan(math.radians(angle)):,.1f}" for angle in each
        ]
        of_turn = (
            ""
            if self.around is None
            else f", as a turn of {length_text(self.around)} {unit} rises by {length_text(self.grade * self.around)}"
        )
        return (
            f"{asked} degrees between ramps make {made} overall: over"
            f" {length_text(self.height)} {unit} a wall is {', '.join(plan)} {unit} wide in"
            " plan, "
            f"and {self.passes:.3g} {'pass' if self.passes == 1 else 'passes'} of a ramp of"
            f" {length_text(self.width)} {unit} {'adds' if self.passes == 1 else 'add'}"
            f" {self.passes * self.width:,.1f}{of_turn}; "
            f"at a grade of {self.grade:.4g} the ramp is {self.height / self.grade:,.0f} {unit} long"
        )


def ramp_of(value: Mapping[str, Any] | None, region: str) -> Ramp | None:
    """The ramp of a region: that of all walls, or its own where regions are named; None where it
    has none.

    Raises
    ------
    PlanError
        Where its grade is no share.
    """
    own = value if value is None or has_ramp(value) else value.get(region)
    if own is None:
        return None
    key: KeyPath = ("slopes", "ramp") if own is value else ("slopes", "ramp", region)
    if own["grade"] > _STEEPEST_GRADE:
        raise PlanError(
            (
                f"[slopes] {', '.join(map(str, key[1:]))}: a grade of {own['grade']:g} rises"
                f" {own['grade']:g} m in each metre"
            ),
            try_this=f"grade = {own['grade'] / 100:g}",
            key=(*key, "grade"),
        ).with_remedy(Remedy((*key, "grade"), own["grade"] / 100))
    return Ramp(**{name: float(number) for name, number in own.items()})
