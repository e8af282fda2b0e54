"""What looks wrong and isn't refused, as data and in words."""
from __future__ import annotations

from dataclasses import dataclass
from typing import Any

from .errors import KeyPath, Remedy


@dataclass(frozen=True)
class Strange:
    """What looks wrong.

    Attributes
    ----------
    seen, expected : str
        The second is "" where what was seen says it all.
    try_this : str
        What to type, or what to look at.
    key : KeyPath
        The key of study.toml that it concerns; () where none does.
    remedy : Remedy or None
        The change of study.toml that `try_this` says, where it is one alone.
    """

    seen: str
    expected: str
    try_this: str
    key: KeyPath = ()
    remedy: Remedy | None = None

    def as_data(self) -> dict[str, Any]:
        """In one line, and its remedy, as JSON has them."""
        said = str(self).replace("\n  try: ", "; try: ")
        return {"said": said, "remedy": self.remedy and self.remedy.as_data()}

    def __str__(self) -> str:
        return (
            self.seen
            + (f"; {self.expected}" if self.expected else "")
            + f"\n  try: {self.try_this}"
        )


def rounded(value: float, digits: int = 3) -> str:
    """A number with so many digits that count, and no power of ten.

    >>> rounded(8504.3), rounded(3.8571), rounded(1_934_000)
    ('8,500', '3.86', '1,930,000')
    """
    return f"{float(f'{value:.{digits}g}'):,.15g}"
