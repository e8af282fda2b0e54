#!/usr/bin/env python3
"""How long the search for offsets takes, in processor seconds, and what it finds.

    bench/offsets.py

Usual blocks and slopes, slopes by bearing, walls that are nowhere steeper than asked, and slopes that can't be held. Nothing is read
or written but the table on standard output.
"""
import sys
import time
from pathlib import Path

sys.path.insert(0, str(Path(__file__).resolve().parent.parent / "python" / "pitplan" / "slopes"))
import offsets  # noqa: E402  (alone: the package around it needs more than the standard library)

TURNED = [(0, 45), (90, 45), (180, 38), (270, 45)]
CASES = [
    ((10, 10, 10), 45, False),
    ((20, 20, 10), 45, False),
    ((25, 25, 15), 45, False),
    ((20, 20, 15), 45, False),
    ((20, 10, 10), 45, False),
    ((10, 10, 10), 38, False),
    ((25, 25, 15), 52, False),
    ((20, 20, 5), 70, False),
    ((5, 5, 15), 20, False),
    ((10, 10, 10), TURNED, False),
    ((25, 25, 15), TURNED, False),
    ((10, 10, 10), 45, True),
    ((20, 20, 10), 45, True),
    ((20, 20, 10), TURNED, True),
    ((20, 20, 10), [(0, 30), (90, 50), (180, 30), (270, 50)], False),
    ((20, 20, 10), [(0, 30), (90, 50), (180, 30), (270, 50)], True),
    ((10, 10, 10), [(0, 36), (90, 55), (180, 36), (270, 55)], False),
    ((10, 10, 10), [(0, 45), (89, 45), (90, 38), (270, 38), (271, 45)], False),
]


def main():
    print(
        "| Block | Slope | Safe | Held | Offsets | Mean error | Steepest | Flattest | Seconds |\n|---|---|---|---|---|---|---|---|---|"
    )
    for size, slope, safe in CASES:
        began = time.process_time()
        found = offsets.search(offsets.wall(size, slope), safe=safe)
        seconds = time.process_time() - began
        shown = slope if isinstance(slope, int) else ", ".join("%d:%d" % pair for pair in slope)
        print(
            "| %g x %g x %g | %s | %s | %s | %d | %.2f | %+.2f | %+.2f | %.1f |"
            % (
                *size,
                shown,
                "yes" if safe else "no",
                "yes" if found.is_held else "no",
                len(found.offsets),
                found.error.mean,
                found.error.steepest,
                found.error.flattest,
                seconds,
            ),
            flush=True,
        )


if __name__ == "__main__":
    main()
