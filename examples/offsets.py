#!/usr/bin/env python3
"""Writes the offsets of walls that are as steep as asked, as settings for `pit`.

    python3 offsets.py XSIZE YSIZE ZSIZE SLOPE > slope.toml
    python3 offsets.py XSIZE YSIZE ZSIZE SLOPE [SLOPE ..] --slopes > mine.toml

The sizes are those of a block in metres, along x, y and upward. SLOPE is the overall slope in degrees from the
horizontal, as 45, or slopes by bearing, as 0:45,90:45,180:38,270:45: the north wall is at 0, the east wall at 90, and
between two bearings the slope changes evenly. Without --slopes the settings are `offsets`, which `pit slopes --pattern
settings` takes for all blocks. With it they are `slopes`, by which each command finds predecessors from blocks and settings
alone: a list for each SLOPE, the first for region 0.

Offsets that the others imply are left out. Standard error says by how much the wall errs: on average over all bearings
at most 0.5 degrees, and nowhere more than 1, or it says that this can't be held and what can. Python's standard library
is enough; the search is in python/pitplan/slopes/offsets.py of this repository, or in the pitplan that is installed.
"""
from __future__ import annotations

import argparse
import importlib.util
import math
import shutil
import sys
from pathlib import Path

SEARCH = Path("pitplan") / "slopes" / "offsets.py"
INSTALLED = (
    "python",
    "lib/pontihaw",
    "lib/python3/dist-packages",
)  # beside bin/pitplan of the repository, of ./install, of Debian's package


def places():
    """Where the search may lie: in the repository of this script, in this Python's packages, or beside the command pitplan."""
    yield Path(__file__).resolve().parent.parent / "python" / SEARCH
    package, command = importlib.util.find_spec("pitplan"), shutil.which("pitplan")
    if package:
        yield from (
            Path(folder).parent / SEARCH for folder in package.submodule_search_locations or ()
        )
    if command:
        yield from (Path(command).resolve().parent.parent / folder / SEARCH for folder in INSTALLED)


def search_module():
    """The search, by its file alone: the package around it needs more than the standard library."""
    file = next((place for place in places() if place.is_file()), None)
    found = file and importlib.util.spec_from_file_location("pitplan_offsets", file)
    if not found or found.loader is None:
        sys.exit(
            "offsets.py: no pitplan is installed: install it, or run this script where it lies in the repository"
        )
    module = importlib.util.module_from_spec(found)
    sys.modules[found.name] = module
    found.loader.exec_module(module)
    return module


def number(word, what, example):
    """A number of the command line."""
    try:
        value = float(word)
    except ValueError:
        value = math.nan
    if not math.isfinite(value):
        raise ValueError("%s is '%s', and has to be a number, as %s" % (what, word, example))
    return value


def slopes(word):
    """SLOPE: one angle, or pairs of a bearing and an angle."""
    if ":" not in word:
        return number(word, "the slope", "45, or slopes by bearing, as 0:45,180:38")
    pairs = []
    for pair in word.split(","):
        bearing, colon, angle = pair.partition(":")
        if not colon:
            raise ValueError(
                "among the slopes by bearing is '%s', and has to be BEARING:SLOPE, as 180:38" % pair
            )
        pairs.append(
            (
                number(bearing, "a bearing", "180"),
                number(angle, "the slope at bearing %s" % bearing, "38"),
            )
        )
    return pairs


def words():
    parser = argparse.ArgumentParser(
        description=__doc__.split("\n\n")[0],
        epilog="\n\n".join(__doc__.split("\n\n")[2:]),
        usage="offsets.py XSIZE YSIZE ZSIZE SLOPE [SLOPE ..] [OPTIONS]",
        formatter_class=argparse.RawDescriptionHelpFormatter,
    )
    for axis, way in ("XSIZE", "x"), ("YSIZE", "y"), ("ZSIZE", "z, upward"):
        parser.add_argument(axis, help="metres of a block along " + way)
    parser.add_argument(
        "SLOPE", nargs="+", help="degrees, or BEARING:SLOPE,BEARING:SLOPE,..; several of regions"
    )
    parser.add_argument(
        "--slopes",
        action="store_true",
        help="write the slopes of a mine's regions, for every command, in place of offsets",
    )
    parser.add_argument(
        "--rotation",
        metavar="DEGREES",
        default="0",
        help="bearing of the model's y axis, where the model is turned",
    )
    parser.add_argument(
        "--safe",
        action="store_true",
        help="deep walls nowhere steeper than asked, and so flatter on average",
    )
    parser.add_argument(
        "--levels", metavar="N", type=int, help="look at most so many levels up, from 1 to 200"
    )
    parser.add_argument(
        "--blocks",
        metavar="N",
        type=int,
        default=0,
        help="how many blocks the model has: pit takes 134,217,728 pairs at most",
    )
    return parser


def said(offsets, pattern, given):
    """What standard error is told."""
    if pattern.is_held:
        return str(pattern)
    why = (
        ""
        if offsets.within(given.blocks)([(0, 0, 1)] * (len(pattern.offsets) + 1))
        or not given.blocks
        else (
            " with the %d offsets that %s blocks leave room for"
            % (offsets.PAIRS // given.blocks, f"{given.blocks:,}")
        )
    )
    return (
        "warning: %g degrees on average and %g at the worst bearing can't be held%s. These err least:\n%s"
        % (offsets.MEAN, offsets.WORST, why, pattern)
    )


def settings_of_all_blocks(pattern):
    """The offsets as settings of `pit slopes --pattern settings`."""
    return "offsets = [\n%s]\n" % "".join(
        "    [%d, %d, %d],\n" % offset for offset in pattern.offsets
    )


def settings_of_mine(offsets, asked, patterns, size):
    """The slopes of a mine's regions. Which column says the region of a block is for the reader to add."""
    names = ["region %d, %s degrees" % each for each in enumerate(asked)]
    region = (
        "# add a line `region = N`: the column of the .blocks file with the region of each block\n"
    )
    return (
        "# in blocks of %g x %g x %g metres\n" % tuple(size)
        + offsets.settings_by_region(dict(zip(names, patterns)))
        + (region if len(patterns) > 1 else "")
        + 'up = "plus"\n'
    )


def main():
    offsets, parser = search_module(), words()
    given = parser.parse_args()
    try:
        size = [
            number(word, "the size of a block along %s" % axis, "12.5")
            for word, axis in zip((given.XSIZE, given.YSIZE, given.ZSIZE), "xyz")
        ]
        if given.blocks < 0:
            raise ValueError("the model has %d blocks?" % given.blocks)
        if len(given.SLOPE) > 1 and not given.slopes:
            raise ValueError("several slopes are those of regions: add --slopes")
        rotation = number(given.rotation, "the rotation", "30")
        walls = [offsets.wall(size, slopes(word), rotation) for word in given.SLOPE]
        fits = offsets.within(given.blocks)
        patterns = [
            offsets.search(wall, safe=given.safe, levels=given.levels, fits=fits) for wall in walls
        ]
    except ValueError as error:
        parser.error(str(error))
    if given.slopes:
        print(settings_of_mine(offsets, given.SLOPE, patterns, size), end="")
    else:
        print("# %s degrees in blocks of %g x %g x %g metres" % (*given.SLOPE, *size))
        print("# " + str(patterns[0]))
        print(settings_of_all_blocks(patterns[0]), end="")
    for pattern in patterns:
        print(said(offsets, pattern, given), file=sys.stderr)


if __name__ == "__main__":
    main()
