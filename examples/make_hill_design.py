#!/usr/bin/env python3
"""Writes hill-design.dxf: a pit as an engineer might draw it into the mine of examples/hill.csv, with a ramp.

    python3 examples/make_hill_design.py [FOLDER]

An oval bottom, walls of 43 degrees that are too steep to the north (47 degrees, where 38 to 44 may stand), and a ramp 20 m wide
that winds up once. 3D faces in the oldest form of DXF. Standard library alone, no random numbers.
"""
import math
import sys
from pathlib import Path

CENTRE = (430_350.0, 7_215_085.0)
TURN = math.radians(120)  # the bearing of the oval's long axis
LONG, SHORT = 100.0, 60.0  # metres from the centre to the bottom's edge
BOTTOM, TOP, STEP = 1_010, 1_130, 10
SLOPE, STEEP = 43.0, 47.0  # degrees
RAMP = 20.0  # metres
SIDES = 32


def corner(side, height):
    """East, north and elevation of the wall at a height, on one of the sides."""
    around = 2 * math.pi * side / SIDES
    bearing = (TURN + around) % (2 * math.pi)
    slope = STEEP if math.cos(bearing) > 0.7 else SLOPE
    ramp_at = BOTTOM + (TOP - BOTTOM) * (side % SIDES) / SIDES
    out = (height - BOTTOM) / math.tan(math.radians(slope)) + (RAMP if height > ramp_at else 0.0)
    x, y = (LONG + out) * math.cos(around), (SHORT + out) * math.sin(around)
    return (
        CENTRE[0] + x * math.sin(TURN) + y * math.cos(TURN),
        CENTRE[1] + x * math.cos(TURN) - y * math.sin(TURN),
        float(height),
    )


def faces():
    """The bottom as a fan, then the walls ring by ring."""
    for side in range(SIDES):
        yield [(*CENTRE, float(BOTTOM)), corner(side, BOTTOM), corner(side + 1, BOTTOM)]
        for height in range(BOTTOM, TOP, STEP):
            yield [
                corner(side, height),
                corner(side + 1, height),
                corner(side + 1, height + STEP),
                corner(side, height + STEP),
            ]


def record(face):
    """A 3DFACE: codes 10, 20, 30 are the first corner's coordinates, 11, 21, 31 the second's; a triangle's third stands twice."""
    four = face if len(face) == 4 else [*face, face[-1]]
    lines = ["0", "3DFACE", "8", "DESIGN"]
    for i, place in enumerate(four):
        for axis, value in enumerate(place):
            lines += [str(10 * (axis + 1) + i), f"{value:.2f}"]
    return lines


def main():
    folder = Path(sys.argv[1] if len(sys.argv) > 1 else Path(__file__).parent)
    lines = ["0", "SECTION", "2", "ENTITIES"]
    for face in faces():
        lines += record(face)
    (folder / "hill-design.dxf").write_text("\n".join([*lines, "0", "ENDSEC", "0", "EOF"]) + "\n")


if __name__ == "__main__":
    main()
