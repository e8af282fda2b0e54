#!/usr/bin/env python3
"""Writes examples/hill.csv: a small made-up mine of copper and gold under a hill, as a geologist's package exports it.

Blocks of 20 by 20 by 10 metres, the model turned by 30 degrees, three rocks, two regions of slopes, and gold that wasn't
assayed (-99) in a corner. The same file on every machine; standard library alone.
"""
import math
from pathlib import Path

COLUMNS, ROWS, LEVELS, SIZE, TURN = 26, 22, 12, (20, 20, 10), math.radians(30)
EAST, NORTH, LOWEST = 430_000, 7_215_000, 1_005


def waves(x, y, z, seed):
    """A smooth field from -1 to 1, without anybody's random numbers."""
    return (
        math.sin(1.3 * x + 0.7 * seed) * math.cos(0.9 * y - seed)
        + math.sin(0.8 * y + 1.1 * z + 2 * seed) * math.cos(1.7 * x - z)
    ) / 2


def ground(i, j):
    """How many levels a column has: a hill in the north-west of the pit."""
    return round(LEVELS - 4 + 4 * math.exp(-(((i - 8) / 7) ** 2) - ((j - 14) / 6) ** 2))


def ore(i, j, k):
    """How much of the ore body a block has, from 0 to 1: a core that leans to the south, and a smaller one beside it."""
    lean = j - 11 + 0.4 * (k - 6)
    core = math.exp(-(((i - 12) / 4.5) ** 2) - (lean / 3.6) ** 2 - ((k - 4) / 3.5) ** 2)
    side = 0.7 * math.exp(-(((i - 18) / 2.5) ** 2) - ((j - 14) / 2.5) ** 2 - ((k - 5) / 2.0) ** 2)
    return core + side


def rows():
    number = 0
    for j in range(ROWS):
        for i in range(COLUMNS):
            top = ground(i, j)
            for k in range(top):
                u, v = i * SIZE[0], j * SIZE[1]
                x, y, z = (
                    EAST + u * math.cos(TURN) + v * math.sin(TURN),
                    NORTH - u * math.sin(TURN) + v * math.cos(TURN),
                    LOWEST + k * SIZE[2],
                )
                rock = "OVB" if top - k <= 1 else "OXI" if top - k <= 4 else "SUL"
                rich = ore(i, j, k) * (0.0 if rock == "OVB" else 1.0)
                copper = max(0.0, 0.95 * rich * (1 + 0.5 * waves(i, j, k, 1)) - 0.03)
                gold = (
                    -99
                    if i > 21 and j > 17
                    else max(0.0, 0.45 * rich * (1 + 0.7 * waves(i, j, k, 2)) - 0.02)
                )
                density = {"OVB": 1.9, "OXI": 2.5, "SUL": 2.7}[rock] + 0.05 * waves(i, j, k, 3)
                number += 1
                yield f"H{number:05d},{x:.2f},{y:.2f},{z},{density:.3f},{copper:.3f},{gold:.3f},{rock},{'NORTH' if j >= 11 else 'SOUTH'}".replace(
                    "-99.000", "-99"
                )


def main():
    text = "\n".join(["BLOCKID,XC,YC,ZC,SG,CU,AU,ROCK,SECTOR", *rows()]) + "\n"
    (Path(__file__).resolve().parent / "hill.csv").write_text(text)


if __name__ == "__main__":
    main()
