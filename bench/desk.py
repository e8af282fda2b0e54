#!/usr/bin/python3
"""How long a planner at `pitplan desk` waits: from a dropped table to proved pits, and for a look after a changed price.

    bench/desk.py [--rounds N]

Debian's own Python and the packages of python/packages; the program as PIT says. All of it runs on two processors. The tables are
those of bench/pitplan.py's makers. Of the rounds the fewest seconds count.
"""
import argparse
import os
import sys
import tempfile
import time
from pathlib import Path

from pitplan import TOP, mine

sys.path[:0] = [str(TOP / "python/tests/support"), str(TOP / "python")]
TABLES = (("desk60k", 52, 48, 29), ("desk500k", 104, 98, 58))


def begun(desk, path, name):
    """Drops a table and begins a study of it."""
    with open(path, "rb") as file:
        desk.asks("PUT", f"/api/tables/{name}.csv", file, "text/csv")
    desk.asks("POST", "/api/studies", {"table": f"{name}.csv", "name": name})


def pits_found(desk, name):
    """Builds and finds the pits of a series as `init` writes it; gives how many are proved."""
    at = f"/api/studies/{name}"
    number = desk.asks("POST", f"{at}/runs", {"what": "all"})[0]["number"]
    while (run := desk.asks("GET", f"{at}/runs/{number}")[0])["state"] == "running":
        time.sleep(0.2)
    assert run["state"] == "done", run
    return desk.asks("GET", at)[0]["state"]["there"]


def look_after_a_price(desk, name, rounds):
    """The fewest seconds from a changed price to what lies in the ground at it."""
    at, taken = f"/api/studies/{name}", []
    desk.asks("GET", f"{at}/check")
    for n in range(rounds):
        change = {"path": ["economics", "metals", 0, "price"], "value": 8600 + n}
        began = time.monotonic()
        desk.asks("PATCH", at, {"changes": [change]})
        told, _ = desk.asks("GET", f"{at}/check")
        taken.append(time.monotonic() - began)
        assert told["errors"] == [] and told["tonnage"]["rows"], told
    return min(taken)


def main():
    words = argparse.ArgumentParser(description=__doc__.split("\n")[0])
    words.add_argument("--rounds", type=int, default=3)
    rounds = words.parse_args().rounds
    from desks import Desk

    os.sched_setaffinity(0, sorted(os.sched_getaffinity(0))[:2])
    print("| rows | dropped table to proved pits, s | look after a price, s |\n|---|---|---|")
    for name, *shape in TABLES:
        path = mine(name, *shape)
        rows = sum(1 for _ in open(path)) - 1
        with tempfile.TemporaryDirectory() as place:
            desk = Desk(Path(place))
            try:
                began = time.monotonic()
                begun(desk, path, name)
                told = f"{pits_found(desk, name)} pits in {time.monotonic() - began:.1f}"
                print(
                    f"| {rows:,} | {told} | {look_after_a_price(desk, name, rounds):.2f} |",
                    flush=True,
                )
            finally:
                desk.end()


if __name__ == "__main__":
    main()
