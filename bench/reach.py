#!/usr/bin/python3
"""How near to the bound of `pit bound` any schedule can come: a second bound, which isn't proved, of mines of bench/schedules.py.

    bench/reach.py NAME ..   looks for a schedule of each, and for the second bound; puts both into bench/reach.csv

Debian's own Python and the packages of python/packages; PIT or out/pit. SECONDS_AT_MOST in the environment ends the search for a
schedule, by the clock, and BRANCHED_AT_MOST the branches, by processor seconds (300). WIDTHS=1,2 bounds each two periods that follow
each other together, too. What was found is kept in bench/out/reach, so that the same command goes on.

A schedule's worth is a sum over periods: what all that is dug by the period's end is worth, times what its weight is above the next
one's. Weights fall, so it is no more than with the most that any closed set within the capacities up to that period is worth;
closed_within.py bounds that, each period alone. This holds for units that are dug whole, whichever sink rate, panels and pushbacks
there are, and for fixed costs, which only take from it; blocks that may go to the mill or to waste aren't counted here.

Both bounds together: a part of each weight's fall, `taken`, is paid by these amounts, and `pit bound` bounds every schedule by the
weights that are left. The parts are multipliers of the relaxation in which no period's sum may be more than its amount.
"""
from __future__ import annotations

import json
import math
import os
import sys
import tempfile
import time
from dataclasses import replace
from fractions import Fraction
from pathlib import Path
from typing import NamedTuple

from debian_python import run_by_debian

run_by_debian()  # before packages are imported

import numpy as np
import pandas as pd
from child_rows import rows_by_child
import schedules

HERE = Path(__file__).resolve().parent
ROWS = HERE / "reach.csv"
BRANCHED_AT_MOST = float(os.environ.get("BRANCHED_AT_MOST", "300"))
WIDTHS = [int(each) for each in os.environ.get("WIDTHS", "1").split(",")]  # periods of a span
SLICE = 3.0  # processor seconds between two looks at which period is farthest
NEAR = 1e-5  # of the bound, to which both together are sought
ROUNDS = 12  # richest pits of the mine of blocks and periods, at most
MILLION = 10**6


class Span(NamedTuple):
    """Periods that follow each other, and what all that is dug by the end of each is worth, times the fall of its weight, together,
    in millionths of a unit of currency: by the relaxation of these alone, at most, at least at best, and by the schedule.
    """

    begin: int
    end: int
    relaxed: int
    most: int
    least: int
    ours: int


def production(name):
    """The study of a mine, and its production by the terms of bench/schedules.py."""
    shape, years, _, more = schedules.CASES[name]
    study, shells = schedules.study_of(shape)
    from pitplan.schedule.plan import production_for

    row = shells.table().iloc[-1]
    rates = {
        "mining_rate": row.rock_t / years,
        "mill_rate": row.ore_t * study.priced.ways[0].feed / years,
    }
    return study, production_for(shells, {"years": years + 1, **rates, **more}, {"discount": 0.08})


def falls(made):
    """What each period's weight is above the next one's, in millionths."""
    return made.weights - np.append(made.weights[1:], 0)


def choice_of(made, earliest, span, most):
    """What is dug by the ends of some periods that follow each other: of all that is dug by the end of the first one the
    capacities so far are asked, of each later one its own, and of each that what is dug by its end is worth no more than is
    known. Values are in millionths of a unit of currency."""
    from closed_within import Choice
    from pitplan.schedule.pairs import Pairs

    (begin, end), units, fall = span, made.units, falls(made)
    count, every, nothing = end - begin, np.arange(made.units), np.zeros_like(made.values)
    low, high, uses, rooms = [], [], [], []

    def rest(blocks, at, others, by):
        low.append(blocks + at * units)
        high.append(others + by * units)

    def ask(amounts, room, *signs):
        uses.append(np.concatenate([amounts * sign if sign else nothing for sign in signs]))
        rooms.append(int(room))

    for k, t in enumerate(range(begin, end)):
        rest(made.above.blocks, k, made.above.other, k)
        if k >= made.terms.per_year:
            rest(made.sinking.blocks, k, made.sinking.other, k - made.terms.per_year)
        if k:
            rest(every, k - 1, every, k)
        signs = [int(at == k) - int(at == k - 1) for at in range(count)]
        for amounts, room in zip(made.uses, made.capacities):
            ask(amounts, room[t] if k else room[: t + 1].sum(), *signs)
        if t in most:
            ask(made.values, most[t], *map(int, np.arange(count) == k))
    return Choice(
        Pairs.of(np.concatenate(low), np.concatenate(high), units * count),
        np.concatenate([made.values * fall[t] for t in range(begin, end)]),
        np.stack(uses),
        np.array(rooms, np.int64),
        np.concatenate([earliest > t for t in range(begin, end)]),
        np.tile(made.uses[0] / made.uses[0].max(), count),
    )


def bounded_alone(made, plan, width, most):
    """What is dug by the end of each of some periods that follow each other, bounded alone: most time goes where the bound may
    fall farthest.

    made : Production
    plan : Timetable, a schedule
    width : int, of periods
    most : dict, of periods what all that is dug by the end of each is worth at most
    """
    from closed_within import Within
    from pitplan.schedule.cones import first_by_cones

    first, fall = first_by_cones(made.above, made.order, made.uses, made.capacities), falls(made)
    earliest, spans = np.maximum(first, made.earliest), []
    for begin in range(made.periods + 1 - width):
        within = Within(choice_of(made, earliest, (begin, begin + width), most))
        sums = [
            int(fall[t]) * int(made.values[plan.period <= t].sum())
            for t in range(begin, begin + width)
        ]
        within.best = max(within.best, sum(sums))
        spans.append((begin, within, sum(sums)))
    left = BRANCHED_AT_MOST
    while left > 0:
        open_ = [within.bound - within.best for _, within, _ in spans]
        if sum(open_) <= 5 * NEAR * sum(within.bound for _, within, _ in spans):
            break
        spans[int(np.argmax(open_))][1].run(min(SLICE, left))
        left -= SLICE
        print(f"{sum(open_) / MILLION**2:.3f} million open", file=sys.stderr, flush=True)
    return [
        Span(begin, begin + width, within.first, within.bound, within.best, ours)
        for begin, within, ours in spans
    ]


def relaxed(made, cluster, spans):
    """The relaxation in which no span is worth more than its bound: its worth in millions, its multipliers, and the share of
    each span that is paid by its bound."""
    from pitplan.schedule.partition import Program
    from scipy.optimize import linprog
    from scipy.sparse import csr_matrix, hstack, vstack

    program, size, fall = Program.of(made, cluster), cluster.size, falls(made) / MILLION
    sums, above = np.zeros((len(spans), size)), np.zeros((len(spans), made.periods))
    for row, span in enumerate(spans):
        for t in range(span.begin, span.end):
            there = cluster.dug[:, t] >= 0
            worths = made.values[there] * (fall[t] / MILLION)
            sums[row] += np.bincount(cluster.dug[there, t], worths, size)
            above[row, t] = -fall[t]  # what a period may be above the bounds is paid in full
    none = csr_matrix((program.table.shape[0], made.periods))
    found = linprog(
        np.append(-program.gains, fall),
        A_ub=vstack([hstack([program.table, none]), hstack([csr_matrix(sums), above])]).tocsr(),
        b_ub=np.append(program.limits, [span.most / MILLION**2 for span in spans]),
        bounds=[(0, 1)] * size + [(0, None)] * made.periods,
        method="highs-ds" if size < 400 else "highs-ipm",
    )
    if found.status != 0:
        raise SystemExit(f"bench: HiGHS gives no relaxation: {found.message}")
    shape, prices = made.capacities.shape, np.maximum(-found.ineqlin.marginals, 0)
    multipliers = np.rint(prices[: shape[0] * shape[1]].reshape(shape) * MILLION)
    return -found.fun, multipliers.astype(np.int64), prices[-len(spans) :]


def taken(made, spans, shares):
    """What spans pay of each weight's fall, in whole millionths, and how much they pay, rounded up. What a share leaves of a
    whole number isn't taken: it counts as the worth of all units, as if each were above 0."""
    fall, every = falls(made), int(np.abs(made.values).sum())
    found, paid = np.zeros(made.periods, np.int64), Fraction(0)
    for span, share in zip(spans, shares):
        part = Fraction(int(share * (1 - 1e-9) * fall[span.begin]), int(fall[span.begin]))
        paid += part * span.most
        for t in range(span.begin, span.end):
            found[t] += int(part * int(fall[t]))
            paid += (part * int(fall[t]) % 1) * every
    if (found > fall).any():
        raise SystemExit("bench: more is taken than there is")
    return found, math.ceil(paid)


def together(made, cluster, spans, program):
    """Both bounds together, in millionths of a unit of currency."""
    from pitplan.schedule.partition import split
    from pitplan.schedule.unit_texts import UnitTexts

    found = math.inf
    with tempfile.TemporaryDirectory() as work:
        for _ in range(ROUNDS):
            worth, multipliers, shares = relaxed(made, cluster, spans)
            parts, paid = taken(made, spans, shares)
            left = np.cumsum((falls(made) - parts)[::-1])[::-1]
            lighter = replace(made, terms=replace(made.terms, weights=tuple(map(int, left))))
            nodes = UnitTexts(lighter)
            pit = nodes.closed(program, Path(work), multipliers, None)
            found = min(found, nodes.total(pit.bound, multipliers) + paid)
            print(f"{found / MILLION**2:.3f} million, relaxed {worth:.3f}", file=sys.stderr)
            parted = split(cluster, lighter, pit.dug, multipliers)
            if found / MILLION**2 - worth < NEAR * abs(worth) or parted.size == cluster.size:
                break
            cluster = parted
    return found


def better(name, found):
    """The lower bound and the higher worth of a search and of the run of bench/schedules.py, in millionths."""
    rows = pd.read_csv(schedules.ROWS).set_index("case")
    if name not in rows.index:
        return found.bound, found.npv
    row = rows.loc[name]
    return min(found.bound, row.bound * MILLION**2), max(found.npv, row.npv * MILLION**2)


def one(name):
    """Both bounds of a mine, in this process; prints them."""
    study, made = production(name)
    from pitplan.schedule.search import Search

    if len(made.millable.block):
        raise SystemExit("bench: blocks that may go to the mill or to waste aren't counted")
    search = Search(HERE / "out" / "reach" / name.replace(" ", "_"), made, study.program)
    search.run(schedules.CASES[name][2] / 100, schedules.MOST_SECONDS)
    began = time.process_time()
    spans, fall, kept = [], falls(made), search.kept.folder / "spans.json"
    told = json.loads(kept.read_text()) if kept.exists() else {}
    if told.get("production") == made.key:
        spans = [Span(*each) for each in told["spans"]]
    for width in WIDTHS:
        if any(span.end - span.begin == width for span in spans):
            continue
        most = {
            span.begin: span.most // int(fall[span.begin])
            for span in spans
            if span.end == span.begin + 1
        }
        spans += bounded_alone(made, search.plan, width, most)
        kept.write_text(json.dumps({"production": made.key, "spans": spans}))
    both = together(made, search.clusters(), spans, study.program)
    bound, npv = better(name, search.found)
    for span in spans:
        row = [
            f"{getattr(span, of) / MILLION**2:9.3f}" for of in ("relaxed", "most", "least", "ours")
        ]
        own = 100 * (span.relaxed - span.most) / bound
        print(f"{span.begin + 1:3} to {span.end:3}", *row, f"{own:.3f} %", file=sys.stderr)
    ones = [span for span in spans if span.end == span.begin + 1]
    alone = {
        of: round(sum(getattr(span, of) for span in ones) / MILLION**2, 3)
        for of in ("relaxed", "most", "least")
    }
    print(
        json.dumps(
            {
                "case": name,
                "units": made.units,
                "npv": round(npv / MILLION**2, 3),
                "bound": round(bound / MILLION**2, 3),
                "gap": 100 * (bound - npv) / bound,
                "nearer": round(min(both, bound) / MILLION**2, 3),
                "own": 100 * max(bound - both, 0) / bound,
                "left": 100 * (min(both, bound) - npv) / bound,
                **alone,
                "cpu_s": round(time.process_time() - began, 0),
            }
        )
    )


def main():
    rows_by_child(__file__, ROWS, schedules.CASES, one, ["10k", "day", "60k veins panel 2"])


if __name__ == "__main__":
    main()
