"""A bundle's checker of schedules beside `pit`: of two hundred mines that are made up both say the
same of a schedule, whether it can be dug and what it is worth, and of what none is worth more."""
import gzip
import os
import random
import subprocess
from decimal import Decimal
from types import SimpleNamespace

import pytest
from pitplan.audit import recheck_schedule
from pitplan.audit.recheck_schedule import Mine, Periods

MINES, BLOCKS, COUNT = 200, 6, 3
FILES = "--prec m.prec --upit m.upit --uses uses.blocks --periods periods.toml".split()


def made_up(seed):
    """A mine with its periods, the block that each block waits for, and a schedule, most of it in
    order: of ten tonnes of rock or so a block, of which a mill gets those that gain."""
    chance = random.Random(seed)
    above = [
        sorted({chance.randrange(b + 1, BLOCKS) for _ in range(chance.randrange(3))})
        for b in range(BLOCKS - 1)
    ]
    gains = [chance.choice((0, chance.randrange(1, 400))) for _ in range(BLOCKS)]
    mine = Mine(
        SimpleNamespace(places=[(b, 0, 0) for b in range(BLOCKS)]),
        [chance.randrange(100) for _ in range(BLOCKS)],
        [[gain] for gain in gains],
        [int(gain > 0) for gain in gains],
        [True] * BLOCKS,
        [*above, []],
    )
    rock = [chance.randrange(20) for _ in range(BLOCKS)]
    periods = Periods(
        sorted((chance.randrange(1_000_001) for _ in range(COUNT)), reverse=True),
        [[chance.randrange(10, 60) for _ in range(COUNT)] for _ in range(2)],
        [[chance.choice((0, chance.randrange(10**9))) for _ in range(COUNT)] for _ in range(2)],
        [rock, [tonnes if gain else 0 for tonnes, gain in zip(rock, gains)]],
        {b: b for b in range(BLOCKS)},
        None,
        chance.choice((1, 2)),
        None,
        {b: 0 for b in range(BLOCKS)},
        0,
        0,
    )
    waits = [chance.choice((b, b, chance.randrange(b, BLOCKS))) for b in range(BLOCKS)]
    lagged = [[other] if other != b and seed % 2 else [] for b, other in enumerate(waits)]
    when = dict[int, int]()
    for b in reversed(range(BLOCKS)):
        least = max((when.get(other, COUNT) for other in mine.above[b]), default=0)
        least = max([least, *(when.get(other, COUNT) + 1 for other in lagged[b])])
        period = chance.randrange(min(least, COUNT) if chance.randrange(8) else 0, COUNT + 1)
        if period < COUNT:
            when[b] = period
    return mine, periods, lagged, when


def write(folder, mine, periods, lagged, when):
    """The texts that `pit` reads of them."""
    values = [gain - cost for (gain,), cost in zip(mine.gains, mine.costs)]
    lines = {
        "m.prec": [f"{b} {len(row)} {' '.join(map(str, row))}" for b, row in enumerate(mine.above)],
        "m.upit": [f"NBLOCKS: {BLOCKS}", "OBJECTIVE_FUNCTION:"]
        + [f"{b} {value}" for b, value in enumerate(values)],
        "uses.blocks": [
            f"{b} {b} 0 0 {periods.uses[0][b]} {periods.uses[1][b]} {(lagged[b] or [b])[0]}"
            for b in range(BLOCKS)
        ],
        "periods.toml": [
            f"weights = {periods.weights}",
            "resources = [0, 1]",
            f"capacities = {periods.capacities}",
            f"multipliers = {periods.multipliers}",
            "waits = [2]",
            f"lag = {periods.lag}",
        ],
        "schedule.txt": [f"{b} {period}" for b, period in when.items()],
    }
    for name, those in lines.items():
        (folder / name).write_text("".join(f"{line}\n" for line in those))


def pit(folder, *words):
    """The status of `pit`, and what it prints."""
    ran = subprocess.run([os.environ["PIT"], *words], cwd=folder, capture_output=True, text=True)
    assert not ran.stderr, ran.stderr
    return ran.returncode, ran.stdout


def judged(*plan):
    """What the checker says a schedule is worth; None where it can't be dug."""
    try:
        return recheck_schedule.check_schedule(*plan)
    except recheck_schedule.Wrong:
        return None


@pytest.fixture(scope="module")
def told(tmp_path_factory):
    """Of each mine what the checker and what `pit` say of the schedule and of the bound."""
    found = []
    for seed in range(MINES):
        folder, plan = tmp_path_factory.mktemp(f"mine{seed}"), made_up(seed)
        write(folder, *plan)
        status, line = pit(folder, "schedule", *FILES, "schedule.txt")
        theirs = Decimal(line.split()[2]) if status == 0 else None
        (folder / "schedule").mkdir()
        certificate = pit(folder, "solve", *FILES)[1]
        (folder / "bound.cert").write_text(certificate)
        (folder / "schedule" / "bound.cert.gz").write_bytes(gzip.compress(certificate.encode()))
        bound = Decimal(pit(folder, "bound", *FILES, "bound.cert")[1].split()[1])
        with pytest.MonkeyPatch.context() as patch:
            for script in (recheck_schedule, recheck_schedule.recheck):
                patch.setattr(script, "HERE", folder)
            ours = recheck_schedule.check_bound(*plan[:3])
        found.append((judged(*plan), theirs, ours, bound))
    return found


def test_a_schedule_is_judged_as_pit_does(told):
    assert [ours for ours, *_ in told] == [theirs for _, theirs, *_ in told]


def test_schedules_of_both_kinds_are_judged(told):
    feasible = sum(ours is not None for ours, *_ in told)
    assert 40 <= feasible <= MINES - 40


def test_a_bound_is_what_pit_says(told):
    assert [ours for *_, ours, _ in told] == [bound for *_, bound in told]


def test_no_schedule_that_can_be_dug_is_above_its_bound(told):
    assert all(theirs is None or theirs <= bound for _, theirs, _, bound in told)
