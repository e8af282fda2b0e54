"""How near a search comes to the best schedule, where that is known: on mines whose every schedule
is tried. Each search ends by what it counts, and none by the time."""
from functools import partial
from types import SimpleNamespace

import numpy as np
import pytest
from pitplan.pit import process, program
from pitplan.pit.program import Files, Periodic, Pit
from pitplan.schedule import bounds, search as searching, sorting
from pitplan.schedule.block_texts import BlockTexts
from pitplan.schedule.destinations import Timetable
from pitplan.schedule.search import Search
from pitplan.schedule.search_ends import MINUTES
from tiny_mines import TinyMine, five_columns

FOREVER = 1e9  # seconds
PANELS, BOTH = {"panel": 2}, {"panel": 2, "pushbacks": True, "lead": 1}
ORDERED, DEAR = {"pushbacks": True}, {"pushbacks": True, "fixed_cost": 15_000}
CASES = [
    *((seed, PANELS) for seed in (2, 3, 9, 25, 26, 45, 52)),
    *((seed, {**PANELS, "fixed_cost": 30_000}) for seed in (3, 25, 26, 52)),
    *((seed, BOTH) for seed in (1, 2, 3, 32, 46)),
    *((seed, ORDERED) for seed in (0, 28, 46, 48, 59)),
    *((seed, DEAR) for seed in (0, 28, 46, 48, 59)),
]
LOST = [(59, ORDERED), (25, PANELS), (1, BOTH), (3, PANELS), (0, ORDERED)]


def raised(*_):
    """As where ctrl-C is pressed."""
    raise KeyboardInterrupt


def found_of(mine, folder):
    """What a search finds: net present value and bound, in millionths."""
    search = Search(folder, mine.production, Pit())
    search.run(0.0, FOREVER)
    assert not mine.production.wrong(search.plan)
    return search.found.npv, search.found.bound


@pytest.mark.parametrize("seed, kind", CASES)
def test_of_a_tiny_mine_the_best_schedule_is_found(tmp_path, seed, kind):
    mine = TinyMine(seed, **kind)
    best = mine.best()
    npv, bound = found_of(mine, tmp_path)
    assert npv <= best <= bound
    assert npv >= 0.999 * best


@pytest.mark.parametrize("seed, kind", LOST)
def test_a_mine_that_is_not_small_enough_for_all_schedules_is_rebuilt(
    tmp_path, monkeypatch, seed, kind
):
    """Swaps between neighbouring periods alone lose 12 to 85 % on these: what pays takes several
    periods to reach."""
    monkeypatch.setattr(searching, "is_small", lambda _: False)
    mine = TinyMine(seed, **kind)
    assert found_of(mine, tmp_path)[0] >= 0.9 * mine.best()


def test_a_search_that_is_stopped_before_its_bound_has_a_good_schedule(tmp_path, monkeypatch):
    """The best by hand of a mine where bench by bench no ore is reached in time."""
    monkeypatch.setattr(searching.Search, "lower", raised)
    made, best = five_columns()
    search = Search(tmp_path, made, Pit())
    with pytest.raises(KeyboardInterrupt):
        search.run(0.0, FOREVER)
    assert made.wrong(search.plan) == []
    assert search.found.npv == made.npv(search.plan) == best


def test_a_first_schedule_comes_back_where_none_better_is_found(tmp_path, monkeypatch):
    """The orders of the relaxation take its place, and the time is over before swaps better them."""
    made, best = five_columns()
    search, told = Search(tmp_path, made, Pit()), []
    poor = Timetable(np.full(made.units, made.periods), np.zeros(0, bool))
    monkeypatch.setattr(search.sorting, "by_shares", lambda *_: iter([poor]))
    monkeypatch.setattr(search, "swap", lambda *_: told.append(search.found.npv) or MINUTES)
    monkeypatch.setattr(searching, "is_small", lambda _: False)
    search.run(0.0, FOREVER)
    assert told == [0]
    assert search.found.npv == made.npv(search.plan) == best
    assert search.end.why == MINUTES


def test_where_the_time_is_over_one_first_schedule_is_made(tmp_path, monkeypatch):
    monkeypatch.setattr(searching.Search, "lower", raised)
    made, tried = TinyMine(2, **BOTH).production, []
    search = Search(tmp_path, made, Pit())
    monkeypatch.setattr(search, "take", tried.append)
    with pytest.raises(KeyboardInterrupt):
        search.run(0.0, 0.0)
    assert sum(plan is not None for plan in tried) == 1


def test_a_first_bound_is_waited_for_and_no_later_one(tmp_path, monkeypatch):
    """The first relaxation has no limit; a later one that doesn't end in time ends the bound, and
    no more."""
    limits, whole = [], searching.relax

    def relax(production, cluster, seconds):
        limits.append(seconds)
        return whole(production, cluster, None) if seconds is None else None

    monkeypatch.setattr(searching, "relax", relax)
    search = Search(tmp_path, TinyMine(2, **BOTH).production, Pit())
    search.run(0.0, FOREVER)
    assert limits[0] is None
    assert 0 < limits[1] <= FOREVER
    assert len(limits) == 2
    assert search.found.closures == 1
    assert 0 < search.found.npv <= search.found.bound


def test_what_ends_swaps_gets_the_seconds_of_the_search(tmp_path, monkeypatch):
    """A timer, of which nobody waits for the end."""
    timers, seen = [], []

    class Timer:
        def __init__(self, seconds, end):
            self.asked, self.end, self.told = seconds, end, []
            self.start, self.cancel = (partial(self.told.append, w) for w in ("start", "cancel"))
            timers.append(self)

    def looked(gap, seconds):
        for _ in range(2):
            seen.append(int(search.sorting.mine.over[0]))
            timers[-1].end()
        return MINUTES

    monkeypatch.setattr(sorting, "threading", SimpleNamespace(Timer=Timer))
    search = Search(tmp_path, TinyMine(2, **BOTH).production, Pit())
    monkeypatch.setattr(search, "looked", looked)
    for seconds in (60.0, 90.0):
        search.run(0.0, seconds)
    assert [timer.asked for timer in timers] == [60.0, 90.0]
    assert [timer.told for timer in timers] == [["start", "cancel"]] * 2
    assert seen == [0, 1, 0, 1]


def test_the_files_of_a_bound_are_written_within_its_seconds(tmp_path, monkeypatch):
    """Of five seconds that of the best pit may take all, and where four are over the bound has one."""
    made, asked, clock = TinyMine(2).production, [], iter([10.0, 14.0, 20.0])
    for module in (bounds, process):
        monkeypatch.setattr(module, "time", SimpleNamespace(monotonic=lambda: next(clock)))

    def late(mine, seconds):
        raise process.OutOfTime

    nodes = BlockTexts(made, Files(tmp_path / "a", tmp_path / "b"))
    prices = np.zeros(made.capacities.shape, np.int64)
    program = SimpleNamespace(
        best_of=lambda mine, seconds: asked.append(seconds),
        bound=lambda mine, certificate, seconds: asked.append(seconds),
    )
    assert nodes.closed(program, tmp_path, prices, 5.0) is None
    assert asked == [5.0, 1.0]
    (tmp_path / "uses.blocks").unlink()
    program.best_of = late
    assert nodes.closed(program, tmp_path, prices, 5.0) is None
    assert asked == [5.0, 1.0]


def test_a_judgement_that_takes_too_long_is_ended(tmp_path):
    """Of a program that finds a pit at once, and doesn't judge it in time: without a limit it would
    say something else, later."""
    slow = tmp_path / "pit"
    slow.write_text(
        "#!/bin/sh\ncase $1 in\nsolve) echo PITCERT;;\n*) : > $0.asked; exec sleep 20;;\nesac\n"
    )
    slow.chmod(0o755)
    pit, files = Pit(slow), Files(tmp_path / "a", tmp_path / "b")
    found = pit.bound(Periodic(files, tmp_path / "u", tmp_path / "p"), tmp_path / "c", 5.0)
    assert found is None
    assert not pit.running


def test_no_more_of_a_certificate_is_handed_on_when_the_time_is_over(tmp_path, monkeypatch):
    """One of many pieces, of which each takes a second of a clock: after three seconds comes no
    more, and nothing is awaited."""
    certificate, clock, taken = tmp_path / "c", iter(range(1000)), []
    certificate.write_bytes(bytes(40 << 20))
    eats = tmp_path / "pit"
    eats.write_text("#!/bin/sh\nexec cat > /dev/null\n")
    eats.chmod(0o755)
    monkeypatch.setattr(program, "time", SimpleNamespace(monotonic=lambda: float(next(clock))))
    lines = SimpleNamespace(take=taken.append)
    with pytest.raises(process.OutOfTime):
        Pit(eats).answer_of(["check"], certificate, lines, seconds=3.0)
    assert len(taken) == 2


def rounds_of(search, gains):
    """Of each round after the swaps a w for windows and an a for annealing, where the rounds of
    each gain so much."""
    found, left = [], {kind: list(each) for kind, each in gains.items()}

    def step(kind):
        if not search.rounds_seen or search.rounds_seen[-1][0] != search.rounds:
            search.rounds_seen.append((search.rounds, kind))
            more = left[kind].pop(0) if left.get(kind) else 0
            search.found = searching.replace(search.found, npv=search.found.npv + more)

    search.rounds_seen = found
    search.anneal = lambda times, seed: step("a")
    search.sorting = SimpleNamespace(swapped=lambda *_: None, rebuilt=lambda *_: None)
    search.windows = SimpleNamespace(bettered=lambda *_: step("w"))
    for seed in range(searching._SWAPS + 6):
        search.one_round(seed)
    return "".join(kind for _, kind in found)


@pytest.mark.parametrize(
    "gains, order",
    [
        ({}, "wawaaa"),
        ({"w": [900] * 9, "a": [300]}, "wawwww"),
        ({"w": [1], "a": [9000, 8000, 3, 2]}, "waaawa"),
    ],
)
def test_what_gained_more_goes_on(tmp_path, gains, order):
    """Windows and annealing are both tried; where neither gains they take turns, until windows have
    gained nothing twice."""
    search = Search(tmp_path, TinyMine(2, **BOTH).production, Pit())
    search.plan, search.end = search.sorting.by_shells(), searching.End("killed", 0.0, 1.0)
    search.found = searching.Found(bound=10**9, npv=10**8)
    assert rounds_of(search, gains) == order


@pytest.mark.parametrize(
    "seed", [[1, 2], -5, 2.5, 2**63, "7", True, 1j], ids=["list", "below 0", *"abcde"]
)
def test_a_damaged_number_of_rounds_is_begun_anew(tmp_path, seed):
    """One that NumPy reads: it may be any array."""
    search = Search(tmp_path, five_columns()[0], None)
    search.kept.keep_arrays("swaps", seed=np.array(7))
    assert search.seed() == 7
    search.kept.keep_arrays("swaps", seed=np.array(seed))
    assert search.seed() == 0


@pytest.mark.filterwarnings("error")
@pytest.mark.parametrize(
    "change",
    [
        lambda dug: dug * 1000 - 7,
        lambda dug: dug.astype(float) * np.nan,
        lambda dug: dug.astype(complex),
        lambda dug: dug.astype("U3"),
        lambda dug: np.full_like(dug, -1),
    ],
    ids=["gaps", "nan", "complex", "words", "none"],
)
def test_a_damaged_partition_is_still_one(tmp_path, change):
    """Its clusters are numbers from 0 on, and each share that may be there has one."""
    made = five_columns()[0]
    search = Search(tmp_path, made, None)
    first = search.clusters()
    search.kept.keep_arrays("partition", dug=change(first.dug), sent=first.sent)
    found = search.clusters()
    there = np.append(found.dug[first.dug >= 0], found.sent[first.sent >= 0])
    assert sorted(set(there.tolist())) == list(range(found.size))
