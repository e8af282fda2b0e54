"""plainly.py on bounds of schedules: it says what `pit bound` says, of mines of units and of the
blocks of a best pit, and refuses what it refuses."""
import gzip
import os
import re
import shutil
import subprocess
import sys
from pathlib import Path
from types import SimpleNamespace

import mines
import numpy as np
import pytest
import two_ways
from bundles import rechecked, with_schedule
from pitplan.audit import plainly
from pitplan.pit.program import Pit
from pitplan.schedule.unit_texts import UnitTexts
from planned import RICH
from six_blocks import made_up
from tiny_mines import TinyMine

TERMS = '\n[schedule]\nyears = 4\nmining_rate = 500e3\nmill_rate = 300e3\ncutoff = "by year"\n'


def plain(*words):
    """What plainly.py says."""
    ran = subprocess.run(
        [sys.executable, "-I", plainly.__file__, *map(str, words)], capture_output=True, text=True
    )
    assert not ran.stderr, ran.stderr
    return ran.stdout.strip(), ran.returncode


MADE = {
    "blocks": lambda: made_up(1)[0],
    "a sink rate": lambda: made_up(1, True)[0],
    "ways": lambda: made_up(2, True, True)[0],
    "several processes": lambda: made_up(2, True, True, leaches=True)[0],
    "panels and a clock": lambda: TinyMine(5, panel=2).production,
}


@pytest.mark.parametrize("kind", MADE)
def test_it_says_the_bound_of_units(tmp_path, kind):
    made, r = MADE[kind](), np.random.default_rng(3)
    nodes = UnitTexts(made)
    prices = r.integers(0, 10**6, made.capacities.shape)
    said = nodes.closed(Pit(), tmp_path, prices, None).bound
    mine = nodes.mine(Pit(), tmp_path, prices)
    certificate = tmp_path / "bound.cert.gz"
    assert plain(*mine.words(), certificate) == (f"BOUND {said}", 0)
    text = gzip.decompress(certificate.read_bytes()).decode()
    (tmp_path / "c").write_text(re.sub(r"PIT \d+\n", "", text, count=1))
    line, status = plain(*mine.words(), tmp_path / "c")
    assert line.startswith(("REFUSED", "fault")), line
    assert status
    mine.periods.write_text(nodes.periods(prices + 1))
    line, status = plain(*mine.words(), certificate)
    assert (line.startswith(("REFUSED", "BOUND")), line != f"BOUND {said}") == (True, True)


@pytest.fixture(scope="module")
def bundle(tmp_path_factory):
    """A bundle with a plan of single blocks by ways."""
    return with_schedule(tmp_path_factory.mktemp("plan"), mines.table(6, 5, 4, 5), RICH + TERMS)


@pytest.fixture(scope="module")
def of_processes(tmp_path_factory):
    """Likewise where several processes have rates, so that each block goes one of them or to waste."""
    terms = '\n[schedule]\nyears = 5\nmining_rate = 600e3\ncutoff = "by year"\n'
    text = two_ways.TEXT.replace("rate = 120e3", "rate = 60e3").replace("250e3", "100e3")
    return with_schedule(
        tmp_path_factory.mktemp("ways"), two_ways.frame(), text + terms, (0.06, 60)
    )


@pytest.mark.parametrize("kind", ["bundle", "of_processes"])
def test_recheck_lets_pit_and_plainly_judge_a_plan_by_ways(request, kind):
    """Beside its bound, within the pit of certificates/."""
    folder, found = request.getfixturevalue(kind)
    ran = subprocess.run(
        [sys.executable, "-I", folder / "recheck.py", "--plainly", os.environ["PIT"]],
        capture_output=True,
        text=True,
    )
    assert ran.returncode == 0, ran.stdout
    of_ways = 'each block by whichever way (cutoff = "by year")'
    told = rf"ok +pit schedule of the plan by years, .* {re.escape(of_ways)}: (.*)"
    said = re.search(told, ran.stdout)[1]
    words = f"SCHEDULE {found.count} {found.judged.npv} BROKEN 0 BOUND {found.judged.bound}"
    assert said == f"{words} GAP {found.judged.gap}"
    assert f"plainly.py of its bound: BOUND {found.judged.bound}\n" in ran.stdout


def test_recheck_refuses_a_block_that_goes_to_another_process(of_processes, tmp_path):
    """A way by which it would gain too: what the schedule is worth, and the rates, are others then."""
    folder, found = Path(shutil.copytree(of_processes[0], tmp_path / "bundle")), of_processes[1]
    millable = found.production.millable
    both = set(millable.block[~millable.is_first].tolist())
    rows = [row.split() for row in open(folder / "schedule/schedule.txt")]
    one = next(row for row in rows if int(row[0]) in both and row[2] != "2")
    one[2] = "1" if one[2] == "0" else "0"
    (folder / "schedule/schedule.txt").write_text("".join(" ".join(row) + "\n" for row in rows))
    ran = subprocess.run(
        [sys.executable, "-I", folder / "recheck_schedule.py"], capture_output=True, text=True
    )
    assert (ran.returncode, ran.stdout[:5]) == (1, "WRONG"), ran.stdout


@pytest.mark.parametrize(
    "name, change",
    [
        ("schedule/schedule.txt", lambda text: re.sub(r" 0 ", " 1 ", text, count=1)),
        (
            "schedule/periods.toml",
            lambda text: text.replace("multipliers = [[", "multipliers = [[9"),
        ),
        ("schedule/uses.blocks", lambda text: re.sub(r"(\d+)\n", r"1\1\n", text)),
    ],
)
def test_recheck_refuses_a_plan_that_was_changed(bundle, tmp_path, name, change):
    folder = Path(shutil.copytree(bundle[0], tmp_path / "bundle"))
    text = (folder / name).read_text()
    (folder / name).write_text(change(text))
    assert change(text) != text
    lines, status = rechecked(folder)
    assert status == 1
    assert any("pit schedule of the plan" in line for line in lines), lines


def test_a_bound_at_another_price_than_its_pit_is_refused(tmp_path):
    """By hand, one block that brings 10 and costs 2, dug in one period: in full it is worth 8, and at
    0.9 of the price 7. It is a pit at both."""
    texts = {
        "b": "0 0 0 0 10 2",
        "s": "revenue = 0\ncost = 1\nslopes = [[[0, 0, 1]]]",
        "u": "0 0 0 0 1000",
        "p": "weights = [1000000]\nresources = [0]\ncapacities = [[5000]]\nmultipliers = [[0]]",
        **{
            f"{group}{price}": f"PITCERT 1\nBLOCKS 1\nPRICE {price}\nGROUP {group}\nPIT 0\nEND"
            for group in ("PAIR", "WORTH")
            for price in (900, 1000)
        },
    }
    for name, text in texts.items():
        (tmp_path / name).write_text(text + "\n")
    files = {"--blocks": "b", "--settings": "s", "--uses": "u", "--periods": "p"}
    words = [word for key, name in files.items() for word in (key, tmp_path / name)]
    other = "fault: certificate WrongPrice", 3
    for pit, price, said in (
        (900, 900, ("BOUND 7", 0)),
        (1000, 1000, ("BOUND 8", 0)),
        (900, 1000, other),
        (1000, 900, other),
    ):
        found = plain(*words, "--pit", tmp_path / f"PAIR{pit}", tmp_path / f"WORTH{price}")
        assert found == said, (pit, price)


@pytest.mark.parametrize("lag, late", [(1, {(2, 1), (4, 3)}), (2, {(4, 1)})])
def test_a_node_waits_for_that_of_so_many_periods_before_alone(lag, late):
    """By hand: in three periods block 0 has the nodes 0, 2 and 4, and waits for block 1."""
    rests = SimpleNamespace(of=lambda block: [], has=lambda block, other: False)
    periods = SimpleNamespace(lag=lag, waits=[{1}, set()], weights=[3, 2, 1])
    nodes = plainly.Nodes(SimpleNamespace(rests=rests, count=2), periods, None)
    pairs = {(node, other) for node in range(6) for other in range(6) if nodes.has(node, other)}
    assert pairs == late | {(0, 2), (2, 4), (1, 3), (3, 5)}
    assert pairs == {(node, other) for node in range(6) for other in nodes.of(node)}
