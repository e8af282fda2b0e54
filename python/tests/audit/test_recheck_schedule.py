"""A bundle's schedule is checked again by a script that shares nothing with the package; whatever
is changed in it is told."""
import gzip
import hashlib
import json
import os
import py_compile
import re
import shutil
import subprocess
import sys
from dataclasses import replace
from decimal import Decimal
from pathlib import Path

import mines
import numpy as np
import pytest
from bundles import bundled, rechecked, summed, with_schedule
from pitplan.audit import recheck_schedule
from pitplan.schedule import pit_schedule, plan as of_plan

RICH = mines.STUDY_TOML.replace("price = 8500", "price = 24000").replace(
    "mining = 2.0", "mining = 2.0\ndilution = 0.05"
)
PITPLAN = Path(__file__).resolve().parents[3] / "bin" / "pitplan"
TERMS = "\n[schedule]\nyears = 6\nmining_rate = [600e3, 500e3]\nmill_rate = 400e3\n"


def found_wrong(whole, bundle, change, words):
    """A copy of a bundle that is changed is refused, with a line that has these words."""
    shutil.copytree(whole, bundle)
    change(bundle)
    status, said = checked(bundle)
    assert status == 1, said
    assert re.search(words, said), said
    assert said.startswith("WRONG"), said


def test_a_plan_of_other_terms_is_left_out_with_a_word(tmp_path):
    with_schedule(tmp_path, mines.table(9, 8, 5, 5), RICH + TERMS)
    path = tmp_path / "s" / "study.toml"
    path.write_text(path.read_text().replace("mill_rate = 400e3", "mill_rate = 300e3"))
    words = [sys.executable, PITPLAN, "bundle", tmp_path / "s", tmp_path / "again"]
    ran = subprocess.run(words, capture_output=True, text=True)
    assert ran.returncode == 0, ran.stderr
    assert "the plan by years isn't in it: it was found for other terms" in ran.stderr
    assert not (tmp_path / "again" / "schedule").exists()


def checked(bundle):
    ran = subprocess.run(
        [sys.executable, "-I", bundle / "recheck_schedule.py"], capture_output=True, text=True
    )
    assert not ran.stderr
    return ran.returncode, ran.stdout


@pytest.mark.parametrize(
    "more",
    [
        "",
        "sink = 2\n",
        "per_year = 2\nsink = 2\n",
        "panel = 2\n",
        'cutoff = "by year"\nfixed_cost = 2e6\n',
        'cutoff = "by year"\npushbacks = [0.6]\nlead = 2\npanel = 2\nsink = 3\n',
    ],
)
def test_it_comes_to_the_same_amounts(tmp_path, more):
    bundle, found = with_schedule(tmp_path, mines.table(9, 8, 5, 5), RICH + TERMS + more)
    status, said = checked(bundle)
    assert status == 0, said
    npv, bound = re.findall(r"worth (?:more than )?([\d,.]+)\n", said)
    assert Decimal(npv.replace(",", "")) == found.npv
    wanted = found.bound
    assert 0 <= wanted - Decimal(bound.replace(",", "")) < Decimal("0.00001")  # rounded up there


@pytest.fixture(scope="module")
def with_ways(tmp_path_factory):
    """A bundle of a schedule with a choice of ways, pushbacks and a fixed cost."""
    more = 'cutoff = "by year"\npushbacks = [0.6]\nfixed_cost = 2e6\n'
    return with_schedule(
        tmp_path_factory.mktemp("ways"), mines.table(9, 8, 5, 5), RICH + TERMS + more
    )[0]


def with_terms(**changes):
    """A change of terms.json: a new value, or what becomes of the one that is there."""

    def made(bundle):
        path = bundle / "schedule" / "terms.json"
        terms = json.loads(path.read_text())
        for name, change in changes.items():
            terms[name] = change(terms[name]) if callable(change) else change
        path.write_text(json.dumps(terms))

    return made


def lead_twice(bundle):
    """A key of terms.json with another value before its own."""
    path = bundle / "schedule" / "terms.json"
    path.write_text(path.read_text().replace('"lead":', '"lead": 9, "lead":'))


def later(bundle):
    """A block of the first pushback on the lowest bench of it is dug last."""
    last = bundle / "certificates" / "f00600.cert.gz"
    pit = [int(line.split()[1]) for line in gzip.open(last, "rt") if line.startswith("PIT")]
    place = {int(w[0]): int(w[3]) for w in map(str.split, open(bundle / "model" / "mine.blocks"))}
    low = min(pit, key=place.get)
    of_schedule(bundle, lambda text: re.sub(rf"^{low} \d+ ", f"{low} 5 ", text, flags=re.M))


def with_way(before, after):
    """The first line of a schedule that ends in one way, with another one."""
    return lambda bundle: of_schedule(
        bundle, lambda text: re.sub(rf" {before}\n", f"{after}\n", text, count=1)
    )


@pytest.mark.parametrize(
    "change, words",
    [
        (lead_twice, "schedule/terms.json: the key 'lead' comes twice in a table"),
        (with_way("0", " 1"), "schedule.csv"),
        (with_way("0", " 2"), "its way"),
        (with_way("0", ""), "for some blocks alone"),
        (with_way("1", " 0"), "its way|schedule.csv|uses"),
        (with_terms(fixed_cost=0), "flows|fixed cost|schedule.csv"),
        (with_terms(fixed_cost=lambda cost: cost + 1), "fixed cost|schedule.csv"),
        (with_terms(pushbacks=[]), "pushbacks|no pair|flows|IndexError|list index"),
        (with_terms(lead=1), "ahead of it|no pair|flows|pushbacks"),
        (later, "ahead of it|is dug before|uses"),
    ],
)
def test_what_is_changed_of_ways_pushbacks_and_costs_is_told(with_ways, tmp_path, change, words):
    found_wrong(with_ways, tmp_path / "bundle", change, words)


@pytest.fixture(scope="module")
def whole(tmp_path_factory):
    return with_schedule(
        tmp_path_factory.mktemp("bundle"), mines.table(9, 8, 5, 5), RICH + TERMS + "sink = 2\n"
    )[0]


def test_the_checker_of_pits_takes_a_study_with_a_schedule(whole):
    words = [sys.executable, "-I", whole / "recheck.py", os.environ["PIT"]]
    ran = subprocess.run(words, capture_output=True, text=True)
    assert ran.returncode == 0, ran.stdout
    assert ran.stdout.count("schedule/") == 6  # digests


@pytest.mark.parametrize("script", ["recheck.py", "plainly.py", "recheck_schedule.py"])
def test_no_file_beside_a_script_is_run_for_one_of_the_library(whole, tmp_path, script):
    bundle, ran = Path(shutil.copytree(whole, tmp_path / "bundle")), tmp_path / "ran"
    for name in ("argparse", "ast", "copy", "csv", "decimal", "gzip", "json", "math", "re"):
        (bundle / f"{name}.py").write_text(f"open({str(ran)!r}, 'a').write({name!r})\n")
    subprocess.run([sys.executable, bundle / script], capture_output=True)
    assert not ran.exists(), ran.read_text()


@pytest.mark.parametrize("how", ["compiled", "package"])
def test_no_code_beside_a_script_is_run_in_place_of_the_other_script(whole, tmp_path, how):
    bundle, ran = Path(shutil.copytree(whole, tmp_path / "bundle")), tmp_path / "ran"
    code = f"open({str(ran)!r}, 'w')\n"
    if how == "package":
        (bundle / "recheck").mkdir()
        (bundle / "recheck" / "__init__.py").write_text(code)
    else:
        (tmp_path / "recheck.py").write_text(code)
        (bundle / "__pycache__").mkdir()
        at = bundle / "__pycache__" / f"recheck.{sys.implementation.cache_tag}.pyc"
        unchecked = py_compile.PycInvalidationMode.UNCHECKED_HASH
        py_compile.compile(tmp_path / "recheck.py", at, invalidation_mode=unchecked)
    assert checked(bundle)[0] == 0
    assert not ran.exists()


def without_plan(whole, folder):
    """A copy of a bundle without the files of its plan, whose list of files was made anew."""
    bundle = Path(shutil.copytree(whole, folder))
    shutil.rmtree(bundle / "schedule")
    (bundle / "recheck_schedule.py").unlink()
    for path in bundle.glob("tables/schedule*.csv"):
        path.unlink()
    summed(bundle)
    return bundle


def test_a_plan_that_was_taken_out_is_noticed(whole, tmp_path):
    bundle = without_plan(whole, tmp_path / "bundle")
    lines, status = rechecked(bundle)
    assert status == 1
    (line,) = [line for line in lines if line.startswith("WRONG")]
    assert "the plan by years is in the bundle, which recheck_schedule.py checks: not so" in line
    facts = json.loads((bundle / "facts.json").read_text()) | {"has_schedule": False}
    (bundle / "facts.json").write_text(json.dumps(facts))
    summed(bundle)
    words = [sys.executable, "-I", bundle / "recheck.py", os.environ["PIT"]]
    ran = subprocess.run(words, capture_output=True, text=True)
    assert ran.returncode == 0, ran.stdout
    assert "look    study.toml asks for a plan by years, and the bundle has none" in ran.stdout


def test_a_section_without_any_key_asks_for_no_plan(tmp_path):
    """As `init` writes it, with all its keys as comments."""
    text = RICH + "\n[schedule]\n# years = 6\n"
    bundle = bundled(tmp_path, text, mines.table(6, 5, 3, 3))
    words = [sys.executable, "-I", bundle / "recheck.py", os.environ["PIT"]]
    ran = subprocess.run(words, capture_output=True, text=True)
    assert ran.returncode == 0, ran.stdout
    assert "plan by years" not in ran.stdout


def test_a_file_that_no_check_reads_is_told(whole, tmp_path):
    bundle = Path(shutil.copytree(whole, tmp_path / "bundle"))
    (bundle / "schedule2").mkdir()
    (bundle / "schedule2" / "plan.txt").write_text("0 0\n")
    digest = hashlib.sha256(b"0 0\n").hexdigest()
    with open(bundle / "SHA256SUMS", "a") as sums:
        sums.write(f"{digest}  schedule2/plan.txt\n")
    words = [sys.executable, "-I", bundle / "recheck.py", os.environ["PIT"]]
    ran = subprocess.run(words, capture_output=True, text=True)
    assert ran.returncode == 1
    assert "schedule2/plan.txt: nothing of a bundle has that name" in ran.stdout


def of_schedule(bundle, change):
    path = bundle / "schedule" / "schedule.txt"
    path.write_text(change(path.read_text()))


def earlier(text):
    """The last block is dug in the first year."""
    *lines, last = text.splitlines()
    latest = max(lines, key=lambda line: int(line.split()[1]))
    return text.replace(latest + "\n", latest.split()[0] + " 0\n")


def of_periods(name, change):
    def made(bundle):
        path = bundle / "schedule" / "periods.toml"
        found = re.search(rf"^{name} = (.*)$", path.read_text(), re.M)
        path.write_text(path.read_text().replace(found[1], str(change(json.loads(found[1])))))

    return made


def of_certificate(old, new):
    def made(bundle):
        path = bundle / "schedule" / "bound.cert.gz"
        text = gzip.decompress(path.read_bytes()).decode()
        path.write_bytes(gzip.compress(re.sub(old, new, text, count=1, flags=re.M).encode()))

    return made


def every_flow_twice(bundle):
    path = bundle / "schedule" / "bound.cert.gz"
    text = gzip.decompress(path.read_bytes()).decode()
    text = re.sub(r"^((?:SOURCE|REST|SINK) .*\n)", r"\1\1", text, flags=re.M)
    path.write_bytes(gzip.compress(text.encode()))


def a_bound_that_is_cut(bundle):
    path = bundle / "schedule" / "bound.cert.gz"
    path.write_bytes(path.read_bytes()[:-9])


def a_bound_without_line_ends(bundle):
    (bundle / "schedule" / "bound.cert.gz").write_bytes(gzip.compress(b"0" * (1 << 21)))


def of_line(name, old, new):
    def made(bundle):
        path = bundle / name
        text = re.sub(old, new, path.read_text(), count=1, flags=re.M)
        assert text != path.read_text()
        path.write_text(text)

    return made


def of_cell(name, row, column, change):
    """A cell of a table of the bundle."""

    def made(bundle):
        path = bundle / "tables" / name
        lines = [line.split(",") for line in path.read_text().splitlines()]
        at = lines[0].index(column)
        lines[row][at] = str(change(float(lines[row][at])))
        path.write_text("".join(",".join(line) + "\n" for line in lines))

    return made


def of_terms(bundle):
    path = bundle / "schedule" / "terms.json"
    path.write_text(json.dumps({**json.loads(path.read_text()), "sink": 1, "lag": 1}))


@pytest.mark.parametrize(
    "change, words",
    [
        (lambda b: of_schedule(b, earlier), "is dug before|sink rate|uses"),
        (lambda b: of_schedule(b, lambda text: text + text.splitlines()[0]), "schedule.txt"),
        (
            of_periods("capacities", lambda rows: [[1] * len(row) for row in rows]),
            "1 has 1 of mining",
        ),
        (of_periods("weights", lambda row: row[::-1]), "weights rise: period 2"),
        (of_periods("weights", lambda row: [row[0]] * len(row)), "period 2 weighs"),
        (of_periods("multipliers", lambda rows: [[-1, *row[1:]] for row in rows]), "at least 0"),
        (
            of_periods("multipliers", lambda rows: [[0] * len(row) for row in rows]),
            "flows .* isn't one of these periods",
        ),
        (of_certificate(r"^SOURCE (\d+) (\d+) 0$", r"SOURCE \1 9\2 0"), "flows"),
        (of_certificate(r"^REST (\d+) \d+ ", r"REST \1 \1 "), "no pair"),
        (of_certificate(r"^END\n", ""), "cut off"),
        (of_certificate(r"^SOURCE \d+ ", "SOURCE -1 "), "no such node"),
        (every_flow_twice, "more flows"),
        (a_bound_that_is_cut, "cut off"),
        (a_bound_without_line_ends, "has a line of more than"),
        (
            of_line("schedule/periods.toml", r"^(multipliers = .*)\b\d+\]\]", r"\1nan]]"),
            "whole number",
        ),
        (
            of_line("schedule/periods.toml", r"^(capacities = .*)\b\d+\]\]", r"\1inf]]"),
            "whole number",
        ),
        (of_terms, "sink rate|no pair|flows"),
        (of_line("study.toml", "discount = 0.08", "discount = 0.09"), "period 1 weighs"),
        (of_line("study.toml", r"years = 6", 'years = 6\nwhen = "end"'), "period 1 weighs"),
        (of_line("study.toml", r"\[600e3, 500e3\]", "[600e3, 510e3]"), "period 2 has .* of mining"),
        (of_line("study.toml", r"mill_rate = 400e3", "mill_rate = 401e3"), "period 1 .* of mill"),
        (of_line("study.toml", "years = 6", "years = 7"), "6 periods"),
        (of_line("study.toml", "sink = 2", "sink = 3"), "sink rate"),
        (of_line("study.toml", "sink = 2", "sink = 2\npanel = 2"), "panels"),
        (of_line("study.toml", "sink = 2", "sink = 2\nblend = 2"), "has blend"),
        (of_line("study.toml", "dilution = 0.05", "dilution = 0.06"), "brings and costs"),
        (of_line("table/t.csv", r"^(b\d+,[\d.]+,[\d.]+,[\d.]+),(\d+)", r"\1,9\2"), "tonnage"),
        (of_line("schedule/uses.blocks", r"^(\d+ \d+ \d+ \d+) 1(\d+)", r"\1 12\2"), "uses"),
        (of_cell("schedule.csv", 2, "rock_t", lambda v: v + 1000), "line 3"),
        (of_cell("schedule.csv", 2, "feed_t", lambda v: v / 1.05), "line 3"),
        (of_cell("schedule.csv", 1, "discounted", lambda v: v * 0.96), "discounted"),
        (of_cell("schedule.csv", 3, "npv", lambda v: v + 1), "npv"),
        (of_cell("schedule.csv", 2, "mining_used", lambda v: v / 2), "mining_used"),
        (of_cell("schedule.csv", 1, "grade_copper", lambda v: v * 1.1), "line 2"),
        (of_cell("schedule.csv", 2, "bottom", lambda v: v + 15), "period 2 comes to: bottom"),
        (
            of_cell("schedule_benches.csv", 2, "cash_flow", lambda v: v + 1000),
            "benches.csv, line 3",
        ),
        (of_cell("schedule_benches.csv", 2, "bench", lambda v: v + 15), "benches"),
    ],
)
def test_what_is_changed_is_told(whole, tmp_path, change, words):
    found_wrong(whole, tmp_path / "bundle", change, words)


def with_terms(change):
    """Terms that are read wrongly: weights and capacities of all that is found."""

    def made(patch):
        right = of_plan.terms_of
        patch.setattr(of_plan, "terms_of", lambda *words: change(right(*words)))

    return made


def feed_without_dilution(patch):
    made, uses = of_plan.production_of, pit_schedule.block_uses

    def less(array):
        return np.stack([array[0], array[1] * 100 // 105])

    def production(*words):
        found = made(*words)
        return replace(found, uses=less(found.uses))

    patch.setattr(of_plan, "production_of", production)
    patch.setattr(pit_schedule, "block_uses", lambda *words: less(uses(*words)))


@pytest.mark.parametrize(
    "mistake, words",
    [
        (with_terms(lambda t: replace(t, weights=tuple(w + 1 for w in t.weights))), "weighs"),
        (with_terms(lambda t: replace(t, weights=(10**6, *t.weights[:-1]))), "period 1 weighs"),
        (
            with_terms(lambda t: replace(t, capacities=(t.capacities[0][::-1], t.capacities[1]))),
            "period 1 has 500000000 of mining, and by study.toml 600000000",
        ),
        (with_terms(lambda t: replace(t, sink=3)), "sink rate"),
        (feed_without_dilution, "of mill, and by the table"),
    ],
)
def test_a_schedule_that_was_found_by_other_terms_is_told(tmp_path, monkeypatch, mistake, words):
    """Texts, bound and certificate agree with each other, and not with study.toml or the table."""
    mistake(monkeypatch)
    bundle, _ = with_schedule(tmp_path, mines.table(9, 8, 5, 5), RICH + TERMS + "sink = 2\n")
    status, said = checked(bundle)
    assert status == 1, said
    assert re.search(words, said), said
    assert said.startswith("WRONG"), said


def flow(folder, monkeypatch, lines, lag=1):
    """What a flow takes from the source: two units in three periods, the first of which waits for the
    second. By the end of the last period the first is worth 5, and the second costs 5 by that of each
    before."""
    (folder / "schedule").mkdir()
    text = "".join(f"{line}\n" for line in [*lines, "END"])
    (folder / "schedule" / "bound.cert.gz").write_bytes(gzip.compress(text.encode()))
    monkeypatch.setattr(recheck_schedule.recheck, "HERE", folder)
    node = [(unit, t) for t in range(3) for unit in range(2)]
    worths = [0, -5, 0, -5, 5, 0]
    return recheck_schedule.flow_of(node, worths, [set(), set()], [{1}, set()], lag)


@pytest.mark.parametrize("lag, to", [(1, 3), (2, 1)])
def test_a_flow_by_hand_pays_for_what_a_unit_waits_for(tmp_path, monkeypatch, lag, to):
    lines = ["SOURCE 4 5 0", f"REST 4 {to} 5 0", f"SINK {to} 2 0", f"SINK {to} 3 0"]
    assert flow(tmp_path, monkeypatch, lines, lag) == 5


@pytest.mark.parametrize(
    "lines, words",
    [
        (["SOURCE 4 5 0", "REST 4 1 5 0", "SINK 1 5 0"], "from 4 to 1, which is no pair"),
        (["SOURCE 4 5 0", "SINK 3 5 0"], "doesn't flow out of it"),
        (["SOURCE 4 5 0", "REST 4 3 6 0", "SINK 3 3 0", "SINK 3 3 0"], "out of 3 than it costs"),
        (["SOURCE 4 3 0", "SOURCE 4 3 0"], "into 4 than it is worth"),
        (["SOURCE 4 5 0", "REST 3 4 5 0"], "from 3 to 4, which is no pair"),
    ],
)
def test_a_flow_by_hand_that_is_none_is_told(tmp_path, monkeypatch, lines, words):
    """Over two periods where one is asked for, that isn't handed on, or that passes in two lines what
    a node has: each would make the bound too low."""
    with pytest.raises(recheck_schedule.Wrong, match=words):
        flow(tmp_path, monkeypatch, lines)
