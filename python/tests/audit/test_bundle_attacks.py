"""What somebody may plant who makes a bundle and all its digests: files that two programs read
differently, terms and columns that no check reads, and blocks that no row speaks for. Each is told,
and the bundle without it holds."""
import gzip
import json
import os
import re
import shutil
import subprocess
import sys
from pathlib import Path

import pytest

import mines
from bundles import bundled, rechecked, resealed, with_schedule
from pitplan.audit import recheck
from pitplan.table import study_keys

RICH = mines.STUDY_TOML.replace("price = 8500", "price = 24000")
TERMS = "\n[schedule]\nyears = 5\nmining_rate = 600e3\nmill_rate = 400e3\n"
WIDE = (
    mines.STUDY_TOML.replace("[economics]", "widen = 1\nmissing = 'rock'\n[economics]")
    .replace("mining = 2.0", "mining = \"2 + 0.01 * abs(150 - ZC) + 0.5 * (rock == 'OXI')\"")
    .replace("angles = 45", 'angles = 45\nby = "SECTOR"\nregions = { WEST = 38 }')
    .replace("[economics]", 'fill = { tonnes = 9000, rock = "OXI" }\n\n[economics]')
)


@pytest.fixture(scope="module")
def whole(tmp_path_factory):
    return bundled(tmp_path_factory.mktemp("whole"))


@pytest.fixture(scope="module")
def planned(tmp_path_factory):
    """A plan of single blocks."""
    return with_schedule(tmp_path_factory.mktemp("planned"), mines.table(7, 6, 4, 5), RICH + TERMS)[
        0
    ]


@pytest.fixture(scope="module")
def wide(tmp_path_factory):
    """A model with columns added on each side, and with a hole that is filled."""
    frame = mines.table(7, 6, 4, 3)
    column = frame[(frame.XC == 5040) & (frame.YC == 9040)].sort_values("ZC")
    assert len(column) > 2
    return bundled(tmp_path_factory.mktemp("wide"), WIDE, frame.drop(column.index[1]))


def told(whole, folder, change):
    """What recheck.py says of a copy that was changed and sealed again."""
    copy = Path(shutil.copytree(whole, folder / "copy"))
    change(copy)
    resealed(copy)
    return rechecked(copy)


def is_told(whole, folder, change, words):
    lines, status = told(whole, folder, change)
    assert status == 1, lines
    assert any(line.startswith("WRONG") and words in line for line in lines), lines


def told_of_plan(whole, folder, change):
    """Likewise recheck_schedule.py."""
    copy = Path(shutil.copytree(whole, folder / "copy"))
    change(copy)
    resealed(copy)
    words = [sys.executable, "-I", copy / "recheck_schedule.py"]
    ran = subprocess.run(words, capture_output=True, text=True)
    assert not ran.stderr
    return ran.returncode, ran.stdout


@pytest.mark.parametrize("bundle", ["whole", "planned", "wide"])
def test_the_honest_bundles_hold(bundle, request):
    folder = request.getfixturevalue(bundle)
    lines, status = rechecked(folder, "--plainly")
    assert (status, len(lines)) == (0, 1), lines
    if bundle == "planned":
        ran = subprocess.run(
            [sys.executable, "-I", folder / "recheck_schedule.py"], capture_output=True, text=True
        )
        assert ran.returncode == 0, ran.stdout


def of_bytes(name, change):
    """The bytes of a file."""

    def made(folder):
        path = folder / name
        found = change(path.read_bytes())
        assert found != path.read_bytes()
        path.write_bytes(found)

    return made


def of_text(name, old, new, count=1):
    """Text of a file that is another."""
    return of_bytes(name, lambda data: re.sub(old.encode(), new.encode(), data, count, re.M))


def second_record(data):
    """Block 7 costs a million to `pit`, and what it does to who takes CR for the end of a line."""
    lines = data.decode().split("\n")
    cells = lines[7].split()
    lie = [*cells[:4], "0", "0", "1000000", *cells[7:]]
    lines[7] = " ".join(lie) + "\r" + lines[7]
    return "\n".join(lines).encode()


def joined(mark):
    """Two fields of block 7, for one program a single one."""
    return lambda data: re.sub(rb"(?m)^(7 \d+ \d+ \d+ \d+) ", rb"\1" + mark, data, count=1)


BLOCKS = "model/mine.blocks"
FORM = "and has to be a place of three whole numbers, and numbers in the columns"


@pytest.mark.parametrize(
    "change, words",
    [
        (of_bytes(BLOCKS, second_record), FORM),
        *(
            (of_bytes(BLOCKS, joined(mark)), FORM)
            for mark in (b":", b"\x0b", b"\x1c", b"\t", b"  ")
        ),
        (of_bytes(BLOCKS, lambda data: data.replace(b"\n", b"\r\n", 1)), FORM),
        (of_bytes(BLOCKS, lambda data: data[:-1]), "a line feed, which isn't there"),
        (
            of_bytes(BLOCKS, lambda data: data + data.split(b"\n")[4] + b"\n"),
            "is a second one of block 4",
        ),
        (of_bytes(BLOCKS, lambda data: data.replace(b"\n", b" 5\n", 1)), "7 fields"),
        (of_bytes(BLOCKS, lambda data: data.replace(b"\n", b" 5\n")), "7 fields"),
        (of_bytes(BLOCKS, lambda data: b"% the mine\n" + data), "begins with no number of a block"),
        *((of_text(BLOCKS, "^7 ", start), FORM) for start in ("07 ", "7 0", "7 -0", "7 +")),
        (of_text(BLOCKS, r"^(7 \d+ \d+ \d+) ", r"\1 0"), FORM),
        (
            of_text("model/settings.toml", "mining = 2", "mining = 3"),
            "other columns of mine.blocks",
        ),
        (of_text("model/settings.toml", "mining = 2", "mining = 2\nsense = 7"), "or other keys"),
        (
            of_text("model/settings.toml", "mining = 2", "mining = 2 # x\r"),
            r"has the character '\r'",
        ),
        (of_text("facts.json", '"mining"', '"hauling"'), "the columns of model/mine.blocks are"),
    ],
)
def test_what_pit_reads_otherwise_is_wrong(whole, tmp_path, change, words):
    is_told(whole, tmp_path, change, words)


def two_members(name):
    """The first PIT lines are one member of gzip, and the rest a second one."""

    def made(folder):
        text = gzip.decompress((folder / name).read_bytes())
        at = text.rindex(b"PIT ")
        (folder / name).write_bytes(gzip.compress(text[:at]) + gzip.compress(text[at:]))

    return made


PIT = "certificates/f01000.cert.gz"
MORE = "bytes follow the end of what is packed"


@pytest.mark.parametrize("change", [two_members(PIT), of_bytes(PIT, lambda data: data + b"\0" * 9)])
def test_what_follows_the_end_of_a_certificate_is_wrong(planned, tmp_path, change):
    (tmp_path / "other").mkdir()
    is_told(planned, tmp_path, change, f"the certificate at factor 1: {MORE}")
    status, said = told_of_plan(planned, tmp_path / "other", change)
    assert (status, said) == (1, f"WRONG {PIT}: {MORE}, as of a second member of gzip\n")


def fewer_blocks(folder):
    """A certificate of one block less, as a reader of the first member alone has it."""
    text = gzip.decompress((folder / PIT).read_bytes())
    (folder / PIT).write_bytes(gzip.compress(text[: text.rindex(b"PIT ")]))


def first_twice(data):
    return data + data.split(b"\n")[0] + b"\n"


UNITS, USES = "schedule/units.txt", "schedule/uses.blocks"
PLAN, PERIODS, TERMS_FILE = (
    f"schedule/{n}" for n in ("schedule.txt", "periods.toml", "terms.json")
)
CERTIFICATE = "schedule/bound.cert.gz"


@pytest.mark.parametrize(
    "change, words",
    [
        (fewer_blocks, "PIT lines, and verdicts.json says"),
        (of_bytes(UNITS, first_twice), "units.txt has a second line of block"),
        (of_text(USES, "^3 0 ", "3\v0 "), r"uses.blocks has the line '3\x0b0"),
        (of_text(USES, "^3 0 ", "3:0 "), "uses.blocks has the line '3:0"),
        (of_text(USES, "$", "\r"), "uses.blocks has the line"),
        (of_text("schedule/schedule.txt", "$", "\r9 9"), "schedule.txt has the line"),
        (of_text(PERIODS, "$", " # a\r"), r"has the character '\r'"),
        (of_text(PERIODS, r"\]$", "] # all of it"), "periods.toml, line 1, is 'weights"),
        (of_text(PERIODS, r"\b0\b", "0x0"), "periods.toml, line 2, is 'resources"),
        (of_text(PERIODS, "600000000", "600_000_000"), "periods.toml, line 3, is 'capacities"),
        (of_text(PERIODS, r"\Z", "waits = []\n"), "waits is [], and has to be a list of 1 or more"),
        (of_text(TERMS_FILE, ": ", ":"), "terms.json, line 1, is"),
        (of_text("schedule/schedule.txt", "^", "0"), "line 1, has '00', and has to have a plain"),
        (
            of_text("schedule/schedule.txt", "^0 ", "-0 "),
            "line 1, has '-0', and has to have a plain",
        ),
        (of_text(UNITS, "^", "0"), "units.txt, line 1, has '00', and has to have a plain"),
        (of_text(USES, "^3 0 ", "3 00 "), "uses.blocks, line 4, has '00', and has to have a plain"),
        (of_bytes(UNITS, lambda data: data[:-1]), "units.txt has no line feed at its end"),
    ],
)
def test_what_pit_reads_otherwise_of_a_plan_is_wrong(planned, tmp_path, change, words):
    status, said = told_of_plan(planned, tmp_path, change)
    assert status == 1, said
    assert said.startswith("WRONG"), said
    assert words in said, said


def of_terms(**values):
    """Other values of terms.json."""

    def made(folder):
        path = folder / TERMS_FILE
        path.write_text(json.dumps(json.loads(path.read_text()) | values))

    return made


def without_flow(folder):
    """A certificate that pays for nothing: a flow all the same."""
    lines = gzip.decompress((folder / CERTIFICATE).read_bytes()).split(b"\n")
    kept = [line for line in lines if not line.startswith((b"SOURCE", b"REST", b"SINK"))]
    (folder / CERTIFICATE).write_bytes(gzip.compress(b"\n".join(kept)))


def one_byte_less(data):
    """The last byte of the checksum is another."""
    return data[:-5] + bytes([data[-5] ^ 255]) + data[-4:]


def of_packed(old, new):
    """Text of the certificate of the bound."""

    def made(folder):
        text = gzip.decompress((folder / CERTIFICATE).read_bytes()).decode()
        assert text != (changed := re.sub(old, new, text, count=1, flags=re.M))
        (folder / CERTIFICATE).write_bytes(gzip.compress(changed.encode()))

    return made


def emptied(name):
    return of_bytes(name, lambda data: b"")


COST = "fixed_cost is {}, and has to be a whole number from 0 to"


@pytest.mark.parametrize(
    "change, words",
    [
        (of_terms(sink=10**9), f"{TERMS_FILE}: the sink rate isn't that of study.toml"),
        *(
            (of_terms(sink=sink), f"{TERMS_FILE}: sink is {said}, and has to be null or a whole")
            for sink, said in ((0, "0"), (True, "true"), (2.0, "2.0"), ([], "[]"))
        ),
        (of_terms(lead="x"), f"{TERMS_FILE}: lead is 'x', and has to be a whole number from 0 to"),
        (of_terms(lead=10**9), f"{TERMS_FILE}: lead is 1000000000, and has to be"),
        (of_terms(lag=0), f"{TERMS_FILE}: lag is 0, and has to be a whole number from 1 to"),
        (of_terms(fixed_cost=-1), COST.format(-1)),
        (of_terms(fixed_cost=True), COST.format("true")),
        (of_terms(pushbacks=5), f"{TERMS_FILE}: pushbacks is 5, and has to be a list of whole"),
        (of_terms(bound=5), f"{TERMS_FILE}: bound is 5, and has to be an amount in quotes"),
        (of_text(TERMS_FILE, '"lead": 0, ', ""), f"{TERMS_FILE}: lead isn't there, and has to be"),
        (of_text(UNITS, r"^(\d+) 3$", r"\1 1000000"), f"{UNITS}: block 4 has unit 1000000, and has"),
        (of_text(UNITS, r"^(\d+) 3$", r"\1 1000000000"), f"{UNITS}: block 4 has unit 1000000000"),
        (of_text(UNITS, r"^(\d+) 3$", r"\1 2"), f"{UNITS} joins blocks, and study.toml asks for no"),
        (of_text(UNITS, "$", " 7"), f"{UNITS}, line 1, has 3 words, and has to have 2: a block"),
        (of_text(UNITS, "^0", "X"), f"{UNITS}, line 1, has 'X', and has to have a plain whole"),
        (of_text(UNITS, "^0", "9999"), f"{UNITS}, line 1, is of block 9999, which isn't in the model"),
        (of_text(PLAN, "^0", "9999"), f"{PLAN}, line 1, is of block 9999, which isn't in the model"),
        (of_text(PLAN, r"^0 \d+", "0 5"), f"{PLAN}, line 1, digs block 0 in period 5 of 5"),
        (of_bytes(PLAN, first_twice), f"{PLAN} has a second line of block 0: line 89"),
        (emptied(PLAN), f"{PLAN} is empty: it has to have a line for each block that is dug"),
        (emptied(UNITS), f"{UNITS} is empty: it has to have a line for each block of the pit"),
        (emptied(USES), f"{USES} hasn't a line for each block of the model"),
        (of_text(PERIODS, "^weights.*\n", ""), f"{PERIODS}: weights isn't there, and has to be a list"),
        (of_text(PERIODS, "^weights.*", "weights = 5"), f"{PERIODS}: weights is 5, and has to be a list"),
        (of_text(PERIODS, r"\[\d+,", "[true,"), f"{PERIODS}: weights is [True, "),
        (of_text(PERIODS, r"\[\d+,", "[1.5,"), f"{PERIODS}: weights is [1.5, "),
        (of_text(PERIODS, "^weights.*", "weights = [1, 2, 3, 4, 5]"), f"{PERIODS}: weights rise: period 2"),
        (of_text(PERIODS, "890973", "890974"), f"{PERIODS}: period 2 weighs 890974, and by study.toml"),
        (of_text(PERIODS, r"\[\[\d+, ", "[["), f"{PERIODS}: capacities aren't lists of 5 periods for 2"),
        (of_text(PERIODS, r"^(multipliers.*)\[[^\]]*\]\]", r"\1[9, 9, 9, 9, 9]]"), "isn't one of these periods"),
        (of_bytes(CERTIFICATE, one_byte_less), f"{CERTIFICATE}: the packed file is damaged"),
        (of_packed("^SOURCE", "SOURCE 1"), f"{CERTIFICATE}, line"),
        (of_packed("^SOURCE ", "SOURCE X"), "and has to have a plain whole number"),
        (of_text("study.toml", r"years = 5\nmining_rate = 600e3", "mining_rate = 1e-9"), "has 5 periods, and"),
    ],
)  # fmt: skip
def test_a_plan_of_values_that_may_not_be_is_told_by_file_and_key(planned, tmp_path, change, words):
    """At once, and with little memory, however large a number is."""
    status, said = told_of_plan(planned, tmp_path, change)
    assert status == 1, said
    assert said.startswith("WRONG"), said
    assert words in said, said


@pytest.mark.parametrize("more", ["", "panel = 2\n", "pushbacks = [0.6]\nfixed_cost = 2e6\n"])
def test_a_certificate_that_proves_less_is_told(tmp_path, more):
    """No flow is a flow, whose bound is larger than the one that the planner was shown."""
    frame, text = mines.table(7, 6, 4, 5), RICH + TERMS + more
    folder, found = with_schedule(tmp_path, frame, text, (0.05, 60))
    path = folder / TERMS_FILE
    terms = json.loads(path.read_text())
    assert (terms["npv"], terms["bound"]) == (f"{found.npv:f}", f"{found.bound:f}")
    (tmp_path / "other").mkdir()
    status, said = told_of_plan(folder, tmp_path, without_flow)
    assert status == 1, said
    assert f"bound, which the planner was shown, is {found.bound:f}, and here it comes to" in said
    status, said = told_of_plan(folder, tmp_path / "other", of_terms(npv=f"{found.npv + 1:f}"))
    assert (status, "npv, which the planner was shown, is" in said) == (1, True), said


def test_a_sink_rate_of_more_benches_than_there_are_holds(tmp_path):
    """It asks for nothing, and isn't counted out."""
    text = RICH + TERMS + "sink = 1000000000\n"
    folder = with_schedule(tmp_path, mines.table(7, 6, 4, 5), text, (0.05, 60))[0]
    status, said = told_of_plan(folder, tmp_path, lambda copy: None)
    assert status == 0, said


def test_a_plan_of_single_blocks_is_one_by_study_toml(planned, tmp_path, capsys, monkeypatch):
    """A line of units.txt twice doesn't make panels of it: `pit` is asked for the bound all the
    same."""
    copy = Path(shutil.copytree(planned, tmp_path / "copy"))
    of_bytes(UNITS, first_twice)(copy)
    monkeypatch.setattr(recheck, "HERE", copy)
    recheck.check_planned(recheck.Report(), os.environ["PIT"], False)
    assert re.search(r"ok +pit schedule of the plan by years.* BOUND ", capsys.readouterr().out)


@pytest.mark.parametrize(
    "old, new, words",
    [
        ("mining = 2.0", "mining = 2.0\nroyalty = 0.05", "[economics] 'royalty'"),
        ("angles = 45", "angles = 45\nberm = 12", "[slopes] 'berm'"),
        (r"\[shells\]", "[shells]\ntax = 0.30", "[shells] 'tax'"),
        (r"\[shells\]", "[geotechnics]\nfactor = 1.5\n[shells]", "'geotechnics'"),
        (r"\[shells\]", "[schedule]\nescalation = 0.05\n[shells]", "[schedule] 'escalation'"),
        ("price = 8500", "price = 8500, royalty = 0.05", "[economics] metals, number 1, 'royalty'"),
        ("size =", "dilutoin = 0.1\nsize =", "[model] 'dilutoin'"),
        ("size =", "columns = { grade = 'CU' }\nsize =", "[model] columns, 'grade'"),
    ],
)
def test_a_key_that_nothing_reads_is_wrong(whole, tmp_path, old, new, words):
    change = of_text("study.toml", old, new)
    is_told(
        whole,
        tmp_path,
        change,
        f"each key of study.toml is one that pitplan reads: not so for {words}",
    )


def test_the_keys_are_those_of_pitplan():
    for section in study_keys.SECTIONS:
        known = {*recheck.STUDY[section], *recheck.TO_BUILD.get(section, ())}
        assert known == set(study_keys.keys_of(section)), section
    assert set(recheck.STUDY) == set(study_keys.SECTIONS)
    assert set(recheck.METAL) == set(study_keys.keys_of(study_keys.METALS))
    assert set(recheck.PROCESS) == set(study_keys.keys_of(study_keys.PROCESSES))
    assert recheck.ROLES == set(study_keys.keys_of("model")["columns"].choices)


def half_as_high(folder):
    """Blocks of half the table's height, and each second level empty."""
    of_text("study.toml", r"size = \[20, 20, 15\]", "size = [20, 20, 7.5]")(folder)
    facts = json.loads((folder / "facts.json").read_text())
    facts["grid"]["size"][2] = 7.5
    (folder / "facts.json").write_text(json.dumps(facts))
    rows = [line.split(" ") for line in (folder / BLOCKS).read_text().splitlines()]
    lines = (" ".join([*row[:3], str(2 * int(row[3])), *row[4:]]) for row in rows)
    (folder / BLOCKS).write_text("".join(f"{line}\n" for line in lines))


def test_a_size_by_which_no_blocks_are_neighbours_is_wrong(whole, tmp_path):
    words = "apart: along z no two are neighbours, all are 2 of 7.5 apart"
    is_told(whole, tmp_path, half_as_high, words)


def of_added(change, fills=False):
    """The fields of a block that was added: the last one, or that of the hole."""

    def made(folder):
        listed = [
            line.split(",") for line in (folder / "tables" / "blocks.csv").read_text().split()
        ]
        added = [int(cells[0]) for cells in listed[1:] if cells[1] == "0"]
        assert len(added) > 20
        lines = (folder / BLOCKS).read_text().split("\n")
        block = added[0] if fills else added[-1]
        cells = lines[block].split(" ")
        if fills:
            assert cells[7] == "9000.0"
        change(cells)
        lines[block] = " ".join(cells)
        (folder / BLOCKS).write_text("\n".join(lines))

    return made


def put(at, value):
    return lambda cells: cells.__setitem__(at, value(cells[at]))


@pytest.mark.parametrize("fills", [False, True])
@pytest.mark.parametrize(
    "at, value, words",
    [
        (6, lambda cell: "0", "what each block brings and costs"),
        (6, lambda cell: str(int(cell) + 2), "what each block brings and costs"),
        (4, lambda cell: "5", "what each block brings and costs"),
        (7, lambda cell: "0.0", "and weigh what study.toml says: not so for 1"),
        (8, lambda cell: str(1 - int(cell)), "each block is in the region"),
    ],
)
def test_what_is_said_of_added_blocks_is_worked_out_again(wide, tmp_path, fills, at, value, words):
    is_told(wide, tmp_path, of_added(put(at, value), fills), words)


@pytest.mark.parametrize(
    "bundle, old, new, words",
    [
        (
            "wide",
            "widen = 1",
            "widen = 2",
            "the blocks that widen and missing of study.toml ask for are there: not so",
        ),
        (
            "whole",
            "size =",
            "widen = 3\nsize =",
            "the blocks that widen and missing of study.toml ask for are there: not so",
        ),
        (
            "wide",
            "missing = 'rock'",
            "missing = 'refuse'",
            "within the model have no row, which pitplan refuses",
        ),
        (
            "wide",
            "missing = 'rock'",
            "missing = 'air'",
            "and weigh what study.toml says: not so for 1",
        ),
        ("wide", "tonnes = 9000", "tonnes = 9001", "and weigh what study.toml says: not so for 1"),
        ("wide", 'rock = "OXI"', 'rock = "SUL"', "what each block brings and costs"),
        ("whole", "size =", "widen = 1000000\nsize =", "makes more blocks than pit reads"),
    ],
)
def test_blocks_that_study_toml_asks_for_are_there(request, tmp_path, bundle, old, new, words):
    is_told(request.getfixturevalue(bundle), tmp_path, of_text("study.toml", old, new), words)


def column_twice(name, title):
    """A false column before the right one of the same name."""

    def made(folder):
        path = folder / "tables" / name
        head, *lines = path.read_text().splitlines()
        assert title in head.split(",")
        path.write_text(
            "".join(f"{line}\n" for line in (f"{title},{head}", *(f"9,{line}" for line in lines)))
        )

    return made


def line_twice(name):
    """A false line of a bench, year, factor or block before the right one."""

    def made(folder):
        path = folder / "tables" / name
        head, first, *lines = path.read_text().splitlines()
        cells = first.split(",")
        lie = ",".join([*cells[:-1], "9"])
        path.write_text("".join(f"{line}\n" for line in (head, lie, first, *lines)))

    return made


@pytest.mark.parametrize(
    "name, title",
    [("pit_by_pit.csv", "worth_at_factor"), ("benches.csv", "worth"), ("blocks.csv", "shell")],
)
def test_a_column_or_a_line_that_comes_twice_is_wrong(whole, tmp_path, name, title):
    for folder in ("one", "other"):
        (tmp_path / folder).mkdir()
    is_told(
        whole, tmp_path / "one", column_twice(name, title), f"{name} has the column '{title}' twice"
    )
    is_told(
        whole,
        tmp_path / "other",
        line_twice(name),
        f"tables/{name}" if name != "blocks.csv" else "each of the",
    )


@pytest.mark.parametrize(
    "name, title", [("schedule.csv", "npv"), ("schedule_benches.csv", "rock_t")]
)
def test_a_column_or_a_line_of_a_plan_that_comes_twice_is_wrong(planned, tmp_path, name, title):
    for folder in ("one", "other"):
        (tmp_path / folder).mkdir()
    status, said = told_of_plan(planned, tmp_path / "one", column_twice(name, title))
    assert status == 1
    assert f"{name} has the column '{title}' twice" in said
    status, said = told_of_plan(planned, tmp_path / "other", line_twice(name))
    assert status == 1
    assert re.search("is a second one of its bench|hasn't a line for each period", said), said


@pytest.mark.parametrize(
    "name",
    [
        *("tables/summary.csv", "model/mine.prec", "table/assays.csv", "schedule/extra.txt"),
        *("certificates/f00700.cert.gz", "more/deep/in.txt", "tables/more/benches.csv"),
    ],
)
def test_a_file_that_no_check_knows_is_wrong_at_any_depth(planned, tmp_path, name):
    def change(folder):
        (folder / name).parent.mkdir(parents=True, exist_ok=True)
        (folder / name).write_text("1\n")

    is_told(planned, tmp_path, change, f"{name}: nothing of a bundle has that name")
