"""Damaged studies, for `fuzzing`.

A sample is a study.toml and a table that were sound, with one to four changes: keys, values and
sections that are others, cells and lines that are gone, doubled or others, bytes that are no text.
Each is read and priced, and what `check` says of its plan by years is asked for; of one of 4 all that
`check` says, and of one of 100 the slopes are searched. `pit` isn't run.
"""
import re
from contextlib import contextmanager

import fuzzing
import mines
from pitplan.base.errors import exit_status
from pitplan.base.errors import PlanError
from pitplan.schedule.terms import terms_of, wrong_terms
from pitplan.study import check
from pitplan.study.study_file import read_study_file

FULL = """[model]
table = "t.csv"
size = [20, 20, 15]
rotation = 0
z = "elevation"
missing = "refuse"
absent = ["-99", "-"]
regularise = false
widen = 1
columns = { rock = "ROCK" }

[economics]
mining = "2.0 + 0.01 * (200 - ZC) / 15"
processing = { OXI = 7.5, SUL = 9.0 }
mill = ["OXI", "SUL"]
dilution = 0.03
mining_recovery = 0.97
rounding = 1
currency = "$"
forbid = ["XC > 12000"]
metals = [ { name = "copper", grade = "CU", grade_unit = "%", price = 8500, price_unit = "t", recovery = 0.85, payable = 0.96, selling = 400 },
           { name = "gold", grade = "AU", grade_unit = "g/t", price = 1900, price_unit = "oz", recovery = "min(1, AU)" } ]

[slopes]
angles = 42
by = "SECTOR"
regions = { WEST = 38 }
safe = false

[shells]
factors = { from = 0.3, to = 1.2, step = 0.1 }
mining_rate = 1e6
mill_rate = 5e5
discount = 0.08
"""
BY_YEARS = """[model]
table = "t.csv"
size = [20, 20, 15]
columns = { x = "XC", y = "YC", class = "CLASS" }
tonnes = "TONNES * 0.9"
units = { length = "ft", weight = "st" }
missing = "rock"
fill = { tonnes = 9000, ROCK = "OXI" }
encoding = "utf-8"
decimal = "."
skip = 0

[economics]
mining = { OXI = 2.0, SUL = 2.5 }
waste_classes = ["INF"]
exchange = { EUR = 1.08 }
metals = [
  { name = "copper", grade = "CU", price = 8500, selling = 300, currency = "EUR", recovery = { OXI = 0.7, SUL = 0.9 } },
]
[[economics.processes]]
name = "mill"
cost = "9 + CU"
rate = 4e5
recovery = { copper = 0.88 }
payable = { copper = 0.96 }
dilution = 0.02
mining_recovery = 0.98
[[economics.processes]]
name = "leach"
rocks = ["OXI"]
cost = 3.5
rate = 2e5

[slopes]
angles = [[0, 40], [180, 48]]
by = "where(below_ground < 30, 'WEATHERED', 'FRESH')"
regions = { WEATHERED = 38, FRESH = [[0, 42], [180, 50]] }
ramp = { WEATHERED = { width = 10, grade = 0.10, height = 60, turns = 1 } }
levels = 6

[shells]
factors = [0.6, 0.8, 1.0]
mining_rate = 1e6
discount = 0.08

[schedule]
years = 6
per_year = 2
when = "end"
mining_rate = [600e3, 500e3]
process_rates = { mill = [0, 3e5], leach = 1e5 }
discount = 0.07
cutoff = "by year"
sink = 3
panel = 2
pushbacks = [0.6, 0.8]
lead = 1
fixed_cost = 250e3
"""
MILLED = (
    mines.STUDY_TOML
    + """
[schedule]
mining_rate = 900e3
mill_rate = [0, 4e5]
when = "start"
"""
)
WHOLE = (FULL, BY_YEARS, MILLED)
VALUES = [
    "0",
    "-1",
    "1e400",
    "-1e400",
    "nan",
    "inf",
    "-inf",
    "1e-320",
    "true",
    "false",
    '""',
    '"x"',
    '"-"',
    "[]",
    "[1]",
    "[[]]",
    "[[0, 45]]",
    "[[0, 45], [0, 50]]",
    "[[0, 40], [90, 45]]",
    "[[0, nan]]",
    "{}",
    "{ a = 1 }",
    "9223372036854775807",
    "-9223372036854775808",
    "1979-05-27",
    "07:32:00",
    '"1+"',
    '"CU"',
    '"ROCK"',
    '"CU > 1"',
    '"sqrt(-1)"',
    '"1/0"',
    '"ZC.x"',
    "0.5",
    "100",
    "1e12",
    "[0.5, 1.0]",
    "[1, 1]",
    '["a", 1]',
    "{ from = 1 }",
    "{ from = 0, to = 1e9, step = 1e-9 }",
    '"\\u0000"',
    '"[red]"',
    "[1e5, 1e5, 1e5]",
    "[1e-5, 1, 1]",
    "[nan, 1, 1]",
    "[true, 1, 1]",
    '["a", "b", "c"]',
    "89.999",
    "1e-9",
    "90",
]
TIMES = (0, 0.1, 0.5, 0.9, 1.1, 2, 10, 1e6)  # what a number is multiplied by
CELLS = [
    "",
    "-99",
    "-",
    "x",
    "nan",
    "inf",
    "-inf",
    "1e400",
    "1,5",
    '"',
    '"a\nb"',
    "1e5",
    "-5",
    "0",
    "1_000",
    "0x10",
    " 5 ",
    "=1+1",
    "5%",
    "\u0663",
    "1e-320",
    "99999999999999999999",
    "true",
    "\x00",
    "\x1b[2J",
    "None",
]


def changed_study(text, r):
    """A study.toml with a change."""
    lines = text.split("\n")
    at = r.choice([i for i, line in enumerate(lines) if line.strip()] or [0])
    kind = r.choice(
        ["value"] * 4
        + ["inner"] * 3
        + ["number"] * 5
        + ["gone", "doubled", "key", "section", "byte", "moved"]
    )
    if kind == "value" and "=" in lines[at]:
        lines[at] = lines[at].split("=")[0] + "= " + r.choice(VALUES)
    elif kind == "number":
        parts = re.split(r"(?<=[ \[])(\d+(?:\.\d+)?(?:e\d+)?)", lines[at])
        if len(parts) > 1:
            place = r.randrange(1, len(parts), 2)
            parts[place] = f"{float(parts[place]) * r.choice(TIMES):.12g}"
        lines[at] = "".join(parts)
    elif kind == "inner":
        parts = re.split(r'(-?[\d.]+|"[^"]*"|true|false)', lines[at])
        if len(parts) > 1:
            parts[r.randrange(1, len(parts), 2)] = r.choice(VALUES)
        lines[at] = "".join(parts)
    elif kind == "key" and "=" in lines[at]:
        lines[at] = (
            r.choice(["x", "table", "size", "angles", "mining", '"a b"', "z"])
            + " ="
            + lines[at].split("=", 1)[1]
        )
    elif kind == "section":
        lines.insert(
            at,
            r.choice(["[model]", "[x]", "[economics.metals]", "[[shells]]", "[slopes]", "x = 1"]),
        )
    elif kind == "doubled":
        lines.insert(at, lines[at])
    elif kind == "moved":
        lines.insert(r.randrange(len(lines)), lines.pop(at))
    elif kind == "byte":
        place = r.randrange(len(text) + 1)
        return (
            text[:place]
            + r.choice(['"', "[", "]", "{", "}", "=", "\x00", "\n", "#", "é", ","])
            + text[place + r.randrange(3) :]
        )
    else:
        del lines[at]
    return "\n".join(lines)


def changed_table(data, r):
    """A table with a change."""
    lines = data.split(b"\n")
    at = r.randrange(len(lines))
    cells = lines[at].split(b",")
    kind = r.choice(
        ["cell"] * 5
        + ["column"] * 2
        + ["gone", "doubled", "short", "long", "header", "byte", "cut", "separator"]
    )
    if kind == "cell":
        cells[r.randrange(len(cells))] = r.choice(CELLS).encode()
        lines[at] = b",".join(cells)
    elif kind == "column":
        column, cell = r.randrange(9), r.choice(CELLS).encode()
        lines = [
            b",".join(cell if i == column else c for i, c in enumerate(line.split(b",")))
            for line in lines
        ]
    elif kind == "header":
        names = lines[0].split(b",")
        names[r.randrange(len(names))] = r.choice(
            [b"", b"XC", b"row", b"id", b"ix", b"tonnes", b"rock", b"x y", b"=A", b"CU"]
        )
        lines[0] = b",".join(names)
    elif kind == "short":
        lines[at] = b",".join(cells[:-1])
    elif kind == "long":
        lines[at] += r.choice([b",", b",1", b",,,,"])
    elif kind == "doubled":
        lines.insert(at, lines[at])
    elif kind == "byte":
        place = r.randrange(len(data) + 1)
        return data[:place] + r.choice(fuzzing.BYTES) + data[place:]
    elif kind == "cut":
        return data[: r.randrange(len(data) + 1)]
    elif kind == "separator":
        return data.replace(b",", r.choice([b";", b"\t", b" ", b",,"]))
    else:
        del lines[at]
    return b"\n".join(lines)


def sample(r):
    """A study.toml, a table, and how far they are gone through."""
    text, table = r.choice(WHOLE), TABLE
    for _ in range(r.choice((1, 1, 2, 3, 4))):
        if r.random() < 0.6:
            text = changed_study(text, r)
        else:
            table = changed_table(table, r)
    return text, table, r.random()


def shown(sample):
    return f"{sample[0]}\n----\n{sample[1]!r}"


def _table():
    frame = mines.table(5, 4, 3, 3)
    frame["CLASS"] = ["MEA", "IND", "INF"] * (len(frame) // 3) + ["MEA"] * (len(frame) % 3)
    return frame.to_csv(index=False).encode()


TABLE = _table()
CHECKED, SEARCHED = 0.25, 0.01  # of the samples; a search takes seconds where angles are strange


@contextmanager
def room(folder):
    """The folder of a study."""
    yield folder


def answer(folder, sample):
    """What pitplan says of a study: "read", with its plan by years or without, or the status of its
    message. Raises whatever is neither."""
    text, table, far = sample
    (folder / "study.toml").write_text(text, "utf-8", "surrogatepass")
    (folder / "t.csv").write_bytes(table)
    if far < CHECKED:
        for error in check.check(folder).errors:
            fuzzing.refuse_other_form(error)
    try:
        plan = read_study_file(folder)
        model = plan.read_model()
        priced = plan.economics.priced(model)
        plan.slopes.region_of(model)
        if far < SEARCHED:
            plan.slopes.settings(model.grid, column=4)
    except PlanError as error:
        fuzzing.refuse_other_form(error)
        return f"status {exit_status(error)}"
    for error in (wrong := wrong_terms(plan, "pitplan shells s")):
        fuzzing.refuse_other_form(error)
    tonnes = float(model.blocks.tonnes.sum())
    try:
        terms_of(plan.values["schedule"], plan.rates, tonnes, [tonnes] * len(priced.ways))
    except PlanError as error:
        fuzzing.refuse_other_form(error)
        return "read without a plan"
    return "read without a plan" if wrong else "read"
