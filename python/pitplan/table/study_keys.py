"""The keys of study.toml, described once. From this list come what the reader accepts, the text
that `pitplan init` writes, the reference in docs/STUDY.md, what shells complete, a JSON Schema for
editors, and forms.

Rules that join several keys, as that `regions` needs `by`, stand with the dataclasses that they
fill: `model.TableKeys`, `economics.Economics` and `economics.Metal`, `slopes.Slopes`.
"""
from __future__ import annotations

import math
import tomllib
from collections.abc import Mapping
from dataclasses import dataclass
from typing import Any

from ..base.errors import KeyPath
from ..base.units import GRADES, PRICES
from .column_names import USUAL
from .value_kinds import KINDS, RAMP, is_list, is_number

SECTIONS = ("model", "economics", "slopes", "shells", "schedule")
NEEDED = SECTIONS[:3]  # sections that a study.toml has to have
# the sections of the keys of a metal and of a process, each a table in the list of that name in
# [economics]
METALS, PROCESSES = "metals", "processes"
LISTS = (METALS, PROCESSES)


@dataclass(frozen=True)
class Key:
    """A key of study.toml.

    Attributes
    ----------
    section, name : str
    kind : str
        One of `KINDS`.
    help : str
        What it says, in Markdown without links: for the reference, the schema and forms.
    label : str
        What a form calls it.
    unit : str
        Of a number; ``{currency}`` stands for that of the study.
    choices : sequence of str
        All that it may be, or all names that its table may have.
    least, most : float
        The range of a number, or of each number of a list; `above` and `below` leave its ends out.
    default : Any
        What counts where the key isn't there; None where something is found out or left out then.
    is_needed : bool
        Whether a section (or a metal, or a process) has to have it.
    unless : str
        A key that may stand in its place: one of the two is needed.
    wrong : str
        What a value has to be, in place of the words of the kind and its range.
    instead : str
        What to try where a value is wrong.
    example : str
        How `init` spells the value; ``$name`` stands for what it finds in a table. Default: as the
        default is.
    note : str
        What `init` says beside it, where `help` is too long for a line.
    before : str
        A line of comment above it.
    is_off : bool
        Whether `init` writes it as a comment.
    is_written : bool
        Whether `init` writes it by itself: not what it writes where a table asks for it, nor the
        keys of a metal or a process, which stand in one line.
    """

    section: str
    name: str
    kind: str
    help: str
    label: str = ""
    unit: str = ""
    choices: tuple[str, ...] = ()
    least: float = -math.inf
    most: float = math.inf
    above: bool = False
    below: bool = False
    default: Any = None
    is_needed: bool = False
    unless: str = ""
    wrong: str = ""
    instead: str = ""
    example: str = ""
    note: str = ""
    before: str = ""
    is_off: bool = False
    is_written: bool = True

    @property
    def path(self) -> KeyPath:
        """Where it stands in study.toml; a metal's keys stand in each of the metals, and those of a
        process in each of the processes."""
        return (
            ("economics", self.section, self.name)
            if self.section in LISTS
            else (self.section, self.name)
        )

    @property
    def form(self) -> dict[str, Any]:
        """Of what form its values are, for who makes a field of it: their schema, and one of them."""
        kind = KINDS[self.kind]
        return {"schema": kind.schema, "start": tomllib.loads(f"start = {kind.example}")["start"]}

    @property
    def must(self) -> str:
        """What a value has to be, in words."""
        if self.wrong:
            return self.wrong
        if self.kind == "choice":
            return (
                ", ".join(f'"{choice}"' for choice in self.choices[:-1])
                + f' or "{self.choices[-1]}"'
            )
        return KINDS[self.kind].must + (" " + self.span if self.span else "")

    @property
    def span(self) -> str:
        """The range in words; "" where there is none."""
        low = (
            ""
            if self.least == -math.inf
            else f"above {self.least:,g}"
            if self.above
            else f"of at least {self.least:,g}"
        )
        if self.most == math.inf:
            return low
        if self.least == -math.inf:
            return f"{'below' if self.below else 'of at most'} {self.most:,g}"
        if self.above:
            return (
                f"above {self.least:,g} and {'below' if self.below else 'at most'} {self.most:,g}"
            )
        return f"from {self.least:,g} to {'below ' if self.below else ''}{self.most:,g}"

    def holds(self, value: Any) -> bool:
        """Whether a value may stand there."""
        if not KINDS[self.kind].holds(value):
            return False
        if self.kind in ("choice", "columns") and not set(
            [value] if isinstance(value, str) else value
        ) <= set(self.choices):
            return False
        return all(self.in_range(number) for number in _numbers_in(value))

    def in_range(self, value: float) -> bool:
        """Whether a number lies in the range."""
        return (self.least < value if self.above else self.least <= value) and (
            value < self.most if self.below else value <= self.most
        )


def _numbers_in(value: Any) -> list[float]:
    """The numbers of a number or of a list of numbers."""
    return [number for number in (value if is_list(value) else [value]) if is_number(number)]


KEYS = (
    Key(
        "model",
        "table",
        "file",
        "the table; a relative path counts from the folder of study.toml",
        "Table",
        is_needed=True,
        example="$table",
    ),
    Key(
        "model",
        "columns",
        "columns",
        "your names of the columns "
        + " ".join(USUAL)
        + (
            ", where they aren't the usual ones; `topography` and `ore` have no usual names:"
            " the percent of a block that is rock, which alone weighs anything; and the percent"
            " of its tonnes that is ore, which alone has grades and may go to the mill"
        ),
        "Columns",
        choices=tuple(USUAL),
        default={},
        example="{ $columns }",
        before="which column is what; further keys: dx, dy, dz (the size of a sub-block), tonnes or density, rock, id",
        note=" ",
    ),
    Key(
        "model",
        "tonnes",
        "formula",
        (
            "what the block of a row weighs, by a formula over the table's columns; in place of"
            " a column of tonnes or density"
        ),
        "Tonnes by a formula",
        "t",
        is_written=False,
    ),
    Key(
        "model",
        "units",
        "units",
        (
            'what coordinates and tonnes are in: `length` is `"m"` or `"ft"`, `weight` is `"t"`'
            ' or `"st"`, short tons; costs, rates, tables and pictures too. A column of density'
            " is in tonnes a cubic metre whatever they are"
        ),
        "Other units",
        default={},
        is_written=False,
    ),
    Key(
        "model",
        "size",
        "size",
        (
            "of a block along the model's x, y and z axes, in the unit of the coordinates; not"
            " needed where the table has columns of sizes"
        ),
        "Size of a block",
        "m, along x, y and z",
        least=0,
        above=True,
        instead="size = [20, 20, 10]",
        example="[$size]",
        note="of a block along the model's x, y and z axes, in the unit of the coordinates$size_note",
    ),
    Key(
        "model",
        "rotation",
        "number",
        "the bearing of the model's y axis, in degrees clockwise from north",
        "Turned by",
        "degrees",
        default=0.0,
        example="$rotation",
    ),
    Key(
        "model",
        "z",
        "choice",
        '`"elevation"`, or `"depth"` where z counts downward',
        "z is",
        choices=("elevation", "depth"),
        default="elevation",
        note='or "depth", where z counts downward',
    ),
    Key(
        "model",
        "absent",
        "words",
        (
            'cells that stand for "not estimated", as `"-99"`, or `""` for an empty one,'
            " spelled as in the table; they count as 0"
        ),
        "Not estimated",
        default=[],
        example="[$absent]",
        note='cells that stand for "not estimated", as "-99"; "" is an empty cell; they count as 0',
    ),
    Key(
        "model",
        "missing",
        "choice",
        'a place within the model without a row: `"refuse"` it, or it is `"air"`, or `"rock"` with `fill`',
        "Places without a row",
        choices=("refuse", "air", "rock"),
        default="refuse",
    ),
    Key(
        "model",
        "fill",
        "fill",
        "what such a place has, where it is rock: `tonnes`, `rock`, and any other column",
        "Filled with",
        default={},
        example='{ tonnes = 10400, rock = "waste" }',
        note=" ",
        is_off=True,
    ),
    Key(
        "model",
        "regularise",
        "flag",
        "whether sub-blocks are added up into whole blocks",
        "Add up sub-blocks",
        default=False,
        example="$regularise",
    ),
    Key(
        "model",
        "widen",
        "count",
        "columns of barren rock to add on each side, where a pit touches the model's side",
        "Rock added around",
        "columns a side",
        least=0,
        default=0,
    ),
    Key(
        "model",
        "decimal",
        "choice",
        "the mark of a decimal, where it isn't found out",
        "Decimal mark",
        choices=(".", ","),
        is_written=False,
    ),
    Key(
        "model",
        "encoding",
        "text",
        'of the table, as `"cp1252"`, where it isn\'t UTF-8',
        "Encoding",
        is_written=False,
    ),
    Key(
        "model",
        "skip",
        "count",
        "lines between the header line and the first block, where their number isn't found out",
        "Lines to skip",
        "below the header",
        least=0,
        most=1000,
        is_written=False,
    ),
    Key(
        "economics",
        "currency",
        "text",
        "for tables and pictures",
        "Currency",
        default="$",
        note=" ",
    ),
    Key(
        "economics",
        "mining",
        "amount",
        "what digging a tonne costs, ore or waste",
        "Cost of digging",
        "{currency} a tonne of rock",
        is_needed=True,
        instead="mining = 2.50",
        example="2.50",
        note=" ",
        before='for a tonne of rock: a number, a column, a formula as "2.2 + 0.02 * (1500 - $z) / 10"$by_rock',
    ),
    Key(
        "economics",
        "processing",
        "amount",
        "what treating a tonne of the mill's feed costs",
        "Cost of treating",
        "{currency} a tonne of feed",
        unless="processes",
        instead="processing = 9.00",
        example="9.00",
        note="for a tonne of the mill's feed, likewise",
    ),
    Key(
        "economics",
        "mill",
        "rocks",
        "the rocks that the mill takes; default: all but air",
        "Rocks for the mill",
        example="[$mill]",
        is_off=True,
    ),
    Key(
        "economics",
        "dilution",
        "number",
        "tonnes of waste that come to the mill with each tonne of ore; that of each process that says nothing of it",
        "Dilution",
        "tonnes a tonne of ore",
        least=0,
        most=1,
        default=0.0,
    ),
    Key(
        "economics",
        "mining_recovery",
        "number",
        "the share of the ore that reaches the mill; that of each process that says nothing of it",
        "Mining recovery",
        "share",
        least=0,
        most=1,
        above=True,
        default=1.0,
    ),
    Key(
        "economics",
        "rounding",
        "number",
        "what amounts of a block are rounded to, 1 for whole units of currency; at most six decimals",
        "Amounts rounded to",
        "{currency}",
        least=0,
        above=True,
        most=1e12,
        default=1,
        note="amounts of a block in whole units of currency",
    ),
    Key(
        "economics",
        "forbid",
        "formulas",
        (
            "formulas; blocks for which one holds may not be dug. Of sub-blocks one is enough."
            " They keep no rows of air, which have no tonnes; `build` says how many blocks they"
            " keep"
        ),
        "May not be dug",
        default=[],
        note='blocks that may not be dug, as ["$x > 12000"]',
    ),
    Key(
        "economics",
        "waste_classes",
        "words",
        (
            "resource classes that are never ore, as the column `class` of [model] spells them:"
            " what is inferred may count as waste"
        ),
        "Classes that count as waste",
        default=[],
        example='["INF"]',
        note="resource classes that are never ore, where the table has a column of them",
        is_off=True,
    ),
    Key(
        "economics",
        "exchange",
        "exchange",
        "what a unit of another currency is worth in that of the study, for metals that have a `currency` of their own",
        "Rates of exchange",
        "{currency}",
        default={},
        is_written=False,
    ),
    Key(
        "economics",
        METALS,
        "metals",
        "what is sold: a list of tables, one for each metal, with the keys below",
        "Metals",
        is_needed=True,
        instead='metals = [ { name = "copper", grade = "CU", price = 8500 } ]',
        example="[\n$metals\n]",
        note=" ",
        before="grade_unit: "
        + " ".join(GRADES)
        + "; price_unit: "
        + " ".join(PRICES)
        + "; recovery: a number, a column, a formula, or by rock;\n"
        "payable: the share of the price that is paid; selling: what selling a unit of"
        " metal costs, whatever its price; not multiplied by payable",
    ),
    Key(
        "economics",
        PROCESSES,
        "processes",
        (
            "several ways to treat a block, as a mill and a heap leach, in place of"
            " `processing` and `mill`: a list of tables `[[economics.processes]]`, each with"
            " the keys below. A block goes where it is worth most at the price in question, the"
            " first of these of as much, and to waste where none pays"
        ),
        "Processes",
        default=[],
        is_written=False,
    ),
    Key(
        "slopes",
        "angles",
        "angles",
        (
            "the overall slope of walls, in degrees; or a list of bearing and angle, between"
            " which the angle changes evenly"
        ),
        "Overall slope",
        "degrees",
        default=45,
        note="degrees; or by bearing of the wall from the pit's middle: [[0, 38], [90, 45], [180, 50], [270, 45]]",
    ),
    Key(
        "slopes",
        "by",
        "column",
        (
            "a column that says the region of a block, with angles of its own for each; or a"
            " formula that gives a word. In it `elevation` is that of the block's centre, and"
            " `below_ground` how far it lies below the highest rock of its column"
        ),
        "Regions by",
        wrong="the name of a column, or a formula as where(below_ground < 60, 'WEATHERED', 'FRESH'), in quotes",
        note="a column; or a formula as where(below_ground < 60, 'WEATHERED', 'FRESH')",
        example="$by",
        is_off=True,
    ),
    Key(
        "slopes",
        "regions",
        "regions",
        "angles for words of that column or formula; blocks of other words keep `angles`",
        "Regions",
        "degrees",
        example="{ $regions }",
        note=" ",
        is_off=True,
    ),
    Key(
        "slopes",
        "safe",
        "flag",
        "whether no deep wall may be steeper than asked, at any bearing",
        "Nowhere steeper than asked",
        default=False,
        note="true: no wall steeper than asked, at the cost of being flatter on the mean",
    ),
    Key(
        "slopes",
        "levels",
        "count",
        "how many levels up the offsets may lead; default: as many as it takes",
        "Levels of offsets",
        least=1,
        most=200,
        example="8",
        is_off=True,
    ),
    Key(
        "slopes",
        "ramp",
        "ramp",
        (
            "the ramp that passes walls of a `height`, or that of each region by its name: then"
            " angles are those between ramps, and walls get the overall angles. `turns` says"
            " how often it passes over that height, or `around` how long a turn is in plan"
        ),
        "Ramp",
        "m; grade a share",
        example=RAMP,
        note="leaves room for a ramp in all walls; angles are those between ramps then",
        is_off=True,
    ),
    Key(
        "shells",
        "factors",
        "factors",
        "shares of the price: `{ from = .., to = .., step = .. }`, or a list",
        "Factors of the price",
        default={"from": 0.3, "to": 1.2, "step": 0.05},
        example="{ from = 0.30, to = 1.20, step = 0.05 }",
        note="of the price; or a list, as [0.5, 0.75, 1.0]",
        instead="factors = { from = 0.30, to = 1.20, step = 0.05 }, or [0.5, 0.75, 1.0]",
    ),
    Key(
        "shells",
        "mining_rate",
        "number",
        "tonnes of rock a year, for the discounted cases; default: the largest pit takes 15 years",
        "Rate of digging",
        "tonnes a year",
        least=0,
        above=True,
        example="20e6",
        note="tonnes of rock a year",
    ),
    Key(
        "shells",
        "mill_rate",
        "number",
        "tonnes of the mill's feed a year, likewise; `processes` have rates of their own",
        "Rate of milling",
        "tonnes a year",
        least=0,
        above=True,
        example="8e6",
        note="tonnes of the mill's feed a year",
    ),
    Key(
        "shells",
        "discount",
        "number",
        "a share a year, for the discounted cases",
        "Discount",
        "share a year",
        least=0,
        most=1,
        below=True,
        default=0.10,
        wrong="a share from 0 to below 1, as 0.08",
        example="0.08",
        note="a year",
    ),
    Key(
        "schedule",
        "years",
        "count",
        (
            "how many years may be dug in, of at most 200 periods; default: as many as the rates need"
            " for the pit, and one more"
        ),
        "Years",
        "years",
        least=1,
        most=100,
        example="15",
        note="how many years may be dug in; default: as many as the rates need, and one more",
        before=(
            "of the plan by years that pitplan schedule makes; without these keys it goes by the rates"
            " and the discount of [shells]: take away the # of what is to be otherwise"
        ),
        is_off=True,
    ),
    Key(
        "schedule",
        "per_year",
        "count",
        "periods in a year: 2 are half-years, 4 quarters",
        "Periods a year",
        least=1,
        most=12,
        default=1,
        is_off=True,
    ),
    Key(
        "schedule",
        "when",
        "choice",
        "when money of a period counts: at its start, in its middle or at its end",
        "Money counts at",
        choices=("start", "mid", "end"),
        default="mid",
        note='or "start" or "end" of a period: when its money counts',
        is_off=True,
    ),
    Key(
        "schedule",
        "mining_rate",
        "rates",
        (
            "tonnes of rock a year: a number, or a list by year, whose last number stays; 0 in a year in"
            " which nothing is dug; default: that of [shells]"
        ),
        "Rate of digging",
        "tonnes a year",
        example="[15e6, 20e6]",
        note="tonnes of rock a year: a number, or a list by year, whose last number stays",
        is_off=True,
    ),
    Key(
        "schedule",
        "mill_rate",
        "rates",
        (
            "tonnes of the mill's feed a year, likewise; 0 in a year without a mill, in which no block is"
            " dug that goes there; `processes` have rates of their own"
        ),
        "Rate of milling",
        "tonnes a year",
        example="[4e6, 8e6]",
        note="tonnes of the mill's feed a year, likewise; 0 in a year without a mill",
        is_off=True,
    ),
    Key(
        "schedule",
        "process_rates",
        "process_rates",
        (
            "tonnes of feed a year of some of the processes, each a number or a list by year likewise;"
            " default: the `rate` of each"
        ),
        "Rates of processes",
        "tonnes of feed a year",
        is_written=False,
    ),
    Key(
        "schedule",
        "discount",
        "number",
        "a share a year; default: that of [shells]",
        "Discount",
        "share a year",
        least=0,
        most=1,
        below=True,
        wrong="a share from 0 to below 1, as 0.08",
        example="0.08",
        note="a year",
        is_off=True,
    ),
    Key(
        "schedule",
        "cutoff",
        "choice",
        (
            'where a block goes that would pay at the mill or a process: "fixed" sends it where it is'
            ' worth most at the full price; "by year" sends it there, to another process or to waste,'
            " whichever brings more in the year it is dug"
        ),
        "Cut-off",
        choices=("fixed", "by year"),
        default="fixed",
        note='or "by year": in each year wherever a block brings more, at the mill or as waste',
        is_off=True,
    ),
    Key(
        "schedule",
        "sink",
        "count",
        "benches that may be dug within a year in any column of blocks; default: as many as there are",
        "Sink rate",
        "benches a year",
        least=1,
        example="8",
        note="benches that may be dug within a year in any column of blocks",
        is_off=True,
    ),
    Key(
        "schedule",
        "panel",
        "count",
        (
            "blocks by blocks of a bench that are dug together: 2 makes squares of four; the"
            " border of a pushback cuts them"
        ),
        "Side of a panel",
        "blocks",
        least=1,
        most=100,
        default=1,
        note="blocks by blocks of a bench that are dug together: 2 makes squares of four",
        is_off=True,
    ),
    Key(
        "schedule",
        "pushbacks",
        "shares",
        (
            "factors of pits, of those of [shells]: what the first adds to nothing, each to the"
            " one before, and the rest of the pit are dug in this order on each bench"
        ),
        "Pushbacks",
        "shares of the price",
        least=0,
        above=True,
        most=1,
        below=True,
        example="[0.5, 0.75]",
        note="factors of [shells] whose pits are pushbacks, dug in this order on each bench",
        is_off=True,
    ),
    Key(
        "schedule",
        "lead",
        "count",
        (
            "benches that a pushback is ahead of those after it: a block waits for all of the"
            " pushbacks before its own down to so many benches below it"
        ),
        "Lead of each pushback",
        "benches",
        least=0,
        most=1000,
        default=0,
        note="benches that a pushback is ahead of those after it",
        is_off=True,
    ),
    Key(
        "schedule",
        "fixed_cost",
        "number",
        "what a year costs in which anything is dug, however much; a period has its part of it, rounded to whole units",
        "Fixed cost",
        "{currency} a year",
        least=0,
        default=0,
        note="currency a year, of each year in which anything is dug, however much",
        is_off=True,
    ),
    Key(METALS, "name", "text", "of the metal", "Metal", is_needed=True),
    Key(
        METALS, "grade", "column", "the column of its grade", "Column of its grade", is_needed=True
    ),
    Key(METALS, "grade_unit", "choice", "of the column", "In", choices=tuple(GRADES), default="%"),
    Key(
        METALS,
        "price",
        "number",
        "of a unit of metal, at factor 1",
        "Price",
        "{currency}",
        least=0,
        is_needed=True,
    ),
    Key(
        METALS,
        "price_unit",
        "choice",
        "that the price is for; oz is a troy ounce, dmtu is 1 % of a tonne, st a short ton, stu 1 % of one",
        "For each",
        choices=tuple(PRICES),
        default="t",
    ),
    Key(
        METALS,
        "recovery",
        "amount",
        "the share of the metal in the mill's feed that is recovered",
        "Recovery",
        "share",
        default=1.0,
        example="0.85",
    ),
    Key(
        METALS,
        "payable",
        "number",
        "the share of the price that is paid",
        "Payable",
        "share",
        least=0,
        most=1,
        default=1.0,
        example="0.96",
    ),
    Key(
        METALS,
        "selling",
        "number",
        (
            "what selling a unit of metal costs, whatever its price; `payable` doesn't touch"
            " it, so where a contract pays a share of the price less the charge, give that"
            " share of the charge. The charge for a penalty element"
        ),
        "Selling cost",
        "{currency} a unit",
        least=0,
        default=0.0,
        example="0",
    ),
    Key(
        METALS,
        "currency",
        "text",
        "of price and selling, where it isn't that of the study; `exchange` says what one is worth",
        "Currency",
        is_written=False,
    ),
    Key(
        PROCESSES,
        "name",
        "text",
        "what tables, pictures and files call it",
        "Process",
        is_needed=True,
    ),
    Key(
        PROCESSES,
        "rocks",
        "rocks",
        "the rocks that it takes; default: all but air",
        "Rocks",
        example='["OXI"]',
    ),
    Key(
        PROCESSES,
        "cost",
        "amount",
        "what treating a tonne of its feed costs",
        "Treating",
        "{currency} a tonne of feed",
        is_needed=True,
        instead="cost = 9.00",
        example="9.00",
    ),
    Key(
        PROCESSES,
        "recovery",
        "recoveries",
        "of each metal the share that this process recovers; default: that of the metal",
        "Recovery",
        "share",
        default={},
        example="{ copper = 0.6 }",
    ),
    Key(
        PROCESSES,
        "payable",
        "payables",
        (
            "of each metal the share of the price that is paid for what this process makes of"
            " it; default: that of the metal"
        ),
        "Payable",
        "share",
        default={},
        is_written=False,
    ),
    Key(
        PROCESSES,
        "dilution",
        "number",
        "tonnes of waste that come to it with each tonne of ore; default: that of [economics]",
        "Dilution",
        "tonnes a tonne of ore",
        least=0,
        most=1,
        is_written=False,
    ),
    Key(
        PROCESSES,
        "mining_recovery",
        "number",
        "the share of the ore that reaches it; default: that of [economics]",
        "Mining recovery",
        "share",
        least=0,
        most=1,
        above=True,
        is_written=False,
    ),
    Key(
        PROCESSES,
        "rate",
        "number",
        (
            "tonnes of its feed a year, for the discounted cases and the plan by years;"
            " default: the largest pit takes 15 years, and a plan by years has no limit for it"
        ),
        "Rate",
        "tonnes of feed a year",
        least=0,
        above=True,
        is_written=False,
    ),
)


def keys_of(section: str) -> dict[str, Key]:
    """The keys of a section, of a metal or of a process, by name."""
    return {key.name: key for key in KEYS if key.section == section}


def with_defaults(section: str, values: Mapping[str, Any]) -> dict[str, Any]:
    """The values of a section with those of the keys that aren't there."""
    return {name: values.get(name, key.default) for name, key in keys_of(section).items()}
