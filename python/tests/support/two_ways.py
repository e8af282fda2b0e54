"""A small mine whose blocks go to a mill, to a leach or to waste, and what its table comes to: row
by row in plain Python, with nothing of the package."""
from collections import defaultdict
from pathlib import Path

import mines

TEXT = """[model]
table = "t.csv"
size = [20, 20, 15]

[economics]
mining = 2.0
dilution = 0.05
metals = [
    { name = "copper", grade = "CU", price = 8500, recovery = { OXI = 0.7, SUL = 0.85 }, payable = 0.96, selling = 300 },
    { name = "gold", grade = "AU", grade_unit = "g/t", price = 60, price_unit = "g", recovery = 0.7 },
]

[[economics.processes]]
name = "mill"
cost = { OXI = 11.0, SUL = 9.0 }
mining_recovery = 0.95
rate = 250e3

[[economics.processes]]
name = "leach"
rocks = ["OXI"]
cost = "3.0 + 0.002 * (160 - ZC)"
recovery = { copper = "0.45 + 0.1 * min(CU, 1)", gold = 0 }
payable = { copper = 0.99 }
dilution = 0
rate = 120e3

[slopes]
angles = 45

[shells]
factors = [0.6, 0.8, 1.0, 1.2]
mining_rate = 600e3
discount = 0.08
"""
NAMES = ("mill", "leach")
FEED = {"mill": 0.95 * 1.05, "leach": 1.0}  # tonnes for each tonne of ore in place
COLUMNS = ("ore_t", "feed_t", "grade_copper", "metal_copper", "grade_gold", "metal_gold")


def frame():
    """The table: 493 rows of two rocks."""
    return mines.table(9, 8, 5, 5)


def written(folder, more="", text=TEXT):
    """A study's folder with study.toml and the table."""
    folder = Path(folder)
    mines.written_study(folder, frame(), text + more)
    return folder


def metal_of(row, name):
    """What is recovered of a row by a process: tonnes of copper, grams of gold."""
    if name == "mill":
        ore = row["TONNES"] * 0.95
        return {
            "copper": ore * row["CU"] / 100 * {"OXI": 0.7, "SUL": 0.85}[row["ROCK"]],
            "gold": ore * row["AU"] * 0.7,
        }
    return {"copper": row["TONNES"] * row["CU"] / 100 * (0.45 + 0.1 * min(row["CU"], 1)), "gold": 0}


def amounts_of(row):
    """What a row brings and what treating it costs by each process, and what digging it costs: in
    whole dollars."""
    found = {}
    for name in NAMES:
        if name == "leach" and row["ROCK"] != "OXI":
            found[name] = (0, 0)
            continue
        metal, paid = metal_of(row, name), {"mill": 0.96, "leach": 0.99}[name]
        revenue = metal["copper"] * 8500 * paid + metal["gold"] * 60
        a_tonne = (
            {"OXI": 11.0, "SUL": 9.0}[row["ROCK"]]
            if name == "mill"
            else 3.0 + 0.002 * (160 - row["ZC"])
        )
        cost = row["TONNES"] * FEED[name] * a_tonne + metal["copper"] * 300
        found[name] = (round(revenue), round(cost))
    return found, round(row["TONNES"] * 2.0)


def goes(ways, factor):
    """Where a block goes at a factor in thousandths, and what that is worth in thousandths of a
    dollar: the first of the greatest."""
    best, place = 0, "waste"
    for name, (revenue, cost) in ways.items():
        worth = factor * revenue - 1000 * cost
        if worth > best:
            best, place = worth, name
    return place, best


def rows_at(table, factor=1000):
    """The rows of a table, each with where it goes, what it is worth, and what its process gets of
    it."""
    found = []
    for row in table.to_dict("records"):
        ways, digging = amounts_of(row)
        to, gain = goes(ways, factor)
        is_ore = to != "waste"
        metal = metal_of(row, to) if is_ore else {"copper": 0.0, "gold": 0.0}
        found.append(
            {
                **row,
                "to": to,
                "worth": (gain - 1000 * digging) / 1000,
                "ore_t": row["TONNES"] * is_ore,
                "feed_t": row["TONNES"] * FEED[to] if is_ore else 0.0,
                **{f"metal_{name}": amount for name, amount in metal.items()},
            }
        )
    return found


def added_up(rows):
    """What rows come to, in the columns of the tables: all, and by process."""
    found = defaultdict(float)
    found["blocks"] = len(rows)
    for before, here in (
        ("", rows),
        *((f"process_{name}_", [row for row in rows if row["to"] == name]) for name in NAMES),
    ):
        ore = sum(row["ore_t"] for row in here)
        found[f"{before}ore_t"] = ore
        found[f"{before}feed_t"] = sum(row["feed_t"] for row in here)
        for metal, column in (("copper", "CU"), ("gold", "AU")):
            graded = sum(row[column] * row["ore_t"] for row in here)
            found[f"{before}grade_{metal}"] = graded / ore if ore else float("nan")
            found[f"{before}metal_{metal}"] = sum(row[f"metal_{metal}"] for row in here)
    found["rock_t"] = sum(row["TONNES"] for row in rows)
    found["waste_t"] = found["rock_t"] - found["ore_t"]
    found["worth"] = sum(row["worth"] for row in rows)
    return dict(found)
