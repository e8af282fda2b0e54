"""What a report's figures come to, added up from the planner's table in loops; and a report, read
back."""
import hashlib

import openpyxl

from mines import STUDY_TOML

NASTY = "=S&<b>"  # a rock that a spreadsheet would run, and that markup would swallow
TITLE = "A & <b>B"
TOML = STUDY_TOML.replace("OXI = 7.5, SUL = 9.0", f'"{NASTY}" = 7.5, SUL = 9.0').replace(
    "recovery = 0.85 }",
    'recovery = 0.85 }, { name = "gold", grade = "AU", grade_unit = "g/t", price = 1500, price_unit = "oz", recovery = 0.6 }',
)


def priced(row):
    """What a block brings and costs by the keys above, in whole dollars, as the documents say."""
    t = float(row["TONNES"])
    copper, gold = t * float(row["CU"]) / 100 * 0.85, t * float(row["AU"]) * 0.6 / 31.1034768
    brings, treating = (
        round(copper * 8500 + gold * 1500),
        round(t * (7.5 if row["ROCK"] == NASTY else 9.0)),
    )
    row["ore"] = brings > treating
    row["worth"] = max(0, brings - treating) - round(2.0 * t)
    row["copper"], row["gold"] = copper, gold


def sums(rows):
    """Blocks, rock, ore, waste, strip, grade and metal of copper and of gold, worth."""
    found = dict.fromkeys(("blocks", "rock", "ore", "cu", "copper", "au", "gold", "worth"), 0.0)
    for row in rows:
        t = float(row["TONNES"])
        found["blocks"] += 1
        found["rock"] += t
        found["worth"] += row["worth"]
        if row["ore"]:
            found["ore"] += t
            found["cu"] += t * float(row["CU"])
            found["au"] += t * float(row["AU"])
            found["copper"] += row["copper"]
            found["gold"] += row["gold"]
    ore = found["ore"]
    return (
        found["blocks"],
        found["rock"],
        ore,
        found["rock"] - ore,
        (found["rock"] - ore) / ore if ore else None,
        found["cu"] / ore if ore else None,
        found["copper"],
        found["au"] / ore if ore else None,
        found["gold"],
        found["worth"],
    )


def book_of(folder):
    return openpyxl.load_workbook(folder / "out/report.xlsx")


def cells_of(sheet):
    return [[cell.value for cell in row] for row in sheet.iter_rows(min_row=2)]


def of_file(path):
    return hashlib.sha256(path.read_bytes()).hexdigest()
