"""A study that is right, and one with a slip."""
from mines import table, written_study

STUDY = """[model]
table = "t.csv"
size = [20, 20, 15]
rotation = 0
absent = ["-99"]

[economics]
mining = 2.0
processing = { OXI = 7.5, SUL = 9.0 }
mill = ["OXI", "SUL"]
dilution = 0.05
mining_recovery = 0.97
metals = [
    { name = "copper", grade = "CU", price = 8500, recovery = 0.85, payable = 0.965, selling = 420 },
    { name = "gold", grade = "AU", grade_unit = "g/t", price = 1900, price_unit = "oz", recovery = 0.60, payable = 0.98 },
]

[slopes]
angles = [[0, 38], [90, 45], [180, 50], [270, 42]]
by = "SECTOR"
regions = { WEST = 44 }

[shells]
factors = { from = 0.4, to = 1.2, step = 0.1 }
mining_rate = 1e6
mill_rate = 5e5
discount = 0.08
"""


def cell(column, row, value):
    """A frame with another value in one cell."""

    def change(frame):
        frame = frame.astype({column: object}) if isinstance(value, str) else frame
        frame.loc[row, column] = value
        return frame

    return change


def slipped(folder, text, frame):
    was, now = text or ("", "")
    assert was in STUDY
    base = table(9, 8, 5, 5)
    return written_study(folder, base if frame is None else frame(base), STUDY.replace(was, now, 1))
