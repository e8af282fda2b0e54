#!/usr/bin/python3
"""From a table to proved pits, pictures and a bundle for an auditor, in Python: a cell after the other, as in a notebook.

    PYTHONPATH=python /usr/bin/python3 examples/planning.py [FOLDER]

The mine is examples/hill.csv; what is made goes into FOLDER (hill-in-python unless told). A line `# %%` begins a cell, for
editors that run cells.
"""
# %% The table: blocks of 20 x 20 x 10 m, in a model that is turned by 30 degrees; -99 is gold that wasn't assayed.
import sys
from pathlib import Path

import pitplan as pp

HERE = Path(__file__).resolve().parent
folder = Path(sys.argv[1] if len(sys.argv) > 1 else "hill-in-python")
model = pp.read_table(HERE / "hill.csv", size=(20, 20, 10), rotation=30, absent=["-99"])
print(f"{len(model):,} blocks, {model.blocks.tonnes.sum() / 1e6:.1f} Mt")

# %% What blocks bring and cost. Formulas may use the table's columns.
copper = pp.Metal(
    "copper",
    "CU",
    price=8500,
    recovery={"OXI": 0.80, "SUL": 0.88, "other": 0.0},
    payable=0.965,
    selling=300,
)
gold = pp.Metal("gold", "AU", grade_unit="g/t", price=1900, price_unit="oz", recovery=0.6)
economics = pp.Economics(
    [copper, gold],
    mining="2.0 + 0.02 * max(0, 1100 - ZC) / 10",
    processing=9.0,
    mill=["OXI", "SUL"],
)

# %% The pits: each is found, proved, checked, and added up again from the table.
study = pp.Study.create(folder, model, economics, pp.Slopes(44))
shells = study.shells(pp.factors(0.4, 1.2, 0.2))
table = shells.table(mining_rate=4e6, mill_rate=2e6, discount=0.08)
print(
    table[["factor", "blocks", "ore_t", "strip", "worth_at_base", "npv_best", "npv_worst"]]
    .round(2)
    .to_string(index=False)
)

# %% The pit at the full price, and how far its worth falls at the pit of 0.8.
best = study.pit(1.0)
print(f"{best.count:,} blocks worth {best.worth}; certificate {best.certificate[:12]}..")
smaller = shells.holds(shells.factors.index(800))
print(f"the pit of 0.8 gives up {float(best.worth) - study.priced.worth(1000)[smaller].sum():,.0f}")

# %% Pictures and the page.
out = folder / "out"
out.mkdir(exist_ok=True)
pp.plot.save(pp.plot.pit_by_pit(table, study.currency), out / "pit-by-pit.png")
pp.plot.save(pp.plot.plan(shells, 1065), out / "plan.png")
pp.page.write(shells, out / "pits.html", table)
print("made:", ", ".join(sorted(path.name for path in out.iterdir())))
