"""Realisations over sub-blocks: each is the study of whole blocks whose grades were added up in
loops."""
import dataclasses

import numpy as np
import pandas as pd
import pytest

import pitplan as pp
from mines import COPPER, SIZE, costs, study_of, table
from pitplan.model.model import TableKeys
from pitplan.plans import risk
from realisations import done

ECONOMICS = costs(
    metals=(dataclasses.replace(COPPER, recovery="min(0.95, 0.7 + 0.1 * CU)"),),
    forbid=("SECTOR == 'WEST' and ZC > 150",),
)


def parted(seed=5):
    """A mine of which every third block is two sub-blocks, one of a quarter of its height, that
    weigh differently; its rows shuffled."""
    rows = []
    for at, row in enumerate(table(8, 7, 5, seed).to_dict("records")):
        row |= {"DX": 20.0, "DY": 20.0, "DZ": 15.0}
        if at % 3:
            rows.append(row)
            continue
        low = {"ZC": row["ZC"] - 7.5 + 15 / 8, "DZ": 15 / 4, "TONNES": row["TONNES"] * 0.3}
        high = {"ZC": row["ZC"] + 7.5 - 45 / 8, "DZ": 45 / 4, "TONNES": row["TONNES"] * 0.7}
        rows += [row | low, row | high | {"IJK": row["IJK"] + "b"}]
    return pd.DataFrame(rows).sample(frac=1, random_state=3).reset_index(drop=True)


def place_of(row):
    """Where the whole block of a row is."""
    return row["XC"], row["YC"], int((row["ZC"] - 92.5) // 15)


def whole(frame, grades):
    """The table of whole blocks by plain loops: tonnes summed, grades weighed by them."""
    blocks = {}
    for row, grade in zip(frame.to_dict("records"), grades):
        found = blocks.setdefault(place_of(row), row | {"TONNES": 0.0, "CU": 0.0})
        found["TONNES"] += row["TONNES"]
        found["CU"] += row["TONNES"] * float(grade)
        found["ZC"] = 100.0 + 15 * place_of(row)[2]
    for found in blocks.values():
        found["CU"] /= found["TONNES"]
    return pd.DataFrame(blocks.values()).drop(columns=["DX", "DY", "DZ"])


def simulated(frame, count=3):
    r = np.random.default_rng(2)
    return (frame.CU.to_numpy() * r.lognormal(0, 0.6, (count, len(frame)))).astype(np.float32)


READ = {"regularise": True, "columns": {"dx": "DX", "dy": "DY", "dz": "DZ"}}


def study_in_parts(folder, frame, economics=ECONOMICS):
    folder.mkdir(exist_ok=True)
    return study_of(folder, frame, economics=economics, **READ)


def study_with_a_blank_line(folder, frame):
    """The same, from a table with an empty line in it: rows and lines are numbered otherwise."""
    folder.mkdir()
    lines = frame.to_csv(index=False).splitlines()
    (folder / "t.csv").write_text("\n".join([*lines[:40], "", *lines[40:]]) + "\n")
    model = pp.read_table(folder / "t.csv", size=SIZE, **READ)
    return pp.Study.create(folder / "s", model, ECONOMICS, pp.Slopes(45))


@pytest.mark.parametrize("kind", ["npy", "csv", "marked", "blank"])
def test_a_realisation_is_the_study_of_blocks_added_up_by_hand(tmp_path, kind):
    frame = parted()
    made = study_with_a_blank_line if kind == "blank" else study_in_parts
    study = made(tmp_path / "parts", frame)
    assert study.model.has_sub_blocks
    grades = simulated(frame)
    keys = TableKeys(absent=["-99"], **READ)
    if kind == "csv":
        path = tmp_path / "sims.csv"
        named = {f"s{r}": grades[r] for r in range(len(grades))}
        frame[["IJK", "XC", "YC", "ZC"]].assign(**named).to_csv(path, index=False)
    else:
        path, kept = tmp_path / "sims.npy", grades.copy()
        if kind == "marked":
            kept[:, ::5] = -99
            grades[:, ::5] = 0
        np.save(path, kept)
    risk.prepare(study, ECONOMICS, path, [1000], keys=keys)
    found = done(study)
    for r in range(len(grades)):
        (tmp_path / f"own{r}").mkdir()
        own = study_of(tmp_path / f"own{r}", whole(frame, grades[r]), economics=ECONOMICS)
        theirs = own.pit(1.0)
        ours = found.runs[found.runs.realisation == r].iloc[0]
        assert ours.blocks == theirs.count
        assert ours.worth == pytest.approx(float(theirs.worth), abs=theirs.count)
        there = {place_of(row): bool(dug) for row, dug in placed(own, theirs.mask)}
        mask = risk.realisation(study, r).mask(1000)
        assert {place_of(row): bool(dug) for row, dug in placed(study, mask)} == there
    assert found.runs.worth.nunique() == len(grades)


def placed(study, mask):
    blocks = study.model.blocks
    return [
        ({"XC": x, "YC": y, "ZC": z}, dug)
        for x, y, z, dug in zip(*study.model.xyz(), mask, strict=True)
        if len(blocks)
    ]


def test_the_means_are_weighed_over_blocks(tmp_path):
    """Realisations that are the table's own grades have the table's mean."""
    frame = parted()
    study = study_in_parts(tmp_path / "parts", frame)
    np.save(tmp_path / "sims.npy", np.stack([frame.CU.to_numpy(np.float32)] * 2))
    setup = risk.prepare(study, ECONOMICS, tmp_path / "sims.npy", [1000])
    found = risk.means(study, setup)
    assert found.realisations == pytest.approx(found.table, rel=1e-6)
    assert found.apart == ()
    blocks = whole(frame, frame.CU)
    there = blocks[blocks.CU > 0]
    assert found.table == pytest.approx((there.CU * there.TONNES).sum() / there.TONNES.sum())
    assert found.rows == len(there)


def test_short_tons_stay_short_tons(tmp_path):
    """A realisation that is the table itself has the study's own pit, whatever its units."""
    frame = table(8, 7, 5, 5)
    gold = pp.Metal("copper", "CU", 4, "lb/st", "lb", 0.85)
    frame["CU"] *= 20
    economics = costs(metals=(gold,))
    units = {"length": "ft", "weight": "st"}
    study = study_of(tmp_path, frame, economics=economics, units=units)
    np.save(tmp_path / "sims.npy", frame.CU.to_numpy(float)[None])
    risk.prepare(study, economics, tmp_path / "sims.npy", [1000])
    found, own = done(study), study.pit(1.0)
    assert found.runs.worth[0] == pytest.approx(float(own.worth), abs=own.count)
    assert found.hits[0].tolist() == own.mask.astype(int).tolist()


def test_what_cannot_be_is_told(tmp_path):
    frame = parted()
    fenced = dataclasses.replace(ECONOMICS, forbid=("CU > 3",))
    study = study_in_parts(tmp_path / "parts", frame, fenced)
    np.save(tmp_path / "sims.npy", simulated(frame))
    with pytest.raises(pp.PlanError, match="forbid names CU, and so do realisations"):
        risk.prepare(study, fenced, tmp_path / "sims.npy", [1000])
    free = study_in_parts(tmp_path / "free", frame)
    np.save(tmp_path / "few.npy", simulated(frame)[:, :-1])
    with pytest.raises(pp.PlanError, match=f"and the table has {len(frame):,} rows"):
        risk.prepare(free, ECONOMICS, tmp_path / "few.npy", [1000])
    wrong = frame.assign(IJK=np.roll(frame.IJK, 1))[["IJK"]].assign(s=1.0)
    wrong.to_csv(tmp_path / "wrong.csv", index=False)
    with pytest.raises(pp.PlanError, match="stands where the table has"):
        risk.prepare(free, ECONOMICS, tmp_path / "wrong.csv", [1000])
