"""The tables of the shells, against sums by hand."""
import numpy as np
import pytest

import pitplan as pp
from mines import SIZE, costs, study_of, table
from pitplan.plans import risk
from pitplan.tasks.tasks import Tasks


def test_benches_add_up_to_pits(two_metals):
    shells, _ = two_metals
    benches, pits = shells.benches(), shells.table()
    assert benches.bench.is_monotonic_decreasing
    for i, factor in enumerate(shells.factors):
        inside = benches[benches["shell"] <= factor / 1000]
        for column in ("blocks", "rock_t", "ore_t", "waste_t", "metal_copper", "metal_gold"):
            assert inside[column].sum() == pytest.approx(pits[column][i])
        assert inside.worth.sum() == pytest.approx(pits.worth_at_base[i])
    b = shells.study.model.blocks
    one = benches.iloc[0]
    here = (b.ZC == one.bench) & (shells.shell == shells.factors.index(round(one["shell"] * 1000)))
    assert one.blocks == here.sum()
    assert one.rock_t == pytest.approx(b.tonnes[here].sum())


def test_an_empty_pit_has_an_empty_line(tmp_path):
    shells = study_of(tmp_path, table(4, 4, 3, 1)).shells([0, 1200])
    row = shells.table().iloc[0]
    assert row.blocks == 0
    assert row.rock_t == 0
    assert row.worth_at_base == 0
    assert np.isnan(row.strip)
    assert row.npv_best == 0
    assert shells.of_blocks()["shell"].notna().sum() == shells.holds(1).sum()


def test_tables_of_blocks_name_rows_as_a_spreadsheet_counts_them(tmp_path):
    """By the lines of the text: a line of descriptions, a blank line, and blocks that no row is for."""
    f = table(6, 5, 4, 3)
    lines = f.to_csv(index=False).splitlines()
    lines[1:1] = ["Types:,double,double,double,double,double,double,name,name"]
    lines[7:7] = [""]
    (tmp_path / "t.csv").write_text("\n".join(lines) + "\n")
    study = pp.Study.create(
        tmp_path / "s",
        pp.read_table(tmp_path / "t.csv", size=SIZE, widen=1),
        costs(),
        pp.Slopes(45),
    )
    shells = study.shells([800, 1000])
    np.save(tmp_path / "sims.npy", np.zeros((1, len(lines) - 1), np.float32))
    risk.prepare(study, costs(), tmp_path / "sims.npy", [1000])
    Tasks(study.folder).do(risk.risk_tasks(study)[0])
    for found in (shells.of_blocks(), pp.Phases(shells).of_blocks(), risk.Risk(study).of_blocks()):
        own = found[found["row"] > 0]
        assert (
            [lines[row - 1].split(",")[0] for row in own["row"]]
            == own["id"].tolist()
            == f.IJK.tolist()
        )
        assert len(found) > len(own)
        assert (found["row"][len(own) :] == 0).all()
