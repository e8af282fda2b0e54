"""Grades of realisations, read from files and checked."""
import numpy as np
import pandas as pd
import pytest

import pitplan as pp
from mines import SIZE, costs, study_of, table
from pitplan.model.model import TableKeys
from pitplan.plans import grade_files, risk
from realisations import grades_of, prepared


@pytest.mark.parametrize("keys", [{"widen": 1}, {"rotation": 30}])
def test_realisations_go_by_row(tmp_path, keys):
    frame = table(6, 5, 4, 3, rotation=keys.get("rotation", 0.0))
    study = study_of(tmp_path, frame, **keys)
    np.save(tmp_path / "sims.npy", frame.CU.to_numpy(np.float32)[None, :])
    risk.prepare(study, costs(), tmp_path / "sims.npy", [1000])
    one = risk.realisation(study, 0)
    assert (
        np.abs(one.priced.ways[0].revenue - study.priced.ways[0].revenue).max() <= 1
    )  # 32-bit grades: a dollar for a block at most
    assert (one.priced.mining == study.priced.mining).all()


def test_realisations_go_by_row_where_lines_hold_no_blocks(tmp_path):
    """Lines of descriptions and blank lines are rows of the table too, and so of the realisations."""
    frame = table(6, 5, 4, 3)
    lines = frame.to_csv(index=False).splitlines()
    rows = np.r_[
        1:6, 7 : len(frame) + 2
    ]  # a line of descriptions, and a blank one after five blocks
    (tmp_path / "t.csv").write_text(
        "\n".join(
            [
                lines[0],
                "Types:,double,double,double,double,double,double,name,name",
                *lines[1:6],
                "",
                *lines[6:],
            ]
        )
        + "\n"
    )
    study = pp.Study.create(
        tmp_path / "s", pp.read_table(tmp_path / "t.csv", size=SIZE), costs(), pp.Slopes(45)
    )
    grades = np.full((1, len(frame) + 2), 99, np.float32)
    grades[0, rows] = frame.CU
    np.save(tmp_path / "sims.npy", grades)
    risk.prepare(study, costs(), tmp_path / "sims.npy", [1000])
    assert (
        np.abs(
            risk.realisation(study, 0).priced.ways[0].revenue - study.priced.ways[0].revenue
        ).max()
        <= 1
    )


def test_a_csv_is_the_same_as_an_npy(tmp_path):
    frame = table(6, 5, 4, 3)
    study = prepared(tmp_path, 3, frame)
    digests = risk.setup_of(study).digests
    pd.DataFrame(np.load(tmp_path / "sims.npy").T, columns=["s1", "s2", "s3"]).to_csv(
        tmp_path / "sims.csv", index=False
    )
    assert risk.prepare(study, costs(), tmp_path / "sims.csv", [1000]).digests == digests


@pytest.mark.parametrize("copies", [3, 3000])  # below and above a megabyte
@pytest.mark.parametrize("separator, decimal", [(",", "."), (";", ","), (";", "."), ("\t", ",")])
def test_a_csv_of_realisations_may_have_semicolons_and_decimal_commas(
    tmp_path, copies, separator, decimal
):
    grades = np.tile(np.array([[0.5, 1.25], [2.0, 0.125], [0.25, 3.5]], np.float32), (30, copies))
    pd.DataFrame(grades, columns=[f"s{i}" for i in range(2 * copies)]).to_csv(
        tmp_path / "sims.csv", index=False, sep=separator, decimal=decimal
    )
    found, _ = grade_files.open_realisations(tmp_path / "sims.csv", tmp_path)
    assert (found == grades.T).all()


def test_a_csv_may_name_its_blocks_and_has_to_name_the_tables(tmp_path):
    frame = table(6, 5, 4, 3)
    study = prepared(tmp_path, 3, frame)
    digests = risk.setup_of(study).digests
    names = study.model.columns
    sims = pd.DataFrame(np.load(tmp_path / "sims.npy").T, columns=["s1", "s2", "s3"])
    beside = pd.concat(
        [frame[[names[key] for key in ("id", "x", "y", "z")]].reset_index(drop=True), sims], axis=1
    )
    beside.to_csv(tmp_path / "sims.csv", index=False, sep=";", decimal=",")
    assert risk.prepare(study, costs(), tmp_path / "sims.csv", [1000]).digests == digests
    beside.to_csv(tmp_path / "plain.csv", index=False)
    blanks = frame.assign(
        **{names["id"]: frame[names["id"]] + "  "}
    )  # as some packages fill cells up
    (tmp_path / "blanks").mkdir()
    assert (
        risk.prepare(
            study_of(tmp_path / "blanks", blanks), costs(), tmp_path / "plain.csv", [1000]
        ).digests
        == digests
    )
    beside.iloc[[0, 1, 3, 2, *range(4, len(beside))]].to_csv(tmp_path / "sims.csv", index=False)
    with pytest.raises(
        pp.PlanError, match=f"row 4, column {names['id']}: .* stands where the table has"
    ):
        risk.prepare(study, costs(), tmp_path / "sims.csv", [1000])
    beside.drop(columns=["s1", "s2", "s3"]).to_csv(tmp_path / "sims.csv", index=False)
    with pytest.raises(pp.PlanError, match="has no column of a realisation"):
        risk.prepare(study, costs(), tmp_path / "sims.csv", [1000])


def test_marks_of_the_table_count_in_realisations_and_others_are_told_by_their_row(tmp_path):
    frame = table(6, 5, 4, 3)
    study = prepared(tmp_path, 3, frame)
    sims = pd.DataFrame(np.load(tmp_path / "sims.npy").T, columns=["s1", "año 2", "s3"]).astype(
        object
    )
    sims.iloc[7, 1] = "N/D"
    sims.to_csv(tmp_path / "sims.csv", index=False, sep=";", decimal=",", encoding="cp1252")
    with pytest.raises(pp.PlanError, match="isn't text in UTF-8"):
        risk.prepare(study, costs(), tmp_path / "sims.csv", [1000])
    with pytest.raises(
        pp.PlanError, match="row 9, column año 2: the cell is no number: it is 'N/D'"
    ):
        risk.prepare(
            study, costs(), tmp_path / "sims.csv", [1000], keys=TableKeys(encoding="cp1252")
        )
    found, _ = grade_files.open_realisations(
        tmp_path / "sims.csv", tmp_path, study, TableKeys(encoding="cp1252", absent=["N/D"])
    )
    assert found[1, 7] == 0
    assert (found[0] == np.load(tmp_path / "sims.npy")[0]).all()


def test_cells_that_are_no_grades_are_told(tmp_path):
    frame = table(6, 5, 4, 3)
    study, good = prepared(tmp_path, 3, frame), grades_of(frame, 3)
    kept = risk.setup_of(study)
    for value, words in ((np.nan, "nan is no grade"), (-1, "-1.0 is no grade")):
        bad = good.copy()
        bad[1, 7] = value
        np.save(tmp_path / "bad.npy", bad)
        with pytest.raises(
            pp.PlanError, match=rf"row 9, column of realisation 1: {words}\n"
        ):  # one cell, and no word of others
            risk.prepare(study, costs(), tmp_path / "bad.npy", [1000])
        bad[1, 8] = value
        np.save(tmp_path / "bad.npy", bad)
        with pytest.raises(pp.PlanError, match=rf"{words}; 2 cells are so\n"):
            risk.prepare(study, costs(), tmp_path / "bad.npy", [1000])
    np.save(tmp_path / "bad.npy", good[:, 1:])
    with pytest.raises(
        pp.PlanError, match=f"3 x {len(frame) - 1}, and the table has {len(frame)} rows"
    ):
        risk.prepare(study, costs(), tmp_path / "bad.npy", [1000])
    (tmp_path / "bad.csv").write_text("a,b\n1,2\n1,x\n")
    with pytest.raises(pp.PlanError, match="row 3, column b"):
        risk.prepare(study, costs(), tmp_path / "bad.csv", [1000])
    with pytest.raises(pp.PlanError, match="no metal 'gold'"):
        risk.prepare(study, costs(), tmp_path / "sims.npy", [1000], "gold")
    np.save(tmp_path / "bad.npy", np.array([[{}]], dtype=object), allow_pickle=True)
    with pytest.raises(pp.PlanError, match="can't be read"):
        risk.prepare(study, costs(), tmp_path / "bad.npy", [1000])
    assert risk.setup_of(study) == kept  # what was asked for before stands


def test_ids_that_the_study_doesnt_know_are_named(tmp_path):
    """A CSV of realisations has the blocks' ids, and the study has no such column."""
    frame = table(6, 5, 4, 3)
    model = study_of(tmp_path, frame.drop(columns="IJK")).model
    assert "id" not in model.columns
    given = pd.DataFrame(
        {"BLK": [f"B-{i}" for i in range(len(frame))], "ONE": grades_of(frame, 1)[0]}
    )
    given.to_csv(tmp_path / "sims.csv", index=False)
    with pytest.raises(pp.PlanError, match="column BLK") as error:
        grade_files.of_table(tmp_path / "sims.csv", model, None)
    known = (
        'columns = { x = "XC", y = "YC", z = "ZC", tonnes = "TONNES", rock = "ROCK", id = "BLK" }'
    )
    assert f"try: {known} in [model]" in str(error.value)
    assert "row 2, column BLK" in str(error.value)
    given.assign(BLK=1.0, ONE=["x", *given.ONE[1:].astype(str)]).to_csv(
        tmp_path / "sims.csv", index=False
    )
    with pytest.raises(pp.PlanError, match="column ONE") as error:
        grade_files.of_table(tmp_path / "sims.csv", model, None)
    assert "absent" in error.value.try_this


def test_a_mark_that_32_bits_hold_but_nearly_is_no_grade():
    """As -99.9, whose nearest 32-bit number isn't its nearest of 64 bits."""
    grades = np.array([1.5, -99.9, 0.0, 99.9], np.float32)
    found = grade_files.without_marks(grades, ["N/D", "-99.9"])
    assert found.tolist() == [1.5, 0.0, 0.0, pytest.approx(99.9)]
