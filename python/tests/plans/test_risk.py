"""Risk over realisations: pits of a likelihood are closed by pit's own word, and nested."""
import gzip
import hashlib
import json
import subprocess
from pathlib import Path

import numpy as np
import pytest

import pitplan as pp
from mines import SIZE, costs, pairs_of, study_of, table, written_study
from pitplan.plans import grade_files, risk
from pitplan.tasks.tasks import Tasks
from processes import command
from realisations import FACTORS, done, grades_of, prepared


def judged(study, mask, folder):
    """pit's own word on a set of blocks: the set in place of the PIT lines of the best certificate."""
    study.run(1000)
    lines = gzip.decompress((study.place(1000) / "best.cert.gz").read_bytes()).decode().splitlines()
    first = next(i for i, line in enumerate(lines) if line.startswith("GROUP")) + 1
    kept = [line for line in lines[first:] if not line.startswith("PIT ")]
    path = Path(folder) / "judged.cert"
    path.write_text(
        "\n".join([*lines[:first], *(f"PIT {b}" for b in np.flatnonzero(mask)), *kept]) + "\n"
    )
    ran = subprocess.run(
        [study.program.program, "check", *map(str, study.files.words()), "--verbose", path],
        capture_output=True,
        text=True,
    )
    return ran.stdout.strip()


def test_blocks_of_a_likelihood_are_a_closed_pit_and_nested(tmp_path):
    study = prepared(tmp_path, 8)
    found = done(study)
    for factor in FACTORS:
        below = None
        for share in (1.0, *reversed(risk.TENTHS)):
            mask = found.pit(share, factor)
            assert (
                mask == (10 * found.hits[found.at(factor)].astype(int) >= round(10 * share) * 8)
            ).all()  # at least so many of the 8
            said = judged(study, mask, tmp_path)
            assert said.startswith("ACCEPTED") or "NotTight" in said, said
            assert below is None or not (below & ~mask).any()
            below = mask
        assert 0 < found.pit(0.9, factor).sum() < found.pit(0.1, factor).sum()
    with pytest.raises(pp.PlanError, match="likelihood of 0"):
        found.pit(0)


def test_the_word_on_a_set_that_isnt_closed(tmp_path):
    study = prepared(tmp_path, 4)
    mask = done(study).pit(0.5).copy()
    block, before = next((b, p) for b, p in pairs_of(study.where) if mask[b] and mask[p])
    mask[before] = False
    said = judged(study, mask, tmp_path)
    assert "NotClosed" in said, (said, block)
    assert str(before) in said, (said, block)


def test_each_realisation_is_the_study_with_its_grades(tmp_path):
    """A study over a table with a realisation's grades, built by itself, has that realisation's
    pits."""
    frame = table(8, 7, 5, 5)
    study = prepared(tmp_path, 3, frame)
    found = done(study)
    for r in range(3):
        own = frame.assign(CU=np.load(tmp_path / "sims.npy")[r].astype(float))
        (tmp_path / str(r)).mkdir()
        alone = study_of(tmp_path / str(r), own)
        for factor in FACTORS:
            pit, verdict = alone.pit(factor / 1000), risk.realisation(study, r).verdict(factor)
            assert (verdict["count"], verdict["worth"]) == (pit.count, pit.worth)
            assert (risk.realisation(study, r).mask(factor) == pit.mask).all()
    likely = sum(risk.realisation(study, r).mask(1000).astype(int) for r in range(3)) / 3
    assert (found.likelihood(1000) == likely).all()


def test_a_realisation_of_two_regions_has_the_slopes_of_each(tmp_path):
    """Its blocks are written anew, with the regions of the study's own; the slopes are those of the
    study's settings."""
    frame = table(7, 6, 4, 5)
    slopes = pp.Slopes(48, by="SECTOR", regions={"EAST": 30}, levels=2)
    study = prepared(tmp_path, 1, frame, factors=(1000,), slopes=slopes)
    done(study)
    found = np.flatnonzero(risk.realisation(study, 0).mask(1000)).tolist()
    own = frame.assign(CU=np.load(tmp_path / "sims.npy")[0].astype(float))
    for name, angles, is_same in (("own", slopes, True), ("one", pp.Slopes(48, levels=2), False)):
        (tmp_path / name).mkdir()
        alone = study_of(tmp_path / name, own, angles)
        assert (alone.pit(1.0).blocks.tolist() == found) == is_same, name


def test_realisations_of_a_table_with_lines_that_are_no_blocks(tmp_path):
    """A line of units below the header and a blank one: a grade for each row that has a block, or
    for each line."""
    frame = table(6, 5, 4, 3)
    lines = frame.to_csv(index=False).splitlines()
    lines[1:1] = [",".join(["units"] * len(frame.columns))]
    lines[9:9] = [""]
    (tmp_path / "u.csv").write_text("\n".join(lines) + "\n")
    model = pp.read_table(tmp_path / "u.csv", size=SIZE)
    plain = study_of(tmp_path, frame)
    study = pp.Study.create(tmp_path / "u", model, costs(), pp.Slopes(45))
    grades = grades_of(frame, 2)
    every = np.insert(np.insert(grades, 7, 0, axis=1), 0, 0, axis=1)
    (tmp_path / "u.sims.csv").write_text(
        "\n".join(["A,B", *(f"{a},{b}" for a, b in grades.T)]) + "\n"
    )
    np.save(tmp_path / "rows.npy", grades), np.save(tmp_path / "lines.npy", every)
    risk.prepare(plain, costs(), tmp_path / "rows.npy", [1000])
    wanted = done(plain).runs
    for name in ("rows.npy", "lines.npy", "u.sims.csv"):
        risk.prepare(study, costs(), tmp_path / name, [1000])
        assert done(study).runs.equals(wanted), name
    np.save(tmp_path / "short.npy", grades[:, 1:])
    with pytest.raises(
        pp.PlanError,
        match=f"the realisations are 2 x {len(frame) - 1}, and the table has {len(frame)} rows",
    ):
        risk.prepare(study, costs(), tmp_path / "short.npy", [1000])


def test_the_grades_may_be_those_of_another_metal(tmp_path):
    """The same file, first as grades of copper and then of gold: pits of the one aren't those of
    the other."""
    frame = table(6, 5, 4, 3)
    economics = costs(
        metals=(
            pp.Metal("copper", "CU", price=8500, recovery=0.85),
            pp.Metal("gold", "AU", price=60, grade_unit="g/t", price_unit="g", recovery=0.7),
        )
    )
    study = prepared(tmp_path, 2, frame, economics, [1000])
    done(study)
    assert risk.prepare(study, economics, tmp_path / "sims.npy", [1000], "gold").column == "AU"
    assert [task.name for task in Tasks(study.folder).left(risk.risk_tasks(study))] == ["0", "1"]
    found = done(study)
    for r in range(2):
        (tmp_path / str(r)).mkdir()
        pit = study_of(
            tmp_path / str(r),
            frame.assign(AU=np.load(tmp_path / "sims.npy")[r].astype(float)),
            economics=economics,
        ).pit(1.0)
        assert found.runs.blocks[r] == pit.count
        assert found.runs.worth[r] == float(pit.worth)
        assert (risk.realisation(study, r).mask(1000) == pit.mask).all()


def test_a_certificate_of_a_realisation_is_written_into_scratch_and_not_packed(
    tmp_path, program, monkeypatch
):
    study = prepared(tmp_path, 1)
    scratch, pit, places = tmp_path / "scratch", tmp_path / "pit", tmp_path / "places"
    scratch.mkdir()
    pit.write_text(
        f'#!/bin/sh\ncase $1 in solve) place=$(readlink /proc/$$/fd/1); echo "$place" >> {places};; esac\nexec {program} "$@"\n'
    )
    pit.chmod(0o755)
    monkeypatch.setattr("tempfile.tempdir", str(scratch))
    monkeypatch.setattr("pitplan.pit.program.packed", None)  # it would be called
    Tasks(study.folder, pp.Pit(pit)).do(risk.risk_tasks(study)[0])
    places = [Path(line) for line in places.read_text().splitlines()]
    assert len(places) == len(FACTORS)
    assert all(path.name == "best.cert" and path.parent.parent == scratch for path in places)
    assert not list(scratch.iterdir())


def test_pits_of_a_realisation_that_arent_nested_are_never_shown(tmp_path):
    study = prepared(tmp_path, 1)
    done(study)
    one = risk.realisation(study, 0)
    low, high = (one.mask(factor) for factor in FACTORS)
    low[np.flatnonzero(~high)[0]] = True  # a block more, with all that is checked of one pit alone
    place, bits = one.place(FACTORS[0]), np.packbits(low)
    np.savez_compressed(place / "pit.npz", bits=bits)
    verdict = json.loads((place / "verdict.json").read_text())
    verdict |= {
        "bits": hashlib.sha256(bits.tobytes()).hexdigest(),
        "count": int(low.sum()),
        "worth": one.priced.worth_of(low, FACTORS[0]),
    }
    (place / "verdict.json").write_text(json.dumps(verdict))
    with pytest.raises(
        pp.Disagreement, match="realisation 0: the pit at 0.8 isn't within that at 1"
    ):
        risk.Risk(study)


def test_what_risk_says_is_added_up_by_pandas(tmp_path):
    study = prepared(tmp_path, 5)
    found = done(study)
    for row in found.table().itertuples():
        worths = found.runs[found.runs.factor == row.factor].worth
        assert (row.worth_least, row.worth_most) == (worths.min(), worths.max())
        assert row.worth_p50 == worths.median()
        for name in ("blocks", "rock_t", "worth"):
            of = found.runs[found.runs.factor == row.factor][name]
            shown = [
                getattr(row, f"{name}_{key}")
                for key in ("least", "p10", "p50", "p90", "most", "mean")
            ]
            assert shown == pytest.approx(
                [*np.percentile(of, [0, 10, 50, 90, 100]), of.mean()]
            ), name
    pits = found.pits(1000)
    assert (pits.worth_mean <= pits.best_mean).all()
    assert pits.blocks.is_monotonic_decreasing
    assert pits.rock_t.iloc[0] == pytest.approx(study.model.blocks.tonnes[found.pit(0.1)].sum())
    best = found.runs[found.runs.factor == 1.0].worth
    assert pits.best_mean.iloc[0] == pytest.approx(best.mean())
    blocks = found.of_blocks()
    assert (blocks.likelihood_1.to_numpy() == found.likelihood(1000)).all()
    assert list(blocks.columns) == ["id", "row", "likelihood_0.8", "likelihood_1"]


def test_a_realisation_that_has_changed_is_never_shown(tmp_path):
    study = prepared(tmp_path, 2)
    done(study)
    grades = np.load(tmp_path / "sims.npy")
    grades[1, 3] += 1
    np.save(tmp_path / "sims.npy", grades)
    with pytest.raises(pp.PlanError, match="realisation 1 has changed"):
        risk.Risk(study)
    risk.prepare(study, costs(), tmp_path / "sims.npy", FACTORS)
    left = Tasks(study.folder).left(risk.risk_tasks(study))
    assert [task.name for task in left] == ["1"]


def test_a_study_built_anew_has_no_realisations(tmp_path):
    frame = table(6, 5, 4, 3)
    study = prepared(tmp_path, 2, frame)
    other = study_of(tmp_path, frame, economics=costs(mining=2.5))
    assert risk.risk_tasks(other) == []
    assert len(risk.risk_tasks(study)) == 2
    with pytest.raises(pp.PlanError, match="no realisations were asked for"):
        risk.realisation(other, 0)


@pytest.mark.parametrize("scale, said", [(1.06, "6.0% above"), (0.9, "10.0% below"), (1.015, None)])
def test_a_mean_grade_other_than_the_tables_is_told(tmp_path, scale, said):
    """The means are weighed by tonnes over rows that a realisation has a grade for; the others,
    here the richest, count in neither."""
    folder, frame = written_study(tmp_path / "s", table(7, 6, 4, 3)), table(7, 6, 4, 3)
    assert command("build", folder).wait() == 0
    covered = (frame.CU < frame.CU.max()).to_numpy()
    one = np.where(covered, frame.CU * scale, 0)
    np.save(tmp_path / "sims.npy", np.stack([one * 0.5, one * 1.5]))
    run = command("risk", folder, "--realisations", tmp_path / "sims.npy", "--later")
    faults = run.communicate(timeout=600)[1]
    assert run.returncode == 0
    rows = covered & (frame.CU > 0)
    mean = np.average(frame.CU[rows], weights=frame.TONNES[rows])
    wanted = f"look: the realisations' mean grade of copper is {scale * mean:.4g} %, {said} the table's {mean:.4g} %, by tonnes over {rows.sum()} rows"
    assert wanted in faults if said else "look:" not in faults


def test_realisations_that_have_nothing_to_do_with_the_table_are_told(tmp_path):
    """Rows in another order have the same mean, and no correlation."""
    frame = table(8, 7, 5, 5)
    study = study_of(tmp_path, frame)
    grades = grades_of(frame, 4)
    for at in (1, 3):
        grades[at] = np.random.default_rng(at).permutation(grades[at])
    np.save(tmp_path / "sims.npy", grades)
    setup = risk.prepare(study, costs(), tmp_path / "sims.npy", FACTORS)
    assert risk.means(study, setup).apart == (1, 3)
    few = np.arange(40.0)
    assert grade_files.alike(few, few[::-1].copy())
    assert not grade_files.alike(np.arange(60.0), np.arange(60.0)[::-1].copy() + 1)
    assert grade_files.alike(np.ones(60), np.arange(60.0))
