"""What is kept of pits, and whether it still counts."""
import hashlib
import json
import shutil

import numpy as np
import pytest

import pitplan as pp
from mines import costs, shells_of, study_of, table


def test_a_wrong_sum_is_never_shown(tmp_path, monkeypatch):
    study = study_of(tmp_path, table(6, 6, 4, 3))
    right = study.priced.mining.copy()
    inside = np.flatnonzero(study.pit(1.2).mask)
    shutil.rmtree(study.place(1200))
    study.priced.mining[inside[0]] += 1
    with pytest.raises(pp.Disagreement, match="adds up to"):
        study.run(1200)
    assert not list((study.folder / "runs/base").iterdir())
    study.priced.mining[:] = right
    study.run(1200)


def test_a_result_that_was_damaged_is_never_shown(tmp_path):
    study = shells_of(tmp_path).study
    place = study.place(800)
    with np.load(place / "pit.npz") as file:
        bits = file["bits"].copy()
    bits[0] ^= 128
    np.savez_compressed(place / "pit.npz", bits=bits)
    with pytest.raises(pp.Disagreement, match="isn't what was stated"):
        pp.Shells(study, [600, 800])
    verdict = json.loads((place / "verdict.json").read_text())
    verdict["bits"] = hashlib.sha256(bits.tobytes()).hexdigest()
    (place / "verdict.json").write_text(json.dumps(verdict))
    with pytest.raises(pp.Disagreement, match="adds up to"):
        pp.Shells(study, [600, 800])


def test_a_result_that_cannot_be_read_is_told(tmp_path):
    """Cut off, empty, gone, or with a byte that is another: nothing of numpy's or zipfile's own
    comes out."""
    study = shells_of(tmp_path).study
    path = study.place(800) / "pit.npz"
    kept = path.read_bytes()
    for data in (
        b"",
        kept[: len(kept) // 2],
        None,
        *(
            kept[:at] + bytes([kept[at] ^ bit]) + kept[at + 1 :]
            for bit in (1, 128)
            for at in range(0, len(kept), 3)
        ),
    ):
        path.unlink(missing_ok=True)
        if data is not None:
            path.write_bytes(data)
        try:
            study.mask(800)  # a byte that nothing reads
        except pp.Disagreement as error:
            assert "isn't what was stated" in str(error)
            assert "take " in str(error)
    path.write_bytes(kept)
    with np.load(path) as file:
        bits = file["bits"]
    for others in (bits.astype(np.int8), bits.view(np.bool_), bits[None]):  # of the same bytes
        np.savez_compressed(path, bits=others)
        with pytest.raises(pp.Disagreement, match="isn't what was stated"):
            study.mask(800)
    path.unlink()
    with pytest.raises(pp.Disagreement, match="isn't what was stated"):
        pp.Shells(study, [600, 800])
    (study.where / "blocks.npz").unlink()
    with pytest.raises(pp.PlanError, match="blocks.npz is gone"):
        pp.Shells(pp.Study(study.folder), [600])


def test_a_verdict_names_the_pit_that_found_it(tmp_path, program):
    """And not the one that the model was built with."""
    study = study_of(tmp_path, table(7, 6, 4, 3))
    other = tmp_path / "pit"
    other.write_text(
        f'#!/bin/sh\n[ "$1" = --version ] && echo \'pit 9.9.9\' || exec {program} "$@"\n'
    )
    other.chmod(0o755)
    own = study.run(1000)["pit"]
    assert own == study.manifest["pit"] == pp.Pit(program).version()
    assert pp.Study(study.folder, pp.Pit(other)).run(800)["pit"] == ["pit 9.9.9"]
    assert study.verdict(1000)["pit"] == own
    again = pp.Study(study.folder, pp.Pit(other))
    again.run_series([600, 700])
    assert [again.verdict(factor)["pit"] for factor in (600, 700)] == [["pit 9.9.9"]] * 2


def test_pits_that_arent_nested_are_never_shown(tmp_path):
    study = shells_of(tmp_path).study
    a, b = study.place(600), study.place(1200)
    verdicts = [json.loads((place / "verdict.json").read_text()) for place in (a, b)]
    masks = [study.mask(factor) for factor in (600, 1200)]
    for place, verdict, mask, factor in (
        (a, verdicts[0], masks[1], 600),
        (b, verdicts[1], masks[0], 1200),
    ):
        bits = np.packbits(mask)
        np.savez_compressed(place / "pit.npz", bits=bits)
        verdict |= {
            "bits": hashlib.sha256(bits.tobytes()).hexdigest(),
            "count": int(mask.sum()),
            "worth": study.priced.worth_of(mask, factor),
        }
        (place / "verdict.json").write_text(json.dumps(verdict))
    with pytest.raises(pp.Disagreement, match="isn't within"):
        pp.Shells(study, [600, 1200])


@pytest.mark.parametrize("name", ["mine.blocks", "settings.toml", "blocks.npz"])
def test_a_pit_over_other_files_is_never_shown(tmp_path, name):
    study = shells_of(tmp_path).study
    path = study.folder / "model" / name
    path.write_bytes(path.read_bytes() + b"\n")
    with pytest.raises(pp.PlanError, match="isn't the file that the build made"):
        pp.Shells(pp.Study(study.folder), [600, 800])


def test_a_pit_that_digs_what_is_forbidden_is_never_shown(tmp_path):
    """The most that `pit` reads for a block is 10^12: less than this mine brings at ten times the
    price."""
    f = table(1, 1, 3, 1).sort_values("ZC", ignore_index=True)
    f = f.assign(CU=np.where(f.ZC == f.ZC.min(), 80.0, 0.0))
    study = study_of(
        tmp_path,
        f,
        economics=costs(
            metals=(pp.Metal("copper", "CU", price=8500 * 3000, recovery=0.85),),
            forbid=["ZC > 110"],
        ),
    )
    assert 1e11 < study.priced.ways[0].revenue.sum() < 5e11
    assert study.pit(1.0).count == 0
    for found in (lambda: study.run(10_000), lambda: study.shells([1000, 10_000])):
        with pytest.raises(
            pp.PlanError,
            match="forbid: at factor 10 the mine brings so much that blocks are dug that may not be",
        ):
            found()
    assert study.verdict(10_000) is None
