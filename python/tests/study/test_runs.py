"""Runs that are cut off, disks that fill up, models that change, and results that are wrong."""
import os
from contextlib import nullcontext

import numpy as np
import pytest

import pitplan as pp
from mines import costs, study_of, table, written_study
from pitplan.pit.program import Pit
from pitplan.base.files import made_whole
from certificates import pit_lines
from processes import TOP, command
from served import pitplan


def test_a_pit_of_the_checked_bytes(tmp_path):
    study = study_of(tmp_path, table(6, 5, 4, 3))
    found = study.pit(1.0)
    assert found.count == found.mask.sum() == len(found.blocks) > 0
    assert found.factor == 1000
    assert found.size == len(study.model)
    size, factor, blocks, digest = pit_lines(unpacked(study, 1000, tmp_path).read_bytes())
    assert (size, factor, digest) == (found.size, 1000, found.certificate)
    assert (blocks == found.blocks).all()


def unpacked(study, factor, folder):
    import gzip

    path = folder / "plain.cert"
    path.write_bytes(gzip.decompress((study.place(factor) / "best.cert.gz").read_bytes()))
    return path


def test_a_refused_certificate_is_no_pit(tmp_path):
    study = study_of(tmp_path, table(6, 5, 4, 3))
    study.run(1000)
    text = unpacked(study, 1000, tmp_path).read_text()
    first = next(line for line in text.splitlines() if line.startswith("PIT "))
    (tmp_path / "less.cert").write_text(text.replace(first + "\n", "", 1))
    with pytest.raises(pp.NotAccepted, match="REFUSED"):
        study.program.check(study.files, tmp_path / "less.cert")


@pytest.mark.parametrize("is_stopped", [False, True])
def test_a_folder_is_put_in_its_place_beside_another_process_or_a_ctrl_c(
    tmp_path, monkeypatch, is_stopped
):
    """Another process puts its own there, or ctrl-C comes, when the folder before is out of the way."""
    place, rename, met = tmp_path / "model", os.rename, []

    def late(source, target):
        if target == place and not met:
            met.append(target)
            if is_stopped:
                raise KeyboardInterrupt
            (place / "theirs").mkdir(parents=True)
        rename(source, target)

    place.mkdir()
    (place / "before").touch()
    monkeypatch.setattr(os, "rename", late)
    with pytest.raises(KeyboardInterrupt) if is_stopped else nullcontext(), made_whole(
        place
    ) as work:
        (work / "ours").touch()
    assert met
    assert [path.name for path in place.iterdir()] == ["before" if is_stopped else "ours"]
    assert list(tmp_path.iterdir()) == [place]


def test_a_series_goes_on_where_it_was(tmp_path, monkeypatch):
    study = study_of(tmp_path, table(9, 8, 5, 5))
    ran = []
    best = Pit.best
    monkeypatch.setattr(
        Pit,
        "best",
        lambda self, files, factor, *rest: ran.append(factor) or best(self, files, factor, *rest),
    )
    study.shells([600, 1000], certificates=True)
    half = study.folder / "runs/base/.f00800.elsewhere.1.xyz"
    dead = study.folder / f"runs/base/.f00800.{os.uname().nodename.replace('.', '_')}.999999999.xyz"
    for folder in (half, dead):
        folder.mkdir()
    study.shells([600, 800, 1000, 1200], certificates=True)
    assert sorted(ran) == [600, 800, 1000, 1200]
    assert half.exists()  # another machine may still be at work on it
    assert not dead.exists()


def test_a_full_disk_is_told_and_the_run_goes_on(tmp_path, small_disks):
    folder, pitplan = written_study(tmp_path / "s", table(9, 8, 5, 5)), TOP / "bin/pitplan"
    assert command("build", folder).wait() == 0
    place = folder / "runs"
    small_disks.mount(place, 48)
    small_disks.done(pitplan, "task", folder, "run", "base", 600)
    small_disks.fill(place)
    code, _, errors = small_disks.said(pitplan, "shells", folder, "--workers", 1)
    assert code == 4, errors
    assert "disk" in errors, errors
    assert small_disks.done("ls", "-A", place / "base").split() == ["f00600"]
    small_disks.widen(place)
    small_disks.done(pitplan, "shells", folder, "--workers", 1)
    assert small_disks.done("ls", "-A", place / "base").split() == ["f00600", "f01000", "f01200"]


@pytest.mark.parametrize("words", [("shells",), ("vary", "price=-10..10"), ("slopes",)])
def test_a_table_stays_whole_on_a_full_disk_which_is_told_by_the_file(tmp_path, small_disks, words):
    folder, pitplan = written_study(tmp_path / "s", table(12, 12, 6, 5)), TOP / "bin/pitplan"
    assert command("build", folder).wait() == 0
    assert command("shells", folder).wait() == 0
    out = folder / "out"
    small_disks.mount(out, 400)
    small_disks.done(pitplan, words[0], folder, *words[1:])
    small_disks.fill(out)
    before = small_disks.done("sh", "-c", f"cd {out} && sha256sum *.csv")
    code, _, errors = small_disks.said(pitplan, words[0], folder, *words[1:])
    assert code == 4, errors
    assert f"error: {out}/" in errors, errors
    assert "make room on that disk" in errors, errors
    assert small_disks.done("sh", "-c", f"cd {out} && sha256sum *.csv") == before


def test_forbidden_blocks_stay(tmp_path):
    f = table(9, 8, 5, 5)
    free = study_of(tmp_path, f).pit(1.35).mask
    study = study_of(
        tmp_path, f, economics=costs(forbid=["XC > 5100", "ROCK == 'OXI' and ZC < 110"])
    )
    fence = ((f.XC > 5100) | ((f.ROCK == "OXI") & (f.ZC < 110))).to_numpy()
    for share in (1.35, 10.0):
        assert not (study.pit(share).mask & fence).any()
    assert (
        pp.Study(study.folder).priced.forbidden == fence
    ).all()  # as it comes back from its file
    assert (free & fence).any()
    assert study.pit(1.35).count > 0


def test_a_rich_block_below_a_forbidden_one_stays_at_every_factor(tmp_path):
    """What lies below is all that the mine brings, at ten times the price as well."""
    f = table(1, 1, 3, 1).sort_values("ZC", ignore_index=True)
    f = f.assign(CU=np.where(f.ZC == f.ZC.min(), 80.0, 0.0))
    study = study_of(tmp_path, f, economics=costs(forbid=["ZC > 110"]))
    assert study.pit(10.0).count == 0
    assert study_of(tmp_path, f).pit(10.0).count == len(f)
