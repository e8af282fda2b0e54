"""A study: whose pits count, and what a build leaves."""
import re
import shutil

import pandas as pd
import pytest

import pitplan as pp
from mines import costs, shells_of, study_of, table, written_study
from served import pitplan


def test_a_study_that_was_built_with_a_list_of_predecessors_is_built_again(tmp_path):
    folder = written_study(tmp_path / "s")
    assert pitplan("build", folder).returncode == 0
    model = folder / "model"
    settings = re.sub(r"slopes = .*", "", (model / "settings.toml").read_text(), flags=re.S)
    (model / "settings.toml").write_text(settings)
    (model / "slopes.toml").write_text("slopes = [[[0, 0, 1]]]\n")
    (model / "mine.prec").write_text("0 0\n")
    for words in (("shells",), ("page",), ("compare", "--column", "ROCK=SUL"), ("status",)):
        ran = pitplan(words[0], folder, *words[1:])
        assert ran.returncode == 3, ran.stderr
        said = " ".join(ran.stderr.split())
        assert "was built by an older version of pitplan: its model has a list" in said
        assert f"try: pitplan build {folder}" in said or "pitplan build" in said, said
    assert pitplan("build", folder).returncode == 0
    assert pitplan("shells", folder).returncode == 0
    assert not list(folder.rglob("*.prec"))


def test_a_changed_model_has_no_pits(tmp_path):
    old = shells_of(tmp_path).study
    assert old.verdict(800)
    f = pd.read_csv(tmp_path / "t.csv")
    f.loc[0, "CU"] += 1
    new = study_of(tmp_path, f)
    assert new.verdict(800) is None
    with pytest.raises(pp.PlanError, match="hasn't been run over this model"):
        pp.Shells(new, [800])
    assert len(new.shells([600, 800]).verdicts) == 2


def test_a_pit_in_another_factor_s_folder_is_none(tmp_path):
    study = shells_of(tmp_path).study
    shutil.copytree(study.place(800), study.place(900))
    assert study.verdict(800)
    assert study.verdict(900) is None
    with pytest.raises(pp.PlanError, match="0.9 hasn't been run over this model"):
        pp.Shells(study, [800, 900])
    assert study.shells([800, 900]).verdicts[1]["factor"] == 900


def test_a_build_that_fails_leaves_the_study_as_it_was(tmp_path):
    old = shells_of(tmp_path).study
    with pytest.raises(pp.PlanError):
        study_of(tmp_path, table(9, 8, 5, 5), economics=costs(mill=["NONE"]))
    assert pp.Shells(pp.Study(old.folder), [600, 800]).verdicts == [
        old.verdict(600),
        old.verdict(800),
    ]
    (tmp_path / "empty").mkdir()
    with pytest.raises(pp.PlanError, match="never built"):
        pp.Study(tmp_path / "empty")
