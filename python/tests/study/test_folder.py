"""The folder of a study: what it has, and whatever isn't as the build made it."""
import json
import re

import pytest

import pitplan as pp
from mines import study_of, table
from pitplan.base.kept_json import Damaged
from pitplan.study.folder import StudyFolder
from pitplan.study.pair_counts import counted_pairs


@pytest.fixture
def made(tmp_path):
    """A study with two regions of slopes."""
    return study_of(tmp_path, table(6, 5, 4, 3), pp.Slopes(45, by="SECTOR", regions={"EAST": 38}))


def test_it_knows_its_files_and_what_it_was_built_from(made, tmp_path):
    found = StudyFolder(made.folder)
    assert (found.files.blocks, found.files.settings) == (made.blocks_file, made.settings_file)
    assert found.table.resolve() == (tmp_path / "t.csv").resolve()
    assert found.currency == "$"
    assert list(found.offsets) == ["default", "EAST"]
    assert set(found.region.tolist()) == {0, 1}
    assert len(found.model) == len(found.priced) == found.manifest["blocks"]


def test_a_folder_without_a_model_is_no_study(tmp_path):
    with pytest.raises(pp.PlanError, match="is no study, or was never built") as refused:
        StudyFolder(tmp_path)
    assert "build" in str(refused.value.try_this)


@pytest.mark.parametrize(
    "change, error, words",
    [
        (None, pp.PlanError, "settings.toml is gone"),
        (lambda text: text.replace("slopes", "slope"), Damaged, "settings.toml is damaged"),
        (
            lambda text: re.sub(r"slopes = .*", "slopes = [[[0, 0, 1]]]\n", text, flags=re.S),
            Damaged,
            "it lists 1 slopes, and there are 2",
        ),
    ],
)
def test_offsets_that_are_not_those_of_the_regions_are_refused(made, change, error, words):
    path = made.settings_file
    text = path.read_text()
    path.unlink() if change is None else path.write_text(change(text))
    with pytest.raises(error, match=words) as refused:
        StudyFolder(made.folder).offsets
    assert "build" in str(refused.value.try_this)


def test_pairs_that_an_older_build_did_not_count_are_counted(made):
    path = made.where / "manifest.json"
    manifest = json.loads(path.read_text())
    assert StudyFolder(made.folder).pairs == made.pairs
    del manifest["pairs"]
    path.write_text(json.dumps(manifest))
    older = StudyFolder(made.folder)
    assert older.pairs == made.pairs
    assert older.pairs == counted_pairs(made.model.index, made.region, list(made.offsets.values()))


@pytest.mark.parametrize("blocks", [0, 3, 10**6])
def test_a_manifest_of_another_number_of_blocks_is_told(made, blocks):
    path = made.where / "manifest.json"
    path.write_text(json.dumps(json.loads(path.read_text()) | {"blocks": blocks}))
    for name in ("model", "priced", "region"):
        with pytest.raises(Damaged, match=f"manifest.json says {blocks:,} blocks"):
            getattr(StudyFolder(made.folder), name)


@pytest.mark.parametrize("change", [lambda metals: {}, lambda metals: {"tin": metals["copper"]}])
def test_a_manifest_of_other_metals_is_told(made, change):
    path = made.where / "manifest.json"
    facts = json.loads(path.read_text())
    path.write_text(json.dumps(facts | {"metals": change(facts["metals"])}))
    with pytest.raises(Damaged, match="manifest.json names other metals"):
        StudyFolder(made.folder).priced


@pytest.mark.parametrize("name", ["mine.blocks", "settings.toml", "blocks.npz"])
def test_files_are_those_that_the_build_made(made, name):
    StudyFolder(made.folder).verify()
    path = made.where / name
    path.write_bytes(path.read_bytes() + b"\n")
    with pytest.raises(pp.PlanError, match=f"{name} isn't the file that the build made"):
        StudyFolder(made.folder).verify()
    path.unlink()
    with pytest.raises(pp.PlanError, match=f"{name} is gone"):
        StudyFolder(made.folder).verify()


def test_what_explains_an_error_comes_in_its_place(made):
    """A file that was changed is told, and not what was made of it; of a sound one the error stays."""
    with pytest.raises(OSError, match="of the reader"):
        with StudyFolder(made.folder).verifying():
            raise OSError("of the reader")
    made.blocks_file.write_text("")
    with pytest.raises(pp.PlanError, match="isn't the file that the build made"):
        with StudyFolder(made.folder).verifying():
            raise OSError("of the reader")


def test_another_study_toml_or_table_than_it_was_built_from_is_refused(made, tmp_path):
    found, toml, text = StudyFolder(made.folder), tmp_path / "study.toml", tmp_path / "t.csv"
    keys = found.manifest["keys"]
    found.refuse_changed(toml, keys, text)
    found.refuse_changed(toml, keys, tmp_path / "gone.csv")  # a table may be elsewhere now
    with pytest.raises(pp.PlanError, match="study.toml has changed since"):
        found.refuse_changed(toml, keys + "x", text)
    text.write_text(text.read_text() + "\n")
    with pytest.raises(pp.PlanError, match="the table has changed since"):
        found.refuse_changed(toml, keys, text)
