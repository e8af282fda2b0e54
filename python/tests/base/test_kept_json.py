"""JSON files of a study that are damaged."""
import json

import pytest

import pitplan as pp
from mines import shells_of
from pitplan.base import kept_json
from pitplan.plans import risk, vary


def test_a_verdict_or_a_manifest_that_was_damaged_is_none(tmp_path):
    """A byte that is no text, another JSON, a key with a byte that is another: nothing of Python's
    own comes out."""
    study = shells_of(tmp_path).study
    for path, found in (
        (study.place(800) / "verdict.json", lambda: pp.Study(study.folder).verdict(800)),
        (study.where / "manifest.json", lambda: pp.Study(study.folder).key),
    ):
        kept = path.read_bytes()
        for data in (
            b"",
            b"[]",
            b"{}",
            b"7",
            *(
                kept[:at] + bytes([kept[at] ^ bit]) + kept[at + 1 :]
                for bit in (2, 128)
                for at in range(0, min(len(kept), 900), 7)
            ),
        ):
            path.write_bytes(data)
            try:
                found()
            except pp.PlanError as error:
                assert "manifest.json is damaged" in str(error)
                assert path.name == "manifest.json"
        path.write_bytes(kept)
        assert found()
    verdict = json.loads((study.place(800) / "verdict.json").read_text())
    (study.place(800) / "verdict.json").write_text(
        json.dumps(verdict).replace('"count"', '"counu"')
    )
    with pytest.raises(pp.PlanError, match="f00800/verdict.json is damaged: it has no count"):
        study.mask(800)


@pytest.mark.parametrize("data", [b"\xff", b"[]", b"{}", b"[1"])
def test_what_was_asked_for_is_damaged_and_told(tmp_path, data):
    study = shells_of(tmp_path, series=(1000,)).study
    for name, asked in (("vary/vary.json", vary.asked_of), ("risk/risk.json", risk.setup_of)):
        (study.folder / name).parent.mkdir()
        (study.folder / name).write_bytes(data)
        with pytest.raises(pp.PlanError, match="json is damaged"):
            asked(study)


@pytest.mark.parametrize("value, holds", [(0, True), (10_000, True), (10_001, False), (-1, False)])
def test_a_factor_is_one_that_pit_takes(value, holds):
    """From 0 to ten times the price, in thousandths."""
    assert kept_json.is_factor(value) == holds
