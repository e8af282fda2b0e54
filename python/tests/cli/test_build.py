"""The command `build`."""
from decimal import Decimal

import pytest

import pitplan as pp
from mines import STUDY_TOML, written_study
from pitplan.cli import build as commands_build


def test_amounts_too_large_for_the_rounding_are_told_by_build(tmp_path):
    """Before any pit is looked for, and with a rounding that does."""
    text = STUDY_TOML.replace("price = 8500", "price = 8.5e8").replace(
        "mining = 2.0", "mining = 2.0\nrounding = 0.000001"
    )
    folder = written_study(tmp_path / "s", text=text)
    with pytest.raises(
        pp.PlanError, match="too large to count with in units of 0.000001"
    ) as caught:
        commands_build.build(folder)
    found = caught.value.try_this.split(" in ")[0]
    (folder / "study.toml").write_text(text.replace("rounding = 0.000001", found))
    commands_build.build(folder)
    (folder / "study.toml").write_text(
        text.replace("rounding = 0.000001", f"rounding = {Decimal(found.split()[-1]) / 10:f}")
    )
    with pytest.raises(pp.PlanError, match="too large"):
        commands_build.build(folder)
