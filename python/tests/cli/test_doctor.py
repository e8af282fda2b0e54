"""The command `doctor`: what it prints of what was found, and its exit status."""
import pytest
import typer

from pitplan.audit import doctor as findings_of
from pitplan.audit.doctor import Finding
from pitplan.cli.doctor import doctor


def told(monkeypatch, capsys, *found):
    """What it prints, and its status."""
    monkeypatch.setattr(findings_of, "findings", lambda: iter(found))
    try:
        doctor()
        status = 0
    except typer.Exit as ended:
        status = ended.exit_code
    return status, capsys.readouterr().out


def test_where_all_is_there_all_is_well(monkeypatch, capsys):
    status, said = told(
        monkeypatch, capsys, Finding("ok", "pit [x]"), Finding("look", "old", "newer")
    )
    assert status == 0
    assert said.splitlines() == ["ok      pit [x]", "look    old", "  try: newer", "all is well"]


@pytest.mark.parametrize("kind", ["MISSING", "WRONG"])
def test_what_is_missing_or_wrong_is_counted_and_ends_with_1(monkeypatch, capsys, kind):
    status, said = told(
        monkeypatch, capsys, Finding("ok", "pit"), Finding(kind, "three.js", "apt install it")
    )
    assert status == 1
    assert "  try: apt install it\n" in said
    assert said.endswith("missing or wrong: 1\n")
