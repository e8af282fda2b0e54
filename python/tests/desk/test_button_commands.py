"""The commands that buttons stand for."""
import pytest

pytest.importorskip("starlette")

from pitplan.base.errors import PlanError
from pitplan.desk.button_commands import Commands
from pitplan.desk.folder import Folder, Refused

SMUGGLED = (
    {"what": "vary", "changes": ["--workers=9"]},
    {"what": "vary", "changes": [["--workers", 1, 9]]},
    {"what": "vary", "changes": [["price", "--workers", 9]]},
    {"what": "vary", "changes": ["/etc"]},
    {"what": "vary", "changes": []},
    {"what": "phases", "factors": ["--help"]},
    {"what": "phases", "factors": "0.4"},
    {"what": "phases", "factors": [0.4], "mining_width": "40; rm"},
    {"what": "phases", "factors": [float("inf")]},
    {"what": "export", "kinds": ["dxf"], "crs": "--x"},
    {"what": "export", "kinds": ["sh"]},
    {"what": "plot", "cut": "bench", "at": "1"},
    {"what": "plot", "cut": "--help", "at": 1},
    {"what": "compare", "design": "../../secret.csv"},
    {"what": "compare", "design": "-d.dxf"},
    {"what": "compare", "design": "d.dxf", "factor": True},
    {"what": "schedule", "gap": "0.5 --workers 9"},
    {"what": "schedule", "minutes": True},
    {"what": "task"},
    {"what": "submit"},
    {},
)


@pytest.mark.parametrize("asked", SMUGGLED, ids=str)
def test_no_word_of_the_browser_is_an_option(root, asked):
    (root / "hill" / "designs").mkdir()
    (root / "hill" / "designs" / "d.dxf").write_text("0")
    with pytest.raises((PlanError, Refused)):
        Commands(Folder(root), root / "hill", []).steps(asked)


def test_what_a_button_runs(root):
    """The commands of docs/PLANNING.md."""
    (root / "hill" / "designs").mkdir()
    (root / "hill" / "designs" / "d.dxf").write_text("0")
    runs = [
        {"what": "phases", "number": 2, "state": "done", "asked": {"factors": [0.4, 1]}},
        {"what": "all", "number": 1, "state": "done", "asked": {}},
    ]

    def typed(before=(), **asked):
        steps = Commands(Folder(root), root / "hill", list(before)).steps(asked)
        return [" ".join(step) for step in steps]

    assert typed(what="all") == ["build hill", "shells hill", "page hill", "plot hill"]
    assert typed(what="phases", factors=[0.4, 1], mining_width=40) == [
        "phases hill 0.4,1 --mining-width 40",
        "page hill --phases 0.4,1",
    ]
    assert typed(runs, what="compare", design="d.dxf", factor=0.9) == [
        "compare hill --surface hill/designs/d.dxf --factor 0.9",
        "page hill --phases 0.4,1 --design hill/designs/d.dxf --factor 0.9",
    ]
    newer = [{"what": "build", "number": 3, "state": "done", "asked": {}}, *runs]
    assert typed(newer, what="compare", design="d.dxf")[1].startswith("page hill --design")
    assert typed(what="vary", changes=[["price", -20, 20]]) == [
        "vary hill price=-20..20 --factor 1"
    ]
    changes = [["discount", "-2,5", -0.5], ["sink", -1, 1]]
    by_years = {"what": "vary", "changes": changes, "schedule": True}
    assert typed(**by_years) == ["vary hill discount=-2.5..-0.5 sink=-1..1 --schedule"]
    assert typed(what="schedule") == ["schedule hill"]
    assert typed(what="schedule", minutes=2, gap=0.5) == ["schedule hill --gap 0.5 --minutes 2"]
    assert typed(what="export", kinds=["minelib"]) == ["export hill --to minelib"]
    assert typed(what="risk") == ["risk hill --schedule"]
    assert typed(what="page", schedule=True) == ["page hill --schedule"]
    assert typed(runs, what="page", schedule=True) == ["page hill --phases 0.4,1 --schedule"]
    files = {"what": "export", "kinds": ["dxf"]}
    assert typed(**files, schedule=True) == ["export hill --to dxf --schedule"]
    assert typed(**files, schedule="--workers") == ["export hill --to dxf"]
    assert typed(what="plot", cut="bench", at=1005, colour="--help") == [
        "plot hill --bench 1005 --colour=--help"
    ]
    assert typed(what="phases", factors=[0.1 + 0.2])[0] == "phases hill 0.3"
