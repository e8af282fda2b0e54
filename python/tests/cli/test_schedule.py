"""What `schedule` says of a search while it goes on and once it ended."""
import json
import math
from types import SimpleNamespace

import click
import pandas as pd
import pytest
import two_ways
from planned import run
from pitplan.cli import main, schedule as command
from pitplan.schedule import plan
from pitplan.schedule.search_ends import End, SearchStopped, STOPPED
from pitplan.schedule.search import Found


def test_how_far_a_search_is_in_words():
    one = Found(bound=200_000_000, npv=199_000_000, closures=1, filled=1)
    words = "a schedule of 1 period, 0.500% below the bound"
    assert command._words(one) == words
    words = "a schedule of 2 periods, 0.500% below the best of 3 bounds"
    assert command._words(Found(200, 199, 3, 2)) == words
    assert command._words(Found(None, 199, 0, 6)) == "a schedule of 6 periods, no bound yet"
    assert command._words(Found()) == command._words(Found(bound=200)) == "no schedule yet"


def test_the_facts_of_a_search_that_was_stopped():
    """In units of currency; what isn't there yet is null, and no NaN or Infinity comes."""
    found = Found(bound=200_000_000, npv=199_000_000, closures=3, filled=4)
    end = End(STOPPED, 0.001, 1800.0)
    facts = json.loads(json.dumps(found.facts | end.facts, allow_nan=False))
    assert (float(facts["npv"]), float(facts["bound"])) == (199, 200)
    assert math.isclose(facts["gap_percent"], 0.5)
    assert (facts["is_judged"], facts["ended"]) == (False, "ctrl-C")
    assert (facts["asked_gap_percent"], facts["asked_minutes"]) == (0.1, 30)
    assert Found().facts["gap_percent"] is None


@pytest.mark.parametrize("digest, words", [("", "nothing of this run is kept"), ("a", "goes on")])
def test_ctrl_c_says_what_is_kept(monkeypatch, capsys, digest, words):
    """Where a search had a schedule, and where it had none: there nothing else is said."""

    def stopped(**_):
        with command._stopped(SimpleNamespace(study=SimpleNamespace(named="s")), (0, 60), {}):
            raise SearchStopped(Found(npv=5) if digest else Found(), digest)

    def app(**_):
        try:
            stopped()
        except KeyboardInterrupt as error:
            raise click.Abort from error  # as click does

    for name in ("app", "take_turns", "load_commands"):
        monkeypatch.setattr(main, name, app if name == "app" else lambda *_: None)
    for name in ("show_schedule", "_write_facts"):
        monkeypatch.setattr(command, name, lambda *_: None)
    with pytest.raises(SystemExit, match="130"):
        main._run()
    said = " ".join(capsys.readouterr().err.split())
    assert words in said.partition("stopped")[2]
    assert ("its table, once there is a first bound: " in said) == bool(digest)
    assert ("kept" in said.partition("stopped")[0]) is False
    assert ("goes on" in said) == bool(digest)


def test_a_search_that_was_stopped_before_it_began_has_nothing(monkeypatch):
    def pressed(*_):
        raise KeyboardInterrupt

    monkeypatch.setattr(plan, "production_for", pressed)
    shells = SimpleNamespace(study=SimpleNamespace(folder=None))
    with pytest.raises(SearchStopped) as stopped:
        plan.Schedule.of(shells, {}, {}, (0, 60))
    assert stopped.value.digest == ""


def test_the_planners_own_table_keeps_its_encoding(tmp_path):
    """Also in the cells that come to it: one reader reads the whole file."""
    text = two_ways.TEXT + "\n[schedule]\nyears = 6\n"
    for was, now in (
        ('name = "leach"', 'name = "lixivia\u00e7\u00e3o"'),
        ('"t.csv"', '"t.csv"\nencoding = "cp1252"'),
        ("OXI =", '"\u00d3XI" ='),
        ('"OXI"', '"\u00d3XI"'),
    ):
        text = text.replace(was, now)
    folder = two_ways.written(tmp_path / "s")
    (folder / "study.toml").write_text(text, "utf-8")
    table = two_ways.frame().replace("OXI", "\u00d3XI")
    table.to_csv(folder / "t.csv", index=False, encoding="cp1252")
    run("build", folder)
    run("shells", folder)
    run("schedule", folder, "--gap", "10")
    lines = (folder / "out" / "schedule_t.csv").read_text("cp1252").splitlines()
    assert [line.rsplit(",", 2)[0] for line in lines] == (folder / "t.csv").read_text(
        "cp1252"
    ).splitlines()
    sent = {line.rsplit(",", 1)[1] for line in lines[1:]}
    assert "lixivia\u00e7\u00e3o" in sent <= {"lixivia\u00e7\u00e3o", "mill", "waste", ""}


def test_each_amount_stands_below_its_heading(monkeypatch):
    """Of a year of 2.5 million tonnes and two processes, one of which gets less than the other."""
    study = SimpleNamespace(
        manifest={"metals": {"copper": {"grade_unit": "%"}}},
        priced=SimpleNamespace(process_names=["mill", "leach"]),
        model=SimpleNamespace(units=SimpleNamespace(weight="t", length="m")),
        currency="$",
    )
    production = SimpleNamespace(terms=SimpleNamespace(per_year=1))
    schedule = SimpleNamespace(production=production, shells=SimpleNamespace(study=study))
    year = {"period": 3, "rock_t": 2.5e6, "ore_t": 1e6, "strip": 1.5, "feed_t": 0.9e6}
    year |= {"process_mill_feed_t": 0.6e6, "process_leach_feed_t": 0.3e6, "grade_copper": 0.612}
    year |= {"cash_flow": 30e6, "discounted": 28e6, "npv": 70e6, "bottom": 1007.5}
    year |= {"narrow_share": 0.25, "binds": "mill"}
    shown = []
    monkeypatch.setattr(command, "print_columns", lambda *words, **more: shown.append(words))
    command._print_years(schedule, pd.DataFrame([year]))
    ((title, names, (cells,)),) = shown
    assert "million $" in title
    assert dict(zip(names, cells, strict=True)) == {
        "year": "3",
        "rock Mt": "2.50",
        "ore Mt": "1.00",
        "strip": "1.50",
        "feed Mt": "0.90",
        "mill Mt": "0.60",
        "leach Mt": "0.30",
        "copper %": "0.612",
        "cash flow": "30.00",
        "discounted": "28.00",
        "npv so far": "70.00",
        "bottom m": "1,007.5",
        "narrow": "25%",
        "binds": "mill",
    }
