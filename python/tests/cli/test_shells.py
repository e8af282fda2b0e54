"""The command `shells` on a terminal, and its table."""
import os
import pty
import subprocess
from pathlib import Path
from types import SimpleNamespace

import pandas as pd
from mines import table, written_study
from pitplan.cli import shells as shells_command
from served import PITPLAN, pitplan


def on_terminal(*words):
    """The status, and what came on a terminal."""
    own, side = pty.openpty()
    environment = {**os.environ, "TERM": "xterm", "COLUMNS": "120", "NO_COLOR": "1"}
    run = subprocess.Popen(
        [PITPLAN, *map(str, words)],
        stdin=subprocess.DEVNULL,
        stdout=side,
        stderr=side,
        env=environment,
    )
    os.close(side)
    shown = b""
    while True:
        try:
            piece = os.read(own, 1 << 16)
        except OSError:  # nobody writes any more
            break
        if not piece:
            break
        shown += piece
    os.close(own)
    return run.wait(600), shown.decode(errors="replace")


def test_shells_show_how_many_are_done(tmp_path):
    study = written_study(tmp_path, table(8, 7, 4, 3))
    assert pitplan("build", study).returncode == 0
    status, shown = on_terminal("shells", study)
    assert status == 0, shown
    assert "pits, " in shown, shown
    assert " at a time" in shown, shown
    assert "pit by pit" in shown, shown
    status, shown = on_terminal("shells", study, "--certificates")
    assert status == 0, shown
    assert "factor " in shown, shown


class Pits(SimpleNamespace):
    """A series of one pit."""

    def __len__(self):
        return 1


def test_each_amount_of_a_pit_stands_below_its_heading(monkeypatch):
    study = SimpleNamespace(
        currency="$",
        manifest={"metals": {"copper": {"grade_unit": "%"}}},
        model=SimpleNamespace(units=SimpleNamespace(weight="t")),
        folder=Path("s"),
        named="s",
    )
    pit = {"factor": 0.85, "blocks": 1234, "ore_t": 1.5e6, "waste_t": 3e6, "strip": 2.0}
    pit |= {"grade_copper": 0.612, "worth_at_base": 90e6, "npv_best": 80e6, "npv_worst": 70e6}
    shown = []
    monkeypatch.setattr(shells_command, "print_columns", lambda *words: shown.append(words))
    shells_command._print_table(
        Pits(study=study, certified=1), pd.DataFrame([pit | {"years": 6.3}])
    )
    ((title, names, (cells,)),) = shown
    assert "million $" in title
    assert dict(zip(names, cells, strict=True)) == {
        "factor": "0.850",
        "blocks": "1,234",
        "ore Mt": "1.50",
        "waste Mt": "3.00",
        "strip": "2.00",
        "copper %": "0.612",
        "worth": "90.00",
        "best case": "80.00",
        "worst case": "70.00",
        "years": "6.3",
    }
