"""examples/planning.py runs, and what it prints is what pit proves: at the full price no pit of the
series is worth more."""
import os
import re
import subprocess
import sys
from pathlib import Path

TOP = Path(__file__).resolve().parents[3]


def test_the_script_runs(tmp_path):
    ran = subprocess.run(
        [sys.executable, str(TOP / "examples" / "planning.py"), str(tmp_path / "hill")],
        cwd=tmp_path,
        capture_output=True,
        text=True,
        env={**os.environ, "PYTHONPATH": str(TOP / "python")},
    )
    assert ran.returncode == 0, ran.stderr
    worths = {
        float(line.split()[0]): float(line.split()[4])
        for line in ran.stdout.splitlines()
        if re.match(r" *\d\.\d ", line)
    }
    assert len(worths) == 5
    assert max(worths.values()) == worths[1.0]
    count, worth = re.search(r"([\d,]+) blocks worth (\d+); certificate", ran.stdout).groups()
    certificate = next((tmp_path / "hill" / "runs" / "base" / "f01000").glob("*.gz"))
    said = subprocess.run(
        [
            sys.executable,
            str(TOP / "python" / "pitplan" / "audit" / "plainly.py"),
            "--blocks",
            "mine.blocks",
            "--settings",
            "settings.toml",
            str(certificate),
        ],
        cwd=tmp_path / "hill" / "model",
        capture_output=True,
        text=True,
    ).stdout
    assert said == f"ACCEPTED {count.replace(',', '')} {worth}\n"
    assert float(worth) == worths[1.0]
    assert {path.name for path in (tmp_path / "hill" / "out").iterdir()} == {
        "pit-by-pit.png",
        "plan.png",
        "pits.html",
    }
