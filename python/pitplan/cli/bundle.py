"""`pitplan bundle`: what an auditor gets, in a folder."""
from __future__ import annotations

from pathlib import Path
from typing import List

from ..base.next_command import command
from .console import and_study, app, described, err, say, shells_of, study_and, warn


@app.command()
def bundle(pair: List[str] = and_study("DIR", "the new folder.")) -> None:
    """All that the numbers rest on, with scripts that check it again: for an auditor."""
    from ..audit.bundle import write_bundle
    from .chosen_pits import with_certificates

    folder, named = study_and("bundle", pair)
    target, plan = Path(named), described(folder)
    with err.long_step("the pits are read again"):
        shells, rates = shells_of(folder)
    shells = with_certificates(shells)
    with err.long_step("files are copied, and their digests taken"):
        dialect, terms = plan.keys.dialect(plan.table), plan.values["schedule"]
        digest = write_bundle(shells, target, plan.path, dialect, rates, terms)
    say(
        f"{target}: {len(shells)} proved pits, with all that they rest on; python3"
        f" {target}/recheck.py PIT checks it again"
    )
    if (target / "schedule").is_dir():
        say(f"the plan by years is in it: python3 {target}/recheck_schedule.py checks it again")
    elif (shells.study.folder / "runs" / "schedule" / "schedule.npz").is_file():
        warn(
            "the plan by years isn't in it: it was found for other terms, prices or pits than"
            f" those of study.toml now\n  try: {command('schedule', folder)}, and bundle again"
        )
    say(f"tell the auditor by another way: sha256 of SHA256SUMS is\n{digest}")
