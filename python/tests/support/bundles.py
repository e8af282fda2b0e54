"""Bundles of small studies, and what their script says of them, for the tests."""
import hashlib
import json
import os
import subprocess
import sys

import mines
from pitplan.audit import bundle
from pitplan.schedule import Schedule
from pitplan.study.study import Study
from pitplan.study.study_file import read_study_file


def bundled(folder, text=mines.STUDY_TOML, frame=None):
    """The bundle of a small study."""
    plan = read_study_file(mines.written_study(folder, frame, text))
    study = Study.create(
        plan.path.parent, plan.read_model(), plan.economics, plan.slopes, keys=plan.digest
    )
    bundle.write_bundle(
        study.shells(plan.factors),
        folder / "for the auditor",
        plan.path,
        plan.keys.dialect(plan.table),
        plan.rates,
    )
    return folder / "for the auditor"


def with_schedule(folder, frame, text, limits=(0.005, 600)):
    """The bundle of a study with a schedule, and that schedule."""
    mines.written_study(folder / "s", frame, text)
    plan = read_study_file(folder / "s")
    Study.create(folder / "s", plan.read_model(), plan.economics, plan.slopes, None, plan.digest)
    shells, terms = Study(folder / "s").shells(plan.factors), plan.values["schedule"]
    found = Schedule.of(shells, terms, plan.rates, limits)
    dialect = plan.keys.dialect(plan.table)
    bundle.write_bundle(shells, folder / "bundle", plan.path, dialect, plan.rates, terms)
    return folder / "bundle", found


def rechecked(folder, *words):
    """The lines of recheck.py that aren't ok, and its exit status; a traceback is none of its
    answers."""
    ran = subprocess.run(
        [sys.executable, "-I", str(folder / "recheck.py"), *words, os.environ["PIT"]],
        capture_output=True,
        text=True,
        cwd="/",
    )
    assert "Traceback" not in ran.stderr, ran.stderr
    lines = ran.stdout.splitlines()
    return [line for line in lines if not line.startswith(("ok ", "look ", "sha256 of"))], (
        ran.returncode
    )


def summed(folder):
    """Makes the digests again, as somebody who changes a bundle would."""
    paths = (path for path in folder.rglob("*") if path.is_file() and path.name != bundle.SUMS)
    lines = [
        f"{hashlib.sha256(path.read_bytes()).hexdigest()}  {path.relative_to(folder).as_posix()}\n"
        for path in sorted(paths, key=lambda path: path.relative_to(folder).as_posix())
    ]
    (folder / bundle.SUMS).write_text("".join(lines))


def resealed(folder):
    """Makes all digests again, those of the model and of the table too."""
    manifest, facts = (
        json.loads((folder / name).read_text()) for name in ("model/manifest.json", "facts.json")
    )
    for name in ("mine.blocks", "settings.toml"):
        digest = hashlib.sha256((folder / "model" / name).read_bytes()).hexdigest()
        manifest["files"][name] = digest
    both = "".join(manifest["files"][name] for name in ("mine.blocks", "settings.toml"))
    manifest["key"] = hashlib.sha256(both.encode()).hexdigest()
    table = hashlib.sha256((folder / facts["table"]).read_bytes()).hexdigest()
    facts["sha256"] = manifest["source"]["sha256"] = table
    (folder / "model" / "manifest.json").write_text(json.dumps(manifest))
    (folder / "facts.json").write_text(json.dumps(facts))
    summed(folder)
