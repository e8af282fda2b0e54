"""What an auditor gets: all that the numbers rest on, with the scripts that check it again without
this package."""
from __future__ import annotations

import glob
import json
import re
import shutil
from dataclasses import asdict
from importlib import resources
from pathlib import Path
from typing import TYPE_CHECKING, Any

from .. import __version__
from ..base.digests import sha256
from ..base.errors import PlanError
from ..base.next_command import command
from ..study.building import columns
from ..study.folder import READ
from ..base.files import made_whole, sweep
from ..table.csv_text import Dialect
from ..table.spreadsheets import write_table
from .schedule_files import OF_SCHEDULE, write_schedule

if TYPE_CHECKING:
    from ..study.shells import Shells
    from ..study.study import Study

SUMS = "SHA256SUMS"
_SCRIPTS = ("recheck.py", "plainly.py")
_KEPT = ("factor", "count", "worth", "certificate", "pit", "seconds", "host")
# of model/manifest.json: each is held against the other files
_OF_MODEL = ("key", "blocks", "regions", "pit", "currency", "metals")
_README = """A bundle of pitplan %(version)s: the ultimate pits of %(table)s, and all that they rest on.

    python3 recheck.py /path/to/pit              checks all of it again, by Python's standard\
 library and a pit that you trust
    python3 recheck.py --plainly /path/to/pit    and each certificate by plainly.py too, which\
 shares nothing with pit: slow
    sha256sum -c SHA256SUMS                      the digests alone

study.toml           prices, recoveries, costs, slopes and factors, as the planner wrote them
table/               the planner's table of blocks, byte for byte
model/               what pit was given. A line of mine.blocks: a block's number, its place along\
 x, y and z, what it brings, what
                     treating and digging it cost, its tonnes, and its region where slopes differ.\
 settings.toml: which column
                     is which, and the slopes. A block rests on those at the offsets (x, y, z) that\
 slopes lists for its region.
                     Where settings.toml lists ways, a block brings and costs so much by each\
 process of study.toml, in its order
certificates/        for each factor the pit, and the flow that proves it
verdicts.json        what pit check said of each, when and where
tables/              pit by pit, bench by bench, and the row and the shell of each block
facts.json           how the table was read, the grid, the versions of the programs

Before you begin: compare the sha256 of SHA256SUMS with the one that the planner tells you by\
 another way; recheck.py prints it
last. Read the scripts, or take them from a copy that you trust. The pit has to be yours: its\
 repository builds and proves it.

One certificate by hand, in this folder:

    gzip -dc certificates/NAME.cert.gz | pit check --blocks model/mine.blocks --settings model/settings.toml /dev/stdin

ACCEPTED, the number of blocks and the worth: the pit has all that its blocks rest on, and no such\
 pit is worth more at its
factor, over the files in model/. recheck.py compares these with the table, row by row.

Nothing here shows that grades, densities, prices, costs and angles are true: read study.toml. Nor\
 is this worked out again:
of sub-blocks, what digging added blocks costs. Each column of tables/ is; years and discounted\
 worths there are of two simple
orders, and of no schedule. Nothing shows host, seconds and pit of verdicts.json, nor the programs\
 that facts.json names.
Walls are as steep as asked only as nearly as whole blocks can be: `pitplan slopes` prints by how\
 much, for each bearing.
docs/AUDIT.md of the repository of pit says what each check shows, line by line.
"""


def write_bundle(
    shells: Shells,
    folder: str | Path,
    plan: Path,
    dialect: Dialect,
    rates: dict[str, Any] | None = None,
    terms: dict[str, Any] | None = None,
) -> str:
    """Writes a bundle, in a folder of its own that is renamed when it is whole.

    Parameters
    ----------
    shells : Shells
        Checked as they are read: files whose digests don't hold aren't bundled.
    folder : str or Path
        The new folder.
    plan : Path
        The study.toml.
    dialect : Dialect
        How the table is written.
    rates : dict, optional
        For `Shells.table`.
    terms : dict, optional
        The values of [schedule]: the plan by years that was found by them is in the bundle too.

    Returns
    -------
    str
        The sha256 of its SHA256SUMS: sent to the auditor by another way, it stands for all of the
        bundle.

    Raises
    ------
    PlanError
        Where the folder is there already, or the study was made of no file, or its table isn't
        there any more.
    """
    folder, study = Path(folder), shells.study
    if folder.exists():
        raise PlanError(f"{folder} is there already", try_this="another name, or take it away")
    table = study.table
    if table is None or not table.is_file() or sha256(table) != study.manifest["source"]["sha256"]:
        raise PlanError(
            "the table that the study was built from isn't there any more",
            table=table,
            try_this=f"{command('build', study.named)} && {command('shells', study.named)}",
        )
    shells = shells.with_certificates()
    sweep(folder.parent, f".{glob.escape(folder.name)}.*")
    with made_whole(folder, is_study=False) as work:
        name = f"table/{_plain_name(table.name)}"
        _copy_files(study, work, {plan: "study.toml", table: name})
        manifest = _manifest_of(study, name)
        (work / "model" / "manifest.json").write_text(json.dumps(manifest, indent=1))
        _write_certificates(shells, work)
        write_tables(shells, work, rates or {})
        has_schedule = terms is not None and write_schedule(shells, work, terms, rates or {})
        facts = facts_of(study, name, dialect) | {"has_schedule": has_schedule}
        (work / "facts.json").write_text(json.dumps(facts, indent=1))
        (work / "README.txt").write_text(
            _README % {"version": __version__, "table": Path(name).name}
            + (OF_SCHEDULE if has_schedule else "")
        )
        names = sorted(
            path.relative_to(work).as_posix() for path in work.rglob("*") if path.is_file()
        )
        (work / SUMS).write_text("".join(f"{sha256(work / it)}  {it}\n" for it in names))
        return sha256(work / SUMS)


def _manifest_of(study: Study, name: str) -> dict[str, Any]:
    """What is said of the model: nothing that no other file shows, and no path of the planner's
    machine; `name` is the table's in the bundle."""
    kept = study.manifest
    return {key: kept[key] for key in _OF_MODEL} | {
        "files": {part: kept["files"][part] for part in READ},
        "waste_classes": kept.get("waste_classes") or [],
        "source": {"table": name, "sha256": kept["source"]["sha256"]},
    }


def _plain_name(name: str) -> str:
    """A file's name of letters, digits, points and lines alone: it stands in a list, and is typed.

    >>> _plain_name("mine 7 (final).csv")
    'mine_7__final_.csv'
    """
    return re.sub(r"[^\w.-]", "_", name, flags=re.ASCII).lstrip(".-") or "table.csv"


def _copy_files(study: Study, work: Path, more: dict[Path, str]) -> None:
    """The planner's two files, those of the model that `pit` reads, and the scripts."""
    for part in ("model", "table", "tables", "certificates"):
        (work / part).mkdir()
    copies = dict(more)
    for part in READ:
        copies[study.where / part] = f"model/{part}"
    for source, name in copies.items():
        shutil.copyfile(source, work / name)
    for name in _SCRIPTS:
        (work / name).write_text(
            resources.files(__package__).joinpath(name).read_text("utf-8"), "utf-8"
        )


def _write_certificates(shells: Shells, work: Path) -> None:
    """The certificates, and what `pit check` said of them."""
    verdicts = []
    for verdict in shells.verdicts:
        name = f"certificates/f{verdict['factor']:05d}.cert.gz"
        shutil.copyfile(shells.study.place(verdict["factor"]) / "best.cert.gz", work / name)
        entry: dict[str, object] = {key: value for key, value in verdict.items() if key in _KEPT}
        entry["file"] = name
        verdicts.append(entry)
    (work / "verdicts.json").write_text(json.dumps(verdicts, indent=1))


def write_tables(shells: Shells, work: Path, rates: dict[str, Any]) -> None:
    """Numbers alone: no cell of a stranger's table comes into these."""
    write_table(shells.table(**rates), work / "tables" / "pit_by_pit.csv")
    write_table(shells.benches(), work / "tables" / "benches.csv")
    write_table(
        shells.of_blocks().drop(columns="id").rename_axis("block").reset_index(),
        work / "tables" / "blocks.csv",
    )


def facts_of(study: Study, name: str, dialect: Dialect) -> dict[str, Any]:
    """How the table was read."""
    model = study.model
    return {
        "pitplan": __version__,
        "pit": study.manifest["pit"],
        "table": name,
        "sha256": study.manifest["source"]["sha256"],
        "dialect": asdict(dialect),
        "columns": model.columns,
        "depth": model.depth,
        "blocks": len(model),
        "currency": study.currency,
        "settings": columns(len(study.priced.ways)),
        "has_sub_blocks": model.has_sub_blocks,
        "grid": {
            "origin": list(model.grid.origin),
            "size": list(model.grid.size),
            "shape": list(model.grid.shape),
            "rotation": model.grid.rotation,
        },
    }
