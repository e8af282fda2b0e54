"""What needs pitplan's own Python, for the desk: done in a process that may be ended, and never in the server.

Each function gives what JSON can say (a picture is bytes), or ``{"errors": ..}`` in pitplan's
words. Nothing is kept but what was read of a table, so that prices can be tried without reading it
again."""
from __future__ import annotations

import functools
import time
import tomllib
from collections.abc import Mapping
from contextlib import suppress
from pathlib import Path
from typing import Any

from ..base.amounts import THOUSAND
from ..base.error_text import errors_as_data
from ..base.errors import PlanError
from ..base.files import whole_file
from ..base.next_command import command
from ..base.shown_cells import texts_of
from ..base.units import Units
from ..base.usual_metals import unit_of
from ..model.grade_tonnage import TITLE
from ..plans.design import by_ids_of, has_points
from ..plans.surface import of_dxf
from ..schedule.last_plan import plan_said
from ..schedule.terms import wrong_terms
from ..study.building import near
from ..study.check import check as checked, model_of
from ..study.first_look import GRADE, NO_WEIGHT, look_at, metal_in, named_grades, written
from ..study.strange_inputs import of_walls
from ..study.study import Study
from ..slopes.slopes import walls_of
from ..study.study_file import parts_of_file, read_study_file
from ..table.column_lines import line_of_column
from ..table.column_names import PLACES, columns_found, nearest
from ..table.csv_text import SAY_ENCODING, dialect_of, head_of, names_of, numbers_among
from ..table.csv_text import numbers_and_grids, read_frame, rows_about, with_numbers
from ..views import slope_rose
from ..views.ground import from_above
from ..views.pictures import png_of
from .folder import stamp

_LOOKED = "rows names grades size rotation absent region regions rocks notes".split()
_GUESSED = ("size", "rotation", "absent")  # keys of [model] that a look at the table guesses
ASK_COLUMNS = 'choose below which column is which, and press "Go on"'
_ASK_ENCODING = 'save it as "CSV UTF-8"; or type its encoding below, as cp1252, and press "Go on"'
_WIDEST = 60  # columns of a row that are shown
_KEPT = {"schedule": "runs/schedule/schedule.npz", "risk": "risk/risk.json"}
_Json = dict[str, Any]


def begin(study: Path, table: Path, columns: Mapping[str, str], encoding: str | None) -> _Json:
    """As `pitplan init`: looks at a table and writes study.toml. What is asked for in its place comes with an error."""
    try:
        look = _looked(stamp(table), tuple(sorted(columns.items())), encoding)
    except PlanError as error:
        return _asked_for(table, columns, encoding, error)
    study.mkdir(exist_ok=True)
    with whole_file(study / "study.toml") as part:
        part.write_text(written(look, near(table, study)))
    return {"study": study.name}


def _asked_for(
    table: Path, columns: Mapping[str, str], encoding: str | None, error: PlanError
) -> _Json:
    """What the desk asks of a table: which column is which, with a guess for each; or its encoding."""
    errors = errors_as_data(error)
    try:
        dialect = dialect_of(table, encoding or "utf-8-sig")
        header = names_of(head_of(table, dialect.encoding, 1)[0], dialect.separator)
    except PlanError:
        if errors[0]["try"] == SAY_ENCODING:
            errors[0]["try"] = _ASK_ENCODING
        return {"errors": errors, "asks": "encoding"}
    found = columns_found(header, columns)
    missing = [key for key in PLACES if key not in found]
    wrong = set(found.values()) - set(with_numbers(table, dialect))
    for it in errors:
        if it["column"] in wrong:  # the choice is wrong, not the cells
            it["try"] = "choose another column in its place"
    grids = numbers_and_grids(table, dialect)
    free = {name: is_grid for name, is_grid in grids.items() if name not in found.values()}
    guessed = {key: name for key, name in nearest(missing, free).items() if name in header}
    known = columns_found(header, {})
    return {"errors": errors, "header": header, "known": known, "found": found, "near": guessed}


@functools.lru_cache(maxsize=2)
def _looked(table: tuple[str, int, int], columns: Any, encoding: str | None) -> Any:
    """A table's first look, taken once."""
    return look_at(Path(table[0]), dict(columns), encoding, ASK_COLUMNS)


def look(study: Path) -> _Json:
    """What a study's table looks like, what `init` would say of it, and a line for each column,
    without the cells that study.toml calls not estimated."""
    table, model = _table_of(study)
    columns, absent = model.get("columns", {}), model.get("absent")
    columns = columns.items() if isinstance(columns, dict) else ()
    names = tuple(sorted(it for it in columns if isinstance(it[1], str)))
    of = stamp(table), names, model.get("encoding")
    found = _looked(*of)
    marks = list(map(str, absent)) if isinstance(absent, list) else found.absent
    each = [*found.grades, GRADE]
    metals = tomllib.loads(f"metals = [{''.join(map(metal_in, each))}]")["metals"]
    answer = {name: getattr(found, name) for name in _LOOKED}
    if model.get("tonnes"):
        answer["notes"] = [it for it in found.notes if not it.startswith(NO_WEIGHT)]
    answer["size"] = found.size and list(found.size)
    if isinstance(skip := model.get("skip"), int):
        answer["rows"] += found.dialect.skip - skip
    answer |= {"named": named_grades(found), "metals": dict(zip(each, metals)), "marks": marks}
    seen, now = {key: answer[key] for key in _GUESSED}, {"rotation": 0, **model, "absent": marks}
    if set(seen["absent"]) <= set(marks):
        del seen["absent"]
    answer["differs"] = [[key, it] for key, it in seen.items() if it not in (None, now.get(key))]
    answer["columns"], answer["init"] = _lines(*of, tuple(marks)), tomllib.loads(
        written(found, "t")
    )
    return answer


def _table_of(study: Path) -> tuple[Path, _Json]:
    """A study's table, and its keys of [model]."""
    parts = parts_of_file(study)
    if parts.table is None:
        raise PlanError("study.toml names no table", key=("model", "table"))
    model = parts.document["model"].items()  # an encoding that is none is told by the check
    return parts.table, {key: it for key, it in model if key != "encoding" or isinstance(it, str)}


@functools.lru_cache(maxsize=1)
def _lines(table: Any, columns: Any, encoding: str | None, absent: tuple[str, ...]) -> list[_Json]:
    """A line for each column of a table, made once."""
    found, marks = _looked(table, columns, encoding), numbers_among(absent)
    frame = read_frame(Path(table[0]), found.dialect)
    is_what = {found.region: "region"} | {own: name for name, own in found.names.items()}
    is_what |= dict.fromkeys(found.grades, "grade")
    each = ((name, line_of_column(frame[name], marks)) for name in map(str, frame.columns))
    return [{"name": name, "is": is_what.get(name, ""), **facts} for name, facts in each]


_model: dict[Any, Any] = {}  # the model that was read last, by what it was read with


def _kept_model(parts: Any) -> Any:
    """The model that a table holds, read once for the same keys of [model]."""
    if parts.table is None or parts.keys is None:
        return None
    key = (stamp(parts.table) if parts.table.is_file() else None, repr(parts.keys))
    if key not in _model:
        found = model_of(parts)
        _model.clear()
        _model[key] = found
    return _model[key]


def check(study: Path) -> _Json:
    """What `pitplan check` says: each error and look, and what lies in the ground at the prices as they stand."""
    began, path = time.monotonic(), study / "study.toml"
    found = checked(study, _kept_model)
    model, tonnage = found.model, found.tonnage
    if found.parts and not found.errors:
        found.errors = wrong_terms(found.parts.whole(), command("shells", study))
    answer: _Json = {
        "errors": [each for error in found.errors for each in errors_as_data(error, path)],
        "looks": [it.as_data() for it in found.looks],
        "factors": found.parts and found.parts.factors,
    }
    if model is not None:
        answer |= {"blocks": len(model), "size": model.grid.size, "shape": model.grid.shape}
        bottom, height, count = model.grid.origin[2], model.grid.size[2], model.grid.shape[2]
        middles = [float(bottom + level * height) for level in reversed(range(count))]
        answer |= {"notes": model.notes, "benches": middles}
    if tonnage is not None and found.parts and found.priced is not None:
        answer["tonnage"] = dict(zip(("title", "names", "rows"), (TITLE, *texts_of(tonnage))))
        if found.parts.economics and found.parts.economics.forbid:
            answer["forbidden"] = int(found.priced.forbidden.sum())
    return {**answer, "seconds": round(time.monotonic() - began, 2)}


def overview(study: Path) -> _Json:
    """How far a study is, by its files; `said` is a kind of mark, its words and what they stand for."""
    answer: _Json = {"built": False, "old": None, "there": 0, "said": ["", "not built yet"]}
    answer["when"] = (study / "study.toml").stat().st_mtime
    try:
        built = Study(study)
    except PlanError:
        return answer
    answer |= {name: (study / path).is_file() for name, path in _KEPT.items()} | {"built": True}
    answer |= {"blocks": built.manifest["blocks"], "currency": built.currency}
    said = ["bad", "study.toml has a mistake"]
    try:
        file = read_study_file(study)
        said = ["warn", "changed since it was built"]
        built.refuse_changed(file.path, file.digest, file.table)
    except PlanError as error:
        said.append(error.said)
        return {**answer, "old": error.said, "said": said, "plan": plan_said(built, {}, {})}
    verdicts = {factor: found for factor in file.factors if (found := built.verdict(factor))}
    full, there, of = verdicts.get(THOUSAND), len(verdicts), len(file.factors)
    certified = sum(bool(found["certificate"]) for found in verdicts.values())
    more = f", {certified} with certificates" if certified else ""
    said = ["good" if there == of else "warn", f"{there} of {of} pits proved{more}"]
    return {
        **answer,
        "there": there,
        "said": said if there else ["", f"built, {answer['blocks']:,} blocks"],
        "factors": [factor / THOUSAND for factor in verdicts],
        "plan": plan_said(built, file.values["schedule"], file.rates),
        "worth": full and float(full["worth"]),
        "pit": full and full["count"],
    }


def kind_of(design: Path, name: str, study: Path) -> _Json:
    """What a dropped design is, where that can be told: a surface or ids. A DXF without faces is an
    error, and so are words that are no ids of the study's table, built or not. Raises PlanError
    where it is neither."""
    try:
        if design.suffix.lower() == ".dxf":
            of_dxf(design)
            return {"as": "surface"}
        if b"\0" in design.read_bytes():
            raise PlanError("is neither a text nor a DXF", try_this="ids, points x, y, z, or a DXF")
        has_ids = None
        with suppress(PlanError):  # which of the two can't be told: who dropped it says so
            has_ids = not has_points(design, "id")
        model = _model_at_hand(study) if has_ids else None
        if model is not None:
            by_ids_of(model, design)
    except PlanError as error:
        error.table = name
        raise
    return {} if has_ids is None else {"as": "ids" if has_ids else "surface"}


def _model_at_hand(study: Path) -> Any:
    """A study's model: the one that was built, else that of its table; None where neither can be read."""
    with suppress(PlanError):
        return Study(study).model
    with suppress(PlanError):
        return _kept_model(parts_of_file(study))
    return None


def rose(study: Path) -> _Json:
    """What `pitplan slopes` says: the walls that are asked for and those that would be built, by bearing."""
    file = read_study_file(study)
    grid, slopes, unit = file.grid(), file.slopes, Units(**file.keys.units).length
    (names, rows), (said, looks) = walls_of(slopes.built(grid), 45), of_walls(slopes, grid, unit)
    looks = [it.replace("\n  try:", "; try:") for it in looks]
    return {"names": names, "rows": rows, "said": said, "looks": looks}


def rose_picture(study: Path) -> bytes:
    """The rose of the same, as PNG."""
    file = read_study_file(study)
    return png_of(slope_rose.rose(file.slopes, file.grid())).getvalue()


def ground(study: Path, what: str) -> bytes:
    """The model from above, as PNG. Raises PlanError where the table can't be read yet."""
    model = _kept_model(parts := parts_of_file(study))
    if model is None or parts.keys is None:
        raise PlanError("the table can't be read yet")
    metals = parts.economics.metals if parts.economics else ()
    told = {metal.grade: metal.grade_unit for metal in metals}
    unit = told.get(what) or unit_of(what) or ""
    return png_of(from_above(model, what, Units(**parts.keys.units).length, unit)).getvalue()


def cells(study: Path, row: str) -> _Json:
    """The header and the rows about one: what an error names."""
    table, model = _table_of(study)
    return {"rows": rows_about(table, row, model.get("encoding") or "utf-8-sig", _WIDEST)}
