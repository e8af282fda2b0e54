"""``study.toml``: what the planner says, read and checked. Unknown keys are errors that name the
nearest known one."""
from __future__ import annotations

import hashlib
import json
import math
import os
from collections.abc import Iterable, Iterator, Mapping, Sequence
from contextlib import contextmanager
from dataclasses import dataclass, field, fields
from pathlib import Path
from typing import Any

from ..base.errors import Gathered, KeyPath, PlanError, Remedy, Several, about, toml_spelled
from ..base.near_words import meant, near_to
from ..base.next_command import command
from ..model.economics import Economics, Metal, Process
from ..model.grid import Grid
from ..model.model import Model, TableKeys, read_with
from ..slopes.slopes import Slopes
from ..table import study_keys, value_kinds, wrong_values
from ..table.csv_text import tables_like
from . import toml_lines
from .shells import factors, series_of
from .toml_lines import Document

_NAME = "study.toml"
_RATES = ("mining_rate", "mill_rate", "discount")
# in place of costs that are wrong, while the other keys are tried
_NOTHING = {
    "mining": 0,
    "processing": 0,
}
_STAND_IN = "-"  # for the name of a column or of a region
_CALLED = {study_keys.METALS: "metal", study_keys.PROCESSES: "process"}  # in errors
# for what a metal or a process needs and hasn't
_STAND_INS: dict[str, dict[str, Any]] = {
    study_keys.METALS: {"grade": _STAND_IN, "price": 0},
    study_keys.PROCESSES: {"cost": 0},
}
_FAR = 10**100  # how far from 0 a whole number may be
_LARGEST_SHARE, _LARGEST_PERCENT = 10, 300  # of a price, that factors may have been meant as


@dataclass(frozen=True)
class StudyFile:
    """What a ``study.toml`` says.

    Attributes
    ----------
    path : Path
    table : Path
        The table of blocks; a relative path counts from the folder of ``study.toml``.
    keys : TableKeys
    economics : Economics
    slopes : Slopes
    factors : list of int
        In thousandths.
    rates : dict
        Of ``mining_rate``, ``mill_rate``, ``discount`` those that are given, and
        ``process_rates`` where there are processes: words for `Shells.table`.
    digest : str
        Of the sections [model], [economics] and [slopes]: what a built model rests on.
    values : dict of dict
        By section and key: what the file says, or what counts where it says nothing.
    """

    path: Path
    table: Path
    keys: TableKeys
    economics: Economics
    slopes: Slopes
    factors: list[int]
    rates: dict[str, Any]
    digest: str = ""
    values: dict[str, dict[str, Any]] = field(default_factory=dict)

    def read_model(self) -> Model:
        """The model that the table holds."""
        with table_found(self.path, self.table):
            return read_with(self.table, self.keys)

    def grid(self) -> Grid:
        """The size and rotation of the blocks, by study.toml alone where it gives the size, so that
        slopes can be tried before a build."""
        if self.keys.size is None:
            return self.read_model().grid
        x, y, z = (float(side) for side in self.keys.size)
        return Grid((0.0, 0.0, 0.0), (x, y, z), (0, 0, 0), float(self.keys.rotation))


@contextmanager
def table_found(study_toml: Path, table: Path) -> Iterator[None]:
    """The error of a table that isn't there says what the key has to be: a path from the folder of
    study.toml."""
    try:
        yield
    except PlanError as error:
        like = [] if table.exists() else tables_like(table)
        if like and error.key == ("model", "table"):
            ways = [
                Remedy(error.key, Path(os.path.relpath(each, study_toml.parent)).as_posix())
                for each in like
            ]
            error.remedy = ways[0] if len(ways) == 1 else None
            names = " or ".join(f"table = {toml_spelled(way.value)}" for way in ways)
            error.try_this = f"{names} in [model]"
        raise


def path_of(study: Path) -> Path:
    """The study.toml of a study, which is named by its folder or by that file."""
    return study if study.suffix == ".toml" else study / _NAME


def read_study_file(study: Path) -> StudyFile:
    """Reads ``study.toml``.

    Parameters
    ----------
    study : Path
        The folder of the study, or the file itself.

    Raises
    ------
    PlanError
        Where it isn't there, isn't TOML, or has a section, a key or a value that it may not have.
    """
    path = path_of(study)
    parts = parts_of_file(study)
    parts.errors.tell()
    return parts.whole()


def parts_of_file(study: Path) -> Parts:
    """What a study's study.toml says, section by section.

    Raises
    ------
    PlanError
        Where it isn't there, or can't be read as TOML but for single statements.
    """
    path = path_of(study)
    try:
        document = toml_lines.read(path.read_text("utf-8-sig"), path)
    except NotADirectoryError:
        raise PlanError(
            f"{study} is a file, and a study is a folder",
            try_this=f"{command('init', study)}, if it is a table",
        ) from None
    except FileNotFoundError:
        raise PlanError(
            f"{path} isn't there",
            try_this=f"the folder of a study, or {command('init', '.', 'TABLE.csv')} to begin one",
        ) from None
    except UnicodeDecodeError as error:
        raise PlanError(f"isn't TOML: {error}", table=path) from None
    if document.values is None:
        raise document.errors[0] if len(document.errors) == 1 else Several(document.errors)
    return _parts_of(path, document.values, document)


def refuse_digits(where: str, value: Any) -> None:
    """Refuses whole numbers of very many digits, which no float holds. Raises PlanError that names
    where."""
    if isinstance(value, int) and abs(value) > _FAR:
        raise PlanError(f"{where.strip()} has a number of very many digits")
    if isinstance(value, dict):
        for key, part in value.items():
            refuse_digits(f"{where} {key}" if where else f"[{key}]", part)
    elif isinstance(value, list):
        for part in value:
            refuse_digits(where, part)


@dataclass
class _Partly:
    """What the right keys of wrong sections say, so that the others hide no further error.

    Attributes
    ----------
    keys, economics, slopes :
        With a value that says nothing in place of each wrong key that is needed; None where the
        section is right.
    covered : set of KeyPath
        The keys that have such a value, or that may be meant by one that isn't known: no error that
        concerns one of them is told.
    unnamed : dict
        The place in its list of each metal or process that has no name, by the list and by the name
        that errors call it.
    """

    keys: TableKeys | None = None
    economics: Economics | None = None
    slopes: Slopes | None = None
    covered: set[KeyPath] = field(default_factory=set)
    unnamed: dict[tuple[str, str], int] = field(default_factory=dict)

    def covers(self, key: KeyPath) -> bool:
        """Whether an error of a key hangs on one that was told."""
        return any(key[: len(path)] == path for path in self.covered)

    def to_tell(self, errors: Iterable[PlanError]) -> list[PlanError]:
        """The errors that hang on none that was told, with the keys that the file has."""
        found = [error for error in errors if not self.covers(error.key)]
        for error in found:
            if _is_of_list(error.key):
                at = self.unnamed.get((str(error.key[1]), str(error.key[2])), error.key[2])
                error.key = (*error.key[:2], at, *error.key[3:])
        return found


@dataclass
class Parts:
    """What a study.toml says, section by section; None where a section is wrong.

    Attributes
    ----------
    path : Path
    document : dict
        The file as TOML.
    errors : Gathered
        Each error that hangs on no other one.
    """

    path: Path
    document: Mapping[str, Any]
    errors: Gathered = field(default_factory=Gathered)
    keys: TableKeys | None = None
    economics: Economics | None = None
    slopes: Slopes | None = None
    factors: list[int] | None = None
    partly: _Partly = field(default_factory=lambda: _Partly())

    @property
    def table(self) -> Path | None:
        """The table of blocks; None where no file is named."""
        section = self.document.get("model")
        named = section.get("table") if isinstance(section, Mapping) else None
        return self.path.parent / Path(named).expanduser() if isinstance(named, str) else None

    def whole(self) -> StudyFile:
        """All of it, where nothing is wrong."""
        assert (
            self.table is not None
            and self.keys is not None
            and self.economics is not None
            and self.slopes is not None
            and self.factors is not None
        )
        values = {
            section: study_keys.with_defaults(section, self.document.get(section, {}))
            for section in study_keys.SECTIONS
        }
        rates: dict[str, Any] = {
            name: self.document["shells"][name]
            for name in _RATES
            if name in self.document.get("shells", {})
        }
        rates |= self.economics.rates
        digest = hashlib.sha256(
            json.dumps(
                [_built_of(name, self.document[name]) for name in study_keys.NEEDED],
                sort_keys=True,
                default=str,
            ).encode()
        ).hexdigest()
        return StudyFile(
            self.path,
            self.table,
            self.keys,
            self.economics,
            self.slopes,
            self.factors,
            rates,
            digest,
            values,
        )


def _built_of(name: str, section: Mapping[str, Any]) -> Mapping[str, Any]:
    """What a built model rests on of a section: the rates of processes aren't of it."""
    processes = section.get(study_keys.PROCESSES) if name == "economics" else None
    if not processes:
        return section
    kept = [{key: value for key, value in each.items() if key != "rate"} for each in processes]
    return {**section, study_keys.PROCESSES: kept}


def _parts_of(path: Path, document: Mapping[str, Any], read: Document | None = None) -> Parts:
    """The sections of a study.toml as what they say, with each error that hangs on no other one;
    `read` has those of statements that are no TOML."""
    found, broken = Parts(path, document, Gathered(path.name)), read or Document()
    found.errors.add(broken.errors)
    with found.errors.part():
        refuse_digits("", document)
    if len(found.errors.errors) > len(broken.errors):
        return found
    found.errors.add([*_wrong_sections(document), *_mill_rates(document)])
    sections = {
        name: document.get(name, None if name in study_keys.NEEDED else {})
        for name in study_keys.SECTIONS
    }
    right = []
    for name, section in sections.items():
        if isinstance(section, Mapping):
            wrong = [error for error in broken.errors if error.key[:1] == (name,)]
            wrong += _wrong_in_section(name, section, [error.key for error in wrong])
            found.errors.add(wrong)
            right += [] if wrong else [name]
            if wrong:
                _of_right_keys(found, name, section, wrong)
    for name in right:
        _whole_section(found, name, sections[name])
    return found


def _whole_section(parts: Parts, name: str, section: Mapping[str, Any]) -> None:
    """Keeps what a section says of which each key is right by itself."""
    errors = Gathered(parts.path.name)
    with errors.part(name):
        if name == "model":
            parts.keys = _made("model", TableKeys, section)
        elif name == "economics":
            parts.economics = economics_of(section)
        elif name == "slopes":
            parts.slopes = _made("slopes", Slopes, section)
        elif name == "shells":
            with about("shells", "factors"):
                parts.factors = _series(study_keys.with_defaults("shells", section)["factors"])
    parts.errors.add(errors.errors)
    if errors.errors:
        _of_right_keys(parts, name, section, errors.errors)


def _of_right_keys(
    parts: Parts, name: str, section: Mapping[str, Any], wrong: list[PlanError]
) -> None:
    """Keeps what the right keys of a section say, and what is wrong with them together."""
    partly, errors = parts.partly, Gathered(parts.path.name)
    hidden = {(name, key) for key in _hidden_keys(name, section, wrong, (name,))}
    partly.covered |= hidden
    right = {key: value for key, value in section.items() if (name, key) not in hidden}
    if name == "model":
        with errors.part("model"):
            partly.keys = _made("model", TableKeys, right)
    elif name == "economics":
        has_metals = study_keys.METALS in right
        right.setdefault(study_keys.METALS, [{}])
        for kind in study_keys.LISTS:
            if value_kinds.KINDS[kind].holds(right.get(kind)):
                right[kind] = [
                    _right_part(partly, (kind, part, at), wrong)
                    for at, part in enumerate(right[kind])
                ]
        if not has_metals:  # of those that processes name nothing is known
            for part in right.get(study_keys.PROCESSES, []):
                part.pop("recovery", None)
                part.pop("payable", None)
        with errors.part("economics"):
            asked = {"mining"} if study_keys.PROCESSES in right else set(_NOTHING)
            partly.economics = economics_of({key: _NOTHING[key] for key in asked} | right)
    elif name == "slopes":
        usual = study_keys.keys_of("slopes")["angles"].default
        bad = {error.key[2] for error in wrong if _is_of_region(error.key)}
        if value_kinds.is_table(right.get("regions")):
            regions = right["regions"].items()
            right["regions"] = {name: usual if name in bad else angles for name, angles in regions}
        if ("slopes", "by") in hidden and right.get("regions"):
            right["by"] = _STAND_IN
        if ("slopes", "regions") in hidden and right.get("by"):
            right["regions"] = {_STAND_IN: usual}
        with errors.part("slopes"):
            partly.slopes = _made("slopes", Slopes, right)
    elif name == "shells" and "factors" in right:
        with errors.part("shells", "factors"):
            _series(right["factors"])
    parts.errors.add(partly.to_tell(errors.errors))


def _right_part(
    partly: _Partly, listed: tuple[str, Mapping[str, Any], int], wrong: Sequence[PlanError]
) -> dict[str, Any]:
    """The right keys of one of the metals or processes: of its list, itself, and its place there."""
    kind, part, at = listed
    path = _part_path(kind, part, at)
    hidden = _hidden_keys(kind, part, [error for error in wrong if error.key[:3] == path], path)
    name = str(path[2]) if isinstance(path[2], str) else f"{at + 1}"
    partly.unnamed |= {} if isinstance(path[2], str) else {(kind, name): at}
    partly.covered |= {("economics", kind, name, key) for key in hidden}
    needed = {"name": name} | _STAND_INS[kind]
    return needed | {key: value for key, value in part.items() if key not in hidden}


def _is_of_list(key: KeyPath) -> bool:
    """Whether a key is that of one metal or process, or of something in it."""
    return key[:1] == ("economics",) and len(key) > 2 and key[1] in study_keys.LISTS


def _is_of_region(key: KeyPath) -> bool:
    """Whether a key is that of the angles of one region."""
    return key[:2] == ("slopes", "regions") and len(key) > 2


def _hidden_keys(
    section: str, values: Mapping[str, Any], wrong: Sequence[PlanError], at: KeyPath
) -> set[str]:
    """The keys of a section that wrong ones stand for: themselves; of a key that isn't known the
    one that seems to be meant, or each that isn't there; and those that are needed and missing."""
    known, found = study_keys.keys_of(section), set[str]()
    for error in wrong:
        name = str(error.key[len(at)]) if len(error.key) > len(at) else ""
        is_of_part = _is_of_list(error.key) and len(at) == 1
        if name in known and not is_of_part and not _is_of_region(error.key):
            found.add(name)
        elif name and name not in known:
            near = near_to(name, list(known))
            found |= {name} | ({near} if near else set(known) - set(values))
    return found | {key for key, it in known.items() if it.is_needed and values.get(key) is None}


def _wrong_sections(document: Mapping[str, Any]) -> list[PlanError]:
    """Sections that a study.toml has and may not have, or needs and hasn't."""
    names = study_keys.SECTIONS
    found = [
        PlanError(
            f"the file has no section {name!r}{meant(name, names)}",
            try_this=(
                f"[{near}]"
                if (near := near_to(name, names)) and near not in document
                else ", ".join(names)
            ),
            key=(name,),
        )
        for name in document
        if name not in names
    ]
    for name in names:
        if name in document and not isinstance(document[name], Mapping):
            found.append(
                PlanError(f"{name} has to be a section: [{name}] in a line of its own", key=(name,))
            )
        elif name in study_keys.NEEDED and name not in document:
            found.append(
                PlanError(
                    f"there is no section [{name}]",
                    try_this=f"{command('init', '.', 'TABLE.csv')} writes all of them",
                    key=(name,),
                )
            )
    return found


def _mill_rates(document: Mapping[str, Any]) -> list[PlanError]:
    """Rates of a mill where several processes have rates of their own."""
    economics = document.get("economics")
    if not isinstance(economics, Mapping) or not economics.get(study_keys.PROCESSES):
        return []
    return [
        PlanError(
            f"[{name}] mill_rate says the rate of a mill, and there are processes: of which is it?",
            try_this=f"take it out, and {_rate_of_one(economics, section['mill_rate'])}",
            key=(name, "mill_rate"),
        ).with_remedy(Remedy((name, "mill_rate"), None))
        for name in ("shells", "schedule")
        if isinstance(section := document.get(name), Mapping) and "mill_rate" in section
    ]


def _rate_of_one(economics: Mapping[str, Any], rate: Any) -> str:
    """How the rate of a mill is told of one of several processes; a list by year has a place of its own."""
    if not isinstance(rate, list):
        return f"rate = {toml_spelled(rate)} in one of [[economics.processes]]"
    processes = economics[study_keys.PROCESSES]
    names = [each.get("name") for each in processes if isinstance(each, Mapping)]
    name = next((each for each in names if isinstance(each, str)), "NAME")
    return f"process_rates = {toml_spelled({name: rate})} in [schedule], with the name of one"


def _wrong_in_section(
    section: str, values: Mapping[str, Any], broken: Sequence[KeyPath] = ()
) -> list[PlanError]:
    """What is wrong with each key of a section, and with each of the metals and processes; the
    broken ones aren't missing."""
    found = wrong_values.wrong_in(section, values)
    found += wrong_values.missing_in(section, {**values, **{str(key[1]): True for key in broken}})
    for kind in study_keys.LISTS if section == "economics" else ():
        if value_kinds.KINDS[kind].holds(values.get(kind)):
            for at, part in enumerate(values[kind]):
                there = [key[3] for key in broken if key[1:3] == (kind, at) and len(key) > 3]
                found += _wrong_in_part(kind, part, at, {str(name): True for name in there})
    return found


def _wrong_in_part(
    kind: str, part: Mapping[str, Any], at: int, broken: Mapping[str, bool]
) -> list[PlanError]:
    """What is wrong with each key of one of the metals or processes."""
    path = _part_path(kind, part, at)
    where = f"[economics] {_CALLED[kind]} {at + 1 if path[2] == at else path[2]}"
    return wrong_values.wrong_in(kind, part, where, path) + wrong_values.missing_in(
        kind, {**part, **broken}, where, path
    )


def _part_path(kind: str, part: Mapping[str, Any], at: int) -> KeyPath:
    """Where one of the metals or processes stands: by its name, or by its number where it has
    none."""
    return ("economics", kind, part["name"] if isinstance(part.get("name"), str) else at)


def _made(section: str, kind: Any, values: Mapping[str, Any]) -> Any:
    """A dataclass of the keys of a section: of those that it has a field for."""
    names = {f.name for f in fields(kind) if f.init}
    return kind(**{name: value for name, value in values.items() if name in names})


def economics_of(values: Mapping[str, Any]) -> Economics:
    """The section [economics].

    Raises
    ------
    PlanError
        With each error that hangs on no other one.
    """
    wrong = Gathered()
    wrong.add(_wrong_in_section("economics", values))
    wrong.tell()
    made: dict[str, list[Any]] = {kind: [] for kind in study_keys.LISTS}
    for kind, of_part in ((study_keys.METALS, Metal), (study_keys.PROCESSES, Process)):
        for part in values.get(kind, ()):
            with wrong.part("economics", kind, part["name"]):
                made[kind].append(_made(kind, of_part, part))
    wrong.tell()
    economics: Economics = _made(
        "economics", Economics, {**values, **{kind: tuple(parts) for kind, parts in made.items()}}
    )
    return economics


def _series(value: Any) -> list[int]:
    """The factors in thousandths: a series from, to, by; or a list of shares of the price."""
    try:
        if not isinstance(value, Mapping):
            return series_of(value)
        low, high, step = (float(value[key]) for key in value_kinds.SERIES)
        if high > low and step > high - low + 1e-9:
            raise PlanError(f"factors from {low:g} to {high:g} by {step:g}: the step is too large")
        return factors(low, high, step)
    except PlanError as error:
        named = "" if error.what.startswith("factors") else "factors: "
        raise PlanError(
            f"[shells] {named}{error.what}", try_this=_better_series(value) or error.try_this
        ) from None


def _better_series(value: Any) -> Remedy | None:
    """Factors that can be meant by some that can't be taken: those in percent of the price or in
    thousandths as shares of it, and those that don't ascend in order."""
    is_series = isinstance(value, Mapping)
    keys = value_kinds.SERIES if is_series else range(len(value))
    largest = max(abs(value[key]) for key in keys)
    times, when = (
        (1, "")
        if largest <= _LARGEST_SHARE
        else (100, "if these are in percent")
        if largest <= _LARGEST_PERCENT
        else (1000, "if these are in thousandths")
    )
    shares = [float(f"{value[key] / times:.9g}") for key in keys]
    if not is_series and _are_from_to_by(shares):
        is_series, keys, when = True, value_kinds.SERIES, when or "for a series"
    if is_series:
        low, high, step = min(shares[:2]), max(shares[:2]), abs(shares[2])
        step = step if step <= high - low else step / 100
        shares = [low, high, float(f"{step:.9g}")]
    else:
        shares = sorted(set(shares))
    better = dict(zip(keys, shares)) if is_series else shares
    try:
        _ = factors(*shares) if is_series else series_of(shares)
    except PlanError:
        return None
    return Remedy(("shells", "factors"), better, when)


def _are_from_to_by(shares: Sequence[float]) -> bool:
    """Whether three factors that don't ascend can be meant as the first, the last and the step of a
    series.

    >>> [_are_from_to_by([*two, step]) for two, step in (((0.3, 1.2), 0.05), ((0.5, 0.8), 0.2))]
    [True, False]
    >>> _are_from_to_by([0.6, 1.0, 1e-320])  # more steps than a float counts
    False
    """
    if len(shares) != 3 or not 0 < shares[2] < shares[0] < shares[1]:
        return False
    steps = (shares[1] - shares[0]) / shares[2]
    return math.isfinite(steps) and round(steps) >= 2 and abs(steps - round(steps)) < 1e-6
