"""Tables, studies and what stands in a study's folder are a stranger's: they bring numbers and
words, and no code, path or markup."""
import ast
import csv
import gzip
import hashlib
import itertools
import json
import math
import os
import re
import shutil
import time
from pathlib import Path
from types import SimpleNamespace

import numpy as np
import pandas as pd
import pytest

import mines
import pitplan as pp
import served
from pitplan.table import spreadsheets
from pitplan.cli import shells as commands_shells
from pitplan.table import csv_text
from pitplan.tasks import clusters
from pitplan.audit import recheck
from pitplan.plans import risk, vary
from pitplan.model import store
from pitplan.base.errors import PlanError
from pitplan.table.formula import worked_out
from pitplan.study.predecessors import Resting
from pitplan.tasks.status import seconds_left, states
from pitplan.study.study_file import read_study_file
from pitplan.plans.task_line import Task
from pitplan.tasks.tasks import Tasks, wanted
from pitplan.table.spreadsheets import write_table
from bundles import bundled

TOP = Path(__file__).resolve().parents[3]
PACKAGE = TOP / "python" / "pitplan"
MARKUP = "</script><script>alert(1)</script><img src=x onerror=alert(2)>[red]"

ESCAPES = [
    "__import__('os').system('touch {0}')",
    "@__import__('os').system('touch {0}')",
    "@os.system('touch {0}')",
    "open('{0}', 'w')",
    "exec('1')",
    "eval('1')",
    "CU.values",
    "CU.__class__",
    "CU.__class__.__mro__[-1].__subclasses__()",
    "().__class__",
    "'a'.format",
    "'{{0.__class__}}'.format(CU)",
    "f'{{CU.__class__}}'",
    "CU[0]",
    "[CU for CU in (1,)]",
    "(lambda: 1)()",
    "where.__globals__",
    "max.__self__",
    "column.__globals__",
    "column(column('CU'))",
    "column('CU').__class__",
    "(x := 1)",
    "CU if CU else CU",
    "{{1: 2}}",
    "[1]",
    "(1, 2)",
    "{{1}}",
    "*CU",
    "CU; CU",
    "import os",
    "await CU",
    "yield",
    "None",
    "True",
    "...",
    "1j",
    "b'a'",
    "print(1)",
    "getattr(CU, 'values')",
    "vars()",
    "globals()",
    "locals()",
    "max(*CU)",
    "max(a=1)",
    "where(1, 2)",
    "sqrt()",
    "np.load('x')",
    "pd.eval('1')",
    "CU @ CU",
    "CU << 9",
    "1 .__class__",
    "CU in CU",
    "CU is CU",
    "__builtins__",
    "__name__",
    "self",
    "self.table",
    "9" * 3000,
    "(" * 500 + "1" + ")" * 500,
    "-" * 1500 + "1",
    "1" + "+1" * 900,
    "9**9**9**9",
    "'a' * 999999999",
    "'a' + 'b'",
    "CU + 'a'",
    "'CU'",
    "",
    " ",
    "\x00",
    "1 if",
    "CU\nCU",
]
# of these some are numbers, and no way out: they have to give a number for each row, or an error
NUMBERS = {"-" * 1500 + "1", "1" + "+1" * 900}


@pytest.fixture
def table():
    return pd.DataFrame({"CU": [0.5, 1.5], "ROCK": ["a", "b"], "row": [0, 1]})


@pytest.mark.parametrize("text", ESCAPES, ids=lambda text: text[:40])
def test_a_formula_reaches_columns_and_arithmetic_alone(table, tmp_path, text):
    text = text.format(tmp_path / "made") if "{" in text else text
    try:
        found = worked_out(text, table, "mining")
    except PlanError as error:
        assert "mining" in str(error)
    else:
        assert text in NUMBERS, found
        assert found.dtype == float, found
    assert not list(tmp_path.iterdir())


@pytest.mark.parametrize("text", ESCAPES, ids=lambda text: text[:40])
def test_the_formulas_of_recheck_reach_no_more(tmp_path, text):
    text = text.format(tmp_path / "made") if "{" in text else text
    row = {"CU": 0.5, "ROCK": "a"}
    shown = recheck.Report()
    if not text.startswith("'a' *") and text != "9**9**9**9":
        found = shown.attempt(
            "mining", lambda: float(recheck.Formula(text, lambda name: row[name]).value())
        )
        assert found is None or isinstance(found, float)
        assert (
            found is None or text in NUMBERS or re.fullmatch(r"[\d.+()-]+|True|\(+1\)+", text)
        ), text
    assert not list(tmp_path.iterdir())


@pytest.mark.parametrize("text", ["9**9**9**9", "'a' * 999999999"])
def test_the_formulas_of_recheck_end(text):
    assert recheck.Report().attempt(
        "mining", lambda: float(recheck.Formula(text, {}.__getitem__).value())
    ) in (None, math.inf)


def test_what_a_formula_may_do_it_does(table):
    assert worked_out(
        "where(CU > 1 and ROCK == 'b', max(CU, 2), -CU) * 2 ** 2", table, "mining"
    ).tolist() == [-2.0, 8.0]


def calls_and_imports():
    for path in sorted(PACKAGE.rglob("*.py")):
        for node in ast.walk(ast.parse(path.read_text())):
            if isinstance(node, (ast.Import, ast.ImportFrom)):
                yield path, "import " + " ".join(
                    [getattr(node, "module", None) or "", *(name.name for name in node.names)]
                ), node
            elif isinstance(node, ast.Call):
                yield path, ast.unparse(node.func), node


def test_no_module_of_the_package_can_run_a_stranger_s_code():
    for path, name, node in calls_and_imports():
        last = name.split(".")[-1]
        assert not re.match(
            r"import .*\b(pickle|marshal|shelve|dill|joblib|cloudpickle)\b", name
        ), (path, name)
        assert name not in ("eval", "exec", "compile", "__import__", "os.system", "os.popen"), (
            path,
            name,
        )
        assert last not in ("eval", "query", "read_pickle", "to_pickle", "getoutput"), (path, name)
        if isinstance(node, ast.Call):
            words = {word.arg: ast.unparse(word.value) for word in node.keywords}
            assert words.get("shell", "False") == "False", (path, name)
            assert name != "np.load" or words.get("allow_pickle") == "False", (path, name)


class Bomb:
    """What runs code where it is unpickled."""

    def __init__(self, path):
        self.path = path

    def __reduce__(self):
        return os.mkdir, (str(self.path),)


def test_a_model_with_code_in_it_is_refused(tmp_path):
    study = mines.study_of(tmp_path, mines.table(4, 4, 3, 2))
    path = study.where / "blocks.npz"
    np.savez(path, told=np.array([Bomb(tmp_path / "made")], dtype=object))
    manifest = json.loads((study.where / "manifest.json").read_text())
    manifest["files"]["blocks.npz"] = hashlib.sha256(path.read_bytes()).hexdigest()
    (study.where / "manifest.json").write_text(json.dumps(manifest))
    with pytest.raises(PlanError, match="isn't a model that pitplan wrote"):
        pp.Study(study.folder).shells([1000])
    assert not (tmp_path / "made").exists()
    with pytest.raises(PlanError):
        store.load_model(tmp_path / "t.csv")


STRANGE = (
    mines.STUDY_TOML.replace('by = "SECTOR"', "")
    .replace("angles = 45", 'angles = 45\nby = "SECTOR"\nregions = { "../../evil" = 40 }')
    .replace('name = "copper"', f'name = "../../=cmd {MARKUP}"')
    .replace(
        "processing = {",
        f"currency = '../{MARKUP}'\nprocessing = {{ '=cmd()' = 8, \"../../{MARKUP}\" = 7,",
    )
)


def strange_mine():
    """A mine whose words are paths, formulas of a spreadsheet and markup."""
    frame = mines.table(7, 6, 4, 3)
    frame["IJK"] = [f'=HYPERLINK("{i}"){MARKUP}' for i in range(len(frame))]
    frame["SECTOR"] = np.where(frame["SECTOR"] == "WEST", "../../evil", "=2+3")
    frame.loc[::5, "ROCK"] = "=cmd()"
    frame.loc[::7, "ROCK"] = f"../../{MARKUP}"
    return frame.rename(columns={"AU": "=AU"})


def pitplan(*words):
    ran = served.pitplan(*words)
    assert ran.returncode == 0, ran.stderr
    assert "Traceback" not in ran.stderr, ran.stderr
    return ran.stdout


@pytest.fixture(scope="module")
def strange(tmp_path_factory):
    folder = tmp_path_factory.mktemp("outer") / "a" / "b" / "study"
    mines.written_study(folder, strange_mine(), STRANGE)
    for word in ("build", "shells", "page"):
        pitplan(word, folder)
    pitplan("bundle", folder, folder / "bundle")
    return folder


def test_nothing_is_written_outside_the_study(strange):
    outer = strange.parents[2]
    assert [
        path.relative_to(outer).as_posix()
        for path in sorted(outer.rglob("*"))
        if strange not in path.parents
    ] == ["a", "a/b", "a/b/study"]
    assert not [path for path in outer.rglob("*") if "evil" in path.name or "cmd" in path.name]


def test_words_are_no_markup_in_the_page(strange):
    page = (strange / "out" / "pits.html").read_text()
    assert "alert(1)</script>" not in page
    assert "<img src=x" not in page
    plain = mines.written_study(strange.parent / "plain")
    for word in ("build", "shells", "page"):
        pitplan(word, plain)
    other = (plain / "out" / "pits.html").read_text()
    assert [page.count(mark) for mark in ("<script", "</script", "<img", "<iframe")] == [
        other.count(mark) for mark in ("<script", "</script", "<img", "<iframe")
    ]


def test_no_cell_that_pitplan_writes_is_a_formula(strange):
    found = 0
    for path in (*strange.glob("out/*.csv"), *strange.glob("bundle/tables/*.csv")):
        if path.name == "t.csv":
            continue  # the planner's own lines, byte for byte
        with open(path, newline="") as file:
            for row in csv.reader(file):
                assert not [
                    cell
                    for cell in row
                    if spreadsheets.FORMULA.match(cell)
                    and not re.fullmatch(r"[+-]?[\d.]+(e[+-]?\d+)?", cell)
                ], (path, row)
                found += 1
    assert found > 20


def test_ids_are_no_formulas_where_the_table_is_gone(strange, tmp_path):
    shells = pp.Study(strange).shells([600, 1000, 1200])
    (strange / "t.csv").rename(tmp_path / "t.csv")
    try:
        commands_shells.write_tables(shells, shells.table())
    finally:
        (tmp_path / "t.csv").rename(strange / "t.csv")
    kept = pd.read_csv(strange / "out" / "blocks.csv")
    assert kept["id"].str.startswith("'=HYPERLINK").all()
    assert len(kept) == len(shells.study.model)


def test_a_carriage_return_begins_no_row_in_what_is_written(tmp_path):
    write_table(
        pd.DataFrame({"id": ["S\r=2+3", "=1", "a\nb", "-5"], "AU\r=1": [1, 2, 3, 4]}),
        tmp_path / "t.csv",
    )
    with open(tmp_path / "t.csv", newline="") as file:
        assert list(csv.reader(file)) == [
            ["id", "AU =1"],
            ["S =2+3", "1"],
            ["'=1", "2"],
            ["a\nb", "3"],
            ["-5", "4"],
        ]


def test_all_csv_is_written_by_one_function():
    found = {
        path.name
        for path, name, node in calls_and_imports()
        if isinstance(node, ast.Call) and name.endswith(".to_csv")
    }
    assert found == {"spreadsheets.py"}


def test_a_packed_table_that_unpacks_without_end_is_refused(tmp_path):
    path = tmp_path / "t.csv.gz"
    with gzip.open(path, "wb", 9) as file:
        file.write(b"XC,YC,ZC,TONNES\n")
        for _ in range(70):
            file.write(b"0,0,0,0\n" * (1 << 17))
    assert path.stat().st_size < 1 << 18
    with pytest.raises(PlanError, match="unpacks to more than 200 times its size"):
        pp.read_table(path, size=(1, 1, 1))


def test_a_packed_table_that_the_free_memory_does_not_take_is_refused(tmp_path, monkeypatch):
    (tmp_path / "t.csv.gz").write_bytes(
        gzip.compress(b"".join(b"%d,0,0,0\n" % i for i in range(20000)))
    )
    monkeypatch.setattr(csv_text, "SMALL", 1000)
    monkeypatch.setattr(csv_text, "free_memory", lambda: 300_000)
    with pytest.raises(
        PlanError, match="unpacks to more than 100,000 bytes, which is what the free memory takes"
    ):
        pp.read_table(tmp_path / "t.csv.gz", size=(1, 1, 1))
    monkeypatch.setattr(csv_text, "free_memory", lambda: 3_000_000)
    with pytest.raises(PlanError, match="isn't the header line"):
        pp.read_table(tmp_path / "t.csv.gz", size=(1, 1, 1))


def test_the_names_of_very_many_columns_are_not_compared_pair_by_pair():
    """Each of 40,000 names is compared with about one other, and not with 20,000."""
    compared = 0

    class Name(str):
        __hash__ = str.__hash__

        def __eq__(self, other):
            nonlocal compared
            compared += 1
            return str.__eq__(self, other)

    names = [Name(f"c{i}") for i in range(40000)]
    csv_text.refuse_doubled(names, "t.csv")
    assert compared < 400_000
    with pytest.raises(PlanError, match="two columns are called c7"):
        csv_text.refuse_doubled([*names, Name("c7")], "t.csv")


def test_a_packed_table_of_the_usual_kind_is_read(tmp_path):
    frame = mines.table(9, 8, 5, 1)
    frame.to_csv(tmp_path / "t.csv.gz", index=False)
    assert len(pp.read_table(tmp_path / "t.csv.gz", size=mines.SIZE)) == len(frame)


# Names of their own: a packed text holds the second in which it was packed, and each process of
# pytest-xdist has to collect the same names.
DAMAGED = {
    "ends within its header": b"\x1f\x8b\x08\x00",
    "no method": b"\x1f\x8b no",
    "cut off": gzip.compress(b"XC,YC,ZC\n1,2,3\n" * 2000, mtime=0)[:60],
    "overwritten by zeros": gzip.compress(b"XC,YC\n" * 2000, mtime=0)[:20] + b"\x00" * 50,
}


@pytest.mark.parametrize("data", DAMAGED.values(), ids=DAMAGED.keys())
def test_a_packed_table_that_is_damaged_is_told(tmp_path, data):
    (tmp_path / "t.csv.gz").write_bytes(data)
    with pytest.raises(PlanError):
        pp.read_table(tmp_path / "t.csv.gz", size=(1, 1, 1))


def mode_of(path):
    return path.stat().st_mode & 0o777


@pytest.mark.parametrize("umask", [0o022, 0o077])
def test_who_may_write_in_what_is_written(tmp_path, umask):
    """In a folder that all may write in: a bundle is as the umask says; a study has its folder's
    mode, without write for others."""
    folder, before = tmp_path / "shared", os.umask(umask)
    try:
        folder.mkdir()
        folder.chmod(0o1777)
        bundle = bundled(folder)
        shells = pp.Study(folder).shells([600, 1000, 1200])
        commands_shells.write_tables(shells, shells.table())
    finally:
        os.umask(before)
    for path in (bundle, *bundle.rglob("*")):
        assert mode_of(path) == (0o777 if path.is_dir() else 0o666) & ~umask, path
    assert [mode_of(folder / name) for name in ("model", "runs/base/f01000")] == [
        0o775,
        0o777 & ~umask & ~2,
    ]
    assert {mode_of(path) for path in (folder / "out").iterdir()} == {0o666 & ~umask}


def changed(text, keys, value):
    """JSON with another value in the place that keys lead to."""
    facts = at = json.loads(text)
    for key in keys[:-1]:
        at = at[key]
    at[keys[-1]] = value
    return json.dumps(facts)


STRANGE_VALUES = [
    None,
    {},
    [],
    "x",
    "../../x",
    -1,
    1.5,
    10**400,
    math.nan,
    True,
    [[]],
    {"a": {}},
    [None],
    "1" * 5000,
]
OF_STUDY = {
    "model/manifest.json": [
        ["key"],
        ["files"],
        ["files", "../../x"],
        ["files", "settings.toml"],
        ["blocks"],
        ["regions"],
        ["regions", "default"],
        ["metals"],
        ["metals", "copper"],
        ["metals", "copper", "grade"],
        ["currency"],
        ["source"],
        ["source", "table"],
        ["source", "sha256"],
        ["pit"],
    ],
    "runs/base/f01000/verdict.json": [
        ["factor"],
        ["count"],
        ["worth"],
        ["certificate"],
        ["bits"],
        ["model"],
        ["pit"],
        ["seconds"],
        ["host"],
    ],
    "vary/vary.json": [
        ["study"],
        ["factor"],
        ["changes"],
        ["changes", 0],
        ["changes", 0, 0],
        ["changes", 0, 1],
    ],
    "risk/risk.json": [
        ["study"],
        ["file"],
        ["column"],
        ["digests"],
        ["digests", 0],
        ["factors"],
        ["factors", 0],
        ["economics"],
        ["economics", "metals"],
        ["economics", "metals", 0, "price"],
        ["economics", "mining"],
    ],
}


@pytest.fixture(scope="module")
def asked_for(tmp_path_factory):
    """A study with a what-if and realisations that were asked for, none of whose pits is found yet."""
    folder = tmp_path_factory.mktemp("asked")
    study = mines.study_of(folder, mines.table(4, 4, 3, 2))
    study.shells([1000])
    vary.prepare(study, mines.costs(), pp.Slopes(45), vary.changes_of(["price=5"]))
    np.save(folder / "r.npy", np.ones((2, len(study.model))))
    risk.prepare(study, mines.costs(), folder / "r.npy", [1000])
    return study.folder


def use(folder):
    """What commands read of a study before they find pits."""
    study = pp.Study(folder)
    shells = pp.Shells(study, [1000])
    shells.table()
    Resting(study)
    found = states(study, wanted(study, [1000]), {})
    seconds_left(study, found)
    setup = risk.setup_of(study)
    if setup:
        risk.Realisation(study, setup, 0).priced


@pytest.mark.parametrize("name", OF_STUDY)
def test_what_stands_in_a_study_is_read_by_a_checked_reader(asked_for, name):
    path = asked_for / name
    kept = path.read_text()
    try:
        use(asked_for)
        for keys in OF_STUDY[name]:
            for value in STRANGE_VALUES:
                path.write_text(changed(kept, keys, value))
                try:
                    use(asked_for)
                except PlanError as error:
                    assert (
                        str(asked_for) in str(error)
                        or "over this model" in str(error)
                        or keys[0] == "economics"
                        and "mining" in str(error)
                    ), (keys, value, error)
                else:
                    assert (
                        keys[-1] != "../../x"
                        and value != "../../x"
                        or keys[-1]
                        in (
                            "currency",
                            "grade",
                            "host",
                            "study",
                            "model",
                            "table",
                            "file",
                            "mining",
                        )
                    ), (keys, value)
    finally:
        path.write_text(kept)


def test_a_what_if_leads_out_of_no_study(asked_for):
    path = asked_for / "vary" / "vary.json"
    kept = path.read_text()
    try:
        path.write_text(changed(kept, ["changes"], [["../../x", 5]]))
        with pytest.raises(PlanError, match=r'vary.json is damaged: changes is \[\["../../x", 5'):
            vary.vary_tasks(pp.Study(asked_for))
    finally:
        path.write_text(kept)


def test_a_manifest_names_no_file_of_another_folder(asked_for):
    """Nor one whose digest is right: a bundle copies what a manifest names."""
    path, other = asked_for / "model" / "manifest.json", asked_for.parent / "secret.toml"
    other.write_text("a secret")
    kept = path.read_text()
    try:
        for name in ("../../secret.toml", str(other), "..", ""):
            path.write_text(changed(kept, ["files", name], hashlib.sha256(b"a secret").hexdigest()))
            with pytest.raises(PlanError, match="manifest.json is damaged: files is"):
                pp.Study(asked_for)
    finally:
        path.write_text(kept)


@pytest.mark.parametrize(
    "where, text",
    [
        ("angles", "angles = {0}"),
        ("regions", 'angles = 45\nby = "SECTOR"\nregions = {{ WEST = [[0, {0}]] }}'),
        ("processing", "processing = {{ OXI = {0}, SUL = 9.0 }}"),
        ("size", "size = [20, 20, {0}]"),
        ("factors", "factors = [0.6, {0}]"),
        ("mining_rate", "mining_rate = {0}"),
    ],
)
@pytest.mark.parametrize("digits", [400, 5000])
def test_a_number_of_very_many_digits_is_told(tmp_path, where, text, digits):
    line = {
        "regions": "angles = 45",
        "processing": "processing = { OXI = 7.5, SUL = 9.0 }",
        "size": "size = [20, 20, 15]",
        "factors": "factors = [0.6, 1.0, 1.2]",
        "mining_rate": "mining_rate = 1e6",
    }.get(where, "angles = 45")
    assert line in mines.STUDY_TOML
    (tmp_path / "study.toml").write_text(
        mines.STUDY_TOML.replace(line, text.format("1" + "0" * digits))
    )
    with pytest.raises(
        PlanError,
        match=f"{where}.* has a number of very many digits" if digits == 400 else "isn't TOML",
    ):
        read_study_file(tmp_path)


@pytest.mark.parametrize("shape", [(-1, 48), (2, -48), (10**15, 48), (), (2, 48, 1)])
def test_realisations_of_a_strange_shape_are_told(asked_for, tmp_path, shape):
    with open(tmp_path / "r.npy", "wb") as file:
        np.lib.format.write_array_header_1_0(
            file, {"descr": "<f8", "fortran_order": False, "shape": shape}
        )
        file.write(bytes(8 * 96))
    with pytest.raises(PlanError, match="r.npy"):
        risk.prepare(pp.Study(asked_for), mines.costs(), tmp_path / "r.npy", [1000])


@pytest.mark.parametrize(
    "typed", ["/opt/a\\b/pitplan", r"'/opt/C:\new\table' \\x", 'a "b" {c}', "a\nb"]
)
def test_a_snakefile_starts_the_very_command(asked_for, monkeypatch, typed):
    monkeypatch.setattr(clusters, "command", lambda: typed)
    text = (
        clusters.write_snakefile(pp.Study(asked_for), [Task("run", "base", (1000,))]) / "Snakefile"
    ).read_text()
    said = ast.literal_eval(text.split("    shell: ")[1].strip())
    assert said.format(wildcards=SimpleNamespace(i=7)).startswith(
        f"{typed} task . $(sed -n 7p submit/"
    )


def test_a_file_called_log_hinders_no_task_and_is_told(asked_for):
    shutil.rmtree(asked_for / "log", ignore_errors=True)
    (asked_for / "log").write_text("the planner's own")
    task = Task("run", "base", (1000,))
    try:
        assert Tasks(asked_for).do(task) == 0
        assert [
            state.state
            for state in states(pp.Study(asked_for), [task, Task("run", "base", (555,))], {})
        ] == ["done", "to do"]
        with pytest.raises(
            PlanError, match="log is a file, and what tasks say is kept in a folder of that name"
        ):
            clusters.listed(pp.Study(asked_for), [task])
    finally:
        (asked_for / "log").unlink()


def test_a_pit_takes_no_negative_time_where_the_clock_is_set_back(asked_for, monkeypatch):
    monkeypatch.setattr(time, "time", itertools.count(10**9, -1000).__next__)
    study = pp.Study(asked_for)
    study.run_series([777])
    assert 0 <= study.verdict(777)["seconds"] < 500
    assert study.verdict(777)["factor"] == 777
    verdict = study.place(777) / "verdict.json"
    verdict.write_text(changed(verdict.read_text(), ["seconds"], -7.5))  # of an older pitplan
    assert (
        seconds_left(
            study, states(study, [Task("run", "base", (777,)), Task("run", "base", (778,))], {})
        )
        == 0
    )
