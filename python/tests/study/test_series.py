"""Pits of a series from one run of `pit shells --by-block`: against certificates, with planted
mistakes, cut off, and by an older `pit`."""
import hashlib
import json
import os
import random
import re
import signal
import subprocess
import time

import numpy as np
import pandas as pd
import pytest
from hypothesis import given
from hypothesis import strategies as st

import pitplan as pp
from mines import SIZE, costs, shells_of, study_of, table, written_study
from pitplan.base import digests
from pitplan.views.export import table_back
from pitplan.views.page_views import CERTIFIED, STATED
from pitplan.pit.program import Pit, Stated
from pitplan.tasks.status import RUNNING, states
from pitplan.base.files import host
from pitplan.plans.task_line import Task
from processes import TOP, command, gone, started, waited_for

SERIES = [600, 800, 1000, 1200]


@pytest.fixture(scope="module", autouse=True)
def states_blocks(program):
    assert Pit(program).states_blocks, "this pit has no shells --by-block"


def certificates(study):
    return sorted(path.parent.name for path in (study.folder / "runs/base").glob("f*/best.cert.gz"))


def test_nobody_but_the_series_makes_a_stated():
    with pytest.raises(TypeError, match="by Pit.series alone"):
        Stated(1, "5", 1000, np.array([True]))


@given(seed=st.integers(0, 1 << 30))
def test_stated_pits_are_those_of_the_certificates(tmp_path_factory, seed):
    r = random.Random(seed)
    study = study_of(
        tmp_path_factory.mktemp("m"),
        table(r.randint(2, 6), r.randint(2, 6), r.randint(1, 4), seed % 1000),
    )
    series = sorted(r.sample(range(0, 3000), r.randint(1, 4)))
    stated = study.shells(series, r.randint(1, 3))
    assert stated.certified == 0
    assert certificates(study) == []
    for i, factor in enumerate(series):
        found = study.program.best(
            study.files, factor, study.folder / "one.cert", keeps_certificate=False
        )
        assert (found.mask == stated.holds(i)).all()
        assert (found.count, found.worth) == (
            stated.verdicts[i]["count"],
            stated.verdicts[i]["worth"],
        )


PLANTED = """#!/bin/sh
# pit, but what its shells write is changed
case "$*" in shells*--by-block*) ;; *) exec {pit} "$@";; esac
for word in "$@"; do [ "$before" = --by-block ] && file=$word; before=$word; done
{pit} "$@" > {folder}/lines || exit $?
sed -i "{table}" "$file"
sed "{lines}" {folder}/lines
"""
# a block that every pit of this mine has is taken from the first, or the same in the lines; and tables that are none of this model
MISTAKES = {
    "a block in a later shell": ("0,/,600$/s/,600$/,800/", "", "adds up to"),
    "a block in no shell": ("0,/,600$/s/,600$/,/", "", "adds up to"),
    "a worth": ("", "s/\\(SHELL 800 [0-9]* \\)/\\11/", "adds up to"),
    "a count": ("", "s/SHELL 800 /SHELL 800 1/", "adds up to"),
    "a line less": ("", "2d", "lines are of others"),
    "a line of other words": ("", "2s/^/x/", "lines are of others"),
    "a factor that wasn't asked for": ("0,/,600$/s/,600$/,700/", "", "isn't one of all blocks"),
    "a row less": ("5d", "", "isn't one of all blocks"),
    "a row twice": ("5p", "", "isn't one of all blocks"),
    "no header": ("1d", "", "isn't one of all blocks"),
    "the last row cut off": ("\\$d", "", "the pit is of factor"),
    "a word": ("3s/,.*/,x/", "", "isn't one of all blocks"),
    "nothing": ("d", "", "isn't one of all blocks"),
}


@pytest.mark.parametrize("what", MISTAKES)
def test_what_contradicts_itself_is_never_kept(tmp_path, program, what):
    change_table, change_lines, found = MISTAKES[what]
    study = study_of(tmp_path, table(6, 5, 4, 3))
    (tmp_path / "pit").write_text(
        PLANTED.format(pit=program, folder=tmp_path, table=change_table, lines=change_lines)
    )
    (tmp_path / "pit").chmod(0o755)
    with pytest.raises(pp.Disagreement, match=found):
        pp.Study(study.folder, Pit(tmp_path / "pit")).shells([600, 800])
    assert list((study.folder / "runs/base").iterdir()) == []


def test_files_that_arent_those_of_the_build_give_no_pit(tmp_path):
    study = study_of(tmp_path, table(6, 5, 4, 3))
    text = study.settings_file.read_text()
    study.settings_file.write_text(
        re.sub(r"slopes = .*?\n\]\n", "slopes = [[]]\n", text, flags=re.S)
    )  # no slopes: other pits, and a sound file
    assert study.settings_file.read_text() != text
    with pytest.raises(pp.PlanError, match="isn't the file that the build made"):
        study.shells(SERIES)
    assert list((study.folder / "runs/base").iterdir()) == []


def test_what_changes_between_two_readings_is_found(tmp_path, monkeypatch):
    """Files that were digested once aren't read again, and one that was changed since is found,
    whatever its time of writing says."""
    reads, read = [], digests.sha256
    monkeypatch.setattr(digests, "SETTLED", 0)
    monkeypatch.setattr(digests, "sha256", lambda path: reads.append(path.name) or read(path))
    study = study_of(tmp_path, table(6, 5, 4, 3))
    time.sleep(0.05)
    study.shells(SERIES)
    assert sorted(reads) == sorted(study.manifest["files"])
    pp.Shells(study, SERIES)
    assert len(reads) == len(study.manifest["files"])  # each of them once
    for name in study.manifest["files"]:
        path, time_of_it = study.where / name, (study.where / name).stat()
        whole = path.read_bytes()
        for text in (whole[:-1] + bytes([whole[-1] ^ 1]), whole):
            with open(path, "r+b") as file:
                file.write(text)
            os.utime(path, ns=(time_of_it.st_atime_ns, time_of_it.st_mtime_ns))
            time.sleep(0.05)
            if text != whole:
                with pytest.raises(pp.PlanError, match="isn't the file that the build made"):
                    pp.Shells(study, SERIES)
        pp.Shells(study, SERIES)  # as it was


def test_a_pit_that_was_changed_after_it_was_added_up_is_added_up_again(tmp_path):
    """The bits and their digest in the verdict are changed together; so is the worth, so that the
    verdict agrees with itself."""
    study = study_of(tmp_path, table(6, 5, 4, 3))
    study.shells(SERIES)
    place = study.place(800)
    kept = json.loads((place / "verdict.json").read_text())
    mask = study.mask(800)
    mask[np.flatnonzero(mask)[0]] = False
    bits = np.packbits(mask)
    np.savez_compressed(place / "pit.npz", bits=bits)
    for more in ({}, {"count": kept["count"] - 1}):
        (place / "verdict.json").write_text(
            json.dumps(kept | {"bits": hashlib.sha256(bits.tobytes()).hexdigest()} | more)
        )
        with pytest.raises(pp.Disagreement, match="adds up to"):
            study.mask(800)


def test_more_factors_than_one_run_takes(tmp_path, monkeypatch):
    study, runs, series = study_of(tmp_path, table(5, 4, 3, 3)), [], Pit.series
    monkeypatch.setattr(
        Pit,
        "series",
        lambda self, files, factors, *rest: runs.append(list(factors))
        or series(self, files, factors, *rest),
    )
    factors = pp.factors(0.31, 1.0, 0.01)
    study.shells(factors[:3])
    found = study.shells(factors)
    assert [len(run) for run in runs] == [3, 64, 3]
    assert sum(runs, []) == factors
    assert len(found) == 70
    study.shells(factors)
    assert len(runs) == 3  # all are there


def test_certificates_come_later_and_where_they_are_asked_for(tmp_path):
    stated = shells_of(tmp_path)
    study = stated.study
    with_them = stated.with_certificates()
    assert with_them.certified == 4
    assert certificates(study) == ["f00600", "f00800", "f01000", "f01200"]
    assert (with_them.shell == stated.shell).all()
    assert [(v["count"], v["worth"], v["bits"]) for v in with_them.verdicts] == [
        (v["count"], v["worth"], v["bits"]) for v in stated.verdicts
    ]
    assert (
        study.shells(SERIES).verdicts == with_them.verdicts
    )  # no certificate is lost by asking for none
    assert study.shells([900], certificates=True).certified == 1


def test_another_pit_than_was_stated_is_never_kept(tmp_path, monkeypatch):
    study = shells_of(tmp_path).study
    monkeypatch.setattr(
        pp.Study, "mask", lambda self, factor, mask=pp.Study.mask: np.roll(mask(self, factor), 1)
    )
    with pytest.raises(pp.Disagreement, match="stated another pit"):
        study.run(800)
    assert certificates(study) == []


def pitplan(*words, **more):
    run = command(*words, **more)
    out, err = run.communicate(timeout=600)
    return run.returncode, out, err


def test_what_asks_for_certificates_makes_those_that_it_needs(tmp_path):
    folder = written_study(tmp_path / "s")
    assert pitplan("build", folder)[0] == 0
    code, said, err = pitplan("shells", folder)
    assert code == 0
    assert "each pit is as pit shells states it" in said
    assert f"pitplan shells {folder} --certificates" in said
    assert "factor 1.2 proved: 1 of 3" in err  # the highest pit first, which holds the others
    study = pp.Study(folder)
    for words in (
        ("page", folder),
        ("phases", folder, "0.6,1"),
        ("status", folder),
        ("export", folder, "--to", "csv"),
    ):
        code, said, err = pitplan(*words)
        assert code == 0, (words, err)
        assert certificates(study) == [], (words, err)
        if words[0] == "page":
            assert STATED.strip() in (folder / "out/pits.html").read_text()
        if words[0] == "status":
            assert "3 done" in said
            assert "certificates: of 0 of 3 shells" in said
    ids = study.model.blocks["id"][study.mask(1000)]
    pd.DataFrame({"IJK": ids}).to_csv(tmp_path / "best.csv", index=False)
    code, said, err = pitplan("compare", folder, "--ids", tmp_path / "best.csv")
    assert code == 0
    assert "the design is the best pit" in said
    assert certificates(study) == ["f01000"]
    assert "factor 1 done" in err
    code, said, err = pitplan("bundle", folder, tmp_path / "bundle")
    assert code == 0
    assert certificates(study) == ["f00600", "f01000", "f01200"]
    assert "factor 0.6 done" in err
    assert "factor 1 done" not in err
    ran = subprocess.run(
        ["/usr/bin/python3", "-I", str(tmp_path / "bundle/recheck.py"), os.environ["PIT"]],
        capture_output=True,
        text=True,
    )
    assert ran.returncode == 0, ran.stdout
    code, said, err = pitplan("shells", folder)
    assert code == 0
    assert "each pit has a certificate, which pit check has accepted" in said
    assert pitplan("page", folder)[0] == 0
    assert CERTIFIED.strip() in (folder / "out/pits.html").read_text()


WAITS = """#!/bin/sh
case "$*" in shells*--by-block*) echo $$ >> {marks}; sleep 30;; esac
exec {pit} "$@"
"""


@pytest.mark.parametrize("how", [signal.SIGINT, signal.SIGKILL])
def test_a_series_that_was_stopped_leaves_no_solver_and_goes_on(tmp_path, program, how):
    folder, slow, marks = written_study(tmp_path / "s"), tmp_path / "pit", tmp_path / "marks"
    slow.write_text(WAITS.format(marks=marks, pit=program))
    slow.chmod(0o755)
    assert pitplan("build", folder)[0] == 0
    run = command("shells", folder, env={**os.environ, "PIT": str(slow)})
    solvers = waited_for(marks, 1, run)
    task = Task("run", "base", (1000,))
    assert states(pp.Study(folder), [task])[0].state == RUNNING
    run.send_signal(how)
    said = run.communicate(timeout=600)[1]
    assert run.returncode == (130 if how == signal.SIGINT else -9)
    assert gone(solvers)
    assert how == signal.SIGKILL or (
        "goes on from there" in said and not list((folder / "runs/base").iterdir())
    )
    assert pitplan("shells", folder)[0] == 0
    assert sorted(path.name for path in (folder / "runs/base").iterdir()) == [
        "f00600",
        "f01000",
        "f01200",
    ]


DROPS = """import sys, time
sys.path.insert(0, sys.argv.pop(1))
from pitplan import Study
def drops(self):
    try:
        time.sleep(3600)
    except KeyboardInterrupt:  # as Python does with what is raised in a callback
        print("dropped", file=sys.stderr)
Study.read_ahead = drops
from pitplan.cli.main import main
main()
"""


def test_ctrl_c_that_python_drops_ends_a_series_all_the_same(tmp_path, program):
    folder, slow, marks = written_study(tmp_path / "s"), tmp_path / "pit", tmp_path / "marks"
    slow.write_text(WAITS.format(marks=marks, pit=program))
    slow.chmod(0o755)
    assert pitplan("build", folder)[0] == 0
    words = ["/usr/bin/python3", "-I", "-c", DROPS, TOP / "python", "shells", folder]
    run = started(words, env={**os.environ, "PIT": str(slow)})
    solvers = waited_for(marks, 1, run)
    run.send_signal(signal.SIGINT)
    said = run.communicate(timeout=600)[1]
    assert "dropped" in said
    assert run.returncode == 130
    assert gone(solvers)


def test_a_killed_series_is_started_once_more_with_one_worker(tmp_path, program):
    study, marks = study_of(tmp_path, table(6, 5, 4, 3)), tmp_path / "killed"
    (tmp_path / "pit").write_text(
        f'#!/bin/sh\ncase "$*" in shells*--by-block*) echo "$*" >> {marks}; [ $(wc -l < {marks}) = 1 ] && kill -9 $$;; esac\nexec {program} "$@"\n'
    )
    (tmp_path / "pit").chmod(0o755)
    shown = []
    found = pp.Study(study.folder, Pit(tmp_path / "pit")).shells(
        [600, 1000], 2, lambda factor, what, share: shown.append(what)
    )
    assert len(found) == 2
    assert shown.count("killed") == 1
    assert shown.count("done") == 2
    assert ["--workers 2" in line for line in marks.read_text().splitlines()] == [True, False]


def test_an_older_pit_makes_a_certificate_of_each(tmp_path, program):
    (tmp_path / "pit").write_text(
        f'#!/bin/sh\ncase "$*" in *by-block*) exit 2;; "shells --help") {program} shells --help | grep -v by-block; exit;; esac\nexec {program} "$@"\n'
    )
    (tmp_path / "pit").chmod(0o755)
    study = study_of(tmp_path, table(6, 5, 4, 3))
    found = pp.Study(study.folder, Pit(tmp_path / "pit")).shells([600, 1000])
    assert found.certified == 2
    assert certificates(study) == ["f00600", "f01000"]


def test_a_half_made_series_of_another_machine_is_running(tmp_path):
    study = study_of(tmp_path, table(5, 4, 3, 3))
    (study.folder / "runs/base/.f00600-01000.elsewhere.1.x").mkdir(parents=True)
    found = {
        task.factors[0]: state.state
        for task in [Task("run", "base", (factor,)) for factor in (500, 600, 800, 1000, 1001)]
        for state in states(study, [task])
    }
    assert [factor for factor, state in found.items() if state == RUNNING] == [600, 800, 1000]
    (study.folder / f"runs/base/.f00500-01200.{host()}.999999999.x").mkdir()
    study.shells([600])
    assert [path.name for path in study.folder.glob("runs/base/.f*")] == [
        ".f00600-01000.elsewhere.1.x"
    ]


@pytest.mark.parametrize("piece", [1, 40, 300, 1 << 22])
@pytest.mark.parametrize("end", ["\n", "\r\n"])
def test_the_table_goes_back_the_same_by_any_pieces(tmp_path, monkeypatch, piece, end):
    """Pieces of plain lines, and such with quotes, blank lines and line ends within cells between
    them, record by record by hand."""
    r = random.Random(piece)
    monkeypatch.setattr(table_back, "CHUNK_SIZE", piece)
    rows = [
        f"b{n},{n}"
        if r.random() < 0.9
        else r.choice([f'"b{n}{end}x",{n}', "", "   ", f'b{n},"a ""word"""'])
        for n in range(200)
    ]
    shell = np.array([r.randrange(3) for _ in rows])
    source = end.join(["ID,V", *rows]) + (end if piece != 40 else "")
    (tmp_path / "t.csv").write_bytes(source.encode())
    table_back.rewrite(
        tmp_path / "t.csv", tmp_path / "back.csv", b",pit_shell", [b",0.5", b",1", b","], shell
    )
    cells = [",0.5", ",1", ","]
    wanted = [
        "ID,V,pit_shell",
        *(row + cells[s] if row.strip() else row for row, s in zip(rows, shell)),
    ]
    assert (tmp_path / "back.csv").read_bytes() == (
        end.join(wanted) + (end if piece != 40 else "")
    ).encode()


def test_a_table_with_more_rows_than_blocks_of_rows_gets_blanks(tmp_path):
    (tmp_path / "t.csv").write_text("A,B\n1,2\n3,4\n5,6\n")
    table_back.rewrite(
        tmp_path / "t.csv", tmp_path / "back.csv", b",S", [b",7", b","], np.array([0])
    )
    assert (tmp_path / "back.csv").read_text() == "A,B,S\n1,2,7\n3,4,\n5,6,\n"


def test_sizes_of_a_series_are_told_by_the_model(tmp_path):
    study = study_of(tmp_path, table(5, 4, 3, 3), economics=costs())
    found = study.program.series(study.files, [700, 1000], tmp_path)
    assert [(pit.factor, pit.size, pit.certificate) for pit in found] == [
        (700, len(study.model), None),
        (1000, len(study.model), None),
    ]
    assert pp.read_table(tmp_path / "t.csv", size=SIZE).blocks.shape[0] == found[0].size
