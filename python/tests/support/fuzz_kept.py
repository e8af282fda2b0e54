"""Damaged files of a plan by years, for `fuzzing`.

A small study is built and scheduled once. Of what is kept of it one to four files are damaged, in one
to four ways each: bytes, keys, values and arrays that are others, files that are gone, cut off, folders
or another file. Then a command that reads them is run, in a fork of this process: it ends with what was
asked for, or with a message that says what to do.
"""
import gzip
import io
import json
import os
import re
import shutil
import sys
import warnings
from contextlib import contextmanager

import numpy as np

import fuzzing
import mines
import planned
import served
from pitplan.base.errors import PlanError
from pitplan.schedule.last_plan import last_plan
from pitplan.schedule.plan import production_for
from pitplan.schedule.search import Search
from pitplan.study import Study
from pitplan.study.shells import Shells
from pitplan.study.study_file import read_study_file

PLAN = ("runs/schedule/**/*.*", "out/schedule.json")
BELOW = ("runs/base/*/*", "model/*", "log/*", "out/.written.json")  # what a plan rests on
OFTEN = 0.8  # of the damages are of files of the plan
READ = ("read",)  # no command: in this process all is read of the plan that needs no `pit`
COMMANDS = (
    *[READ] * 40,
    ("status", "s"),
    ("status", "s"),
    ("export", "s", "--schedule", "--to", "csv"),
    ("schedule", "s", "--gap", "0", "--minutes", "0.02"),
    ("page", "s", "--schedule"),
    ("report", "s", "--xlsx"),
)
SHAPES = ((), (0,), (1,), (7, 3), (2, 2, 2))
TYPES = ("int8", "int16", "int64", "uint64", "float64", "bool", "U3", "complex128")
LONGEST = 2000  # bytes of a damaged file that are shown
TOLD = re.compile(r"^error: [^\n]+(\n  [^\n]*)*\n  try: [^\n]+", re.MULTILINE)


# what is told where files are of another model, of other terms, or not there
OTHER = re.compile(
    "no schedule by the terms|ha(s|ve)n't been run|the plan by years isn't in it|has changed since"
    "|(wasn't|never) built"
)


@contextmanager
def room(folder):
    """A study with its plan as it was made, and beside it where copies are damaged."""
    sound = folder / "sound"
    planned.built(sound / "s", frame=mines.table(5, 4, 3, 5))
    served.load_all()
    status, said = ran(sound, ("schedule", "s", "--gap", "5", "--minutes", "1"))
    assert status == 0, said
    read_all(sound / "s")
    yield folder


def sample(r):
    """What draws a command and the damages, and these once they are done."""
    return {"draw": r, "words": r.choice(COMMANDS), "done": []}


def shown(sample):
    return "\n".join([" ".join(("pitplan", *sample["words"])), *sample["done"]])


def answer(folder, sample):
    """How a command ends over damaged files: "done", or the status of its message."""
    shutil.rmtree(folder / "room", ignore_errors=True)
    shutil.copytree(folder / "sound", folder / "room")
    names = damaged(folder / "room" / "s", sample)
    if sample["words"] == READ:
        try:
            read_all(folder / "room" / "s")
            return "read"
        except (PlanError, OSError) as error:
            said = str(error)
            assert isinstance(error, OSError) or error.try_this, said
            assert any(name in said for name in names) or OTHER.search(said), said
            return f"told by {type(error).__name__}"
    status, said = ran(folder / "room", sample["words"])
    assert not re.search("Traceback|Warning", said), said
    assert status in (0, 1, 3, 4), (status, said)
    if status == 0:
        return "done"
    assert TOLD.search(said), said
    assert any(name in said for name in names) or OTHER.search(said), said
    return f"status {status}"


def read_all(folder):
    """What a search, the list of studies and `status` read of a plan that was kept."""
    plan, study = read_study_file(folder), Study(folder)
    study.refuse_changed(plan.path, plan.digest, plan.table)
    last_plan(folder, study.key, plan.values["schedule"], plan.rates)
    made = production_for(Shells(study, plan.factors), plan.values["schedule"], plan.rates)
    search = Search(folder, made, study.program, None, study.files)
    cluster = search.clusters()
    assert (
        np.unique(cluster.dug[cluster.there.dug]).max()
        < cluster.size
        <= cluster.dug.size + cluster.sent.size
    )
    search.swap(1, 0)


def ran(folder, words):
    """The status of a command in a folder, and what it printed."""
    path = folder.with_suffix(".said")
    pid = os.fork()
    if pid == 0:
        warnings.simplefilter("default")
        for each in (DeprecationWarning, PendingDeprecationWarning, ImportWarning, ResourceWarning):
            warnings.simplefilter("ignore", each)  # as a planner's own Python does
        out = os.open(path, os.O_WRONLY | os.O_CREAT | os.O_TRUNC)
        os.dup2(out, 1)
        os.dup2(out, 2)
        sys.stdout, sys.stderr = (open(fd, "w", closefd=False) for fd in (1, 2))
        os.chdir(folder)
        sys.argv = ["pitplan", *words]
        os._exit(served.status_of_main())
    try:
        status = os.waitstatus_to_exitcode(os.waitpid(pid, 0)[1])
    except BaseException:
        os.kill(pid, 9)
        os.waitpid(pid, 0)
        raise
    return status, path.read_text(errors="replace")


def damaged(study, sample):
    """Damages one to four files, and gives what messages may call them."""
    r, names = sample["draw"], []
    for _ in range(r.choice((1, 1, 1, 2, 3, 4))):
        of = PLAN if r.random() < OFTEN else BELOW
        files = sorted({path for each in of for path in study.glob(each) if path.is_file()})
        if not files:
            break
        path, other = r.choice(files), r.choice(files)
        names += [path.name, path.parent.name, other.name, other.parent.name]
        before, kind = path.read_bytes(), r.random()
        if kind < 0.06:
            path.unlink()
        elif kind < 0.1:
            path.unlink()
            path.mkdir()
        elif kind < 0.16:
            path.write_bytes(other.read_bytes())
        elif kind < 0.2:
            path.write_bytes(other.read_bytes())
            other.write_bytes(before)
        else:
            for _ in range(r.choice((1, 1, 2, 3, 4))):
                before = changed(path.suffix, before, r)
            path.write_bytes(before)
        now = repr(path.read_bytes()[:LONGEST]) if path.is_file() else "gone" * (not path.exists())
        sample["done"].append(f"{path.relative_to(study)}: {now}")
    return names


def changed(suffix, data, r):
    """The bytes of a file with a change, of a kind that its suffix stands for or of any."""
    if r.random() < 0.7:
        try:
            if suffix == ".json":
                return json.dumps(fuzzing.changed_value(json.loads(data), r)).encode()
            if suffix == ".npz":
                return _other_arrays(data, r)
            if suffix == ".gz":
                return gzip.compress(_other_line(gzip.decompress(data), r))
            return _other_line(data, r)
        except Exception:  # it is damaged already
            pass
    return fuzzing.changed_bytes(data, r)


def _other_line(data, r):
    """A text with a word, or a line, that is another."""
    lines = data.split(b"\n")
    at = r.randrange(len(lines))
    words = lines[at].split(b" ")
    words[r.randrange(len(words))] = r.choice([b"", b"-1", b"x", b"99999999999999999999", b"\xff"])
    lines[at] = r.choice([b" ".join(words), b" ".join(words), r.choice(lines), b""])
    return b"\n".join(lines)


def _other_arrays(data, r):
    """An archive of arrays of which one is another, gone, or under another name."""
    with np.load(io.BytesIO(data), allow_pickle=False) as file:
        arrays = dict(file)
    name = r.choice(sorted(arrays))
    one, kind = arrays.pop(name), r.randrange(6)
    if kind == 0:
        arrays[r.choice(["x", "period", "production", "../x", *arrays])] = one
    elif kind == 1:
        arrays[name] = np.zeros(r.choice(SHAPES), r.choice(TYPES))
    elif kind == 2:
        arrays[name] = one.astype(r.choice(TYPES))
    elif kind == 3 and one.size:
        flat = one.reshape(-1).copy()
        flat[r.randrange(flat.size)] = (
            r.choice(flat) if flat.dtype.kind in "US" else r.choice((0, 1, 2, 100))
        )
        arrays[name] = flat.reshape(one.shape)
    elif kind == 4:
        arrays[name] = np.roll(one, 1) if one.ndim else one
    made = io.BytesIO()
    np.savez(made, **arrays)
    return made.getvalue()
