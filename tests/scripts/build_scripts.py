"""Tests of ./build, ./install, ./run-example and ./release, in a tree of four small crates and with a stand-in for the kit."""
import io
import os
import re
import shutil
import signal
import subprocess
import sys
import tempfile
import time
import traceback
import zipfile
from pathlib import Path

from scripts.stand_in import MAIN, Tree

SLOW = "fn one() {}\n// SLEEP 30\n"


def until(is_so, seconds=20):
    """Waits until something is so, and says whether it came to be."""
    end = time.monotonic() + seconds
    while not is_so() and time.monotonic() < end:
        time.sleep(0.05)
    return is_so()


def proved(tree=None, tree_log=None):
    """The crates that the stand-in proved."""
    return sorted(
        line[0] for line in tree_log or tree.log() if line[0] != "ci" and line[1] != "kept"
    )


def is_left_alone(tree):
    """Whether no room is left, and no process works in the tree."""

    def working():
        links = []
        for entry in Path("/proc").glob("[0-9]*/cwd"):
            try:
                links.append(os.readlink(entry))
            except OSError:
                pass
        return [it for it in links if it.startswith(str(tree.top))]

    return until(lambda: not working(), 5) and not tree.has("out/room")


def the_program_stays_where_the_gate_leaves_it(tree):
    status, said = tree.ran("build")
    first = proved(tree)
    for crate in (tree.top / "crates").iterdir():
        shutil.rmtree(crate / "out")
    again, nothing = tree.ran("build")
    answer = tree.ran("run-example")
    well = (
        status == 0
        and first == ["beside", "high", "low", "pit"]
        and tree.has("out/pit")
        and "[ 4/4] pit" in said
    )
    return (
        well
        and (again, nothing, tree.log()) == (0, "", [])
        and answer == (0, "ACCEPTED 90 71040\n"),
        said + nothing + answer[1],
    )


def a_change_is_proved(tree):
    tree.ran("build", "--work")
    tree.log()
    tree.crate("high", "fn two() {}\n")
    is_built = tree.ran("build", "--is-built")[0]
    status, said = tree.ran("build", "--work")
    changed = proved(tree)
    tree.write("crates/low/specs/Lib.antt", "a definition\n")
    tree.ran("build")
    below = proved(tree)
    shutil.rmtree(tree.top / "crates/low/out/rlib")
    (tree.top / "out/built-from").unlink()
    tree.ran("build")
    lost = proved(tree)
    well = (
        (is_built, status, changed) == (1, 0, ["high", "pit"])
        and below == ["high", "low", "pit"]
        and lost == ["low", "pit"]
    )
    return (
        well
        and tree.ran("build", "--is-built")[0] == 0
        and "beside              as it was proved         0 s" in said,
        said,
    )


def the_room_is_in_the_tree(tree):
    status, said = tree.ran("build", "--work")
    folders = [line[2] for line in tree.log()]
    well = (
        all(folder.startswith(str(tree.top / "out" / "room")) for folder in folders)
        and len(folders) == 4
    )
    return status == 0 and well and is_left_alone(tree), "%s%r" % (said, folders)


def stopped_by(tree, number, whole_group=False):
    """Stops a build while a crate is at work, and gives what it printed where all is as it should be, or None."""
    tree.crate("high", SLOW)
    build = tree.starts("build", "--work")
    until(lambda: tree.has("out/room/high/crates/high/out/incremental/half"))
    (os.killpg if whole_group else os.kill)(build.pid, number)
    said, _ = build.communicate(timeout=30)
    well = (
        build.returncode == 128 + number
        and "Traceback" not in said
        and said.splitlines()[-1].startswith("stopped;")
    )
    kept = tree.has("crates/low/out/rlib/stamp") and tree.has("crates/high/out/incremental/half")
    tree.log()
    tree.crate("high", "fn one() {}\n")
    is_free = is_left_alone(tree)
    status, more = tree.ran("build", "--work")
    goes_on = [line for line in tree.log() if line[0] == "high" and line[3] == "again"]
    return well and kept and is_free and status == 0 and bool(goes_on), said + more


def ctrl_c_ends_with_one_line(tree):
    return stopped_by(tree, signal.SIGINT, whole_group=True)


def sigterm_leaves_nothing_behind(tree):
    return stopped_by(tree, signal.SIGTERM)


def a_closed_terminal_leaves_nothing_behind(tree):
    return stopped_by(tree, signal.SIGHUP)


def a_killed_build_is_cleared_away_by_the_next(tree):
    tree.crate("high", SLOW)
    build = tree.starts("build", "--work")
    until(lambda: tree.has("out/room/high/crates/high/out/incremental/half"))
    build.kill()
    build.communicate()
    was_there = tree.has("out/room")
    tree.crate("high", "fn one() {}\n")
    status, said = tree.ran("build", "--work")
    return was_there and status == 0 and is_left_alone(tree), said


def what_a_build_proved_the_gate_keeps(tree):
    tree.commit()
    tree.has_processors(False)
    status, said = tree.ran("build")
    first = [line[:2] for line in tree.log()]
    gate = asked(tree, "gate()")
    then = [line[1] for line in tree.log() if line[0] != "ci"]
    in_order = [
        name
        for name in re.findall(r"^\[ \d/4\] (\w+) +1 functions proved after     0 s$", said, re.M)
    ]
    well = (
        status == 0
        and first
        == [["ci"], ["low", "gate"], ["high", "gate"], ["beside", "gate"], ["pit", "gate"]]
        and is_left_alone(tree)
    )
    return (
        well
        and in_order == ["low", "high", "beside", "pit"]
        and then == ["kept"] * 4
        and gate.endswith("(1, 0)\n"),
        said + gate,
    )


def only_what_changed_is_proved_again(tree):
    tree.ran("build")
    tree.log()
    tree.crate("high", "fn two() {}\n")
    status, said = tree.ran("build")
    changed = proved(tree)
    built = tree.ran("build", "--anew")[0], proved(tree)
    tree.ran("build", "--work")
    tree.log()
    tree.crate("beside", "fn two() {}\n")
    tree.ran("build")
    by_work = [line[0] for line in tree.log()]
    well = (
        status == 0
        and changed == ["high", "pit"]
        and re.search(r"low +as it was proved +after", said)
    )
    return (
        well and built == (0, ["beside", "high", "low", "pit"]) and by_work == ["beside", "pit"],
        said,
    )


def each_library_has_a_run_of_its_own(tree):
    """The longest chain first and by the kit's own number of processes, the others by one, none before those below it have ended."""
    tree.write("crates/low/proofs/Long.antt", "a line\n" * 99)
    tree.crate("low", "fn one() {}\n// SLEEP 1\n")
    status, said = tree.ran("build")
    log = tree.log()
    runs = [line[1:] for line in log if line[0] == "ci"]
    jobs = {line[0]: line[3] for line in log if line[0] != "ci" and line[1] == "gate"}
    of_chain = "any" if len(os.sched_getaffinity(0)) >= 4 else "1"
    in_order = re.findall(r"^\[ \d/4\] (\w+) +1 functions proved after", said, re.M)
    well = (
        status == 0
        and sorted(runs[:2]) == [["beside"], ["low"]]
        and runs[2:] == [["high"], []]
        and proved(tree_log=log) == ["beside", "high", "low", "pit"]
        and is_left_alone(tree)
    )
    return well and sorted(in_order[:2]) == ["beside", "low"] and in_order[2:] == [
        "high",
        "pit",
    ] and jobs == {"low": of_chain, "beside": "1", "high": of_chain, "pit": "any"}, said + repr(log)


def what_is_kept_is_taken_by_one_run(tree):
    """Also of another tree on the machine; and where it isn't what is wanted, the first run is left off."""
    tree.ran("build")
    shutil.rmtree(tree.top / "out")
    tree.log()
    status, said = tree.ran("build")
    log = tree.log()
    tree.crate("low", "fn one() {}\n// SLEEP 4\n")
    changed, more = tree.ran("build")
    runs = [line[1:] for line in tree.log() if line[0] == "ci"]
    well = status == 0 and [line[:2] for line in log] == [
        ["ci"],
        ["low", "kept"],
        ["high", "kept"],
        ["beside", "kept"],
        ["pit", "kept"],
    ]
    well = (
        well
        and changed == 0
        and runs[0] == runs[-1] == []
        and sorted(runs[1:-1]) == [["beside"], ["high"], ["low"]]
        and is_left_alone(tree)
    )
    return well and said.count("as it was proved") == 4 and more.count(
        "["
    ) == 4 and "beside              as it was proved" in more, said + more + repr(runs)


def one_run_proves_all_where_several_cannot(tree):
    """With --anew, where the number of processes is set, in what calls itself CI, where the kit refuses names, and on few processors."""
    runs, around = [], tree.around
    for words, more in ((["--anew"], {}), ([], {"RT_JOBS": "2"}), ([], {"CI": "true"}), ([], {})):
        tree.has_processors(bool(words or more))
        tree.crate("low", "fn one() {}\n// %d\n" % len(runs))
        tree.around = dict(around, **more)
        runs.append(
            (tree.ran("build", *words)[0], [line[1:] for line in tree.log() if line[0] == "ci"])
        )
    return runs == [(0, [["--anew"]]), (0, [[]]), (0, [[]]), (0, [[]])], repr(runs)


def a_kit_whose_gate_takes_no_words_proves_all_in_one_run(tree):
    tree.write("../kit/KEEPS-NOTHING", "")
    tree.write("../kit/TAKES-NO-WORDS", "")
    made = []
    for words in ([], ["--anew"]):
        status, said = tree.ran("build", *words)
        runs = [line[1:] for line in tree.log() if line[0] == "ci"]
        made.append((status, runs, said.count("functions proved")))
    return (
        made == [(0, [[]], 4)] * 2 and tree.has("out/pit") and is_left_alone(tree),
        said + repr(made),
    )


def a_kit_that_keeps_nothing_proves_all_in_one_run(tree):
    tree.write("../kit/KEEPS-NOTHING", "")
    status, said = tree.ran("build")
    runs = [line[1:] for line in tree.log() if line[0] == "ci"]
    return status == 0 and runs[-1] == [] and ["high"] not in runs and tree.has(
        "out/pit"
    ) and is_left_alone(tree) and said.count("functions proved") == 4, said + repr(runs)


def a_library_that_fails_ends_the_others(tree):
    """One in the middle: what is above it isn't begun, what is beside it is ended, and what is below it is kept."""
    tree.crate("high", "fn one() {}\n// SLEEP 1\n// FAIL\n")
    tree.crate("beside", SLOW)
    status, said = tree.ran("build")
    first = [line[:2] for line in tree.log() if line[0] != "ci" and line[1] == "gate"]
    is_free = is_left_alone(tree)
    for name in ("high", "beside"):
        tree.crate(name, "fn one() {}\n")
    again, more = tree.ran("build")
    well = (
        status == 1
        and "high NOT PROVED; the end of" in said
        and "a goal is open" in said
        and "stopped" not in said
        and is_free
    )
    well = well and sorted(first) == [["beside", "gate"], ["high", "gate"], ["low", "gate"]]
    return well and again == 0 and proved(tree) == ["beside", "high", "pit"] and re.search(
        r"low +as it was proved", more
    ), said + more + repr(first)


def the_gate_of_a_build_ends_with_it(tree, number, at_work, whole_group=False):
    """Whether a build that is stopped while these crates are at work ends with one line, leaves nothing, and goes on from the crates that had ended."""
    for name in ("high", "beside"):
        tree.crate(name, SLOW)
    build = tree.starts("build")
    until(
        lambda: (tree.kit / "LOG").exists()
        and all(name + " gate" in (tree.kit / "LOG").read_text() for name in at_work)
    )
    (os.killpg if whole_group else os.kill)(build.pid, number)
    said, _ = build.communicate(timeout=30)
    well = (
        build.returncode == 128 + number
        and "Traceback" not in said
        and said.splitlines()[-1].startswith("stopped;")
        and is_left_alone(tree)
    )
    tree.log()
    for name in ("high", "beside"):
        tree.crate(name, "fn one() {}\n")
    status, more = tree.ran("build")
    return well and status == 0 and proved(tree) == ["beside", "high", "pit"], said + more


def ctrl_c_ends_the_runs_of_a_build(tree):
    return the_gate_of_a_build_ends_with_it(
        tree, signal.SIGINT, ("high", "beside"), whole_group=True
    )


def sigterm_ends_the_runs_of_a_build(tree):
    return the_gate_of_a_build_ends_with_it(tree, signal.SIGTERM, ("high", "beside"))


def a_closed_terminal_ends_the_runs_of_a_build(tree):
    return the_gate_of_a_build_ends_with_it(tree, signal.SIGHUP, ("high", "beside"))


def a_killed_build_takes_its_runs_along(tree):
    tree.crate("high", SLOW)
    build = tree.starts("build")
    until(lambda: (tree.kit / "LOG").exists() and "high gate" in (tree.kit / "LOG").read_text())
    build.kill()
    build.communicate()
    was_there = tree.has("out/room")
    tree.crate("high", "fn one() {}\n")
    status, said = tree.ran("build")
    return was_there and status == 0 and is_left_alone(tree), said


def ctrl_c_ends_the_one_run_of_a_build(tree):
    tree.has_processors(False)
    return the_gate_of_a_build_ends_with_it(tree, signal.SIGINT, ("high",), whole_group=True)


def sigterm_ends_the_one_run_of_a_build(tree):
    tree.has_processors(False)
    return the_gate_of_a_build_ends_with_it(tree, signal.SIGTERM, ("high",))


def a_crate_that_the_gate_refuses_is_told(tree):
    tree.has_processors(False)
    tree.crate("high", "fn one() {}\n// FAIL\n")
    status, said = tree.ran("build")
    tree.log()
    tree.crate("high", "fn one() {}\n")
    well = (
        status == 1
        and "high NOT PROVED; the end of" in said
        and "a goal is open" in said
        and not tree.has("out/pit")
        and is_left_alone(tree)
    )
    return well and tree.ran("build")[0] == 0 and proved(tree) == ["beside", "high", "pit"], said


def a_second_build_waits_and_says_so(tree):
    tree.crate("high", "fn one() {}\n// SLEEP 2\n")
    first = tree.starts("build", "--work")
    until(lambda: tree.has("out/room"))
    status, said = tree.ran("build", "--work")
    first.communicate(timeout=30)
    once = proved(tree) == ["beside", "high", "low", "pit"]
    return (status, first.returncode) == (0, 0) and once and said.startswith(
        "another build, or the gate, is at work in this tree"
    ), said


ASKED = "import importlib.machinery as m, sys; sys.path.insert(0, 'tests'); run = m.SourceFileLoader('run', 'tests/run').load_module(); print(run.%s)"


def asked(tree, call):
    """What a call of a function of tests/run prints, and then its answer."""
    return subprocess.run(
        [sys.executable, "-B", "-W", "ignore", "-c", ASKED % call],
        cwd=tree.top,
        env=tree.around,
        stdout=subprocess.PIPE,
        stderr=subprocess.STDOUT,
        text=True,
    ).stdout


def the_gate_waits_for_a_build(tree):
    tree.has_processors(False)
    tree.crate("low", "fn one() {}\n// SLEEP 5\n")
    tree.write("out/again/crates.txt", "of a check that was killed\n")
    build = tree.starts("build")
    until(lambda: tree.has("out/room"))
    gate = asked(tree, "gate()")
    build.communicate(timeout=30)
    order = [line[0] for line in tree.log()]
    well = (
        gate.startswith("another build")
        and gate.endswith("(1, 0)\n")
        and order == ["ci", "low", "high", "beside", "pit"] * 2
        and not tree.has("out/again")
    )
    return well and build.returncode == 0, gate


def the_gate_gives_a_crate_one_process(tree):
    """Of the kit's gate each crate gets one where the number of processes is set; a number that somebody has set stays."""
    tree.commit()
    first = asked(tree, "gate()")
    own = [line[-1] for line in tree.log() if line[0] != "ci"]
    tree.around["RT_JOBS"] = "7"
    second = asked(tree, "gate()")
    given = [line[-1] for line in tree.log() if line[0] != "ci"]
    well = len(own) == 4 and all(
        it.isdigit() and 1 <= int(it) <= len(os.sched_getaffinity(0)) for it in own
    )
    return well and given == ["7"] * 4, first + second


EDIT = "# function: one\nfile: src/lib.rt\nold: fn one() {}\nnew: fn one() {} // %s\n"


def the_gate_tries_edits_over_its_own_libraries(tree):
    tree.commit()
    tree.ran("build", "--work")
    tree.write("crates/high/edits/wrong.edit", EDIT % "REFUSED")
    tree.log()
    first = asked(tree, "gate()")
    lines = tree.log()
    tree.write("crates/high/edits/accepted.edit", EDIT % "nothing")
    tree.write("crates/high/edits/elsewhere.edit", EDIT % "OTHER")
    second = asked(tree, "gate()")
    told = (
        "high/accepted: ACCEPTED" in second
        and "high/elsewhere: refused by the whole crate, and not by one" in second
    )
    well = (
        first.endswith("(2, 0)\n")
        and lines[-1] == ["try", "one", "['by-the-gate']"]
        and second.endswith("(3, 1)\n")
        and told
    )
    is_back = (
        tree.has("crates/high/out/rlib/stamp")
        and not tree.has(".git/pit-libraries")
        and tree.ran("build", "--is-built")[0] == 0
    )
    return well and is_back, first + second


def each_edit_that_shows_nothing_fails_the_gate(tree):
    """One that is accepted, one refused for a name alone, and one whose function there isn't: each alone beside one that is refused."""
    tree.commit()
    tree.write("crates/low/edits/wrong.edit", EDIT % "REFUSED")
    said = []
    for name, text, wanted in (
        ("accepted", EDIT % "nothing", "ACCEPTED: the crate is still proved with this mistake"),
        ("named", EDIT % "NAMED", "cannot be tried: it is refused for a name alone"),
        (
            "nowhere",
            (EDIT % "REFUSED").replace("function: one", "function: other"),
            "cannot be tried: its check ended with the status",
        ),
    ):
        tree.write("crates/high/edits/%s.edit" % name, text)
        told, (status, again) = asked(tree, "gate()"), tree.ran("tests/run", "--edits")
        (tree.top / "crates/high/edits" / (name + ".edit")).unlink()
        well = told.endswith("(2, 1)\n") and all(
            "low/wrong: refused: " in it and "high/%s: %s" % (name, wanted) in it
            for it in (told, again)
        )
        said.append(well and status == 1 and again.endswith("1 passed, 1 failed\n") or told + again)
    return said == [True] * 3 and asked(tree, "gate()").endswith("(2, 0)\n"), repr(said)


def what_is_proved_is_kept_where_one_fails(tree):
    tree.crate("low", "fn one() {}\n")
    tree.crate("beside", SLOW)
    # it fails once the one beside it is at work
    tree.crate("high", "fn one() {}\n// SLEEP 3\n// FAIL\n")
    status, said = tree.ran("build", "--work")
    kept = tree.has("crates/low/out/rlib/stamp") and tree.has("crates/beside/out/incremental/half")
    kept = kept and tree.has("crates/high/out/incremental/half") and not tree.has("out/pit")
    return (
        status == 1
        and "high NOT PROVED" in said
        and "a goal is open" in said
        and kept
        and is_left_alone(tree),
        said,
    )


def a_crate_of_few_functions_gets_one_process(tree):
    tree.crate("high", "fn one() {}\n" * 60)
    tree.ran("build", "--work")
    jobs = {line[0]: int(line[1]) for line in tree.log()}
    return (jobs["low"], jobs["high"], jobs["pit"]) == (
        1,
        min(4, len(os.sched_getaffinity(0))),
        1,
    ), repr(jobs)


def limits_of_a_container_count(tree):
    groups = tree.room / "groups"
    for name, text in {
        "cpu.max": "max 100000",
        "box/cpu.max": "200000 100000",
        "box/in/cpu.max": "max 100000",
        "box/memory.max": "8000000000",
        "box/memory.stat": "anon 1000000000\nshmem 500000000\nfile 9",
    }.items():
        (groups / name).parent.mkdir(parents=True, exist_ok=True)
        (groups / name).write_text(text + "\n")
    (tree.room / "own").write_text("0::/box/in\n")
    (tree.room / "meminfo").write_text("MemTotal: 99 kB\nMemAvailable:   20000000 kB\n")
    (tree.room / "one").mkdir()
    for name, text in {
        "cpu/cpu.cfs_quota_us": "150000",
        "cpu/cpu.cfs_period_us": "100000",
        "memory/memory.limit_in_bytes": "4000000000",
        "memory/memory.stat": "cache 7\ntotal_rss 1000000000",
    }.items():
        (tree.room / "one" / name).parent.mkdir(parents=True, exist_ok=True)
        (tree.room / "one" / name).write_text(text + "\n")
    asked = (
        "import machine, sys; from pathlib import Path; r = Path(sys.argv[1]);"
        "print(machine.processors(r / 'groups', r / 'own'), machine.free_memory(r / 'groups', r / 'own', r / 'meminfo'),"
        " machine.processors(r / 'one', r / 'own'), machine.free_memory(r / 'one', r / 'own', r / 'meminfo'),"
        " machine.free_memory(r / 'none', r / 'own', r / 'meminfo'))"
    )
    said = subprocess.run(
        [sys.executable, "-c", asked, str(tree.room)],
        cwd=tree.top / "tools",
        stdout=subprocess.PIPE,
        stderr=subprocess.STDOUT,
        text=True,
    ).stdout
    return (
        said == "%d 6500000000 1 3000000000 20480000000\n" % min(2, len(os.sched_getaffinity(0))),
        said,
    )


def answered_first(tree, processors, said_between):
    """Whether the first answer comes before the proof has ended, and the texts come in this order."""
    tree.write("../kit/bin/nproc", "#!/bin/sh\necho %d\n" % processors, 0o755)
    tree.crate("low", "fn one() {}\n// SLEEP 2\n")
    status, said = tree.ran("run-example")
    log = [line[0] for line in tree.log()]
    parts = [
        "before anything is proved",
        *said_between,
        "low ",
        "[ 4/4] pit",
        "The same check by the proved program",
        "ACCEPTED 90 71040",
    ]
    found = [it[0] for it in re.finditer("|".join(map(re.escape, parts)), said)]
    return (
        status == 0 and found == parts and set(log[:2]) == {"try", "ci"} and log[-1] == "pit",
        said,
    )


def an_answer_comes_before_any_proof(tree):
    return answered_first(
        tree,
        2,
        ["ACCEPTED 90 71040", "run-time checks, and not proved", "Now every function is proved"],
    )


def an_answer_comes_while_crates_are_proved(tree):
    return answered_first(
        tree,
        4,
        [
            "Meanwhile every function is proved",
            "ACCEPTED 90 71040",
            "run-time checks, and not proved",
        ],
    )


def an_answer_that_comes_late_is_left_off(tree):
    """Where the build ends first, as where all is kept; and where it fails, or somebody ends it."""
    tree.write("../kit/bin/nproc", "#!/bin/sh\necho 4\n", 0o755)
    tree.crate("pit", MAIN + "// TRIED 60\n")
    began = time.monotonic()
    status, said = tree.ran("run-example")
    well = (
        status == 0
        and said.splitlines()[-2:] == ["The same check by the proved program:", "ACCEPTED 90 71040"]
        and said.count("ACCEPTED") == 1
    )
    tree.crate("high", "fn one() {}\n// FAIL\n")
    failed, told = tree.ran("run-example")
    tree.crate("high", "fn one() {}\n// SLEEP 60\n")
    tree.log()
    process = tree.starts("run-example")
    is_begun = until(
        lambda: (tree.kit / "LOG").exists() and "high gate" in (tree.kit / "LOG").read_text()
    )
    os.killpg(process.pid, signal.SIGINT)
    ended, _ = process.communicate(timeout=30)
    well = (
        well
        and failed == 1
        and "high NOT PROVED" in told
        and is_begun
        and "stopped; what is proved so far is kept" in ended
    )
    return well and time.monotonic() - began < 50 and is_left_alone(tree), said + told + ended


def quick_stops_after_the_first_answer(tree):
    status, said = tree.ran("run-example", "--quick")
    log = tree.log()
    given = "--data copper.prec=../../examples/copper/copper.prec" in " ".join(log[0])
    well = (
        status == 0
        and given
        and len(log) == 1
        and said.splitlines()[1] == "ACCEPTED 90 71040"
        and not tree.has("out/pit")
    )
    tree.ran("build")
    tree.log()
    return (
        well
        and tree.ran("run-example", "--quick") == (0, "ACCEPTED 90 71040\n")
        and not tree.log(),
        said,
    )


def no_answer_without_proof_is_told(tree):
    tree.crate("pit", MAIN + "// FAIL\n")
    quick, said = tree.ran("run-example", "--quick")
    status, more = tree.ran("run-example")
    told = "The kit gave no answer without a proof; what it said is in out/try.log"
    return (
        quick == 1
        and told in said
        and "ACCEPTED" not in said + more
        and status == 1
        and "pit NOT PROVED" in more,
        said + more,
    )


ANSWER = "ACCEPTED 90 71040\n"
PAGE = "A mine of copper and gold under a hill, planned from its table at nine prices, is on this page: examples/hill/out/pits.html\n"


def planned(tree, packages, user=0, fails=False):
    """A tree with the hill, whose pitplan needs these packages, on a machine of this user, where apt-get and sudo tell their words."""
    log = tree.room / "planned"
    log.write_text("")
    tree.write("examples/hill/study.toml", "")
    tree.write("python/packages", "# needed\n%s\n# its tests\npython3-more\n" % "\n".join(packages))
    tree.write("bin/pitplan", '#!/bin/sh\necho "$* $PIT" >> %s\n' % log, 0o755)
    tree.write("../kit/bin/id", "#!/bin/sh\necho %d\n" % user, 0o755)
    tree.write(
        "../kit/bin/apt-get", '#!/bin/sh\necho "apt-get $*" >> %s\nexit %d\n' % (log, fails), 0o755
    )
    tree.write(
        "../kit/bin/sudo",
        '#!/bin/sh\n[ $1 = -n ] && [ %d = 1000 ] || exit 1\nshift\nexec "$@"\n' % user,
        0o755,
    )
    return log


def the_page_of_the_example_is_made(tree):
    tree.ran("build")
    log = planned(tree, ["python3", "python3-json"])
    made = tree.ran("run-example")
    steps = log.read_text().splitlines()
    quick = tree.ran("run-example", "--quick")
    tree.write("bin/pitplan", "#!/bin/sh\nexit 3\n", 0o755)
    failed = tree.ran("run-example")
    well = steps == [
        "%s examples/hill %s/out/pit" % (step, tree.top) for step in ("build", "shells", "page")
    ] and quick == (0, ANSWER)
    well = well and made == (0, ANSWER + PAGE)
    return well and failed == (
        1,
        ANSWER + "No page of the example; what pitplan said is in out/pitplan.log\n",
    ), repr([made, failed])


def packages_are_installed_beside_the_proof(tree):
    """By root, and by sudo where it asks for no password; they are those that pitplan needs and its tests don't."""
    lines = [
        "apt-get update -q",
        "apt-get install -y -q -o DPkg::Lock::Timeout=600 --no-install-recommends python3 python3-nowhere libjs-nothing",
    ]
    told = []
    for user in (0, 1000):  # the second time everything is built already
        log = planned(tree, ["python3", "python3-nowhere", "libjs-nothing"], user)
        status, said = tree.ran("run-example")
        where = [
            said.find(it)
            for it in (
                "are being installed; what apt-get says is in out/packages.log",
                ANSWER,
                PAGE,
            )
        ]
        steps = log.read_text().splitlines()
        told.append(
            (
                status,
                steps[:2] == lines,
                [line.split()[0] for line in steps[2:]] == ["build", "shells", "page"],
                -1 not in where,
                user or where[0] < said.find("function is proved"),
                said,
            )
        )
    return all(all(it[1:5]) and it[0] == 0 for it in told), repr(told)


def packages_that_cannot_be_installed_are_told_by_one_command(tree):
    tree.ran("build")
    command = "    sudo sh -c 'apt-get update && apt-get install -y --no-install-recommends python3-nowhere'\n"
    told = []
    for user, fails, why in (
        (1001, False, ""),
        (0, True, "; what apt-get said is in out/packages.log"),
    ):
        log = planned(tree, ["python3-nowhere"], user, fails)
        status, said = tree.ran("run-example")
        well = said.endswith(
            "No page of the example, since Debian's packages for it lack%s. This installs them; then ./run-example again:\n%s"
            % (why, command)
        )
        told.append((status == 0 and well and "out/pit" not in log.read_text(), said))
    return all(well for well, _ in told), repr(told)


def an_unknown_word_is_refused(tree):
    answers = [
        tree.ran("run-example", "--fast"),
        tree.ran("build", "--all"),
        tree.ran("release", "--all"),
    ]
    return all(status and "./" in said for status, said in answers) and not tree.log(), repr(
        answers
    )


def help_says_what_each_script_takes(tree):
    """And nothing is done; install takes no option for a folder."""
    takes = {
        "build": "--anew",
        "install": "[FOLDER]",
        "release": "--check",
        "run-example": "--quick",
        "tests/run": "--scripts",
    }
    answers = [
        (name, tree.ran(name, word), part)
        for name, part in takes.items()
        for word in ("--help", "-h")
    ]
    status, said = tree.ran("install", "--all")
    well = all(
        status == 0 and part in said and "set -" not in said for _, (status, said), part in answers
    )
    return well and status == 1 and "[FOLDER]" in said and not tree.log(), repr(
        (answers, status, said)
    )


def install_copies_the_program(tree):
    status, said = tree.ran("install", str(tree.room / "bin"))
    other, more = tree.ran("install", str(tree.room / "elsewhere"))
    programs = [tree.room / at for at in ("lib/pontihaw/pit", "elsewhere/lib/pontihaw/pit")]
    (tree.room / "linked").symlink_to("bin/pit")
    answers = [
        subprocess.run(
            words,
            cwd=tree.room / "bin",
            env=dict(os.environ, PATH="%s:%s" % (tree.room / "elsewhere", os.environ["PATH"])),
            stdout=subprocess.PIPE,
            text=True,
        ).stdout
        for words in (
            [tree.room / "bin" / "pit"],
            ["./pit"],
            ["sh", "pit"],
            [tree.room / "linked"],
            ["pit"],
        )
    ]
    well = (
        (status, other) == (0, 0)
        and all(map(os.path.exists, programs))
        and answers == ["ACCEPTED 90 71040\n"] * 5
    )
    programs[0].unlink()
    lost = subprocess.run(
        [tree.room / "bin" / "pit"], stdout=subprocess.PIPE, stderr=subprocess.STDOUT, text=True
    )
    return (
        well and lost.returncode == 4 and "lib/pontihaw/pit is neither beside" in lost.stdout,
        said + more + repr(answers) + lost.stdout,
    )


def the_launcher_changes_nothing_else(tree):
    """The words, the exit status, a signal that ends the program, and whether it ignores signals: XFSZ and no other."""
    tree.crate(
        "pit",
        MAIN.replace(
            "//sh esac",
            "//sh esac\n//sh [ $# -gt 1 ] || exit 0\n//sh printf '<%s>' \"$@\"; grep SigIgn /proc/self/status; kill -$2 $$",
        ),
    )
    status, said = tree.ran("install", str(tree.room / "bin"))
    words = ["a b", "TERM", "", "*", "\u00e9", "$0"]
    ran = [
        subprocess.run([str(tree.room / at), *words], stdout=subprocess.PIPE, text=True)
        for at in ("bin/pit", "lib/pontihaw/pit")
    ]
    ignored = [int(re.search(r"SigIgn:\s*(\w+)", it.stdout)[1], 16) for it in ran]
    texts = [it.stdout.partition("SigIgn")[0] for it in ran]
    well = (
        texts[0] == texts[1]
        and "<a b><TERM><><*><\u00e9><$0>" in texts[0]
        and [it.returncode for it in ran] == [-signal.SIGTERM] * 2
    )
    return status == 0 and well and ignored[0] == ignored[1] | 1 << (
        signal.SIGXFSZ - 1
    ), said + repr(ran)


def the_launcher_asks_for_large_pages(tree):
    """By what the C library itself lists of its settings: a value that the caller has set stays."""
    listed = "%s --list-tunables" % next(Path("/").glob("lib64/ld-linux-*"))
    tree.crate("pit", MAIN.replace("//sh esac", "//sh esac\n//sh [ $# -gt 1 ] && exec " + listed))
    status, said = tree.ran("install", str(tree.room / "bin"))
    wanted = {
        "": {"hugetlb": 1, "top_pad": 0},
        "glibc.malloc.top_pad=4096": {"hugetlb": 1, "top_pad": 4096},
        "glibc.malloc.hugetlb=0": {"hugetlb": 0, "top_pad": 0},
    }
    found = {}
    for own in wanted:
        ran = subprocess.run(
            [str(tree.room / "bin/pit"), "a", "b"],
            env=dict(os.environ, GLIBC_TUNABLES=own),
            stdout=subprocess.PIPE,
            text=True,
        )
        lines = re.findall(r"glibc\.malloc\.(hugetlb|top_pad): 0x(\w+)", ran.stdout)
        found[own] = {name: int(value, 16) for name, value in lines}
    return status == 0 and found == wanted, said + repr(found)


def install_brings_pitplan_where_its_packages_are(tree):
    """The command works from anywhere, with its package beside the program; where packages are missing, pit alone is installed."""
    shutil.copy(Path(__file__).resolve().parents[2] / "bin/pitplan", tree.top / "bin/pitplan")
    tree.write("python/pitplan/cli/main.py", "def main():\n    print('planned by', __file__)\n")
    tree.write("python/pitplan/left.html", "")
    first = tree.ran("install", str(tree.room / "bin"))
    (tree.top / "python/pitplan/left.html").unlink()
    statuses = [
        first[0],
        tree.ran("install", str(tree.room / "bin"))[0],
        tree.ran("install", str(tree.room / "elsewhere"))[0],
    ]
    answers = [
        subprocess.run(
            [str(tree.room / at / "pitplan")], cwd="/", stdout=subprocess.PIPE, text=True
        ).stdout
        for at in ("bin", "elsewhere")
    ]
    wanted = [
        "planned by %s/pontihaw/pitplan/cli/main.py\n" % (tree.room.resolve() / at)
        for at in ("lib", "elsewhere/lib")
    ]
    share = [
        "share/man/man1/pit.1",
        "share/man/man1/pitplan.1",
        "share/bash-completion/completions/pit",
        "share/zsh/site-functions/_pitplan",
        "share/fish/vendor_completions.d/pit.fish",
    ]
    well = (
        statuses == [0] * 3
        and answers == wanted
        and all((tree.room / it).exists() for it in share)
        and not (tree.room / "lib/pontihaw/pitplan/left.html").exists()
    )
    tree.write(
        "python/packages",
        "# the package itself\npython3\npython3-nowhere\nlibjs-three\n# its tests\npython3-more\n",
    )
    status, said = tree.ran("install", str(tree.room / "third"))
    told = (
        "sudo apt-get install --no-install-recommends python3 python3-nowhere libjs-three, and"
        in said
    )
    return (
        well
        and status == 0
        and told
        and (tree.room / "third/pit").exists()
        and not (tree.room / "third/pitplan").exists(),
        first[1] + repr(answers) + said,
    )


def pitplan_names_the_packages_that_it_lacks(tree):
    shutil.copy(Path(__file__).resolve().parents[2] / "bin/pitplan", tree.top / "bin/pitplan")
    tree.write("python/pitplan/cli/main.py", "import nowhere\n")
    ran = subprocess.run(
        [str(tree.top / "bin/pitplan")], stdout=subprocess.PIPE, stderr=subprocess.STDOUT, text=True
    )
    needed = [
        it
        for it in (tree.top / "python/packages")
        .read_text()
        .partition("# its tests")[0]
        .splitlines()
        if it and it[0] != "#"
    ]
    wanted = (
        "pitplan needs the Python package nowhere: sudo apt-get install --no-install-recommends %s\n"
        % " ".join(needed)
    )
    return ran.returncode == 1 and ran.stdout == wanted, ran.stdout


def released(tree):
    tree.commit()
    status, said = tree.ran("release")
    files = {file.name: file.read_bytes() for file in (tree.top / "dist").glob("*")}
    return status, said, files


def two_folders_make_the_same_release(tree):
    with tempfile.TemporaryDirectory() as room:
        other = Tree(Path(__file__).resolve().parents[2], Path(room) / "elsewhere")
        first = released(tree)
        other.commit()
        os.utime(other.top / "README.md", (1, 1))
        (other.top / "LICENSE").chmod(0o600)
        second = other.ran("release"), {
            file.name: file.read_bytes() for file in (other.top / "dist").glob("*")
        }
    names = [
        "BUILT.txt",
        "SHA256SUMS",
        "pit-0.1.0-x86_64-linux.tar.gz",
        "pit_0.1.0_amd64.deb",
        "pitplan-0.1.0-py3-none-any.whl",
        "pitplan-desk_0.1.0_amd64.deb",
        "pitplan_0.1.0_amd64.deb",
    ]
    sums = subprocess.run(
        ["sha256sum", "-c", "SHA256SUMS"], cwd=tree.top / "dist", stdout=subprocess.PIPE, text=True
    )
    well = (
        first[0] == 0
        and sorted(first[2]) == names
        and first[2] == second[1]
        and sums.returncode == 0
    )
    return well, first[1] + second[0][1] + sums.stdout


def a_release_holds_what_it_should(tree):
    _, said, files = released(tree)
    (tree.room / "a.tar.gz").write_bytes(files["pit-0.1.0-x86_64-linux.tar.gz"])
    (tree.room / "a.deb").write_bytes(files["pit_0.1.0_amd64.deb"])
    for words in (
        ["tar", "-xzf", "a.tar.gz"],
        ["dpkg-deb", "-x", "a.deb", "installed"],
        ["dpkg-deb", "-e", "a.deb", "control"],
    ):
        subprocess.run(words, cwd=tree.room, check=True)
    listed = subprocess.run(
        ["tar", "-tvzf", "a.tar.gz"], cwd=tree.room, stdout=subprocess.PIPE, text=True, check=True
    ).stdout
    answers = [
        subprocess.run([str(tree.room / at)], stdout=subprocess.PIPE, text=True).stdout
        for at in ("pit-0.1.0-x86_64-linux/pit", "installed/usr/bin/pit")
    ]
    needs = re.search(r"^Depends: (.*)$", (tree.room / "control/control").read_text(), re.M)[1]
    wanted = ["pit-0.1.0-x86_64-linux/lib/pontihaw/pit", "installed/usr/lib/pontihaw/pit"]
    wanted += [
        "pit-0.1.0-x86_64-linux/" + it
        for it in (
            "LICENSE",
            "README.md",
            "pit.1",
            "examples/copper/copper.prec",
            "python/pitplan/slopes/offsets.py",
        )
    ]
    wanted += [
        "installed/usr/share/man/man1/pit.1.gz",
        "installed/usr/share/doc/pit/examples/copper/copper.cert",
        "installed/usr/share/doc/pit/manual/index.html",
        "installed/usr/share/doc/pit/manual/docs/GUIDE.html",
        "installed/usr/share/doc/pit/manual/searchindex.js",
    ]
    commit = subprocess.run(
        ["git", "rev-parse", "HEAD"], cwd=tree.top, stdout=subprocess.PIPE, text=True
    ).stdout.strip()
    about = files["BUILT.txt"].decode()
    told = all(it in about for it in (commit, "stand-in", "0123456789abcdef", "C library 2.34"))
    well = (
        answers == ["ACCEPTED 90 71040\n"] * 2
        and needs == "libc6 (>= 2.34)"
        and all((tree.room / it).exists() for it in wanted)
    )
    return well and told and "root/root" in listed, said + listed + about


def a_release_holds_pitplan(tree):
    _, said, files = released(tree)
    (tree.room / "a.deb").write_bytes(files["pitplan_0.1.0_amd64.deb"])
    for words in (["dpkg-deb", "-x", "a.deb", "installed"], ["dpkg-deb", "-e", "a.deb", "control"]):
        subprocess.run(words, cwd=tree.room, check=True)
    control = dict(
        line.split(": ", 1)
        for line in (tree.room / "control/control").read_text().splitlines()
        if re.match(r"\w+: ", line)
    )
    own = [
        line
        for line in (tree.top / "python/packages")
        .read_text()
        .partition("# its tests")[0]
        .splitlines()
        if line and line[0] != "#"
    ]
    needs = control["Depends"].split(", ")
    share = "installed/usr/share/"
    wanted = [
        "installed/usr/bin/pit",
        "installed/usr/bin/pitplan",
        "installed/usr/lib/python3/dist-packages/pitplan/slopes/offsets.py",
        share + "man/man1/pit.1.gz",
        share + "man/man1/pitplan.1.gz",
        share + "doc/pitplan/examples/copper/copper.cert",
        share + "doc/pitplan/copyright",
        share + "doc/pitplan/manual/index.html",
    ]
    wanted += [
        share + path % name
        for name in ("pit", "pitplan")
        for path in (
            "bash-completion/completions/%s",
            "zsh/vendor-completions/_%s",
            "fish/vendor_completions.d/%s.fish",
        )
    ]
    missing = [it for it in wanted if not (tree.room / it).exists()]
    with zipfile.ZipFile(io.BytesIO(files["pitplan-0.1.0-py3-none-any.whl"])) as wheel:
        held = {name: wheel.read(name).decode() for name in wheel.namelist()}
    metadata = next(text for name, text in held.items() if name.endswith("METADATA"))
    well = (
        [it.partition(" ")[0] for it in needs] == ["libc6", *own]
        and len(own) > 10
        and "python3 (>= 3.11)" in needs
    )
    well = well and (
        control["Package"],
        control["Provides"],
        control["Conflicts"],
        control["Replaces"],
    ) == ("pitplan", "pit (= 0.1.0)", "pit", "pit")
    well = (
        well
        and not missing
        and "pitplan/slopes/offsets.py" in held
        and "\nVersion: 0.1.0\n" in metadata
        and "pitplan = pitplan.cli.main:main" in "".join(held.values())
    )
    return well, said + repr([missing, control, metadata])


def a_release_is_compared_with_another_build(tree):
    released(tree)
    tree.log()
    all_anew = "proved anew: low, high, beside, pit; 0 libraries taken"
    status, said = tree.ran("release", "--check")
    well = (
        status == 0
        and said.count("same   ") == 7
        and all_anew in said
        and not tree.has("out/again")
    )
    tree.ran("build", "--work")
    taken, more = tree.ran("release", "--check")
    anew, most = tree.ran("release", "--check", "--anew")
    return (
        well
        and taken == anew == 0
        and "proved anew: pit; 3 libraries taken" in more
        and all_anew in most,
        said + more + most,
    )


def another_program_fails_the_comparison(tree):
    released(tree)
    archive = next((tree.top / "dist").glob("*.tar.gz"))
    subprocess.run(
        "mkdir x && tar -xzf %s -C x && (echo '# more' | tee -a x/*/pit >/dev/null) && tar -czf %s -C x ."
        % (archive, archive),
        shell=True,
        cwd=tree.room,
        check=True,
    )
    status, said = tree.ran("release", "--check")
    return (
        status == 1
        and "DIFFERS  pit-0.1.0-x86_64-linux.tar.gz" in said
        and "same     SHA256SUMS" in said,
        said,
    )


def what_is_not_committed_is_not_released(tree):
    tree.commit()
    tree.write("README.md", "another text\n")
    status, said = tree.ran("release")
    return status == 1 and "README.md" in said and not tree.has("dist") and not tree.log(), said


def the_manual_page_follows_the_help_texts(tree):
    help_text = (
        "Digs.\\n\\nUsage: pit <COMMAND>\\n\\nCommands:\\n  dig   Digs\\n  help  Print\\n\\nOptions:\\n  -h, --help  Print help\\n\\n"
        "Exit status:\\n  0  done\\n"
    )
    of_dig = "Digs a .pit\\n\\nUsage: pit dig [OPTIONS]\\n\\nOptions:\\n      --deep <N>\\n          How deep: 3 by default\\n\\n            far  to the end\\n"
    program = "#!/bin/sh\ncase \"$*\" in\n--version) echo pit 7.8.9;;\n--help) printf '%s';;\n'dig --help') printf '%s';;\nesac\n"
    tree.write("out/pit", program % (help_text, of_dig), 0o755)
    status, said = tree.ran("tools/man_page.py")
    page = (tree.top / "docs/pit.1").read_text()
    parts = [
        '.TH PIT 1 "" "pit 7.8.9"',
        ".SH NAME\npit \\- digs.",
        ".B pit dig [OPTIONS]",
        ".SS pit dig\nDigs a .pit\n",
        ".TP\n.B \\-\\-deep <N>\nHow deep: 3 by default\n.br\nfar: to the end\n",
        ".SH EXIT STATUS\n.TP\n.B 0\ndone\n",
    ]
    compared = [asked(tree, "manual(run.tree.PROGRAM)")]
    tree.write("out/pit", program % (help_text, of_dig.replace("3 by", "4 by")), 0o755)
    compared.append(asked(tree, "manual(run.tree.PROGRAM)"))
    fish = (tree.top / "completions/pit.fish").read_text()
    (tree.top / "completions/pit.bash").write_text("older\n")
    compared.append(asked(tree, "manual(run.tree.PROGRAM)"))
    told = (
        "docs/pit.1 isn't what the help texts of pit say" in compared[1]
        and "tools/man_page.py writes it anew" in compared[1]
        and "completions/pit.bash isn't" in compared[2]
    )
    told = (
        told and "from dig' -l deep -x -d 'How deep'" in fish and "completions" not in compared[1]
    )
    well = (
        status == 0
        and all(part in page for part in parts)
        and compared[0] == "(1, 0)\n"
        and compared[1].endswith("(0, 1)\n")
        and told
    )
    return well, said + page + repr(compared)


CASES = [
    help_says_what_each_script_takes,
    the_program_stays_where_the_gate_leaves_it,
    a_change_is_proved,
    the_room_is_in_the_tree,
    ctrl_c_ends_with_one_line,
    sigterm_leaves_nothing_behind,
    a_closed_terminal_leaves_nothing_behind,
    a_killed_build_is_cleared_away_by_the_next,
    what_a_build_proved_the_gate_keeps,
    only_what_changed_is_proved_again,
    each_library_has_a_run_of_its_own,
    what_is_kept_is_taken_by_one_run,
    one_run_proves_all_where_several_cannot,
    a_kit_that_keeps_nothing_proves_all_in_one_run,
    a_kit_whose_gate_takes_no_words_proves_all_in_one_run,
    a_library_that_fails_ends_the_others,
    ctrl_c_ends_the_runs_of_a_build,
    sigterm_ends_the_runs_of_a_build,
    a_closed_terminal_ends_the_runs_of_a_build,
    a_killed_build_takes_its_runs_along,
    ctrl_c_ends_the_one_run_of_a_build,
    sigterm_ends_the_one_run_of_a_build,
    a_crate_that_the_gate_refuses_is_told,
    a_second_build_waits_and_says_so,
    the_gate_waits_for_a_build,
    the_gate_gives_a_crate_one_process,
    the_gate_tries_edits_over_its_own_libraries,
    each_edit_that_shows_nothing_fails_the_gate,
    what_is_proved_is_kept_where_one_fails,
    a_crate_of_few_functions_gets_one_process,
    limits_of_a_container_count,
    an_answer_comes_before_any_proof,
    an_answer_comes_while_crates_are_proved,
    an_answer_that_comes_late_is_left_off,
    quick_stops_after_the_first_answer,
    no_answer_without_proof_is_told,
    the_page_of_the_example_is_made,
    packages_are_installed_beside_the_proof,
    packages_that_cannot_be_installed_are_told_by_one_command,
    an_unknown_word_is_refused,
    install_copies_the_program,
    the_launcher_changes_nothing_else,
    the_launcher_asks_for_large_pages,
    install_brings_pitplan_where_its_packages_are,
    pitplan_names_the_packages_that_it_lacks,
    two_folders_make_the_same_release,
    a_release_holds_what_it_should,
    a_release_holds_pitplan,
    a_release_is_compared_with_another_build,
    another_program_fails_the_comparison,
    what_is_not_committed_is_not_released,
    the_manual_page_follows_the_help_texts,
]


def test(top):
    """Runs the tests, each in a tree of its own, and gives how many passed and failed."""
    passed = failed = 0
    for case in CASES:
        # a process of a build that was killed may still end there
        with tempfile.TemporaryDirectory(prefix="pit-scripts-", ignore_cleanup_errors=True) as room:
            try:
                well, said = case(Tree(top, room))
            except (
                Exception
            ):  # a case that can't be played to its end has failed, and the others are still played
                well, said = False, traceback.format_exc()
        if not well:
            print("%s: failed:\n%s" % (case.__name__, said))
        passed, failed = passed + bool(well), failed + (not well)
    return passed, failed
