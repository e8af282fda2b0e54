"""The tests of pitplan, the planner's side in Python: python/tests, by Debian's own Python and packages, its Debian package in a
fresh Debian, and damaged studies, files and requests."""
import os
import re
import subprocess
import tempfile
from concurrent.futures import ThreadPoolExecutor

import machine
from scripts import debian

PYTHON = "/usr/bin/python3"
AT_ONCE = 4  # tests of browsers, Slurm and large models take up to 1.5 GB each
FEW = 10  # tests that may be run once more, alone, where they failed beside others


def packages(top):
    """Debian's packages that pitplan and its tests need, by python/packages."""
    lines = (top / "python" / "packages").read_text().splitlines()
    return [line.strip() for line in lines if line.strip() and not line.startswith("#")]


def missing(names):
    """Those of the packages that aren't installed."""
    said = subprocess.run(
        ["dpkg-query", "-W", "-f", "${Package} ${db:Status-Status}\n", *names],
        stdout=subprocess.PIPE,
        stderr=subprocess.DEVNULL,
        text=True,
    ).stdout
    there = {line.split()[0] for line in said.splitlines() if line.endswith(" installed")}
    return [name for name in names if name not in there]


def installed(top):
    """Installs what is missing where that may be done, else says by which command; whether all is there."""
    lacking = missing(packages(top))
    if not lacking:
        return True
    command = ["apt-get", "install", "-y", "--no-install-recommends", *lacking]
    if os.geteuid() != 0:
        print("the tests of pitplan need Debian's packages: sudo " + " ".join(command))
        return False
    quiet = {
        "stdout": subprocess.DEVNULL,
        "env": {**os.environ, "DEBIAN_FRONTEND": "noninteractive"},
    }
    print(
        "for the tests of pitplan Debian's packages are being installed: %d" % len(lacking),
        flush=True,
    )
    # of a new machine apt-get knows no package yet
    if subprocess.run(command, stderr=subprocess.DEVNULL, **quiet).returncode:
        subprocess.run(["apt-get", "update"], **quiet)
        subprocess.run(command, **quiet)
    lacking = missing(lacking)
    if lacking:
        print("apt-get can't install " + " ".join(lacking))
    return not lacking


def try_all(top, pit):
    """Runs the tests, with those on a one-node Slurm, Snakemake and Dask, and gives how many passed and failed. What they write is taken away.

    Each processor takes one file of tests after another: those of a file share a model, a browser or a Slurm. Where few
    failed, these are run once more, alone: what passes only then is told, and isn't counted as failed, since browsers and
    schedulers beside each other may wait longer for a processor than a test does.
    """
    if not os.access(pit, os.X_OK):
        print("no program at %s" % pit)
        return 0, 1
    if not installed(top):
        return 0, 1
    with tempfile.TemporaryDirectory(prefix="pitplan-tests.", ignore_cleanup_errors=True) as room:
        side_by_side = ["-n", str(min(AT_ONCE, machine.processors())), "--dist", "loadfile"]
        passed, failed = ran(top, pit, room, "t", side_by_side)
        if not 0 < failed <= FEW:
            return passed, failed
        well, failed = ran(
            top, pit, room, "u", ["--last-failed", "--last-failed-no-failures", "none"]
        )
        print("%d tests that failed beside others passed alone" % well)
    return passed + well, failed


def ran(top, pit, room, name, more):
    """Runs pytest once, shows what it prints where a test failed, and gives how many passed and failed."""
    words = [PYTHON, "-m", "pytest", "-q", "-o", "cache_dir=" + os.path.join(room, "cache")]
    run = subprocess.run(
        [*words, *more, "--basetemp=" + os.path.join(room, name), "tests"],
        cwd=top / "python",
        env={**os.environ, "PIT": str(pit), "TMPDIR": room},
        stdin=subprocess.DEVNULL,
        stdout=subprocess.PIPE,
        stderr=subprocess.STDOUT,
        text=True,
    )
    if run.returncode:
        print(run.stdout)
    last = (run.stdout.strip() or "-").rsplit("\n", 1)[-1]
    counts = {
        word.rstrip("s"): int(number)
        for number, word in re.findall(r"(\d+) (passed|failed|errors?)\b", last)
    }
    if not counts:  # it ended before its last line
        return 0, FEW + 1
    failed = counts.get("failed", 0) + counts.get("error", 0)
    return counts.get("passed", 0), max(failed, int(run.returncode != 0))


def try_packaged(top, pit):
    """The same tests, and beside them, since it waits for downloads and disks, the Debian package in a fresh Debian."""
    if not installed(top):  # mmdebstrap is one of them
        return 0, 1
    with ThreadPoolExecutor(1) as beside:
        packaged = beside.submit(debian.try_all, pit)
        counts = [try_all(top, pit), packaged.result()]
    return sum(passed for passed, _ in counts), sum(failed for _, failed in counts)


def large_table(top, pit):
    """Gives the desk a table of 300 MB."""
    name = "test_a_table_of_300_mb_is_taken_and_looked_at"
    words = [PYTHON, "-m", "pytest", "-q", "-s", "-p", "no:cacheprovider"]
    around = {**os.environ, "PIT": str(pit), "DEEP": "1"}
    ran = subprocess.run(
        [*words, "tests/desk/test_worker.py::" + name], cwd=top / "python", env=around
    )
    return int(ran.returncode == 0), int(ran.returncode != 0)


# what is thrown at pitplan, by two processes: kinds of python/tests/support/fuzzing.py, and the part of
# the time that each has
LANES = ([("studies", 1)], [("kept", 0.5), ("desk", 0.5)])


def fuzz(top, pit, minutes, seed):
    """Throws damaged studies, kept files and requests at pitplan for so many minutes: each is answered by a result or a
    message, never by a traceback. Gives how many of the kinds were answered throughout, and how many weren't.
    """

    def tried(kind, share):
        words = [PYTHON, "tests/support/fuzzing.py", kind, str(60 * minutes * share), str(seed)]
        around = {**os.environ, "PIT": str(pit)}
        ran = subprocess.run(words, cwd=top / "python", stdin=subprocess.DEVNULL, env=around)
        return ran.returncode == 0

    with ThreadPoolExecutor(len(LANES)) as lanes:
        done = lanes.map(lambda lane: [tried(kind, share) for kind, share in lane], LANES)
        well = [each for lane in done for each in lane]
    return sum(well), len(well) - sum(well)
