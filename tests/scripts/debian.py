#!/usr/bin/env python3
"""Installs the Debian package of pitplan in a fresh Debian 12, as a planner would, and takes it away again.

    tests/scripts/debian.py [PROGRAM]     with out/pit, or this program, in it; needs root, and mmdebstrap with a mirror of Debian

The packages, of pitplan and of its desk, are made of this tree and the program, as ./release makes it. mmdebstrap makes a Debian 12 of apt and the essential
packages alone, in a folder of its own; there one command installs the package. Then an ordinary user asks `pitplan doctor`, and
goes from the example's table to its page; packages that are missing are told; shells complete; and after `apt-get remove`
nothing of it is left. The last line is 'N passed, M failed'; where it can't be tried here it says so, and both are 0.
"""
import os
import re
import resource
import shutil
import subprocess
import sys
import tempfile
import time
from pathlib import Path

TOP = Path(__file__).resolve().parents[2]
sys.path.insert(0, str(TOP / "tools"))
sys.dont_write_bytecode = True

MIRROR = os.environ.get("DEBIAN_MIRROR", "http://deb.debian.org/debian")
INSTALL = "apt-get install -y -qq --no-install-recommends"
THERE = "/root/tried"  # in the new Debian: the package, this script, and what is compared
TO_THE_END = "all was tried"
ROOM = 4 * 10**9  # bytes that the new Debian takes at most
QUIET = {
    "DEBIAN_FRONTEND": "noninteractive",
    "LC_ALL": "C.UTF-8",
    "PATH": "/usr/local/bin:/usr/local/sbin:/usr/bin:/usr/sbin:/bin:/sbin",
}
WALK = """set -e
cp -r /usr/share/doc/pitplan/examples/copper copper
pitplan init copper/copper.csv --study fresh
pitplan build copper
pitplan shells copper
pitplan page copper
"""


class Tried:
    """What was tried, a line for each."""

    def __init__(self):
        self.passed = self.failed = 0

    def that(self, what, well, told=""):
        print(
            "%-6s %s" % ("ok" if well else "FAILED", what) + ("" if well else ":\n%s" % told),
            flush=True,
        )
        self.passed, self.failed = self.passed + bool(well), self.failed + (not well)


def said(words, as_planner=False, **around):
    """Status and output of a command in the new Debian; a text is for a shell, in the planner's home where it is his."""
    before = (
        ["setpriv", "--reuid", "planner", "--regid", "planner", "--clear-groups"]
        if as_planner
        else []
    )
    home = "/home/planner" if as_planner else "/root"
    run = subprocess.run(
        [*before, "sh", "-c", words],
        cwd=home,
        env={**QUIET, "HOME": home, **around},
        stdin=subprocess.DEVNULL,
        stdout=subprocess.PIPE,
        stderr=subprocess.STDOUT,
        text=True,
    )
    return run.returncode, run.stdout


def shells_of_guide():
    """The shells of the example with its mill, by docs/GUIDE.md: factor, blocks, worth."""
    text = Path("/usr/share/doc/pitplan/docs/GUIDE.md").read_text()
    answer = re.search(r"pit shells .* --settings mill\.toml\n((?: *SHELL .*\n)+)", text)
    return re.findall(r"SHELL (\d+) (\d+) (\d+)", answer[1] if answer else "")


def walks(tried):
    """The doctor, and from a table to the page, as an ordinary user."""
    began = time.monotonic()
    status, told = said("pitplan doctor", True)
    tried.that(
        "pitplan doctor: all is well, in %.1f s" % (time.monotonic() - began),
        status == 0 and told.endswith("all is well\n") and "look" not in told,
        told,
    )
    status, told = said(WALK, True)
    tried.that("from the example's table to its page", status == 0, told)
    page = Path("/home/planner/copper/out/pits.html")
    text = page.read_text() if page.exists() else ""
    tried.that(
        "the page needs no network",
        len(text) > 100_000 and not re.search(r"(src|href)=.?https?:", text),
        "%d bytes" % len(text),
    )
    kept = "".join(
        path.read_text() for path in sorted(Path("/home/planner/copper/runs/base").glob("*/*.json"))
    )
    shells = shells_of_guide()
    tried.that(
        "its pits are the guide's",
        len(shells) == 5
        and all(
            '"count": %s' % count in kept and '"worth": "%s"' % worth in kept
            for _, count, worth in shells
        ),
        "%s\n%s" % (shells, kept),
    )
    status, told = said(
        "pit --version && python3 -c 'import pitplan; print(pitplan.__version__, pitplan.read_table)' && pitplan --version",
        True,
    )
    tried.that(
        "the program, the package and the command are there",
        status == 0 and told.startswith("pit ") and "pitplan " in told.splitlines()[-1],
        told,
    )
    status, told = said("python3 /usr/share/doc/pitplan/examples/planning.py planned", True)
    tried.that("examples/planning.py runs as it is installed", status == 0, told)


DESK = """set -e
export PITPLAN_DESK_TOKEN=a-token
pitplan desk . --port 8799 > said 2>&1 &
trap "kill $!" EXIT
for i in $(seq 200); do grep -q Ctrl-C said && break; sleep 0.1; done
python3 - <<'END'
import json, time, urllib.request
host = "http://127.0.0.1:8799"
def ask(path, told=None):
    head = {"cookie": "pitplan-desk-8799=a-token", "origin": host, "content-type": "application/json"}
    body = json.dumps(told).encode() if told is not None else None
    with urllib.request.urlopen(urllib.request.Request(host + path, body, head), timeout=120) as told:
        return told.read()
assert b"desk.js" in ask("/") and b"import" in ask("/desk.js")
assert json.loads(ask("/api/studies/copper/check"))["errors"] == []
number = json.loads(ask("/api/studies/copper/runs", {"what": "build"}))["number"]
while json.loads(ask("/api/studies/copper/pulse"))["run"]["state"] == "running": time.sleep(0.2)
print(json.loads(ask("/api/studies/copper/pulse"))["run"]["state"])
END
"""


def desk(tried):
    """The desk: what is said where it isn't installed, and then one that an ordinary user starts."""
    status, told = said("pitplan desk .", True)
    tried.that(
        "without pitplan-desk it is told what to install",
        status == 3
        and "apt-get install" in told
        and "pitplan-desk" in told
        and "Traceback" not in told,
        told,
    )
    status, told = said("%s %s/pitplan-desk_*.deb" % (INSTALL, THERE))
    tried.that("one command installs pitplan-desk", status == 0, told)
    status, told = said(DESK, True)
    tried.that("its desk builds a study", status == 0 and told.endswith("done\n"), told)
    status, told = said("apt-get remove -y -qq pitplan-desk")
    left = [str(it) for it in Path("/usr").rglob("pitplan/desk*")]
    tried.that("apt-get remove takes the desk away", status == 0 and not left, told + str(left))


def tells(tried):
    """Manual pages, completion, and what is said where a package or the program is missing."""
    status, told = said(
        "gzip -dc /usr/share/man/man1/pit.1.gz /usr/share/man/man1/pitplan.1.gz | grep -c '^.TH PIT'"
    )
    tried.that("both manual pages", (status, told) == (0, "2\n"), told)
    status, told = said("python3 %s/completing.py" % THERE)
    tried.that("completion: " + told.strip(), status == 0, told)
    status, told = said("pitplan doctor", True, PIT="/nowhere/pit")
    tried.that("no program is told", status == 1 and "MISSING PIT in the environment" in told, told)
    for package, line in (
        ("ezdxf", "look    the Python package ezdxf can't be imported"),
        ("shapely", "MISSING the Python package shapely can't be imported"),
        ("typer", "pitplan needs the Python package typer"),
    ):
        said("dpkg --remove --force-depends python3-" + package)
        status, told = said("pitplan doctor", True)
        command = re.search(r"sudo (apt-get install --no-install-recommends .*)", told)
        well = (
            line in told
            and (status == 1) == (package != "ezdxf")
            and "Traceback" not in told
            and command
        )
        again = said(command[1] + " -y -qq") if command else (1, "")
        tried.that(
            "a missing %s is told, and the command that is named brings it" % package,
            well and again[0] == 0 and said("python3 -c 'import %s'" % package)[0] == 0,
            told + again[1],
        )


def leaves(tried):
    """Whether nothing of the package is left after it was removed."""
    installed = [Path(path) for path in said("dpkg -L pitplan")[1].splitlines()]
    said("pitplan doctor")  # as root, who may write beside the package
    status, told = said("apt-get remove -y -qq pitplan")
    left = [
        path
        for path in installed
        if path.exists()
        and (not path.is_dir() or "pitplan" in str(path) or "pontihaw" in str(path))
    ]
    found = said(
        "find / -xdev ( -iname '*pitplan*' -o -iname '*pontihaw*' ) -not -path '/home/*' -not -path '%s*' -not -path '/var/lib/dpkg/*' "
        "-not -path '/var/log/*' -not -path '/proc/*'".replace("(", "\\(").replace(")", "\\)")
        % THERE
    )[1]
    tried.that(
        "apt-get remove leaves nothing",
        len(installed) > 50 and status == 0 and not left and not found,
        "%s\n%s\n%s" % (told, left, found),
    )
    tried.that(
        "and nothing of the planner's is lost", Path("/home/planner/copper/out/pits.html").exists()
    )


def within():
    """All that is tried in the new Debian."""
    tried = Tried()
    said("useradd -m planner")
    for part in (walks, desk, tells, leaves):
        part(tried)
    print(TO_THE_END)
    return 1 if tried.failed else 0


def package_of(program, room):
    """The Debian packages of this tree with a program, and of its desk, written below `room`."""
    import manual
    import packages
    import planner_packages

    told = re.match(
        r"pit (\S+)",
        subprocess.run(
            [str(program), "--version"], stdout=subprocess.PIPE, check=True, text=True
        ).stdout,
    )[1]
    facts = {"version": told, "libc": packages.c_library(program)}
    _, wheel = planner_packages.wheel(1_700_000_000, room)
    made = room / ("pitplan_%s_amd64.deb" % told)
    made.write_bytes(
        planner_packages.debian(
            packages.stripped(program, room),
            facts,
            b"a trial\n",
            manual.made("0.1.0", 1_700_000_000),
            wheel,
            1_700_000_000,
            room,
        )
    )
    desk = room / ("pitplan-desk_%s_amd64.deb" % told)
    desk.write_bytes(planner_packages.desk(facts, wheel, 1_700_000_000, room))
    return made, desk


def hooks(package, desk, room):
    """What mmdebstrap does in the new Debian: the files are put there, and one command installs the package."""
    (room / "install").write_text(
        "#!/bin/sh\nset -e\nexec >> %s/said 2>&1\n%s %s/%s\npython3 %s/debian.py --within\n"
        % (THERE, INSTALL, THERE, package.name, THERE)
    )
    files = [
        package,
        desk,
        room / "install",
        Path(__file__),
        TOP / "tests" / "scripts" / "completing.py",
    ]
    yield 'mkdir -p "$1"' + THERE
    for file in files:
        yield "upload %s %s/%s" % (file, THERE, file.name)
    # whatever comes of it, what it said is fetched
    yield 'chroot "$1" sh %s/install || true' % THERE
    yield "download %s/said %s" % (THERE, room / "said")


def try_all(program):
    """Tries all, and gives how many passed and failed; both are 0 where it can't be tried here."""
    if (
        os.geteuid()
        or not shutil.which("mmdebstrap")
        or shutil.disk_usage(tempfile.gettempdir()).free < ROOM
    ):
        print(
            "the Debian package wasn't tried: it needs root, mmdebstrap and %d GB of disk"
            % (ROOM // 10**9)
        )
        return 0, 0
    if not os.access(program, os.X_OK):
        print("no program at %s" % program)
        return 0, 1
    try:
        return tried_anew(program)
    except (ValueError, subprocess.CalledProcessError) as error:
        print("no Debian package was made: %s" % error)
        return 0, 1


def tried_anew(program):
    """The same, in a Debian that is made for it."""
    began = time.monotonic()
    with tempfile.TemporaryDirectory(prefix="pit-debian-") as name:
        room = Path(name)
        package, desk = package_of(program, room)
        # what is mounted there is seen by mmdebstrap alone, so that nothing of it is left, however this ends
        made = subprocess.run(
            [
                "unshare",
                "--mount",
                "mmdebstrap",
                "--variant=apt",
                "--mode=root",
                "--skip=cleanup",
                "--dpkgopt=force-unsafe-io",
                '--aptopt=APT::Sandbox::User "root"',
                *("--customize-hook=" + hook for hook in hooks(package, desk, room)),
                "bookworm",
                "/dev/null",
                MIRROR,
            ],
            env={**os.environ, "TMPDIR": name},
            stdin=subprocess.DEVNULL,
            stdout=subprocess.PIPE,
            stderr=subprocess.STDOUT,
            text=True,
        )
        told = (room / "said").read_text() if (room / "said").exists() else ""
    if not told:
        print(
            "the Debian package wasn't tried: mmdebstrap made no Debian here\n"
            + "\n".join(made.stdout.splitlines()[-6:])
        )
        return 0, 0
    passed, failed = len(re.findall(r"^ok    ", told, re.M)), len(
        re.findall(r"^FAILED", told, re.M)
    )
    if failed or not told.endswith(TO_THE_END + "\n"):
        print(told[-20000:])
        failed = failed or 1
    print("the Debian package in a fresh Debian: %.0f s" % (time.monotonic() - began))
    return passed, failed


def main():
    if sys.argv[1:] == ["--within"]:
        return within()
    if len(sys.argv) > 2:
        sys.exit(__doc__)
    passed, failed = try_all(
        Path(sys.argv[1] if len(sys.argv) == 2 else TOP / "out" / "pit").resolve()
    )
    used = resource.getrusage(resource.RUSAGE_CHILDREN)
    print("%.0f processor seconds" % (used.ru_utime + used.ru_stime))
    print("%d passed, %d failed" % (passed, failed))
    return 1 if failed else 0


if __name__ == "__main__":
    sys.exit(main())
