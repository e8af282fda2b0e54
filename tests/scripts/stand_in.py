"""A stand-in for the kit: an `rt` that proves nothing and does in moments what the scripts see of the real one.

What it does with a crate is told by words in the crate's sources: `SLEEP 2` takes two seconds, and `TRIED 2` where the program is
run from its sources; `FAIL` isn't proved. Each
crate that it works on is a line of the file LOG beside it: `NAME JOBS FOLDER`, and `again` where it goes on from earlier work;
its gate writes `ci` and the names that it was given, and `NAME gate FOLDER` or, where it had kept the crate, `NAME kept FOLDER`, and
RT_JOBS. Where there is a file KEEPS-NOTHING beside LOG, it keeps nothing, and with TAKES-NO-WORDS its gate takes no words either.
"""
import os
import re
import signal
import subprocess
from pathlib import Path

RT = r"""#!/usr/bin/env python3
import hashlib, os, re, shutil, sys, tempfile, time
from pathlib import Path

KIT = Path(__file__).resolve().parent.parent
words, here = sys.argv[1:], Path.cwd()

def log(text):
    with open(KIT / "LOG", "a") as file:
        file.write(text + "\n")

def source(crate):
    return "".join(file.read_text() for file in sorted((crate / "src").glob("*.rt")))

def program(text):
    return "#!/bin/sh\n" + "".join("%s\n" % it for it in re.findall(r"^//sh (.*)$", text, re.M))

def prove():
    text, name, out = source(here), here.name, here / "out"
    kept = out / "incremental" / "half"
    log(" ".join([name, words[words.index("--jobs") + 1], str(here), "again" if kept.exists() else "anew"]))
    stamp = out / "rlib" / "stamp"
    if words[0] == "lib" and stamp.exists() and stamp.read_text() == text:
        sys.exit(0)
    kept.parent.mkdir(parents=True, exist_ok=True)
    kept.write_text("")
    for seconds in re.findall(r"SLEEP (\S+)", text):
        time.sleep(float(seconds))
    if "FAIL" in text:
        print("error: a goal is open\nlogic=not-proved")
        sys.exit(1)
    shutil.rmtree(out / "rlib", ignore_errors=True)
    (out / "rlib" / (name + ".rlib")).mkdir(parents=True)
    stamp.write_text(text)
    if words[0] == "run":
        (out / name).write_text(program(text))
        (out / name).chmod(0o755)
    print("logic=proved functions=%d" % len(re.findall(r"\bfn ", text)))

KEEPS = not (KIT / "KEEPS-NOTHING").exists()

def gate(name, below, here):
    # as the real one: it keeps what has passed, and its own libraries stay where no earlier build had made any
    crate = here / "crates" / name
    text, made = "".join(source(here / "crates" / it) for it in [*below, name]), crate / "out" / "rlib" / (name + ".rlib")
    kept = KIT.parent / "rattle-kept" / ("proof-%s-%s" % (name, hashlib.sha256(text.encode()).hexdigest()))
    is_kept = kept.exists() and "--anew" not in words
    log(" ".join([name, "kept" if is_kept else "gate", str(crate), os.environ.get("RT_JOBS", "any")]))
    if is_kept:
        print("rt: %s is kept: an earlier run on this machine proved the same files over the same libraries" % name, flush=True)
    else:
        for seconds in re.findall(r"SLEEP (\S+)", source(crate)):
            time.sleep(float(seconds))
        if "FAIL" in source(crate):
            sys.exit("== %s\nerror: a goal is open\nlogic=not-proved\nrt: %s NOT PROVED" % (name, name))
        print("== %s\nlogic=proved functions=%d\nrt: %s proved" % (name, len(re.findall(r"\bfn ", source(crate))), name), flush=True)
    if KEEPS:
        kept.parent.mkdir(exist_ok=True)
        kept.write_text("")
    if (crate / "src" / "main.rt").exists():
        (crate / "out").mkdir(exist_ok=True)
        (crate / "out" / name).write_text(program(source(crate)))
        (crate / "out" / name).chmod(0o755)
    elif not made.exists():
        made.mkdir(parents=True)
        (made / "by-the-gate").write_text("")

def gate_of_some(names, lines):
    # as the real one: on a copy among the temporary files
    below = {name: it.split() for name, _, it in lines}
    wanted = {it for name in names for it in [name, *below[name]]}
    with tempfile.TemporaryDirectory(prefix="rt-copy-") as room:
        shutil.copytree(here / "crates", Path(room) / "crates", ignore=shutil.ignore_patterns("out"))
        os.chdir(room)
        for name in below:
            if name in wanted:
                gate(name, below[name], Path(room))
        os.chdir(here)
    print("rt: %s and the crates below passed%s. This is not the gate: run rt ci with no names" % (" ".join(names), ", and that is kept" if KEEPS else ""))

if words == ["version"]:
    print("stand-in logic 0123456789abcdef")
elif words == ["doc"]:
    print(KIT / "START-HERE.md")
elif words[0] == "try":
    log("try " + " ".join(words))
    for seconds in re.findall(r"TRIED (\S+)", source(here)):
        time.sleep(float(seconds))
    if "FAIL" in source(here):
        print("run=none proved=no", file=sys.stderr)
        sys.exit(2)
    print("ACCEPTED 90 71040")
    print("checked: ended status=0", file=sys.stderr)
elif words[0] in ("lib", "run"):
    prove()
elif words[0] == "ci" and words[1:] and (KIT / "TAKES-NO-WORDS").exists():
    print("usage: rt new FOLDER", file=sys.stderr)
    sys.exit(2)
elif words[0] == "ci":
    log("ci " + " ".join(words[1:]))
    lines = [line.partition(":") for line in (here / "crates.txt").read_text().splitlines()]
    names = [it for it in words[1:] if it != "--anew"]
    if names:
        gate_of_some(names, lines)
    for name, _, below in [] if names else lines:
        gate(name, below.split(), here)
    print("1 passed, 0 failed")
else:
    sys.exit("the stand-in has no rt " + words[0])
"""
# The prover of the kit: `REFUSED` in a crate's sources is refused where the function one is checked, `OTHER` where all is, `NAMED`
# for a name alone, which the real one tells over three lines. There is no other function.
RATTLE = r"""#!/usr/bin/env python3
import sys
from pathlib import Path

words, text = sys.argv[1:], (Path("src") / "lib.rt").read_text()
libraries = [Path(word.partition("=")[2]) for word in words if word.startswith("low=")]
named = words[words.index("--only") + 1] if "--only" in words else None
with open(Path(__file__).resolve().parent.parent / "LOG", "a") as file:
    file.write("try %s %s\n" % (named or "all", [it.name for at in libraries for it in at.iterdir()]))
if named not in (None, "one"):
    sys.exit("rattle: error: `high` has no function `%s`: help: write the name that a check prints after `fn`, or the end of it" % named)
is_refused = "REFUSED" in text or "OTHER" in text and not named or "NAMED" in text
if "NAMED" in text:
    print("./proofs/one/Answers.antt:4:15: error: `returns`: `goal.gone`\n  module `Rattle.high.proofs.one.Goals`\n  has no `gone` that can be named from here")
elif is_refused:
    print("src/lib.rt:1:1: error: `one`: a goal is open")
print("only=1 proved=%d" % (not is_refused) if named else "logic=not-proved" if is_refused else "logic=proved")
sys.exit(int(is_refused))
"""
# the kit's LLVM: as llvm-strip it copies, as llvm-nm it names a call
LLVM = r"""#!/bin/sh
while [ $# -gt 0 ]; do
    case "$1" in -o) to=$2; shift ;; esac
    from=$1; shift
done
if [ -n "$to" ]; then cat "$from" > "$to"; else echo "write@GLIBC_2.34"; fi
"""
MAIN = """//! The program.
//sh case "$1" in
//sh --version) printf 'pit 0.1.0\\nlogic 0123456789abcdef\\n' ;;
//sh *) echo "ACCEPTED 90 71040" ;;
//sh esac
fn main() {}
"""
FILES = (
    "build",
    "run-example",
    "install",
    "release",
    "tools/*.py",
    "tools/manual_site/*",
    "python/pitplan/**/machine.py",
    "tools/launcher",
    "tests/run",
    "tests/*/*.py",
    "python/packages",
    "python/pyproject.toml",
)


class Tree:
    """A repository with this one's scripts and three crates, low, high and pit, each over the ones before it, and beside; and a kit."""

    def __init__(self, top, room):
        self.room, self.top = Path(room), Path(room) / "repository"
        self.kit = self.room / "kit"
        for pattern in FILES:
            for file in top.glob(pattern):
                self.write(file.relative_to(top), file.read_bytes(), file.stat().st_mode & 0o777)
        # as much memory as any number of processes needs
        proving = (self.top / "tools" / "proving.py").read_text()
        self.write(
            "tools/proving.py", proving.replace("JOB_MEMORY = 1_500_000_000", "JOB_MEMORY = 1")
        )
        self.has_processors(True)
        self.write("crates.txt", "low:\nhigh: low\nbeside:\npit: high low beside\n")
        for name in ("low", "high", "beside"):
            self.crate(name, "fn one() {}\n")
        self.crate("pit", MAIN)
        self.write("../kit/bin/rt", RT, 0o755)
        self.write("../kit/bin/rattle", RATTLE, 0o755)
        self.write("../kit/toolchain/bin/clang", LLVM, 0o755)
        for name in ("copper.prec", "copper.upit", "copper.cert"):
            self.write("examples/copper/" + name, name)
        of_shells = [
            "completions/%s.%s" % (name, shell)
            for name in ("pit", "pitplan")
            for shell in ("bash", "zsh", "fish")
        ]
        for name in (
            "README.md",
            "CHANGELOG.md",
            "LICENSE",
            "docs/pit.1",
            "docs/pitplan.1",
            "docs/GUIDE.md",
            "python/pitplan/slopes/offsets.py",
            *of_shells,
        ):
            self.write(name, "# a text\n")
        self.write("python/pitplan/__init__.py", "__version__ = '0.1.0'\n")
        self.write("bin/pitplan", "#!/bin/sh\n", 0o755)
        self.write(".gitignore", "out/\ndist/\n")
        around = {name: text for name, text in os.environ.items() if name not in ("CI", "RT_JOBS")}
        self.around = dict(
            around,
            PATH="%s:%s" % (self.kit / "bin", os.environ["PATH"]),
            GIT_CONFIG_GLOBAL=os.devnull,
        )

    def write(self, name, text, mode=0o644):
        file = self.top / name
        file.parent.mkdir(parents=True, exist_ok=True)
        file.write_bytes(text if isinstance(text, bytes) else text.encode())
        file.chmod(mode)

    def crate(self, name, text):
        self.write("crates/%s/src/%s.rt" % (name, "main" if name == "pit" else "lib"), text)

    def has_processors(self, so_many):
        """Has a build prove each library by a run of its own, however many processors there are, or all by one run."""
        code = (self.top / "tools" / "kit_gate.py").read_text()
        code = re.sub(r"(?m)^PROCESSORS = \d+", "PROCESSORS = %d" % (1 if so_many else 9999), code)
        self.write("tools/kit_gate.py", re.sub(r"(?m)^SILENT = \d+", "SILENT = 2", code))

    def starts(self, *words):
        """Starts a script of the tree in a group of processes of its own, which hears ctrl-C and a hangup: in the background of a
        script, or under nohup, it would not."""
        return subprocess.Popen(
            [str(self.top / words[0]), *words[1:]],
            cwd=self.top,
            env=self.around,
            stdin=subprocess.DEVNULL,
            stdout=subprocess.PIPE,
            stderr=subprocess.STDOUT,
            text=True,
            start_new_session=True,
            preexec_fn=lambda: [
                signal.signal(it, signal.SIG_DFL) for it in (signal.SIGINT, signal.SIGHUP)
            ],
        )

    def ran(self, *words):
        """Runs a script of the tree, and gives its exit status and what it printed."""
        process = self.starts(*words)
        said, _ = process.communicate(timeout=300)
        return process.returncode, said

    def log(self):
        """The lines of what the stand-in worked on, each as a list of words; the log is then empty."""
        file = self.kit / "LOG"
        lines = [line.split() for line in file.read_text().splitlines()] if file.exists() else []
        file.unlink(missing_ok=True)
        return lines

    def has(self, name):
        return (self.top / name).exists()

    def commit(self):
        git = ["git", "-c", "user.name=a", "-c", "user.email=a@b.c"]
        for words in (["init", "-q"], ["add", "-A"], [*git[1:], "commit", "-q", "-m", "all"]):
            subprocess.run(
                ["git", *words],
                cwd=self.top,
                check=True,
                stdout=subprocess.DEVNULL,
                env=dict(
                    self.around,
                    GIT_COMMITTER_DATE="2026-01-02T03:04:05Z",
                    GIT_AUTHOR_DATE="2026-01-02T03:04:05Z",
                ),
            )
