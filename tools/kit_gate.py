"""Proves the program's crates by the kit's gate, in a copy of what they are made from.

What it passes the kit keeps beside itself, for every tree on this machine: neither the tests nor the next build prove it
again. It takes fewer processor seconds than `proving`, and leaves no work from which a check of one function
goes on, so it serves a tree in which nothing is changed.

One run of the gate gives a crate a second process only where no other crate waits for a processor, so that the longest
chain of crates sets the clock while processors are idle. On four processors or more each library is therefore proved by
a run of its own (`rt ci NAME`), once those below it are kept: the longest chain first and by two processes, and the
others, at a lower priority, by one. A last run over all takes what these have kept, and proves the program.

An older kit's gate takes no words, and keeps nothing: it answers words with its usage, and then one run proves all.
"""
import os
import re
import select
import shutil
import signal
import subprocess
import time
from contextlib import suppress

import proving
import tree

COPY = tree.ROOM / "tree"
# a folder for each run of one library, for its temporary files: `/tmp` may be memory
RUNS = tree.ROOM / "runs"
LEFT_OUT = shutil.ignore_patterns("out", "must-fail", "edits", "planted.edits")
ENDED = re.compile(r"rt: (\w+) (proved|NOT PROVED|is kept)\b")
KEPT = "and the crates below passed, and that is kept"
KEPT_ENTRY = re.compile(r"proof-(\w+)-")
PATIENCE = 10  # the seconds in which processes that are told to end do so
SILENT = 20  # a run that has said nothing for so many seconds is proving, and no longer taking what is kept
# on fewer one run keeps them as busy, by a simulation, and reads what is kept but once
PROCESSORS = 4
MOST_JOBS = 4  # the kit's own limit; a run of one crate gives its proof half of the processors, since its (empty) tests wait too
REFUSES = "usage: rt "  # how the answer of a kit begins whose gate takes no words
NEAR = 0.9  # a chain of crates that is so much of the longest goes first too


def copy_crates(crates):
    """Copies what these crates are made from, as the top of a repository."""
    for crate in crates.values():
        shutil.copytree(crate.folder, COPY / "crates" / crate.name, ignore=LEFT_OUT)
    (COPY / "crates.txt").write_text("".join(crate.line + "\n" for crate in crates.values()))
    if (tree.TOP / "HANDLES").exists():
        shutil.copy2(tree.TOP / "HANDLES", COPY)
    (COPY / ".git").mkdir()  # which tells the kit that the top is here


def take_what_was_made(crates):
    """Moves the program into the tree, and the libraries, over which edits are tried. A check of the kit makes its own."""
    for crate in crates.values():
        made, to = COPY / "crates" / crate.name / "out", crate.folder / "out"
        to.mkdir(exist_ok=True)
        if crate.is_program:
            os.replace(made / crate.name, to / crate.name)
        else:
            shutil.rmtree(to / "rlib", ignore_errors=True)
            (made / "rlib").rename(to / "rlib")


def store():
    """Where the kit keeps what passes, beside itself."""
    return tree.kit_folder().parent / "rattle-kept"


def can_keep():
    """Whether the kit may write there."""
    return os.access(store() if store().exists() else store().parent, os.W_OK)


def may_be_kept(crates):
    """Whether the kit has kept a library of one of these names, of this text or of another: it alone can tell."""
    libraries = {crate.name for crate in crates.values() if not crate.is_program}
    with suppress(OSError):
        entries = map(KEPT_ENTRY.match, os.listdir(store()))
        return any(entry and entry[1] in libraries for entry in entries)
    return False


class Told:
    """What is told of a build: its log, and a line a crate as it ends, once, whichever run it was of."""

    def __init__(self, crates, log):
        self.crates, self.log, self.names, self.began = crates, log, set(), time.monotonic()
        self.screen = proving.Screen(len(crates))

    def seconds(self):
        return time.monotonic() - self.began

    def crate(self, name, said):
        if name not in self.names:
            self.names.add(name)
            self.screen.crate(self.crates[name], said, "after %5d s" % self.seconds())

    def left(self):
        """The crates that haven't ended."""
        return [name for name in self.crates if name not in self.names]


class Gate:
    """A run of the kit's gate over the copy."""

    def __init__(self, told, words):
        self.told, self.has_no_words = told, False
        # in a group of its own, so that all its processes are ended together
        self.process = subprocess.Popen(
            ["rt", "ci", *words],
            cwd=COPY,
            stdin=subprocess.DEVNULL,
            stdout=subprocess.PIPE,
            stderr=subprocess.STDOUT,
            start_new_session=True,
            preexec_fn=proving.as_a_child,
        )

    def lines(self):
        """The lines that the kit prints, and None for each second in which it prints none."""
        held, out = b"", self.process.stdout.fileno()
        while True:
            if not select.select([out], [], [], 1)[0]:
                yield None
                continue
            data = os.read(out, 1 << 16)
            *whole, held = (held + data).split(b"\n")
            yield from (line.decode(errors="replace") + "\n" for line in whole)
            if not data:
                return

    def follow(self, is_first=False):
        """Shows each crate as it ends, and says whether all are proved; None where the first run has taken what is kept, and several crates are left."""
        told, said, silent = self.told, [], 0
        for line in self.lines():
            if line is None:
                silent += 1
                if is_first and silent >= SILENT and len(told.left()) > 1:
                    return None
                told.screen.live(
                    "proving: %d of %d crates have ended, %d s"
                    % (told.screen.ended, told.screen.count, told.seconds())
                )
                continue
            told.log.write(line)
            told.log.flush()
            said, silent = [] if line.startswith("== ") else said + [line], 0
            ended = ENDED.match(line)
            if ended and ended[2] == "NOT PROVED":
                told.screen.failed(told.crates[ended[1]], "".join(said), told.log.name)
                return False
            if ended:
                told.crate(ended[1], "".join(said))
        if self.process.wait() and not self.is_refused(said):
            told.screen.line(
                "the kit's gate failed; the end of %s:\n\n%s" % (told.log.name, "".join(said[-40:]))
            )
        return self.process.returncode == 0

    def is_refused(self, said):
        """Whether the kit's gate takes no such words."""
        self.has_no_words = "".join(said[:1]).startswith(REFUSES)
        return self.has_no_words

    def stop(self):
        """Ends what is still at work."""
        for number in (signal.SIGTERM, signal.SIGKILL):
            with suppress(OSError):  # none is left
                os.killpg(self.process.pid, number)
            with suppress(subprocess.TimeoutExpired):
                self.process.wait(PATIENCE)
        self.process.stdout.close()


class LibraryRun(proving.Work):
    """A run of the kit's gate for one library, which it keeps. It works on a copy of its own, among its temporary files."""

    def __init__(self, crate, jobs, is_urgent):
        super().__init__(crate, jobs, is_urgent, RUNS)

    def begin(self):
        self.room.mkdir(parents=True)
        # without RT_JOBS the kit itself halves the processors
        fixed = {} if self.jobs > 1 else {"RT_JOBS": "1"}
        self.start(["ci", self.crate.name], COPY, dict(os.environ, TMPDIR=str(self.room), **fixed))

    def is_refused(self):
        """Whether it has ended since the kit's gate takes no names."""
        is_over = self.process.poll() not in (None, 0)
        return is_over and (self.room / "said").read_bytes().startswith(REFUSES.encode())

    def end(self):
        """The text that the kit printed, and whether all is proved."""
        said = self.text()
        shutil.rmtree(self.room, ignore_errors=True)
        return said, self.process.returncode == 0


class LibraryRuns(proving.Run):
    """The libraries that haven't ended, each by a run of its own once those below it have ended."""

    def __init__(self, told):
        left = [told.crates[name] for name in told.left()]
        super().__init__(
            {crate.name: crate for crate in left if not crate.is_program}, told.log, told.screen
        )
        self.told, self.done, self.keeps = told, set(told.names), True

    def proof_of(self, crate):
        longest = max(it.chain for it in self.waiting + [run.crate for run in self.running])
        is_urgent = crate.chain >= NEAR * longest
        if not proving.has_place(is_urgent, self.running, self.host, 0):
            return None
        return LibraryRun(
            crate, min(MOST_JOBS, self.host.processors // 2) if is_urgent else 1, is_urgent
        )

    def tell(self, run, said):
        self.told.crate(run.crate.name, said)
        self.keeps = self.keeps and KEPT in said

    def take_ended(self):
        """As for proofs; but where the kit's gate takes no names, nothing has failed, and the last run proves all."""
        if any(run.is_refused() for run in self.running):
            self.keeps = False
            return True
        return super().take_ended()

    def goes_on(self):
        """Where the kit keeps nothing, as on a full disk, the run of a crate would prove again all below it: the last run proves the rest."""
        return self.keeps and super().goes_on()


class Build:
    """The runs of the kit's gate that prove all crates: what is told of them, and which is at work."""

    def __init__(self, crates, log, words):
        self.told, self.words, self.at_work = Told(crates, log), words, []

    def gate(self, is_first=False):
        with proving.unbroken():  # so that no run is begun that isn't known here
            self.at_work.append(Gate(self.told, self.words))
        is_proved = self.at_work[-1].follow(is_first)
        if self.words and self.at_work[-1].has_no_words:
            self.words = []  # a kit that knows no `--anew` has kept nothing
            return self.gate()
        return is_proved

    def is_side_by_side(self):
        """Whether each library gets a run of its own: not where nothing kept may be taken, where somebody has set the number of processes, where
        the kit refuses names, or where it can't keep anything."""
        is_free = not os.environ.get("RT_JOBS") and os.environ.get("CI") != "true"
        return proving.Host().processors >= PROCESSORS and not self.words and is_free and can_keep()

    def libraries(self):
        """Proves the libraries that haven't ended, each by a run of its own, and says whether none of them failed."""
        proving.weigh(self.told.crates)
        self.at_work.append(LibraryRuns(self.told))
        is_proved = self.at_work[-1].all()
        self.stop()
        return is_proved

    def all(self):
        """Proves all crates, and says whether all are proved."""
        if not self.is_side_by_side():
            return self.gate()
        if may_be_kept(self.told.crates):
            is_proved = self.gate(is_first=True)
            if is_proved is not None:
                return is_proved
            self.stop()
        return self.libraries() and self.gate()

    def stop(self):
        """Ends what is at work."""
        while self.at_work:
            self.at_work[-1].stop()
            self.at_work.pop()


def prove(crates, log, words):
    """Proves all crates by the kit's gate with these words, and says whether all are proved.

    Where it is stopped, the crates that have ended are kept, and those at work begin anew.
    """
    tree.clear_rooms()
    copy_crates(crates)
    build = Build(crates, log, words)
    try:
        is_proved = build.all()
        if is_proved:
            take_what_was_made(crates)
        return is_proved
    finally:
        proving.take_no_signals()
        build.stop()
        proving.clear_away(build.told.screen)
