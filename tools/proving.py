"""Proves crates side by side, each in a folder of its own, and keeps the work from which later checks go on.

The kit lets one `rt` at a time into a crate and into all crates below it, so that two crates with a common library
would wait for each other. Each crate is therefore proved in a folder of its own, beside copies of what it depends on,
and its `out` is moved back once it is proved. These folders lie in `out/room`, on the file system of the tree, where a
copy shares its bytes and a move is a change of name.
"""
import ctypes
import os
import re
import shutil
import signal
import subprocess
import sys
import time
from contextlib import contextmanager, suppress
from pathlib import Path

import machine
import tree

JOB_MEMORY = 1_500_000_000
GROWS_FOR = 60  # the seconds in which a process that was just begun takes most of its memory
FEW_FUNCTIONS = 40
FUNCTION = re.compile(rb"^\s*(?:pub(?:\([^)]*\))? )?(?:ghost )?(?:const )?fn ", re.M)
STOPS = (signal.SIGINT, signal.SIGTERM, signal.SIGHUP)
DEATH_SIGNAL = 1  # prctl's PR_SET_PDEATHSIG
LIBC = ctypes.CDLL(None)


class Stopped(BaseException):
    """The build was told to stop, by this signal."""

    def __init__(self, number):
        super().__init__(number)
        self.number = number


def stop_by_signals():
    """Lets ctrl-C, SIGTERM and a terminal that is closed end the build by an exception, so that it clears its room away."""

    def stop(number, _frame):
        raise Stopped(number)

    for number in STOPS:
        if signal.getsignal(number) is not signal.SIG_IGN:  # nohup's SIGHUP stays ignored
            signal.signal(number, stop)


def take_no_signals():
    """Lets nothing more end the build, while it clears its room away."""
    for number in STOPS:
        signal.signal(number, signal.SIG_IGN)


@contextmanager
def unbroken():
    """Holds such signals back while something is half done."""
    before = signal.pthread_sigmask(signal.SIG_BLOCK, STOPS)
    try:
        yield
    finally:
        signal.pthread_sigmask(signal.SIG_SETMASK, before)


def as_a_child():
    """In a process that was just made: it takes signals again, and ends when the build does, however that ends."""
    signal.pthread_sigmask(signal.SIG_UNBLOCK, STOPS)
    LIBC.prctl(DEATH_SIGNAL, signal.SIGTERM)


def copied(source, target):
    """A copy that shares the bytes where the file system can."""
    try:
        os.link(source, target)
    except OSError:
        shutil.copy2(source, target)


def is_at_work(folder):
    """Whether a process works in this folder."""
    for entry in Path("/proc").glob("[0-9]*/cwd"):
        with suppress(OSError):
            if Path(folder) in [Path(os.readlink(entry)), *Path(os.readlink(entry)).parents]:
                return True
    return False


def sum_file(folder):
    """Where the sum lies that a library was built from. The kit removes it with the library."""
    return folder / "out" / "rlib" / "built-from"


def is_as_built(crate):
    """Whether the crate's library is there, built from what the crate and those below it are now."""
    file = sum_file(crate.folder)
    return file.exists() and file.read_text() == tree.digest([*crate.below.values(), crate])


def has_work(crates):
    """Whether a library is there that a build of this kind has left."""
    return any(sum_file(crate.folder).exists() for crate in crates.values())


def has_all_work(crates):
    """Whether every library is there, as such a build has left it."""
    return all(is_as_built(crate) for crate in crates.values() if not crate.is_program)


def weigh(crates):
    """Gives each crate `functions`, and `chain`: its lines of code and those of the longest chain of crates that wait for it. A goal that
    the prover has to find takes it longer than a proof that is written down, so lines of proofs don't count.
    """
    for crate in reversed(list(crates.values())):
        above = [it.chain for it in crates.values() if crate in it.uses]
        crate.chain = crate.lines_of_code() + max(above, default=0)
        crate.functions = sum(
            len(FUNCTION.findall(file.read_bytes()))
            for file in crate.files()
            if file.suffix == ".rt"
        )


class Work:
    """A process of the kit that proves a crate, in a room of its own, where also lies what it prints."""

    def __init__(self, crate, jobs, is_urgent, rooms=tree.ROOM):
        self.crate, self.began, self.room = crate, time.monotonic(), rooms / crate.name
        self.jobs, self.is_urgent = jobs, is_urgent

    def start(self, words, folder, around=None):
        """Starts the kit with these words in this folder, at a lower priority where not all waits for this crate."""
        self.said = open(self.room / "said", "w+b")
        self.process = subprocess.Popen(
            ([] if self.is_urgent else ["nice", "-n", "10"]) + ["rt", *words],
            cwd=folder,
            env=around,
            stdin=subprocess.DEVNULL,
            stdout=self.said,
            stderr=subprocess.STDOUT,
            preexec_fn=as_a_child,
        )

    def seconds(self):
        return round(time.monotonic() - self.began)

    def text(self):
        """What the kit printed."""
        self.said.seek(0)
        said = self.said.read().decode(errors="replace")
        self.said.close()
        return said

    def stop(self):
        """Ends the process, and those that it has started."""
        self.process.terminate()
        self.process.wait()
        until = time.monotonic() + 10
        while is_at_work(self.room) and time.monotonic() < until:
            time.sleep(0.1)
        self.said.close()


class Proof(Work):
    """A crate that is being proved, in a folder of its own."""

    def __init__(self, crate, jobs, is_urgent):
        super().__init__(crate, jobs, is_urgent)
        self.place()

    def place(self):
        self.folder = self.room / "crates" / self.crate.name
        wanted = [*self.crate.below.values(), self.crate]
        for crate in wanted:
            to = self.room / "crates" / crate.name
            to.mkdir(parents=True)
            for part in tree.PARTS:
                if (crate.folder / part).is_dir():
                    shutil.copytree(crate.folder / part, to / part)
            made = Path("out") if crate is self.crate else Path("out") / "rlib"
            if (crate.folder / made).is_dir():
                shutil.copytree(crate.folder / made, to / made, copy_function=copied)
        (self.room / "crates.txt").write_text("".join(crate.line + "\n" for crate in wanted))
        self.sum = tree.digest(wanted, self.room)

    def begin(self):
        jobs = ["--jobs", str(self.jobs)]
        self.start(
            ["run", *jobs, "--", "--help"] if self.crate.is_program else ["lib", *jobs], self.folder
        )

    def end(self):
        """Moves what was made back, and gives the text that the kit printed and whether all is proved."""
        said, is_proved = self.text(), self.process.returncode == 0
        if is_proved and not self.crate.is_program:
            sum_file(self.folder).unlink(missing_ok=True)  # it may be a link to another folder's
            sum_file(self.folder).write_text(self.sum)
        self.move_back("out" if is_proved else "out/incremental")
        shutil.rmtree(self.room, ignore_errors=True)
        return said, is_proved

    def stop(self):
        """Ends the proof, and keeps what it has proved so far: the crate's next proof goes on from there."""
        super().stop()
        self.move_back("out/incremental")

    def move_back(self, part):
        """Puts this part of the folder in place of the crate's own."""
        made, to, old = self.folder / part, self.crate.folder / part, self.room / "old"
        if not made.is_dir():
            return
        to.parent.mkdir(parents=True, exist_ok=True)
        with unbroken():
            if to.exists():
                to.rename(old)
            made.rename(to)
        shutil.rmtree(old, ignore_errors=True)


class Screen:
    """What is printed: lines as crates end, and on a terminal a last line with those that are being proved."""

    def __init__(self, count):
        self.count, self.ended, self.is_live, self.shown = count, 0, sys.stdout.isatty(), 0

    def line(self, text):
        self.clear()
        print(text, flush=True)

    def clear(self):
        if self.shown:
            sys.stdout.write("\r\033[K")
            self.shown = 0

    def live(self, text):
        if self.is_live:
            sys.stdout.write("\r\033[K" + text[: shutil.get_terminal_size().columns - 1])
            sys.stdout.flush()
            self.shown = 1

    def crate(self, crate, said="", time="    0 s"):
        self.ended += 1
        proved = re.findall(r"^logic=proved functions=(\d+)", said, re.M)
        what = "%4s functions proved" % proved[-1] if proved else "   as it was proved    "
        self.line("[%2d/%d] %-16s %s %s" % (self.ended, self.count, crate.name, what, time))

    def failed(self, crate, said, log):
        self.line("%s NOT PROVED; the end of %s:\n" % (crate.name, log))
        self.line("\n".join(said.splitlines()[-40:]))


class Host:
    """What the machine has for the proofs: its processors, and the memory that isn't taken or about to be."""

    def __init__(self):
        self.processors = machine.processors()

    def jobs_of_memory(self, running):
        """For how many processes there is memory, once those that were begun a moment ago have taken theirs."""
        growing = sum(it.jobs for it in running if it.seconds() < GROWS_FOR)
        return int(machine.free_memory() // JOB_MEMORY) - growing


def has_place(is_urgent, running, host, more):
    """Whether one more crate may begin: where there is memory, and, unless all waits for it, fewer than so many more processes than processors."""
    has_memory = host.jobs_of_memory(running) >= 2
    return (
        not running
        or has_memory
        and (is_urgent or sum(proof.jobs for proof in running) < host.processors + more)
    )


def jobs_for(crate, waiting, running, host):
    """How many processes prove the crate, and whether it is of the longest chain, on which all waits. No process while it has to wait.

    A crate of the longest chain gets as many as there are processors; the others use, at a lower priority, what it leaves.
    A crate of few functions gets one: several would each read all that it stands on, and take longer than one does.
    """
    longest = max(it.chain for it in waiting + [proof.crate for proof in running])
    is_urgent = crate.chain >= longest
    if not has_place(is_urgent, running, host, 2):
        return 0, False
    room = host.jobs_of_memory(running)
    jobs = (
        1
        if crate.functions < FEW_FUNCTIONS
        else 4
        if is_urgent
        else 2
        if 2 * crate.chain > longest
        else 1
    )
    return (
        max(1, min(jobs, host.processors if is_urgent else (host.processors + 1) // 2, room)),
        is_urgent,
    )


class Run:
    """The proof of crates side by side: which wait, which are at work, which are done."""

    def __init__(self, crates, log, screen):
        self.log, self.host, self.screen = log, Host(), screen
        self.waiting = sorted(crates.values(), key=lambda it: -it.chain)
        self.running, self.done = [], set()

    def proof_of(self, crate):
        """The proof of a crate that could begin, or None while it has to wait."""
        jobs, is_urgent = jobs_for(crate, self.waiting, self.running, self.host)
        return Proof(crate, jobs, is_urgent) if jobs else None

    def tell(self, proof, said):
        """Says that a crate is proved."""
        self.screen.crate(proof.crate, said, "%5d s" % proof.seconds())

    def begin_some(self):
        for crate in [it for it in self.waiting if self.done.issuperset(it.below)]:
            proof = self.proof_of(crate)
            if proof:
                self.waiting.remove(crate)
                with unbroken():  # so that no process is begun that isn't known here
                    proof.begin()
                    self.running.append(proof)

    def take_ended(self):
        """Takes the proofs that have ended, and says whether each was well."""
        for proof in [it for it in self.running if it.process.poll() is not None]:
            self.running.remove(proof)
            said, is_proved = proof.end()
            self.log.write("== %s\n%s" % (proof.crate.name, said))
            self.log.flush()
            if not is_proved:
                self.screen.failed(proof.crate, said, self.log.name)
                return False
            self.done.add(proof.crate.name)
            self.tell(proof, said)
        return True

    def stop(self):
        """Ends what is at work, all at once, and waits for each."""
        for proof in self.running:
            proof.process.terminate()
        for proof in self.running:
            proof.stop()
        self.running = []

    def goes_on(self):
        """Whether there is more to prove, or to wait for."""
        return bool(self.waiting or self.running)

    def pass_over(self):
        """Passes over the libraries that are as they were built."""
        for crate in [it for it in self.waiting if is_as_built(it)]:
            self.waiting.remove(crate)
            self.done.add(crate.name)
            self.log.write("== %s\nas it was proved\n" % crate.name)
            self.screen.crate(crate)

    def all(self):
        """Proves all, and says whether all are proved; no other crate begins once one isn't."""
        while self.goes_on():
            self.begin_some()
            if not self.take_ended():
                return False
            self.screen.live(
                "proving "
                + ", ".join("%s %d s" % (it.crate.name, it.seconds()) for it in self.running)
            )
            time.sleep(0.2)
        return True


def clear_away(screen):
    """Removes the room, and the last line of the terminal, once nothing is at work there."""
    shutil.rmtree(tree.ROOM, ignore_errors=True)
    with suppress(OSError):  # the terminal may be gone
        screen.clear()


def prove(crates, log):
    """Proves all crates, the longest chain first, and says whether all are proved.

    Where one isn't, or where the build is told to stop, those at work are ended, and what each of them has proved is kept.
    """
    weigh(crates)
    tree.clear_rooms()
    tree.ROOM.mkdir(parents=True)
    run = Run(crates, log, Screen(len(crates)))
    try:
        run.pass_over()
        return run.all()
    finally:
        take_no_signals()
        run.stop()
        clear_away(run.screen)
