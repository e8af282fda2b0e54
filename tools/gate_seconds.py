"""What the gate costs in processor seconds: those of the kit's processes below this one, by crate and by kind of work.

The budget (docs/ASSURANCE.md) is in the seconds of a machine on which the proofs of REFERENCE take REFERENCE_SECONDS.
The processes are looked at every half second, so that what a process does in its last moments isn't counted: the sums are some
percent too low. What others run meanwhile isn't counted, but makes each second do less.
"""
import os
import threading
import time

TICK = os.sysconf("SC_CLK_TCK")
KINDS = ("proof", "tests", "edits", "by function")
# The folders in which edits are tried: by the kit, over a proof of their whole crate, and by tests/edits/must_fail.py, by a check of their function.
ROOMS = {"rt-edit-": "edits", "pit-edit-": "by function"}


def words_of(pid):
    try:
        with open("/proc/%d/cmdline" % pid, "rb") as it:
            return it.read().decode(errors="replace").split("\0")
    except OSError:
        return []


def task_of(pid):
    """The crate and the kind of work of a process of the prover, or None."""
    words = words_of(pid)
    if "--crate-name" not in words:
        return None
    try:
        room = os.path.basename(os.readlink("/proc/%d/cwd" % pid))
    except OSError:
        return None
    of_edit = [kind for begin, kind in ROOMS.items() if room.startswith(begin)]
    return (
        words[words.index("--crate-name") + 1],
        of_edit[0] if of_edit else "tests" if "--test" in words else "proof",
    )


def processes():
    """Each process: its parent and its own processor seconds."""
    found = {}
    for name in filter(str.isdigit, os.listdir("/proc")):
        try:
            with open("/proc/%s/stat" % name) as it:
                fields = it.read().rpartition(")")[2].split()
        except OSError:
            continue
        found[int(name)] = int(fields[1]), (int(fields[11]) + int(fields[12])) / TICK, fields[19]
    return found


class Watcher(threading.Thread):
    """Counts, within a `with`, what this process's own do."""

    def __init__(self):
        super().__init__(daemon=True)
        self.tasks, self.seconds, self.is_over = {}, {}, False
        self.own = {
            os.getpid()
        }  # this process and those below it; who is seen with a parent that isn't one never is

    def look(self):
        found = processes()
        for pid in sorted(found):
            parent, seconds, began = found[pid]
            key = pid, began
            if key not in self.tasks:
                above = found.get(parent)
                self.tasks[key] = None
                if parent in self.own:
                    self.own.add(pid)
                    self.tasks[key] = task_of(pid) or (
                        self.tasks.get((parent, above[2])) if above else None
                    )
            if self.tasks[key]:
                self.seconds[key] = seconds

    def run(self):
        while not self.is_over:
            self.look()
            time.sleep(0.5)

    def __enter__(self):
        self.start()
        return self

    def __exit__(self, *_):
        self.is_over = True
        self.join()

    def table(self):
        """The seconds by crate and kind."""
        rows = {}
        for key, seconds in self.seconds.items():
            crate, kind = self.tasks[key]
            rows.setdefault(crate, dict.fromkeys(KINDS, 0.0))[kind] += seconds
        return rows


# What the budget's machine takes for the proofs of these.
REFERENCE = ("ordered_group", "closure_net", "boards", "workers", "async_step")
REFERENCE_SECONDS = 371
# How many of the costliest are told.
COSTLIEST = 8


def summary(seconds, clock):
    """The lines that tell what the gate cost, of the processor seconds by crate and kind (`Watcher.table`) and those that passed.

    Where not all of REFERENCE was proved anew, nothing is said in the budget's seconds: the machine's speed isn't known.
    """
    sums = {kind: sum(of_crate[kind] for of_crate in seconds.values()) for kind in KINDS}
    lines = [
        "cost of the kit's part: %.0f processor seconds, %.0f s by the clock"
        % (sum(sums.values()), clock)
    ]
    proofs = {crate: of_crate["proof"] for crate, of_crate in seconds.items()}
    if not all(proofs.get(crate) for crate in REFERENCE):
        return lines + ["not all was proved anew, so that the budget's seconds aren't known"]
    factor = sum(proofs[crate] for crate in REFERENCE) / REFERENCE_SECONDS
    parts = ", ".join("%s %.0f" % (kind, of_kind / factor) for kind, of_kind in sums.items())
    lines.append(
        "in the budget's seconds, %.2f of these each: %.0f (%s)"
        % (factor, sum(sums.values()) / factor, parts)
    )
    whole = {crate: sum(of_crate.values()) / factor for crate, of_crate in seconds.items()}
    costliest = sorted(whole, key=whole.get, reverse=True)[:COSTLIEST]
    return lines + [
        "the costliest: " + ", ".join("%s %.0f" % (crate, whole[crate]) for crate in costliest)
    ]
