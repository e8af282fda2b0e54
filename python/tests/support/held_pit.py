"""A `pit` that is held in the middle of its work, and a study of twelve tasks to hold it in."""
import shutil
import threading

import pitplan as pp
from pitplan.plans import risk
from pitplan.tasks.tasks import Tasks, wanted
from processes import waited_for

# pit, but a solve leaves a line of its process, and waits while a file is there, unless it is among as many as that file says
HELD = r"""#!/bin/sh
case "$1" in solve)
    echo $$ >> {marks}
    mine=$(grep -n "^$$\$" {marks} | tail -1 | cut -d: -f1)
    while [ -e {hold} ] && [ "$mine" -gt "$(cat {hold})" ] 2> /dev/null; do sleep 0.25; done;;
esac
exec {pit} "$@"
"""


class Held:
    """A `pit` whose solves are held after the first few, until they are let go."""

    def __init__(self, folder, pit, first):
        self.path, self.marks, self.hold = (folder / name for name in ("held-pit", "marks", "hold"))
        self.path.write_text(HELD.format(marks=self.marks, hold=self.hold, pit=pit))
        self.path.chmod(0o755)
        self.hold.write_text(f"{first}\n")

    def solvers(self, count=0):
        """The processes that have begun to solve, once there are so many."""
        return list(map(int, waited_for(self.marks, count)))

    def let_go(self):
        self.hold.unlink(missing_ok=True)


def twelve(asked_for, folder):
    """A copy of that study, in a folder with a space."""
    return pp.Study(shutil.copytree(asked_for, folder / "my mine"))


def all_done(study):
    tasks = wanted(study, [1000])
    assert len(tasks) == 12
    assert not Tasks(study.folder).left(tasks)
    assert not list(study.folder.glob("runs/*/.*"))
    assert risk.Risk(study).count == 11


def in_background(work, *words):
    """A thread that works, and a list that gets what comes of it."""
    found = []
    thread = threading.Thread(target=lambda: found.append(work(*words)), daemon=True)
    thread.start()
    return thread, found
