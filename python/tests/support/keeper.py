"""A process that starts others for a test and ends all of them, with whatever those have started,
when the test ends, however it ends.

Daemons that leave their parent come beneath it (PR_SET_CHILD_SUBREAPER), and its mounts are its own
and end with it. Each line of its standard input is a command, [words, environment] in JSON,
answered by a line: [status, output, errors]. Where its input ends, as it does when the test's
process is killed too, it kills all that is beneath it, takes its folder away, and ends.
"""
import ctypes
import json
import os
import shutil
import subprocess
import sys
import tempfile
from pathlib import Path

from processes import kill_all

SUBREAPER = 36  # prctl's PR_SET_CHILD_SUBREAPER


class Keeper:
    """A keeper of a folder, for root alone.

    Attributes
    ----------
    mounts : bool
        Whether it may mount: then what it mounts is seen by its own processes alone.
    pid : int
    """

    def __init__(self, folder):
        self.folder = Path(folder)
        self.folder.mkdir(parents=True, exist_ok=True)
        self.mounts = (
            subprocess.run(["unshare", "--mount", "true"], capture_output=True).returncode == 0
        )
        apart = ["unshare", "--mount", "--propagation", "private"] if self.mounts else []
        self.process = subprocess.Popen(
            [*apart, sys.executable, __file__, str(folder)],
            stdin=subprocess.PIPE,
            stdout=subprocess.PIPE,
            text=True,
            start_new_session=True,
        )
        self.pid = self.process.pid

    def said(self, *words, env=None):
        """Status, output and errors of a command."""
        self.process.stdin.write(json.dumps([list(map(str, words)), env]) + "\n")
        self.process.stdin.flush()
        return json.loads(self.process.stdout.readline())

    def done(self, *words, env=None):
        """The output of a command that has to end well."""
        status, out, errors = self.said(*words, env=env)
        assert status == 0, (words, status, out, errors)
        return out

    def mount(self, folder, kilobytes):
        """A disk of so little room on a folder."""
        folder.mkdir(exist_ok=True)
        self.done("mount", "-t", "tmpfs", "-o", f"size={kilobytes}k", "tmpfs", folder)

    def fill(self, folder):
        status, _, errors = self.said("dd", "if=/dev/zero", f"of={folder / 'ballast'}", "bs=4k")
        assert status, errors
        assert "No space left" in errors, errors

    def widen(self, folder):
        """Takes away what fills such a disk, where something does, and makes it a larger one."""
        self.done("rm", "-f", folder / "ballast")
        self.done("mount", "-o", "remount,size=8m", folder)

    def end(self):
        self.process.stdin.close()
        self.process.wait()
        self.process.stdout.close()

    def __enter__(self):
        return self

    def __exit__(self, *why):
        self.end()


def serve(folder):
    """The keeper's own side."""
    ctypes.CDLL(None).prctl(SUBREAPER, 1, 0, 0, 0)
    try:
        for line in sys.stdin:
            words, env = json.loads(line)
            with tempfile.TemporaryFile() as out, tempfile.TemporaryFile() as errors:  # files: a daemon may keep them open
                status = subprocess.run(
                    words, env=env, cwd=folder, stdin=subprocess.DEVNULL, stdout=out, stderr=errors
                ).returncode
                texts = [
                    (file.seek(0), file.read().decode(errors="replace"))[1]
                    for file in (out, errors)
                ]
            print(json.dumps([status, *texts]), flush=True)
            reap()
    finally:
        kill_all(os.getpid())
        reap()
        os.chdir("/")
        for place in [
            line.split()[1]
            for line in Path("/proc/mounts").read_text().splitlines()
            if line.split()[1].startswith(f"{folder}/")
        ]:
            subprocess.run(["umount", "--lazy", place])  # else its folder can't be taken away
        shutil.rmtree(folder, ignore_errors=True)


def reap():
    """Takes in the ends of those that came beneath this process."""
    try:
        while os.waitpid(-1, os.WNOHANG)[0]:
            pass
    except ChildProcessError:
        pass


if __name__ == "__main__":
    serve(sys.argv[1])
