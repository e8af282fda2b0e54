"""The keeper leaves nothing: neither daemons nor mounts nor its folder, also where the test's own
process is killed."""
import os
import signal
import subprocess
import sys
from pathlib import Path

import pytest

from processes import gone, runs

WORK = """import os, signal, sys
sys.path.insert(0, {tests!r})
from keeper import Keeper
keeper = Keeper({folder!r})
daemon = keeper.done("sh", "-c", "setsid sh -c 'sleep 600 & echo $! > pid; exec sleep 600' > /dev/null 2>&1 & while [ ! -s pid ]; do sleep 0.05; done; cat pid")
if keeper.mounts:
    keeper.mount(keeper.folder / "disk", 64)
print(keeper.pid, daemon, flush=True)
{end}
"""


@pytest.mark.skipif(os.geteuid() != 0, reason="a keeper mounts, which only root may")
@pytest.mark.parametrize(
    "end, status",
    [
        ("os.kill(os.getpid(), signal.SIGKILL)", -signal.SIGKILL),
        ("keeper.end()", 0),
        ("raise KeyboardInterrupt", -signal.SIGINT),
    ],
)
def test_nothing_is_left(tmp_path, end, status):
    folder = tmp_path / "kept"
    text = WORK.format(tests=str(Path(__file__).parent), folder=str(folder), end=end)
    ran = subprocess.run([sys.executable, "-c", text], capture_output=True, text=True)
    assert ran.returncode == status, ran.stderr
    pids = ran.stdout.split()
    assert len(pids) == 2
    assert gone(pids)
    assert not any(map(runs, pids))
    assert not folder.exists()
    assert str(folder) not in Path("/proc/mounts").read_text()
