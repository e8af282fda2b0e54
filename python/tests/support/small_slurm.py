"""A one-node Slurm on loopback, with a key, ports and a folder of its own, without systemd; a
keeper ends all of it."""
import os
import shutil
import socket
import time
from pathlib import Path

from keeper import Keeper
from processes import kill_all

NEEDED = ("munged", "slurmctld", "slurmd", "sbatch", "squeue", "scontrol", "sinfo")
PATH = os.environ["PATH"] + ":/usr/sbin:/sbin"
HOST = os.uname().nodename
CONF = """ClusterName=trial
SlurmctldHost={host}(127.0.0.1)
AuthType=auth/munge
AuthInfo=socket={folder}/munge.socket
SlurmUser=root
SlurmdUser=root
SlurmctldPort={port1}
SlurmdPort={port2}
StateSaveLocation={folder}/state
SlurmdSpoolDir={folder}/spool
SlurmctldPidFile={folder}/slurmctld.pid
SlurmdPidFile={folder}/slurmd.pid
SlurmctldLogFile={folder}/slurmctld.log
SlurmdLogFile={folder}/slurmd.log
ProctrackType=proctrack/linuxproc
TaskPlugin=task/none
MpiDefault=none
SelectType=select/cons_tres
SelectTypeParameters=CR_Core_Memory
ReturnToService=2
SchedulerParameters=sched_interval=1,bf_interval=1
JobRequeue=1
MessageTimeout=60
SlurmdTimeout=120
SlurmdParameters=config_overrides
NodeName={host} NodeAddr=127.0.0.1 CPUs={at_once} RealMemory=4000 State=UNKNOWN
PartitionName=day Nodes={host} Default=YES MaxTime=INFINITE State=UP
"""


def why_not():
    """Why no Slurm can be started here, None where it can. Raises where what it needs isn't
    installed."""
    if os.geteuid() != 0:
        return "a Slurm of one's own is started by root alone"
    lacking = [name for name in NEEDED if shutil.which(name, path=PATH) is None]
    assert (
        not lacking
    ), f"not installed: {', '.join(lacking)}; python/packages has what these tests need"
    return None


def free_port():
    with socket.socket() as s:
        s.bind(("127.0.0.1", 0))
        return s.getsockname()[1]


class Slurm:
    """A Slurm of one node that runs so many tasks at a time.

    Attributes
    ----------
    env : dict
        The environment of its commands.
    """

    def __init__(self, folder, at_once=2):
        self.folder = Path(folder)
        for name in ("state", "spool", "tmp"):
            (self.folder / name).mkdir(parents=True)
        self.folder.chmod(0o755)
        (self.folder / "munge.key").write_bytes(os.urandom(1024))
        (self.folder / "munge.key").chmod(0o400)
        self.conf = self.folder / "slurm.conf"
        self.conf.write_text(
            CONF.format(
                host=HOST, folder=self.folder, port1=free_port(), port2=free_port(), at_once=at_once
            )
        )
        self.env = {
            **os.environ,
            "SLURM_CONF": str(self.conf),
            "PATH": PATH,
            "TMPDIR": str(self.folder / "tmp"),
        }
        self.keeper = Keeper(self.folder)
        f = self.folder
        try:
            self.run(
                "munged",
                f"--key-file={f}/munge.key",
                f"--socket={f}/munge.socket",
                f"--pid-file={f}/munged.pid",
                f"--log-file={f}/munged.log",
                f"--seed-file={f}/munge.seed",
                "--force",
            )
            self.run("slurmctld", "-f", self.conf)
            self.start_node()
            self.until(
                lambda: "idle" in self.said("sinfo", "-h", "-o", "%T"), "the node never came up"
            )
        except BaseException:
            self.stop()
            raise

    def run(self, *words):
        return self.keeper.done(*words, env=self.env)

    def said(self, *words):
        return self.keeper.said(*words, env=self.env)[1]

    def start_node(self):
        self.run("slurmd", "-f", self.conf, "-N", HOST)

    def until(self, is_so, words, seconds=600):
        for _ in range(seconds * 4):
            if is_so():
                return
            time.sleep(0.25)
        raise AssertionError(
            words
            + "\n"
            + self.said("squeue")
            + self.said("sinfo")
            + (self.folder / "slurmctld.log").read_text()[-3000:]
        )

    def is_empty(self):
        """Whether no job is left; those that wait because they were requeued are started now, which
        Slurm lets wait for two minutes."""
        for index in self.said(
            "squeue", "-h", "-r", "-t", "PENDING", "-o", "%F_%K %r"
        ).splitlines():
            if index.split()[-1] == "BeginTime":
                self.said("scontrol", "update", f"JobId={index.split()[0]}", "StartTime=now")
        status, out, _ = self.keeper.said("squeue", "-h", env=self.env)
        return status == 0 and not out.strip()

    def pid(self, name):
        return int((self.folder / f"{name}.pid").read_text())

    def kill_node(self):
        """All of the node at once: its daemon, the watchers, the tasks."""
        kill_all(self.keeper.pid, but=(self.pid("munged"), self.pid("slurmctld")))
        (self.folder / "slurmd.pid").unlink(missing_ok=True)
        self.run("scontrol", "update", f"NodeName={HOST}", "State=DOWN", "Reason=trial")

    def bring_node_back(self):
        self.start_node()
        self.said("scontrol", "update", f"NodeName={HOST}", "State=RESUME")

    def stop(self):
        self.keeper.end()
