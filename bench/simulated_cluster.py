"""A cluster that works through tasks, second by second: nodes with cores and memory, a shared disk, and what nodes keep of its files."""
from __future__ import annotations

from dataclasses import dataclass, field


@dataclass(frozen=True)
class Cluster:
    """Nodes that are alike, and a disk that all of them share.

    Attributes
    ----------
    system_mb : float
        Of a node's memory, that its system keeps.
    disk_mb_s : float
        That the disk sends, all nodes together.
    slower : float
        Times the processor seconds of a task alone, where a node is full of them.
    keeps : bool
        Whether a node keeps in memory what it has read of the disk, where there is room.
    """

    nodes: int = 5
    cores: int = 16
    memory_mb: float = 64_000
    system_mb: float = 2_000
    disk_mb_s: float = 500
    slower: float = 1.3
    keeps: bool = True


@dataclass(frozen=True)
class Work:
    """Tasks that are alike: so many pits each, one after the other.

    Attributes
    ----------
    begin_s, pit_s : float
        Processor seconds before the first pit, and for each.
    asked_mb, held_mb : float
        Memory that the scheduler is asked for, and that a task holds.
    files_mb : float
        Of the shared disk, that every task reads; a node that has room for them keeps them.
    own_mb : float
        That each task reads for itself.
    pit_mb : float
        Of `files_mb`, read for each pit.
    kept_mb : float
        That each pit leaves on the shared disk.
    """

    tasks: int
    pits: int
    begin_s: float
    pit_s: float
    asked_mb: float
    held_mb: float
    files_mb: float
    own_mb: float
    pit_mb: float
    kept_mb: float


@dataclass
class Task:
    """What is left of a task: pits, megabytes of the shared disk, processor seconds."""

    pits: int
    megabytes: float = 0.0
    seconds: float = 0.0


@dataclass
class Node:
    """What runs on a node, and whether it has read the files that all tasks share."""

    is_up: bool = True
    is_warm: bool = False
    running: list[Task] = field(default_factory=list)


@dataclass
class Outcome:
    hours: float
    at_once: int
    disk_gb: float
    lost_pits: int


def simulated(work: Work, cluster: Cluster, dies_at: float | None = None) -> Outcome:
    """How long the tasks take. At `dies_at` seconds one node is gone for good; what ran there begins again elsewhere two minutes
    later, without the pits that it had made.

    Raises
    ------
    ValueError
        Where no task fits on a node.
    """
    room = cluster.memory_mb - cluster.system_mb
    most = int(min(cluster.cores, room // work.asked_mb))
    if not most:
        raise ValueError("a node has less memory than is asked for a task")
    keeps = cluster.keeps and room - most * work.held_mb >= work.files_mb
    waiting = [Task(work.pits) for _ in range(work.tasks)]
    later: list[Task] = []
    nodes = [Node() for _ in range(cluster.nodes)]
    now, disk, lost = 0, 0.0, 0
    while waiting or later or any(node.running for node in nodes):
        if dies_at is not None and now == int(dies_at):
            nodes[0].is_up, later, nodes[0].running = False, nodes[0].running, []
            lost += len(later)
        if dies_at is not None and now == int(dies_at) + 120:
            waiting, later = waiting + later, []
        for node in sorted(
            (node for node in nodes if node.is_up), key=lambda node: len(node.running)
        ):
            while waiting and len(node.running) < most:
                begin(node, waiting.pop(0), work, keeps)
        disk += second(nodes, work, cluster, keeps)
        now += 1
    return Outcome(
        now / 3600,
        most * cluster.nodes,
        (disk + work.tasks * work.pits * work.kept_mb) / 1000,
        lost,
    )


def begin(node: Node, task: Task, work: Work, keeps: bool) -> None:
    """A task begins on a node."""
    task.megabytes = work.own_mb + (0.0 if keeps and node.is_warm else work.files_mb)
    task.seconds = work.begin_s + work.pit_s
    node.is_warm = True
    node.running.append(task)


def second(nodes: list[Node], work: Work, cluster: Cluster, keeps: bool) -> float:
    """All that runs goes on for a second: first what it reads, then what it computes. How many megabytes the disk sent."""
    reading = sum(task.megabytes > 0 for node in nodes for task in node.running)
    sent = 0.0
    for node in nodes:
        for task in list(node.running):
            if task.megabytes > 0:
                part = min(task.megabytes, cluster.disk_mb_s / reading)
                task.megabytes, sent = task.megabytes - part, sent + part
                continue
            task.seconds -= 1 / cluster.slower
            if task.seconds <= 0:
                task.pits -= 1
                task.seconds += work.pit_s
                task.megabytes = 0.0 if keeps else work.pit_mb
            if not task.pits:
                node.running.remove(task)
    return sent
