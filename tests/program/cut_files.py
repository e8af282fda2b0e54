"""Cuts certificates: each proper prefix of one, the empty one too, has to be answered as truncated."""
import os
import tempfile
from concurrent.futures import ThreadPoolExecutor
from pathlib import Path

from program.refused_calls import lay_out, run

CASES = Path(__file__).resolve().parents[1] / "cases"
ROWS = ("check/two_ore_blocks_share_one_waste_block", "check/prices_at_half")
TRUNCATED = (3, b"", b"fault: certificate Truncated\n")


def cut(program, row, length):
    """What is wrong with the answer to the first bytes of a case's certificate, or None."""
    with tempfile.TemporaryDirectory() as room:
        folder = Path(room)
        words = lay_out(CASES / row, folder)
        certificate = folder / words[-1]
        certificate.write_bytes(certificate.read_bytes()[:length])
        answer = run(program, words, folder)
    return None if answer == TRUNCATED else "%s cut to %d bytes: %r" % (row, length, answer)


def size_of(row):
    with tempfile.TemporaryDirectory() as room:
        folder = Path(room)
        return (folder / lay_out(CASES / row, folder)[-1]).stat().st_size


def try_all(program):
    """Tries each proper prefix of each certificate, and gives how many were answered as they must be and how many not."""
    tasks = [(row, length) for row in ROWS for length in range(size_of(row))]
    with ThreadPoolExecutor(len(os.sched_getaffinity(0))) as pool:
        wrong = list(filter(None, pool.map(lambda task: cut(program, *task), tasks)))
    for line in wrong[:5]:
        print(line)
    return len(tasks) - len(wrong), len(wrong)
