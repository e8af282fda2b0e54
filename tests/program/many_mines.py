"""Many made-up mines, tried on all processors."""
import os
from concurrent.futures import ThreadPoolExecutor


def tried(kind, wrong, mines):
    """Tries every mine, of which `wrong` says by its seed what is wrong or nothing; gives how many were answered as they must
    be and how many not."""
    with ThreadPoolExecutor(len(os.sched_getaffinity(0))) as pool:
        results = list(pool.map(wrong, range(mines)))
    for seed, line in enumerate(results):
        if line:
            print("mine of %s %d: %s" % (kind, seed, line[:300]))
    failed = sum(map(bool, results))
    return mines - failed, failed
