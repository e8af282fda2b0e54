"""Tries plans that are made up, each by the number from which it is."""
import os
from concurrent.futures import ThreadPoolExecutor


def each(wrong, count, program):
    """What is wrong of each of so many plans; "" of one that is right."""
    with ThreadPoolExecutor(len(os.sched_getaffinity(0))) as pool:
        return list(pool.map(lambda seed: wrong(program, seed), range(count)))


def counted(what, results):
    """Prints what is wrong, and gives how many were judged as they must be and how many not."""
    for place, line in enumerate(results):
        if line:
            print("%s %d: %s" % (what, place, line[:300]))
    failed = sum(map(bool, results))
    return len(results) - failed, failed


def difference(found, want, errors):
    """What a status and an output are in place of those that must come; "" where they are these and
    nothing was said beside them."""
    if found == want and not errors:
        return ""
    return "%s where %s must come: %s" % (found, want, errors)
