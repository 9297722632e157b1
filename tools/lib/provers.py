#!/usr/bin/env python3
"""How many proofs of `rt ci` go side by side: one a core, and no more than memory holds. By itself `rt ci` goes by the lines of a
crate, which say more memory than its proof takes, so that cores stay idle.

    RT_JOBS=$(tools/lib/provers.py) rt ci"""
import os
import re

# The most bytes that a proof was seen to take: 5.3 GB.
OF_A_PROOF = 5_500_000_000


def number_in(path, pattern):
    """The number that the pattern finds in a file, or None."""
    try:
        with open(path, encoding="utf-8") as file:
            found = re.search(pattern, file.read())
    except OSError:
        return None
    return int(found[1]) if found else None


def free_memory():
    """The bytes of memory that are free, also by the limit of a control group."""
    free = 1024 * number_in("/proc/meminfo", r"MemAvailable:\s+(\d+)")
    limit, held = (number_in(f"/sys/fs/cgroup/memory.{name}", r"^(\d+)$") for name in ("max", "current"))
    return free if limit is None or held is None else min(free, limit - held)


def free_cores():
    """The cores that this process may use, also by the quota of a control group."""
    cores = len(os.sched_getaffinity(0))
    quota, period = number_in("/sys/fs/cgroup/cpu.max", r"^(\d+) "), number_in("/sys/fs/cgroup/cpu.max", r" (\d+)$")
    return min(cores, max(1, quota // period)) if quota and period else cores


def provers():
    return max(1, min(free_cores(), free_memory() // OF_A_PROOF))


if __name__ == "__main__":
    print(provers())
