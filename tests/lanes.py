#!/usr/bin/env python3
"""How many proofs run at once: one a processor, where memory holds so many.

A proof takes 1 to 2.5 GB here, and `rt ci` plans for 3 to 11, so that on a machine with little memory it keeps processors idle. Where less is free than it
would plan for, this prints the number to set as RT_JOBS, by which it looks at no memory. Else, and where RT_JOBS is set, it prints nothing.
Usage: lanes.py
"""
import os
import re

PLANNED, TAKEN = 8_000_000_000, 3_000_000_000
LIMITS = [
    ("/sys/fs/cgroup/memory.max", "/sys/fs/cgroup/memory.stat", r"anon (\d+)"),
    ("/sys/fs/cgroup/memory/memory.limit_in_bytes", "/sys/fs/cgroup/memory/memory.stat", r"total_rss (\d+)"),
]


def number_in(path, pattern):
    try:
        with open(path, encoding="utf-8") as file:
            found = re.search(pattern, file.read())
    except OSError:
        return None
    return None if found is None else int(found.group(1))


def processors():
    """The processors that this process may use, by its group's quota of time too."""
    count = len(os.sched_getaffinity(0))
    quota, period = (number_in("/sys/fs/cgroup/cpu.max", pattern) for pattern in (r"^(\d+) ", r" (\d+)"))
    return max(min(count, quota // period), 1) if quota and period else count


def free_memory():
    """The bytes of memory that are free, under the limit of the process's group too."""
    free = [1024 * (number_in("/proc/meminfo", r"MemAvailable:\s+(\d+)") or 0)]
    for limit, held, pattern in LIMITS:
        most, taken = number_in(limit, r"^(\d+)"), number_in(held, pattern)
        if most is not None and taken is not None:
            free.append(most - taken)
    return min(free)


def lanes():
    """How many proofs to run at once."""
    asked = os.environ.get("RT_JOBS", "")
    return int(asked) if re.fullmatch("[1-9][0-9]*", asked) else max(min(processors(), free_memory() // TAKEN), 1)


if __name__ == "__main__":
    if not os.environ.get("RT_JOBS") and free_memory() < PLANNED * processors():
        print(lanes())
