"""How many processors this script may use: those that it may run on, or fewer by the limit of a container."""

import os
import re

# By the version of control groups: the files of a group that have its limit and the time that this is of, in one word each.
FILES = {2: (("cpu.max", r"\A(\d+)"), ("cpu.max", r"(\d+)\s*\Z")), 1: (("cpu.cfs_quota_us", r"\A(\d+)"), ("cpu.cfs_period_us", r"\A(\d+)"))}


def number_in(path, pattern):
    try:
        with open(path, encoding="utf-8", errors="replace") as file:
            found = re.search(pattern, file.read())
    except OSError:
        return None
    return int(found[1]) if found else None


def groups(root):
    """Yields the folders of the control groups that may limit processors, with their version: a process's own, and all above it."""
    try:
        with open(f"{root}/proc/self/cgroup", encoding="utf-8", errors="replace") as file:
            lines = [it.split(":", 2) for it in file.read().splitlines() if it.count(":") >= 2]
    except OSError:
        return
    for _, kinds, path in lines:
        parts = [it for it in path.split("/") if it not in ("", "..")]
        tops = [f"{root}/sys/fs/cgroup/{it}" for it in (kinds, "cpu")] if kinds else [f"{root}/sys/fs/cgroup"]
        if not kinds or "cpu" in kinds.split(","):
            yield from (("/".join([top, *parts[:count]]), 1 if kinds else 2) for top in tops for count in range(len(parts) + 1))


def quota(folder, version):
    """Returns the processors that a control group may use, or nothing where it isn't limited."""
    limit, period = (number_in(f"{folder}/{name}", pattern) for name, pattern in FILES[version])
    return max(1, limit // period) if limit and period else None


def processors(root=""):
    """Returns how many programs may run side by side, at least one."""
    count = len(os.sched_getaffinity(0)) if hasattr(os, "sched_getaffinity") else os.cpu_count() or 1
    return max(1, min([count, *(it for it in (quota(*each) for each in groups(root)) if it)]))
