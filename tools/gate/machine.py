"""What there is of the machine: processors and memory, within the limits of a container, and what is missing for a build."""

import os
import re
import shutil
import tempfile

# What a check is likely to take of memory at most, in bytes: 3.1 GB were seen.
CHECK = 5_000_000_000
# What a further job of a check is likely to take at most, in bytes.
JOB = 1_500_000_000
# The programs that the gate needs, and what for; and what it takes of the disk, in bytes.
PROGRAMS_OF_GATE = {"rt": "the kit that proves and builds", "git": "it makes the repository that the gate runs on", "cc": "it links programs"}
DISK_OF_GATE = 6_000_000_000
# By the version of control groups: the files of a group that limit its processors and its memory, those that tell what it uses, and the word
# of the part of this that can be taken back at once.
LIMITS = {
    2: ("cpu.max", "cpu.max", "memory.max", "memory.current", "inactive_file"),
    1: ("cpu.cfs_quota_us", "cpu.cfs_period_us", "memory.limit_in_bytes", "memory.usage_in_bytes", "total_inactive_file"),
}


def text_of(path):
    try:
        with open(path, encoding="utf-8", errors="replace") as file:
            return file.read()
    except OSError:
        return ""


def groups(root):
    """Returns the folders of the control groups that this process is in, with the version of each: its own and all above it. A container may show its
    own group as the top."""
    found = []
    for line in text_of(f"{root}/proc/self/cgroup").splitlines():
        _, kinds, path = line.split(":", 2)
        tops = [f"{root}/sys/fs/cgroup/{it}" for it in (kinds, *kinds.split(","))] if kinds else [f"{root}/sys/fs/cgroup"]
        for top in dict.fromkeys(it for it in tops if os.path.isdir(it)):
            parts = [it for it in path.split("/") if it not in ("", "..")]
            above = ["/".join(parts[:count]) for count in range(len(parts), -1, -1)]
            found += [(f"{top}/{it}".rstrip("/"), 1 if kinds else 2) for it in above]
    return [it for it in dict.fromkeys(found) if os.path.isdir(it[0])]


def number_in(path, pattern=r"(\d+)"):
    found = re.search(pattern, text_of(path), re.M)
    return int(found[1]) if found else None


def quota(folder, version):
    """Returns the processors that a control group may use, as far as it is limited."""
    limit, period, _, _, _ = LIMITS[version]
    limit = number_in(f"{folder}/{limit}", r"\A(\d+)")
    period = number_in(f"{folder}/{period}", r"(\d+)\s*\Z")
    return max(1, limit // period) if limit and period else None


def processors(root=""):
    """Returns how many processors this process may use: those that it may run on, or fewer by the limit of a container."""
    limits = [quota(*it) for it in groups(root)]
    return min([len(os.sched_getaffinity(0)), *(it for it in limits if it)])


def free_in(folder, version):
    """Returns the memory that a control group may still take, as far as it is limited."""
    _, _, limit, used, cached = LIMITS[version]
    limit, used = number_in(f"{folder}/{limit}", r"\A(\d+)"), number_in(f"{folder}/{used}")
    if limit is None or used is None:
        return None
    return limit - used + (number_in(f"{folder}/memory.stat", rf"^{cached} (\d+)") or 0)


def free_amounts(root):
    """Returns the free memory in bytes, that of the system first, and then what each limit of a container leaves."""
    limits = [free_in(*it) for it in groups(root)]
    return [1024 * (number_in(f"{root}/proc/meminfo", r"^MemAvailable:\s+(\d+)") or 0), *(it for it in limits if it is not None)]


def free_memory(root=""):
    """Returns the free memory in bytes, within the limits of a container."""
    return max(0, min(free_amounts(root)))


def is_confined(root=""):
    """Returns whether a container leaves less memory than the system has free."""
    whole, *limits = free_amounts(root)
    return any(it < whole for it in limits)


def asked():
    """Returns how many checks the user asks to run side by side, by RT_JOBS: 0 where that isn't said."""
    words = os.environ.get("RT_JOBS", "")
    return max(1, int(words)) if words.isdecimal() else 0


def lanes(running=0):
    """Returns how many checks may run side by side: RT_JOBS, or one a processor, as many as there is memory for beside those that run."""
    return asked() or max(1, min(processors(), free_memory() // CHECK + running))


def jobs(is_alone):
    """Returns how many jobs a check may have: RT_JOBS, or one a processor, where it runs alone, else one less. A check's last functions are mostly
    proved one after the other, so checks that run side by side fill each other's gaps. There has to be memory for each further job."""
    most = asked() or processors()
    fitting = most if asked() else 1 + max(0, free_memory() - CHECK) // JOB
    return max(1, min(fitting, most - (not is_alone)))


def is_writable(folder):
    """Returns whether a file can be made in the folder, or else in the nearest above it that is there."""
    while not os.path.isdir(folder):
        folder = os.path.dirname(folder) or "."
    try:
        with tempfile.TemporaryFile(dir=folder):
            return True
    except OSError:
        return False


def room_in(folder):
    """Returns the bytes that can still be written in the folder, or else in the nearest above it that is there."""
    while not os.path.isdir(folder):
        folder = os.path.dirname(folder) or "."
    found = os.statvfs(folder)
    return found.f_bavail * found.f_frsize


def much(count):
    """Returns a count of bytes in words."""
    return f"some {count / 1e9:.0f} GB" if count >= 1e9 else f"some {count / 1e6:.0f} MB"


def missing(programs, places, memory=0):
    """Returns a line for each of these programs that isn't on the path, for each of these folders that can't be written or has less room than the
    bytes that it is given with, and where less memory is free than these bytes. RT_JOBS goes on all the same."""
    found = [f"there is no {it} on the path: {why}" for it, why in programs.items() if not shutil.which(it)]
    if memory and not asked() and free_memory() < memory:
        found.append(f"{free_memory() / 1e9:.1f} GB of memory are free, and this takes {much(memory)}; with RT_JOBS=1 it is tried all the same")
    for folder, wanted in places.items():
        if not is_writable(folder):
            found.append(f"{folder} can't be written")
        elif room_in(folder) < wanted:
            more = "; TMPDIR names another folder for temporary files" if folder == tempfile.gettempdir() else ""
            found.append(f"{folder} has room for {room_in(folder) / 1e9:.1f} GB, and this takes {much(wanted)}{more}")
    return found
