"""What the processes below one take, by crate and kind of work, as far as the kit's checks are known by their names."""

import os
import time

KINDS = ("proof", "seeds", "edits", "tests", "programs")
TICKS = os.sysconf("SC_CLK_TCK")
# How often processes are looked at, in seconds: what a process takes after the last look counts for no crate, but for the sum.
PAUSE = 0.2


def stat_of(pid):
    """Returns a process's parent and the processor seconds of it and of the children that it has waited for."""
    with open(f"/proc/{pid}/stat", encoding="utf-8", errors="replace") as file:
        fields = file.read().rpartition(")")[2].split()
    return int(fields[1]), sum(map(int, fields[11:15])) / TICKS


def words_of(pid):
    with open(f"/proc/{pid}/cmdline", encoding="utf-8", errors="replace") as file:
        return file.read().split("\0")


def after(word, words):
    """Returns the word after this one, or nothing."""
    return next((other for one, other in zip(words, words[1:]) if one == word), "")


def is_check(words):
    return os.path.basename(words[0]) == "rattle" and words[1:2] in (["check"], ["build"])


def kind_of(pid, words):
    """Returns the crate that a check is of, and the kind of work that it is."""
    crate = after("--crate-name", words)
    if "/rt-edit-" in os.readlink(f"/proc/{pid}/cwd"):
        return crate, "seeds" if os.path.basename(after("--incremental", words)) == "seed" else "edits"
    if "--crate-checked" in words:
        return crate, "programs"
    return crate, "tests" if "--test" in words else "proof"


class Costs:
    """What the processes below one have taken, by crate and kind. Each is known by its number and what it runs, since numbers come again."""

    def __init__(self, top, begun=lambda crate: None):
        self.top, self.seconds, self.is_over, self.begun = top, {}, False, begun

    def is_below(self, pid, parents):
        while pid in parents and pid != self.top:
            pid = parents[pid]
        return pid == self.top

    def look(self):
        parents, taken = {}, {}
        for name in filter(str.isdigit, os.listdir("/proc")):
            try:
                parents[int(name)], taken[int(name)] = stat_of(name)
            except (OSError, ValueError):
                pass
        for pid in taken:
            if pid != self.top and self.is_below(pid, parents):
                self.note(pid, parents[pid], taken[pid])

    def note(self, pid, parent, seconds):
        """Notes what a check has taken. One that another began counts there once it has ended."""
        try:
            words = words_of(pid)
            if is_check(words) and not is_check(words_of(parent)):
                key = (pid, after("-o", words), os.readlink(f"/proc/{pid}/cwd"), *kind_of(pid, words))
                self.begun(key[3])
                self.seconds[key] = max(self.seconds.get(key, 0), seconds)
        except OSError:
            pass

    def watch(self):
        while not self.is_over:
            self.look()
            time.sleep(PAUSE)

    def table(self):
        """Returns for each crate the seconds of each kind."""
        found = {}
        for (_, _, _, crate, kind), seconds in self.seconds.items():
            row = found.setdefault(crate, dict.fromkeys(KINDS, 0.0))
            row[kind] += seconds
        return found


def others(table, whole):
    """Returns the seconds, of so many in all, that belong to no row of the table: rt itself, linking, the runs of programs."""
    return max(0.0, whole - sum(sum(row.values()) for row in table.values()))


def print_costs(table, whole):
    """Prints a line for each row of the table and one for the sum; what belongs to none counts among programs."""
    print(f"{'processor seconds':24}" + "".join(f"{it:>10}" for it in (*KINDS, "whole")))
    sums = dict.fromkeys(KINDS, 0.0)
    for crate, row in sorted(table.items(), key=lambda it: -sum(it[1].values())):
        print(f"{crate:24}" + "".join(f"{it:10.0f}" for it in (*row.values(), sum(row.values()))))
        sums = {kind: sums[kind] + row[kind] for kind in KINDS}
    sums["programs"] += others(table, whole)
    print(f"{'sum':24}" + "".join(f"{it:10.0f}" for it in (*sums.values(), whole)))
    print("; ".join(f"{kind} {seconds:.0f}" for kind, seconds in sums.items()) + f"; whole {whole:.0f} processor seconds")
