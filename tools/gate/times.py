"""How long proofs are likely to take: the measured seconds of each crate (costs.txt), and a model of checks that run side by side."""

import math
import os
import threading
import time

COSTS = f"{os.path.dirname(os.path.realpath(__file__))}/costs.txt"
KINDS = ("proof", "edits", "tests", "programs")
# What a crate that isn't listed is likely to take, by kind.
UNKNOWN = dict(zip(KINDS, (60, 0, 0, 10)))
# The rows that are no crate's: what tries the built program, and what belongs to no crate (rt itself, linking, the runs of programs).
TESTERS, OTHERS = "testers", "others"
HEAD = """# Processor seconds of each crate by kind, from nothing; the last two lines are what tries the built program, and what belongs to no
# crate (rt itself, linking, the runs of programs). They are written by tools/prove.py --costs, and tell it and tools/build.py how long
# a run is likely to take.
"""


def read(path=COSTS):
    """Returns the seconds of each crate by kind. Other lines are passed over: the seconds only tell how long a run is likely to take."""
    found = {}
    with open(path, encoding="utf-8") as file:
        for name, *seconds in (it.split() for it in file if it.strip()):
            if len(seconds) == len(KINDS) and all(it.isdecimal() for it in seconds):
                found[name] = dict(zip(KINDS, map(int, seconds)))
    return found


def write(table, path=COSTS):
    """Writes the seconds of each crate by kind."""
    names = sorted(table, key=lambda it: ((TESTERS, OTHERS).index(it) + 1 if it in (TESTERS, OTHERS) else 0, -sum(table[it].values()), it))
    rows = [["crate", *KINDS], *([it, *(str(round(table[it].get(kind, 0))) for kind in KINDS)] for it in names)]
    with open(path, "w", encoding="utf-8") as file:
        file.write(HEAD + "".join(f"{row[0]:22}" + "".join(f"{it:>10}" for it in row[1:]) + "\n" for row in rows))


def chains(seconds, below):
    """Returns for each task the seconds of the longest chain that begins with it: of it and of those that wait for it. `below` gives what each waits for."""
    found = {}

    def chain(name):
        if name not in found:
            found[name] = seconds[name] + max((chain(it) for it in seconds if name in below[it]), default=0)
        return found[name]

    return {it: chain(it) for it in seconds}


def clock(seconds, below, lanes, memory=None, most=math.inf):
    """Returns how long these tasks take where so many run side by side, and as many of those with memory as fit into the most that there is: each once
    those that it waits for have ended, the longest chain first."""
    longest, now, running, left, memory = chains(seconds, below), 0, {}, {*seconds}, memory or {}
    while left or running:
        for name in sorted(left, key=lambda it: (-longest[it], it)):
            is_ready = not any(it in left or it in running for it in below[name])
            if is_ready and len(running) < lanes and has_memory(memory.get(name, 0), [memory.get(it, 0) for it in running], most):
                running[name] = now + seconds[name]
        left -= {*running}
        now = min(running.values())
        running = {it: end for it, end in running.items() if end > now}
    return now


def has_memory(wanted, taken, most):
    """Returns whether there is memory for what wants some beside what took some. What is alone gets what there is."""
    return not wanted or not sum(taken) or sum(taken) + wanted <= most


def in_words(seconds):
    minutes = round(seconds / 60)
    if minutes < 2:
        return "a minute or two" if seconds > 60 else "a minute"
    return f"some {minutes} minutes" if minutes < 100 else f"some {minutes / 60:.1f} hours"


class Progress:
    """What is done and what is left, in phases one after the other: each has tasks with their seconds, and what each waits for. `memory` is what tasks
    take of it, and the most that there is."""

    # Tasks tell the pace of a machine once they have so many seconds together. One that took less than this part of its seconds was kept from earlier runs.
    # One that runs is likely to take this part of what it took already, at least.
    ENOUGH, KEPT, MORE = 120, 0.2, 0.2

    def __init__(self, phases, lanes, say, pause=60, memory=()):
        self.phases, self.lanes, self.say, self.pause, self.memory = phases, lanes, say, pause, memory
        self.begun, self.done, self.took, self.is_over = {}, set(), {}, threading.Event()

    def begin(self, name):
        self.begun.setdefault(name, time.monotonic())

    def end(self, name):
        if name in self.begun and name not in self.done:
            self.took[name] = time.monotonic() - self.begun[name]
        self.done.add(name)

    def pace(self):
        """Returns how many times as long as expected the tasks took that have ended."""
        expected = {it: much for seconds, _ in self.phases.values() for it, much in seconds.items()}
        told = {it: took for it, took in self.took.copy().items() if it in expected and took > self.KEPT * expected[it]}
        much = sum(expected[it] for it in told)
        return sum(told.values()) / much if much >= self.ENOUGH else 1

    def left(self):
        """Returns how many seconds are likely to be left, of which those that tasks have run count as done."""
        whole, pace = 0, self.pace()
        for seconds, below in self.phases.values():
            now = time.monotonic()
            ran = {it: now - self.begun.get(it, now) for it in seconds if it not in self.done}
            rest = {it: max(1, pace * seconds[it] - much, self.MORE * much) for it, much in ran.items()}
            whole += clock(rest, {it: [at for at in below[it] if at in rest] for it in rest}, self.lanes, *self.memory)
        return whole

    def told(self):
        parts = [f"{len(self.done & {*seconds})} of {len(seconds)} {name}" for name, (seconds, _) in self.phases.items() if seconds]
        return f"done: {', '.join(parts)}; {in_words(self.left())} left"

    def watch(self):
        while not self.is_over.wait(self.pause):
            self.say(self.told())

    def __enter__(self):
        threading.Thread(target=self.watch, daemon=True).start()
        return self

    def __exit__(self, *_):
        self.is_over.set()
