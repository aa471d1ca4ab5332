"""Calls a function many times by processes side by side. One that is killed ends the script: a pool of `multiprocessing` would wait without end."""

import multiprocessing
import sys
from concurrent.futures import ProcessPoolExecutor
from concurrent.futures.process import BrokenProcessPool


def called(function, calls, jobs, chunk=1):
    """Returns what a function returns for each of these calls, which are its words, by so many processes."""
    try:
        with ProcessPoolExecutor(jobs, multiprocessing.get_context("fork")) as pool:
            return [*pool.map(function, *zip(*calls), chunksize=chunk)]
    except BrokenProcessPool:
        sys.exit("a process of this script was killed before it was done, as the system does where memory is short")
