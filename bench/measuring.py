"""Runs a program and measures it.

A figure is the best of three runs by processor time, or that of one run which takes over ten seconds. A run is given up
after two minutes.
"""

import math
import multiprocessing
import os
import subprocess
import tempfile
import threading
import time
import typing

MIB = 1 << 20
TURNS = 3
LONG = 10
GIVEN_UP = 120
# Below this many seconds, starting the program is much of its time.
SHORT = 0.02


class Run(typing.NamedTuple):
    """One run of a program."""

    status: int
    """The number of a signal, negated, where one ended the run."""
    spent: float
    """Processor time in seconds, user and system."""
    clock: float
    memory: float
    """The most memory that was resident, in MiB."""


def run_once(words, given, told=subprocess.DEVNULL):
    """One run of the command line, with a file as standard input, and an open one for what it tells on err; None where it is
    given up."""
    with open(given, "rb") as lines, tempfile.TemporaryFile() as out:
        begun = time.perf_counter()
        child = subprocess.Popen(words, stdin=lines, stdout=out, stderr=told)
        end = threading.Timer(GIVEN_UP, child.kill)
        end.start()
        _, status, used = os.wait4(child.pid, 0)
        end.cancel()
        child.returncode = os.waitstatus_to_exitcode(status)
        clock = time.perf_counter() - begun
        if clock >= GIVEN_UP:
            return None
        return Run(child.returncode, used.ru_utime + used.ru_stime, clock, used.ru_maxrss / 1024)


def best_run(words, given):
    """The best of a few runs; None where one is given up."""
    best = None
    for _ in range(TURNS):
        run = run_once(words, given)
        if run is None:
            return None
        best = min(best or run, run, key=lambda it: it.spent)
        if run.clock > LONG:
            break
    return best


def measure(what, words, given=os.devnull, wanted=0, rate=None):
    """Prints a figure, and answers its run. A rate is an amount and its unit."""
    best = best_run(words, given)
    if best is None:
        print(f"{what:58} given up after {GIVEN_UP} s", flush=True)
        return None
    status = f"status {best.status}" if best.status == wanted else f"STATUS {best.status} AND NOT {wanted}"
    line = f"{what:58} {status} {best.spent:8.3f} s, by the clock {best.clock:8.3f} s, {best.memory:4.0f} MiB"
    if rate:
        amount, unit = rate
        line += f", {amount / best.spent:.3g} {unit}/s"
    print(line, flush=True)
    return best


def growth(smaller, larger):
    """By which power of the size the time grew, of two pairs of a size and a run; None where one is too short."""
    (size, run), (other_size, other) = smaller, larger
    if min(run.spent, other.spent) < SHORT:
        return None
    return math.log(other.spent / run.spent) / math.log(other_size / size)


def give(file, content):
    """Writes the bytes that a function makes, in a process of its own: a run's memory counts what its parent took."""
    maker = multiprocessing.get_context("fork").Process(target=write, args=(file, content))
    maker.start()
    maker.join()
    if maker.exitcode != 0:
        raise SystemExit(f"bench/run: the data of {file} are not made")


def write(file, content):
    """Writes the bytes that a function makes."""
    with open(file, "wb") as it:
        it.write(content())
