"""What is measured of `gpaxioms`: groups' own automata, which structures.py makes once, are checked."""

import os
import subprocess
import sys

from measuring import measure, run_once
from workers import COUNTS, clock

HERE = os.path.dirname(os.path.abspath(__file__))
# By their names in structures.py, the quickest first.
GROUPS = ("free-abelian-6", "surface-2", "triangle-2-3-7", "psl-2-7", "surface-3", "coxeter-h4", "coxeter-3-5-3",
          "coxeter-5-3-5", "surface-4", "free-abelian-12", "psl-2-11")


def measure_checks(program):
    """Prints the figures of one worker, and the time by the clock by the number of workers."""
    for name in GROUPS:
        file = made(name)
        run = measure(f"check of {name}", [program, "gpaxioms", file, "--workers", "1"])
        if run:
            clocks = [clock(fastest([program, "gpaxioms", file, "--workers", str(count)])) for count in COUNTS]
            print(f"{'':58} by the clock, by the number of workers: {', '.join(clocks)}", flush=True)


def fastest(words):
    """The run of three that takes the least time by the clock; None where one is given up."""
    runs = [run_once(words, os.devnull) for _ in range(3)]
    return None if None in runs else min(runs, key=lambda it: it.clock)


def made(name):
    """The presentation file of a group whose automata stand beside it. They are made where they don't stand there yet."""
    file = f"{HERE}/out/{name}/{name}"
    if not os.path.exists(f"{file}.wa"):
        subprocess.run([sys.executable, f"{HERE}/structures.py", name], check=True, stdout=subprocess.DEVNULL)
    return file
