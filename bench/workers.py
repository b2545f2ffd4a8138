"""What is measured of workers: the time by the clock, with one worker, two and four."""

import os

import data
from presentations import burnside, free_abelian, projective
from measuring import GIVEN_UP, run_once

COUNTS = (1, 2, 4)


def measure_workers(program, room):
    """Prints how long completions and a check for confluence take by the clock, one run for each number of workers."""
    file = f"{room}/presentation"
    for what, command, text in runs():
        with open(file, "w", encoding="ascii") as it:
            it.write(text)
        given = f"{room}/lines"
        with open(given, "w", encoding="ascii") as it:
            it.write("")
        clocks = [clock(run_once([program, command, file, "--workers", str(count), *limits(command)], given)) for count in COUNTS]
        figures = ", ".join(f"{count}: {it}" for count, it in zip(COUNTS, clocks))
        print(f"{what:58} {figures}", flush=True)
    os.remove(file)


def measure_by_workers(program, room, command, known, came_to):
    """Prints the figures of a command within the default limits on presentations, a name and a text each: one run for each
    number of workers, by the clock. A function of the command line and the file says what a run came to."""
    file = f"{room}/presentation"
    for what, text in known:
        print(what, flush=True)
        with open(file, "w", encoding="ascii") as it:
            it.write(text)
        for count in COUNTS:
            words = [program, command, file, "--workers", str(count)]
            run = run_once(words, os.devnull)
            if run is None:
                print(f"    {count} workers: given up after {GIVEN_UP} s", flush=True)
                continue
            clocks = f"{run.clock:8.3f} s by the clock, {run.spent:8.3f} s in all, {run.memory:4.0f} MiB"
            print(f"    {count} workers: status {run.status}, {clocks}, {came_to(words, file)}", flush=True)


def clock(run):
    """The time of a run, or that it was given up or failed."""
    if run is None:
        return f"given up after {GIVEN_UP} s"
    return f"{run.clock:.3f} s" if run.status == 0 else f"STATUS {run.status}"


def limits(command):
    """Limits that no run here reaches."""
    return ["--max-rules", "1000000"] if command == "kbprog" else []


def runs():
    """What is run: a name, the command and the presentation."""
    yield "check of 3,200 rules: free abelian group of rank 40", "wordreduce", data.free_abelian(40)
    yield "check of 7,200 rules: free abelian group of rank 60", "wordreduce", data.free_abelian(60)
    yield "check of 12,800 rules: free abelian group of rank 80", "wordreduce", data.free_abelian(80)
    yield "completion: free abelian group of rank 30", "kbprog", free_abelian(30)
    yield "completion: Burnside group B(2,4)", "kbprog", burnside()
    for prime in (11, 13, 17):
        yield f"completion: PSL(2,{prime})", "kbprog", projective(prime)
