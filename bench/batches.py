"""What is measured of batches: word lines a second by the clock, line by line, and in batches by one worker, two and four."""

from statistics import median

import data
from measuring import GIVEN_UP, MIB, give, run_once

BATCH = 4096
COUNTS = (1, 2, 4)
ALL_OPTIONS = [("--workers", "1")] + [("--workers", str(workers), "--batch", str(BATCH)) for workers in COUNTS]
TURNS = 7
SIZE = 3


def measure_batches(program, room, examples):
    """Prints the figures of each command and presentation. What a run does before its first line is taken off."""
    file, lines, none = f"{room}/presentation", f"{room}/lines", f"{room}/none"
    give(none, lambda: b"")
    for what, command, text in runs(examples):
        with open(file, "w", encoding="ascii") as it:
            it.write(text)
        give(lines, lambda: data.word_lines(data.generators(text), SIZE * MIB))
        with open(lines, "rb") as it:
            count = sum(1 for _ in it)
        print(f"{what}: {count} lines, {SIZE} MiB", flush=True)

        command_line = [program, command, file]
        clocks = median_clocks([[*command_line, *options] for options in ALL_OPTIONS], lines, none)
        alone = clocks[0]
        for options, clock in zip(ALL_OPTIONS, clocks):
            show(" ".join(options), clock, alone, count)


def runs(examples):
    """What is run: a name, the command and the presentation."""
    yield "1,035 commuting rules", "wordreduce", data.free_commutative(46)
    yield "3,200 rules: free abelian group of rank 40", "wordreduce", data.free_abelian(40)
    for example in ("triangle-2-3-7", "free-abelian-2-abAB"):
        with open(f"{examples}/{example}", encoding="ascii") as it:
            yield f"multipliers of {example}", "autgroup", it.read()


def median_clocks(commands, given, none):
    """The middle time of some runs of each command, without that of a run that is given no line; None where a run fails.

    The commands take turns, since the speed of one processor changes while the others are busy, or others use the machine.
    """
    clocks = [[] for _ in commands]
    for _ in range(TURNS):
        for words, own in zip(commands, clocks):
            pair = [run_once(words, file) for file in (given, none)]
            own.append(None if any(run is None or run.status != 0 for run in pair) else pair[0].clock - pair[1].clock)
    return [None if None in own else median(own) for own in clocks]


def show(what, clock, alone, count):
    """Prints how many lines a second that is, and how it stands beside line by line."""
    if clock is None:
        print(f"    {what:30} no figure: a run failed, or was given up after {GIVEN_UP} s", flush=True)
        return
    beside = f", {alone / clock:.2f} times line by line" if alone else ""
    print(f"    {what:30} {count / clock:12,.0f} lines/s{beside}", flush=True)
