"""What is measured of completions, with one worker, two and four."""

import os
import re
import subprocess

import presentations as known
from workers import measure_by_workers


def measure_completions(program, room):
    """Prints the figures of completions."""
    measure_by_workers(program, room, "kbprog", presentations(), course)


def course(words, file):
    """The lines that a completion makes, the most live ones that it shows, and its rules.

    A run that has no room for the states of the word acceptor stores its log, whose lines are counted.
    """
    stopped = [*words, "--max-states", "1"]
    ended = subprocess.run(stopped, stdin=subprocess.DEVNULL, capture_output=True, text=True, check=False)
    live = [int(number) for number in re.findall(r"(\d+) live", ended.stderr)]
    rules = equations(f"{file}.kbprog")
    try:
        with open(f"{file}.kblog", encoding="ascii") as it:
            lines = sum(1 for line in it if line[0].isdigit())
    except FileNotFoundError:
        lines = 0
    for end in ("kbprog", "kblog", "wa"):
        if os.path.exists(f"{file}.{end}"):
            os.remove(f"{file}.{end}")
    return f"{lines} lines, {max([rules, *live])} live at most, {rules} rules"


def equations(file):
    """How many equations a presentation file has."""
    with open(file, encoding="ascii") as it:
        _, listed = it.read().split("equations := [", 1)
    return listed.count("[")


def presentations():
    """What is completed: a name and a presentation."""
    for rank in (20, 30, 40):
        yield f"free abelian group of rank {rank}", known.free_abelian(rank)
    yield "Coxeter group E6", known.coxeter(6, EXCEPTIONAL)
    yield "Coxeter group E8", known.coxeter(8, {**EXCEPTIONAL, (6, 7): 3, (7, 8): 3})
    yield "Coxeter group H4", known.coxeter(4, {(1, 2): 5, (2, 3): 3, (3, 4): 3})
    yield "Fibonacci group F(2,7), cyclic of order 29", known.fibonacci(7)
    yield "the same by two generators", known.fibonacci_7_by_two()
    yield "Fibonacci monoid of F(2,7)", known.fibonacci_7_monoid()
    yield "Burnside group B(2,4)", known.burnside()
    yield "SL(2,5) x C19", known.special_linear_and_cyclic()
    for prime in (11, 13, 17):
        yield f"PSL(2,{prime}), J. G. Sunday's presentation", known.projective(prime)
    for prime in (11, 17, 23, 31):
        yield f"PSL(2,{prime}), by an involution", known.projective_by_involution(prime)
    yield "Mathieu group M11", known.mathieu_11()
    yield "Mathieu group M12", known.mathieu_12()
    yield "Janko group J1", known.janko_1()
    yield "a trivial group, B. H. Neumann's", known.three_cycle()
    for genus in (2, 3):
        yield f"surface group of genus {genus}, up to its limit", known.surface(genus)
    yield "plactic monoid of rank 4, up to its limit", known.plactic(4)


# The diagram of E6, whose branch is at its third node; E8 goes on from its sixth.
EXCEPTIONAL = {(1, 3): 3, (3, 4): 3, (4, 5): 3, (5, 6): 3, (2, 4): 3}
