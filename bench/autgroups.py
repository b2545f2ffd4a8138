"""What is measured of `autgroup`: a table by groups and workers, of one run each, with what the run itself tells on err.

A line of err tells of the first round after each growth of the rules, of every tenth, and of those that break no axiom. So the
growths are all there; the last round told is the last one where an automatic structure comes of it, and else one of the last ten.
"""

import os
import re
import tempfile

import presentations as known
from measuring import GIVEN_UP, run_once
from workers import COUNTS

HEADING = (
    "group",
    "workers",
    "status",
    "clock",
    "processor",
    "memory",
    "growths",
    "last round told",
    "its rules",
    "its differences",
    "most states of an acceptor",
    "most states of a multiplier",
    "comes to",
)
ROUND = re.compile(
    r"kb: growth (\d+), round (\d+): (\d+) rules, (\d+) differences, "
    r"word acceptor of (\d+) states, largest multiplier of (\d+) states"
)
LIMIT = re.compile(r"kb: \d+ .* reached \((.*)\)")
STRUCTURE = re.compile(r"kb: (word acceptor of \d+ states), multipliers: (\d+)")


def measure_autgroups(program, room):
    """Prints the table of automatic structures."""
    print(row(HEADING))
    print(row(["---"] * len(HEADING)), flush=True)
    for what, text in groups():
        for count in COUNTS:
            with tempfile.TemporaryDirectory(dir=room) as folder:
                print(row([what, count, *figures(program, f"{folder}/group", text, count)]), flush=True)


def row(words):
    """A row of the table."""
    return f"| {' | '.join(str(word) for word in words)} |"


def figures(program, file, text, count):
    """What a run by so many workers takes, and what it tells."""
    with open(file, "w", encoding="ascii") as it:
        it.write(text)
    with tempfile.TemporaryFile() as err:
        run = run_once([program, "autgroup", file, "--workers", str(count)], os.devnull, err)
        err.seek(0)
        told = err.read().decode()
    if run is None:
        return ["-", f"over {GIVEN_UP} s", "-", "-", *rounds_told(told), "given up"]
    took = [f"{run.clock:.2f} s", f"{run.spent:.2f} s", f"{run.memory:.0f} MiB"]
    return [run.status, *took, *rounds_told(told), came_to(told)]


def rounds_told(told):
    """The growths, the last round with its rules and differences, and the largest automata of all rounds that are told."""
    rounds = [[int(number) for number in numbers] for numbers in ROUND.findall(told)]
    if not rounds:
        return [0, "-", "-", "-", "-", "-"]
    return [*rounds[-1][:4], max(it[4] for it in rounds), max(it[5] for it in rounds)]


def came_to(told):
    """What the last line says: the structure, or which limit was reached."""
    structure, limit = STRUCTURE.search(told), LIMIT.search(told)
    if structure:
        return structure.expand(r"\1 and \2 multipliers")
    return f"limit {limit.group(1)}" if limit else "?"


def groups():
    """Whose automatic structures are made: a name and a presentation."""
    yield "surface group of genus 2", known.surface(2)
    yield "surface group of genus 3", known.surface(3)
    yield "triangle group (2,3,7)", known.coxeter(3, {(1, 2): 3, (2, 3): 7})
    yield "right-angled Artin group of a pentagon", known.pentagon()
    yield "braid group on three strands", known.group([("a", "A"), ("b", "B")], [("b*a*b", "a*b*a")])
    yield "torus knot (3,5)", known.group([("x", "X"), ("y", "Y")], [("x*x*x", "y*y*y*y*y")])
    yield "Gieseking group", known.group([("a", "A"), ("b", "B")], [("a*a*b*b", "b*a")])
    yield "figure-eight knot", known.group([("x", "X"), ("y", "Y")], [("X*y*x*Y*x", "y*X*y*x*Y")])
    yield "Coxeter group [5,3,5]", known.coxeter(4, {(1, 2): 5, (2, 3): 3, (3, 4): 5})
    yield "free abelian group of rank 2, ordered a, b, A, B", known.free_abelian_in_another_order()
    yield "PSL(2,11)", known.projective(11)
    yield "PSL(2,17)", known.projective(17)
    yield "B. H. Neumann's trivial group", known.three_cycle()
    yield "Fibonacci group F(2,7)", known.fibonacci(7)
    yield "Fibonacci group F(2,8)", known.fibonacci(8)
