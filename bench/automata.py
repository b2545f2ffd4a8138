"""What is measured of the commands on automata."""

import os

import automaton_data as data
from measuring import give, growth, measure

MILLION = 1_000_000
MOST_STATES = "--max-states 4000000"
DEFAULT_MOST_STATES = 262_144


class Bench:
    """A program, and a folder for the files that it reads and writes."""

    def __init__(self, program, room):
        self.program = program
        self.room = room

    def series(self, what, command, unit, cases, wanted=0):
        """Measures a command on files A and B that grow. A case has how many of the unit there are, and the pieces of
        the files; what may stand between them is put in place of `{}` in the command."""
        smaller = None
        for count, *between, files in cases:
            for name, pieces in zip("AB", files):
                self.make(name, pieces)
            words = [self.program, *map(self.placed, command.format(*between).split())]
            rate = (count / MILLION, f"million {unit}")
            run = measure(f"{what}: {count:,} {unit}", words, wanted=wanted, rate=rate)
            power = growth(smaller, (count, run)) if smaller and run else None
            if power is not None:
                print(f"  the time grew as the power {power:.2f} of the {unit}", flush=True)
            smaller = (count, run) if run else None

    def make(self, name, pieces):
        """Makes the file of an automaton."""
        file = self.placed(name)
        give(file, lambda: "".join(pieces).encode())
        if os.path.getsize(file) > data.MOST_BYTES:
            raise SystemExit(f"bench/run: an automaton of {os.path.getsize(file)} bytes is more than is read")

    def placed(self, word):
        """A word of a command, with its folder where it names a file."""
        return f"{self.room}/{word}" if word in ("A", "B", "OUT") else word


def at_random(width, sizes):
    """Cases of automata at random over so many letters."""
    return ((width * states, [data.at_random(states, width)]) for states in sizes)


def reading(bench):
    """What each command begins with: the words of no letters are asked for."""
    for width, sizes in ((2, (5_000, 50_000, 500_000, 820_000)), (126, (79, 794, 7_937, 23_000))):
        bench.series(f"read, {width} letters", "fsaenumerate 0 0 A", "moves", at_random(width, sizes))
    bench.series(
        "read, pairs over 126 letters",
        "fsaexists --max-states 1 A OUT",
        "moves",
        ((126**2 * states, [data.pairs_at_random(states, 126)]) for states in (6, 63, 280)),
        wanted=2,
    )
    bench.series(
        "read, 1 letter",
        "fsaenumerate 0 0 A",
        "moves",
        ((states, [data.chain(states + 1)]) for states in (10_000, 100_000, 1_600_000)),
    )
    bench.series(
        "read, sparse, 8 of 1,000 letters",
        "fsaenumerate 0 0 A",
        "moves",
        ((8 * states, [data.sparse_at_random(states, 1_000, 8)]) for states in (1_250, 12_500, 160_000)),
    )


def minimising(bench):
    """Canonical automata."""

    def minimise(what, cases):
        bench.series(f"fsamin, {what}", "fsamin A OUT", "moves", cases)

    for width, sizes in ((2, (5_000, 50_000, 500_000, 820_000)), (126, (79, 794, 7_937, 23_000))):
        minimise(f"at random, {width} letters", at_random(width, sizes))
    minimise(
        "at random, pairs over 126 letters",
        ((126**2 * states, [data.pairs_at_random(states, 126)]) for states in (6, 63, 280)),
    )
    minimise("one word", ((length, [data.chain(length + 1)]) for length in (10_000, 100_000, 1_000_000)))
    minimise(
        "copies of 10 states, 2 letters",
        ((2 * states, [data.copies(states, 10)]) for states in (5_000, 50_000, 500_000)),
    )
    minimise("mixed cycle", ((1 << length, [data.mixed_cycle(length)]) for length in (13, 16, 19)))


def reversing(bench):
    """Sets of states: of words read backwards."""

    def reverse(what, unit, cases):
        bench.series(f"fsareverse, {what}", f"fsareverse A OUT {MOST_STATES}", unit, cases)

    for ends in (1, 8):
        reverse(
            f"sets of {ends}",
            "moves",
            ((2 * states, [data.turns(states, 2, ends)]) for states in (5_000, 50_000, 500_000)),
        )
    reverse("2^k sets", "moves", ((2 << place, [data.early(place)]) for place in (12, 16, 19, 21)))
    reverse(
        "a dictionary",
        "letters",
        ((16 * count, [data.dictionary(count, 4, 16)]) for count in (1_000, 10_000, 100_000)),
    )
    # About half of the states are in each set.
    bench.series(
        "fsareverse, at random, undecided",
        "fsareverse A OUT",
        "members",
        ((DEFAULT_MOST_STATES * states // 2, [data.at_random(states, 2)]) for states in (100, 316, 1_000)),
        wanted=2,
    )


def projecting(bench):
    """Sets of states: of the first words of pairs."""

    def exists(what, cases):
        bench.series(f"fsaexists, {what}", f"fsaexists A OUT {MOST_STATES}", "moves", cases)

    exists("sets of 8", ((8 * states, [data.parted(states, 8)]) for states in (1_250, 12_500, 125_000)))
    exists("2^k sets", ((2 << place, [data.guessed(place)]) for place in (12, 16, 19, 21)))


def multiplying(bench):
    """Pairs of states of two cycles, whose lengths have no common divisor."""
    lengths = ((97, 103), (313, 317), (997, 1_009), (1_997, 1_999))

    def multiply(what, command, make, sizes=lengths, wanted=0):
        cases = ((one * two, [make(one), make(two)]) for one, two in sizes)
        bench.series(what, f"{command} {MOST_STATES}", "states", cases, wanted)

    multiply("fsaand", "fsaand A B OUT", data.cycle)
    multiply("fsaor", "fsaor A B OUT", data.cycle)
    multiply("fsalequal, other languages", "fsalequal A B", data.cycle, wanted=3)
    multiply("fsalequal, one language", "fsalequal A B", lambda states: data.cycle(states, everywhere=True))
    multiply("fsaand, 2 letters", "fsaand A B OUT", lambda states: data.turns(states, 2, 8), lengths[:3])


def joining(bench):
    """Complements, and words put together from words."""
    bench.series("fsanot, 2 letters", f"fsanot A OUT {MOST_STATES}", "moves", at_random(2, (5_000, 50_000, 500_000)))
    bench.series(
        "fsaconcat, one word and another",
        f"fsaconcat A B OUT {MOST_STATES}",
        "letters",
        ((2 * length, [data.chain(length + 1), data.chain(length + 1)]) for length in (5_000, 50_000, 500_000)),
    )
    bench.series(
        "fsastar, a dictionary",
        f"fsastar A OUT {MOST_STATES}",
        "letters",
        ((16 * count, [data.dictionary(count, 4, 16)]) for count in (1_000, 10_000, 100_000)),
    )


def enumerating(bench):
    """Accepted words in order."""
    # Of the reduced words over two letters and their inverses, 4 * 3^(n - 1) have length n.
    bench.series(
        "fsaenumerate, reduced words",
        "fsaenumerate 0 {} A",
        "words",
        ((2 * 3**most - 1, most, [data.reduced(2)]) for most in (8, 10, 12)),
    )
    bench.series(
        "fsaenumerate, long words",
        "fsaenumerate 0 {} A",
        "letters",
        ((most * (most + 1) * (most + 2) // 3, most, [data.descents()]) for most in (100, 200, 400)),
    )
    bench.series(
        "fsaenumerate, one long word",
        "fsaenumerate 0 65535 A",
        "letters",
        ((length, [data.chain(length + 1)]) for length in (1_000, 4_000, 16_000)),
    )


def measure_reading(program, room):
    """Prints the figures of reading alone."""
    reading(Bench(program, room))


def measure_automata(program, room):
    """Prints the figures of the commands."""
    bench = Bench(program, room)
    for part in (minimising, reversing, projecting, multiplying, joining, enumerating):
        part(bench)
