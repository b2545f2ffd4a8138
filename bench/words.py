"""What is measured of `wordreduce`."""

import os
import subprocess

import data
from measuring import MIB, give, measure

LINES = "symmetric-3"


def is_confluent(program, file):
    """Whether `wordreduce` answers words by the relations of the file as they are."""
    words = [program, "wordreduce", file]
    return subprocess.run(words, stdin=subprocess.DEVNULL, capture_output=True, check=False).returncode == 0


def measure_words(program, room, examples):
    """Prints all figures: over the examples, and over the free commutative monoids."""
    lines = f"{room}/lines"

    def reduce(what, file, content, **how):
        give(lines, content)
        measure(what, [program, "wordreduce", file], given=lines, **how)

    for example in sorted(it for it in os.listdir(examples) if "." not in it):
        file = f"{examples}/{example}"
        if example != "not-confluent" and not is_confluent(program, file):
            continue
        with open(file, encoding="ascii") as it:
            names = data.generators(it.read())
        wanted = 3 if example == "not-confluent" else 0
        reduce(f"{example}: one word of 65,535 letters", file, lambda: data.longest_word(names), wanted=wanted)
        if wanted == 3:
            continue
        for size in (1, 4, 16, 64) if example == LINES else (1,):
            what = f"{example}: {size} MiB of word lines"
            reduce(what, file, lambda: data.word_lines(names, size * MIB), rate=(size, "MiB"))
    free, symmetric = f"{examples}/free-2", f"{examples}/{LINES}"
    inverses = {"a": "A", "A": "a", "b": "B", "B": "b"}
    for size in (1, 16, 60):
        what = f"free-2: {size} MiB of reduced words"
        reduce(what, free, lambda: data.reduced_lines("aAbB", inverses, size * MIB), rate=(size, "MiB"))
    for size in (1, 16):
        what = f"{LINES}: {size} MiB of powers and brackets"
        reduce(what, symmetric, lambda: data.power_lines("ab", size * MIB), rate=(size, "MiB"))
    for what, text, last in (("a*a*..*a", "a*", "a"), ("brackets that open alone", "(", ""), ("a*a*..*a*", "a*", "")):
        what = f"{LINES}: one line of 30 MiB, {what}"
        reduce(what, symmetric, lambda: data.one_line(text, 30 * MIB, last), wanted=1)
    for rank in (3, 23, 32, 46):
        file = f"{room}/commutative"
        presentation = data.free_commutative(rank)
        with open(file, "w", encoding="ascii") as it:
            it.write(presentation)
        if rank == 3:
            names = data.generators(presentation)
            what = "free commutative, rank 3: one word of 65,535 letters"
            reduce(what, file, lambda: data.longest_word(names))
            continue
        reduce(f"{rank * (rank - 1) // 2} commuting equations, checked", file, lambda: b"x2*x1\n")
    for what, text, word in (
        ("free abelian, rank 20, checked", data.free_abelian(20), "x2*x1"),
        ("free abelian, rank 40, checked", data.free_abelian(40), "x2*x1"),
        ("Coxeter group of type A, rank 8, checked", data.coxeter_a(8), "s2*s1"),
        ("Coxeter group of type D, rank 6, checked", data.coxeter_d(6), "s2*s1"),
    ):
        file = f"{room}/group"
        with open(file, "w", encoding="ascii") as it:
            it.write(text)
        reduce(what, file, lambda: f"{word}\n".encode())
