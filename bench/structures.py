#!/usr/bin/env python3
"""Makes the automatic structures of groups, for measuring and trying what reads them.

Usage: bench/structures.py [--to FOLDER] [NAME | FILE]..

For each NAME of the list below, and with none for all, the folder FOLDER/NAME (bench/out/NAME, which git ignores) gets
NAME, a presentation file, NAME.wa, the acceptor of the least words, and NAME.m1, NAME.m2 and so on, the multipliers of
the generators, as the program writes automata. FILE is a presentation file with another group, of which a completion
ends; the rules are read from FILE.kbprog where it stands. The automata are exact, and made without the program:

- Where the completion ends, the least words are those without a left side. Of a finite group all pairs are then written
  down.
- Else the acceptor is of word differences, first of those that the rules of a completion up to words of 48 letters
  have. It accepts each least word, and is exact where it accepts as many words of each length as the group has elements
  of that length, which is known.
- A multiplier of word differences has only true pairs of least words, and is exact where it has one from each least
  word.

Differences are taken in until that is so (automatic.py). All take half a minute of processor time, which is printed.
"""

import argparse
import os
import sys
import time

HERE = os.path.dirname(os.path.abspath(__file__))
sys.path.insert(0, HERE)
sys.dont_write_bytecode = True
import presentations
from automatic import Group, acceptor_by_rules, finite_structure, structure_by_differences
from coxeter import CoxeterGroup, inverted
from machines import file_of_pairs, file_of_words
from rewriting import Rules, complete, read_presentation

LONGEST = 48


def of_file(path):
    """The group of a presentation file, of which a completion ends, and the file's text."""
    with open(path, encoding="latin-1") as it:
        text = it.read()
    presentation = read_presentation(text)
    if not os.path.exists(path + ".kbprog"):
        return text, completed(presentation)
    rules = Rules(presentation)
    with open(path + ".kbprog", encoding="latin-1") as it:
        for left, right in read_presentation(it.read()).equations:
            rules.add(left, right)
    return text, by_rules(presentation, rules)


def completed(presentation):
    """The group of a presentation of which a completion ends."""
    return by_rules(presentation, complete(presentation))


def by_rules(presentation, rules):
    """The group of a presentation by confluent rules."""
    return Group(presentation, rules, rules.normal, acceptor_by_rules(presentation, rules))


def surface(genus):
    """The fundamental group of a surface. How many elements it has of each length is known: J. W. Cannon, P.
    Wagreich, Growth functions of surface groups (1992)."""
    presentation = read_presentation(presentations.surface(genus))
    rules = complete(presentation, LONGEST)
    above = [1, *[2] * (2 * genus - 1), 1]
    below = [1, *[2 - 4 * genus] * (2 * genus - 1), 1]

    def counts(most):
        inverse = [0] * (2 * genus) + inverted(below, most)
        return [sum(it * inverse[length + 2 * genus - at] for at, it in enumerate(above)) for length in range(most + 1)]

    return Group(presentation, rules, rules.normal, counts=counts, degree=2 * genus)


def coxeter(rank, labels):
    """A Coxeter group of which the completion doesn't end, its letters being numbered from 1."""
    presentation = read_presentation(presentations.coxeter(rank, labels))
    group = CoxeterGroup(rank, {(i - 1, j - 1): label for (i, j), label in labels.items()})
    rules = complete(presentation, LONGEST)

    def counts(most):
        return group.counts(most)[0]

    return Group(presentation, rules, group.normal, counts=counts, degree=group.counts(0)[1])


def from_text(text):
    return lambda: (text, completed(read_presentation(text)))


def from_group(text, make, *arguments):
    return lambda: (text, make(*arguments))


def coxeter_of(rank, labels):
    return from_group(presentations.coxeter(rank, labels), coxeter, rank, labels)


GROUPS = {
    "free-abelian-2": from_text(presentations.free_abelian(2)),
    "free-abelian-6": from_text(presentations.free_abelian(6)),
    "free-abelian-12": from_text(presentations.free_abelian(12)),
    "surface-2": from_group(presentations.surface(2), surface, 2),
    "surface-2-confluent": lambda: of_file(f"{HERE}/../examples/surface-2"),
    "surface-3": from_group(presentations.surface(3), surface, 3),
    "surface-4": from_group(presentations.surface(4), surface, 4),
    "triangle-2-3-7": coxeter_of(3, {(1, 2): 3, (2, 3): 7}),
    "coxeter-3-5-3": coxeter_of(4, {(1, 2): 3, (2, 3): 5, (3, 4): 3}),
    "coxeter-5-3-5": coxeter_of(4, {(1, 2): 5, (2, 3): 3, (3, 4): 5}),
    "psl-2-7": lambda: of_file(f"{HERE}/../examples/psl-2-7"),
    "psl-2-11": from_text(presentations.projective(11)),
    "coxeter-h4": from_text(presentations.coxeter(4, {(1, 2): 5, (2, 3): 3, (3, 4): 3})),
}


def structure_of(group):
    """The structure of a group."""
    if group.is_finite():
        return finite_structure(group)
    return structure_by_differences(group, ((left[:-1], right) for left, right in group.rules.right.items()))


def write(folder, name, text, names, structure, sparse=False, both_padded=False):
    """Writes a presentation file and the automata beside it."""
    os.makedirs(folder, exist_ok=True)
    files = {name: text, f"{name}.wa": file_of_words(names, structure.acceptor, sparse)}
    for number, multiplier in enumerate(structure.multipliers, 1):
        files[f"{name}.m{number}"] = file_of_pairs(names, multiplier, sparse, both_padded)
    for file, content in files.items():
        with open(f"{folder}/{file}", "w", encoding="latin-1") as it:
            it.write(content)


def main():
    parser = argparse.ArgumentParser(prog="bench/structures.py", allow_abbrev=False)
    parser.add_argument("--to", metavar="FOLDER", default=f"{HERE}/out")
    parser.add_argument("groups", metavar="NAME | FILE", nargs="*")
    options = parser.parse_args()
    for word in options.groups:
        if word not in GROUPS and not os.path.isfile(word):
            sys.exit(f"bench/structures.py: {word} is neither a file nor one of {', '.join(GROUPS)}")
    for word in options.groups or GROUPS:
        start = time.process_time()
        name = word if word in GROUPS else os.path.basename(word)
        text, group = GROUPS[word]() if word in GROUPS else of_file(word)
        structure = structure_of(group)
        write(f"{options.to}/{name}", name, text, group.presentation.names, structure)
        sizes = [len(it.rows) for it in structure.multipliers]
        moves = max(sum(map(len, it.rows)) for it in structure.multipliers)
        print(
            f"{name}: {len(sizes)} generators, acceptor of {len(structure.acceptor.rows)} states, multipliers of "
            f"{min(sizes)} to {max(sizes)} states and up to {moves} moves, {time.process_time() - start:.1f} s",
            flush=True,
        )


if __name__ == "__main__":
    main()
