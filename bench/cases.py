"""Groups with automata that are damaged at random, or not."""

import functools
import typing

import data
import structures
from automatic import Structure
from damage import HURTS, hurt, with_automaton, with_unused
from machines import Automaton
from rewriting import complete, read_presentation

# Generators with their inverses, and groups that these generate, parted by bars: each by its equations, parted by
# blanks. A word alone is equal to the empty word.
GROUPS = {
    ("aA", "Aa"): "| a*a | a^3 | a^4 | a^5 | a | a^2=a^-2 a=a",
    ("Aa", "aA"): "| a*a | a^3 | a^2=A",
    ("a", "a"): "| a | a^3=a IdWord=IdWord",
    ("ab", "ab"): "| b*a*b=a*b*a | b*a=a*b | b=a | (a*b)^4 | a*b*a=b*a*b a=b | a",
    ("ba", "ba"): "| b*a*b=a*b*a | (a*b)^4 | a",
    ("aAb", "Aab"): "| b*a=a*b | b*a*b=A | a*a=a*a a=a*b*a | a^3 b*a=A*b | a^3 | b=a*a",
    ("baA", "bAa"): "| b*a=a*b | b*a*b=A | a^3 b*a=A*b | a^3",
    ("abA", "Aba"): "| a^3 b*a=A*b | a^3",
    ("aAbB", "AaBb"): "| b*a=a*b | b*a=A*b | a^2=b^2 b*a=A*b | a^3 b*a=a*b | b=a | a^2 | b=a^2",
    ("bBaA", "BbAa"): "| b*a=a*b | b*a=A*b | a^3 b*a=a*b",
    ("aBAb", "AbaB"): "| a^2 | a^2=b^2 b*a=A*b | b=a",
    ("abc", "abc"): "| b*a=a*b | c=b*a | b*a=a*b c*a=a*c c*b=b*c | a*b*a=b*a*b c*a=a*c",
}
# Greater ones, of bench/structures.py, of which a completion ends.
LARGE = ("free-abelian-6", "surface-2-confluent", "psl-2-7", "coxeter-h4")


class Case(typing.NamedTuple):
    """A presentation with its own automata and with others, which may be the same; what was done to these, and how
    their files are written."""

    text: str
    group: object
    own: Structure
    structure: Structure
    done: str
    sparse: bool
    both_padded: bool


def groups_by(generators):
    """The equations of each group of the list by these generators and inverses."""
    return [tuple(group.split()) for group in GROUPS[generators].split("|")]


def text_of(names, inverses, equations):
    """The text of a presentation file."""
    sides = ((left, right or "IdWord") for left, _, right in (equation.partition("=") for equation in equations))
    return data.presentation(list(names), list(inverses), ",\n".join(f"    [{left},{right}]" for left, right in sides))


@functools.lru_cache(maxsize=None)
def group_of(names, inverses, equations):
    presentation = read_presentation(text_of(names, inverses, equations))
    rules = complete(presentation, longest=12)
    return structures.by_rules(presentation, rules) if rules.is_confluent else None


@functools.lru_cache(maxsize=None)
def own(names, inverses, equations):
    """The group with its own automata."""
    group = group_of(names, inverses, equations)
    return group, structures.structure_of(group)


def of_other_order(names, inverses, equations, chance):
    """The automata of the group by another order of its generators, with their symbols as they are by this one; none
    where the completion by that order doesn't end soon."""
    order = list(range(len(names)))
    chance.shuffle(order)
    turned = tuple("".join(it[place] for place in order) for it in (names, inverses))
    if group_of(*turned, equations) is None:
        return None
    _, structure = own(*turned, equations)
    return reordered(structure, order)


def reordered(structure, order):
    """The automata with letter i as letter order[i]."""
    width = len(order) + 1
    place = [*order, len(order)]

    def letters(row):
        return {place[letter]: target for letter, target in row.items()}

    def pairs(row):
        return {place[symbol // width] * width + place[symbol % width]: target for symbol, target in row.items()}

    def moved(automaton, renamed):
        return Automaton([renamed(row) for row in automaton.rows], automaton.accepting, automaton.initial)

    multipliers = [None] * len(order)
    for letter, multiplier in zip(order, structure.multipliers):
        multipliers[letter] = moved(multiplier, pairs)
    return Structure(moved(structure.acceptor, letters), multipliers)


def mixed(structure, other, chance):
    """All automata of the other one, or some."""
    if chance.random() < 0.4:
        return other
    mix = structure
    for place in range(-1, len(structure.multipliers)):
        if chance.random() < 0.4:
            mix = with_automaton(mix, place, other.acceptor if place < 0 else other.multipliers[place])
    return mix


@functools.lru_cache(maxsize=None)
def quotients(names, inverses, equations):
    """The equations of the groups by the same generators in which these equations hold."""
    relations = group_of(names, inverses, equations).presentation.equations
    found = []
    for other in groups_by((names, inverses)):
        normal = group_of(names, inverses, other).normal
        if other != equations and all(normal(left) == normal(right) for left, right in relations):
            found.append(other)
    return found


# What may be done to automata.
WAYS = (*HURTS, "another group", "quotient", "cover", "another order")


def damaged(names, inverses, equations, done, chance):
    """The equations of a group, and automata that are damaged so."""
    group, structure = own(names, inverses, equations)
    if done == "another group":
        other = chance.choice(groups_by((names, inverses)))
        return equations, mixed(structure, own(names, inverses, other)[1], chance)
    if done in ("quotient", "cover"):
        others = quotients(names, inverses, equations)
        other = chance.choice(others) if others else equations
        return (other, structure) if done == "cover" else (equations, own(names, inverses, other)[1])
    if done == "another order":
        other = of_other_order(names, inverses, equations, chance) or structure
        return equations, other if chance.random() < 0.8 else mixed(structure, other, chance)
    return equations, hurt(group, structure, done, chance)


def small_case(chance):
    """A small group with automata that are damaged, or not."""
    names, inverses = generators = chance.choice(list(GROUPS))
    done = chance.choice(WAYS)
    equations, structure = damaged(names, inverses, chance.choice(groups_by(generators)), done, chance)
    text = text_of(names, inverses, equations)
    return written(text, *own(names, inverses, equations), structure, done, chance)


@functools.lru_cache(maxsize=None)
def large(name):
    """The text of a greater group, and the group with its own automata."""
    text, group = structures.GROUPS[name]()
    return text, group, structures.structure_of(group)


def large_case(chance):
    """A greater group with automata that are damaged, or not."""
    text, group, structure = large(chance.choice(LARGE))
    done = chance.choice(HURTS)
    return written(text, group, structure, hurt(group, structure, done, chance), done, chance)


def written(text, group, right, structure, done, chance):
    """The case with its files written in one way or another."""
    both_padded = chance.random() < 0.2
    if chance.random() < 0.3:
        structure = with_unused(structure, both_padded, chance)
    return Case(text, group, right, structure, done, chance.random() < 0.3, both_padded)
