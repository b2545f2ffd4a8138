"""Presentations as the program reads them, and their rules: reduction, and a plain completion up to a limit.

A word is a tuple of letters, which are numbered from 0. This shares nothing with the program, so that one can be
tried by the other.
"""

import heapq
import re
import typing


class Presentation(typing.NamedTuple):
    """A presentation of a group: each generator has an inverse."""

    names: tuple
    inverses: tuple
    """The inverse of each letter."""
    equations: tuple
    """Pairs of words."""

    def relations(self):
        """The equations, and then for each generator that it times its inverse is the empty word."""
        return [*self.equations, *(((x, y), ()) for x, y in enumerate(self.inverses))]

    def inverse(self, word):
        return tuple(self.inverses[x] for x in reversed(word))

    def printed(self, word):
        """The word as the program prints it."""
        return "*".join(self.names[x] for x in word) or "IdWord"

    def word(self, text):
        """The word that a text with powers and brackets means."""
        tokens = re.findall(r"[A-Za-z_][\w.]*|-?\d+|[()*^]", text)
        word, rest = self._product(tokens)
        if rest:
            raise ValueError(f"no word: {text}")
        return word

    def _product(self, tokens):
        word = ()
        while True:
            atom, tokens = self._factor(tokens)
            word += atom
            if tokens[:1] != ["*"]:
                return word, tokens
            tokens = tokens[1:]

    def _factor(self, tokens):
        if tokens[0] == "(":
            atom, tokens = self._product(tokens[1:])
        else:
            atom = () if tokens[0] == "IdWord" else (self.names.index(tokens[0]),)
        tokens = tokens[1:]
        if tokens[:1] == ["^"]:
            power = int(tokens[1])
            atom = (atom if power >= 0 else self.inverse(atom)) * abs(power)
            tokens = tokens[2:]
        return atom, tokens


def shortlex(word):
    """By this key words are in the shortlex order."""
    return len(word), word


def read_presentation(text):
    """The presentation that a file's text holds."""
    text = re.sub(r"#[^\n]*", "", text)
    names = _names(text, "generatorOrder")
    inverses = _names(text, "inverses")
    bare = Presentation(names, tuple(names.index(name) for name in inverses), ())
    pairs = re.findall(r"\[([^\[\],]+),([^\[\],]+)\]", text[text.index("equations") :])
    return bare._replace(equations=tuple((bare.word(left), bare.word(right)) for left, right in pairs))


def _names(text, field):
    places = re.search(rf"{field}\s*:=\s*\[([^\]]*)\]", text).group(1)
    return tuple(place.strip() for place in places.split(","))


class Rules:
    """Rules of a presentation, whose left sides are met along a tree of their letters from the last to the first."""

    def __init__(self, presentation):
        self.presentation = presentation
        self.right = {}
        self.tree = {}
        self.is_confluent = True

    def add(self, left, right):
        self.right[left] = right
        node = self.tree
        for letter in reversed(left):
            node = node.setdefault(letter, {})
        node[None] = left

    def remove(self, left):
        """Takes the rule away, and gives its right side."""
        node = self.tree
        for letter in reversed(left):
            node = node[letter]
        del node[None]
        return self.right.pop(left)

    def normal(self, word):
        """The normal form of the word."""
        done, waiting = [], list(reversed(word))
        while waiting:
            done.append(waiting.pop())
            left = self._left_at_end(done)
            if left is not None:
                del done[len(done) - len(left) :]
                waiting.extend(reversed(self.right[left]))
        return tuple(done)

    def _left_at_end(self, done):
        node = self.tree
        for letter in reversed(done):
            node = node.get(letter)
            if node is None:
                return None
            if None in node:
                return node[None]
        return None


def complete(presentation, longest=None):
    """The reduced rules of a completion, which gives up what has more letters on a side than `longest`."""
    rules = Rules(presentation)
    waiting, turn = [], 0

    def put(u, v):
        nonlocal turn
        turn += 1
        heapq.heappush(waiting, (len(u) + len(v), turn, u, v))

    for u, v in presentation.relations():
        put(u, v)
    while waiting:
        _, _, u, v = heapq.heappop(waiting)
        u, v = sorted((rules.normal(u), rules.normal(v)), key=shortlex)
        if u == v:
            continue
        if longest is not None and len(v) > longest:
            rules.is_confluent = False
            continue
        for left in [left for left in rules.right if is_factor(v, left)]:
            put(left, rules.remove(left))
        rules.add(v, u)
        for left, right in list(rules.right.items()):
            for pair in [*overlaps(v, u, left, right), *(() if left == v else overlaps(left, right, v, u))]:
                put(*pair)
    for left, right in list(rules.right.items()):
        rules.right[left] = rules.normal(right)
    return rules


def is_factor(factor, word):
    """The one word stands in the other."""
    return any(word[at : at + len(factor)] == factor for at in range(len(word) - len(factor) + 1))


def overlaps(left, right, other, other_right):
    """The two words that come of each overlap of the end of a left side with the beginning of another."""
    for common in range(1, min(len(left), len(other))):
        if left[len(left) - common :] == other[:common]:
            yield right + other[common:], left[: len(left) - common] + other_right
