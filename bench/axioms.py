"""The axioms of automatic structures, tried word by word from their definitions, by which the program's own check is
tried.

Certificates are tuples: the kind, the place of the generator or of the relation, and words. First words of up to
`longest` letters are looked at, beside second words of up to two more. Whether a certificate holds is told for words
of any length.
"""

import functools
import typing

from automatic import padded
from rewriting import shortlex

KINDS = ("N1", "N2", "N4", "N5", "N6", "N7", "N8", "N3")
BEYOND = 2


class TooMany(Exception):
    """A multiplier has too many pairs of words of these lengths to look at each."""


class Certificate(typing.NamedTuple):
    """Words for which an axiom doesn't hold, with the place of the generator or relation, or none, by its kind."""

    kind: str
    place: typing.Optional[int]
    words: tuple

    def key(self):
        """By this key certificates are in the order in which they are looked for."""
        return KINDS.index(self.kind), -1 if self.place is None else self.place, tuple(map(shortlex, self.words))

    def is_within(self, longest):
        """Its words are among those that are looked at: of N8 the two to which a relation leads follow from the
        first one."""
        first, *others = self.words[:1] if self.kind == "N8" else self.words
        return len(first) <= longest and all(len(word) <= longest + BEYOND for word in others)

    def printed(self, presentation):
        """The line of the program that gives it."""
        words = map(presentation.printed, self.words)
        if self.place is None:
            return " ".join(["no", self.kind, *words])
        place = str(self.place + 1) if self.kind == "N8" else presentation.names[self.place]
        return " ".join(["no", self.kind, place, *words])


class Axioms:
    """The axioms of automata, by a presentation and by a function that finds normal forms by confluent rules."""

    def __init__(self, presentation, normal, structure):
        self.presentation, self.normal, self.structure = presentation, normal, structure
        self.letters = range(len(presentation.names))
        self.padding = len(presentation.names)
        self.relations = presentation.relations()
        self.readers = [Reader(it, self.padding) for it in structure.multipliers]
        self.accepts = functools.lru_cache(maxsize=None)(structure.acceptor.accepts)

    def multiplies(self, letter, u, v):
        text = ((self.padding + 1) * a + b for a, b in padded(u, v, self.padding))
        return self.structure.multipliers[letter].accepts(text)

    def first(self, longest, most=100_000):
        """The first certificate of the words of up to so many letters, or none."""
        words = [()]
        for word in words:
            if len(word) < longest:
                words += [(*word, letter) for letter in self.letters]
        accepted = [word for word in words if self.accepts(word)]
        pairs = [reader.pairs(longest, most) for reader in self.readers]
        for kind in KINDS:
            found = getattr(self, f"_{kind.lower()}")(accepted, pairs)
            first = next(found, None)
            if first is not None:
                return first
        return None

    def holds(self, certificate):
        """The certificate holds by the definition of its kind."""
        kind, place, words = certificate
        if kind == "N1":
            return not self.accepts(()) if words == ((),) else self._has_wrong_prefix(*words)
        if kind == "N2":
            return self.multiplies(place, *words) and not all(map(self.accepts, words))
        if kind == "N4":
            return self.accepts(*words) and self.readers[place].image(*words) is None
        if kind == "N5":
            u, v, other = words
            return v != other and self.multiplies(place, u, v) and self.multiplies(place, u, other)
        if kind == "N6":
            return self._is_extension_missing(place, *words)
        if kind == "N7":
            return self.multiplies(place, *words) and self._is_greater(place, *words)
        if kind == "N8":
            return self.accepts(words[0]) and words[1] != words[2] and self._sides(place, words[0]) == words[1:]
        return self.multiplies(place, *words) and self._differs(place, *words)

    def _has_wrong_prefix(self, word):
        return self.accepts(word) and not all(self.accepts(word[:length]) for length in range(len(word)))

    def _is_extension_missing(self, letter, word):
        longer = (*word, letter)
        return self.accepts(longer) and not self.multiplies(letter, word, longer)

    def _is_greater(self, letter, u, v):
        return shortlex((*u, letter)) < shortlex(v)

    def _differs(self, letter, u, v):
        return self.normal((*u, letter)) != self.normal(v)

    def _sides(self, place, word):
        return tuple(self._followed(word, side) for side in self.relations[place])

    def _followed(self, word, side):
        for letter in side:
            word = self.readers[letter].image(word)
            if word is None:
                return None
        return word

    def _n1(self, accepted, pairs):
        if not self.accepts(()):
            yield Certificate("N1", None, ((),))
        yield from (Certificate("N1", None, (word,)) for word in accepted if self._has_wrong_prefix(word))

    def _n2(self, accepted, pairs):
        for letter in self.letters:
            yield from (Certificate("N2", letter, pair) for pair in pairs[letter] if not all(map(self.accepts, pair)))

    def _n4(self, accepted, pairs):
        for letter in self.letters:
            for word in accepted:
                if self.readers[letter].image(word) is None:
                    yield Certificate("N4", letter, (word,))

    def _n5(self, accepted, pairs):
        for letter in self.letters:
            for (u, v), (same, other) in zip(pairs[letter], pairs[letter][1:]):
                if u == same:
                    yield Certificate("N5", letter, (u, v, other))

    def _n6(self, accepted, pairs):
        for letter in self.letters:
            for word in accepted:
                if self._is_extension_missing(letter, word):
                    yield Certificate("N6", letter, (word,))

    def _n7(self, accepted, pairs):
        for letter in self.letters:
            yield from (Certificate("N7", letter, pair) for pair in pairs[letter] if self._is_greater(letter, *pair))

    def _n8(self, accepted, pairs):
        for place in range(len(self.relations)):
            for word in accepted:
                one, other = self._sides(place, word)
                if one != other and None not in (one, other):
                    yield Certificate("N8", place, (word, one, other))

    def _n3(self, accepted, pairs):
        for letter in self.letters:
            yield from (Certificate("N3", letter, pair) for pair in pairs[letter] if self._differs(letter, *pair))


class Reader:
    """Finds pairs of a multiplier, and the words that it has beside one."""

    def __init__(self, multiplier, padding):
        self.multiplier, self.padding = multiplier, padding
        live = multiplier.live()
        self.start = [multiplier.initial] if multiplier.initial in live else []
        self.moves = [
            [(*divmod(symbol, padding + 1), target) for symbol, target in sorted(row.items()) if target in live]
            for row in multiplier.rows
        ]
        self.ending = self._before_ending()
        self.image = functools.lru_cache(maxsize=None)(self._image)

    def _before_ending(self):
        """The states from which second letters alone lead to acceptance."""
        ending, size = set(self.multiplier.accepting), -1
        while size != len(ending):
            size = len(ending)
            for state, moves in enumerate(self.moves):
                if any(a == self.padding and target in ending for a, _, target in moves):
                    ending.add(state)
        return ending

    def pairs(self, longest, most):
        """The pairs in order, with first words of at most so many letters and second ones of a few more."""
        waiting = [(state, (), ()) for state in self.start]
        pairs = []
        for state, u, v in waiting:
            if state in self.multiplier.accepting:
                pairs.append((u, v))
            for a, b, target in self.moves[state]:
                first = u if a == self.padding else (*u, a)
                second = v if b == self.padding else (*v, b)
                if len(first) <= longest and len(second) <= longest + BEYOND:
                    waiting.append((target, first, second))
            if len(waiting) > most:
                raise TooMany
        return sorted(pairs, key=lambda pair: tuple(map(shortlex, pair)))

    def _image(self, word):
        """The word beside this one, or none; where there are more, one of them."""
        onward = [self.ending]
        for letter in reversed(word):
            after = onward[-1]
            leads = [any(a == letter and target in after for a, _, target in moves) for moves in self.moves]
            onward.append({state for state, it in enumerate(leads) if it})
        onward.reverse()
        layer = {state: () for state in self.start if state in onward[0]}
        for place, letter in enumerate(word):
            layer = self._after(layer, letter, onward[place + 1])
        while layer:
            ends = [image for state, image in layer.items() if state in self.multiplier.accepting]
            if ends:
                return min(ends, key=shortlex)
            layer = self._after(layer, self.padding, self.ending)
        return None

    def _after(self, layer, letter, onward):
        """For each state that is led to the least second word that leads there."""
        after = {}
        for state, image in layer.items():
            for a, b, target in self.moves[state]:
                if a == letter and target in onward:
                    longer = image if b == self.padding else (*image, b)
                    if target not in after or shortlex(longer) < shortlex(after[target]):
                        after[target] = longer
        return after
