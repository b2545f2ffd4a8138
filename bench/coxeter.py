"""Coxeter groups, exactly: the least word of an element, and how many elements there are of each length.

The group acts on the dual of its reflection representation. The point whose coordinates are all 1 is moved by each
element but the identity, and an element has a letter as a first letter of a shortest word where the letter's
coordinate of the moved point is below 0 (Humphreys, Reflection Groups and Coxeter Groups, 5.3 to 5.6, 5.13).
"""

import itertools

BITS = 512


class CoxeterGroup:
    """The group of a diagram: `labels` are its edges, the letters being numbered from 0. Labels are 3, and at most
    one other number for which the ring of its cosine stands in RINGS."""

    def __init__(self, rank, labels):
        self.rank = rank
        self.labels = {frozenset(edge): label for edge, label in labels.items()}
        self.order = max([label for label in self.labels.values() if label > 3], default=3)
        self.ring = RINGS[self.order]
        self.near = [self._near(letter) for letter in range(rank)]

    def _label(self, letter, other):
        return self.labels.get(frozenset((letter, other)), 2)

    def _near(self, letter):
        """The letters that don't commute with this one, with their labels."""
        others = ((other, self._label(letter, other)) for other in range(self.rank) if other != letter)
        return [(other, label) for other, label in others if label > 2]

    def normal(self, word):
        """The shortlex least word of the same element."""
        degree = len(self.ring)
        point = [(1,) + (0,) * (degree - 1)] * self.rank
        for letter in reversed(word):
            point = self._reflected(letter, point)
        least = []
        while (letter := next((it for it, place in enumerate(point) if self._is_below_zero(place)), None)) is not None:
            least.append(letter)
            point = self._reflected(letter, point)
        return tuple(least)

    def _reflected(self, letter, point):
        point = list(point)
        own = point[letter]
        point[letter] = tuple(-it for it in own)
        for other, label in self.near[letter]:
            move = own if label == 3 else self._times_cosine(own)
            point[other] = tuple(a + b for a, b in zip(point[other], move))
        return point

    def _times_cosine(self, number):
        """Times 2 cos(pi / label): the powers of it are the ring's basis."""
        *front, last = number
        return tuple(a + last * b for a, b in zip((0, *front), self.ring))

    def _is_below_zero(self, number):
        return sum(a * b for a, b in zip(number, POWERS[self.order])) < 0

    def is_finite(self, letters):
        """The subgroup of these letters is finite: each connected part has at most two letters, or is of type A, H3 or
        H4 (Humphreys, 6.4). Other labels than 3 and 5 occur in parts of two letters alone."""
        for part in self._parts(letters):
            labels = sorted(self._label(*edge) for edge in itertools.combinations(part, 2) if self._label(*edge) > 2)
            is_path = len(labels) == len(part) - 1 and all(self._degree(it, part) <= 2 for it in part)
            ends = [it for it in part if self._degree(it, part) <= 1]
            at_end = any(self._label(it, other) == 5 for it in ends for other in part if other != it)
            is_a = labels == [3] * (len(part) - 1)
            is_h = labels == [*[3] * (len(part) - 2), 5] and len(part) <= 4 and at_end
            if len(part) > 2 and not (is_path and (is_a or is_h)):
                return False
        return True

    def _degree(self, letter, part):
        return sum(other in part for other, _ in self.near[letter])

    def _parts(self, letters):
        left, parts = set(letters), []
        while left:
            part, waiting = set(), [min(left)]
            while waiting:
                letter = waiting.pop()
                part.add(letter)
                waiting += [other for other, _ in self.near[letter] if other in left and other not in part]
            parts.append(sorted(part))
            left -= part
        return parts

    def finite_counts(self, letters):
        """How many elements of each length a finite subgroup of letters has."""
        counts, layer = [], {()}
        while layer:
            counts.append(len(layer))
            longer = {self.normal((*word, letter)) for word in layer for letter in letters}
            layer = {word for word in longer if len(word) == len(counts)}
        return counts

    def counts(self, most):
        """How many elements of each length up to `most` the group has, and a degree of the polynomials of which their
        series is a fraction. One over the series at 1/t is the alternating sum, over the finite subgroups of letters,
        of one over theirs (R. Steinberg, Endomorphisms of linear algebraic groups, 1968, 1.28)."""
        total, degree = [0] * (most + 1), 0
        for size in range(self.rank + 1):
            for letters in itertools.combinations(range(self.rank), size):
                if self.is_finite(letters):
                    series = self.finite_counts(letters)
                    degree += len(series) - 1
                    for place, value in enumerate(inverted(series, most - len(series) + 1), len(series) - 1):
                        total[place] += (-1) ** size * value
        return inverted(total, most), degree


def inverted(series, most):
    """One over a power series with constant 1, up to this degree."""
    inverse = []
    for degree in range(most + 1):
        known = sum(series[it] * inverse[degree - it] for it in range(1, min(degree, len(series) - 1) + 1))
        inverse.append((degree == 0) - known)
    return inverse


def _powers(ring, low, high):
    """The powers of a root between two numbers of x^n = the ring's polynomial, as numbers of 2^-BITS."""

    def value(root):
        return root ** len(ring) - sum(it * root**place << BITS * (len(ring) - place) for place, it in enumerate(ring))

    low, high = int(low * 1024) << BITS - 10, int(high * 1024) << BITS - 10
    while high - low > 1:
        middle = (low + high) // 2
        low, high = (middle, high) if value(middle) < 0 else (low, middle)
    return [low**place >> BITS * (place - 1) if place else 1 << BITS for place in range(len(ring))]


# For 2 cos(pi / label) = c: its highest power by the lower ones. c^2 = c + 1 for 5, and c^3 = c^2 + 2 c - 1 for 7.
RINGS = {3: (1,), 5: (1, 1), 7: (-1, 2, 1)}
POWERS = {3: [1 << BITS], 5: _powers(RINGS[5], 1.5, 1.7), 7: _powers(RINGS[7], 1.7, 1.9)}
