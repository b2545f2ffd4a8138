"""Coxeter groups as groups of reflections: of a sphere, of the plane, or of the hyperbolic plane in Poincaré's disc."""

import collections
import functools
import math

NOTHING = 1e-6

# A reflection of a space of vectors: it takes x to x - 2 f(x) v, where f is its form and v its vector.
Mirror = collections.namedtuple("Mirror", "form vector")

SPHERE, PLANE, DISC = "sphere", "plane", "disc"


def inner(one, other):
    """The sum of the products of the entries, as far as both have some."""
    return sum(a * b for a, b in zip(one, other))


def reflected(point, mirror):
    """The image of a point."""
    twice = 2 * inner(mirror.form, point)
    return [a - twice * b for a, b in zip(point, mirror.vector)]


def cyclically_reduced(word):
    """A word of generators that are their own inverses without a letter beside itself, the last beside the first."""
    done = []
    for letter in word:
        if done and done[-1] == letter:
            done.pop()
        else:
            done.append(letter)
    while len(done) > 1 and done[0] == done[-1]:
        done = done[1:-1]
    return done


def coxeter_orders(presentation):
    """The order of the product of each two generators, 0 where it is infinite; None where this isn't a Coxeter group.

    Where two letters alternate, an equation says an order. What the others say has to hold of the reflections too, by
    which the Coxeter group is given faithfully.
    """
    count = len(presentation.names)
    if any(presentation.inverse[letter] != letter for letter in range(count)):
        return None
    orders, others = [[0] * count for _ in range(count)], []
    for left, right in presentation.equations:
        word = cyclically_reduced([*left, *reversed(right)])
        if len(word) > 2 and len(word) % 2 == 0 and word == word[:2] * (len(word) // 2):
            one, other = word[:2]
            orders[one][other] = orders[other][one] = math.gcd(orders[one][other], len(word) // 2)
        elif len(word) == 2:
            return None
        else:
            others.append(word)
    mirrors = standard_mirrors(gram(orders))
    unit = [[float(at == place) for at in range(count)] for place in range(count)]
    return orders if all(math.dist(led(vector, word, mirrors), vector) < NOTHING for word in others for vector in unit) else None


def gram(orders):
    """The products of the unit vectors of the mirrors: -cos(pi/m), and 1 of a mirror by itself."""
    count = len(orders)
    return [[1.0 if i == j else -math.cos(math.pi / orders[i][j]) if orders[i][j] else -1.0 for j in range(count)] for i in range(count)]


def standard_mirrors(products):
    """The mirrors in the standard representation, in which the vectors are the unit vectors."""
    return [Mirror(row, [float(at == place) for at in range(len(products))]) for place, row in enumerate(products)]


def led(point, word, mirrors):
    """The image of a point under a word, whose last letter acts first."""
    for letter in reversed(word):
        point = reflected(point, mirrors[letter])
    return point


# Where an element has its point, and the vectors of its mirrors, those to the elements beside it by each generator.
Frame = collections.namedtuple("Frame", "point walls")


class Reflections:
    """Mirrors of a Coxeter group in a space of constant curvature, and a point that is equally far from each.

    In `kind` is which space it is: a sphere around the origin, the plane at height one, or the upper sheet of the
    hyperboloid, which is drawn as Poincaré's disc.
    """

    def __init__(self, kind, mirrors, point):
        self.kind, self.mirrors = kind, mirrors
        self.first = Frame(self.normed(point), [mirror.vector for mirror in mirrors])

    def normed(self, point):
        """The point of the space on the line through the origin and a point."""
        if self.kind == PLANE:
            return [a / point[-1] for a in point]
        if self.kind == DISC:
            length = math.sqrt(point[-1] ** 2 - inner(point[:-1], point[:-1]))
            return [math.copysign(1, point[-1]) * a / length for a in point]
        return [a / math.hypot(*point) for a in point]

    def crossed(self, frame, letter):
        """The frame of the element behind the mirror of a letter: the same combination of walls as at the identity."""
        form, wall = self.mirrors[letter].form, frame.walls[letter]
        walls = [moved_by(it, -2 * inner(form, mirror.vector), wall) for it, mirror in zip(frame.walls, self.mirrors)]
        return Frame(moved_by(frame.point, -2 * inner(form, self.first.point), wall), walls)

    def image(self, word):
        """Where the element of a word has its point."""
        return functools.reduce(self.crossed, word, self.first).point


def moved_by(point, times, vector):
    """A point, moved by a vector so many times."""
    return [a + times * b for a, b in zip(point, vector)]


def reflections_of(presentation):
    """The reflections by which a Coxeter group can be drawn, or None."""
    orders = coxeter_orders(presentation)
    if not orders:
        return None
    turned = best_order(orders)
    rows, last = triangular(gram([[orders[i][j] for j in turned] for i in turned]))
    if rows is None or last <= NOTHING and len(rows) != 3:
        return None
    kind = SPHERE if last > NOTHING else PLANE if last > -NOTHING else DISC
    of_form, of_vector = {SPHERE: (1, 1), PLANE: (1, 0), DISC: (-1, 1)}[kind]
    mirrors = [Mirror([*row[:-1], of_form * row[-1]], [*row[:-1], of_vector * row[-1]]) for row in rows]
    return Reflections(kind, [mirrors[turned.index(letter)] for letter in range(len(orders))], equidistant(mirrors))


def best_order(orders):
    """The generators, first the two whose product has the greatest finite order: where their mirrors meet is the centre."""
    count = len(orders)
    pairs = [(orders[i][j], -i, -j) for i in range(count) for j in range(i)]
    first = [-it for it in max(pairs, default=(0,))[:0:-1]]
    return [*first, *(letter for letter in range(count) if letter not in first)]


def triangular(products):
    """Rows whose products are these, each as long as the number of rows, and what is left for the square of the last place.

    Where that is negative the last place counts with the other sign, and where it is 0 the place is one. None and 0 where
    there are no such rows.
    """
    rows, count, left = [], len(products), 1.0
    for at in range(count):
        row = [0.0] * count
        for place in range(at):
            row[place] = (products[at][place] - inner(row[:place], rows[place][:place])) / rows[place][place]
        left = 1 - inner(row, row)
        if left < NOTHING and at < count - 1:
            return None, 0
        row[at] = math.sqrt(abs(left)) if abs(left) > NOTHING else 1.0
        rows.append(row)
    return rows, left


def equidistant(mirrors):
    """The point at which each of the forms is one. The first form has one place that isn't 0, the second two, and so on."""
    point = []
    for mirror in mirrors:
        point.append((1 - inner(mirror.form, point)) / mirror.form[len(point)])
    return point
