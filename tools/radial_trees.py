"""Graphs that are trees of lines and polygons, laid out around one of their points, without a crossing."""

import math


class TreeOfPolygons:
    """A graph of which each part that no point takes apart is a line or a polygon, seen from its point 0.

    In `hanging` are for each point the parts that hang on it, in the order of the lines that lead to them: each as the
    list of its points without that one, around the polygon; one point where the part is a line. None where the graph
    isn't so.
    """

    def __init__(self, beside):
        self.beside = beside
        self.above, self.depth = {0: None}, {0: 0}
        self.hanging = {at: [] for at in range(len(beside))}
        if not self.search():
            self.hanging = None

    def search(self):
        """Goes through the graph depth first; a line back to a point on the way closes a polygon of the way's lines."""
        way, closed = [(0, iter(self.beside[0]))], {}
        while way:
            at, others = way[-1]
            to = next(others, None)
            if to is None:
                way.pop()
            elif to not in self.above:
                self.above[to], self.depth[to] = at, self.depth[at] + 1
                way.append((to, iter(self.beside[to])))
            elif to != self.above[at] and self.depth[to] < self.depth[at]:
                polygon = self.way_up(at, to)
                if any(it in closed for it in polygon):
                    return False
                closed.update((it, polygon) for it in polygon)
        return len(self.above) == len(self.beside) and self.hang(closed)

    def way_up(self, at, to):
        """The points above a point, itself the last, up to one that isn't among them."""
        found = []
        while at != to:
            found.append(at)
            at = self.above[at]
        return found[::-1]

    def hang(self, closed):
        """Hangs each part on its highest point."""
        for at, others in enumerate(self.beside):
            for to in others:
                polygon = closed.get(to) if self.above[to] == at else None
                if self.above[to] == at and polygon is None:
                    self.hanging[at].append([to])
                elif polygon and polygon[0] == to:
                    self.hanging[at].append(polygon)
        return True

    def leaves(self):
        """For each point how many points with nothing below there are below it; 1 of such a point itself."""
        count = {}
        for at in sorted(self.above, key=self.depth.get, reverse=True):
            count[at] = sum(count[to] for part in self.hanging[at] for to in part) or 1
        return count

    def places(self):
        """A place for each point: a share of the circle by its leaves, and farther out the more lines it is away.

        A polygon is a regular one with lines of length one, or narrower where its share of the circle is.
        """
        leaves = self.leaves()
        start = -math.pi / leaves[0] * sum(leaves[to] for part in self.hanging[0][:1] for to in part)
        polar, waiting = [(0.0, 0.0)] * len(self.beside), [(0, start, start + 2 * math.pi)]
        while waiting:
            at, first, last = waiting.pop()
            a_leaf = (last - first) / leaves[at]
            for part in self.hanging[at]:
                shares = []
                for to in part:
                    shares.append((to, first, first + a_leaf * leaves[to]))
                    first = shares[-1][-1]
                waiting += shares
                for (to, *_), place in zip(shares, part_places(polar[at][0], [(low + high) / 2 for _, low, high in shares])):
                    polar[to] = place
        return [(radius * math.cos(angle), radius * math.sin(angle)) for radius, angle in polar]


def part_places(radius, angles):
    """Radii and angles of the points of a part that hangs on a point at a radius, where their shares have these middles."""
    if len(angles) == 1:
        return [(radius + 1, angles[0])]
    axis, corner = (angles[0] + angles[-1]) / 2, 2 * math.pi / (len(angles) + 1)
    size, found = 1 / (2 * math.sin(corner / 2)), []
    for number, angle in enumerate(angles, 1):
        out, aside = radius + size * (1 - math.cos(corner * number)), -size * math.sin(corner * number)
        turn = math.atan2(aside, out)
        narrow = abs(turn) > abs(angle - axis)
        found.append((math.hypot(out, aside), angle if narrow else axis + turn))
    return found


def around(ball):
    """For each element those beside it: first by the generators in their order, then by their inverses.

    The order goes around, and begins behind the line to the element's own least word without its last letter.
    """
    beside = [{} for _ in ball.words]
    for letter, one, other in ball.edges:
        beside[one][0, letter] = other
        beside[other][int(ball.has_way(letter)), letter] = one
    return [turned(found, ball.number.get(word[:-1]) if word else None) for found, word in zip(beside, ball.words)]


def turned(found, before):
    """The elements in the order of their keys, turned so that this one comes last."""
    row = list(dict.fromkeys(found[key] for key in sorted(found)))
    at = row.index(before) + 1 if before in row else 0
    return row[at:] + row[:at]


def tree_places(ball):
    """Places in the plane of the elements of a ball that is a tree of lines and polygons, or None."""
    tree = TreeOfPolygons(around(ball))
    return tree.places() if tree.hanging is not None else None
