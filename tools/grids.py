"""Graphs on the points of a grid, so that few lines cross: from where springs would hold the points, by simulated annealing."""

import functools
import itertools
import math
import random

# What is to be avoided, and how much: lines that cross, that come near a point, or leave a point in nearly one direction; long
# lines, lines that don't lead to the right, a first line that isn't level, and points far from the middle.
CROSSING, NEAR, SHARP, LENGTH, BACK, SLANTED, FAR_OUT = 40.0, 60.0, 3.0, 0.3, 0.6, 4.0, 0.03
TOUCHING, SHARPEST = 0.34, 0.45

# How freely points are moved, at first and at last, and how often in all; how many tries there are, for how many points in all.
HOT, COLD, MOVES = 3.0, 0.05, 800
TRIES, FEWEST_TRIES, ROUNDS = 240, 10, 100
MOST_POINTS, MOST_LINES, KEPT = 32, 70, 1 << 18


def side(one, other, point):
    """On which side of the line from a point to another a third one is: above 0 on its left."""
    return (other[0] - one[0]) * (point[1] - one[1]) - (other[1] - one[1]) * (point[0] - one[0])


@functools.lru_cache(maxsize=KEPT)
def do_cross(one, other, third, fourth):
    """Whether the line between two points crosses that between two others."""
    return side(one, other, third) * side(one, other, fourth) < 0 and side(third, fourth, one) * side(third, fourth, other) < 0


@functools.lru_cache(maxsize=KEPT)
def is_near(point, one, other):
    """Whether a point nearly lies on the line between two others."""
    if not min(one[0], other[0]) <= point[0] <= max(one[0], other[0]) or not min(one[1], other[1]) <= point[1] <= max(one[1], other[1]):
        return False
    return side(one, other, point) ** 2 < TOUCHING**2 * ((other[0] - one[0]) ** 2 + (other[1] - one[1]) ** 2)


@functools.lru_cache(maxsize=KEPT)
def turn_between(middle, one, other):
    """The angle at a point between the lines to two others."""
    first = math.atan2(one[1] - middle[1], one[0] - middle[0])
    second = math.atan2(other[1] - middle[1], other[0] - middle[0])
    return abs((first - second + math.pi) % (2 * math.pi) - math.pi)


def distances(count, lines):
    """For each two points of a connected graph the number of lines on the way between them."""
    beside = [[sum(line) - at for line in lines if at in line] for at in range(count)]
    rows = []
    for start in range(count):
        row, wave = {start: 0}, [start]
        for at in wave:
            for to in beside[at]:
                if to not in row:
                    row[to] = row[at] + 1
                    wave.append(to)
        rows.append([row.get(to, count) for to in range(count)])
    return rows


def spring_places(far, chance):
    """Places in the plane, as complex numbers, whose distances are about these; what is nearer counts more."""
    count = len(far)
    places = [complex(chance.uniform(-1, 1), chance.uniform(-1, 1)) for _ in range(count)]
    for at in [*range(count)] * ROUNDS:
        pulled = weight = 0
        for to in range(count):
            if to != at:
                gap, share = places[at] - places[to], far[at][to] ** -2
                pulled += share * (places[to] + far[at][to] * gap / (abs(gap) or 1))
                weight += share
        places[at] = pulled / (weight or 1)
    return places


class Grid:
    """Places on a grid for the points of a graph. Point 0 is where a first line begins that leads to some other point."""

    def __init__(self, count, lines, places, chance):
        self.lines, self.chance = lines, chance
        self.own = [[number for number, line in enumerate(lines) if at in line] for at in range(count)]
        self.common = [[next(iter({*one} & {*other}), None) for other in lines] for one in lines]
        self.size = wide, high = math.ceil(1.5 * math.sqrt(count)) + 1, math.ceil(math.sqrt(count)) + 1
        self.middle = (wide - 1) / 2, (high - 1) / 2
        self.cells = list(itertools.product(range(wide), range(high)))
        self.place = self.nearest_cells(places)

    def nearest_cells(self, places):
        """For each place in the plane a cell of its own, near where it would be if all just filled the grid."""
        free, found = set(self.cells), []
        low, high = [(min(axis), max(axis)) for axis in zip(*((it.real, it.imag) for it in places))], self.size
        for place in places:
            wanted = [(it - a) / ((b - a) or 1) * (most - 1) for it, (a, b), most in zip((place.real, place.imag), low, high)]
            found.append(min(free, key=lambda cell: (math.dist(cell, wanted), cell)))
            free.remove(found[-1])
        return found

    def ends(self, number):
        """The places of the ends of a line."""
        one, other = self.lines[number]
        return self.place[one], self.place[other]

    def line_cost(self, number):
        """What a line costs by itself."""
        one, other = self.ends(number)
        wide, high = other[0] - one[0], other[1] - one[1]
        slanted = SLANTED * (abs(high) + max(0, 1 - wide)) if self.lines[number][0] == 0 else 0
        return LENGTH * (wide * wide + high * high) + BACK * max(0, 1 - wide) + slanted

    def pair_cost(self, one, other):
        """What two lines cost together."""
        at, place = self.common[one][other], self.place
        (a, b), (c, d) = self.lines[one], self.lines[other]
        if at is None:
            return CROSSING if do_cross(place[a], place[b], place[c], place[d]) else 0
        if turn_between(place[at], place[a + b - at], place[c + d - at]) >= SHARPEST:
            return 0
        return CROSSING if 0 in self.lines[one] + self.lines[other] else SHARP

    def cost(self, moved):
        """What all costs that changes where these points are moved."""
        own = {number for at in moved for number in self.own[at]}
        total = sum(self.line_cost(number) for number in own)
        for number in own:
            one, other = self.ends(number)
            total += NEAR * sum(is_near(place, one, other) for place in self.place[1:] if place not in (one, other))
            total += sum(self.pair_cost(number, it) for it in range(len(self.lines)) if it < number or it not in own)
        for number in range(len(self.lines)):
            if number not in own:
                total += sum(NEAR for at in moved if at and is_near(self.place[at], *self.ends(number)))
        return total + sum(FAR_OUT * math.dist(self.place[at], self.middle) ** 2 for at in moved)

    def try_move(self, at, cell, heat):
        """Moves a point to a cell, and what is there to the point's, or leaves both where that costs too much."""
        there = self.place.index(cell) if cell in self.place else at
        moved, old = {at, there}, self.place[at]
        before = self.cost(moved)
        self.place[there], self.place[at] = old, cell
        more = self.cost(moved) - before
        if more > 0 and (heat == 0 or self.chance.random() > math.exp(-more / heat)):
            self.place[there], self.place[at] = cell, old

    def cell_beside(self, at, aside, upwards):
        """The cell so far from that of a point, or the last one of the grid on that way."""
        return tuple(min(max(it + more, 0), most - 1) for it, more, most in zip(self.place[at], (aside, upwards), self.size))

    def settle(self):
        """Moves points by a cell or two, freely at first and less and less so, and then only where it is better."""
        near = list(itertools.product(range(-2, 3), repeat=2))
        for step in range(MOVES):
            at = self.chance.randrange(len(self.place))
            self.try_move(at, self.cell_beside(at, *self.chance.choice(near)), HOT * (COLD / HOT) ** (step / MOVES))
        for at, aside in itertools.product(range(len(self.place)), near):
            self.try_move(at, self.cell_beside(at, *aside), 0)


def grid_places(count, lines):
    """Places on a grid for the points of a graph with these lines, or None where there are too many. No place is below 0."""
    ordered = [(min(line), max(line)) if line[::-1] in lines else line for line in lines if line[0] != line[1]]
    ordered = list(dict.fromkeys(ordered))
    if count > MOST_POINTS or len(ordered) > MOST_LINES:
        return None
    places = placed(count, ordered)
    least = [min(axis) for axis in zip(*places)]
    return [(x - least[0], y - least[1]) for x, y in places]


def placed(count, lines):
    """The best places of some tries."""
    chance, found, far = random.Random(1), [], distances(count, lines)
    for _ in range(max(FEWEST_TRIES, TRIES // count)):
        grid = Grid(count, lines, spring_places(far, chance), chance)
        grid.settle()
        found.append((grid.cost(set(range(count))), grid.place))
    return min(found)[1]
