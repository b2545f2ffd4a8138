"""Automata in SVG: states as circles on a grid, arrows with their symbols beside."""

import math

from canvas import Canvas, stroke, text_width
from grids import grid_places
from labels import Labels, box_around
from views import distance_to_line

WIDE, HIGH, TALLER, MARGIN, FOOT = 118, 92, 112, 62, 40
CIRCLE, RIM, FILL, DARK = 17, "#0072B2", "#E8F1F8", "#555555"
SIZE, BEND, START, LOOP, HEAD = 14, 17, 62, 13, 8
MOST_SYMBOLS = 6

# The middle of a loop and of its symbols is so far from the state's, and needs no more room than so much around it. Loops are best
# above, else below, aside, or elsewhere.
ROOM_AT, ENOUGH = 36, 24
WAYS = [math.pi / 2 + turn * math.pi / 8 for turn in (0, 8, -4, 4, 1, -1, 2, -2, 3, -3, 5, -5, 6, -6, 7, -7)]


def bent(one, other, bend, count=60):
    """Points on the way from a point to another, which is bent to its left by some pixels."""
    along = other[0] - one[0], other[1] - one[1]
    length = math.hypot(*along) or 1
    left = -along[1] / length, along[0] / length
    shares = [at / (count - 1) for at in range(count)]
    return [tuple(a + s * d + 4 * s * (1 - s) * bend * n for a, d, n in zip(one, along, left)) for s in shares]


def around(centre, radius, way, count=60):
    """Points on a circle, from one that lies in a direction and around to it."""
    turns = [way + 2 * math.pi * at / (count - 1) for at in range(count)]
    return [(centre[0] + radius * math.cos(turn), centre[1] + radius * math.sin(turn)) for turn in turns]


class Drawing:
    """The states of an automaton picture on a canvas. Point 0 is where the arrow to the initial state begins."""

    def __init__(self, picture, places):
        self.picture = picture
        columns, rows = (max(axis) for axis in zip(*places))
        longest = max([text_width(", ".join(symbols), SIZE) for symbols in picture.arrows.values()] or [0])
        wide, high = round(max(WIDE, 80 + longest)), HIGH if longest < WIDE - 80 else TALLER
        self.caption = picture.caption()
        width = max(wide * columns + 2 * MARGIN, round(text_width(self.caption, SIZE)) + 20)
        self.canvas = Canvas(width, high * rows + 2 * MARGIN + FOOT)
        shift = (width - wide * columns) / 2
        self.on = [(shift + wide * x, MARGIN + FOOT + high * y) for x, y in places]
        if self.picture.automaton.initial is not None:
            to = self.on[self.picture.automaton.initial]
            self.on[0] = tuple(b + (a - b) * START / math.dist(self.on[0], to) for a, b in zip(self.on[0], to))
        self.lines, self.symbols = [], []

    def draw(self):
        """The text of the picture."""
        arrows, initial = self.picture.arrows, self.picture.automaton.initial
        if initial is not None:
            self.arrow(bent(self.on[0], self.on[initial], 0), (), self.on[initial])
            self.canvas.dots(self.on[:1], 3, DARK)
        for (one, other), symbols in arrows.items():
            if one != other:
                start, end, has_back = self.on[one], self.on[other], (other, one) in arrows
                middle = self.arrow(bent(start, end, BEND if has_back else 0), start, end)
                leftwards = math.atan2(end[0] - start[0], start[1] - end[1])
                self.symbols.append((symbols, middle, *((leftwards, 1.5) if has_back else (math.pi / 2, math.pi))))
        for (one, other), symbols in arrows.items():
            if one == other:
                self.loop(one, symbols)
        self.states()
        self.write_symbols()
        self.canvas.text((self.canvas.width / 2, 16), self.caption, SIZE, "middle")
        return self.canvas.svg()

    def arrow(self, points, *states):
        """Draws an arrow along points, as far as they are outside the circles of states, and returns its middle."""
        seen = [it for it in points if all(not state or math.dist(it, state) > CIRCLE + 1 for state in states)]
        self.lines += zip(seen[::6], [*seen[6::6], seen[-1]])
        tip, before = seen[-1], next(it for it in reversed(seen) if math.dist(it, seen[-1]) > HEAD)
        along = [(a - b) / math.dist(tip, before) for a, b in zip(tip, before)]
        neck = [a - HEAD * u for a, u in zip(tip, along)]
        kept = [it for it in seen if math.dist(it, tip) > HEAD]
        self.canvas.add(stroke(DARK, 1.3), f"M{'L'.join(map(self.canvas.place, thinned(kept)))}L{self.canvas.place(neck)}")
        self.canvas.triangle(tip, along, HEAD, 3.6, DARK)
        return seen[len(seen) // 2]

    def loop(self, at, symbols):
        """Draws an arrow from a state to itself, where there is most room around it."""
        way = self.free_way(at)
        unit = math.cos(way), math.sin(way)
        centre = tuple(a + (CIRCLE + 10) * u for a, u in zip(self.on[at], unit))
        self.arrow(around(centre, LOOP, way + math.pi), self.on[at])
        self.symbols.append((symbols, tuple(a + LOOP * u for a, u in zip(centre, unit)), way, 1))

    def free_way(self, at):
        """The direction from a state in which lines and other states leave most room: of several the first of WAYS."""

        def room(way):
            middle = tuple(a + ROOM_AT * u for a, u in zip(self.on[at], (math.cos(way), math.sin(way))))
            states = [math.dist(middle, it) - CIRCLE for number, it in enumerate(self.on) if number not in (0, at)]
            return min([distance_to_line(middle, *line) for line in self.lines] + states + [ENOUGH])

        return max(WAYS, key=room)

    def states(self):
        """Draws the states with their numbers; with two rims where not all accept and this one does."""
        automaton = self.picture.automaton
        for state in range(1, automaton.size + 1):
            self.canvas.circle(self.on[state], CIRCLE, FILL, RIM, 1.4)
            if state in automaton.accepting and len(automaton.accepting) < automaton.size:
                self.canvas.circle(self.on[state], CIRCLE - 3.5, FILL, RIM, 1.4)
            x, y = self.on[state]
            self.canvas.text((x, y - 5), str(state), SIZE, "middle")

    def write_symbols(self):
        """Writes the symbols beside the arrows."""
        labels = Labels(self.canvas, SIZE, self.lines, [box_around(it, CIRCLE) for it in self.on[1:]])
        for symbols, point, middle, spread in self.symbols:
            labels.write(point, ", ".join(symbols), middle, spread)


def thinned(points):
    """The first of the points, those that bend the way, and the last."""
    kept = points[:1]
    for at in range(1, len(points) - 1):
        one, other = kept[-1], points[at + 1]
        if abs((points[at][0] - one[0]) * (other[1] - one[1]) - (points[at][1] - one[1]) * (other[0] - one[0])) > 1:
            kept.append(points[at])
    return [*kept, points[-1]]


def automaton_picture(picture):
    """The text of the picture, or None where there is more than can be read on a grid."""
    initial = picture.automaton.initial
    if any(len(symbols) > MOST_SYMBOLS for symbols in picture.arrows.values()):
        return None
    places = grid_places(picture.automaton.size + 1, [*([(0, initial)] if initial else []), *picture.arrows])
    return Drawing(picture, places).draw() if places else None
