"""The tiling of Poincaré's disc by the triangles of a triangle group, and the tree of the least words in it."""

from canvas import COLOURS, Canvas, legend_at, stroke, swatches
from disc import Disc, in_disc
from readers import Refused
from reflections import DISC

RADIUS, MARGIN, FOOT = 310, 8, 34
LIGHT, DARK = "#FFFFFF", "#D5E1EB"

# How far from the middle triangles are drawn, and how far the tree; elements a little farther are looked at.
FARTHEST, FARTHEST_OF_TREE, SLACK = 0.984, 0.94, 0.003

# Widths of the tree's lines, from the middle to the rim, each as far as the distance beside it.
WIDTHS = [(3.8, 0.65), (2.5, 0.82), (1.7, 0.89), (1.1, 1)]


class Tiling:
    """The mirrors of a hyperbolic triangle group, each by its vector, and the steps of the least words.

    A step is the letter that is added, the place of the word before it, and that of the word with it. Words are followed
    as long as their steps are not far out.
    """

    def __init__(self, acceptor, reflections):
        self.reflections = reflections
        self.mirrors, self.steps = set(), []
        front = [(reflections.first, acceptor.initial, True)]
        while front:
            front = [it for frame, state, is_near in front for it in self.grown(frame, acceptor.rows[state], is_near)]

    def grown(self, frame, row, is_near):
        """Takes up an element, and returns the frames and states of those whose least words have one letter more."""
        place = in_disc(frame.point)
        self.mirrors.update(key(wall) for wall in frame.walls if nearest(wall) < FARTHEST)
        following = []
        for symbol, state in sorted(row.items()):
            other = self.reflections.crossed(frame, symbol - 1)
            to = in_disc(other.point)
            steps_on = is_near and abs(to) < FARTHEST_OF_TREE
            if steps_on:
                self.steps.append((symbol - 1, place, to))
            if abs(to) < FARTHEST + SLACK:
                following.append((other, state, steps_on))
        return following


def key(wall):
    """The same vector for both sides of a mirror, rounded, so that each mirror is drawn once."""
    rounded = [round(entry, 4) + 0.0 for entry in wall]
    leading = next(entry for entry in reversed(rounded) if entry)
    return tuple(entry if leading > 0 else 0.0 - entry for entry in rounded)


def nearest(wall):
    """How far the nearest point of a mirror is from the middle of the disc."""
    return (1 + wall[2] ** 2) ** 0.5 / abs(wall[2]) - 1 / abs(wall[2]) if abs(wall[2]) > 1e-9 else 0


def tiling_picture(names, acceptor, reflections):
    """The text of the picture: triangles light and dark, that of the identity light, and over them the tree."""
    if reflections is None or reflections.kind != DISC:
        raise Refused("a tiling is drawn of a group of three reflections in the sides of a hyperbolic triangle, as examples/triangle-2-3-7")
    tiling = Tiling(acceptor, reflections)
    side = 2 * (RADIUS + MARGIN)
    canvas = Canvas(side, side + FOOT)
    disc = Disc(canvas, (side / 2, side / 2 + FOOT), RADIUS)
    canvas.circle(disc.middle, RADIUS, LIGHT)
    canvas.add(f'fill="{DARK}" fill-rule="evenodd"', dark_triangles(disc, sorted(tiling.mirrors), reflections.first.point))
    for width, from_middle in tree_by_width(tiling.steps):
        for letter in range(3):
            for one, other in from_middle.get(letter, []):
                disc.line(f'{stroke(COLOURS[letter], width)} stroke-linecap="round"', one, other)
    canvas.circle(disc.middle, RADIUS, "none", "#222222", 1.2)
    canvas.circle(disc.place(in_disc(reflections.first.point)), 5, "#000000")
    legend_at(canvas, [("each triangle is an element; its least word by lines", None, False), *swatches(names, range(3), ())])
    return canvas.svg()


def dark_triangles(disc, mirrors, point):
    """A path that is filled, by the rule evenodd, where an odd number of mirrors is between a place and this point."""
    x, y, height = point
    behind = sum(a * x + b * y > c * height for a, b, c in mirrors)
    return "".join(disc.half(mirror) for mirror in mirrors) + disc.whole() * (behind % 2)


def tree_by_width(steps):
    """For each width of lines the steps that have it, by their letters."""
    nearer = 0
    for width, distance in WIDTHS:
        found = {}
        for letter, one, other in steps:
            if nearer <= abs(other) < distance:
                found.setdefault(letter, []).append((one, other))
        yield width, found
        nearer = distance
