"""Balls of Cayley graphs in SVG, each where its group lives: in Poincaré's disc, on a sphere, in a tree, or in space."""

import math

from canvas import Canvas, legend_at, stroke
from disc import Disc, in_disc, moved
from eigenvectors import spectral_places
from labels import Labels, box_around
from radial_trees import tree_places
from reflections import DISC, PLANE, SPHERE, reflections_of
from views import best_seen

SIDE, MARGIN, FOOT = 640, 40, 34
MOST_WORDS, MOST_WORDS_IN_SPACE, WORD_SIZE = 60, 30, 13
GREY, RIM, BLACK, WHITE = "#BBBBBB", "#444444", "#000000", "#FFFFFF"

# A dot is drawn over the lines that lead to it, though their middles may be somewhat nearer.
DOT_BEFORE = 0.3


def mixed(colour, share):
    """A colour with a share of white."""
    parts = [int(colour[at : at + 2], 16) for at in (1, 3, 5)]
    return "#" + "".join(f"{round(part + (255 - part) * share):02X}" for part in parts)


class BallPicture:
    """A ball on a canvas."""

    def __init__(self, ball):
        self.ball = ball
        self.canvas = Canvas(SIDE, SIDE + FOOT)
        self.dot_size = 4 if len(ball.words) <= MOST_WORDS else 3
        self.colour = {letter: ball.colour(letter) for letter in ball.letters}

    def finished(self):
        """The text of the picture, with its legend."""
        words = [(f"{len(self.ball.words):,} elements;", None, False)]
        for kind, has_way in (("line", False), ("arrow", True)):
            letters = [letter for letter in self.colour if self.ball.has_way(letter) == has_way]
            words += [(kind + "s" * (len(letters) > 1), None, False)] if letters else []
            words += [(self.ball.names[letter], self.colour[letter], has_way) for letter in letters]
        legend_at(self.canvas, words)
        return self.canvas.svg()

    def edges(self, on, width):
        """Draws all edges in the plane, and then the directions of those that have one."""
        ordered = sorted(self.ball.edges)
        for letter, one, other in ordered:
            self.canvas.line(on[one], on[other], self.colour[letter], width)
        for letter, one, other in ordered:
            self.direction(letter, on[one], on[other], width, self.colour[letter])

    def direction(self, letter, one, other, width, colour):
        """Draws the direction of an edge where its generator has one."""
        if self.ball.has_way(letter):
            self.canvas.arrow_head(one, other, colour, 2.2 * width)

    def in_space(self, places):
        """Draws elements at places in space, what is farther paler."""
        seen = best_seen(places, self.ball.edges)
        wide = max(max(abs(x), abs(y)) for x, y, _ in seen)
        scale = (SIDE / 2 - MARGIN) / wide
        on = [(SIDE / 2 + scale * x, SIDE / 2 + FOOT + scale * y) for x, y, _ in seen]
        things = [((seen[it[1]][2] + seen[it[2]][2]) / 2, 0, it) for it in self.ball.edges]
        things += [(depth + DOT_BEFORE, 1, at) for at, (_, _, depth) in enumerate(seen)]
        for depth, is_dot, it in sorted(things):
            share = round(0.31 * (1 - depth), 1)
            if is_dot and it == 0:
                self.canvas.dots([on[it]], self.dot_size + 1, BLACK)
            elif is_dot:
                self.canvas.dots([on[it]], self.dot_size, mixed(GREY, share), mixed(RIM, share))
            else:
                letter, one, other = it
                width = 2.6 + 0.9 * depth
                self.canvas.line(on[one], on[other], WHITE, width + 3)
                self.canvas.line(on[one], on[other], mixed(self.colour[letter], share), width)
                self.direction(letter, on[one], on[other], width, mixed(self.colour[letter], share))
        self.words_beside(on, MOST_WORDS_IN_SPACE)

    def words_beside(self, on, most):
        """Writes least words beside the dots where they are few."""
        if len(on) > most:
            return
        lines = [(on[one], on[other]) for _, one, other in self.ball.edges]
        labels = Labels(self.canvas, WORD_SIZE, lines, [box_around(it, self.dot_size + 1) for it in on])
        for at, place in enumerate(on):
            labels.write(place, self.ball.label(at))

    def in_plane(self, places):
        """Draws elements at places in the plane."""
        low, high = [min(axis) for axis in zip(*places)], [max(axis) for axis in zip(*places)]
        scale = (SIDE - 2 * MARGIN) / max(max(b - a for a, b in zip(low, high)), 1e-9)
        middle = [(a + b) / 2 for a, b in zip(low, high)]
        on = [(SIDE / 2 + scale * (x - middle[0]), SIDE / 2 + FOOT + scale * (y - middle[1])) for x, y in places]
        self.edges(on, 2.2)
        self.canvas.dots(on[1:], self.dot_size, GREY, RIM)
        self.canvas.dots(on[:1], self.dot_size + 1, BLACK)
        self.words_beside(on, MOST_WORDS)

    def in_disc(self, points):
        """Draws elements in Poincaré's disc, the identity in the middle, smaller towards the rim."""
        middle = points[0]
        points = [moved(point, middle) for point in points]
        disc = Disc(self.canvas, (SIDE / 2, SIDE / 2 + FOOT), SIDE / 2 - 8)
        self.canvas.circle(disc.middle, disc.radius, "#F6F8FA", "#222222", 1.2)
        for letter in self.colour:
            sized = sorted((size_at(points[one], points[other]), one, other) for it, one, other in self.ball.edges if it == letter)
            for size, one, other in sized:
                disc.line(stroke(self.colour[letter], 4.2 * size), points[one], points[other])
        for size, at in sorted((size_at(point, point), at) for at, point in enumerate(points)):
            self.canvas.dots([disc.place(points[at])], 5.5 * size, BLACK if at == 0 else RIM)


def size_at(one, other):
    """How large things are drawn near two points of the disc, one of a few sizes; 1 in the middle."""
    exact = 1 - (abs(one) ** 2 + abs(other) ** 2) / 2
    return max(0.7 ** round(math.log(exact) / math.log(0.7)), 0.12)


def ball_picture(ball, presentation, spring_places):
    """The text of a picture of the ball, or None. Where its group has no place of its own, springs find places for it, or none."""
    picture, reflections = BallPicture(ball), reflections_of(presentation)
    kind = reflections and reflections.kind
    images = [reflections.image(word) for word in ball.words] if reflections else []
    if kind == DISC:
        picture.in_disc([in_disc(point) for point in images])
    elif kind == PLANE:
        picture.in_plane([point[:2] for point in images])
    elif kind == SPHERE and len(reflections.mirrors) == 3:
        picture.in_space(images)
    else:
        return other_picture(picture, spring_places)
    return picture.finished()


def other_picture(picture, spring_places):
    """The same of a ball of a group that isn't known to be one of reflections."""
    ball = picture.ball
    if places := tree_places(ball):
        picture.in_plane(places)
    elif places := ball.is_whole and spectral_places(len(ball.words), ball.edges):
        picture.in_space(places)
    elif places := spring_places():
        picture.in_plane(places)
    else:
        return None
    return picture.finished()
