"""Poincaré's disc on a canvas: points, straight lines, and half planes. Points of the disc are complex numbers."""

import cmath
import math

NOTHING = 1e-6


def in_disc(point):
    """The point of the disc that belongs to a point of the hyperboloid."""
    return complex(point[0], point[1]) / (1 + point[2])


def moved(place, centre):
    """The place to which the motion that takes the centre to 0 takes a place."""
    return (place - centre) / (1 - centre.conjugate() * place)


def line_centre(one, other):
    """The centre of the circle that is the straight line through two points, or None where that is a diameter."""
    turn = one.real * other.imag - one.imag * other.real
    if abs(turn) < NOTHING:
        return None
    first, second = (1 + abs(one) ** 2) / 2, (1 + abs(other) ** 2) / 2
    return complex(first * other.imag - second * one.imag, second * one.real - first * other.real) / turn


class Disc:
    """The disc with its middle and its radius on a canvas, in pixels."""

    def __init__(self, canvas, middle, radius):
        self.canvas, self.middle, self.radius = canvas, middle, radius

    def place(self, point):
        """Where a point is on the canvas."""
        return self.middle[0] + self.radius * point.real, self.middle[1] + self.radius * point.imag

    def step(self, one, other):
        """The step of a path along the straight line from a point to another."""
        centre = line_centre(one, other)
        return self.canvas.arc_step(self.place(one), self.place(other), centre and self.place(centre))

    def line(self, style, one, other):
        """Draws the straight line between two points."""
        self.canvas.add(style, f"M{self.canvas.place(self.place(one))}{self.step(one, other)}")

    def half(self, vector):
        """The path around the half plane on the far side of a mirror with a vector of the hyperboloid's space.

        Where the rim behind the mirror is no longer than some pixels, its place is taken by a straight line.
        """
        way, tilt = complex(vector[0], vector[1]), math.hypot(*vector[:2])
        angle = math.acos(min(abs(vector[2]) / tilt, 1))
        middle = cmath.phase(way if vector[2] >= 0 else -way)
        one, other = cmath.rect(1, middle - angle), cmath.rect(1, middle + angle)
        centre = None if abs(vector[2]) < NOTHING else self.place(way / vector[2])
        ends = [self.canvas.place(self.place(it)) for it in (one, other)]
        rim = f"A{self.radius} {self.radius} 0 0 1 {ends[0]}" if self.radius * (1 - math.cos(angle)) > 0.4 else ""
        return f"M{ends[0]}{self.canvas.arc_step(self.place(one), self.place(other), centre)}{rim}z"

    def whole(self):
        """The path around the disc."""
        left, right = (self.canvas.place(self.place(it)) for it in (-1 + 0j, 1 + 0j))
        way = f"A{self.radius} {self.radius} 0 0 1 "
        return f"M{left}{way}{right}{way}{left}z"
