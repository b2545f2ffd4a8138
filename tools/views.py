"""From where points in space and the lines between them are best seen."""

import math

from reflections import inner

EYE = 4.5
MOST_WORK = 1_500_000
TURNS, TILTS = 90, (0.12, 0.24, 0.36, 0.0)


def normed(vector):
    """The vector of length one in a direction."""
    length = math.hypot(*vector) or 1
    return [a / length for a in vector]


def cross(one, other):
    """The vector product."""
    return [one[1] * other[2] - one[2] * other[1], one[2] * other[0] - one[0] * other[2], one[0] * other[1] - one[1] * other[0]]


def upright(places):
    """The places turned so that the first one is lowest, and scaled so that none is farther than 1 from the middle."""
    size = max(math.hypot(*place) for place in places)
    axis = normed([-a for a in places[0]])
    aside = normed(cross(axis, min(((1, 0, 0), (0, 1, 0), (0, 0, 1)), key=lambda unit: abs(inner(axis, unit)))))
    frame = aside, axis, cross(aside, axis)
    return [[inner(place, unit) / size for unit in frame] for place in places]


def seen(places, turn, tilt):
    """The places turned around the vertical axis, tilted, and seen from an eye in front: abscissa, ordinate, and depth."""
    found = []
    for x, y, z in places:
        x, z = x * math.cos(turn) - z * math.sin(turn), x * math.sin(turn) + z * math.cos(turn)
        y, z = y * math.cos(tilt) - z * math.sin(tilt), y * math.sin(tilt) + z * math.cos(tilt)
        nearer = EYE / (EYE - z)
        found.append((x * nearer, y * nearer, z))
    return found


def distance_to_line(point, one, other):
    """How far a point is from the line between two points."""
    along = other[0] - one[0], other[1] - one[1]
    length = along[0] ** 2 + along[1] ** 2
    share = ((point[0] - one[0]) * along[0] + (point[1] - one[1]) * along[1]) / length if length else 0
    share = min(max(share, 0), 1)
    return math.hypot(point[0] - one[0] - share * along[0], point[1] - one[1] - share * along[1])


def clearance(places, lines):
    """How near the nearest come: a point and a line that doesn't lead to it."""
    least = math.inf
    for one, other in lines:
        a, b = places[one], places[other]
        left, right = min(a[0], b[0]) - least, max(a[0], b[0]) + least
        low, high = min(a[1], b[1]) - least, max(a[1], b[1]) + least
        for at, point in enumerate(places):
            if left < point[0] < right and low < point[1] < high and at not in (one, other):
                least = min(least, distance_to_line(point[:2], a[:2], b[:2]))
    return least


def best_seen(places, edges):
    """Abscissa, ordinate and depth of each place, seen so that points and lines are as far apart as can be."""
    places = upright([[*place, 0, 0][:3] for place in places])
    lines = sorted({(min(edge[1:]), max(edge[1:])) for edge in edges if edge[1] != edge[2]})
    tries = [(at * math.pi / TURNS * 2, tilt) for tilt in TILTS for at in range(TURNS)]
    every = max(1, round(len(tries) * len(places) * len(lines) / MOST_WORK))
    return max((seen(places, *it) for it in tries[::every]), key=lambda it: clearance(it, lines))
