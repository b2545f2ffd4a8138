"""Where words stand beside points, so that they hide as little as can be."""

import math

from canvas import text_width
from views import distance_to_line

WAYS = 24
GAPS = (8, 12)
NEAR, APART, A_POINT_NEAR, A_PIXEL_OUT = 2.5, 4, 5, 20


def box_at(point, way, gap, width, size):
    """The box of a text in a direction from a point: its lower left and its upper right corner."""
    x, y = point[0] + gap * math.cos(way), point[1] + gap * math.sin(way)
    left = x - width / 2 + math.cos(way) * width / 2
    low = y - size * 0.36 + math.sin(way) * size * 0.36
    return left, low, left + width, low + size * 0.72


def box_around(point, size):
    """The box around a round thing."""
    return point[0] - size, point[1] - size, point[0] + size, point[1] + size


def overlap(one, other):
    """The area that two boxes have in common."""
    wide = min(one[2], other[2]) - max(one[0], other[0])
    high = min(one[3], other[3]) - max(one[1], other[1])
    return wide * high if wide > 0 and high > 0 else 0


def points_of(box):
    """Points of a box, a few pixels apart."""
    steps = max(2, round((box[2] - box[0]) / 3))
    wide, high = box[2] - box[0], box[3] - box[1]
    return [(box[0] + wide * at / steps, box[1] + high * level) for at in range(steps + 1) for level in (0, 0.5, 1)]


class Labels:
    """Words on a canvas, placed one by one, each where it hides least of what is there: lines, and boxes of other things."""

    def __init__(self, canvas, size, lines, boxes):
        self.canvas, self.size = canvas, size
        self.lines, self.boxes = lines, list(boxes)

    def cost(self, box, lines):
        """How much a word in a box would hide, or be hidden."""
        out = sum(max(0, it) for it in (-box[0], -box[1], box[2] - self.canvas.width, box[3] - self.canvas.height))
        hidden = sum(distance_to_line(point, *line) < NEAR for point in points_of(box) for line in lines)
        return sum(overlap(box, it) for it in self.boxes) + A_POINT_NEAR * hidden + A_PIXEL_OUT * out

    def write(self, point, word, middle=0, spread=math.pi):
        """Writes a word beside a point, in a direction that isn't more than a spread from a middle."""
        width = text_width(word, self.size)
        lines = [line for line in self.lines if distance_to_line(point, *line) < width + 2 * self.size]
        ways = [middle + spread * (2 * way / WAYS - 1) for way in range(WAYS + 1)]
        tries = [box_at(point, way, gap, width, self.size) for gap in GAPS for way in sorted(ways, key=lambda it: abs(it - middle))]
        box = min(tries, key=lambda it: self.cost(it, lines))
        self.boxes.append((box[0] - APART, box[1] - APART, box[2] + APART, box[3] + APART))
        self.canvas.text(box[:2], word, self.size, extra=' stroke="#FFFFFF" stroke-width="3" paint-order="stroke"')
