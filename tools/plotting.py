"""The course of a completion as a plot in SVG: how many lines are live, and how long the longest left side is."""

import collections
import itertools
import re

from canvas import COLOURS, Canvas
from readers import Refused

WIDTH, HEIGHT = 760, 400
LEFT, RIGHT, BOTTOM, TOP = 84, 70, 62, 50
LIVE, LONGEST = COLOURS[1], COLOURS[0]
MOST_POINTS = 1200

PAIR = r"(R\d+|M\d+,\d+,\d+|K\d+|S\d+) (\S+)"
LINE = re.compile(rf"(\d+) {PAIR} -> (\S+)(?: : \S+ : \S+)?")
OPEN = re.compile(rf"open {PAIR} <> (\S+)(?: : \S+ : \S+)?")

Course = collections.namedtuple("Course", "live longest is_open")


def lines_of(text, name):
    """The origins and left sides of the lines of a log, and whether a pair is open behind them."""
    head, *rows = text.split("\n")
    if head not in ("kblog 1", "kblog 2"):
        raise Refused(f"{name}.kblog is no log: it doesn't begin with the line kblog 2")
    if not rows or rows.pop():
        raise Refused(f"{name}.kblog is no log: it doesn't end with a newline")
    is_open = bool(rows) and bool(OPEN.fullmatch(rows[-1]))
    found = [LINE.fullmatch(row) for row in rows[: len(rows) - is_open]]
    for at, row in enumerate(found, 1):
        if not row or int(row[1]) != at:
            raise Refused(f"{name}.kblog is no log: its line {at + 1} isn't that of number {at}")
    return [(row[2], row[3]) for row in found], is_open


def letters(word, number):
    """A word as a text with one character a letter, so that factors are found fast."""
    return "" if word == "IdWord" else "".join(number.setdefault(it, chr(0x100 + len(number))) for it in word.split("*"))


def course(text, name):
    """How many lines are live behind each line of a log, and how many letters the longest of their left sides has."""
    number, live, lengths = {}, {}, collections.Counter()
    found = Course([0], [0], False)
    rows, is_open = lines_of(text, name)
    for line, (origin, word) in enumerate(rows, 1):
        left = letters(word, number)
        gone = [int(origin[1:])] if origin[0] == "S" else [other for other, side in live.items() if left in side]
        for other in gone:
            lengths[len(live.pop(other, ""))] -= 1
        live[line] = left
        lengths[len(left)] += 1
        found.live.append(len(live))
        found.longest.append(max(length for length, count in lengths.items() if count > 0))
    return found._replace(is_open=is_open)


def step_of(most):
    """The least of the numbers 1, 2, 5, 10, 20, .. of which eight steps lead at least so far."""
    return next(step for power in itertools.count() for step in (10**power, 2 * 10**power, 5 * 10**power) if 8 * step >= most)


class Axis:
    """A scale from 0 to an end, over some pixels."""

    def __init__(self, end, low, high):
        self.end, self.step = max(end, 1), step_of(end)
        self.low, self.high = low, high

    def rounded(self):
        """The axis, up to its next round number."""
        self.end += -self.end % self.step
        return self

    def at(self, value):
        """Where a value is."""
        return self.low + (self.high - self.low) * value / self.end

    def ticks(self):
        """The values at which numbers stand."""
        return range(0, self.end + 1, self.step)


def course_picture(text, name):
    """The text of the picture."""
    found = course(text, name)
    canvas = Canvas(WIDTH, HEIGHT)
    lines = Axis(len(found.live) - 1, LEFT, WIDTH - RIGHT)
    live, longest = (Axis(max(values), BOTTOM, HEIGHT - TOP).rounded() for values in found[:2])
    frame(canvas, lines, live, longest)
    for axis, values, colour, width in [(longest, found.longest, LONGEST, 1.6), (live, found.live, LIVE, 2.4)]:
        seen = [line for line in thinned(len(values)) if values[line]] or [0]
        points = [(lines.at(line), axis.at(values[line])) for line in seen]
        canvas.add(f'fill="none" stroke="{colour}" stroke-width="{width}" stroke-linejoin="round"', f"M{'L'.join(map(canvas.place, points))}")
    said = f"{name}: {found.live[-1]:,} of {len(found.live) - 1:,} lines are live at the end"
    canvas.text((LEFT, HEIGHT - 24), said + (", and a pair is open" if found.is_open else ""), 17)
    return canvas.svg()


def frame(canvas, lines, live, longest):
    """Draws the axes with their names and numbers."""
    for tick in live.ticks():
        canvas.line((LEFT, live.at(tick)), (WIDTH - RIGHT, live.at(tick)), "#DDDDDD", 1)
    for tick in live.ticks():
        canvas.text((LEFT - 8, live.at(tick) - 5), f"{tick:,}", 14, "end", LIVE)
    for tick in longest.ticks():
        canvas.text((WIDTH - RIGHT + 8, longest.at(tick) - 5), f"{tick:,}", 14, "start", LONGEST)
    for tick in lines.ticks():
        canvas.line((lines.at(tick), BOTTOM), (lines.at(tick), BOTTOM - 5), "#555555", 1)
        canvas.text((lines.at(tick), BOTTOM - 21), f"{tick:,}", 14, "middle")
    canvas.line((LEFT, BOTTOM), (WIDTH - RIGHT, BOTTOM), "#555555", 1)
    canvas.text(((LEFT + WIDTH - RIGHT) / 2, 12), "lines of the log", 15, "middle")
    sideways(canvas, 18, "live lines", LIVE)
    sideways(canvas, WIDTH - 14, "letters of the longest left side", LONGEST)


def sideways(canvas, abscissa, words, colour):
    """Writes the name of an upright axis."""
    middle = (BOTTOM + HEIGHT - TOP) / 2
    turn = f' transform="rotate(-90 {abscissa} {HEIGHT - middle:.0f})"'
    canvas.text((abscissa, middle), words, 15, "middle", colour, turn)


def thinned(count):
    """Numbers from 0 to the last, not too many."""
    step = max(1, -(-count // MOST_POINTS))
    return sorted({*range(0, count, step), count - 1})
