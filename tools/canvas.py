"""Pictures in SVG: lines, arcs, dots and words at places in pixels, the ordinate upwards."""

import math

# Colours that people with any colour vision can tell apart (Okabe and Ito, Color Universal Design).
COLOURS = ["#0072B2", "#D55E00", "#009E73", "#CC79A7", "#E69F00", "#56B4E9", "#000000", "#8C6D1F"]
FONT = "Helvetica, Arial, sans-serif"
NARROW, WIDE = frozenset("ijlftr1.,;:' |-*()"), frozenset("mwMW%@")


def number(value):
    """A number with at most one decimal, as short as can be."""
    return f"{value:.1f}".removesuffix(".0").replace("-0.", "-.").removeprefix("0") or "0"


def escaped(text):
    """A text as it stands between the marks of SVG."""
    return text.replace("&", "&amp;").replace("<", "&lt;").replace(">", "&gt;")


def text_width(text, size):
    """About how wide a text is."""
    return size * sum(0.32 if it in NARROW else 0.85 if it in WIDE else 0.68 if it.isupper() else 0.56 for it in text)


class Canvas:
    """What is drawn, from below to above. Lines of one style that are drawn one behind the other become one path."""

    def __init__(self, width, height):
        self.width, self.height = width, height
        self.parts = []
        self.path_style, self.path = None, []

    def place(self, point):
        """The two numbers of a point as SVG has them, whose ordinate goes downwards."""
        x, y = number(point[0]), number(self.height - point[1])
        return f"{x}{'' if y[0] == '-' else ' '}{y}"

    def close_path(self):
        """Ends the path that is being drawn."""
        if self.path:
            self.parts.append(f'<path {self.path_style} d="{"".join(self.path)}"/>')
        self.path_style, self.path = None, []

    def add(self, style, steps):
        """Adds steps to the path of this style."""
        if style != self.path_style:
            self.close_path()
            self.path_style = style
        self.path.append(steps)

    def line(self, one, other, colour, width):
        """A straight line."""
        self.add(stroke(colour, width), f"M{self.place(one)}L{self.place(other)}")

    def arc_step(self, one, other, centre):
        """The step of a path along the shorter arc to a point around a centre; straight where the eye sees no difference."""
        if centre is None:
            return f"L{self.place(other)}"
        radius, half = math.dist(one, centre), math.dist(one, other) / 2
        if radius - math.sqrt(max(radius**2 - half**2, 0)) < 0.15:
            return f"L{self.place(other)}"
        turn = (one[0] - centre[0]) * (other[1] - centre[1]) - (one[1] - centre[1]) * (other[0] - centre[0])
        return f"A{number(radius)} {number(radius)} 0 0 {int(turn < 0)} {self.place(other)}"

    def polygon(self, points, colour):
        """A filled polygon."""
        self.add(f'fill="{colour}"', f"M{'L'.join(map(self.place, points))}z")

    def arrow_head(self, one, other, colour, size):
        """A small triangle on the line from a point to another, a little behind its middle."""
        length = math.dist(one, other) or 1
        along = [(b - a) / length for a, b in zip(one, other)]
        tip = [a + (b - a) * 0.5 + u * size for a, b, u in zip(one, other, along)]
        self.triangle(tip, along, 2 * size, 0.8 * size, colour)

    def triangle(self, tip, along, length, half, colour):
        """A triangle with a tip that points along a direction, so long and half so wide."""
        back, aside = [a - length * u for a, u in zip(tip, along)], (-along[1], along[0])
        self.polygon([tip, *([b + turn * half * n for b, n in zip(back, aside)] for turn in (1, -1))], colour)

    def dots(self, points, radius, fill, rim=None):
        """Round dots, as lines of no length with round ends, which are short to write."""
        for colour, wide in [(rim, 2 * radius + 1.6), (fill, 2 * radius)] if rim else [(fill, 2 * radius)]:
            for point in points:
                self.add(f'{stroke(colour, wide)} stroke-linecap="round"', f"M{self.place(point)}h0")

    def circle(self, centre, radius, fill, rim="none", width=1):
        """A circle with a rim."""
        self.close_path()
        x, y = number(centre[0]), number(self.height - centre[1])
        self.parts.append(f'<circle cx="{x}" cy="{y}" r="{number(radius)}" fill="{fill}" stroke="{rim}" stroke-width="{width}"/>')

    def text(self, point, words, size, anchor="start", colour="#222222", extra=""):
        """Words at a point of their base line."""
        self.close_path()
        x, y = number(point[0]), number(self.height - point[1])
        where = "" if anchor == "start" else f' text-anchor="{anchor}"'
        self.parts.append(f'<text x="{x}" y="{y}" font-size="{size}" fill="{colour}"{where}{extra}>{escaped(words)}</text>')

    def svg(self):
        """The text of the picture."""
        self.close_path()
        size = f'width="{self.width}" height="{self.height}"'
        head = f'<svg xmlns="http://www.w3.org/2000/svg" {size} viewBox="0 0 {self.width} {self.height}" font-family="{FONT}">'
        return "\n".join([head, f'<rect {size} fill="white"/>', *self.parts, "</svg>", ""])


def stroke(colour, width):
    """The style of a line."""
    return f'fill="none" stroke="{colour}" stroke-width="{width:.1f}"'


def swatches(names, letters, with_way):
    """What a legend says of generators: their names, colours, and whether each is an arrow or a line."""
    return [(names[letter], COLOURS[at % len(COLOURS)], letter in with_way) for at, letter in enumerate(letters)]


def legend_at(canvas, words, size=16, height=14):
    """Writes words at the foot, in the middle. Those that have a colour stand beside a line or an arrow of that colour."""
    widths = [text_width(word, size) + (8 if colour is None else 40) for word, colour, _ in words]
    at = (canvas.width - sum(widths)) / 2
    for (word, colour, has_way), width in zip(words, widths):
        if colour is None:
            canvas.text((at, height), word, size)
        else:
            one, other = (at, height + 5), (at + 24, height + 5)
            canvas.line(one, other, colour, 3)
            if has_way:
                canvas.arrow_head(one, other, colour, 5)
            canvas.text((at + 30, height), word, size, colour=colour, extra=' font-weight="bold"')
        at += width
