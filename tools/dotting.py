"""Automata and balls of Cayley graphs as Graphviz DOT."""

import collections

from elements import TooLarge

MOST_STATES = 80
MOST_ARROWS = 240
FONT = 'fontname="Helvetica"'


def quoted(text):
    """A text as a string of DOT."""
    return '"' + text.replace("\\", "\\\\").replace('"', '\\"') + '"'


class AutomatonPicture:
    """States as circles, numbered as in the file. Where some state doesn't accept, those that do have a double rim."""

    def __init__(self, automaton):
        self.automaton = automaton
        self.arrows = collections.defaultdict(list)
        for state in range(1, automaton.size + 1):
            for symbol, target in sorted(automaton.rows[state].items()):
                self.arrows[state, target].append(self.symbol(symbol))
        if automaton.size > MOST_STATES or len(self.arrows) > MOST_ARROWS:
            raise TooLarge(
                f"{automaton.size} states and {len(self.arrows)} arrows are too many for a picture: "
                f"at most {MOST_STATES} states and {MOST_ARROWS} arrows are drawn"
            )

    def symbol(self, number):
        """A letter's name; of a pair both, with a dot for the padding."""
        names = [name.decode() for name in self.automaton.names]
        if not self.automaton.is_pairs:
            return names[number - 1]
        first, second = divmod(number - 1, len(names) + 1)
        return f"{(names + ['·'])[first]}|{(names + ['·'])[second]}"

    def label(self, symbols):
        """The symbols of an arrow, a few on each line."""
        a_line = 3 if self.automaton.is_pairs else 5
        lines = [", ".join(symbols[at : at + a_line]) for at in range(0, len(symbols), a_line)]
        return '"' + "\\n".join(quoted(line)[1:-1] for line in lines) + '"'

    def dot(self):
        """The text for Graphviz."""
        automaton = self.automaton
        all_accept = len(automaton.accepting) == automaton.size
        lines = [
            "digraph automaton {",
            "  rankdir=LR; nodesep=0.35; ranksep=0.6;",
            f'  graph [{FONT}, fontsize=13, labelloc=b, label="{self.caption()}"];',
            f'  node [{FONT}, fontsize=14, shape=circle, width=0.45, fixedsize=true, style=filled, fillcolor="#E8F1F8", color="#0072B2"];',
            f'  edge [{FONT}, fontsize=13, color="#555555", fontcolor="#222222", arrowsize=0.7];',
        ]
        if automaton.initial is not None:
            lines += ['  start [shape=point, width=0.08, fillcolor="#555555", color="#555555"];', f"  start -> {automaton.initial};"]
        for state in range(1, automaton.size + 1):
            accepts = not all_accept and state in automaton.accepting
            lines.append(f"  {state} [shape=doublecircle, width=0.4];" if accepts else f"  {state};")
        lines += [f"  {a} -> {b} [label={self.label(names)}];" for (a, b), names in self.arrows.items()]
        return "\n".join([*lines, "}", ""])

    def caption(self):
        """What the picture doesn't say by itself."""
        if not self.automaton.size:
            return "no state"
        said = "each state accepts" if len(self.automaton.accepting) == self.automaton.size else "double rims accept"
        return said + ("; u|v reads u and v side by side, · is the padding" if self.automaton.is_pairs else "")


def ball_dot(ball):
    """A ball of a Cayley graph as DOT: its elements by their least words, and an arrow or a line for each edge."""
    lines = ["digraph ball {", "  overlap=false; splines=false; maxiter=2000;", f"  node [{FONT}, fontsize=11, shape=point, width=0.1];"]
    lines += [f"  {at} [xlabel={quoted(ball.label(at))}];" for at in range(len(ball.words))]
    for letter, one, other in ball.edges:
        way = "normal" if ball.has_way(letter) else "none"
        lines.append(f'  {one} -> {other} [color="{ball.colour(letter)}", arrowhead={way}];')
    return "\n".join([*lines, "}", ""])


def places_of(text):
    """The places of the numbered nodes in the order of their numbers, as Graphviz prints them in its plain form."""
    rows = [line.split() for line in text.splitlines() if line.startswith("node ")]
    return [(float(row[2]), float(row[3])) for row in sorted(rows, key=lambda row: int(row[1]))]
