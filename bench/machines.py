"""Finite automata in Python: minimal, canonically numbered, and written as the program writes them.

States and symbols are numbered from 0 here and from 1 in files. The symbol of two letters i and j over n letters is
(n + 1) i + j, padding being letter n.
"""

from collections import defaultdict


class Automaton:
    """A deterministic automaton: for each state a dictionary from symbols to states; which states accept; where it
    starts, if at all."""

    def __init__(self, rows, accepting, initial=0):
        self.rows, self.accepting, self.initial = rows, frozenset(accepting), initial

    def accepts(self, text):
        state = self.initial
        for symbol in text:
            if state is None:
                return False
            state = self.rows[state].get(symbol)
        return state in self.accepting

    def live(self):
        """The states from which some text leads to acceptance."""
        before = defaultdict(list)
        for state, row in enumerate(self.rows):
            for target in row.values():
                before[target].append(state)
        return reached(self.accepting, before.__getitem__)

    def trimmed(self):
        """The states that lie on accepted texts, numbered breadth first, and their moves in the order of the
        symbols."""
        return self.trimmed_with(())[0]

    def trimmed_with(self, told):
        """The same, with what is told of each state that is left."""
        live = self.live()
        if self.initial not in live:
            return Automaton([{}], ()), [None]
        rows = {}

        def onward(state):
            rows[state] = [(symbol, target) for symbol, target in sorted(self.rows[state].items()) if target in live]
            return [target for _, target in rows[state]]

        number = reached([self.initial], onward)
        moves = [{symbol: number[target] for symbol, target in rows[state]} for state in number]
        accepting = (number[state] for state in self.accepting if state in number)
        return Automaton(moves, accepting), [told[state] for state in number] if told else []

    def canonical(self):
        """The automaton of the same language that is minimal, with its states numbered breadth first in the order of
        the symbols."""
        trim = self.trimmed()
        return trim.merged([state in trim.accepting for state in range(len(trim.rows))])[0].trimmed()

    def merged(self, told):
        """The automaton with those states made one that can't be told apart by what is told of the states to which
        texts lead from them, and which one each state is now."""
        block = blocks(self.rows, told)
        one = dict(zip(reversed(block), reversed(range(len(block)))))
        number = {name: place for place, name in enumerate(sorted(one, key=one.get))}
        rows = [{symbol: number[block[target]] for symbol, target in self.rows[one[name]].items()} for name in number]
        at = [number[name] for name in block]
        return Automaton(rows, {at[state] for state in self.accepting}, at[self.initial]), at

    def key(self):
        """Two canonical automata have one language where they have one key."""
        return tuple(tuple(row.items()) for row in self.rows), self.accepting

    def counts(self, most):
        """How many words of each length up to `most` are accepted."""
        at, counts = {self.initial: 1}, []
        for _ in range(most + 1):
            counts.append(sum(count for state, count in at.items() if state in self.accepting))
            after = defaultdict(int)
            for state, count in at.items():
                for target in self.rows[state].values():
                    after[target] += count
            at = after
        return counts


def reached(starts, onward):
    """What is reached from the starts, breadth first, each with its number."""
    number = {start: place for place, start in enumerate(starts)}
    waiting = list(number)
    for state in waiting:
        for target in onward(state):
            if target not in number:
                number[target] = len(waiting)
                waiting.append(target)
    return number


def blocks(rows, told):
    """For each state the name of its block, where states are in one block that can't be told apart."""
    names, shapes = {}, [tuple(sorted(row)) for row in rows]
    targets = [tuple(row[symbol] for symbol in shape) for row, shape in zip(rows, shapes)]
    block = [names.setdefault(it, len(names)) for it in zip(told, shapes)]
    members, before = defaultdict(set), defaultdict(list)
    for state, name in enumerate(block):
        members[name].add(state)
        for target in targets[state]:
            before[target].append(state)
    changed = range(len(rows))
    while changed:
        parts = list(_parts(changed, block, members, targets))
        changed = set()
        for name, part in parts:
            new = len(members)
            members[name] -= part
            members[new] = part
            for state in part:
                block[state] = new
                changed.update(before[state])
    return block


def _parts(changed, block, members, targets):
    """What is to leave its block: where blocks fall into parts, all parts but the greatest. Only states of which a
    target was given another block can differ from the rest of theirs."""
    touched = defaultdict(list)
    for state in changed:
        touched[block[state]].append(state)
    for name, states in touched.items():
        rest = len(members[name]) - len(states)
        if rest + len(states) == 1:
            continue
        parts = defaultdict(set)
        for state in states:
            parts[tuple(map(block.__getitem__, targets[state]))].add(state)
        sizes = {kind: len(part) for kind, part in parts.items()}
        alike = None
        if rest:
            seen = set(states)
            still = next(state for state in members[name] if state not in seen)
            alike = tuple(map(block.__getitem__, targets[still]))
            sizes[alike] = sizes.get(alike, 0) + rest
        greatest = max(sizes, key=sizes.get)
        if rest and alike != greatest:
            parts[alike] |= members[name] - seen
        for kind, part in parts.items():
            if kind != greatest:
                yield name, part


def file_of_words(names, automaton, sparse=False):
    """The file of an automaton of words; the table is dense where it may be and nothing else is asked for."""
    return _file(names, _words_alphabet(names), len(names), automaton, sparse)


def file_of_pairs(names, automaton, sparse=False, both_padded=False):
    """The file of an automaton of pairs of words, on request with the pair of two paddings as a symbol."""
    size = (len(names) + 1) ** 2 - (0 if both_padded else 1)
    alphabet = {"type": '"product"', "size": size, "arity": 2, "padding": "_", "base": _words_alphabet(names)}
    return _file(names, alphabet, size, automaton, sparse)


def _words_alphabet(names):
    return {"type": '"identifiers"', "size": len(names), "format": '"dense"', "names": listed(names)}


def _file(names, alphabet, width, automaton, sparse):
    states = len(automaton.rows)
    accepting = sorted(state + 1 for state in automaton.accepting)
    if sparse or len(names) > 126:
        form = '"sparse"'
        rows = [listed(f"[{symbol + 1},{row[symbol] + 1}]" for symbol in sorted(row)) for row in automaton.rows]
    else:
        form = '"dense deterministic"'
        rows = [listed(row.get(symbol, -1) + 1 for symbol in range(width)) for row in automaton.rows]
    moves = sum(map(len, automaton.rows))
    fields = {
        "isFSA": "true",
        "alphabet": alphabet,
        "states": {"type": '"simple"', "size": states},
        "flags": '["DFA","minimized","BFS","accessible","trim"]',
        "initial": listed([] if automaton.initial is None else [automaton.initial + 1]),
        "accepting": f"[1..{states}]" if len(accepting) == states >= 2 else listed(accepting),
        "table": {"format": form, "numTransitions": moves, "transitions": rows},
    }
    return f"_FSA := {record(fields, 0)};\n"


def listed(places):
    """A list on one line."""
    return f"[{','.join(map(str, places))}]"


def record(fields, depth):
    """A record whose fields are texts, numbers, records, or lists of lists, which stand a line each."""
    gap = "  " * (depth + 1)
    lines = []
    for name, value in fields.items():
        if isinstance(value, dict):
            value = record(value, depth + 1)
        elif isinstance(value, list):
            inner = f",\n{gap}  ".join(value)
            value = f"[\n{gap}  {inner}\n{gap}]"
        lines.append(f"{gap}{name} := {value}")
    return "rec(\n" + ",\n".join(lines) + "\n" + "  " * depth + ")"
