"""Automatic structures of groups: the least words, and for each generator x the pairs of least words u and v with v = u
x.

Of a finite group the words are all written down. Of another the automata are made of word differences (Epstein et
al., Word Processing in Groups, 2.3 and chapter 6): those that stand along the pairs of short words at first, and
then those along each pair that is found to be missing. Elements are their least words, which a function finds,
`normal`.
"""

import typing

from machines import Automaton, reached


class Structure(typing.NamedTuple):
    """A word acceptor, and a multiplier for each generator."""

    acceptor: Automaton
    multipliers: list


class Group:
    """A group by its presentation, by rules that hold in it, and by a function that finds the least word of an
    element. `acceptor` accepts the least words, where that is known beforehand; where it isn't, `counts` gives their
    numbers up to a length, which are those of a fraction of polynomials of degree at most `degree`."""

    def __init__(self, presentation, rules, normal, acceptor=None, counts=None, degree=0):
        self.presentation, self.rules, self.normal, self.acceptor = presentation, rules, normal, acceptor
        self.counts, self.degree = counts, degree
        self.letters = range(len(presentation.names))
        self.padding = len(presentation.names)

    def is_finite(self):
        """Whether the known acceptor's words are finitely many, so that none has as many letters as the acceptor has
        states."""
        if self.acceptor is None:
            return False
        size = len(self.acceptor.rows)
        return not any(self.acceptor.counts(2 * size)[size:])

    def symbol(self, a, b):
        return (self.padding + 1) * a + b

    def before(self, a, word, b):
        """The least word of a^-1 word b, where padding counts as nothing."""
        first = () if a == self.padding else (self.presentation.inverses[a],)
        return self.normal((*first, *word, *(() if b == self.padding else (b,))))

    def differences(self, u, v):
        """The differences of two words at each place."""
        difference = ()
        yield difference
        for a, b in padded(u, v, self.padding):
            difference = self.before(a, difference, b)
            yield difference

    def least_words(self, longest=None):
        """The least words of at most so many letters, or all, in the shortlex order."""
        known = {()}
        words = layer = [()]
        while layer and (longest is None or len(layer[0]) < longest):
            longer = ((*word, letter) for word in layer for letter in self.letters)
            layer = [word for word in longer if (word[1:] in known or len(word) == 1) and self.normal(word) == word]
            known.update(layer)
            words = words + layer
        return words


def padded(u, v, padding):
    """The pairs of letters of two words, the shorter one followed by padding."""
    length = max(len(u), len(v))
    return zip((*u, *[padding] * (length - len(u))), (*v, *[padding] * (length - len(v))))


def finite_structure(group):
    """The structure of a finite group, by all its words."""
    words = group.least_words()
    multipliers = []
    for letter in group.letters:
        pairs = ((word, group.normal((*word, letter))) for word in words)
        texts = ([group.symbol(a, b) for a, b in padded(u, v, group.padding)] for u, v in pairs)
        multipliers.append(listing(texts))
    return Structure(listing(words), multipliers)


def listing(texts):
    """The canonical automaton of finitely many texts: their tree, of which equal parts are made one from the leaves
    on."""
    rows, accepting = [{}], set()
    for text in texts:
        state = 0
        for symbol in text:
            if symbol not in rows[state]:
                rows[state][symbol] = len(rows)
                rows.append({})
            state = rows[state][symbol]
        accepting.add(state)
    number, merged, at, ends = {}, [], [0] * len(rows), set()
    for state in reversed(range(len(rows))):
        row = tuple((symbol, at[target]) for symbol, target in sorted(rows[state].items()))
        at[state] = number.setdefault((state in accepting, row), len(merged))
        if at[state] == len(merged):
            merged.append(dict(row))
            if state in accepting:
                ends.add(at[state])
    return Automaton(merged, ends, at[0]).trimmed()


def acceptor_by_rules(presentation, rules):
    """The canonical automaton of the words without a left side of confluent rules."""
    fronts = {left[:length] for left in rules.right for length in range(len(left))} | {()}

    def after(front, letter):
        word = (*front, letter)
        ends = [word[at:] for at in range(len(word) + 1)]
        return None if any(end in rules.right for end in ends) else next(end for end in ends if end in fronts)

    rows = {}

    def onward(front):
        moves = ((letter, after(front, letter)) for letter in range(len(presentation.names)))
        rows[front] = {letter: target for letter, target in moves if target is not None}
        return rows[front].values()

    number = reached([()], onward)
    moves = [{letter: number[target] for letter, target in rows[front].items()} for front in number]
    return Automaton(moves, range(len(moves))).canonical()


class Differences:
    """Differences that are kept, and the moves between them: (d, a, b) leads to a^-1 d b."""

    def __init__(self, group):
        self.group, self.kept, self.moves = group, {(): 0}, []

    def add(self, u, v):
        """Keeps the differences of two words. Whether one is new."""
        size = len(self.kept)
        for difference in self.group.differences(u, v):
            self.kept.setdefault(difference, len(self.kept))
        return len(self.kept) > size

    def make_moves(self):
        """For each difference, for each first letter or padding, the second letters with the differences to which
        they lead."""
        both = [*self.group.letters, self.group.padding]
        self.moves = [[self._moves(difference, a, both) for a in both] for difference in self.kept]

    def _moves(self, difference, a, both):
        targets = ((b, self.kept.get(self.group.before(a, difference, b))) for b in both)
        padding = self.group.padding
        return [(b, target) for b, target in targets if target is not None and (a, b) != (padding, padding)]


EQUAL, LESS, GREATER, ENDED = range(4)


def acceptor_by_differences(differences):
    """The canonical automaton of the words no factor of which has a lesser word beside it that the differences show
    to be equal."""
    moves, padding = differences.moves, differences.group.padding

    def rivals_after(rivals, a):
        """The rivals after a further letter, or none where one of them is less and the same element."""
        after = set()
        for difference, kind in {*rivals, (0, EQUAL)}:
            for b, target in moves[difference][a]:
                if b == padding:
                    now = ENDED
                elif kind == ENDED:
                    continue
                else:
                    now = kind if kind != EQUAL else LESS if b < a else GREATER if b > a else EQUAL
                if target == 0 and now in (LESS, ENDED):
                    return None
                if target != 0:
                    after.add((target, now))
        return frozenset(after)

    rows = {}

    def onward(rivals):
        after = ((letter, rivals_after(rivals, letter)) for letter in differences.group.letters)
        rows[rivals] = {letter: target for letter, target in after if target is not None}
        return rows[rivals].values()

    number = reached([frozenset()], onward)
    moved = [{letter: number[target] for letter, target in rows[rivals].items()} for rivals in number]
    return Automaton(moved, range(len(moved))).canonical()


def multipliers_by_differences(differences, acceptor):
    """The canonical automata of the pairs of accepted words that lead from the empty difference to each generator."""
    group, padding = differences.group, differences.group.padding
    ended = len(acceptor.rows)
    steps = [{**row, padding: ended} for row in acceptor.rows] + [{padding: ended}]
    rows = {}

    def onward(state):
        first, difference, second = state
        row = rows[state] = {}
        for a, after in steps[first].items():
            for b, target in differences.moves[difference][a]:
                if b in steps[second]:
                    row[group.symbol(a, b)] = (after, target, steps[second][b])
        return row.values()

    number = reached([(0, 0, 0)], onward)
    moves = [{symbol: number[target] for symbol, target in row.items()} for row in rows.values()]
    ends = [differences.kept[group.normal((letter,))] for letter in group.letters]
    told = [difference if difference in ends else None for _, difference, _ in number]
    whole = Automaton(moves, (state for state, end in enumerate(told) if end is not None))
    # The states are made one for all generators together first, since most of them are the same for each.
    whole, told = whole.trimmed_with(told)
    whole, at = whole.merged(told)

    def ending(end):
        return Automaton(whole.rows, {at[state] for state, it in enumerate(told) if it == end}, whole.initial)

    return [ending(end).canonical() for end in ends]


def word_without_image(acceptor, multiplier, padding):
    """The least accepted word from which the multiplier has no pair, or none."""
    reading = [{} for _ in multiplier.rows]
    for state, row in enumerate(multiplier.rows):
        for symbol, target in row.items():
            reading[state].setdefault(symbol // (padding + 1), []).append(target)
    ending = Automaton([dict(enumerate(row.get(padding, []))) for row in reading], multiplier.accepting).live()
    least = {}

    def onward(place):
        state, states = place
        for letter, target in acceptor.rows[state].items():
            after = target, frozenset(it for one in states for it in reading[one].get(letter, []))
            least.setdefault(after, (*least[place], letter))
            yield after

    least[(acceptor.initial, frozenset([multiplier.initial]))] = ()
    for place in reached(list(least), onward):
        if place[0] in acceptor.accepting and not any(state in ending for state in place[1]):
            return least[place]
    return None


def structure_by_differences(group, pairs):
    """The structure of a group by word differences, at first those of these pairs of words."""
    differences = Differences(group)
    for pair in pairs:
        differences.add(*pair)
    while True:
        differences.make_moves()
        acceptor = group.acceptor or acceptor_by_differences(differences)
        wrong = accepted_in_error(group, acceptor)
        if wrong:
            pairs = [(word[:-1], group.normal(word)) for word in wrong]
        else:
            multipliers = multipliers_by_differences(differences, acceptor)
            missing = [word_without_image(acceptor, multiplier, group.padding) for multiplier in multipliers]
            pairs = [(word, group.normal((*word, letter))) for letter, word in enumerate(missing) if word is not None]
        if not pairs:
            return Structure(acceptor, multipliers)
        if not any([differences.add(*pair) for pair in pairs]):
            raise ValueError(f"the least words of {pairs} aren't known")


def accepted_in_error(group, acceptor):
    """The shortest accepted words that aren't least: there are none where the numbers of accepted words and of
    elements agree at each length. Two sequences of which each is known by so many terms agree where they do for as
    many terms as for both together."""
    if group.acceptor is not None:
        return []
    terms = len(acceptor.rows) + group.degree
    both = zip(acceptor.counts(terms), group.counts(terms))
    shortest = next((length for length, (accepted, elements) in enumerate(both) if accepted != elements), None)
    if shortest is None:
        return []
    ways = [(acceptor.initial, ())]
    for _ in range(shortest):
        ways = [(target, (*word, letter)) for state, word in ways for letter, target in acceptor.rows[state].items()]
    return [word for _, word in ways if group.normal(word) != word]
