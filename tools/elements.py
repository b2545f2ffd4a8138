"""The elements of a ball of a Cayley graph and the lines between them, from what `kb` stored."""

from canvas import COLOURS
from rewriting_plainly import normal_form

MOST_ELEMENTS = 1500


class TooLarge(Exception):
    """What would be too large to be looked at, as a sentence."""


class Products:
    """Multiplies least words by letters: by the rules of a completion, or by multipliers where there are no rules."""

    def __init__(self, rules, multipliers):
        self.rules, self.multipliers = rules, multipliers

    def of(self, word, letter):
        """The least word of a least word followed by a letter."""
        if self.rules is not None:
            return tuple(normal_form([*word, letter], self.rules))
        return image(self.multipliers[letter], word)


def image(multiplier, word):
    """The one word that a multiplier relates to a least word: all pairs of states and words are followed."""
    padding = len(multiplier.names)
    reached = {multiplier.initial: ()}
    for at in range(len(word) + 2):
        if at >= len(word):
            for state, found in reached.items():
                if state in multiplier.accepting:
                    return found
        first = word[at] if at < len(word) else padding
        following = {}
        for state, found in reached.items():
            for symbol, to in multiplier.rows[state].items():
                one, other = divmod(symbol - 1, padding + 1)
                if one == first:
                    following.setdefault(to, found if other == padding else found + (other,))
        reached = following
    return None


def accepted(acceptor, radius):
    """The least words of at most so many letters, in the shortlex order."""
    words, front = [], [((), acceptor.initial)] if acceptor.initial is not None else []
    for _ in range(radius + 1):
        words += [word for word, state in front if state in acceptor.accepting]
        front = [(word + (symbol - 1,), to) for word, state in front for symbol, to in sorted(acceptor.rows[state].items())]
        if len(words) + len(front) > MOST_ELEMENTS * (1 + len(acceptor.names)):
            break
    if len(words) > MOST_ELEMENTS:
        raise TooLarge(f"the ball of radius {radius} has more than {MOST_ELEMENTS} elements: take a smaller radius")
    return words


class Ball:
    """The elements at most so many letters from the identity, by their least words, which are numbered from 0.

    In `edges` are the pairs of elements that a generator joins, each with the generator; of two inverse generators they
    are those of the first. In `letters` are the generators that have edges, in their order. `is_whole` says that the group has
    no other elements.
    """

    def __init__(self, presentation, acceptor, radius, products):
        self.names = [name.decode() for name in presentation.names]
        self.inverse = presentation.inverse
        self.words = accepted(acceptor, radius)
        self.number = {word: at for at, word in enumerate(self.words)}
        self.is_whole = True
        self.edges = list(self.joined(products))
        self.letters = sorted({letter for letter, _, _ in self.edges})

    def joined(self, products):
        """The edges, and by the way whether one leads out of the ball."""
        for letter, other in enumerate(self.inverse):
            if other is not None and other < letter:
                continue
            seen = set()
            for at, word in enumerate(self.words):
                to = self.number.get(products.of(word, letter))
                if to is None:
                    self.is_whole = False
                elif other != letter or (to, at) not in seen:
                    seen.add((at, to))
                    yield letter, at, to

    def has_way(self, letter):
        """Whether a generator has a direction: it isn't its own inverse."""
        return self.inverse[letter] != letter

    def label(self, at):
        """The least word of an element as it stands in a picture; 1 for the identity."""
        between = "" if max(map(len, self.names)) == 1 else "*"
        return between.join(self.names[letter] for letter in self.words[at]) or "1"

    def colour(self, letter):
        """The colour of a generator that has edges."""
        return COLOURS[self.letters.index(letter) % len(COLOURS)]
