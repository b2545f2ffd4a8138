"""The automata that bench/run measures with, as the pieces of their files; made from a seed, the same bytes each time.

States are numbered from 1, as in the files; a row is a list of targets, that of the first symbol first.
"""

import random

from data import SEED

MOST_BYTES = 16_777_216


def letters(count):
    """So many names."""
    return [f"x{number}" for number in range(1, count + 1)]


def words_over(count):
    """The alphabet of words over so many letters."""
    return f'rec(type:="identifiers",size:={count},format:="dense",names:=[{",".join(letters(count))}])'


def pairs_over(count):
    """The alphabet of pairs of words over so many letters."""
    return f'rec(type:="product",size:={(count + 1) ** 2 - 1},arity:=2,padding:=_,base:={words_over(count)})'


def file_of(alphabet, states, accepting, form, rows):
    """The pieces of an automaton's file, given its rows as text."""
    yield f'_FSA:=rec(isFSA:=true,alphabet:={alphabet},\nstates:=rec(type:="simple",size:={states}),\n'
    yield f'initial:=[1],accepting:=[{",".join(map(str, accepting))}],\n'
    yield f'table:=rec(format:="{form}",transitions:=[\n'
    for number, row in enumerate(rows):
        yield row if number == 0 else ",\n" + row
    yield "\n]));\n"


def dense(alphabet, states, accepting, rows):
    """The file with a target for each symbol."""
    texts = (f"[{','.join(map(str, row))}]" for row in rows)
    return file_of(alphabet, states, accepting, "dense deterministic", texts)


def sparse(alphabet, states, accepting, rows):
    """The file with the moves alone, of rows of symbols with targets."""
    texts = (f"[{','.join(f'[{symbol},{target}]' for symbol, target in row)}]" for row in rows)
    return file_of(alphabet, states, accepting, "sparse", texts)


def some(states, chance):
    """Each state as likely as not."""
    return [state for state in range(1, states + 1) if chance.random() < 0.5]


def at_random(states, width):
    """Each move leads anywhere, and half of the states accept."""
    chance = random.Random(SEED)
    accepting = some(states, chance)
    rows = ([int(chance.random() * states) + 1 for _ in range(width)] for _ in range(states))
    yield from dense(words_over(width), states, accepting, rows)


def sparse_at_random(states, width, moves):
    """Each state has so many moves, of symbols of so many letters, which lead anywhere; half of the states accept."""
    chance = random.Random(SEED)
    accepting = some(states, chance)

    def row():
        symbols = sorted(chance.sample(range(1, width + 1), moves))
        return [(symbol, int(chance.random() * states) + 1) for symbol in symbols]

    yield from sparse(words_over(width), states, accepting, (row() for _ in range(states)))


def pairs_at_random(states, width):
    """The same of pairs of words of one length."""
    chance = random.Random(SEED)
    accepting = some(states, chance)

    def row():
        for _ in range(width):
            yield from (int(chance.random() * states) + 1 for _ in range(width))
            yield 0
        yield from [0] * width

    yield from dense(pairs_over(width), states, accepting, (row() for _ in range(states)))


def chain(states):
    """The one word of states - 1 letters. Refinement by rounds would take as many rounds."""
    rows = ([state + 1 if state < states else 0] for state in range(1, states + 1))
    return dense(words_over(1), states, [states], rows)


def copies(states, classes):
    """Many copies of the states of a small automaton over two letters, each move to one copy or another."""
    chance = random.Random(SEED)
    small = [(chance.randrange(classes), chance.randrange(classes)) for _ in range(classes)]
    accepting = range(classes, states + 1, classes)
    copied = states // classes

    def copy(number):
        return int(chance.random() * copied) * classes + number + 1

    rows = ([copy(number) for number in small[state % classes]] for state in range(states))
    yield from dense(words_over(2), states, accepting, rows)


def bits_of_each_kind(length):
    """A cyclic word of 2^length bits in which each word of that length stands once: a de Bruijn word."""
    # It is made of the words that are less than their other rotations and whose lengths divide this one, in order.
    word = [0] * (length + 1)

    def grow(place, period):
        if place > length:
            if length % period == 0:
                yield from word[1 : period + 1]
            return
        word[place] = word[place - period]
        yield from grow(place + 1, period)
        for bit in range(word[place - period] + 1, 2):
            word[place] = bit
            yield from grow(place + 1, place)

    yield from grow(1, 1)


def mixed_cycle(length):
    """A cycle of 2^length states that accept where the bits are 1: no two have one right language, and splitting n of
    them can take n log n steps."""
    states = 1 << length
    accepting = [place + 1 for place, bit in enumerate(bits_of_each_kind(length)) if bit]
    rows = ([state % states + 1] for state in range(1, states + 1))
    yield from dense(words_over(1), states, accepting, rows)


def turns(states, width, ends):
    """States in a circle, on which each letter goes some way round. Read backwards it has as many sets as states, each
    of so many states as accept."""
    chance = random.Random(SEED)
    steps = [1] + [chance.randrange(states) for _ in range(width - 1)]
    accepting = sorted(chance.sample(range(1, states + 1), ends))
    rows = ([(state + step) % states + 1 for step in steps] for state in range(states))
    yield from dense(words_over(width), states, accepting, rows)


def dictionary(count, width, length):
    """Words at random of one length, as the tree of their fronts."""
    chance = random.Random(SEED)
    rows, accepting = [[0] * width], []
    for _ in range(count):
        state = 0
        for _ in range(length):
            letter = chance.randrange(width)
            if rows[state][letter] == 0:
                rows.append([0] * width)
                rows[state][letter] = len(rows)
            state = rows[state][letter] - 1
        accepting.append(state + 1)
    yield from dense(words_over(width), len(rows), sorted(set(accepting)), rows)


def early(place):
    """Words of two letters whose letter at this place is the first one. Read backwards it has 2^place sets."""
    rows = [[state + 1, state + 1] for state in range(1, place)]
    rows += [[place + 1, 0], [place + 1, place + 1]]
    return dense(words_over(2), place + 1, [place + 1], rows)


def guessed(place):
    """Pairs of words over two letters, of which the second marks a first letter of the first, at this place from the
    end. The first words are read by 2^place sets."""
    rows = [[(1, 2), (2, 1), (5, 1)]]
    rows += [[(2, state + 1), (5, state + 1)] for state in range(2, place + 1)] + [[]]
    return sparse(pairs_over(2), place + 1, [place + 1], rows)


def parted(states, width):
    """Pairs of words of one length: the first letter of the second is free, and the others are those of the first. Each
    goes some way round a circle of states, so that first words are read by about as many sets as states, each of so
    many states as there are letters."""
    chance = random.Random(SEED)
    steps = [1] + [chance.randrange(states) for _ in range(width - 1)]
    parts = [chance.randrange(states) for _ in range(width)]

    def symbol(first, second):
        return (width + 1) * first + second + 1

    def round_from(place):
        return [(symbol(at, at), (place + step) % states + 2) for at, step in enumerate(steps)]

    def rows():
        yield [(symbol(first, at), parts[at] + 2) for first in range(width) for at in range(width)]
        for place in range(states):
            yield round_from(place)

    yield from sparse(pairs_over(width), states + 1, some(states + 1, chance), rows())


def cycle(states, everywhere=False):
    """The powers of one letter whose number the number of states divides, or all of them."""
    rows = ([state % states + 1] for state in range(1, states + 1))
    return dense(words_over(1), states, range(1, states + 1) if everywhere else [1], rows)


def reduced(rank):
    """The reduced words of a free group, with a letter and its inverse side by side."""
    width = 2 * rank
    rows = [[letter + 2 for letter in range(width)]]
    rows += [[0 if letter == last ^ 1 else letter + 2 for letter in range(width)] for last in range(width)]
    return dense(words_over(width), width + 1, range(1, width + 2), rows)


def descents():
    """A power of one letter and then one of another."""
    return dense(words_over(2), 2, [1, 2], [[1, 2], [0, 2]])
