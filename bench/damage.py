"""Damage to automatic structures at random, as what writes such files wrongly may do it."""

from automatic import Structure, padded
from machines import Automaton, reached

MOST_STATES = 200


def is_padded(multiplier, letters):
    """It accepts padded texts alone."""
    live = multiplier.live()
    if multiplier.initial not in live:
        return True
    wrong = []

    def onward(place):
        state, first_ended, second_ended = place
        for symbol, target in multiplier.rows[state].items():
            first, second = divmod(symbol, letters + 1)
            if target in live:
                if first_ended and first < letters or second_ended and second < letters or first == second == letters:
                    wrong.append(symbol)
                else:
                    yield target, first == letters, second == letters

    reached([(multiplier.initial, False, False)], onward)
    return not wrong


def unfolded(automaton, depth):
    """The same language, with states of their own for short texts, so that what is changed is changed for a text
    more than others."""
    if automaton.initial is None:
        return automaton
    start = (0, automaton.initial)

    def moves(place):
        length, state = place
        return {symbol: (min(length + 1, depth), target) for symbol, target in automaton.rows[state].items()}

    number = reached([start], lambda place: moves(place).values())
    rows = [{symbol: number[target] for symbol, target in moves(place).items()} for place in number]
    return Automaton(rows, (at for (_, state), at in number.items() if state in automaton.accepting))


def as_tree(automaton, chance):
    """The same language, with states of their own for the fronts of one text that goes some way at random."""
    if automaton.initial is None:
        return automaton
    rows, accepting = [dict(row) for row in automaton.rows], set(automaton.accepting)
    initial, state = len(rows), automaton.initial
    for _ in range(chance.randint(2, 7)):
        rows.append(dict(automaton.rows[state]))
        if state in automaton.accepting:
            accepting.add(len(rows) - 1)
        if not automaton.rows[state]:
            break
        symbol = chance.choice(sorted(automaton.rows[state]))
        state = automaton.rows[state][symbol]
        rows[-1][symbol] = len(rows)
    rows.append(dict(automaton.rows[state]))
    if state in automaton.accepting:
        accepting.add(len(rows) - 1)
    return Automaton(rows, accepting, initial)


def with_unused_states(automaton, width, chance):
    """The same language, with states that are never reached, or that lead nowhere."""
    rows, accepting, initial = [dict(row) for row in automaton.rows], set(automaton.accepting), automaton.initial
    size = len(rows)
    for _ in range(chance.randint(1, 3)):
        rows.append({chance.randrange(width): chance.randrange(len(rows)) for _ in range(chance.randint(0, 3))})
        if chance.random() < 0.5:
            accepting.add(len(rows) - 1)
    dead = len(rows)
    rows.append({symbol: dead for symbol in chance.sample(range(width), chance.randint(0, min(3, width)))})
    for _ in range(chance.randint(1, 4)):
        state, symbol = chance.randrange(size), chance.randrange(width)
        rows[state].setdefault(symbol, dead)
    order = list(range(len(rows)))
    chance.shuffle(order)
    turned = [None] * len(rows)
    for state, row in enumerate(rows):
        turned[order[state]] = {symbol: order[target] for symbol, target in row.items()}
    return Automaton(turned, (order[state] for state in accepting), None if initial is None else order[initial])


def move_moved(automaton, width, chance):
    return _with_move(automaton, chance, [*_moves(automaton)], chance.randrange(len(automaton.rows)))


def move_dropped(automaton, width, chance):
    return _with_move(automaton, chance, [*_moves(automaton)], None)


def move_added(automaton, width, chance):
    free = ((state, symbol) for state, row in enumerate(automaton.rows) for symbol in range(width) if symbol not in row)
    return _with_move(automaton, chance, [*free], chance.randrange(len(automaton.rows)))


def _moves(automaton):
    return ((state, symbol) for state, row in enumerate(automaton.rows) for symbol in row)


def _with_move(automaton, chance, places, target):
    if not places:
        return automaton
    state, symbol = chance.choice(places)
    rows = [dict(row) for row in automaton.rows]
    rows[state].pop(symbol, None)
    if target is not None:
        rows[state][symbol] = target
    return Automaton(rows, automaton.accepting, automaton.initial)


def acceptance_turned(automaton, width, chance):
    state = chance.randrange(len(automaton.rows))
    return Automaton(automaton.rows, automaton.accepting ^ {state}, automaton.initial)


def start_moved(automaton, width, chance):
    initial = None if chance.random() < 0.1 else chance.randrange(len(automaton.rows))
    return Automaton(automaton.rows, automaton.accepting, initial)


CHANGES = {
    "move moved": move_moved,
    "move added": move_added,
    "move dropped": move_dropped,
    "acceptance turned": acceptance_turned,
    "start moved": start_moved,
}


def changed(structure, chance, kind):
    """The structure with one of its automata changed at one place; mostly with a change after which pairs are padded
    still."""
    letters = len(structure.multipliers)
    place = chance.choice([-1, *range(letters)]) if chance.random() < 0.8 else -1
    before = structure.acceptor if place < 0 else structure.multipliers[place]
    width = letters if place < 0 else (letters + 1) ** 2 - 1
    form = chance.randrange(3)
    if form == 1 and len(before.rows) < MOST_STATES:
        before = unfolded(before, chance.randint(1, 4))
    elif form == 2:
        before = as_tree(before, chance)
    for _ in range(20 if chance.random() < 0.9 else 1):
        after = CHANGES[kind](before, width, chance)
        if place < 0 or is_padded(after, letters):
            break
    return with_automaton(structure, place, after)


def with_automaton(structure, place, automaton):
    """The structure with another automaton for a generator, or, at -1, for the words."""
    if place < 0:
        return Structure(automaton, structure.multipliers)
    multipliers = list(structure.multipliers)
    multipliers[place] = automaton
    return Structure(structure.acceptor, multipliers)


def exchanged(structure, chance):
    """Two multipliers exchanged, or one put in another's place."""
    places = range(len(structure.multipliers))
    one, other = chance.choice(places), chance.choice(places)
    multipliers = list(structure.multipliers)
    multipliers[one] = structure.multipliers[other]
    if chance.random() < 0.7:
        multipliers[other] = structure.multipliers[one]
    return Structure(structure.acceptor, multipliers)


def turned_round(structure, chance):
    """A multiplier with its pairs turned round."""
    letters = len(structure.multipliers)
    place = chance.randrange(letters)
    before = structure.multipliers[place]

    def turned(symbol):
        first, second = divmod(symbol, letters + 1)
        return second * (letters + 1) + first

    rows = [{turned(symbol): target for symbol, target in row.items()} for row in before.rows]
    return with_automaton(structure, place, Automaton(rows, before.accepting, before.initial))


def with_text(automaton, text, accepted):
    """The automaton with this text accepted, or not, and all others as before."""
    rows, accepting = [dict(row) for row in automaton.rows], set(automaton.accepting)
    initial, state = len(rows), automaton.initial
    for place, symbol in enumerate([*text, None]):
        rows.append({} if state is None else dict(automaton.rows[state]))
        if accepted if symbol is None else state in automaton.accepting:
            accepting.add(initial + place)
        if symbol is not None:
            rows[-1][symbol] = initial + place + 1
            state = None if state is None else automaton.rows[state].get(symbol)
    return Automaton(rows, accepting, initial)


def some_word(acceptor, chance):
    """An accepted word of a few letters."""
    state, word = acceptor.initial, ()
    for _ in range(chance.randint(0, chance.choice((3, 6, 12)))):
        if acceptor.rows[state]:
            letter = chance.choice(sorted(acceptor.rows[state]))
            state, word = acceptor.rows[state][letter], (*word, letter)
    return word


def word_changed(group, structure, chance):
    """An accepted word isn't accepted any more, or another word is."""
    word = some_word(structure.acceptor, chance)
    if chance.random() < 0.5:
        return with_automaton(structure, -1, with_text(structure.acceptor, word, False))
    word = (*word, *(chance.choice(group.letters) for _ in range(chance.randint(1, 2))))
    return with_automaton(structure, -1, with_text(structure.acceptor, word, True))


def pair_changed(group, structure, chance):
    """The pair of a word and its image is taken away, or the word gets another image too, or instead; or two words
    change images."""
    place = chance.choice(group.letters)
    word, other, image = (some_word(structure.acceptor, chance) for _ in range(3))
    if chance.random() < 0.4:
        image = group.normal((*word, place, *(chance.choice(group.letters) for _ in range(chance.randint(1, 2)))))
    multiplier, kind = structure.multipliers[place], chance.choice(("dropped", "added", "instead", "change"))

    def told(multiplier, u, v, accepted):
        return with_text(multiplier, [group.symbol(a, b) for a, b in padded(u, v, group.padding)], accepted)

    if kind == "change":
        image = group.normal((*other, place))
        multiplier = told(multiplier, other, image, False)
        multiplier = told(multiplier, other, group.normal((*word, place)), True)
    if kind != "added":
        multiplier = told(multiplier, word, group.normal((*word, place)), False)
    if kind != "dropped":
        multiplier = told(multiplier, word, image, True)
    return with_automaton(structure, place, multiplier)


# What may be done to automata without automata of others.
HURTS = (
    "none",
    *CHANGES,
    "several changes",
    "word changed",
    "pair changed",
    "pairs changed",
    "multipliers exchanged",
    "pairs turned round",
)


def hurt(group, structure, done, chance):
    """The structure of a group with this done to it."""
    if done in CHANGES:
        structure = changed(structure, chance, done)
    elif done == "several changes":
        for _ in range(chance.randint(2, 3)):
            structure = changed(structure, chance, chance.choice(list(CHANGES)))
    elif done == "word changed":
        structure = word_changed(group, structure, chance)
    elif done in ("pair changed", "pairs changed"):
        for _ in range(1 if done == "pair changed" else chance.randint(2, 3)):
            structure = pair_changed(group, structure, chance)
    elif done == "multipliers exchanged":
        structure = exchanged(structure, chance)
    elif done == "pairs turned round":
        structure = turned_round(structure, chance)
    return structure


def with_unused(structure, both_padded, chance):
    """The structure with states and moves of no use, and on request with moves of two paddings."""
    letters = len(structure.multipliers)
    width = (letters + 1) ** 2 - (0 if both_padded else 1)
    multipliers = [with_unused_states(it, width, chance) for it in structure.multipliers]
    return Structure(with_unused_states(structure.acceptor, letters, chance), multipliers)
