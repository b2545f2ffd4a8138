"""Presentations, automata, logs and word lines at random, whole ones and damaged ones."""

import re

TOKEN = re.compile(rb'[A-Za-z_][A-Za-z0-9_.]*|-?[0-9]+|"[^"\n]*"|:=|\.\.|[ \t\r\n]+|#[^\n]*|.', re.S)
NAMES = [b"a", b"A", b"b", b"B", b"c", b"x1", b"_x", b"a.b", b"rec.x", b"recx", b"x.1.2", b"IdWord", b"true", b"_"]
FIELDS = [b"isRWS", b"ordering", b"generatorOrder", b"weight", b"inverses", b"equations", b"isFSA", b"alphabet"]
FIELDS += [b"type", b"size", b"names", b"format", b"arity", b"base", b"states", b"initial", b"accepting", b"table"]
FIELDS += [b"transitions", b"defaultTarget", b"numTransitions", b"flags", b"padding", b"isConfluent"]
MARKS = [b"(", b")", b"[", b"]", b",", b";", b"*", b"^", b"..", b":=", b"rec", b"->", b"<>", b"/", b"-", b"."]
MARKS += [b":", b"="]
STRINGS = [b'"shortlex"', b'"wtlex"', b'"identifiers"', b'"product"', b'"simple"', b'"dense"', b'"sparse"', b'""']
STRINGS += [b'"\\"', b'"dense deterministic"', b'"recursive"', b'"', b'"a\tb"', b'"\xc3\xa4"']
GAPS = [b" ", b"\n", b"\t", b"\r", b"\x0c", b"# c\n", b"#", b"#\xff\x00\n", b"  ", b"\x00", b"\x7f", b"\x80", b"\n\n"]
LIMITS = [0, 1, 2, 3, 4, 8, 9, 63, 64, 65, 126, 127, 128, 255, 256, 999, 1000, 1001, 65_534, 65_535, 65_536, 65_537]
LIMITS += [2**31 - 1, 2**31, 2**32 - 1, 2**32, 2**32 + 1, 2**63 - 1, 2**63, 2**64 - 1, 2**64]
LIMITS += [10**17, 10**18 - 1, 10**18]


def number(chance):
    """A number at its limits, at times with a sign or a zero before it."""
    text = b"%d" % chance.choice(LIMITS)
    if chance.random() < 0.15:
        text = b"0" + text
    return b"-" + text if chance.random() < 0.15 else text


def power(chance):
    if chance.random() < 0.1:
        return number(chance)
    return b"%d" % chance.randint(-3, 4)


def word(chance, names, depth=2):
    """A word as it may be written."""
    factors = []
    for _ in range(chance.choice((1, 1, 1, 2, 2, 3, 4))):
        if depth and chance.random() < 0.15:
            factor = b"(" + word(chance, names, depth - 1) + b")"
        else:
            factor = b"IdWord" if not names or chance.random() < 0.05 else chance.choice(names)
        factors.append(factor + b"^" + power(chance) if chance.random() < 0.2 else factor)
    return b"*".join(factors)


def value(chance, depth=2):
    """A value of any kind."""
    kind = chance.randrange(8 if depth else 5)
    if kind < 2:
        return number(chance)
    if kind == 2:
        return chance.choice(STRINGS[:9])
    if kind == 3:
        return b"[" + number(chance) + b".." + number(chance) + b"]"
    if kind == 4:
        return word(chance, NAMES)
    if kind == 5:
        pairs = [(chance.choice(FIELDS), value(chance, depth - 1)) for _ in range(chance.randrange(4))]
        return record(pairs)
    return listed(b"" if chance.random() < 0.2 else value(chance, depth - 1) for _ in range(chance.randrange(4)))


def record(fields):
    return b"rec(" + b", ".join(name + b" := " + text for name, text in fields) + b")"


def listed(texts):
    return b"[" + b",".join(texts) + b"]"


def whole(chance, fields):
    """A text of these fields and perhaps others, in any order."""
    for _ in range(chance.choice((0, 0, 0, 1, 2))):
        fields.append((b"x%d" % chance.randrange(9), value(chance)))
    if chance.random() < 0.3:
        chance.shuffle(fields)
    return b"_R := " + record(fields) + chance.choice((b";", b";\n", b""))


def some_names(chance, most):
    source = NAMES if chance.random() < 0.05 else NAMES[:11]
    return chance.sample(source, chance.randint(0, most))


def presentation(chance):
    names = some_names(chance, 4)
    inverses = [b""] * len(names)
    free = list(range(len(names)))
    chance.shuffle(free)
    while free and chance.random() < 0.8:
        first = free.pop()
        second = free.pop() if free and chance.random() < 0.7 else first
        inverses[first], inverses[second] = names[second], names[first]
    if names and chance.random() < 0.1:
        inverses[chance.randrange(len(names))] = chance.choice((b"", *names))
    equations = [listed((word(chance, names), word(chance, names))) for _ in range(chance.choice((0, 1, 1, 2, 3)))]
    fields = [(b"isRWS", b"true"), (b"generatorOrder", listed(names)), (b"equations", listed(equations))]
    if chance.random() < 0.9:
        inverses = [] if inverses == [b""] else inverses
        fields.append((b"inverses", listed(inverses)))
    if chance.random() < 0.3:
        fields.append((b"ordering", b'"wtlex"'))
        fields.append((b"weight", listed(b"%d" % chance.choice((1, 1, 2, 3, 1000)) for _ in names)))
    elif chance.random() < 0.5:
        fields.append((b"ordering", b'"shortlex"'))
    return whole(chance, fields)


def automaton(chance, is_pairs):
    names = some_names(chance, 3)
    count, size = len(names), chance.choice((0, 1, 2, 3, 4, 5, 6))
    symbols = (count + 1) ** 2 - chance.choice((0, 1, 1)) if is_pairs else count
    if is_pairs and chance.random() < 0.7:
        moves = padded_moves(chance, count, size)
    else:
        moves = plain_moves(chance, symbols, size, 0.25 if is_pairs else 0.7)
    base = [(b"type", b'"identifiers"'), (b"size", b"%d" % count), (b"names", listed(names))]
    if chance.random() < 0.5:
        base.append((b"format", b'"dense"'))
    alphabet = base
    if is_pairs:
        alphabet = [(b"type", b'"product"'), (b"size", b"%d" % symbols), (b"arity", b"2"), (b"base", record(base))]
    states = [(b"type", b'"simple"'), (b"size", b"%d" % size)]
    fields = [(b"isFSA", b"true"), (b"alphabet", record(alphabet)), (b"states", record(states))]
    fields.append((b"initial", listed([b"1"] if size and chance.random() < 0.95 else [])))
    fields.append((b"accepting", accepting(chance, size)))
    fields.append((b"table", record(table(chance, moves, symbols))))
    return whole(chance, fields)


def accepting(chance, size):
    if size and chance.random() < 0.3:
        return b"[%d..%d]" % (chance.randint(1, size), chance.randint(0, size))
    return listed(b"%d" % chance.randint(1, size) for _ in range(chance.randrange(size + 1)))


def table(chance, moves, symbols):
    if chance.random() < 0.5:
        rows = [listed(b"%d" % row.get(it, 0) for it in range(1, symbols + 1)) for row in moves]
        return [(b"format", b'"dense deterministic"'), (b"transitions", listed(rows))]
    rows = [list(row.items()) for row in moves]
    for row in rows:
        chance.shuffle(row)
    rows = [listed(b"[%d,%d]" % move for move in row) for row in rows]
    return [(b"format", b'"sparse"'), (b"transitions", listed(rows)), (b"defaultTarget", b"0")]


def plain_moves(chance, symbols, size, share):
    moves = [{} for _ in range(size)]
    for row in moves:
        for symbol in range(1, symbols + 1):
            if chance.random() < share:
                row[symbol] = chance.randint(1, size)
    return moves


def padded_moves(chance, count, size):
    """Each state has read no padding yet, or the first word has ended, or the second one."""
    ended = [0] + [chance.randrange(3) for _ in range(size)]
    moves = [{} for _ in range(size)]
    for state, row in enumerate(moves, 1 if size else 0):
        for symbol in range(1, (count + 1) ** 2):
            first, second = divmod(symbol - 1, count + 1)
            after = 1 if first == count else 2 if second == count else 0
            fitting = [it for it in range(1, size + 1) if ended[it] == after]
            fits = ended[state] in (0, after) and fitting
            if fits and chance.random() < 0.5:
                row[symbol] = chance.choice(fitting)
    return moves


def origin(chance):
    letter = chance.choice((b"R", b"K", b"S", b"M"))
    numbers = [b"%d" % chance.randint(1, 20) for _ in range(3 if letter == b"M" else 1)]
    if chance.random() < 0.05:
        numbers[-1] = number(chance)
    return letter + b",".join(numbers)


def derivation(chance):
    steps = [b"%d/%d" % (chance.randrange(9), chance.randint(1, 20)) for _ in range(chance.randrange(3))]
    if chance.random() < 0.03:
        steps.append(number(chance) + b"/" + number(chance))
    return b",".join(steps) or b"-"


def log_word(chance, names):
    return b"*".join(chance.choice(names) for _ in range(chance.randrange(5))) or b"IdWord"


def log(chance, names):
    version = chance.choice((1, 2, 2))
    lines = [b"kblog %d" % version]
    count = chance.randrange(5)
    for at in range(1, count + 2):
        is_open = at == count + 1
        if is_open and chance.random() < 0.5:
            break
        first, mark = (b"open", b"<>") if is_open else (b"%d" % at, b"->")
        words = [first, origin(chance), log_word(chance, names), mark, log_word(chance, names)]
        if version == 2:
            words += [b":", derivation(chance), b":", derivation(chance)]
        lines.append(b" ".join(words))
    return b"\n".join(lines) + b"\n"


# Damage


def damaged(chance, text):
    """The text with some places changed."""
    kinds = (field_changed,) if chance.random() < 0.6 else DAMAGES
    for _ in range(chance.choice((1, 1, 1, 2, 3))):
        text = chance.choice(kinds)(chance, text)
    return text


def cut(chance, text):
    return text[: chance.randrange(len(text) + 1)]


def byte_changed(chance, text):
    at = chance.randrange(len(text) + 1)
    new = chance.randrange(256) if chance.random() < 0.5 else chance.choice(b'()[],;*^.:="#-019aRr \n\\')
    return text[:at] + (bytes([new]) if chance.random() < 0.8 else b"") + text[at + chance.randrange(2) :]


def tokens_of(text):
    return TOKEN.findall(text)


def some_token(chance):
    pool = chance.choice((NAMES, FIELDS, MARKS, STRINGS, GAPS, None, None))
    return number(chance) if pool is None else chance.choice(pool)


def token_dropped(chance, text):
    tokens = tokens_of(text)
    if tokens:
        del tokens[chance.randrange(len(tokens))]
    return b"".join(tokens)


def token_put(chance, text):
    tokens = tokens_of(text)
    at = chance.randrange(len(tokens) + 1)
    tokens[at : at + chance.randrange(2)] = [some_token(chance)]
    return b"".join(tokens)


def tokens_exchanged(chance, text):
    tokens = tokens_of(text)
    if tokens:
        first, second = (chance.randrange(len(tokens)) for _ in range(2))
        tokens[first], tokens[second] = tokens[second], tokens[first]
    return b"".join(tokens)


def number_changed(chance, text):
    found = list(re.finditer(rb"-?[0-9]+", text))
    if not found:
        return text
    place = chance.choice(found)
    return text[: place.start()] + number(chance) + text[place.end() :]


def tree_changed(chance, text):
    """A part of the tree is dropped, doubled, replaced or put elsewhere."""
    tokens = tokens_of(text)
    if not tokens:
        return text
    brackets = [at for at, it in enumerate(tokens) if it in (b"(", b"[")]
    first = chance.choice(brackets) if brackets and chance.random() < 0.7 else chance.randrange(len(tokens))
    last = behind(tokens, first)
    part = tokens[first:last]
    kind = chance.randrange(4)
    if kind == 0:
        tokens[first:last] = []
    elif kind == 1:
        tokens[last:last] = [chance.choice((b",", b"*", b" ", b"")), *part]
    elif kind == 2:
        tokens[first:last] = [value(chance)]
    else:
        at = chance.randrange(len(tokens) + 1)
        tokens[at:at] = part
    return b"".join(tokens)


def field_changed(chance, text):
    """A field is replaced, dropped, doubled or named otherwise: the text stays one of the form."""
    tokens = tokens_of(text)
    places = [at for at, it in enumerate(tokens) if it == b":=" and at > 3]
    if not places:
        return text
    at = chance.choice(places)
    first, last = at - 2, value_end(tokens, at + 1)
    field, end = tokens[first:last], tokens[last : last + 1]
    kind = chance.randrange(8)
    if kind == 0:
        tokens[first : last + 1] = [b"" if end == [b","] else b"x0 := 1)"]
    elif kind == 1:
        tokens[last:last] = [b",", *field]
    elif kind == 2:
        tokens[first] = chance.choice(FIELDS)
    elif kind == 3:
        tokens[at + 1 : last] = [b" ", chance.choice((number(chance), chance.choice(STRINGS[:8]), word(chance, NAMES)))]
    elif kind == 4:
        tokens[at + 1 : last] = [b" ", value(chance)]
    else:
        tokens[at + 1 : last] = part_changed(chance, tokens[at + 1 : last])
    return b"".join(tokens)


def value_end(tokens, first):
    """The place behind the value that begins there."""
    depth = 0
    for at in range(first, len(tokens)):
        if depth == 0 and tokens[at] in (b",", b")", b"]"):
            return at
        depth += tokens[at] in (b"(", b"[")
        depth -= tokens[at] in (b")", b"]")
    return len(tokens)


def part_changed(chance, tokens):
    """A name, number or place in a value is changed to another of its kind, or doubled, or taken away."""
    tokens = list(tokens)
    places = [at for at, it in enumerate(tokens) if it[:1].isalnum() and it != b"rec"]
    if not places:
        return tokens
    at = chance.choice(places)
    kind = chance.randrange(6)
    if kind == 0:
        tokens[at] = number(chance) if tokens[at].isdigit() else chance.choice(NAMES)
    elif kind < 4:
        tokens[at] = b"%d" % chance.randint(-1, 9) if tokens[at].isdigit() else chance.choice(NAMES[:4])
    elif kind == 4:
        tokens[at:at] = [tokens[at], b","]
    elif tokens[at + 1 : at + 2] == [b","]:
        del tokens[at : at + 2]
    return tokens


def behind(tokens, first):
    """The place behind a token, or behind the bracket that closes it."""
    depth = 0
    for at in range(first, len(tokens)):
        depth += tokens[at] in (b"(", b"[")
        depth -= tokens[at] in (b")", b"]")
        if depth <= 0:
            return at + 1
    return len(tokens)


def nested(chance, text):
    """Brackets about the most that may be open, closed or not."""
    tokens = tokens_of(text)
    at, count = chance.randrange(len(tokens) + 1), chance.randint(58, 67)
    mark, end = chance.choice(((b"(", b")"), (b"[", b"]")))
    tokens[at : at + 1] = [mark * count, *tokens[at : at + 1], end * chance.choice((count, count, 0, count - 1))]
    return b"".join(tokens)


DAMAGES = (cut, byte_changed, byte_changed, token_dropped, token_put, token_put, tokens_exchanged, number_changed)
DAMAGES += (tree_changed, tree_changed, nested)
