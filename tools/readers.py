"""Presentations, automata, logs and word lines read as docs/formats.md says, with every refusal.

It is written from that page alone, and shares nothing with the program, so that each can be tried against the other.
`Refused` has number, name and tail of a refusal, as `E1 Syntax at 5`.
"""

import re

MOST_OPEN = 64
MOST_NAMES = 1000
MOST_EQUATIONS = 65_535
MOST_LETTERS = 65_535
MOST_WEIGHT = 1000
MOST_BYTES = 16_777_216

GAP = re.compile(rb"(?:[ \t\r\n]+|#[^\n]*)*")
NAME_FRONT = re.compile(rb"[A-Za-z_][A-Za-z0-9_]*(?:\.[A-Za-z0-9_]+)*\.?")
NUMBER_FRONT = re.compile(rb"-?[0-9]{0,18}")
STRING_FRONT = re.compile(rb'"[ !#-~]*')
VALUE = {"name", "number", "string", "rec", "[", "("}


class Refused(Exception):
    """A refusal, as it stands in a message."""


def syntax_fault(at):
    return Refused(f"E1 Syntax at {at}")


class Tokens:
    """The bytes from the left. Each token is taken as one of those that may stand there in some text of the form, so
    that what was passed is always a front of such a text."""

    def __init__(self, data):
        self.data = data
        self.at = 0
        self.open = 0

    def next(self, kinds):
        """The next token, which is of one of these kinds, with its value."""
        at = GAP.match(self.data, self.at).end()
        first = self.data[at : at + 1]
        if not first:
            if "end" in kinds:
                return "end", None
            raise syntax_fault(at)
        kind = first.decode("latin-1")
        self.at = at
        if kind in kinds:
            self.at += 1
            self.count(kind, at)
            return kind, at
        if (kind.isascii() and kind.isalpha() or kind == "_") and ("name" in kinds or "rec" in kinds):
            return self.name(kinds)
        if (kind.isascii() and kind.isdigit() or kind == "-") and "number" in kinds:
            return self.number()
        if kind == '"' and "string" in kinds:
            return self.string()
        for mark in (":=", ".."):
            if mark in kinds and kind == mark[0]:
                self.at += 1
                if self.data[self.at : self.at + 1] != mark[1].encode():
                    raise syntax_fault(self.at)
                self.at += 1
                return mark, None
        raise syntax_fault(at)

    def count(self, kind, at):
        """Counts open brackets."""
        if kind in "([":
            self.open += 1
            if self.open > MOST_OPEN:
                raise Refused(f"E2 TooDeep at {at}")
        elif kind in ")]":
            self.open -= 1

    def name(self, kinds):
        start = self.at
        if "name" not in kinds:
            for byte in b"rec":
                if self.data[self.at : self.at + 1] != bytes([byte]):
                    raise syntax_fault(self.at)
                self.at += 1
            if NAME_FRONT.match(self.data, start).end() > self.at:
                raise syntax_fault(self.at)
            return "rec", None
        self.at = NAME_FRONT.match(self.data, start).end()
        text = self.data[start : self.at]
        if text.endswith(b".") or text == b"rec" and "rec" not in kinds:
            raise syntax_fault(self.at)
        return ("rec", None) if text == b"rec" else ("name", text)

    def number(self):
        start = self.at
        self.at = NUMBER_FRONT.match(self.data, start).end()
        text = self.data[start : self.at]
        if text == b"-":
            raise syntax_fault(self.at)
        return "number", int(text)

    def string(self):
        start = self.at
        self.at = STRING_FRONT.match(self.data, start).end()
        if self.data[self.at : self.at + 1] != b'"':
            raise syntax_fault(self.at)
        self.at += 1
        return "string", self.data[start + 1 : self.at - 1]


class Record(list):
    """Pairs of a name and a value."""

    def get(self, name):
        return next((value for field, value in self if field == name), None)


class Range(tuple):
    """A first and a last number."""


class Word(list):
    """Factors: pairs of a name or a Word, and a power or None."""


def text_tree(data):
    """The Record of a Text. In `repeated` are the field names that stand twice in a record, by their places."""
    tokens = Tokens(data)
    repeated = []
    tokens.next({"name"})
    tokens.next({":="})
    tokens.next({"rec"})
    record = record_tree(tokens, repeated)
    if tokens.next({";", "end"})[0] == ";":
        tokens.next({"end"})
    if repeated:
        raise Refused("E6 FieldTwice " + min(repeated)[1].decode())
    return record


def record_tree(tokens, repeated):
    fields, known = Record(), set()
    tokens.next({"("})
    kind, name = tokens.next({"name", ")"})
    while kind != ")":
        if name in known:
            repeated.append((tokens.at, name))
        known.add(name)
        tokens.next({":="})
        value, kind = value_tree(tokens, tokens.next(VALUE), {",", ")"}, repeated)
        fields.append((name, value))
        if kind == ",":
            kind, name = tokens.next({"name"})
    return fields


def value_tree(tokens, token, behind, repeated):
    """The Value that begins with a token, and the kind of the token behind it."""
    kind, value = token
    if kind in ("name", "("):
        return word_tree(tokens, token, behind)
    if kind == "rec":
        value = record_tree(tokens, repeated)
    elif kind == "[":
        value = list_tree(tokens, repeated)
    return value, tokens.next(behind)[0]


def list_tree(tokens, repeated):
    """A list of values, None for empty places; or a Range."""
    places, behind = [], {",", "]"}
    token = tokens.next(VALUE | behind)
    if token[0] == "]":
        return places
    if token[0] == "number":
        kind, _ = tokens.next(behind | {".."})
        if kind == "..":
            last = tokens.next({"number"})[1]
            tokens.next({"]"})
            return Range((token[1], last))
        places.append(token[1])
        if kind == "]":
            return places
        token = tokens.next(VALUE | behind)
    while True:
        kind, value = token[0], None
        if kind not in behind:
            value, kind = value_tree(tokens, token, behind, repeated)
        places.append(value)
        if kind == "]":
            return places
        token = tokens.next(VALUE | behind)


def word_tree(tokens, token, behind):
    """The Word that begins with a token, and the kind of the token behind it."""
    factors = Word()
    while True:
        kind, atom = token
        if kind == "(":
            atom, _ = word_tree(tokens, tokens.next({"name", "("}), {")"})
        kind, power = tokens.next({"*", "^"} | behind)[0], None
        if kind == "^":
            power = tokens.next({"number"})[1]
            kind = tokens.next({"*"} | behind)[0]
        factors.append((atom, power))
        if kind != "*":
            return factors, kind
        token = tokens.next({"name", "("})


# Words


def letters_of(word, number, inverse, names):
    """The letters of a Word, by the generators' numbers and inverses."""
    product = []
    for atom, power in word:
        if isinstance(atom, Word):
            letters = letters_of(atom, number, inverse, names)
        elif atom == b"IdWord":
            letters = []
        elif atom in number:
            letters = [number[atom]]
        else:
            raise Refused("E10 UnknownGenerator " + atom.decode())
        if power is not None:
            letters = powered(letters, power, inverse, names)
        if len(product) + len(letters) > MOST_LETTERS:
            raise Refused("E13 WordTooLong")
        product += letters
    return product


def powered(letters, power, inverse, names):
    if power < 0:
        for letter in letters:
            if inverse[letter] is None:
                raise Refused("E11 NoInverse " + names[letter].decode())
    if len(letters) * abs(power) > MOST_LETTERS:
        raise Refused("E13 WordTooLong")
    if power < 0:
        letters = [inverse[letter] for letter in reversed(letters)]
    return letters * (abs(power) if letters else 0)


def is_blank(line):
    return GAP.match(line).end() == len(line)


def word_line(line, number, inverse, names):
    """The letters of a line that isn't blank."""
    tokens = Tokens(line)
    word, _ = word_tree(tokens, tokens.next({"name", "("}), {"end"})
    return letters_of(word, number, inverse, names)


def printed(letters, names):
    return b"*".join(names[letter] for letter in letters) or b"IdWord"


# Presentations


def bare_name(value):
    """The Name that a value is, or None."""
    if isinstance(value, Word) and len(value) == 1 and value[0][1] is None and isinstance(value[0][0], bytes):
        return value[0][0]
    return None


def is_plain_list(value):
    return type(value) is list


def needed(record, field):
    value = record.get(field.encode())
    if value is None:
        raise Refused(f"E4 MissingField {field}")
    return value


def require(holds, field):
    if not holds:
        raise Refused(f"E5 WrongKind {field}")


def names_in(value, field):
    """Generators: a List of Names."""
    require(is_plain_list(value) and all(bare_name(it) is not None for it in value), field)
    if len(value) > MOST_NAMES:
        raise Refused("E9 TooManyGenerators")
    names = [bare_name(it) for it in value]
    known = {b"IdWord", b"_"}
    for name in names:
        if name in known:
            raise Refused("E8 NameTaken " + name.decode())
        known.add(name)
    return names


class Presentation:
    """Names, inverses, weights (None by shortlex), and equations."""

    def __init__(self, data):
        if len(data) > MOST_BYTES:
            raise Refused("E15 TooLong")
        record = text_tree(data)
        require(bare_name(needed(record, "isRWS")) == b"true", "isRWS")
        ordering = record.get(b"ordering")
        require(ordering is None or isinstance(ordering, bytes), "ordering")
        if ordering not in (None, b"shortlex", b"wtlex"):
            raise Refused("E7 OtherOrdering")
        self.names = names_in(needed(record, "generatorOrder"), "generatorOrder")
        self.number = {name: at for at, name in enumerate(self.names)}
        self.weights = self.read_weights(needed(record, "weight")) if ordering == b"wtlex" else None
        self.inverse = self.read_inverses(record.get(b"inverses"))
        equations = needed(record, "equations")
        require(is_plain_list(equations), "equations")
        if len(equations) > MOST_EQUATIONS:
            raise Refused("E14 TooManyEquations")
        self.equations = [self.read_equation(it) for it in equations]

    def read_weights(self, value):
        require(is_plain_list(value) and all(isinstance(it, int) for it in value), "weight")
        if len(value) != len(self.names) or not all(1 <= it <= MOST_WEIGHT for it in value):
            raise Refused("E29 WeightsWrong")
        return value

    def read_inverses(self, value):
        size = len(self.names)
        inverse = [None] * size
        if value is None:
            return inverse
        require(is_plain_list(value) and all(it is None or bare_name(it) is not None for it in value), "inverses")
        require(all(it is None for it in value[size:]), "inverses")
        for at, it in enumerate(value[:size]):
            if it is not None:
                if bare_name(it) not in self.number:
                    raise Refused("E10 UnknownGenerator " + bare_name(it).decode())
                inverse[at] = self.number[bare_name(it)]
        for at, other in enumerate(inverse):
            if other is not None and inverse[other] != at:
                raise Refused("E12 InverseNotMutual " + self.names[at].decode())
        return inverse

    def read_equation(self, value):
        require(is_plain_list(value) and len(value) == 2 and all(isinstance(it, Word) for it in value), "equations")
        return tuple(letters_of(it, self.number, self.inverse, self.names) for it in value)

    def head(self):
        return self.names, self.inverse, self.weights

    def relations(self):
        pairs = [(at, other) for at, other in enumerate(self.inverse) if other is not None]
        return self.equations + [([at, other], []) for at, other in pairs]

    def key(self, word):
        """By it words are in order."""
        return (sum(self.weights[it] for it in word) if self.weights else len(word), word)

    def rules(self):
        """The relations as rules, each once."""
        rules = []
        for left, right in self.relations():
            if self.key(left) < self.key(right):
                left, right = right, left
            if left != right and (left, right) not in rules:
                rules.append((left, right))
        return rules

    def answers(self, data, least):
        """What is written for word lines, and the message of the refused line, if there is one."""
        out = b""
        lines = data.split(b"\n")
        for at, line in enumerate(lines, 1):
            if not is_blank(line):
                try:
                    word = word_line(line, self.number, self.inverse, self.names)
                except Refused as refused:
                    return out, f"kb: line {at}: {refused}\n"
                out += printed(least(word), self.names) + b"\n"
        return out, None


# Logs

LOG_NUMBER = rb"(?:0|[1-9][0-9]*)"
ORIGIN = re.compile(rb"R(N)|M(N),(N),(N)|K(N)|S(N)".replace(b"N", LOG_NUMBER))
STEPS = re.compile(rb"-|S(?:,S)*".replace(b"S", LOG_NUMBER + b"/" + LOG_NUMBER))


def is_log_word(text, number):
    return text == b"IdWord" or all(it in number for it in text.split(b"*"))


def is_origin(text):
    """Numbers of lines and relations, and places, are below 2^32."""
    found = ORIGIN.fullmatch(text)
    if not found:
        return False
    return all(int(it) < 2**32 for it in found.groups() if it is not None)


def is_derivation(text):
    if not STEPS.fullmatch(text):
        return False
    steps = [] if text == b"-" else [it.split(b"/") for it in text.split(b",")]
    return all(int(it) < 2**32 for step in steps for it in step)


def is_log_line(words, mark, version, number):
    """Origin, two words with a mark between, and of version 2 two derivations."""
    if len(words) != (4 if version == 1 else 8):
        return False
    origin, left, between, right, *derivations = words
    if not is_origin(origin) or between != mark or not is_log_word(left, number) or not is_log_word(right, number):
        return False
    if version == 1:
        return True
    colon, first, other_colon, second = derivations
    if origin.startswith(b"S") and second != b"-":
        return False
    return colon == other_colon == b":" and is_derivation(first) and is_derivation(second)


def read_log(data, number):
    """What `logread` prints of a log."""
    if len(data) > MOST_BYTES:
        raise Refused("E15 TooLong")
    first, *lines = data.split(b"\n")
    head, _, version = first.partition(b" ")
    if head == b"kblog" and re.fullmatch(rb"-?[0-9]{1,18}", version) and int(version) not in (1, 2):
        raise Refused("E26 LogVersion")
    if first not in (b"kblog 1", b"kblog 2") or not lines:
        raise Refused("E25 LogSyntax at line 1")
    version, opened, count = int(version), b"no open", 0
    for at, line in enumerate(lines, 2):
        is_last = at == len(lines) + 1
        if is_last and not line:
            break
        words = line.split(b" ")
        fits = not is_last and opened == b"no open"
        if fits and words[0] == b"open":
            fits = is_log_line(words[1:], b"<>", version, number)
            opened = b"open " + words[1] if fits else opened
        elif fits:
            count += 1
            fits = words[0] == b"%d" % count and is_log_line(words[1:], b"->", version, number)
        if not fits:
            raise Refused(f"E25 LogSyntax at line {at}")
    return b"log %d: lines %d, %s\n" % (version, count, opened)
