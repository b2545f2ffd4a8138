"""Automaton files read as docs/formats.md says, with every refusal, and the one text of an automaton's language.

Like `readers`, it is written from that page alone.
"""

import collections

from readers import MOST_BYTES, Range, Record, Refused, bare_name, is_plain_list, names_in, needed, require, text_tree

MOST_DENSE = 126


def split(blocks, of_class, waiting, number, part):
    """Makes a part of a block a block of its own. Of the two the smaller waits, or both where the block did."""
    blocks[number] -= part
    other = len(blocks)
    blocks.append(part)
    for state in part:
        of_class[state] = other
    smaller = other if len(part) <= len(blocks[number]) else number
    waiting.add(other if number in waiting else smaller)


class Automaton:
    """Names, whether it reads pairs, the number of states, the initial one or None, those that accept, and for each
    state its moves: targets by symbols. States and symbols are numbered from 1."""

    def __init__(self, data):
        if len(data) > MOST_BYTES:
            raise Refused("E15 TooLong")
        record = text_tree(data)
        require(bare_name(needed(record, "isFSA")) == b"true", "isFSA")
        self.read_alphabet(record_in(record, "alphabet"))
        states = record_in(record, "states")
        if string_in(states, "type") != b"simple":
            raise Refused("E16 StatesWrong")
        self.size = count_in(states)
        self.initial = self.read_initial(needed(record, "initial"))
        self.accepting = self.read_accepting(needed(record, "accepting"))
        self.rows = self.read_table(record_in(record, "table"))
        # A range may have as many numbers as there are states, which is known to be few when there is a row for each.
        self.accepting = set(self.accepting)
        if self.is_pairs and self.has_padding_inside():
            raise Refused("E21 PaddingInside")

    def read_alphabet(self, alphabet):
        kind = string_in(alphabet, "type")
        if kind not in (b"identifiers", b"product"):
            raise Refused("E18 AlphabetOther")
        self.is_pairs, base = kind == b"product", alphabet
        if self.is_pairs:
            arity = needed(alphabet, "arity")
            require(isinstance(arity, int), "arity")
            if arity != 2:
                raise Refused("E18 AlphabetOther")
            base = record_in(alphabet, "base")
            if string_in(base, "type") != b"identifiers":
                raise Refused("E18 AlphabetOther")
        self.names = names_in(needed(base, "names"), "names")
        count = len(self.names)
        sizes = ((count + 1) ** 2 - 1, (count + 1) ** 2)
        self.symbols = count_in(base)
        if self.symbols != count:
            raise Refused("E18 AlphabetOther")
        if self.is_pairs:
            self.symbols = count_in(alphabet)
            if self.symbols not in sizes:
                raise Refused("E18 AlphabetOther")
        dense = base.get(b"format")
        require(dense is None or isinstance(dense, bytes), "format")
        if dense not in (None, b"dense"):
            raise Refused("E18 AlphabetOther")

    def read_initial(self, value):
        require(is_numbers(value), "initial")
        if len(value) > 1:
            raise Refused("E19 NotDeterministic")
        self.require_states(value)
        return value[0] if value else None

    def read_accepting(self, value):
        require(isinstance(value, Range) or is_numbers(value), "accepting")
        if not isinstance(value, Range):
            self.require_states(value)
            return value
        first, last = value
        if first > last:
            return []
        self.require_states(value)
        return range(first, last + 1)

    def require_states(self, numbers):
        if not all(1 <= it <= self.size for it in numbers):
            raise Refused("E17 TargetOutOfRange")

    def read_table(self, table):
        default = table.get(b"defaultTarget")
        require(default is None or isinstance(default, int), "defaultTarget")
        if default not in (None, 0):
            raise Refused("E19 NotDeterministic")
        form = string_in(table, "format")
        if form not in (b"dense deterministic", b"sparse"):
            raise Refused("E19 NotDeterministic")
        rows = needed(table, "transitions")
        require(is_plain_list(rows), "transitions")
        if len(rows) != self.size:
            raise Refused("E16 StatesWrong")
        read = self.read_dense if form == b"dense deterministic" else self.read_sparse
        return [{}] + [{symbol: to for symbol, to in read(row).items() if to} for row in rows]

    def read_dense(self, row):
        require(is_numbers(row), "transitions")
        if len(row) != self.symbols:
            raise Refused("E16 StatesWrong")
        if not all(0 <= it <= self.size for it in row):
            raise Refused("E17 TargetOutOfRange")
        return dict(enumerate(row, 1))

    def read_sparse(self, row):
        require(is_plain_list(row) and all(is_numbers(it) and len(it) == 2 for it in row), "transitions")
        moves = {}
        for symbol, target in row:
            if not (1 <= symbol <= self.symbols and 0 <= target <= self.size):
                raise Refused("E17 TargetOutOfRange")
            if symbol in moves:
                raise Refused("E19 NotDeterministic")
            moves[symbol] = target
        return moves

    def live(self):
        """The states from which some text is accepted."""
        before = {}
        for state in range(1, self.size + 1):
            for target in self.rows[state].values():
                before.setdefault(target, []).append(state)
        live, waiting = set(self.accepting), list(self.accepting)
        while waiting:
            for state in before.get(waiting.pop(), ()):
                if state not in live:
                    live.add(state)
                    waiting.append(state)
        return live

    def has_padding_inside(self):
        """Some accepted text has a letter after padding on one track, or two paddings."""
        live, side = self.live(), len(self.names) + 1
        if self.initial not in live:
            return False
        known = {(self.initial, False, False)}
        waiting = list(known)
        while waiting:
            state, first_ended, second_ended = waiting.pop()
            for symbol, target in self.rows[state].items():
                if target not in live:
                    continue
                first, second = divmod(symbol - 1, side)
                first, second = first == side - 1, second == side - 1
                if first and second or first_ended and not first or second_ended and not second:
                    return True
                place = target, first, second
                if place not in known:
                    known.add(place)
                    waiting.append(place)
        return False

    def canonical(self):
        """The text of the canonical automaton: minimal, trim, numbered breadth first."""
        live = self.live()
        if self.initial not in live:
            return self.text([{}], set())
        order = self.reached(live)
        of_class = self.classes(order, live)
        number, rows, waiting = {of_class[self.initial]: 1}, [], [self.initial]
        for state in waiting:
            row = {}
            for symbol, target in sorted(self.rows[state].items()):
                if target in live:
                    if of_class[target] not in number:
                        number[of_class[target]] = len(number) + 1
                        waiting.append(target)
                    row[symbol] = number[of_class[target]]
            rows.append(row)
        accepting = {number[of_class[it]] for it in order if it in self.accepting}
        return self.text(rows, accepting)

    def reached(self, live):
        order, known = [self.initial], {self.initial}
        for state in order:
            for target in self.rows[state].values():
                if target in live and target not in known:
                    known.add(target)
                    order.append(target)
        return order

    def classes(self, states, live):
        """For each state the number of its class: those from which the same texts are accepted (Hopcroft, 1971)."""
        sources = collections.defaultdict(lambda: collections.defaultdict(list))
        for state in states:
            for symbol, target in self.rows[state].items():
                if target in live:
                    sources[symbol][target].append(state)
        blocks = [part for part in ({it for it in states if (it in self.accepting) == side} for side in (True, False)) if part]
        of_class = {state: number for number, part in enumerate(blocks) for state in part}
        waiting = set(range(len(blocks)))
        while waiting:
            splitter = list(blocks[waiting.pop()])
            for of_symbol in sources.values():
                hit = collections.defaultdict(set)
                for target in splitter:
                    for state in of_symbol.get(target, ()):
                        hit[of_class[state]].add(state)
                for number, part in hit.items():
                    if len(part) < len(blocks[number]):
                        split(blocks, of_class, waiting, number, part)
        return of_class

    def text(self, rows, accepting):
        count, size = len(self.names), len(rows)
        alphabet = {"type": '"identifiers"', "size": str(count), "format": '"dense"', "names": listed(self.names)}
        if self.is_pairs:
            symbols = (count + 1) ** 2 - 1
            alphabet = {"type": '"product"', "size": str(symbols), "arity": "2", "padding": "_", "base": alphabet}
        else:
            symbols = count
        every = size > 1 and len(accepting) == size
        if count > MOST_DENSE:
            form, table = '"sparse"', [[f"[{it},{row[it]}]" for it in sorted(row)] for row in rows]
        else:
            form = '"dense deterministic"'
            table = [[str(row.get(it, 0)) for it in range(1, symbols + 1)] for row in rows]
        fields = {
            "isFSA": "true",
            "alphabet": alphabet,
            "states": {"type": '"simple"', "size": str(size)},
            "flags": '["DFA","minimized","BFS","accessible","trim"]',
            "initial": "[1]",
            "accepting": f"[1..{size}]" if every else f"[{','.join(map(str, sorted(accepting)))}]",
            "table": {
                "format": form,
                "numTransitions": str(sum(map(len, rows))),
                "transitions": "[\n      " + ",\n      ".join(f"[{','.join(row)}]" for row in table) + "\n    ]",
            },
        }
        return f"_FSA := {laid_out(fields, 0)};\n".encode()


def listed(names):
    return "[" + ",".join(name.decode() for name in names) + "]"


def laid_out(value, level):
    """A record, a field on a line, two blanks for each level."""
    if isinstance(value, str):
        return value
    inner = "  " * (level + 1)
    lines = ",\n".join(f"{inner}{name} := {laid_out(it, level + 1)}" for name, it in value.items())
    return f"rec(\n{lines}\n{'  ' * level})"


def is_numbers(value):
    return is_plain_list(value) and all(isinstance(it, int) for it in value)


def record_in(record, field):
    value = needed(record, field)
    require(isinstance(value, Record), field)
    return value


def string_in(record, field):
    value = needed(record, field)
    require(isinstance(value, bytes), field)
    return value


def count_in(record):
    """A size, which is a Number and not negative."""
    value = needed(record, "size")
    require(isinstance(value, int) and value >= 0, "size")
    return value
