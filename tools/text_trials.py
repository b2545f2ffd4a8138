"""What has to come of a text at random, by kind: the cases that try it, as the readers tell."""

import re

import random_texts
from casebatch import Case
from fsareader import Automaton
from readers import Presentation, Refused, read_log
from rewriting_plainly import is_confluent, normal_form

NOT_CONFLUENT = re.compile(r'"no confluent [^ ]+ [^ ]+\\n"')
MOST_RULES, MOST_LENGTH = 9, 12


class Trial(Case):
    """A case of which one thing that isn't told beforehand may differ: the words that aren't confluent."""

    def __init__(self, *given, free=None, **wanted):
        super().__init__(*given, **wanted)
        self.free = free

    def allows(self, found):
        """What differs may differ."""
        return self.free is not None and set(found) == {"out"} and bool(self.free.fullmatch(found["out"]["came"]))


def is_read(text):
    """A presentation that isn't refused."""
    try:
        Presentation(text)
    except Refused:
        return False
    return True


def refused(words, files, name, refusal):
    return Trial(words, files, status=1, err=f"kb: {name}: {refusal}\n".encode())


class Kind:
    """A kind of text: how one is made, how often, and what has to come of it: the cases that try a text, and what the
    answer is, the number of a refusal or a word."""

    def __init__(self, share, made, tried):
        self.share, self.made, self.tried = share, made, tried

    def text(self, chance):
        text = self.made(chance)
        return text if chance.random() < 0.2 else random_texts.damaged(chance, text)


def try_presentation(text, chance):
    often = 0 if chance is None else chance.random()
    words = ("logread P", "gpaxioms P", "wordreduce P")[(often > 0.5) + (often > 0.95)]
    files = {"P": text}
    try:
        it = Presentation(text)
    except Refused as refusal:
        return [refused(words, files, "P", refusal)], str(refusal).split()[0]
    if words == "gpaxioms P":
        lacking = [name for name, other in zip(it.names, it.inverse) if other is None]
        if it.weights is not None:
            return [refused(words, files, "P", "E30 NeedsShortlex")], "read"
        if lacking:
            return [refused(words, files, "P", "E23 NotGroup " + lacking[0].decode())], "read"
        return [refused(words, files, "P.wa", "E3 Missing")], "read"
    if words == "wordreduce P":
        rules = it.rules()
        if len(rules) <= MOST_RULES and all(len(side) <= MOST_LENGTH for rule in rules for side in rule):
            return reduced(it, rules, files, chance)
    return [refused("logread P", files, "P.kblog", "E3 Missing")], "read"


def reduced(it, rules, files, chance):
    """Least words, where the rules are confluent."""
    if not is_confluent(rules):
        return [Trial("wordreduce P", files, status=3, free=NOT_CONFLUENT)], "not confluent"
    given = b"".join(random_texts.word(chance, it.names) + b"\n" for _ in range(5))
    return [answers(it, rules, files, given)], "confluent"


def answers(it, rules, files, given):
    out, message = it.answers(given, lambda word: normal_form(word, rules))
    if message is None:
        return Trial("wordreduce P", files, given, out=out)
    return Trial("wordreduce P", files, given, status=1, out=out, err=message.encode())


def try_automaton(text, chance):
    files = {"G": text}
    try:
        it = Automaton(text)
    except Refused as refusal:
        return [refused("fsamin G OUT", files, "G", refusal)], str(refusal).split()[0]
    canonical = it.canonical()
    cases = [Trial("fsamin G OUT", files, stored={"OUT": canonical})]
    if chance is not None and chance.random() < 0.2:
        cases.append(Trial("fsamin G OUT", {"G": canonical}, stored={"OUT": canonical}))
        cases.append(Trial("fsalequal G H", {"G": text, "H": canonical}, out=b"yes\n"))
    elif chance is not None and chance.random() < 0.1:
        cases += needs(it, text)
    return cases, "read"


OTHER = b'_R := rec(isFSA := true, alphabet := rec(type := "identifiers", size := 1, names := [other]), '
OTHER += b'states := rec(type := "simple", size := 0), initial := [], accepting := [], '
OTHER += b'table := rec(format := "sparse", transitions := []))'


def needs(it, text):
    """What commands need of an automaton: pairs, or words, and the names of another one."""
    files = {"G": text, "H": OTHER}
    kind = ("fsaconcat G G OUT", "E18 AlphabetOther") if it.is_pairs else ("fsaexists G OUT", "E20 NotPairs")
    return [
        refused(kind[0], files, "G", kind[1]),
        refused("fsaand H G OUT", files, "G", "E22 AlphabetsDiffer"),
        refused("fsalequal G H", files, "H", "E22 AlphabetsDiffer"),
    ]


LOGGED = b"_R := rec(isRWS := true, generatorOrder := [a,A,b,x.1], inverses := [A,a], equations := []);"
LOGGED_NAMES = (b"a", b"A", b"b", b"x.1")


def try_log(text, _chance):
    files = {"P": LOGGED, "P.kblog": text}
    try:
        return [Trial("logread P", files, out=read_log(text, LOGGED_NAMES))], "read"
    except Refused as refusal:
        return [refused("logread P", files, "P.kblog", refusal)], str(refusal).split()[0]


# A presentation whose relations are confluent, with a generator that has no inverse.
LINED_TEXT = b"_R := rec(isRWS := true, generatorOrder := [a,A,b,x.1,c], inverses := [A,a,b], "
LINED_TEXT += b"equations := [[x.1*b,b*x.1],[c^3,c]])"
LINED = Presentation(LINED_TEXT)
RULES = LINED.rules()


def some_lines(chance):
    names = LINED.names + 3 * LINED.names[:3]
    return b"\n".join(random_texts.word(chance, names, 3) for _ in range(12))


def try_lines(text, _chance):
    made = answers(LINED, RULES, {"P": LINED_TEXT}, text)
    return [made], made.err.split()[3].decode() if made.err else "read"


KINDS = {
    "presentation": Kind(35, random_texts.presentation, try_presentation),
    "automaton": Kind(25, lambda chance: random_texts.automaton(chance, False), try_automaton),
    "pairs": Kind(15, lambda chance: random_texts.automaton(chance, True), try_automaton),
    "log": Kind(15, lambda chance: random_texts.log(chance, LOGGED_NAMES), try_log),
    "lines": Kind(10, some_lines, try_lines),
}
