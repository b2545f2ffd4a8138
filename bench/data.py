"""The data that bench/run measures with, made from a seed: the same bytes each time."""

import random
import re

SEED = 20261126


def generators(presentation):
    """The names of a presentation file's generators."""
    order = re.search(r"generatorOrder\s*:=\s*\[([^\]]*)\]", presentation)
    return [name.strip() for name in order.group(1).split(",")]


def word(names, length, chance):
    """A word of so many letters, each as likely as another."""
    return "*".join(chance.choice(names) for _ in range(length)) or "IdWord"


def word_lines(names, size, most=64):
    """Lines of words of 1 to `most` letters, together of exactly `size` bytes."""
    chance = random.Random(SEED)
    stock = [word(names, chance.randint(1, most), chance) + "\n" for _ in range(4096)]
    lines, length = [], 0
    while length < size:
        line = chance.choice(stock)
        lines.append(line)
        length += len(line)
    last = lines.pop()
    rest = size - (length - len(last))
    return "".join(lines).encode() + b"#" * (rest - 1) + b"\n"


def reduced_lines(names, inverses, size, least=20, most=200):
    """Lines of words with no generator beside its inverse, of so many letters, at most so many bytes together."""
    chance = random.Random(SEED)

    def reduced():
        letters = [chance.choice(names)]
        for _ in range(chance.randint(least, most) - 1):
            letters.append(chance.choice([name for name in names if name != inverses[letters[-1]]]))
        return "*".join(letters) + "\n"

    return repeated([reduced() for _ in range(1024)], size, chance)


def power_lines(names, size):
    """Lines of names and groups, some of them with powers, at most so many bytes together."""
    chance = random.Random(SEED)

    def factor():
        group = chance.random() < 0.5
        text = f"({word(names, chance.randint(2, 3), chance)})" if group else chance.choice(names)
        return text + chance.choice(("", "^2", "^3"))

    stock = ["*".join(factor() for _ in range(chance.randint(2, 12))) + "\n" for _ in range(1024)]
    return repeated(stock, size, chance)


def repeated(stock, size, chance):
    """Lines of the stock at random, at most so many bytes together."""
    lines, length = [], 0
    while True:
        line = chance.choice(stock)
        length += len(line)
        if length > size:
            return "".join(lines).encode()
        lines.append(line)


def one_line(text, size, last=""):
    """One line of about so many bytes, of the text again and again."""
    return (text * (size // len(text)) + last + "\n").encode()


def longest_word(names, length=65_535):
    """One line with the longest word that is read."""
    return (word(names, length, random.Random(SEED)) + "\n").encode()


def free_commutative(rank):
    """The free commutative monoid of this rank: rank * (rank - 1) / 2 equations, which are confluent as rules."""
    names = [f"x{number}" for number in range(1, rank + 1)]
    equations = ",\n".join(
        f"    [{names[j]}*{names[i]},{names[i]}*{names[j]}]"
        for i in range(rank)
        for j in range(i + 1, rank)
    )
    return presentation(names, [""], equations)


def free_abelian(rank):
    """The free abelian group of this rank: any two letters of different generators commute."""
    pairs = [(f"x{number}", f"X{number}") for number in range(1, rank + 1)]
    names = [name for pair in pairs for name in pair]
    inverses = [name for pair in pairs for name in reversed(pair)]
    equations = ",\n".join(
        f"    [{greater}*{less},{less}*{greater}]"
        for i in range(rank)
        for j in range(i + 1, rank)
        for greater in pairs[j]
        for less in pairs[i]
    )
    return presentation(names, inverses, equations)


def coxeter_a(rank):
    """The Coxeter group of type A of this rank, the symmetric group on rank + 1 letters, by its confluent rules."""
    names = [f"s{number}" for number in range(1, rank + 1)]
    equations = [
        f"    [{names[j]}*{names[i]},{names[i]}*{names[j]}]" for i in range(rank) for j in range(i + 2, rank)
    ]
    for i in range(1, rank):
        for j in range(i):
            fall = [names[k] for k in range(i - 1, j - 1, -1)]
            left = "*".join([names[i], *fall, names[i]])
            right = "*".join([names[i - 1], names[i], *fall])
            equations.append(f"    [{left},{right}]")
    return presentation(names, names, ",\n".join(equations))


def coxeter_d(rank):
    """The Coxeter group of type D of this rank, as signed permutations, by its reduced complete rewriting system."""

    def swap(place, sign):
        image = list(range(1, rank + 1))
        image[place], image[place + 1] = sign * image[place + 1], sign * image[place]
        return tuple(image)

    names = [f"s{number}" for number in range(1, rank + 1)]
    return completed(names, names, [swap(0, -1), *(swap(place, 1) for place in range(rank - 1))])


def completed(names, inverses, generators):
    """A finite group of signed permutations by its reduced complete rewriting system."""
    rules = complete_rules(generators, tuple(range(1, len(generators[0]) + 1)))
    spelled = ["*".join(names[letter] for letter in side) or "IdWord" for rule in rules for side in rule]
    equations = (f"    [{left},{right}]" for left, right in zip(spelled[::2], spelled[1::2]))
    return presentation(names, inverses, ",\n".join(equations))


def complete_rules(generators, one):
    """The shortlex reduced complete rewriting system of a finite group of signed permutations: the words that are not
    least, all of whose factors are, with the least words equal to them."""

    def times(element, generator):
        return tuple((1 if value > 0 else -1) * element[abs(value) - 1] for value in generator)

    least, order = {one: ()}, [one]
    for element in order:
        for letter, generator in enumerate(generators):
            product = times(element, generator)
            if product not in least:
                least[product] = (*least[element], letter)
                order.append(product)
    words = set(least.values())
    rules = []
    for element in order:
        for letter, generator in enumerate(generators):
            word = (*least[element], letter)
            if word not in words and (len(word) == 1 or word[1:] in words):
                rules.append((word, least[times(element, generator)]))
    return rules


def presentation(names, inverses, equations):
    """The text of a presentation file."""
    return (
        "_RWS := rec(\n  isRWS := true,\n"
        f"  generatorOrder := [{','.join(names)}],\n"
        f"  inverses := [{','.join(inverses)}],\n"
        f"  equations := [\n{equations}\n  ]\n);\n"
    )
