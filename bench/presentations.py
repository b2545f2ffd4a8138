"""Presentations of groups and monoids that people know."""

import data


def power(word, exponent):
    """The word so many times."""
    return "*".join([word] * exponent)


def group(generators, equations):
    """The presentation of a group by pairs of a generator and its inverse."""
    names, inverses = [], []
    for name, inverse in generators:
        names.append(name)
        inverses.append(inverse)
        if inverse != name:
            names.append(inverse)
            inverses.append(name)
    lines = ",\n".join(f"    [{left},{right}]" for left, right in equations)
    return data.presentation(names, inverses, lines)


def free_abelian(rank):
    """The free abelian group, as `kb selftest` completes it."""
    equations = [(f"x{j}*x{i}", f"x{i}*x{j}") for i in range(1, rank + 1) for j in range(i + 1, rank + 1)]
    return group([(f"x{i}", f"X{i}") for i in range(1, rank + 1)], equations)


def coxeter(rank, labels):
    """The Coxeter group of a diagram, whose edges have these labels."""
    equations = []
    for i in range(1, rank + 1):
        for j in range(i + 1, rank + 1):
            length = labels.get((i, j), 2)
            sides = (f"s{j}", f"s{i}"), (f"s{i}", f"s{j}")
            left, right = ("*".join((side * length)[:length]) for side in sides)
            equations.append((left, right))
    return group([(f"s{i}", f"s{i}") for i in range(1, rank + 1)], equations)


def fibonacci(count):
    """The Fibonacci group F(2,n): each generator is the product of the two before it."""
    letters = "abcdefgh"[:count]
    equations = [(f"{letters[i]}*{letters[(i + 1) % count]}", letters[(i + 2) % count]) for i in range(count)]
    return group([(x, x.upper()) for x in letters], equations)


def burnside():
    """The Burnside group B(2,4), of order 4,096, by nine fourth powers."""
    words = ("a", "b", "a*b", "A*b", "a*a*b", "a*b*b", "a*a*b*b", "A*b*a*b", "a*B*a*b")
    return group([("a", "A"), ("b", "B")], [(power(word, 4), "IdWord") for word in words])


def special_linear_and_cyclic():
    """SL(2,5) x C19: the binary icosahedral group, and a generator that commutes with it."""
    equations = [("s*s*s", power("t", 5)), ("s*t*s*t", "s*s*s"), (power("x", 19), "IdWord")]
    equations += [("x*s", "s*x"), ("x*t", "t*x")]
    return group([("s", "S"), ("t", "T"), ("x", "X")], equations)


def projective(prime):
    """PSL(2,p), by two generators (J. G. Sunday)."""
    word = f"{power('s', 4)}*t*{power('s', (prime + 1) // 2)}*t"
    equations = [(power("s", prime), "IdWord"), (power("s*t", 3), "IdWord"), (power(word, 2), "IdWord")]
    return group([("s", "S"), ("t", "t")], equations)


def projective_by_involution(prime):
    """PSL(2,p), by an element of order 2 and one of order 3 whose product has order p."""
    word = f"{power('b*a', 2)}*a*{power('b*a', (prime + 1) // 2)}*a"
    equations = [(power("b", 3), "IdWord"), (power("b*a", prime), "IdWord"), (power(word, 3), "IdWord")]
    return involution_and_another(equations)


def involution_and_another(equations):
    """A group by an involution a and a generator b."""
    return group([("a", "a"), ("b", "B")], equations)


def mathieu_11():
    """The Mathieu group M11, of order 7,920."""
    long = "a*b*a*b*a*B*a*b*a*b*b*a*B*a*b*a*B*a*B"
    words = (power("b", 4), power("a*b", 11), power("a*b*b", 6), long)
    return involution_and_another([(word, "IdWord") for word in words])


def mathieu_12():
    """The Mathieu group M12, of order 95,040."""
    words = (
        power("b", 3),
        power("a*b", 11),
        power("a*b*a*B", 6),
        power("a*b*a*b*a*B", 6),
        power("a*b*a*b*a*B*a*B", 5),
    )
    return involution_and_another([(word, "IdWord") for word in words])


def janko_1():
    """The Janko group J1, of order 175,560."""
    words = (
        power("b", 3),
        power("a*b", 7),
        power(f"a*b*{power('a*b*a*B', 3)}", 5),
        power(f"a*b*{power('a*b*a*B', 6)}*a*b*a*b*{power('a*B', 2)}", 2),
    )
    return involution_and_another([(word, "IdWord") for word in words])


def fibonacci_7_by_two():
    """The Fibonacci group F(2,7) by two of its generators."""
    first = "b*a*b*a*b*b*a*b*a*b*b*a*b*b*a*b*a*b*b*a*b"
    second = "a*b*b*a*b*b*a*b*a*b*b*a*b*a"
    return group([("a", "A"), ("b", "B")], [(first, "a"), (second, "b")])


def fibonacci_7_monoid():
    """The monoid of the presentation of F(2,7), of 30 elements."""
    letters = "abcdefg"
    lines = ",\n".join(f"    [{letters[i]}*{letters[(i + 1) % 7]},{letters[(i + 2) % 7]}]" for i in range(7))
    return data.presentation(letters, [""], lines)


def three_cycle():
    """A trivial group of B. H. Neumann's and Higman's."""
    names = [(x, x.upper()) for x in "abc"]
    return group(names, [("A*b*a", "b*b"), ("B*c*b", "c*c"), ("C*a*c", "a*a")])


def surface(genus):
    """The fundamental group of the orientable surface of this genus."""
    letters = "abcdefgh"[: 2 * genus]
    pairs = zip(letters[::2], letters[1::2])
    word = "*".join(f"{x}*{y}*{x.upper()}*{y.upper()}" for x, y in pairs)
    return group([(x, x.upper()) for x in letters], [(word, "IdWord")])


def pentagon():
    """The right-angled Artin group of a pentagon: each of five generators commutes with its two neighbours."""
    letters = "abcde"
    edges = [("b", "a"), ("e", "a"), ("c", "b"), ("d", "c"), ("e", "d")]
    return group([(x, x.upper()) for x in letters], [(f"{x}*{y}", f"{y}*{x}") for x, y in edges])


def free_abelian_in_another_order():
    """The free abelian group of rank 2, both generators before both inverses: it has no finite complete system."""
    return data.presentation(["a", "b", "A", "B"], ["A", "B", "a", "b"], "    [b*a,a*b]")


def plactic(rank):
    """The plactic monoid of this rank, by Knuth's relations."""
    letters = "abcdefgh"[:rank]
    equations = []
    for x in range(rank):
        for y in range(x, rank):
            for z in range(y, rank):
                first, second, third = letters[x], letters[y], letters[z]
                if x < y:
                    equations.append((f"{second}*{third}*{first}", f"{second}*{first}*{third}"))
                if y < z:
                    equations.append((f"{third}*{first}*{second}", f"{first}*{third}*{second}"))
    lines = ",\n".join(f"    [{left},{right}]" for left, right in equations)
    return data.presentation(letters, [""], lines)
