"""Logs of completions as they are defined, without any haste: their text, and whether each line follows."""

import collections

Line = collections.namedtuple("Line", "origin left right first second")
Log = collections.namedtuple("Log", "lines waiting")


def word_of(text):
    return [] if text == "IdWord" else text.split("*")


def printed(word):
    return "*".join(word) or "IdWord"


def steps_of(text):
    """The steps of a derivation, each a place and the number of a line."""
    return [] if text == "-" else [tuple(map(int, step.split("/"))) for step in text.split(",")]


def printed_steps(steps):
    return ",".join(f"{place}/{number}" for place, number in steps) or "-"


def read_log(text):
    """The log of a text of version 2."""
    head, *rest = text.splitlines()
    if head != "kblog 2":
        raise ValueError(f"a log of another version: {head}")
    waiting = None
    if rest and rest[-1].startswith("open "):
        waiting = line_of(rest.pop()[len("open ") :], " <> ")
    return Log([line_of(it.split(" ", 1)[1], " -> ") for it in rest], waiting)


def line_of(text, between):
    sides, first, second = text.split(" : ")
    origin, sides = sides.split(" ", 1)
    numbers = tuple(map(int, origin[1:].split(",")))
    left, right = sides.split(between)
    return Line((origin[0], *numbers), word_of(left), word_of(right), steps_of(first), steps_of(second))


def log_text(log):
    rows = [f"{number} {line_text(line, ' -> ')}" for number, line in enumerate(log.lines, 1)]
    rows += [f"open {line_text(log.waiting, ' <> ')}"] if log.waiting else []
    return "".join(f"{row}\n" for row in ["kblog 2", *rows])


def line_text(line, between):
    origin = line.origin[0] + ",".join(map(str, line.origin[1:]))
    sides = printed(line.left) + between + printed(line.right)
    return f"{origin} {sides} : {printed_steps(line.first)} : {printed_steps(line.second)}"


def has_factor(word, factor):
    return any(word[at : at + len(factor)] == factor for at in range(len(word) - len(factor) + 1))


def critical_pair(first, second, place):
    """The critical pair of two lines whose left sides overlap at a place of the first one's, or none."""
    if place >= len(first.left):
        return None
    common = min(len(first.left) - place, len(second.left))
    if first.left[place : place + common] != second.left[:common]:
        return None
    end = place + len(second.left)
    return (
        first.right + second.left[len(first.left) - place :],
        first.left[:place] + second.right + first.left[end:],
    )


def pair_of(relations, earlier, origin):
    """The pair of words that an origin names, or none."""
    kind, number, *rest = origin
    if kind == "R":
        return relations[number - 1] if 1 <= number <= len(relations) else None
    if not all(1 <= it <= len(earlier) for it in (number, *rest[:1])):
        return None
    if kind == "M":
        other, place = rest
        if number == other and place == 0:
            return None
        return critical_pair(earlier[number - 1], earlier[other - 1], place)
    return earlier[number - 1].left, earlier[number - 1].right


def led_to(earlier, word, steps):
    """The word to which the steps lead, or none."""
    for place, number in steps:
        if not 1 <= number <= len(earlier):
            return None
        line = earlier[number - 1]
        end = place + len(line.left)
        if word[place:end] != line.left:
            return None
        word = word[:place] + line.right + word[end:]
    return word


def has_origin_fault(relations, earlier, origin):
    kind, number = origin[:2]
    if pair_of(relations, earlier, origin) is None:
        return True
    if kind == "R":
        return any(line.origin == origin for line in earlier)
    if kind == "M":
        return False
    if any(line.origin[0] in "KS" and line.origin[1] == number for line in earlier):
        return True
    own = earlier[number - 1].left
    return kind == "K" and not any(at != number and has_factor(own, line.left) for at, line in enumerate(earlier, 1))


def fault_of(relations, less, earlier, line, waits):
    """The first reason why the line doesn't follow behind the earlier ones, or none."""
    is_shortened = line.origin[0] == "S"
    if has_origin_fault(relations, earlier, line.origin):
        return "Origin"
    one, other = pair_of(relations, earlier, line.origin)
    if is_shortened:
        end = led_to(earlier, other, line.first)
        if end is None or line.second:
            return "Step"
        if line.left != one or line.right != end or end == other:
            return "Result"
    else:
        ends = led_to(earlier, one, line.first), led_to(earlier, other, line.second)
        if None in ends:
            return "Step"
        if (line.left, line.right) not in (ends, ends[::-1]):
            return "Result"
    if not less(line.right, line.left):
        return "Order"
    if is_shortened and not waits:
        return None
    words = [line.left, line.right] if waits else [line.left]
    return "Earlier" if any(has_factor(word, it.left) for it in earlier for word in words) else None


def verified(relations, less, log):
    """None where each line follows, else the number of the first that doesn't, and the first reason."""
    for at, line in enumerate(log.lines):
        why = fault_of(relations, less, log.lines[:at], line, False)
        if why:
            return at + 1, why
    why = log.waiting and fault_of(relations, less, log.lines, log.waiting, True)
    return (len(log.lines) + 1, why) if why else None
