"""Rewriting as it is defined, without any haste: normal forms, and whether rules are confluent."""


def normal_form(word, rules):
    """The word to which decreasing rules lead. What stands left of the letters to come is kept reduced."""
    done, coming = [], list(reversed(word))
    by_last = {}
    for left, right in rules:
        by_last.setdefault(left[-1], []).append((left, right))
    while coming:
        done.append(coming.pop())
        for left, right in by_last.get(done[-1], ()):
            if done[-len(left) :] == left:
                del done[-len(left) :]
                coming += reversed(right)
                break
    return done


def is_confluent(rules):
    """The words of each critical pair have one normal form."""
    for left, right in rules:
        for other, target in rules:
            for place in range(len(left)):
                whole = left + other[max(len(left) - place, 0) :]
                if whole[place : place + len(other)] == other:
                    first = right + whole[len(left) :]
                    second = whole[:place] + target + whole[place + len(other) :]
                    if normal_form(first, rules) != normal_form(second, rules):
                        return False
    return True
