"""Coset enumeration as Todd and Coxeter did it by hand, without any haste: tables of the right cosets of a subgroup."""


class TooMany(Exception):
    """The table would have more rows than may be."""


class CosetTable:
    """The right cosets of a subgroup by numbers from 0, and where each letter leads from each of them."""

    def __init__(self, inverse, most):
        self.inverse, self.most = inverse, most
        self.rows = [{}]
        self.same_as = [0]
        self.waiting = []

    def find(self, coset):
        """The number that stands for a coset which may have been found to be another one."""
        while self.same_as[coset] != coset:
            coset = self.same_as[coset]
        return coset

    def define(self, coset, letter):
        """A new coset to which a letter leads."""
        if len(self.rows) >= self.most:
            raise TooMany
        new = len(self.rows)
        self.rows.append({self.inverse[letter]: coset})
        self.same_as.append(new)
        self.rows[coset][letter] = new
        return new

    def link(self, coset, letter, target):
        """A letter leads from a coset to another, and its inverse back. What leads elsewhere already is the same coset."""
        for begin, step, end in ((coset, letter, target), (target, self.inverse[letter], coset)):
            known = self.rows[begin].get(step)
            if known is None:
                self.rows[begin][step] = end
            elif self.find(known) != self.find(end):
                self.waiting.append((known, end))

    def merge(self):
        """Takes together all cosets that were found to be the same."""
        if not self.waiting:
            return
        while self.waiting:
            one, other = sorted(self.find(it) for it in self.waiting.pop())
            if one != other:
                self.same_as[other] = one
                row, self.rows[other] = self.rows[other], {}
                for letter, target in row.items():
                    self.link(one, letter, self.find(target))
        for row in self.rows:
            for letter in row:
                row[letter] = self.find(row[letter])

    def close(self, coset, word):
        """The word leads from the coset back to it: new cosets are defined on the way, and the last letter comes back."""
        if not word:
            return
        at = coset
        for letter in word[:-1]:
            target = self.rows[at].get(letter)
            at = self.define(at, letter) if target is None else target
        self.link(at, word[-1], coset)
        self.merge()


def enumerate_cosets(letters, inverse, relators, generators, most):
    """The table of the cosets of what the words generate, with at most so many rows on the way; or none, where it has more."""
    table = CosetTable(inverse, most)
    try:
        for word in generators:
            table.close(0, word)
        coset = 0
        while coset < len(table.rows):
            for word in relators:
                if table.find(coset) == coset:
                    table.close(coset, word)
            if table.find(coset) == coset:
                for letter in letters:
                    if letter not in table.rows[coset]:
                        table.define(coset, letter)
            coset += 1
    except TooMany:
        return None
    return {coset: row for coset, row in enumerate(table.rows) if table.find(coset) == coset}


def least_words(letters, table):
    """The shortlex least word of each coset: they are found in the order of their lengths, and of their letters."""
    least, found = {0: []}, [0]
    for coset in found:
        for letter in letters:
            target = table[coset][letter]
            if target not in least:
                least[target] = least[coset] + [letter]
                found.append(target)
    return least


def coset_of(table, word):
    """The coset to which a word leads."""
    at = 0
    for letter in word:
        at = table[at][letter]
    return at
