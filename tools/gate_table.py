"""The table of docs/CONTRIBUTING.md: what the gate costs, by crate and by kind, in minutes of processor time; and the budget."""

import os
import re

TOP = os.path.dirname(os.path.dirname(os.path.abspath(__file__)))
PAGE = "docs/CONTRIBUTING.md"
MARK = re.compile(r"(<!-- made by tools/gate-times --write -->\n)(.*?)(<!-- end -->)", re.S)
KINDS = ("proof", "tests", "edits", "other")

# The budget, in proofs of the index in the same run, so that it is the same on each machine: of the automaton of left sides, and of the reducer by it.
UNIT = ("kb_trie", "kb_index")
MOST_OF_ALL, MOST_OF_A_CRATE = 36, 2


def rows(sums):
    """The lines of the table, the dearest crate first, of the seconds by crate and kind."""
    total = {kind: sum(by[kind] for by in sums.values()) for kind in KINDS}
    yield "| crate | " + " | ".join(KINDS) + " | all |"
    yield "|---|" + "---|" * (len(KINDS) + 1)
    for crate, by in [*sorted(sums.items(), key=lambda it: -sum(it[1].values())), ("all", total)]:
        figures = [f"{by[kind] / 60:.1f}" if by[kind] >= 3 else "-" for kind in KINDS]
        yield f"| `{crate}` | " + " | ".join([*figures, f"{sum(by.values()) / 60:.1f}"]) + " |"


def sentence(date, processors, whole, clock, end):
    """What stands above the table: of which run it is. Minutes of processor time are those of all processes, also of those without a row."""
    return f"On {date}, on {processors} processors: **{whole:.0f} minutes of processor time, {clock:.0f} by the clock**. {end}."


SENTENCE = re.compile(r"^On .*: \*\*(\d+) minutes of processor time(?:, \d+ by the clock)?\*\*\..*$", re.M)
ROW = re.compile(r"^\|.*\|$\n?", re.M)


def last_in(text):
    """The sentence and the table that stand last in a text, as one text, or None."""
    said = list(SENTENCE.finditer(text))
    table = said and ROW.findall(text[said[-1].end() :])
    return f"{said[-1][0]}\n\n{''.join(table)}" if table else None


def write(text):
    """Puts a sentence and its table between the marks of the page."""
    with open(f"{TOP}/{PAGE}", encoding="utf-8") as it:
        page = it.read()
    with open(f"{TOP}/{PAGE}", "w", encoding="utf-8") as it:
        it.write(MARK.sub(lambda found: f"{found[1]}{text}{found[3]}", page))


def read(page):
    """The minutes of the whole run, and those of each crate by kind, as a page's table has them."""
    found = MARK.search(page)
    whole = found and SENTENCE.search(found[2])
    if not whole:
        return None, {}
    crates = {}
    for line in ROW.findall(found[2])[2:]:
        name, *figures = [it.strip(" `\n") for it in line.strip().strip("|").split("|")]
        crates[name] = dict(zip([*KINDS, "all"], [0.0 if it == "-" else float(it) for it in figures]))
    crates.pop("all", None)
    return float(whole[1]), crates


def faults(page, crates):
    """What of the table and of the crates doesn't agree, and what is above the budget, a sentence each."""
    whole, costs = read(page)
    unit = sum(costs.get(it, {}).get("proof", 0.0) for it in UNIT)
    if not unit:
        yield f"{PAGE}: no table of what the gate costs: tools/gate-times --write"
        return
    if whole > MOST_OF_ALL * unit:
        yield f"{PAGE}: the gate takes {whole:.0f} minutes, and not {MOST_OF_ALL * unit:.0f} at most, {MOST_OF_ALL} times the proofs of {' and '.join(UNIT)}"
    for name, by in costs.items():
        if by["all"] > MOST_OF_A_CRATE * unit:
            yield f"{PAGE}: {name} takes {by['all']:.1f} minutes, and not {MOST_OF_A_CRATE * unit:.1f} at most, {MOST_OF_A_CRATE} times the proofs of {' and '.join(UNIT)}"
        if name not in crates:
            yield f"{PAGE}: the table has {name}, and there is no such crate"


def newcomers(page, crates):
    """The crates that came after the run of the table."""
    return [it for it in crates if it not in read(page)[1]]
