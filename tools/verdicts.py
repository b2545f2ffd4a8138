"""The must-fail edits that there are, and the table edits/verdicts.csv of what came when each was last tried.

An edit that the prover can't refuse has a line `# refused by: NAME`: NAME is a file of cases of kb_cases, or kb_checks."""

import collections
import csv
import functools
import glob
import os
import re
import subprocess

TOP = os.path.dirname(os.path.dirname(os.path.abspath(__file__)))
TABLE = "edits/verdicts.csv"
COLUMNS = ["edit", "verdict", "commit"]
VERDICTS = ["refused", "accepted", "bad", "untried"]
PROVER = "the prover"


def edits():
    """The path of each edit, of those in the gate and of those beside it, sorted."""
    return sorted(glob.glob("edits/*/*.edit", root_dir=TOP) + glob.glob("crates/*/must-fail/*.edit", root_dir=TOP))


def crate_of(edit):
    return edit.split("/")[1]


def name_of(edit):
    """The crate and the file's name: what an edit is called by, in the gate and beside it."""
    return crate_of(edit), os.path.basename(edit)


@functools.lru_cache(maxsize=None)
def refused_by(edit):
    """What is to refuse an edit: the prover, or the file of cases, or the crate of tests, that the edit names."""
    with open(f"{TOP}/{edit}", encoding="utf-8") as it:
        named = re.search(r"^# refused by: (\S+)$", it.read(), re.M)
    return named[1] if named else PROVER


def refusal(edit):
    """The verdict of an edit that is refused as it must be."""
    by = refused_by(edit)
    return "refused" if by == PROVER else f"refused by {by}"


def rows():
    """The rows of the table, or none where there is no table."""
    if not os.path.exists(f"{TOP}/{TABLE}"):
        return []
    with open(f"{TOP}/{TABLE}", encoding="utf-8", newline="") as it:
        return list(csv.reader(it))[1:]


def store(verdicts):
    """Writes a row for each edit that there is. `verdicts` has the verdict and the commit by the edit's name."""
    part = f"{TOP}/{TABLE}.part"
    with open(part, "w", encoding="utf-8", newline="") as it:
        table = csv.writer(it, lineterminator="\n")
        table.writerow(COLUMNS)
        for edit in edits():
            table.writerow([edit, *verdicts.get(name_of(edit), ("untried", ""))])
    os.replace(part, f"{TOP}/{TABLE}")


def faults():
    """What is wrong with the table, a sentence each."""
    there = set(edits())
    held = [row[0] for row in rows() if row]
    for edit in sorted(there - set(held)):
        yield f"{TABLE}: no row for {edit}: tools/try-edits --list"
    for edit in sorted(set(held) - there):
        yield f"{TABLE}: there is no {edit}: tools/try-edits --list"
    if held != sorted(set(held)):
        yield f"{TABLE}: the rows aren't sorted by path, one for each edit: tools/try-edits --list"
    for row in rows():
        if len(row) != len(COLUMNS) or not is_verdict(row[0], row[1]) or (row[1] == "untried" and row[2]):
            yield f"{TABLE}: no row is {','.join(row)!r}"
    for edit in sorted(there):
        yield from faults_of(edit)


def is_verdict(edit, verdict):
    """Whether this can be the verdict of the edit."""
    return verdict in VERDICTS[1:] or (os.path.exists(f"{TOP}/{edit}") and verdict == refusal(edit))


def faults_of(edit):
    """What is wrong with what an edit says of who refuses it."""
    by = refused_by(edit)
    if by not in (PROVER, "kb_checks") and not os.path.exists(f"{TOP}/crates/kb_cases/data/{by}"):
        yield f"{edit}: kb_cases has no {by}"
    if by != PROVER and not edit.startswith("edits/"):
        yield f"{edit}: an edit that the prover can't refuse stands beside the gate, in edits/"


@functools.lru_cache(maxsize=None)
def has_changed(crate, commit):
    """Whether a crate is another one now than at a commit, or the commit isn't known here."""
    parts = [f"crates/{crate}/{it}" for it in ("src", "specs", "proofs")]
    return subprocess.run(["git", "-C", TOP, "diff", "--quiet", commit, "--", *parts], stderr=subprocess.DEVNULL).returncode != 0


def summary():
    """How many edits have which verdict, and of how many refused ones the crate has changed since, or the commit isn't known."""
    counted = collections.Counter(row[1] for row in rows())
    older = sum(row[1].startswith("refused") and (not row[2] or has_changed(crate_of(row[0]), row[2])) for row in rows())
    said = ", ".join(f"{counted[it]} {it}" for it in [VERDICTS[0], *sorted(set(counted) - set(VERDICTS)), *VERDICTS[1:]] if counted[it])
    return f"edits: {said}; of {older} that are refused the crate has changed since they were tried"
