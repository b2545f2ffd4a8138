"""Presentations of groups at random, and runs of the program on them."""

import collections
import os
import subprocess
import tempfile

MOST_SECONDS = 60


def presentation(chance):
    """The text of a presentation, and the names of its generators."""
    pairs = [(x, x if chance.random() < 0.3 else x.upper()) for x in "abc"[: chance.randint(1, 3)]]
    names = list(dict.fromkeys(name for pair in pairs for name in pair))
    chance.shuffle(names)
    inverse = {x: y for pair in pairs for x, y in (pair, pair[::-1])}
    count = chance.randint(0, 2)
    equations = ",\n".join(f"    [{word(chance, names, 7)},{word(chance, names, 4)}]" for _ in range(count))
    listed = f"[\n{equations}\n  ]" if equations else "[]"
    fields = [
        "isRWS := true",
        'ordering := "shortlex"',
        f"generatorOrder := [{','.join(names)}]",
        f"inverses := [{','.join(inverse[name] for name in names)}]",
        f"equations := {listed}",
    ]
    return "_RWS := rec(\n  " + ",\n  ".join(fields) + "\n);\n", names


def word(chance, names, most):
    """A word of up to so many letters."""
    letters = [chance.choice(names) for _ in range(chance.randint(0, most))]
    return "*".join(letters) or "IdWord"


class Run(collections.namedtuple("Run", "status out err stored")):
    """What came of a run: its status, what was written, and the files that were stored, by their endings."""


def run(program, command, text, files, given, options):
    """A run of a command in a folder of its own."""
    with tempfile.TemporaryDirectory() as room:
        for ending, content in {"": text, **files}.items():
            with open(f"{room}/G{ending}", "w", encoding="ascii") as it:
                it.write(content)
        words = [program, command, "G", *options]
        try:
            ended = subprocess.run(
                words, cwd=room, input=given, capture_output=True, text=True, timeout=MOST_SECONDS, check=False
            )
        except subprocess.TimeoutExpired:
            return Run(None, "", "no answer in time", {})
        stored = {}
        for name in os.listdir(room):
            if name != "G" and name[1:] not in files:
                with open(f"{room}/{name}", encoding="ascii") as it:
                    stored[name[1:]] = it.read()
        return Run(ended.returncode, ended.stdout, ended.stderr, stored)


def name_of(one):
    """What came of a run, in a word."""
    return one.out.split()[1] if one.status == 2 else {0: "yes", 3: "no"}.get(one.status, "other")
