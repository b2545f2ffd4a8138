"""Runs of the program itself: what it stores is the same and read again; large texts take bounded time and memory."""

import resource
import subprocess
import tempfile

import random_texts
from casebatch import QUIET
from fsareader import Automaton
from readers import MOST_BYTES, Presentation, Refused, read_log

LIMITS = ["--max-rules", "60", "--max-len", "30", "--max-states", "300", "--workers", "1"]
MOST_SECONDS = 120
# The room in memory that a run may take for itself, and for each byte of a text.
OWN_BYTES, BYTES_PER_BYTE = 64 << 20, 40


class Run:
    """A run in a folder, in so much memory: its status, negative where a signal ended it, and what was written."""

    def __init__(self, program, room, words, given=b"", memory=resource.RLIM_INFINITY):
        def limited():
            resource.setrlimit(resource.RLIMIT_CPU, (MOST_SECONDS, MOST_SECONDS))
            resource.setrlimit(resource.RLIMIT_AS, (memory, memory))

        ended = subprocess.run(
            [program, *words], cwd=room, input=given, capture_output=True, env=QUIET, preexec_fn=limited, check=False
        )
        self.status, self.out, self.err = ended.returncode, ended.stdout, ended.stderr


def stored(room, name):
    try:
        with open(f"{room}/{name}", "rb") as it:
            return it.read()
    except FileNotFoundError:
        return None


def completed(program, text, chance):
    """What is wrong with what kbprog stores of a presentation that is read, or None."""
    presentation = Presentation(text)
    names = presentation.names
    given = b"".join(random_texts.log_word(chance, names or [b"IdWord"]) + b"\n" for _ in range(6))
    rooms = []
    for _ in range(2):
        with tempfile.TemporaryDirectory(prefix="kb-texts-") as room:
            with open(f"{room}/P", "wb") as it:
                it.write(text)
            run = Run(program, room, ["kbprog", "P", *LIMITS], given)
            files = {ending: stored(room, f"P{ending}") for ending in (".kbprog", ".wa", ".kblog")}
            rooms.append((run.status, run.out, run.err, files))
            wrong = wrong_end(program, room, run, files, presentation, given)
            if wrong:
                return wrong
    return None if rooms[0] == rooms[1] else "two runs differ"


def wrong_end(program, room, run, files, presentation, given):
    if run.status not in (0, 2):
        return f"status {run.status} {run.err!r}"
    try:
        system = Presentation(files[".kbprog"])
        if system.head() != presentation.head():
            return "the stored rules have another head"
        if run.status == 2 and files[".kblog"] is not None:
            told = read_log(files[".kblog"], presentation.number)
            return None if Run(program, room, ["logread", "P"]).out == told else "the log is read otherwise"
        if run.status == 0 and Automaton(files[".wa"]).canonical() != files[".wa"]:
            return "the stored acceptor isn't as it is written"
    except Refused as refused:
        return f"what is stored is refused: {refused}"
    if run.status == 0 and Run(program, room, ["wordreduce", "P.kbprog"], given).out != run.out:
        return "the stored rules give other words"
    return None


# Large texts


def large(chance):
    """A command, the name and the bytes of its file, and what has to come of it."""
    return chance.choice((long_gap, many_names, many_equations, many_states, many_rows, deep))(chance)


def long_gap(chance):
    """Bytes about the most that a file may have, in blanks and comments; or many of something else."""
    head, tail = b"_R := rec(isRWS := true, generatorOrder := [a], x := ", b"1, equations := []);"
    if chance.random() < 0.5:
        fill, size = chance.choice((b" ", b"\n", b"#\n", b"# \xff\n", b'"')), MOST_BYTES + chance.choice((-1, 0, 1))
    else:
        fill, size = chance.choice((b"[[],", b"a*", b"-1,", b"(", b"rec(x:=", b"y:=", b"1,")), 1 << 21
    size -= len(head) + len(tail)
    return "logread", head + (fill * (size // len(fill) + 1))[:size] + tail


def many_names(chance):
    count = chance.choice((126, 127, 998, 999, 1000, 1001))
    names = [b"g%d" % it for it in range(count)]
    if chance.random() < 0.3:
        names[chance.randrange(count)] = chance.choice(names)
    inverses = names if chance.random() < 0.5 else names[::-1]
    fields = [(b"isRWS", b"true"), (b"generatorOrder", random_texts.listed(names)), (b"equations", b"[]")]
    fields.append((b"inverses", random_texts.listed(inverses)))
    return "logread", random_texts.whole(chance, fields)


def many_equations(chance):
    count = chance.choice((65_534, 65_535, 65_536, 400_000))
    equations = [b"[IdWord,a]"] * count
    for _ in range(chance.randrange(3)):
        other = chance.choice((b"", b"[a]", b"[a,q]", b"[a^65536,a]", b"[a^65535,a]", b"1"))
        equations[chance.randrange(count)] = other
    fields = [(b"isRWS", b"true"), (b"generatorOrder", b"[a]"), (b"equations", random_texts.listed(equations))]
    return "logread", random_texts.whole(chance, fields)


def many_states(chance):
    """Rows of a dense table."""
    size = chance.choice((1000, 65_536, 1_000_000))
    rows = [b"[%d]" % (it + 1) for it in range(1, size)] + [b"[0]"]
    if chance.random() < 0.5:
        rows[chance.randrange(size)] = chance.choice((b"[]", b"[0,0]", b"[%d]" % (size + 1), b"1", b"[-1]"))
    return "fsamin", fsa_text(chance, [b"a"], size, b'"dense deterministic"', rows)


def many_rows(chance):
    """A sparse table over many names."""
    count, size = chance.choice((126, 127, 1000, 1001)), chance.choice((1, 50, 1000))
    names = [b"g%d" % it for it in range(count)]
    symbols = [sorted(chance.sample(range(1, count + 1), min(count, 20))) for _ in range(size)]
    rows = [random_texts.listed(b"[%d,%d]" % (it, chance.randint(0, size)) for it in row) for row in symbols]
    if chance.random() < 0.3:
        rows[-1] = chance.choice((b"[[1,1],[1,1]]", b"[[0,1]]", b"[[%d,1]]" % (count + 1), b"[[1,%d]]" % (size + 1)))
    return "fsamin", fsa_text(chance, names, size, b'"sparse"', rows)


def fsa_text(chance, names, size, form, rows):
    base = [(b"type", b'"identifiers"'), (b"size", b"%d" % len(names)), (b"names", random_texts.listed(names))]
    fields = [(b"isFSA", b"true"), (b"alphabet", random_texts.record(base))]
    fields.append((b"states", random_texts.record([(b"type", b'"simple"'), (b"size", b"%d" % size)])))
    fields += [(b"initial", b"[1]"), (b"accepting", b"[%d..%d]" % (chance.randint(1, size), size))]
    fields.append((b"table", random_texts.record([(b"format", form), (b"transitions", random_texts.listed(rows))])))
    return random_texts.whole(chance, fields)


def deep(chance):
    """Brackets open all the way, or as deep as they may be again and again."""
    inner = b"[" * 63 + b"]" * 63 + b","
    fill = chance.choice((inner, inner.replace(b"[", b"(").replace(b"]", b")"), b"[", b"("))
    text = b"_R := rec(isRWS := true, generatorOrder := [], equations := [], x := [" + fill * 20_000 + b"]);"
    return "logread", text


def wrong_of_large(program, command, text, wanted):
    """What is wrong with the answer to a large text, or None."""
    with tempfile.TemporaryDirectory(prefix="kb-texts-") as room:
        with open(f"{room}/P", "wb") as it:
            it.write(text)
        words = ["fsamin", "P", "OUT"] if command == "fsamin" else ["logread", "P"]
        run = Run(program, room, words, memory=OWN_BYTES + BYTES_PER_BYTE * len(text))
        came = run.status, run.err, stored(room, "OUT")
    return None if came == wanted else f"wanted {wanted!r:.300} came {came!r:.300}"


def wanted_of(command, text):
    """Status, message and stored automaton."""
    try:
        if command == "fsamin":
            return 0, b"", Automaton(text).canonical()
        Presentation(text)
        return 1, b"kb: P.kblog: E3 Missing\n", None
    except Refused as refused:
        return 1, f"kb: P: {refused}\n".encode(), None
