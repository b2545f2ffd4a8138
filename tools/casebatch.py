"""Many runs of the program in one process: cases in the form of crates/kb_cases/data, run by the built kb_cases."""

import re
import resource
import subprocess
import tempfile

MOST_SECONDS = 300
CASE = re.compile(r"line (\d+): ")
DIFFERENCE = re.compile(r"  (.*): (wanted|came  ) (.*)")


class Case:
    """A run: the words of its command line, its files and input, and what has to come of it."""

    def __init__(self, words, files, given=b"", status=0, out=b"", err=b"", stored=None):
        self.words, self.files, self.given = words, files, given
        self.status, self.out, self.err, self.stored = status, out, err, stored or {}

    def text(self, shows):
        lines = [f"case {shows}", f"kb {self.words}", f"status {self.status}"]
        lines += [f"file {name}: {quoted(data)}" for name, data in self.files.items()]
        lines += [f"stored {name}: {quoted(data)}" for name, data in self.stored.items()]
        lines += [f"input: {quoted(self.given)}", f"out: {quoted(self.out)}", f"err: {quoted(self.err)}"]
        return "\n".join(lines) + "\n"


def quoted(data):
    """The bytes as a quoted text of the case form."""
    text = data.decode("latin-1").replace("\\", "\\\\").replace('"', '\\"').replace("\n", "\\n")
    if text.isascii() and text.isprintable():
        return f'"{text}"'
    return '"' + "".join(it if " " <= it <= "~" else f"\\x{ord(it):02X}" for it in text) + '"'


class Fault(Exception):
    """The process ended by a signal, said something else than what differs, or didn't end in time."""


def differences(program, cases):
    """For each case that comes otherwise than wanted its number, and what was wanted and came, by what it is."""
    with tempfile.TemporaryDirectory(prefix="kb-texts-") as room:
        with open(f"{room}/cases.list", "w", encoding="ascii") as it:
            it.write("texts.cases\n")
        starts, line = {}, 1
        with open(f"{room}/texts.cases", "w", encoding="ascii") as it:
            for number, case in enumerate(cases):
                text = case.text(number)
                starts[line] = number
                line += text.count("\n")
                it.write(text)
        said = run_in(program, room)
    return read_report(said, starts)


def run_in(program, room):
    """What kb_cases says of the cases in a folder."""
    try:
        ended = subprocess.run(
            [program], cwd=room, capture_output=True, timeout=MOST_SECONDS, check=False, env=QUIET, preexec_fn=unbounded
        )
    except subprocess.TimeoutExpired:
        raise Fault(f"no answer in {MOST_SECONDS} s") from None
    err = ended.stderr.decode("utf-8", "replace")
    if ended.returncode not in (0, 1) or ended.returncode == 1 and not re.search(r"\d+ cases differ", err):
        raise Fault(f"status {ended.returncode}: {err[:2000]}")
    return ended.stdout.decode("ascii")


def bounded():
    """The readers here may take four GiB of memory."""
    resource.setrlimit(resource.RLIMIT_AS, (4 << 30, resource.RLIM_INFINITY))


def unbounded():
    resource.setrlimit(resource.RLIMIT_AS, (resource.RLIM_INFINITY, resource.RLIM_INFINITY))


# What a build with checks is told.
QUIET = {"ASAN_OPTIONS": "detect_leaks=0:quarantine_size_mb=1:thread_local_quarantine_size_kb=16"}


def read_report(said, starts):
    found, number = {}, None
    for line in said.split("\n"):
        if case := CASE.match(line):
            number = starts[int(case[1])]
        elif difference := DIFFERENCE.fullmatch(line):
            what, side, text = difference.groups()
            found.setdefault(number, {}).setdefault(what, {})[side.strip()] = text
    return found
