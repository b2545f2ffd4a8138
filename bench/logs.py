"""What is measured of logs: `kbcertify`, which completes a presentation and keeps its log, and beside it `kbverify` of that log."""

import os

import presentations as known
from measuring import GIVEN_UP, best_run

# So many lines as a log may have: with one worker all that is apart is entered.
LIMITS = ["--max-rules", "1000000"]


def measure_logs(program, room):
    """Prints the processor time of both commands, and how large the log is."""
    file = f"{room}/presentation"
    for what, text in completed():
        with open(file, "w", encoding="ascii") as it:
            it.write(text)
        made = best_run([program, "kbcertify", file, *LIMITS], os.devnull)
        print(f"{what:48} {shown('kbcertify', made)}", flush=True)
        if made is not None and os.path.exists(f"{file}.kblog"):
            checked = best_run([program, "kbverify", file], os.devnull)
            print(f"{size(f'{file}.kblog'):48} {shown('kbverify', checked)}{beside(checked, made)}", flush=True)
        for end in ("kblog", "kbprog", "wa"):
            if os.path.exists(f"{file}.{end}"):
                os.remove(f"{file}.{end}")


def shown(command, run):
    """The figures of a run."""
    if run is None:
        return f"{command}: given up after {GIVEN_UP} s"
    return f"{command}: status {run.status}, {run.spent:.3f} s, {run.memory:.0f} MiB"


def beside(checked, made):
    """The part that checking takes of making, where both came to their end."""
    if checked is None or checked.status != 0 or made.status != 0:
        return ""
    return f", {checked.spent / made.spent:.2f} of it"


def size(log):
    """The lines of a log, its bytes, and the steps of its derivations."""
    with open(log, encoding="ascii") as it:
        lines = [line for line in it if line[0].isdigit()]
    steps = sum(field.count("/") for line in lines for field in line.split(" : ")[1:])
    return f"    {len(lines)} lines, {steps} steps, {os.path.getsize(log)} bytes"


def completed():
    """What is completed: a name and a presentation."""
    yield "free abelian group of rank 30", known.free_abelian(30)
    yield "Burnside group B(2,4)", known.burnside()
    yield "PSL(2,11), J. G. Sunday's", known.projective(11)
    yield "PSL(2,11), by an involution", known.projective_by_involution(11)
    yield "PSL(2,17), J. G. Sunday's", known.projective(17)
    yield "PSL(2,17), by an involution", known.projective_by_involution(17)
    yield "Mathieu group M11", known.mathieu_11()
