"""The stored runs of tools/redact, which has hxeval answer: in tools/stored/redact `NAME.rec` and
`NAME.told` are what it makes of traffic.rec for the configurations of NAME, `NAME.status` how it
ends, with 0 where it is missing."""
import shlex
from functools import partial

from groups.compared import TOP, Check, Outcome, run, run_outcome, stored, text_outcome

FOLDER = f"{TOP}/tools/stored/redact"
# The configurations of each run.
RUNS = {
    "shop": ["shop.cfg"],
    "whole": ["whole.cfg"],
    "hidden": ["hidden.cfg"],
    "both": ["shop.cfg", "hidden.cfg"],
    "refused": ["shop.rec"],
}


def ran_of(name, program):
    words = [f"{TOP}/tools/redact", "--program", shlex.join(program), *RUNS[name], "traffic.rec"]
    return run(words, folder=FOLDER)


def compared(name, program):
    """Compares what a run writes and says, and how it ends, with what is stored, as one thing."""
    ran = ran_of(name, program)
    status = int(stored(f"{FOLDER}/{name}.status", b"0"))
    outcome = run_outcome(f"tools/stored/redact/{name}.rec", ran, stored(f"{FOLDER}/{name}.rec"),
                          status)
    outcome.add(text_outcome(f"tools/stored/redact/{name}.told", stored(f"{FOLDER}/{name}.told"),
                             ran.err))
    return Outcome(0, 1, outcome.told) if outcome.failed else Outcome(1)


def checks(programs):
    return [Check(f"tools/redact, {name}", partial(compared, name, programs["hxeval"]))
            for name in RUNS]
