"""The stored runs of the programs: crates/NAME/args, stdin, data, and what comes of it, stdout and
status. Of a program of cases each line of stdout that answers one counts."""
import glob
import os
import shutil
import tempfile
from functools import partial

from groups.compared import (TOLD, TOP, Check, Outcome, differences, ended, run, run_outcome,
                             shown, stored, told)

# What the names of programs of cases begin with.
CASES = "hx_cases"


def programs():
    """The names of all programs."""
    return sorted(path.split("/")[-3] for path in glob.glob(f"{TOP}/crates/*/src/main.rt"))


def ran_of(name, program):
    """Runs a program as its crate says, in a copy of its data."""
    folder = f"{TOP}/crates/{name}"
    words = stored(f"{folder}/args").decode().splitlines()
    with tempfile.TemporaryDirectory() as room:
        data = f"{room}/data"
        if os.path.isdir(f"{folder}/data"):
            shutil.copytree(f"{folder}/data", data)
        else:
            os.mkdir(data)
        return run([*program, *words], stored(f"{folder}/stdin"), data)


def is_case(line):
    """Whether a line of what is stored answers a case, as a comment doesn't, nor an empty line."""
    return bool(line) and not line.startswith(b"#")


def compared_cases(name, program):
    """Compares each line that a program of cases writes with the one that is stored."""
    folder, ran = f"crates/{name}", ran_of(name, program)
    calls = stored(f"{TOP}/{folder}/stdin").split(b"\n")
    expected = stored(f"{TOP}/{folder}/stdout")
    wrong = differences(expected, ran.out)
    answers = [line for line in expected.split(b"\n") if is_case(line)]
    outcome = Outcome(len(answers) - sum(is_case(line) for _, line, _ in wrong))
    text = ended(folder, ran, 0)
    if text:
        outcome.fail(text)
    for number, wanted, got in wrong:
        call = calls[number - 1] if number <= len(calls) else b""
        # most answers have their case before them
        more = [] if (wanted or b"").startswith(call) else [("case", shown(call, 0))]
        outcome.fail(told(f"{folder}/stdin, line {number}", wanted, got, *more))
    if len(outcome.told) > TOLD:
        outcome.told[TOLD:] = [f"{folder}: {len(outcome.told) - TOLD} more of its lines differ"]
    return outcome


def compared_run(name, program):
    """Compares all that a program writes over its stored run, and its status."""
    folder = f"{TOP}/crates/{name}"
    status = int(stored(f"{folder}/status", b"0"))
    expected, ran = stored(f"{folder}/stdout"), ran_of(name, program)
    return run_outcome(f"crates/{name}/stdout", ran, expected, status)


def is_of_cases(name):
    return name.startswith(CASES)


def checks(words):
    """The programs of cases."""
    return [Check(f"crates/{name}", partial(compared_cases, name, words[name]))
            for name in programs() if is_of_cases(name)]


def run_checks(words):
    """The programs that users run."""
    return [Check(f"crates/{name}", partial(compared_run, name, words[name]))
            for name in programs() if not is_of_cases(name)]
