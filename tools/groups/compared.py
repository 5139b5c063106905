"""What a check is, how it runs a program, and how it tells where two texts differ."""
import dataclasses
import itertools
import os
import subprocess
from collections.abc import Callable

TOP = os.path.dirname(os.path.dirname(os.path.dirname(os.path.realpath(__file__))))
# What programs see of an environment, as in the gate.
ENVIRONMENT = {"PATH": "/usr/local/bin:/usr/bin:/bin", "LANG": "C.UTF-8"}
# A program that takes longer than so many seconds has not ended.
SECONDS = 300
# How many of the lines that differ are told of one check, and how many bytes of one line.
TOLD, WIDTH = 5, 200
# Where a line is cut, so many of its bytes stand before the one that differs.
BEFORE = 60


@dataclasses.dataclass
class Outcome:
    """How many things passed, how many failed, and what is told of these."""

    passed: int = 0
    failed: int = 0
    told: list = dataclasses.field(default_factory=list)

    def fail(self, text):
        self.failed += 1
        self.told.append(text)

    def add(self, other):
        self.passed += other.passed
        self.failed += other.failed
        self.told += other.told


@dataclasses.dataclass(frozen=True)
class Check:
    """What is tried in one piece. Those that last are begun first."""

    name: str
    outcome: Callable[[], Outcome]
    lasts: bool = False


@dataclasses.dataclass(frozen=True)
class Ran:
    """What a program wrote, and how it ended: its status, or why it has none."""

    status: object
    out: bytes
    err: bytes


def bytes_of(path):
    with open(path, "rb") as it:
        return it.read()


def stored(path, missing=b""):
    """What a file has, where there is one."""
    return bytes_of(path) if os.path.isfile(path) else missing


def run(words, given=b"", folder=TOP):
    """Runs a program over a standard input, in a folder."""
    environment = {**ENVIRONMENT, "HOME": folder, "TMPDIR": folder}
    try:
        ran = subprocess.run(words, input=given, cwd=folder, env=environment, capture_output=True,
                             timeout=SECONDS, check=False)
    except OSError as fault:
        return Ran(f"it can't be run ({fault.strerror})", b"", b"")
    except subprocess.TimeoutExpired as late:
        said = f"it had not ended after {SECONDS} seconds"
        return Ran(said, late.stdout or b"", late.stderr or b"")
    return Ran(ran.returncode, ran.stdout, ran.stderr)


def shown(line, at):
    """A line of a text as it is told, around this byte where it is long."""
    if line is None:
        return "(no such line)"
    begin = max(0, min(at - BEFORE, len(line) - WIDTH))
    text = line[begin : begin + WIDTH].decode(errors="backslashreplace")
    text = "".join(c if c.isprintable() else c.encode("unicode_escape").decode() for c in text)
    # a blank at the end would not be seen
    text = text[:-1] + r"\x20" if text.endswith(" ") else text
    return ".. " * (begin > 0) + text + " .." * (begin + WIDTH < len(line)) or "(an empty line)"


def told_rows(name, *rows):
    return "\n".join([name, *(f"    {word:9} {text}" for word, text in rows)])


def told(name, expected, found, *more):
    """What is told of a line that differs, with further rows."""
    at = len(os.path.commonprefix([expected or b"", found or b""]))
    return told_rows(name, *more, ("expected", shown(expected, at)), ("found", shown(found, at)))


def differences(expected, found):
    """The lines that differ: of each the number, and both, with none where a text ends earlier."""
    lines = itertools.zip_longest(expected.split(b"\n"), found.split(b"\n"))
    return [(number, *both) for number, both in enumerate(lines, 1) if both[0] != both[1]]


def ended(name, ran, *statuses):
    """What is told of a program that ended otherwise than with one of these, or nothing."""
    if ran.status in statuses:
        return None
    said = ran.err.decode(errors="backslashreplace").strip()[-600:]
    rows = [("expected", f"status {' or '.join(map(str, statuses))}"),
            ("found", f"status {ran.status}" if isinstance(ran.status, int) else ran.status)]
    return told_rows(name, *rows, *([("it said", said)] if said else []))


def text_outcome(name, expected, found):
    """Compares two texts as one thing; told is the first line that differs."""
    for number, wanted, got in differences(expected, found):
        return Outcome(0, 1, [told(f"{name}, line {number}", wanted, got)])
    return Outcome(1)


def run_outcome(name, ran, expected, *statuses):
    """Compares what a program wrote, and how it ended, with what is expected, as one thing."""
    outcome = text_outcome(name, expected, ran.out)
    text = ended(name, ran, *statuses or (0,))
    return Outcome(0, 1, [text, *outcome.told]) if text else outcome
