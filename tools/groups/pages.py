"""The examples that the pages show: a block of commands for bash, and after it a block of what is
written. They are run at the top of the repository, as a reader would paste them."""
import glob
import os
import re
import shlex
import tempfile
from functools import partial

from groups.compared import TOP, Check, Outcome, Ran, run, run_outcome

# A block of commands, and the one that follows it, with at most a line between that says so.
BLOCKS = re.compile(r"^```bash\n((?:(?!```).*\n)+)```\n\n"
                    r"(?:.*\bwrites?\b.*\n\n)?```(?:text)?\n((?:(?!```).*\n)*)```$", re.M)
# Commands that are no run of a program, or of a tool that calls one, over what stands here.
OTHERS = re.compile(r"tools/(?!annotate|compare|expect)")
# How runs may end: a page doesn't say how, and hxdiff ends with 1 where answers differ.
STATUSES = (0, 1)
# What stands at the end of a block that doesn't have all that is written.
MORE = "..\n"
# Pages with such blocks: each has one at least.
PAGES = ("README.md", *(f"docs/manual/{it}.md" for it in (
    "annotate", "compare", "diff", "expect", "generated", "trace")))


def blocks(page):
    """The commands of a page, each with the number of its first line and what is written."""
    with open(f"{TOP}/{page}", encoding="utf-8") as it:
        text = it.read()
    return [(text.count("\n", 0, found.start()) + 2, *found.groups())
            for found in BLOCKS.finditer(text) if not OTHERS.search(found[1])]


def lay_out(room, programs):
    """A folder as the top of the repository is, with these programs."""
    for name in ("docs", "examples", "tools"):
        os.symlink(f"{TOP}/{name}", f"{room}/{name}")
    for name, words in programs.items():
        with open(f"{room}/{name}", "w", encoding="utf-8") as it:
            it.write(f'#!/bin/sh\nexec {shlex.join(words)} "$@"\n')
        os.chmod(f"{room}/{name}", 0o755)


def commands_in(room, commands):
    """The words that run commands in such a folder, with its programs."""
    return ["env", f"HXEVAL_PROGRAMS={room}", "bash", "-c", commands]


def compared(name, commands, expected, programs):
    """Runs commands, and compares what they write. Other folders that they make are made here."""
    with tempfile.TemporaryDirectory() as room:
        lay_out(room, programs)
        ran = run(commands_in(room, commands.replace("/tmp/", f"{room}/")), folder=room)
    if expected.endswith(MORE):
        expected = expected.removesuffix(MORE)
        lines = ran.out.splitlines(keepends=True)[:expected.count("\n")]
        ran = Ran(ran.status, b"".join(lines), ran.err)
    return run_outcome(name, ran, expected.encode(), *STATUSES)


def untried(page):
    return Outcome(0, 1, [f"{page}: no block of commands is followed by one of what they write"])


def checks(programs):
    found = []
    for page in PAGES:
        own = [Check(f"{page}:{number}", partial(compared, f"{page}:{number}", *block, programs))
               for number, *block in blocks(page)]
        found += own or [Check(page, partial(untried, page))]
    return found
