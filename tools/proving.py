"""Proves programs of this repository as the gate does, and puts them in the place of those without
a proof.

`rt ci` proves the programs and the crates below them in a folder of their own, without edits that
must fail. There a library that is proved is read by its statements alone, where any other command
of the kit loads its proofs as well. What it proved it keeps beside the kit, for the gate and for
later proofs.
"""
import os
import re
import shutil
import subprocess
import sys
import tempfile
import time

import build

TOLD = re.compile(r"rt: (\w+) (proved|is kept|NOT PROVED)")


def lay_out(room, wanted):
    """Lays out these crates in a folder, as a repository of their own, without their edits."""
    shutil.copy2(f"{build.TOP}/HANDLES", room)
    build.write_rows(room, wanted)
    for name in wanted:
        build.copy_crate(room, name, [it for it in build.PARTS if it != "must-fail"])


class Progress:
    """Which crates are proved, of which, and since when."""

    def __init__(self, wanted):
        self.begin = time.monotonic()
        self.count = len(wanted)
        self.done = []
        # of the crates for which a proof takes time
        self.lines = {name: build.size(name) for name in wanted}

    def tell(self, name, is_kept):
        """Says that one more crate is proved."""
        self.done.append(name)
        if is_kept:
            self.lines.pop(name, None)
        seconds = int(time.monotonic() - self.begin)
        timed = [it for it in self.done if it in self.lines]
        rest = build.left(seconds, self.lines, timed) if timed else ""
        how = "was proved before" if is_kept else "is proved"
        build.say(f"{name} {how}: {len(self.done)} of {self.count} crates, {seconds} s so far{rest}")


def followed(ran, progress):
    """Tells the progress of a proof, and answers the lines that it wrote, to their end."""
    lines = []
    for line in ran.stdout:
        lines.append(line)
        told = TOLD.match(line)
        if told and told[1] in progress.lines and told[1] not in progress.done:
            if told[2] == "NOT PROVED":
                build.say(f"{told[1]} is not proved")
            else:
                progress.tell(told[1], told[2] == "is kept")
    return lines


def take(room, name):
    """Puts a program that was proved in a folder in its place."""
    out = f"{build.TOP}/crates/{name}/out"
    os.makedirs(out, exist_ok=True)
    # another run may have the one that stands there open
    shutil.copy2(f"{room}/crates/{name}/out/{name}", f"{out}/{name}.new")
    os.replace(f"{out}/{name}.new", f"{out}/{name}")


def prove(names):
    """Proves programs, and answers 0 where all are proved, and else 1."""
    crates = build.listed()
    wanted = []
    for name in names:
        wanted += [it for it in (*build.below(crates, name), name) if it not in wanted]
    before = {name: build.sum_of(crates, name, ("src", "specs")) for name in names}
    with build.alone(), tempfile.TemporaryDirectory(prefix="hxeval-proof-") as room:
        lay_out(room, wanted)
        build.say(f"proving {len(wanted)} crates, which takes long where they weren't proved before")
        with subprocess.Popen(
            ["rt", "ci"], cwd=room, stdin=subprocess.DEVNULL, stdout=subprocess.PIPE,
            stderr=subprocess.STDOUT, text=True, errors="replace",
        ) as ran:
            lines = followed(ran, Progress(wanted))
        if ran.returncode:
            print("".join(lines[-60:]), end="", file=sys.stderr)
            build.say("not all is proved; the last lines that rt printed stand above")
            return 1
        for name in names:
            take(room, name)
            build.record(crates, name, before[name])
    return 0
