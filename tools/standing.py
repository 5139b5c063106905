#!/usr/bin/env python3
"""Prints the path of a program that stands for the sources of this checkout.

Usage: tools/standing.py PROGRAM

It is the proved program where one stands for them, by the sums of sources and program that were
kept when it was proved (tools/proving.py). Else it is one without a proof (tools/unproved.py), which
is built first where there is none yet; where this kit can't build one, the program is proved.
"""
import shutil
import sys

import build
import proving
import unproved


def path(name):
    proved = build.proved(name)
    if proved:
        return proved
    if not shutil.which("rt"):
        unproved.say(f"{name}: rt isn't on PATH; README says under Building which Rattle kit this needs")
        return None
    try:
        kept = unproved.kept(name)
        found = unproved.paths([name])[name]
    except unproved.Unbuilt as fault:
        unproved.say(f"{fault}\n{name}: it can't be built without a proof, so it is proved first")
        return build.proved(name) if proving.prove([name]) == 0 else None
    if not kept:
        unproved.say(f"{name}: this build isn't proved; ./{name} --prove proves it, which takes long")
    return found


if __name__ == "__main__":
    if len(sys.argv) != 2:
        sys.exit(__doc__)
    found = path(sys.argv[1])
    if not found:
        sys.exit(1)
    print(found)
