"""The programs, as the tools run them: where each stands, and a run of one.

A program is looked for in the folder that the variable HXEVAL_PROGRAMS names, where it is set. Else
it is looked for beside the tools, as a checkout and an installation have it, and then on PATH.
"""
import os
import shutil
import subprocess

import told

HERE = os.path.dirname(os.path.realpath(__file__))
# Names another folder of the programs.
VARIABLE = "HXEVAL_PROGRAMS"
# Where the programs stand beside the tools: in a checkout, and where both are installed.
FOLDERS = (os.path.dirname(HERE), os.path.join(os.path.dirname(os.path.dirname(HERE)), "bin"))


def path_of(name):
    """The path of a program."""
    given = os.environ.get(VARIABLE)
    for folder in [given] if given else FOLDERS:
        path = os.path.join(folder, name)
        if os.path.isfile(path) and os.access(path, os.X_OK):
            return os.path.abspath(path)
    found = None if given else shutil.which(name)
    if not found:
        raise told.Stop(f"there is no program {name} in {given or ', '.join(FOLDERS)}")
    return found


def run(words, given=None, out=subprocess.PIPE, err=None):
    """Runs a program over a file as standard input, or over nothing; what it says goes where it is
    told to go."""
    try:
        return subprocess.run(words, stdin=given or subprocess.DEVNULL, stdout=out, stderr=err,
                              check=False)
    except OSError as fault:
        raise told.Stop(f"{words[0]} can't be run: {told.why(fault)}") from None
