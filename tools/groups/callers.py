"""The stored cases of the tools that call the programs, in tools/stored/callers: of each the file
`words` has commands for bash, run in a folder that is like the top of the repository; `stdin` is
given to them where it is there, `out.txt` and `err.txt` are what they write, and `status.txt` how
they end, with 0 where it is missing."""
import glob
import os
import tempfile
from functools import partial

from groups.compared import TOP, Check, Outcome, bytes_of, run, stored, text_outcome
from groups.pages import commands_in, lay_out

CASES = f"{TOP}/tools/stored/callers"


def found_of(folder, programs):
    """What comes of a stored case, by the names of the files that have it."""
    with tempfile.TemporaryDirectory() as room:
        lay_out(room, programs)
        commands = bytes_of(f"{folder}/words").decode()
        ran = run(commands_in(room, commands), stored(f"{folder}/stdin"), room)
        # the folder of a run has another name each time
        out, err = (it.replace(room.encode(), b"ROOM") for it in (ran.out, ran.err))
    return {"out.txt": out, "err.txt": err, "status.txt": f"{ran.status}\n".encode()}


def compared(folder, programs):
    """Compares what comes of a stored case with what is stored, as one thing."""
    name, outcome = os.path.relpath(folder, TOP), Outcome()
    for file, text in found_of(folder, programs).items():
        missing = b"0\n" if file == "status.txt" else b""
        outcome.add(text_outcome(f"{name}/{file}", stored(f"{folder}/{file}", missing), text))
    return Outcome(0, 1, outcome.told) if outcome.failed else Outcome(1)


def checks(programs):
    """All stored cases."""
    folders = sorted(os.path.dirname(it) for it in glob.glob(f"{CASES}/*/words"))
    return [Check(os.path.relpath(it, TOP), partial(compared, it, programs)) for it in folders]
