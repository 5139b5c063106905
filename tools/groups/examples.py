"""The examples: each record is run under its configuration, and what is written is compared with
the answers, traces and differences beside it. Of the whole configurations each frontend is taken
out of its file, and the lines that hxeval refuses of it are compared with those that are known."""
import glob
import os
import shutil
import tempfile
from functools import partial

from groups.compared import TOP, Check, Outcome, Ran, bytes_of, run, run_outcome, stored
from live import proxy, whole

RECORD, TRACE = "traffic.rec", "trace.txt"
# The files of an example that a program writes, by its name and its words before configurations.
WRITTEN = {
    "answers.txt": ("hxeval", "run"),
    TRACE: ("hxtrace", "trace"),
    "differences.txt": ("hxdiff", "lines"),
    "reasons.txt": ("hxdiff", "lines", "--why"),
    "counts.txt": ("hxdiff", "counts"),
}
# The program that takes two configurations, and how it ends where they differ.
OF_TWO, TWO, DIFFERS = "hxdiff", ("old.cfg", "new.cfg"), 1
# An example of a tool that calls the programs, which its page and the stored cases of callers try.
OF_CALLERS = "examples/checkouts"
# The port for TLS of the whole configurations.
TLS = "443"


def configurations(folder, program):
    """The configurations of an example that a program runs, from the top of the repository."""
    if program == OF_TWO:
        return [f"{folder}/{it}" for it in TWO]
    return sorted(glob.glob(f"{folder}/*.cfg", root_dir=TOP))


def written(folder, file, programs):
    """Runs the record of an example, and compares what is written with a file of it."""
    program, *words = WRITTEN[file]
    words = [*words, *configurations(folder, program)]
    ran = run([*programs[program], *words], stored(f"{TOP}/{folder}/{RECORD}"))
    name = f"{' '.join((program, *words))} ({folder}/{file})"
    expected = bytes_of(f"{TOP}/{folder}/{file}")
    return run_outcome(name, ran, expected, DIFFERS if program == OF_TWO else 0)


def trace_checked(folder, program):
    """Has hxtrace check the trace of an example."""
    words = ["check", *configurations(folder, "hxtrace"), f"{folder}/{TRACE}"]
    ran = run([*program, *words], stored(f"{TOP}/{folder}/{RECORD}"))
    return run_outcome(f"hxtrace {' '.join(words)}", ran, b"ok\n")


def unknown(path):
    return Outcome(0, 1, [f"{path}: tools/groups/examples.py doesn't know how to try it"])


def record_checks(folder, programs):
    """What is tried over the record of an example: each text beside it is written by a program."""
    texts = sorted(os.path.basename(it) for it in glob.glob(f"{TOP}/{folder}/*.txt"))
    for file in texts:
        if file in WRITTEN:
            yield Check(f"{folder}/{file}", partial(written, folder, file, programs))
        else:
            yield Check(f"{folder}/{file}", partial(unknown, f"{folder}/{file}"))
    if TRACE in texts:
        program = programs["hxtrace"]
        yield Check(f"{folder}/{TRACE}, checked", partial(trace_checked, folder, program))
    if not texts:
        yield Check(folder, partial(unknown, folder))


def listed(path, names, program):
    """Compares the frontends that hxconfig lists of a file with those that are known."""
    ran = run([*program, "frontends", path])
    found = b"".join(line.split(b" ", 2)[-1] + b"\n" for line in ran.out.splitlines())
    expected = "".join(f"{it}\n" for it in names).encode()
    return run_outcome(f"hxconfig frontends {path}", Ran(ran.status, found, ran.err), expected)


def taken(name, path, file, program):
    """Compares what hxconfig takes out of a file for a frontend with the file that is stored."""
    ran = run([*program, "frontend", name, path, "--tls", TLS])
    expected = bytes_of(f"{TOP}/{file}")
    return run_outcome(f"hxconfig frontend {name} {path} ({file})", ran, expected)


def refused(name, path, programs):
    """Takes a frontend out of its file for hxeval, and compares the lines that hxeval refuses of it
    with those that are known."""
    with tempfile.TemporaryDirectory() as room:
        shutil.copy(f"{TOP}/{path}", whole.path_of(room, path))
        tried = whole.Tried(name, room, programs["hxeval"], programs["hxconfig"], path)
        tried.write_configuration()
    told = [f"the frontend {name} of {path}: {text}" for text in tried.wrong]
    return Outcome(0, 1, told) if told else Outcome(1)


def whole_checks(programs):
    """What is tried of whole configurations."""
    for path, names in proxy.WHOLE.items():
        program = programs["hxconfig"]
        yield Check(f"hxconfig frontends {path}", partial(listed, path, names, program))
        for name in names:
            file = f"{os.path.dirname(path)}/{name}.cfg"
            if file != path and os.path.isfile(f"{TOP}/{file}"):
                words = f"hxconfig frontend {name} {path}"
                yield Check(words, partial(taken, name, path, file, program))
            yield Check(f"the frontend {name} of {path}", partial(refused, name, path, programs))


def checks(programs):
    own = {os.path.dirname(path) for path in proxy.WHOLE}
    folders = sorted(glob.glob("examples/*", root_dir=TOP))
    return [*whole_checks(programs),
            *(it for folder in folders if folder not in (*own, OF_CALLERS)
              for it in record_checks(folder, programs))]
