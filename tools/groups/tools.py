"""The stored cases of the tools that make records, in tools/stored: of each the file `words` has a
command line or more, in which

DECIDED      is a file to write
CAPTURE      is made of `packets.txt`
NAME.gz      and NAME.bz2, NAME.xz are made of the file NAME, where they aren't there
< FILE       is standard input, and > FILE standard output
> CLOSED     is a pipe that nobody reads

`out.txt`, `err.txt` and `decided.txt` are what these write one after another, and `status.txt` how
they end, with 0 where it is missing."""
import bz2
import contextlib
import glob
import gzip
import lzma
import os
import shutil
import subprocess
import tempfile
from functools import partial

from groups import progress
from groups.compared import TOP, Check, Outcome, bytes_of, stored, text_outcome
from live import packets

# What reads a capture.
READER = "tshark"
OF_CAPTURES = "from-pcap"
# What packs a file of this ending.
PACKERS = {"gz": gzip.compress, "bz2": bz2.compress, "xz": lzma.compress}
REDIRECTED = {"<": ("stdin", "rb"), ">": ("stdout", "wb")}


def cases():
    """The folders of all stored cases."""
    return sorted(os.path.dirname(it) for it in glob.glob(f"{TOP}/tools/stored/*/words"))


def lines_of(folder):
    """The words of each command line of a stored case."""
    return [line.split() for line in bytes_of(f"{folder}/words").decode().splitlines()]


def packed(word, folder, made):
    """A word, or where a packed file is that it names."""
    name, _, ending = word.rpartition(".")
    if ending not in PACKERS or os.path.exists(f"{folder}/{word}"):
        return word
    with open(f"{made}/{word}", "wb") as it:
        it.write(PACKERS[ending](bytes_of(f"{folder}/{name}")))
    return it.name


def opened(word, mode, folder, places):
    """The file that stands behind < or >."""
    if word == "CLOSED":
        reader, writer = os.pipe()
        os.close(reader)
        return os.fdopen(writer, mode)
    return open(os.path.join(folder, places.get(word, word)), mode)


def ran_of(folder, made, words):
    """Runs a command line, with files that are made in a folder."""
    places = {"DECIDED": f"{made}/decided", "CAPTURE": f"{made}/capture"}
    if "CAPTURE" in words:
        packets.write_capture(bytes_of(f"{folder}/packets.txt").decode(), places["CAPTURE"])
    streams = {"stdin": subprocess.DEVNULL, "stdout": subprocess.PIPE}
    tool, *rest = words
    words = [f"{TOP}/tools/{tool}"]
    with contextlib.ExitStack() as files:
        for word in (rest := iter(rest)):
            if word in REDIRECTED:
                stream, mode = REDIRECTED[word]
                streams[stream] = files.enter_context(opened(next(rest), mode, folder, places))
            else:
                words.append(packed(places.get(word, word), folder, made))
        return subprocess.run(words, cwd=folder, stderr=subprocess.PIPE, check=False, **streams)


def found_of(folder):
    """What tools make of a stored case, by the names of the files that have it."""
    found = dict.fromkeys(("out.txt", "err.txt", "status.txt", "decided.txt"), b"")
    for words in lines_of(folder):
        with tempfile.TemporaryDirectory() as made:
            ran = ran_of(folder, made, words)
            found["out.txt"] += ran.stdout or b""
            found["err.txt"] += ran.stderr
            found["status.txt"] += b"%d\n" % ran.returncode
            found["decided.txt"] += stored(f"{made}/decided")
    return found


def compared(folder):
    """Compares what tools make of a stored case with what is stored, as one thing."""
    name, outcome = os.path.relpath(folder, TOP), Outcome()
    for file, text in found_of(folder).items():
        missing = b"0\n" * len(lines_of(folder)) if file == "status.txt" else b""
        outcome.add(text_outcome(f"{name}/{file}", stored(f"{folder}/{file}", missing), text))
    return Outcome(0, 1, outcome.told) if outcome.failed else Outcome(1)


def is_of_captures(folder):
    return any(words[0] == OF_CAPTURES for words in lines_of(folder))


def left_out():
    """The stored cases that can't be tried on this machine, each with the reason."""
    lacking = [] if shutil.which(READER) else cases()
    return [f"{os.path.relpath(it, TOP)}: {READER} isn't installed" for it in lacking
            if is_of_captures(it)]


def checks(_):
    """The stored cases that can be tried on this machine, and what they share."""
    return [*progress.checks(),
            *(Check(os.path.relpath(it, TOP), partial(compared, it)) for it in cases()
              if shutil.which(READER) or not is_of_captures(it))]
