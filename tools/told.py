"""What the tools share toward the person who runs them: the words of a command line, inputs and
outputs that fail, how far long work is, and counts of what was left out.

Each tool ends with 2 where its words are wrong, with 5 where an input can't be read or isn't what
it should be, and with 6 where an output can't be written: as the programs do. It says so in a
sentence on standard error; it says nothing where whoever read its output has gone.
"""
import argparse
import bz2
import collections
import contextlib
import gzip
import lzma
import os
import re
import signal
import stat
import sys
import time
import zlib

WRONG_WORDS, UNREADABLE, UNWRITABLE = 2, 5, 6

# The name of standard input among the words of a tool.
STANDARD_INPUT = "-"
# What an input begins with that is packed, and what unpacks it.
PACKED = ((b"\x1f\x8b", gzip), (b"BZh", bz2), (b"\xfd7zXZ\0", lzma))
READ_FAULTS = (OSError, EOFError, zlib.error, lzma.LZMAError)

# How far work is is told at most once in so many seconds, and in units of a million bytes.
INTERVAL, MEGABYTE = 0.5, 10**6
CLEAR_LINE = "\r\x1b[K"


class Stop(Exception):
    """Why a tool ends early, in a sentence, and its status."""

    def __init__(self, text, status=UNREADABLE):
        super().__init__(text)
        self.status = status


def say(tool, text):
    """Says a sentence on standard error, where there is one."""
    if sys.stderr:
        print(f"{tool}: {text}", file=sys.stderr, flush=True)


def why(fault):
    """Why something failed, in the words of the system or of what unpacks."""
    return getattr(fault, "strerror", None) or str(fault) or type(fault).__name__


# Words.


class Words(argparse.ArgumentParser):
    """Reads the words of a tool. `--help` writes the docstring of its file; a word that is wrong is
    named, with the lines of the docstring that have the usage."""

    def __init__(self, doc):
        self.doc = doc.strip()
        super().__init__(usage=re.search(r"^tools/.*(?:\n +.*)*", doc, re.M)[0], allow_abbrev=False)

    def format_help(self):
        return f"{self.doc}\n"

    def error(self, message):
        raise Stop(f"{message}\nusage: {self.usage}", WRONG_WORDS)


def kept(meaning, read):
    """A type of words: what `read` makes of one, which is wrong where that is None."""

    def word(text):
        found = read(text)
        if found is None:
            raise argparse.ArgumentTypeError(f"{text!r} is no {meaning}")
        return found

    return word


# Inputs and outputs.


class Input:
    """A file, or standard input where its name is `-`. One that gzip, bzip2 or xz has packed is
    unpacked."""

    def __init__(self, path):
        if path != STANDARD_INPUT:
            self.raw = open(path, "rb")
        elif sys.stdin:
            self.raw = sys.stdin.buffer
        else:
            raise OSError("it is closed")
        begin = self.raw.peek(max(len(mark) for mark, _ in PACKED))
        modules = [module for mark, module in PACKED if begin.startswith(mark)]
        self.bytes = modules[0].open(self.raw) if modules else self.raw

    def size(self):
        """How many bytes it has, or none where that isn't known."""
        about = os.fstat(self.raw.fileno())
        return about.st_size if stat.S_ISREG(about.st_mode) else None

    def position(self):
        """How many of these bytes are read. It isn't asked where their number isn't known."""
        return self.raw.tell()


@contextlib.contextmanager
def reading(path):
    """An input while it is read; whatever keeps it from being read ends the tool."""
    name = "standard input" if path == STANDARD_INPUT else path
    try:
        it = Input(path)
        with it.raw, it.bytes:
            yield it
    except READ_FAULTS as fault:
        raise Stop(f"{name} can't be read: {why(fault)}") from None


@contextlib.contextmanager
def writing(path, encoding="ascii"):
    """A file while it is written."""
    try:
        with open(path, "w", encoding=encoding) as it:
            yield it
    except OSError as fault:
        raise Stop(f"{path} can't be written: {why(fault)}", UNWRITABLE) from None


def let_go():
    """Forgets what is still to be written to standard output, where nothing can be."""
    nothing = os.open(os.devnull, os.O_WRONLY)
    os.dup2(nothing, 1)
    os.close(nothing)


def status_of(tool, main):
    """Runs a tool; the answer is its status. What stops it is told."""
    try:
        if not sys.stdout:
            raise Stop("standard output can't be written: it is closed", UNWRITABLE)
        status = int(main())
        sys.stdout.flush()
        return status
    except Stop as stop:
        say(tool, str(stop))
        return stop.status
    except BrokenPipeError:
        let_go()
    except OSError as fault:
        let_go()
        say(tool, f"the output can't be written: {why(fault)}")
    return UNWRITABLE


def run(main):
    """Runs a tool, and ends with its status. A stop from the keyboard ends it as it ends others."""
    signal.signal(signal.SIGINT, signal.SIG_DFL)
    try:
        status = status_of(os.path.basename(sys.argv[0]), main)
    except OSError:
        # standard error can't be written either
        status = UNWRITABLE
    sys.exit(status)


# How far it is.


def amount(number, unit):
    """A number of units, or of bytes in millions of them."""
    return f"{number / MEGABYTE:.1f} MB" if unit == "bytes" else f"{number} {unit}"


def progress_text(seconds, done, total, unit, requests):
    """How far work is that took so long until now."""
    text = f"{100 * done // total}% of {amount(total, unit)}, {requests}"
    left = seconds * (total - done) / done if done else None
    return text if left is None else f"{text}, {left:.0f} s left"


def is_terminal(stream):
    return bool(stream) and stream.isatty()


def progress(items, tool, total, unit, done, requests):
    """These items. Meanwhile standard error, where it is a terminal, says how far the work on them
    is: how many units of how many are done, how many requests there were, and the time that is
    left; where the total isn't known, the requests alone. Nothing is said elsewhere. `done` and
    `requests` are asked."""
    if not is_terminal(sys.stderr):
        yield from items
        return
    begin = last = time.monotonic()
    try:
        for item in items:
            now = time.monotonic()
            if now - last >= INTERVAL:
                last = now
                text = f"{requests()} requests"
                if total:
                    text = progress_text(now - begin, done(), total, unit, text)
                sys.stderr.write(f"{CLEAR_LINE}{tool}: {text}")
                sys.stderr.flush()
            yield item
    finally:
        if last > begin:
            sys.stderr.write(CLEAR_LINE)
            sys.stderr.flush()


# What became of the requests.


class Told:
    """Counts what was left out and what was written otherwise than it was, by its reason, and says
    so on standard error."""

    def __init__(self, tool):
        self.tool = tool
        self.left_out = collections.Counter()
        self.noted = collections.Counter()

    def say(self, text):
        say(self.tool, text)

    def progress(self, items, total, unit, done, requests):
        return progress(items, self.tool, total, unit, done, requests)

    def tell(self, record):
        """Says what the record has, and each count."""
        self.say(f"requests: {record.requests}, connections: {record.connections},"
                 f" commands: {record.commands}")
        for reason, count in self.noted.items():
            self.say(f"{reason}: {count}")
        for reason, count in self.left_out.items():
            self.say(f"left out: {reason}: {count}")
