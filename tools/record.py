"""What the tools that make and read records share: the events of a record in the order of their
times, and the commands that are merged into it; and the requests of a record, its verdicts and what
HAProxy decided, as they are read back.

docs/manual/record.md says how a record is written. Times are whole nanoseconds since 1970.
"""
import collections
import functools
import ipaddress
import re
import sys
import tempfile

from told import Stop, reading

# What a record can have at most.
REQUEST_BYTES = 1 << 20
LINE_BYTES = 1 << 16
LAST_NUMBER = (1 << 32) - 1
LAST_PORT = (1 << 16) - 1

SECOND = 10**9

# How a tool ends that writes a record: it has requests, or none.
HAS_REQUESTS, HAS_NONE = 0, 1


def nanoseconds(text):
    """The time that a text of seconds writes, with a fraction or without; none where it is none."""
    parts = re.fullmatch(r"(\d{1,12})(?:\.(\d+))?", text)
    if not parts:
        return None
    return int(parts[1]) * SECOND + int((parts[2] or "").ljust(9, "0")[:9])


def number(text, most):
    """The number that digits write, or none where it is none or above the most."""
    digits = re.fullmatch(r"0*([0-9]{1,10})", text)
    return int(digits[1]) if digits and int(digits[1]) <= most else None


@functools.lru_cache(1 << 16)
def address(text):
    """An address as a record has it, or none where the text is no address."""
    try:
        return str(ipaddress.ip_address(text.partition("%")[0]))
    except ValueError:
        return None


def port(text):
    """A port as a record has it, or none where the text is no port."""
    return number(text, LAST_PORT)


class Record:
    """The events of a record. Heads are kept in a file, so that the rest fits into memory."""

    def __init__(self):
        # how many heads are kept there, and how many bytes they have
        self.heads, self.heads_kept, self.kept = tempfile.TemporaryFile(), 0, 0
        # each with its time, its line, and where its head stands
        self.events = []
        self.requests = self.connections = self.commands = 0

    def keep(self, head):
        """Keeps a head, and answers where it stands."""
        self.heads.write(head)
        self.heads_kept += 1
        self.kept += len(head)
        return self.kept - len(head), len(head)

    def open(self, time, source, source_port, destination, destination_port):
        """A connection opens; the answer is its number."""
        self.connections += 1
        ends = f"{source} {source_port} {destination} {destination_port}"
        self.events.append((time, f"conn {self.connections} {ends}", None))
        return self.connections

    def request(self, time, connection, span):
        """A connection sends the head that is kept at this span; the answer is the number of the
        request, where requests are added in the order of their times."""
        self.requests += 1
        self.events.append((time, f"req {connection} {span[1]}", span))
        return self.requests

    def close(self, time, connection):
        self.events.append((time, f"close {connection}", None))

    def merge(self, commands):
        """Merges commands, each with its time and its line. A command comes before the events of
        its own time."""
        self.commands += len(commands)
        self.events[:0] = [(time, line, None) for time, line in commands]

    def write(self, out, told):
        """Writes all events in the order of their times, and those of one time as they were
        added."""
        self.events.sort(key=lambda event: event[0])
        written = 0
        for _, line, span in told.progress(self.events, len(self.events), "lines to write",
                                           lambda: written, lambda: self.requests):
            written += 1
            out.write(line.encode(errors="surrogateescape") + b"\n")
            if span:
                self.heads.seek(span[0])
                out.write(self.heads.read(span[1]) + b"\n")
        out.flush()


    def finish(self, commands, told):
        """Merges commands, writes the record to standard output, and says what it has; the answer
        is how the tool ends."""
        self.merge(commands)
        self.write(sys.stdout.buffer, told)
        told.tell(self)
        return HAS_REQUESTS if self.requests else HAS_NONE


def command_of(line, place):
    """The command that a line says, with its time and the line of a record that it is."""
    # a command may be empty, and may begin with blanks
    parts = re.fullmatch(r"(\S+) (\S+)(?: (.*))?", line)
    time = nanoseconds(parts[1]) if parts else None
    if time is None or number(parts[2], LAST_NUMBER) is None:
        raise Stop(f"{place}: this isn't SECONDS SESSION COMMAND")
    text = f"cli {parts[2]} {parts[3] or ''}"
    if len(text.encode(errors="surrogateescape")) > LINE_BYTES:
        raise Stop(f"{place}: a record takes no line as long as this command")
    return time, text


def commands_of(path):
    """The commands of a file, or none where there is no file."""
    if path is None:
        return []
    with reading(path) as it:
        lines = it.bytes.read().decode(errors="surrogateescape").split("\n")
    return [command_of(line.rstrip("\r"), f"{path}:{at}") for at, line in enumerate(lines, 1)
            if line.rstrip("\r") and not line.startswith("#")]


# Reading.

Request = collections.namedtuple("Request", "source source_port destination destination_port head")
# A line of a record as it stands and as words, and where it is a request its head and what ends it.
Event = collections.namedtuple("Event", "line words head end")


def request_of(line, words, read):
    """A request whose head comes next, or none where it isn't whole."""
    size = number(words[2], REQUEST_BYTES) if len(words) == 3 else None
    head = None if size is None else read(size)
    if head is None or len(head) < size:
        return None
    return Event(line, words, head, read(1))


def events_of(lines, read):
    """The lines of a record, one by one, with the heads that are read between them; None comes last
    where a line is none of a record."""
    for line in lines:
        words = line.decode(errors="replace").rstrip("\r\n").split(" ")
        event = Event(line, words, None, b"")
        if words[0] == "req":
            event = request_of(line, words, read)
        elif words[0] == "conn" and len(words) != 6 or words[0] == "close" and len(words) != 2:
            event = None
        elif words[0] not in ("conn", "close", "cli", "") and not words[0].startswith("#"):
            event = None
        yield event
        if event is None:
            return


def heads_of(lines, read):
    """The requests of a record; None comes last where a line is none of a record."""
    connections = {}
    for event in events_of(lines, read):
        if event is None:
            yield None
            return
        kind, words = event.words[0], event.words
        key = number(words[1], LAST_NUMBER) if kind in ("conn", "req", "close") else None
        if kind == "conn":
            connections[key] = words[2:]
        elif kind in ("req", "close") and key not in connections:
            yield None
            return
        elif kind == "req":
            yield Request(*connections[key], event.head)
        elif kind == "close":
            del connections[key]


def requests_of(path, told=None):
    """The requests of a record, in their order; None comes last where a line is none of one. How
    far they are is told, where somebody is to tell it."""
    count = 0
    with reading(path) as it:
        lines = it.bytes
        if told:
            lines = told.progress(lines, it.size(), "bytes", it.position, lambda: count)
        for count, request in enumerate(heads_of(lines, it.bytes.read), 1):
            yield request


VERDICT = re.compile(r"([0-9]{1,10}) ((?:pass|deny|redirect|error|bad) \S+)\n?")
DECISION = re.compile(r"([0-9]{1,10}) ((?:pass|end) \S+)\n?")


def numbered(path, form):
    """What the lines of this form say, which must be numbered from 1. None comes last where a line
    says that the record or the configuration is refused."""
    expected = 1
    with reading(path) as it:
        for line in it.bytes:
            text = line.decode(errors="replace")
            parts = form.fullmatch(text)
            if parts and int(parts[1]) == expected:
                expected += 1
                yield parts[2]
            elif parts or text.startswith(("record ", "config ")):
                yield None
                return
