"""What must hold of the records that are made of live traffic, and of hxeval's answers to them."""
import collections
import json
import re
import subprocess

import record
from live import named, proxy

# A target with a scheme or of CONNECT, before the default port and after it.
ABSOLUTE = re.compile(rb"(\S+ http://|CONNECT )([^/:\s]*):80((?:[/?]\S*)? .*)")
# A difference as tools/agree lists it.
LISTED = re.compile(r"(\d+) HAProxy (\w+ \S+), hxeval (\w+ \S+): ")


def as_kept(head):
    """The first line of a head and its header lines, as HAProxy keeps them: names in lower case,
    `close` and `keep-alive` gone, of equal lines that may stand once only one, and no default port
    in an absolute target."""
    first, *lines = head.strip(b"\r\n").replace(b"\r\n", b"\n").split(b"\n")
    target = ABSOLUTE.fullmatch(first)
    if target:
        first = target[1] + target[2] + target[3]
    found = []
    for line in lines:
        name, _, value = line.partition(b":")
        name, value = name.strip().lower(), value.strip()
        if name == b"connection" and value.lower() in (b"close", b"keep-alive"):
            continue
        if (name, value) in found and name in (b"host", b"content-length"):
            continue
        if name == b"host" and target:
            value = value.removesuffix(b":80")
        found.append((name, value))
    return first, found


def entry_of(at, request):
    """A request as an entry of a HAR file, or none where such a file can't have it."""
    line = re.match(rb"(\S+) (/[^\s#]*) HTTP/1\.1\r\n((?:[^\s:]+:[^\r\n]*\r\n)+)\r\n", request.head)
    host = re.search(rb"(?i)\nhost:[ \t]*([^\r\n]+)", request.head)
    if not line or not host or not request.head.isascii() or b"\0" in request.head:
        return None
    method, target, lines = (part.decode() for part in line.groups())
    fields = [field.partition(":") for field in lines.splitlines()]
    return {
        "startedDateTime": f"2026-01-01T00:{at // 60:02}:{at % 60:02}.000Z",
        "request": {
            "method": method,
            "url": f"http://{host[1].decode()}{target}",
            "httpVersion": "HTTP/1.1",
            "headers": [{"name": name, "value": value.strip()} for name, _, value in fields],
        },
        "response": {"status": 200},
        "serverIPAddress": request.destination,
    }


def changed_heads(path):
    """By the number of a request the head that rules made of it, where they changed it."""
    heads = collections.defaultdict(list)
    number = 0
    with open(path, "rb") as answers:
        for line in answers:
            if line.startswith(b"| "):
                heads[number].append(line[2:].rstrip(b"\n"))
            elif line[:1].isdigit():
                number = int(line.split()[0])
    return {number: b"\n".join(lines) for number, lines in heads.items()}


def is_made(shown, made, backend):
    """Whether what hxeval shows is what HAProxy made: a head, or a location."""
    return as_kept(shown) == as_kept(made) if backend else shown == b"location: " + made


def differing(shown, made, backend):
    """The names of the header lines that differ, an empty one for the first line of a head, and
    `location` where that is what was made."""
    if not backend:
        return {b"location"}
    (first, lines), (other, others) = as_kept(shown), as_kept(made)
    counts, more = collections.Counter(lines), collections.Counter(others)
    names = {name for name, _ in (counts - more) + (more - counts)}
    return names if first == other else names | {b""}


class Tried:
    """The files of one frontend, and what is found wrong with them."""

    def __init__(self, name, folder, program):
        self.name, self.folder, self.program = name, folder, program
        self.port = proxy.PORTS[name]
        self.wrong = []
        # how often each row of the manual's page explains a difference
        self.rows = collections.Counter()

    def path(self, end):
        return f"{self.folder}/{self.name}.{end}"

    def row_of(self, request, decision, verdict):
        """The row that names this difference, or none."""
        return named.row_of(request, decision, verdict)

    def rows_of_made(self, head, names):
        """The rows that name what rules made otherwise of a head, in the lines of these names."""
        return named.rows_of_made(head, names)

    def run(self, end, *words, stdin=None, statuses=(0,)):
        """Runs a command, whose standard output becomes a file."""
        with open(self.path(end), "wb") as out:
            ran = subprocess.run(words, cwd=proxy.TOP, stdin=stdin, stdout=out,
                                 stderr=subprocess.PIPE, check=False)
        if ran.returncode not in statuses:
            self.wrong.append(f"{words[0]} ended with {ran.returncode}: {ran.stderr.decode()}")

    def write_configuration(self):
        """Writes the configuration that hxeval gets."""
        with open(self.path("cfg"), "w", encoding="utf-8") as it:
            it.write("\n".join([*proxy.lines_of(self.name), ""]))

    def make_records(self):
        commands = ("--commands", self.path("commands"))
        self.run("log.rec", "tools/from-log", "--frontend", self.name, *commands,
                 "--decided", self.path("log.decided"), f"{self.folder}/log")
        self.run("pcap.rec", "tools/from-pcap", "--port", str(self.port), *commands,
                 f"{self.folder}/capture.pcap")
        self.write_configuration()
        for way in ("log", "pcap"):
            with open(self.path(f"{way}.rec"), "rb") as made:
                self.run(f"{way}.answers", *self.program, "run", self.path("cfg"), stdin=made)

    def requests(self, way):
        """The requests of a record. Their keys are their client, and which of its requests each
        is."""
        counts, found = collections.Counter(), {}
        for request in record.requests_of(self.path(f"{way}.rec")):
            client = (self.name, request.source, int(request.source_port))
            found[client, counts[client]] = request
            counts[client] += 1
        return found

    def compare_records(self):
        """Both records must have the same requests of each client. What HAProxy ended before the
        rules is in the capture alone, and what came by TLS in the log alone; and so may be what it
        didn't answer."""
        logged, captured = self.requests("log"), self.requests("pcap")
        by_log = record.numbered(self.path("log.decided"), record.DECISION)
        for (key, request), decision in zip(logged.items(), by_log):
            other = captured.get(key)
            if int(request.destination_port) != self.port:
                continue
            if other is None and decision == named.UNANSWERED:
                continue
            if other is None or request[:4] != other[:4]:
                self.wrong.append(f"{key} is in the log, and not in the capture")
            elif as_kept(request.head) != as_kept(other.head):
                if not named.row_of_kept(other.head):
                    self.wrong.append(f"{key} has another head in the capture than in the log")

    def compare_decisions(self, answered):
        """The log must say what the clients were answered. The decisions on the requests of the
        capture, in its order, become a file."""
        by_log = record.numbered(self.path("log.decided"), record.DECISION)
        decisions = dict(zip(self.requests("log"), by_log))
        for key, decision in decisions.items():
            if answered.decision(*key) not in (None, decision):
                self.wrong.append(f"{key}: the log has {decision}, and the client got "
                                  + answered.decision(*key))
        with open(self.path("pcap.decided"), "w", encoding="ascii") as it:
            for number, key in enumerate(self.requests("pcap"), 1):
                decision = decisions.get(key) or answered.decision(*key)
                it.write(f"{number} {decision}\n")

    def compare_verdicts(self, way):
        """hxeval must answer as HAProxy did, but for what the page names. The answer is the number
        of requests, and how many are answered alike."""
        paths = [self.path(f"{way}.{end}") for end in ("rec", "answers", "decided")]
        self.run(f"{way}.agreed", "tools/agree", *paths, statuses=(0, 1))
        requests = list(self.requests(way).values())
        with open(self.path(f"{way}.agreed"), encoding="utf-8") as agreed:
            lines = agreed.read().splitlines()
        alike, count = map(int, re.match(r"(\d+) of (\d+) requests", lines[0]).groups())
        listed = [line for line in lines if LISTED.match(line)]
        for line in listed:
            number, decision, verdict = LISTED.match(line).groups()
            row = self.row_of(requests[int(number) - 1], decision, verdict)
            if row:
                self.rows[row] += 1
            else:
                self.wrong.append(f"no row names this, by {way}: {line}")
        if (count, alike) != (len(requests), len(requests) - len(listed)):
            self.wrong.append(f"tools/agree counts otherwise than it lists, by {way}")
        return count, alike

    def compare_made(self, way, answered):
        """A backend must get the head that hxeval shows, or where it shows none the one that came,
        and a client the location that it shows. The answer is the number of these."""
        count = 0
        changed = changed_heads(self.path(f"{way}.answers"))
        verdicts = record.numbered(self.path(f"{way}.answers"), record.VERDICT)
        for (key, request), (number, verdict) in zip(
            self.requests(way).items(), enumerate(verdicts, 1)
        ):
            _, backend, made = answered.answer(*key) or (0, None, None)
            shown = changed.get(number, request.head)
            # the body of an answer to HEAD is empty
            if not made or not verdict.startswith("pass" if backend else "redirect"):
                continue
            count += 1
            if is_made(shown, made, backend):
                continue
            rows = self.rows_of_made(request.head, differing(shown, made, backend))
            self.rows.update(rows)
            if not rows:
                self.wrong.append(f"{number}: hxeval shows {shown}, HAProxy made {made}")
        return count

    def compare_har(self):
        """Requests that are written as a HAR file must come out of it as they went in. The answer
        is their number."""
        made = [(request, entry_of(at, request))
                for at, request in enumerate(self.requests("pcap").values())]
        made = [(request, entry) for request, entry in made if entry]
        with open(self.path("har"), "w", encoding="utf-8") as it:
            json.dump({"log": {"entries": [entry for _, entry in made]}}, it)
        self.run("har.rec", "tools/from-har", self.path("har"))
        found = list(record.requests_of(self.path("har.rec")))
        if len(found) != len(made):
            self.wrong.append(f"{len(made)} requests of a HAR file, and {len(found)} are written")
        for (request, _), other in zip(made, found):
            if as_kept(request.head) != as_kept(other.head):
                self.wrong.append(f"{request.head} comes out of a HAR file as {other.head}")
        return len(made)

    def compare_replies(self, replies):
        """Each command must be replied alike, but for the numbers of entries."""
        with open(self.path("log.answers"), encoding="utf-8", errors="replace") as answers:
            lines = [line.partition(" ")[2] for line in answers if line.startswith("@")]
        ends = [at for at, line in enumerate(lines) if line.startswith(("ok", "error "))]
        if len(ends) != len(replies):
            self.wrong.append(f"{len(replies)} commands, and {len(ends)} replies")
        for begin, end, reply in zip([0, *(at + 1 for at in ends)], ends, replies):
            shown = [re.sub(r"^0x\w+", "", line.rstrip("\n")) for line in lines[begin:end]]
            real = [re.sub(r"^0x\w+", "", line) for line in reply.splitlines() if line]
            if lines[end] != "ok\n" or shown != real:
                self.wrong.append(f"HAProxy replied {reply!r}, hxeval {lines[begin:end + 1]}")
