"""The whole configurations of an example: as HAProxy runs with them here, and their frontends as
hxconfig takes them out of them for hxeval."""
import os
import re
import subprocess

from live import checks, proxy

# A text of each line that hxeval refuses of them, in their order: counters, the version of TLS, a
# connection before its requests, another source, what the running proxy knows, and a token.
REFUSED = {
    "shop": ["sc_http_req_rate(0)", "ssl_fc_protocol"],
    "members": ["tcp-request connection", "set-src", "sc_http_req_rate(0)", "nbsrv"],
    "partners": ["http_auth_bearer"],
}
REFUSES = 3
# What docs/manual/refused.md says to write for a part of such a line, by the frontends where that is
# tried.
PAGE = f"{proxy.TOP}/docs/manual/refused.md"
WRITTEN = {
    "tokens": {
        "http_auth_bearer -m found": 'req.hdr(Authorization,1) -m reg -i "^be(a(r(er?)?)?)? "',
        "http_auth_bearer,jwt_header_query('$.alg')": (
            """"req.hdr(Authorization,1),word(2,' '),word(1,.),ub64dec,"""
            r"""regsub('(?s)^[^{]*[{][^{}]*?\"alg\"\s*:\s*\"([^\"]*)\".*','~\1'),field(2,~)"""
            '"'
        ),
    },
}
# What the rules for the log have, and no others.
OF_LOG = ".rec_"

# What begins a section that takes traffic.
TAKES_TRAFFIC = ("frontend", "listen")


class Here:
    """What HAProxy runs with here in the place of the lines of a file. Ports, certificate and
    servers are those of this network; the log is the one that makes records, and has all requests;
    and who is kept waiting waits a moment."""

    def __init__(self, folder):
        self.folder = folder
        _, *self.rules, self.log_format = proxy.logging_lines()
        self.title = None

    def begun(self, line, word, title):
        """The first lines of a section that takes traffic. The rules for the log stand above all
        that answers a request."""
        self.title = title
        own = proxy.own_backend(title) if word == "listen" else []
        return [line, self.log_format, *self.rules, *own]

    def lines(self, line):
        """What stands here in the place of a line of the file."""
        word, _, rest = line.strip().partition(" ")
        if word in TAKES_TRAFFIC:
            return self.begun(line, word, rest)
        if word == "bind":
            return proxy.binds(self.title, self.folder)
        if word == "backend":
            return proxy.backend(rest)
        if word in ("server", "log"):
            return []
        if word == "defaults":
            # what another one begins with has it from there
            return [line] if " from " in rest else [line, "log global"]
        if rest.startswith("connect "):
            return [line, "timeout tarpit 100ms"]
        return [line.replace("set-log-level silent", "set-log-level info")]


def path_of(folder, path):
    """Where this stands that HAProxy runs with in the place of a file."""
    return f"{folder}/whole-{os.path.basename(path)}"


def without_log(text):
    """A configuration without the rules for the log, each line at its number."""
    return "\n".join("" if OF_LOG in line else line for line in text.split("\n"))


def write_configuration(folder, path):
    """Writes what HAProxy runs with in the place of this file; the answer is where."""
    here = Here(folder)
    with open(f"{proxy.TOP}/{path}", encoding="utf-8") as it:
        lines = [new for line in it.read().splitlines() for new in here.lines(line)]
    with open(path_of(folder, path), "w", encoding="utf-8") as it:
        it.write("\n".join([*lines, ""]))
    return path_of(folder, path)


def listed(hxconfig, path):
    """The names of the sections that take traffic."""
    words = [*hxconfig, "frontends", path]
    ran = subprocess.run(words, cwd=proxy.TOP, stdout=subprocess.PIPE, check=True, encoding="utf-8")
    return tuple(line.split()[2] for line in ran.stdout.splitlines())


class Tried(checks.Tried):
    """A frontend of a whole configuration."""

    def __init__(self, name, folder, program, hxconfig, path):
        super().__init__(name, folder, program)
        self.hxconfig, self.whole = hxconfig, path_of(folder, path)

    def write_configuration(self):
        """Takes the frontend out of what HAProxy ran with, without the rules for the log and what
        hxeval refuses, as docs/manual/trying.md says."""
        port = str(self.port + proxy.TLS)
        with open(self.whole, encoding="utf-8") as it:
            text = it.read()
        with open(self.path("without"), "w", encoding="utf-8") as it:
            it.write(without_log(text))
        self.run("taken", *self.hxconfig, "frontend", self.name, self.path("without"), "--tls", port)
        with open(self.path("taken"), encoding="utf-8") as it:
            lines = it.read().split("\n")
        refused = []
        while (number := self.refused_line(lines)):
            line = lines[number - 1]
            lines[number - 1] = self.written(line)
            if lines[number - 1] == line:
                refused.append(line)
                lines[number - 1] = f"# {line}"
        expected = REFUSED.get(self.name, [])
        if len(refused) != len(expected) or not all(map(str.__contains__, refused, expected)):
            self.wrong.append(f"hxeval refuses {refused}")

    def written(self, line):
        """What the manual's page says to write for a line, or the line where it says nothing."""
        for part, other in WRITTEN.get(self.name, {}).items():
            if part in line:
                with open(PAGE, encoding="utf-8") as page:
                    if other not in page.read():
                        self.wrong.append(f"{PAGE} doesn't say {other}")
                return line.replace(part, other)
        return line

    def refused_line(self, lines):
        """The number of the first line that hxeval refuses, or none."""
        with open(self.path("cfg"), "w", encoding="utf-8") as it:
            it.write("\n".join(lines))
        self.run("checked", *self.program, "check", self.path("cfg"), statuses=(0, REFUSES))
        with open(self.path("checked"), encoding="utf-8") as it:
            found = re.match(r"config (\d+) \d+", it.read())
        return int(found[1]) if found else None
