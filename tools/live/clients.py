"""Clients: plain sockets, whose bytes are sent as they are, and curl."""
import itertools
import random
import re
import socket
import ssl
import subprocess
import time

from live import proxy

# After so many a client gives up; and where it knows that no answer comes.
SECONDS, SECONDS_IN_VAIN = 20, 0.5

# The ports of clients, and where the ten begin of which curl takes the first that it can. None
# comes again elsewhere, since clients are told apart by them; and the system gives none away.
FREE_PORTS, CURL_PORTS = itertools.count(10000), itertools.count(20000, 10)

# The status of all that the server answers.
FROM_SERVER = 200

# The certificate is signed by nobody.
CONTEXT = ssl.create_default_context()
CONTEXT.check_hostname, CONTEXT.verify_mode = False, ssl.CERT_NONE
CONTEXT.set_alpn_protocols(["http/1.1"])


class Answered:
    """What each client was answered, request by request, by its frontend, address and port: the
    status, the backend or none where the frontend itself answered, and what was made: the head as
    the backend got it, or the location, or none where that isn't known."""

    def __init__(self):
        self.by_client = {}

    def add(self, client, answer):
        """The next answer that a client got, or none where it got no answer."""
        self.by_client.setdefault(client, []).append(answer)

    def answer(self, client, at):
        """What a client's request of this position was answered, or none where that isn't known."""
        answers = self.by_client.get(client, [])
        return answers[at] if at < len(answers) else None

    def decision(self, client, at):
        """What HAProxy decided of it, in the words of tools/from-log."""
        answer = self.answer(client, at)
        if not answer:
            return None
        status, backend, _ = answer
        # no rule of theirs answers with this status
        if status == 503 and client[0] in proxy.WITHOUT_DEFAULT:
            return "pass -"
        return f"pass {backend}" if backend else f"end {status}"


def read_answer(lines, method):
    """The status, the backend, and the head that the server got or the location of the next
    response; none where none comes."""
    status = 100
    while status < 200 and status != 101:
        head = proxy.read_head(lines)
        if not head:
            return None
        status = int(head.split()[1])
    backend = proxy.field(head, b"x-backend")
    empty = method in (b"HEAD", b"CONNECT") or status in (101, 204, 304)
    body = b"" if empty else proxy.read_body(head, lines)
    if not backend:
        return status, None, proxy.field(head, b"location")
    # a backend may answer itself, and then no server got a head
    return status, backend.decode(), body if status == FROM_SERVER else None


def send(connection, data, how, chance):
    """Sends these bytes: at once, or in pieces."""
    cuts = sorted(chance.sample(range(1, len(data)), min(4, len(data) - 1)))
    try:
        for begin, end in zip([0, *cuts], [*cuts, len(data)]) if how == "pieces" else [(0, None)]:
            connection.sendall(data[begin:end])
            time.sleep(0.002 * (how == "pieces"))
    except OSError:
        pass


def connect(frontend, source, seconds, tls):
    """A connection to a frontend, on which a client waits so many seconds."""
    port = proxy.PORTS[frontend] + proxy.TLS * tls
    family = 6 if ":" in source else 4
    it = socket.create_connection((proxy.PROXY[family], port), SECONDS, (source, next(FREE_PORTS)))
    it.setsockopt(socket.IPPROTO_TCP, socket.TCP_NODELAY, 1)
    it = CONTEXT.wrap_socket(it) if tls else it
    # a connection is made also where no answer comes
    it.settimeout(seconds)
    return it


def talk(answered, frontend, source, requests, how="in turn", *, seed=0, seconds=SECONDS,
         tls=False):
    """A connection with these requests. They are sent in turn, each after the answer to the one
    before; all at once (`pipelined`); or all at once in pieces."""
    chance = random.Random(seed)
    with connect(frontend, source, seconds, tls) as it:
        client = (frontend, source, it.getsockname()[1])
        groups = [[request] for request in requests] if how == "in turn" else [requests]
        with it.makefile("rb") as lines:
            for group in groups:
                send(it, b"".join(group), how, chance)
                for request in group:
                    try:
                        answer = read_answer(lines, request.split()[0])
                    except OSError:
                        answer = None
                    # a proxy that closes before it has read a body may take its answers back
                    if answer is None:
                        return
                    answered.add(client, answer)


def curl(answered, frontend, source, paths, *words, tls=False):
    """curl asks for these paths in turn, with these options for each of them."""
    port = proxy.PORTS[frontend] + proxy.TLS * tls
    family = 6 if ":" in source else 4
    host = f"[{proxy.PROXY[6]}]" if family == 6 else proxy.PROXY[4]
    line = "client %{local_port} %{http_code} %header{x-backend} %header{location}\n"
    first = next(CURL_PORTS)
    asked = ["curl", "-sk", "--path-as-is", "--interface", source, "--max-time", str(SECONDS)]
    asked += ["--local-port", f"{first}-{first + 9}", "-w", line, "-g", *words]
    for path in paths:
        asked += [f"http{'s' * tls}://{host}:{port}{path}", "-o", "/dev/null"]
    ran = subprocess.run(asked, stdout=subprocess.PIPE, check=False, encoding="ascii")
    form = r"client (\d+) (\d+) (\S*) (\S*)\n"
    for number, status, backend, location in re.findall(form, ran.stdout):
        client = (frontend, source, int(number))
        # 0 where no answer came
        made = None if backend else location.encode() or None
        answered.add(client, (int(status), backend or None, made) if int(status) else None)
