"""A real HAProxy with the frontends of the examples, the server behind it, and a capture of what
its clients send. The whole configurations of other examples stand in live/whole.py.

All of it runs in a network of its own, which has the addresses of ENDS and nothing else.
"""
import itertools
import os
import re
import signal
import socket
import subprocess
import threading
import time

TOP = os.path.dirname(os.path.dirname(os.path.dirname(os.path.realpath(__file__))))
PAGE = f"{TOP}/docs/manual/traffic.md"

# The frontends that stand in a file each.
FRONTENDS = {
    "first": "examples/first/deny.cfg",
    "access": "examples/access/access.cfg",
    "public": "examples/frontend/frontend.cfg",
    "moved": "examples/moved/moved.cfg",
    "sites": "examples/blue-green/sites.cfg",
    "sessions": "tools/live/sessions.cfg",
    "rewrites": "tools/live/rewrites.cfg",
}
# Those of whole configurations, by the file that has them.
WHOLE = {
    "examples/whole/haproxy.cfg": ("plain", "shop", "api"),
    "examples/whole/members.cfg": ("members", "partners"),
    "tools/live/sections.cfg": ("site", "app", "twice"),
    "tools/live/changing.cfg": ("changing",),
    "tools/live/tokens.cfg": ("tokens",),
}
# Where each takes plain traffic.
NAMES = [*FRONTENDS, *itertools.chain(*WHOLE.values())]
PORTS = {name: port for port, name in enumerate(NAMES, 8001)}
# What the names begin with of frontends that are drawn by chance.
DRAWN = "drawn"
# The port for TLS is the plain one and this.
TLS = 1000
SERVER_PORT = 9000
BACKENDS = ("others", "books", "music", "cdn", "site_main", "blue", "green", "none")
# The frontends whose requests go nowhere where no rule chooses a backend.
WITHOUT_DEFAULT = ("access",)
DEFAULT = "others"

# The addresses of this network: those of clients, and the proxy's.
SOURCES = (
    "127.0.0.1", "192.0.2.7", "192.0.2.33", "203.0.113.9", "203.0.113.200", "198.51.100.70",
    "10.1.2.3", "::1", "2001:db8:5::1", "2001:db8:6::1", "2001:db8:bad::1",
)
PROXY = {4: "192.0.2.80", 6: "2001:db8::80"}


def add_drawn(count):
    """Gives so many frontends that are drawn their ports; the answer is their names."""
    names = [f"{DRAWN}{at}" for at in range(1, count + 1)]
    first = max(PORTS.values()) + 1
    PORTS.update({name: first + at for at, name in enumerate(names)})
    return names


def make_network():
    """Gives this network its addresses."""
    subprocess.run(["ip", "link", "set", "lo", "up"], check=True)
    for ip in (*SOURCES, *PROXY.values()):
        bits, more = ("128", ["nodad"]) if ":" in ip else ("32", [])
        if ip not in ("127.0.0.1", "::1"):
            words = ["ip", "address", "add", f"{ip}/{bits}", "dev", "lo", *more]
            subprocess.run(words, check=True)


def logging_lines():
    """The lines with which a frontend logs its requests, as the manual's page has them."""
    with open(PAGE, encoding="utf-8") as page:
        block = re.search(r"```\n(log .*?log-format [^\n]*\n)```", page.read(), re.S)
    return block[1].splitlines()


def lines_of(name):
    """The lines of a frontend: those of its example without its name, its ports and its own log,
    and its default."""
    with open(f"{TOP}/{FRONTENDS[name]}", encoding="utf-8") as it:
        lines = [line.strip() for line in it]
    lines = [line for line in lines if not re.match(r"frontend |bind |option httplog|#", line)]
    return lines if name in WITHOUT_DEFAULT else [*lines, f"default_backend {DEFAULT}"]


def binds(name, folder):
    """The lines by which a frontend takes traffic: plain and by TLS, of both versions of IP."""
    port, tls = PORTS[name], f"ssl crt {folder}/pem alpn h2,http/1.1"
    return [f"bind 0.0.0.0:{port}", f"bind :::{port} v6only",
            f"bind 0.0.0.0:{port + TLS} {tls}", f"bind :::{port + TLS} v6only {tls}"]


def own_backend(name):
    """The lines by which a `listen` section sends requests to the server, and tells its name to
    clients whose requests came there."""
    return [f"http-response set-header X-Backend {name} if {{ be_name {name} }}",
            f"server it 127.0.0.1:{SERVER_PORT}"]


def backend(name):
    """The lines of a backend, which tells its name to clients, also where it answers itself."""
    return [f"backend {name}", f"http-after-response set-header X-Backend {name}",
            f"server it 127.0.0.1:{SERVER_PORT}"]


def configuration(folder):
    """The configuration of HAProxy but for the whole ones."""
    log, *rules, log_format = logging_lines()
    # the clocks of several threads may be apart, so that a command and the request after it change
    # places
    lines = ["global", "nbthread 1", f"stats socket {folder}/socket level admin", log]
    # the whole configurations have room for more connections than are needed here
    lines += ["no strict-limits"]
    lines += ["defaults", "mode http", "log global", "timeout connect 5s", "timeout client 20s"]
    lines += ["timeout server 20s"]
    for name in FRONTENDS:
        lines += [f"frontend {name}", *binds(name, folder), *rules, *lines_of(name), log_format]
    for name in BACKENDS:
        lines += backend(name)
    return "\n".join([*lines, ""])


def make_certificate(folder):
    words = "openssl req -x509 -newkey ec -pkeyopt ec_paramgen_curve:P-256 -nodes -days 2".split()
    words += ["-subj", "/CN=shop.example", "-keyout", f"{folder}/pem", "-out", f"{folder}/crt"]
    subprocess.run(words, check=True, stderr=subprocess.DEVNULL)
    with open(f"{folder}/pem", "a", encoding="ascii") as pem, open(f"{folder}/crt") as crt:
        pem.write(crt.read())


class Server:
    """Answers each request with its own head."""

    def __init__(self):
        self.listening = socket.create_server(("127.0.0.1", SERVER_PORT), backlog=128)
        threading.Thread(target=self.accept, daemon=True).start()

    def accept(self):
        while True:
            client, _ = self.listening.accept()
            threading.Thread(target=self.serve, args=(client,), daemon=True).start()

    def serve(self, client):
        try:
            with client, client.makefile("rb") as lines:
                while head := read_head(lines):
                    read_body(head, lines)
                    body = b"" if head.startswith((b"HEAD ", b"CONNECT ")) else head
                    answer = b"HTTP/1.1 200 OK\r\nContent-Length: %d\r\n\r\n" % len(head)
                    client.sendall(answer + body)
        except OSError:
            pass


def read_head(lines):
    """A head, with its empty line; nothing where none comes any more."""
    head = b""
    for line in lines:
        head += line
        if line in (b"\r\n", b"\n"):
            return head
    return b""


def field(head, name):
    """The value of a header of this name, or none."""
    found = re.search(rb"\n%b:[ \t]*([^\r\n]*)" % name, head, re.I)
    return found[1] if found else None


def read_body(head, lines):
    if field(head, b"transfer-encoding"):
        while size := int(lines.readline().partition(b";")[0], 16):
            lines.read(size + 2)
        while lines.readline().strip():
            pass
        return b""
    return lines.read(int(field(head, b"content-length") or 0))


class Proxy:
    """HAProxy with the configurations of a folder, and a capture of its plain ports. Both end with
    `stop`."""

    def __init__(self, folder, configurations):
        self.folder = folder
        self.log, self.capture = f"{folder}/log", f"{folder}/capture.pcap"
        with open(self.log, "wb") as log, open(f"{folder}/errors", "wb") as errors:
            words = ["haproxy", "-db"]
            for path in configurations:
                words += ["-f", path]
            self.process = subprocess.Popen(words, cwd=TOP, stdout=log, stderr=errors)
            words = ["dumpcap", "-q", "-i", "lo", "-w", self.capture, "-f",
                     f"tcp portrange {min(PORTS.values())}-{max(PORTS.values())}"]
            self.capturing = subprocess.Popen(words, stderr=errors)
        # those of each frontend, as tools/from-log takes them
        self.commands = {name: f"{folder}/{name}.commands" for name in PORTS}
        for path in self.commands.values():
            open(path, "w").close()
        self.wait()

    def wait(self):
        """Waits until connections are taken and captured."""
        for _ in range(300):
            time.sleep(0.1)
            if os.path.exists(self.capture) and os.path.getsize(self.capture) > 0:
                if not socket.socket().connect_ex((PROXY[4], min(PORTS.values()))):
                    return
        raise RuntimeError("HAProxy or dumpcap doesn't start")

    def command(self, frontend, session, lines):
        """Sends a command to the management socket, and notes its lines with their time among
        those of a frontend; the answer is what HAProxy replies."""
        now = time.time_ns()
        with open(self.commands[frontend], "a", encoding="utf-8") as noted:
            for line in lines:
                noted.write(f"{now // 10**9}.{now % 10**9:09} {session} {line}\n")
        with socket.socket(socket.AF_UNIX) as it:
            it.connect(f"{self.folder}/socket")
            it.sendall("\n".join([*lines, ""]).encode())
            it.shutdown(socket.SHUT_WR)
            return b"".join(iter(lambda: it.recv(65536), b"")).decode()

    def stop(self):
        # so that the last packets are captured, and the last requests logged
        time.sleep(1)
        for process, how in ((self.capturing, signal.SIGINT), (self.process, signal.SIGTERM)):
            process.send_signal(how)
            process.wait(20)
