"""What clients send to the frontends of members and of partners: names and passwords, requests for
the proxy's own page, addresses that get a slash, headers that are taken out, and commands."""
import base64
import concurrent.futures

from live import drawn
from live.clients import SECONDS_IN_VAIN, curl, talk
from live.drawn import Parts, request

HOST = "Host: www.shop.example"
MOBILE = "User-Agent: a Phone with Android"
ANYONE, OFFICE, PARTNER = "192.0.2.7", "10.1.2.3", "198.51.100.70"


def basic(text, scheme="Basic "):
    """The header that gives this name and password."""
    return f"Authorization: {scheme}{base64.b64encode(text.encode('latin-1')).decode()}"


# A user of each group, and one who is in two of them.
ANN, BEN, ROOT = basic("ann:secret"), basic("ben:two words:"), basic("root:t00r")
ACME = basic("acme:k-100")
# What proves nobody.
STRANGERS = (
    basic("ann:wrong"), basic("ann:"), basic("ann"), basic("nobody:secret"), basic("ANN:secret"),
    basic("ann:secret "), basic("ben:two words"), basic(""), "Authorization: Basic",
    "Authorization:", basic("ann:secret", "Bearer "), basic("ann:secret", "Basics "),
    basic("ann:secret", ""), ANN.rstrip("="), f"{ANN} x", "Authorization: Basic !!!!",
)
# Other ways to write the scheme.
SCHEMES = tuple(basic("ann:secret", scheme) for scheme in ("basic ", "BASIC ", "Basic   ", "b "))
# Base64 with bits that stand for nothing, and a NUL behind the password.
INEXACT, WITH_NUL = "Authorization: Basic YW5uOnNlY3JldB==", basic("ann:secret\0x")

CLOSED, EDITORS, READERS = "/account/7?tab=1", "/edit/1", "/drafts/a"
SLASHES = (
    "/docs", "/docs?a=1", "/docs?a=1/", "/docs/", "/docs/guide?", "/blog", "/blog?a?b",
    "/manual", "/manual/", "/manual/x?y=1", "/manual?y=/", "/manual/?", "/secure", "/secure/",
    "/secure/a?b=1", "/secure/a?b=/", "/1987", "/2020/x?y=1", "/19/?y/",
)
EMPTY = ("/old-news", "/old-news?x=1", "/OLD-News", "/gone", "/Gone", "/LOGIN.php", "/me", "/me?a",
         "/", "/m/me")
# Targets of which not all have a path.
TARGETS = ("*", "/", "/?", "/?a", "//", "//a?b", "/a//", "/a%20b", "http://www.shop.example",
           "http://www.shop.example/?a/", "http://www.shop.example//a")
MONITORED = ("/alive", "/alive?x", "/alive/", "/ALIVE", "//alive", "/health", "/health?")

PARTS = {
    "members": Parts(
        ("/", "/index", CLOSED, "/orders", EDITORS, READERS, "/robots.txt", "/members/7?x",
         "/a.php", "/login.php", "/p?ref=a&q=1", "/p?q=1&ref=x", *SLASHES, *EMPTY),
        ("www.shop.example", "club.shop.example", "CLUB.shop.example:443", ""),
        (ANN, BEN, ROOT, ANN, *STRANGERS[:2], SCHEMES[0], MOBILE, "User-Agent: curl/8",
         "X-Debug: 1", "x-debug: 2, 3", "X-Known: no", "X-Forwarded-For: 1.1.1.1",
         "X-Came-To: 1.1.1.1", "Accept: */*"),
    ),
    "partners": Parts(
        ("/", "/v1/items", "/v1/items/7?x=1", "/v1/ping", "/v1/", "/v1?", "/other"),
        ("partners.example",),
        (ACME, ACME, ACME, ANN, STRANGERS[0], "X-Partner: me", "Accept: */*"),
    ),
}


def heads():
    """The requests of each branch, with their frontend and client, each on a connection of its
    own."""
    found = []

    def ask(lines, paths, *, frontend="members", source=ANYONE, method="GET"):
        found.extend((frontend, source, request(f"{method} {path} HTTP/1.1", HOST, *lines))
                     for path in paths)

    pages = (CLOSED, EDITORS, READERS, "/index")
    for line in (ANN, BEN, ROOT, *STRANGERS, *SCHEMES):
        ask([line], pages)
    for method in ("POST", "PUT", "HEAD"):
        for lines in ([], [ANN], [BEN], [ROOT], [STRANGERS[0]]):
            ask([*lines], pages, method=method)
    ask([], pages)
    ask([], pages, source=OFFICE)
    ask([ANN, STRANGERS[0]], pages)
    ask([STRANGERS[0], ANN], pages)
    ask([INEXACT], [CLOSED])
    ask([WITH_NUL], [CLOSED])
    for method in ("GET", "HEAD", "POST", "DELETE"):
        ask([], MONITORED, method=method)
        ask([], MONITORED, method=method, frontend="partners")
        ask([ACME], ["/v1/items", "/v1/ping", "/"], method=method, frontend="partners")
    absolute = ["http://www.shop.example/alive", "http://www.shop.example/alive?x"]
    ask([], absolute)
    for lines in ([], [MOBILE]):
        ask(lines, (*SLASHES, *EMPTY))
        ask(lines, [f"http://www.shop.example{path}" for path in SLASHES])
    for source in (ANYONE, OFFICE):
        for lines in (["X-Debug: 1"], ["X-Debug: 1", "x-debug:2"], ["X-Debugger: 1"],
                      ["X-Known: a", "Accept: */*", "X-Known: b"], [ANN, "X-Known: b"]):
            ask(lines, ["/index", CLOSED], source=source)
    for line in ("X-Old: 1", "X-Secure: 1"):
        ask([line], TARGETS)
    for line in (ACME, STRANGERS[0], basic("acme:k-101"), SCHEMES[0]):
        ask([line], ["/v1/items", "/v1/items?x=1", "/v1/ping"], frontend="partners")
    found += [("members", ANYONE, b"GET /secure/a HTTP/1.0\r\n\r\n"),
              ("members", ANYONE, b"GET /alive HTTP/1.0\r\n\r\n"),
              ("members", ANYONE, request("OPTIONS * HTTP/1.1", HOST, ANN)),
              ("members", ANYONE, request("GET /secure HTTP/1.1", "Host: a.example, b.example"))]
    return found


# One who isn't answered.
DROPPED = request("GET /wp-login HTTP/1.1", HOST, MOBILE)

MOVED, HOSTS = "examples/whole/moved.map", "examples/whole/hosts.map"
# Commands, each with the frontend whose requests it is tried by.
COMMANDS = (
    ("members", [f"set map {MOVED} /gone /news/gone"]),
    ("members", [f"add map {MOVED} /fresh /news/fresh"]),
    ("members", [f"show map {MOVED}"]),
    ("members", [f"del map {MOVED} /gone"]),
    ("members", [f"add map {HOSTS} www.shop.example club"]),
)
AFTER = [request(f"GET {path} HTTP/1.1", HOST) for path in ("/gone", "/fresh")]


def curls(answered):
    """Requests by curl, by HTTP/2 too. The page of the monitor comes last of a connection, since
    HAProxy doesn't log it."""
    paths = ("/docs?a=1", "/manual?a", "/secure/a?b", "/account", "/edit/1", "/gone", "/1987?a")
    for words in (["--http1.1"], ["--http2"]):
        curl(answered, "members", ANYONE, (*paths, "/alive"), *words, "-u", "ann:secret", tls=True)
        curl(answered, "members", OFFICE, (*paths, "/alive"), *words, "-u", "ben:x", tls=True)
        curl(answered, "partners", ANYONE, ("/v1/items?a", "/health"), *words, "-u", "acme:k-100",
             tls=True)
    curl(answered, "members", ANYONE, (*paths, "/alive"), "-H", HOST)


def talks(answered, frontend, count, seed, tls):
    drawn.talks(answered, frontend, PARTS[frontend], count, seed, tls=tls)


def send_all(made, answered, seed, replies):
    """Sends all of it, and adds what HAProxy replies to the commands of each frontend."""
    with concurrent.futures.ThreadPoolExecutor(6) as pool:
        sent = [pool.submit(curls, answered)]
        sent += [pool.submit(talks, answered, name, count, f"{seed} {tls}", tls)
                 for name, count in (("members", 30), ("partners", 10)) for tls in (False, True)]
        sent += [pool.submit(talk, answered, "members", ANYONE, [DROPPED],
                             seconds=SECONDS_IN_VAIN, tls=tls) for tls in (False, True)]
        for it in sent:
            it.result()
    for at, (frontend, source, head) in enumerate(heads()):
        talk(answered, frontend, source, [head], tls=bool(at % 4 == 3))
    for at, (frontend, lines) in enumerate(COMMANDS):
        replies[frontend].append(made.command(frontend, at % 3, lines))
        for after in AFTER:
            talk(answered, frontend, PARTNER, [after])
