"""What clients send: requests to each frontend of an example, drawn by chance from what its rules
tell apart; heads that aren't as usual; and commands for the management socket."""
import concurrent.futures

from live import drawn, drawn_rules, members_traffic, proxy, sections_traffic, whole_traffic
from live.clients import curl, talk
from live.drawn import request

PATHS = {
    "first": (
        "/", "/index.html", "/shop", "/shop?item=7", "/admin", "/admin/", "/admin?tab=1",
        "/admin/users", "/administration", "/favicon.ico", "/search?q=a/b", "/a%20b", "/other",
    ),
    "access": (
        "/", "/admin/users", "/manage", "/manager", "/cart/1", "/cart", "/items?a=/admin",
        "/Admin", "/search",
    ),
    "public": (
        "/", "/console/x", "/metrics", "/a?b=1", "/logo.PNG", "/x.svg?y", "/font.woff2/", "/b//c",
    ),
    "moved": ("/old", "/old?x=1", "/shop", "/last", "/other", "/new", "/last?y"),
    "sites": ("/", "/x"),
    "sessions": ("/", "/once", "/once?x"),
}
HOSTS = ("shop.example", "SHOP.example:8080", "other.example", "Books.example:80", "music.example",
         "books.example", "x.example")
HEADERS = (
    "User-Agent: GoodBot/1.0", "User-Agent: web Spider", "User-Agent: curl/8", "Accept: */*",
    "X-Forwarded-Proto: https", "X-Forwarded-Proto: HTTPS", "X-Forwarded-Proto: http",
    "Cookie: a=1; preview=on", "Cookie: preview=", "Cookie: b=2", "X-Trace: 1",
    "X-Real-IP: 1.1.1.1",
    "Referer: http://a.example/b", "Referer: https://a.example/", "Connection: keep-alive",
    "X-Empty:", "X-Text: \xe9 \"quoted, \\text\"", "x-lower:   blanks  ",
)


def talks(answered, frontend, count, seed):
    """So many connections of several requests each."""
    parts = drawn.Parts(PATHS[frontend], HOSTS, HEADERS)
    drawn.talks(answered, frontend, parts, count, seed)


def curls(answered, frontend):
    """The same by curl: plain, by TLS, and by HTTP/2."""
    paths = PATHS[frontend][:4]
    host = ("-H", "Host: books.example", "-H", "X-Forwarded-Proto: https")
    curl(answered, frontend, "192.0.2.7", paths)
    curl(answered, frontend, "2001:db8:5::1", paths, *host, "-b", "preview=on")
    curl(answered, frontend, "10.1.2.3", paths, "-d", "a=1", "-e", "http://a.example/b")
    curl(answered, frontend, "198.51.100.70", paths, "-X", "PURGE", "--http1.0")
    curl(answered, frontend, "192.0.2.33", paths, "--http1.1", tls=True)
    curl(answered, frontend, "10.1.2.3", paths, "--http2", *host, tls=True)
    curl(answered, frontend, "203.0.113.200", paths, "--http2", "-d", "b=2", "-b", "a=1", tls=True)


HOST = "Host: shop.example"
WEBSOCKET = ("Connection: Upgrade", "Upgrade: websocket", "Sec-WebSocket-Version: 13")

# Heads that aren't as usual, each alone on its connection, by the frontend that gets them.
HEADS = (
    ("first", b"GARBAGE\r\n\r\n"),
    ("first", b"GET /shop\r\n\r\n"),
    ("first", b"GET /shop HTTP/1.1\nHost: shop.example\n\n"),
    ("first", b"\r\n\r\nGET /shop HTTP/1.1\r\n\r\n"),
    ("first", b"GET /shop HTTP/1.0\r\n\r\n"),
    ("first", b"GET /shop HTTP/1.2\r\n\r\n"),
    ("first", b"GET  /shop HTTP/1.1\r\n\r\n"),
    ("first", request("GET /shop HTTP/1.1", HOST, "X: 1", " 2")),
    ("first", request("GET /shop HTTP/1.1", HOST, "X: \x01")),
    ("first", request("GET /shop HTTP/1.1", HOST, "X : 1")),
    ("first", request("GET /shop HTTP/1.1", HOST, "no header")),
    ("first", request("GET /shop HTTP/1.1", HOST, "Content-Length: x")),
    ("first", request("GET /shop HTTP/1.1", HOST, "Content-Length: 0", "Content-Length: 1")),
    ("first", request("GET /shop HTTP/1.1", HOST, "Content-Length: 0", "Content-Length: 0")),
    ("first", request("GET /shop HTTP/1.1", HOST, HOST)),
    ("first", request("GET /shop HTTP/1.1", HOST, "Host: other.example")),
    ("first", request("GET http://a.example/shop HTTP/1.1", HOST)),
    ("first", request("GET http://shop.example:80/shop HTTP/1.1", HOST)),
    ("first", request("GET /caf\xc3\xa9 HTTP/1.1", HOST)),
    ("first", request("GET /caf\xe9 HTTP/1.1", HOST)),
    ("first", request("GET /a#b HTTP/1.1", HOST)),
    ("first", request("GET abc HTTP/1.1", HOST)),
    ("first", request("OPTIONS * HTTP/1.1", HOST)),
    ("first", request("CONNECT h:80 HTTP/1.1", "Host: h:80")),
    ("first", request("CONNECT h HTTP/1.1", HOST)),
    ("first", request("CONNECT /p HTTP/1.1", HOST)),
    ("first", request("GET /shop HTTP/1.1", HOST, *WEBSOCKET)),
    ("first", request("GET /shop HTTP/1.1", HOST, *WEBSOCKET, "Sec-WebSocket-Key: YQ==")),
    ("first", request("GET /shop HTTP/1.1", HOST, "Expect: 100-continue", body=b"abc")),
    ("first", request("GET /shop HTTP/1.1", *[f"X-{at}: 1" for at in range(100)])),
    ("first", request("GET /shop HTTP/1.1", *[f"X-{at}: 1" for at in range(101)])),
    ("first", request("GET /shop HTTP/1.1", *[f"X-{at}: 1" for at in range(102)])),
    ("access", request("GET /items HTTP/1.1", HOST, HOST)),
    ("access", request("GET /items HTTP/1.1", "Host: shop.example, other.example")),
    ("access", request("GET http://shop.example:80/items HTTP/1.1", "Host: shop.example:80")),
    ("access", b"GET /items HTTP/1.1\r\nHost: shop.example\r\nX: \xff\xfe\r\n\r\n"),
    ("access", request("post /items HTTP/1.1", HOST, "User-Agent: web Spider")),
    ("public", request("GET /a HTTP/1.1", "X-Forwarded-Proto: http, https", HOST)),
    ("public", request("GET /a HTTP/1.1", "X-Forwarded-Proto: https", "Cookie: a=1, preview=on")),
    ("moved", request("GET http://h.example/shop HTTP/1.1", "Host: h.example")),
    ("moved", request("GET /broken HTTP/1.1", HOST)),
    ("moved", request("OPTIONS * HTTP/1.1", HOST)),
    ("moved", request("GET /last HTTP/1.1", HOST)),
    ("moved", request("GET http://h.example HTTP/1.1", "Host: h.example")),
    ("moved", request("GET /other HTTP/1.1", HOST)),
    ("rewrites", request("GET / HTTP/1.1", HOST)),
    ("rewrites", request("GET /method HTTP/1.1", HOST)),
    ("rewrites", request("GET /slash HTTP/1.1", HOST)),
    ("rewrites", request("GET /blank HTTP/1.1", HOST)),
    ("rewrites", request("GET /control HTTP/1.1", HOST)),
    ("rewrites", request("OPTIONS * HTTP/1.1", HOST)),
    ("rewrites", request("GET http://h.example HTTP/1.1", "Host: h.example")),
    ("rewrites", request("GET /line-feed HTTP/1.1", HOST)),
    ("rewrites", request("GET /lines HTTP/1.1", *[f"X-{at}: 1" for at in range(100)])),
)

SITES, PUBLIC = "examples/blue-green/sites.map", "examples/frontend/sites.map"
PARTNERS, MOVED = "examples/access/partners.lst", "examples/moved/moved.map"

# Commands, each with the frontend whose requests it is tried by; a payload has several lines.
COMMANDS = (
    ("sites", [f"add map {SITES} x.example green"]),
    ("sites", [f"set map {SITES} books.example green"]),
    ("sites", [f"show map {SITES}"]),
    ("sites", [f"del map {SITES} music.example"]),
    ("sites", [f"prepare map {SITES}"]),
    ("sites", [f"add map @1 {SITES} books.example blue"]),
    ("sites", [f"add map @1 {SITES} <<", "music.example green", "x.example blue", ""]),
    ("sites", [f"show map @1 {SITES}"]),
    ("sites", [f"commit map @1 {SITES}"]),
    ("sites", [f"show map {SITES}"]),
    ("sites", [f"clear map {SITES}"]),
    ("sites", [f"add map {SITES} books.example\\ x green"]),
    ("sites", [f"add map {SITES} books.example green"]),
    ("public", [f"add map {PUBLIC} other.example cdn"]),
    ("public", [f"set map {PUBLIC} books.example music"]),
    ("public", [f"show map {PUBLIC}"]),
    ("public", [f"set map {PUBLIC} music.example nowhere"]),
    ("public", [f"del map {PUBLIC} music.example"]),
    ("access", [f"add acl {PARTNERS} 203.0.113.0/24"]),
    ("access", [f"show acl {PARTNERS}"]),
    ("access", [f"del acl {PARTNERS} 198.51.100.0/24"]),
    ("access", [f"clear acl {PARTNERS}"]),
    ("moved", [f"set map {MOVED} /old /newest"]),
    ("moved", [f"del map {MOVED} /last"]),
    ("moved", [f"add map {MOVED} /other /"]),
    ("moved", [f"show map {MOVED}"]),
)

# A request that is sent after each command, and whose answer some of them change.
AFTER = {
    "sites": request("GET / HTTP/1.1", "Host: books.example"),
    "public": request("GET /a HTTP/1.1", "Host: music.example", "X-Forwarded-Proto: https"),
    "access": request("GET /admin/users HTTP/1.1", HOST),
    "moved": request("GET /old HTTP/1.1", HOST),
}
PARTNER = "198.51.100.70"


def send_drawn(answered, names, requests, seed):
    """Sends about so many requests to each of the frontends that are drawn."""
    with concurrent.futures.ThreadPoolExecutor(6) as pool:
        sent = [pool.submit(drawn_rules.send, answered, name, requests, seed) for name in names]
        for it in sent:
            it.result()


def send_all(made, answered, seed):
    """Sends all of it; the answer is what HAProxy replied to the commands of each frontend."""
    apart = ("first", "access", "public")
    with concurrent.futures.ThreadPoolExecutor(6) as pool:
        sent = [pool.submit(talks, answered, name, 20, f"{seed} {at}")
                for name in apart for at in (1, 2)]
        sent += [pool.submit(curls, answered, name) for name in apart]
        for it in sent:
            it.result()
    # what follows changes maps, so each request is sent after the answer to the one before
    for at, (frontend, head) in enumerate(HEADS):
        talk(answered, frontend, proxy.SOURCES[at % 3], [head])
    for frontend in ("moved", "sites", "sessions"):
        curls(answered, frontend)
        talks(answered, frontend, 10, seed)
    replies = {name: [] for name in proxy.PORTS}
    for at, (frontend, lines) in enumerate(COMMANDS):
        replies[frontend].append(made.command(frontend, at % 3, lines))
        talk(answered, frontend, PARTNER, [AFTER[frontend]])
        talks(answered, frontend, 2, f"{seed} {at}")
    whole_traffic.send_all(made, answered, seed, replies)
    members_traffic.send_all(made, answered, seed, replies)
    sections_traffic.send_all(answered, seed)
    return replies
