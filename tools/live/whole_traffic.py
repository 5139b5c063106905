"""What clients send to the frontends of the whole configuration: requests, heads that aren't as
usual, and commands."""
import concurrent.futures

from live import drawn, proxy
from live.clients import SECONDS_IN_VAIN, curl, talk
from live.drawn import Parts, request

RENEWAL = "/.well-known/acme-challenge/x"
SHOP_HOSTS = (
    "www.shop.example", "www.shop.example", "WWW.Shop.Example:443", "outlet.shop.example",
    "Outlet.shop.example:8443", "shop.example", "shop.example:8443", "a.shop.example",
    "other.example", "",
)
PARTS = {
    "plain": Parts(
        ("/", "/a?b=1", RENEWAL, f"{RENEWAL}?y", "/.well-known", "/a//b?"),
        SHOP_HOSTS,
        ("Accept: */*", "User-Agent: curl/8", "X-Forwarded-For: 1.1.1.1", "Connection: keep-alive"),
    ),
    "shop": Parts(
        ("/", "/alive", "/console/x", "/reports?y=1", "/checkout/1", "/a.PNG", "/logo.svg?v=2",
         "/help/returns", "/help/", "/shop/books?page=2", "/shop/", "/item?id=7",
         "/item?id=7&colour=red", "/item?id=x", "/old/page", "/find/lamp", "/find/lamp?colour=red",
         "/p?utm_source=mail&q=1", "/p?q=1&utm_x=2&utm_y=3", "/p?utm_x=", "/p?q=<Script>",
         "/ETC/passwd", "/a/../b", "/p?", "/a%20b", "/shop/a\\1\"b'{c}", "/shop/%41?a?b",
         "//shop/x", "/find/x?", "/find/?a?b", "/item?id=7?x", "/item?id=12\\1", "/shop",
         "/old/?utm_x=1&"),
        SHOP_HOSTS,
        ("User-Agent: sqlmap/1", "User-Agent: GoodBot/1.0", "User-Agent: curl/8", "X-Old: 1",
         "Proxy: http://a.example", "X-Internal: yes", "Cache-Control: no-store",
         "Cache-Control: max-age=0, no-store", "Cache-Control: no-store,no-store",
         "User-Agent: \"a\", Bot", "X-Client: 1.2.3.4", "X-Forwarded-For: 1.1.1.1",
         "X-Real-IP: 1.1.1.1", "X-Forwarded-Proto: http", "Accept-Encoding: gzip",
         "x-lower:   blanks  "),
    ),
    "api": Parts(
        ("/", "/items", "/items/1?x=2", "/orders?y", "/orders/", "/health", "/items/\"1\"?q=\""),
        ("api.example", "API.example:8443"),
        ("X-Key: k-100", "X-Key: k-200", "X-Key: k-100", "X-Key: k-300", "X-Version: 1",
         "X-Version: 2", "X-Version: 3", "Accept: */*", "Authorization: Basic YQ=="),
    ),
}

HOST, OFFICE = "Host: www.shop.example", "10.1.2.3"
# Nothing of the shop is for these.
BARRED = ("203.0.113.9", "203.0.113.200", "2001:db8:bad::1")
OTHERS = tuple(source for source in proxy.SOURCES if source not in BARRED)
# Long enough for the path to stay whole in what HAProxy keeps of the request line.
LONG = "/" + "long/" * 180

# Heads that aren't as usual, each alone on its connection.
HEADS = (
    ("plain", b"GET /a HTTP/1.0\r\n\r\n"),
    ("plain", request("OPTIONS * HTTP/1.1", HOST)),
    ("plain", request(f"GET http://www.shop.example{LONG} HTTP/1.1", HOST)),
    ("plain", request("GET http://www.shop.example HTTP/1.1", HOST)),
    ("shop", b"GARBAGE\r\n\r\n"),
    ("shop", b"GET / HTTP/1.0\r\n\r\n"),
    ("shop", request("GET / HTTP/1.1", HOST, HOST)),
    ("shop", request("GET / HTTP/1.1", HOST, "Host: shop.example")),
    ("shop", request("GET / HTTP/1.1", "Host: www.shop.example, a.shop.example")),
    ("shop", request("OPTIONS * HTTP/1.1", HOST)),
    ("shop", request("GET http://www.shop.example HTTP/1.1", HOST)),
    ("shop", request("GET https://www.shop.example/shop/a?b HTTP/1.1", HOST)),
    ("shop", request("GET http://www.shop.example:80/a HTTP/1.1", "Host: www.shop.example:80")),
    ("shop", request("GET http://www.shop.example/item?id=7&a HTTP/1.1", HOST)),
    ("shop", request("GET http://www.shop.example/find/lamp HTTP/1.1", HOST)),
    ("shop", request("POST http://www.shop.example/old/page?a HTTP/1.1", HOST, body=b"a=1")),
    ("shop", request(f"GET {LONG}?a HTTP/1.1", HOST)),
    ("shop", request("GET / HTTP/1.1", HOST, "User-Agent: one", "User-Agent: Nikto")),
    ("shop", request("POST / HTTP/1.1", HOST, "Expect: 100-continue", body=b"abc")),
    ("shop", request("GET /caf\xc3\xa9 HTTP/1.1", HOST)),
    ("api", request("OPTIONS * HTTP/1.1", HOST)),
    ("api", request("POST /items HTTP/1.1", HOST, "X-Key: k-100", "Content-Length: 2000000")),
    ("api", request("GET http://a.example/items HTTP/1.1", "Host: a.example", "X-Key: k-200")),
    ("api", request("GET http://a.example HTTP/1.1", "Host: a.example", "X-Key: k-200")),
    ("api", request("GET /items HTTP/1.1", HOST, "X-Key: k-100", "X-Key: k-200")),
    ("api", request("GET /items HTTP/1.1", HOST, "X-Key: k-100", "X-Version: 1, 3")),
)

SITES, KEYS = "examples/whole/sites.map", "examples/whole/keys.map"
BARRED_FILE = "examples/whole/barred.lst"
# Commands, each with the frontend whose requests it is tried by; a payload has several lines.
COMMANDS = (
    ("shop", [f"show map {SITES}"]),
    ("shop", [f"add map {SITES} a.shop.example shop_outlet"]),
    ("shop", [f"set map {SITES} www.shop.example shop_outlet"]),
    ("shop", [f"prepare map {SITES}"]),
    ("shop", [f"add map @1 {SITES} <<", "www.shop.example shop_main", "a.shop.example pictures",
              ""]),
    ("shop", [f"commit map @1 {SITES}"]),
    ("shop", [f"set map {SITES} www.shop.example nowhere"]),
    ("shop", [f"clear map {SITES}"]),
    ("shop", [f"add acl {BARRED_FILE} 198.51.100.0/24"]),
    ("shop", [f"show acl {BARRED_FILE}"]),
    ("shop", [f"del acl {BARRED_FILE} 198.51.100.0/24"]),
    ("api", [f"add map {KEYS} k-300 small"]),
    ("api", [f"show map {KEYS}"]),
    ("api", [f"set map {KEYS} k-100 larger"]),
    ("api", [f"del map {KEYS} k-200"]),
)
# Requests that are sent after each command, and whose answers some of them change.
AFTER = {
    "shop": [request("GET /a HTTP/1.1", HOST), request("GET /a HTTP/1.1", "Host: a.shop.example")],
    "api": [request("GET /items HTTP/1.1", HOST, f"X-Key: k-{at}00") for at in (1, 2, 3)],
}
PARTNER = "198.51.100.70"


def talks(answered, frontend, count, seed, **how):
    drawn.talks(answered, frontend, PARTS[frontend], count, seed, **how)


def curls(answered):
    """Requests by curl: plain, by TLS, and by HTTP/2."""
    host, key = ("-H", HOST), ("-H", "X-Key: k-100")
    paths = ("/", "/item?id=7", "/help/a", "/p?utm_x=1&q=2", "/logo.svg", "/alive")
    curl(answered, "plain", "192.0.2.7", (*paths, RENEWAL), *host)
    curl(answered, "plain", "2001:db8:5::1", paths, *host, "--http1.0")
    curl(answered, "shop", "192.0.2.33", paths, *host, "--http1.1", "-d", "a=1", tls=True)
    for source in (OFFICE, "2001:db8:6::1"):
        curl(answered, "shop", source, (*paths, "/console"), *host, "--http2", tls=True)
        curl(answered, "shop", source, paths, *host, "--http2", "-A", "a Bot", "-d", "b", tls=True)
    curl(answered, "api", "192.0.2.7", ("/items", "/health"), *key, "--http2", tls=True)
    curl(answered, "api", "::1", ("/items", "/health"), "-H", "X-Version: 1", *key, tls=True)


def talk_barred(answered, tls):
    """Those of whom HAProxy answers nobody must wait for it."""
    talks(answered, "shop", 4, f"barred {tls}", sources=BARRED, how=("in turn",), tls=tls,
          seconds=SECONDS_IN_VAIN)


def send_apart(answered, seed):
    """Sends what changes nothing."""
    with concurrent.futures.ThreadPoolExecutor(6) as pool:
        sent = [pool.submit(curls, answered)]
        for tls in (False, True):
            sent += [pool.submit(talks, answered, name, count, f"{seed} {tls}", tls=tls,
                                 sources=OTHERS)
                     for name, count in (("plain", 10), ("shop", 40), ("api", 25))]
            sent += [pool.submit(talk_barred, answered, tls)]
        for it in sent:
            it.result()


def send_all(made, answered, seed, replies):
    """Sends all of it, and adds what HAProxy replies to the commands of each frontend."""
    send_apart(answered, seed)
    for at, (frontend, head) in enumerate(HEADS):
        for tls in (False, True):
            talk(answered, frontend, OTHERS[at % 3], [head], tls=tls)
    # these change maps, so each request is sent after the answer to the one before
    for at, (frontend, lines) in enumerate(COMMANDS):
        replies[frontend].append(made.command(frontend, at % 3, lines))
        for after in AFTER[frontend]:
            talk(answered, frontend, PARTNER, [after], seconds=SECONDS_IN_VAIN, tls=bool(at % 2))
