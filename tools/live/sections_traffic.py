"""What clients send to the sections that are easily taken for others, and to those whose backend
changes something for the requests that follow."""
import base64
import concurrent.futures

from live import drawn
from live.clients import curl, talk
from live.drawn import Parts, request

HOST = "Host: www.shop.example"
HOSTS = ("www.shop.example", "Other.example:8080", "")
HEADERS = ("Accept: */*", "X-Site: mine", "X-Forwarded-For: 1.1.1.1", "User-Agent: curl/8")
PARTS = {
    "site": Parts(("/", "/closed", "/closed/x?y", "/nothing", "/old/a?b=1", "/old", "/a.php",
                   "/pictures/1", "/pictures.php?z", "/news"), HOSTS, HEADERS),
    "app": Parts(("/", "/none", "/none/x", "/v1/items?a=1", "/v1/private", "/private", "/away",
                  "/a/away?b"), HOSTS, HEADERS),
    "twice": Parts(("/twice", "/twice/x?y=1", "/closed"), HOSTS,
                    (*HEADERS, "X-Forwarded-For: 2.2.2.2", "X-Forwarded-For: ::1")),
}
# Each on a connection of its own: who asked for a trap is caught from then on.
CAUGHT = ("192.0.2.33", "2001:db8:5::1")
STEPS = ("/open", "/none/a", "/trap/1", "/open/2?x", "/none", "/other", "/trap", "/open")


def encoded(text):
    """Base64 as tokens have it."""
    return base64.urlsafe_b64encode(text.encode()).decode().rstrip("=")


BODY = encoded('{"sub":"1"}')
ALGORITHM = encoded('{"alg":"RS256","typ":"JWT"}')
# What tokens may say of themselves: those whose algorithm is a text without escapes.
TOKEN_HEADERS = (
    "{}", '{"typ":"JWT" , "alg" : "ES256"}', '{"alg":null}', "no json", '{"alg":"HS256"}',
    '{"alg":"RS256","x":{"alg":"no"}}', '{"alg":"RS256","alg2":"x"}', '{"alg2":"x","alg":"RS256"}',
    '{"note":"\\"alg\\":\\"none\\"","alg":"RS256"}', '{\n\t"alg"\n:\n"ES256"\n}',
)
TOKENS = (
    *(f"Bearer {encoded(header)}.{BODY}.s" for header in TOKEN_HEADERS),
    *(f"{scheme} {ALGORITHM}.{BODY}.s" for scheme in (
        "bearer", "BEARER", "Bea", "Be ", "B", "Bearer   ", "Bearers", "Basic", "x Bearer")),
    *(f"Bearer {ALGORITHM}{rest}" for rest in (
        "", f".{BODY}", f".{BODY}.", "..", f".{BODY}.s.t", f"x.{BODY}.s", f"=.{BODY}.s",
        f".{BODY}.s, x", f".{BODY}.s and more")),
    f"Bearer !!!.{BODY}.s", "Bearer x", "Bearer", "", "Bearer ~.~.~",
)


def curls(answered):
    """Requests by curl, by HTTP/2 too."""
    for words in (["--http1.1"], ["--http2"]):
        curl(answered, "site", "192.0.2.7", ("/", "/closed", "/old/x", "/a.php"), *words, tls=True)
        curl(answered, "app", "10.1.2.3", ("/", "/none", "/private", "/v1/away"), *words, tls=True)


def send_all(answered, seed):
    """Sends all of it."""
    with concurrent.futures.ThreadPoolExecutor(6) as pool:
        sent = [pool.submit(curls, answered)]
        sent += [pool.submit(drawn.talks, answered, name, parts, 15, f"{seed} {tls}", tls=tls)
                 for name, parts in PARTS.items() for tls in (False, True)]
        sent += [pool.submit(talk, answered, "site", "192.0.2.7", [request("GET /slow HTTP/1.1",
                                                                           HOST)])]
        for it in sent:
            it.result()
    for token in TOKENS:
        for path in ("/signed", "/named", "/any"):
            talk(answered, "tokens", "192.0.2.7",
                 [request(f"GET {path} HTTP/1.1", HOST, f"Authorization: {token}")])
    # a trap changes a list, so each request is sent after the answer to the one before
    for source in CAUGHT:
        for path in STEPS:
            talk(answered, "changing", source, [request(f"GET {path} HTTP/1.1", HOST)])
