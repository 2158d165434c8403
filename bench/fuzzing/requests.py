"""Requests to a desk: drawn ones with the answer that docs/desk.md says, read without the program, and changed ones."""
import json
import re

from .changes import changed
from .records import Reading, Refused, drawn_line, is_number, read_line

GET, POST = "GET", "POST"
ROUTES = {"/v1/ticks": POST, "/v1/visits": POST, "/v1/table": GET, "/v1/stop": POST}
NUMBER = re.compile(r"0|[1-9][0-9]*")
STRANGE_PATHS = ["/", "/v1", "/v1/", "/v1/ticks/", "/v1//table", "/v1/face/0", "/v1/face/01", "/v1/face/9", "/v1/face/+1", "/v1/face/1/2",
                 "/v1/face/1?a", "/v1/untested/", "/v1/untested/4294967296", "/v1/untested/00", "/v1/untested/-1", "/v2/table", "/V1/table", "*"]
PAST = 65_536


def route_of(site, path):
    """The method of a path, None where there is no such path."""
    if path in ROUTES:
        return ROUTES[path]
    kind, _, number = path.rpartition("/")
    if kind == "/v1/face" and re.fullmatch("[1-9]", number) and int(number) <= site.panels:
        return GET
    if kind == "/v1/untested" and NUMBER.fullmatch(number) and int(number) < 2**32:
        return GET
    return None


def json_line(**fields):
    return json.dumps(fields, separators=(",", ":"), sort_keys=True).encode() + b"\n"


def head_answer(site, method, path, lengths, is_encoded):
    """What is answered to a head alone, None where the body decides or the route has more to tell."""
    wanted = route_of(site, path)
    if wanted is None:
        return 404
    if method != wanted:
        return 405
    if wanted == GET:
        return None
    if is_encoded:
        return 501
    if not lengths:
        return 411
    if len(lengths) > 1 or not NUMBER.fullmatch(lengths[0]):
        return 400
    return 413 if int(lengths[0]) > PAST else None


def block_answer(site, body, expected):
    """The status and the JSON of a tick block, 200 and None where it is run."""
    reading, at, number, found = Reading(site), 0, 1, None
    while at < len(body) or number == 1:
        piece = body[at:at + 513]
        end = piece.find(b"\n")
        line = piece if end < 0 else piece[:end]
        try:
            if any(not 32 <= byte <= 126 for byte in line[:512]):
                raise Refused("7")
            if len(line) > 512:
                raise Refused("6")
            is_tick = line[:5] == b"tick " and is_number(line[5:])
            if end < 0 or line == b"end" or number > 1 and is_tick:
                raise Refused("1")
            if is_tick:
                read_line(reading, b"tick 1")
                found = int(line[5:])
            else:
                read_line(reading, line)
        except Refused as refused:
            return 400, json_line(line=number, refusal=int(str(refused).split(" ")[0]))
        at, number = at + end + 1, number + 1
    return (200, None) if found == expected else (409, json_line(expected=expected, found=found))


def drawn_block(draw, site, expected):
    """A block, mostly of the tick that is expected."""
    tick = expected if draw.random() < 0.8 else draw.choice([0, 1, expected - 1, expected + 1, 2**64 - 1, 2**64])
    lines, ordered = [f"tick {tick}"], False
    for _ in range(draw.choice([0, 0, 1, 2, 5, 20])):
        line = drawn_line(draw, site)
        if not line.startswith("order") or not ordered or draw.random() < 0.1:
            lines.append(line)
            ordered = ordered or line.startswith("order")
    body = "".join(f"{line}\n" for line in lines).encode()
    return changed(draw, body) if draw.random() < 0.3 else body


def drawn_request(draw, site, expected):
    """A request in its form, and the status and the body with which it is answered; a body None is the route's own. No status: no answer."""
    kind = draw.choice(["ticks"] * 6 + ["face"] * 3 + ["table", "strange", "method", "length", "stop"])
    body, path, method, fields = b"", f"/v1/face/{draw.randint(1, site.panels)}", GET, []
    if kind in ("ticks", "length"):
        path, method, body = "/v1/ticks", POST, drawn_block(draw, site, expected)
    elif kind == "table":
        path = "/v1/table"
    elif kind == "strange":
        path = draw.choice(STRANGE_PATHS)
        path = path.replace("9", "9" if site.panels < 9 else "10")
    elif kind == "method":
        path, method = draw.choice([*ROUTES, path]), draw.choice([GET, POST, "PUT", "DELETE", "HEAD", "OPTIONS", "get", "A"])
    elif kind == "stop":
        path, method, body = "/v1/stop", POST, draw.choice([b"", b"{}", b"[]", b'{"code":"-"}', b'{"code":1}', b'{"code":"zz"}more'])
    lengths = [str(len(body))] if method == POST or draw.random() < 0.2 else []
    if kind == "length":
        lengths = draw.choice([[], ["0", "0"], ["-1"], ["+1"], ["x"], [""], ["65537"], ["99999999"], lengths * 2, lengths])
    is_encoded = kind == "length" and draw.random() < 0.2
    fields = [f"Content-Length: {length}" for length in lengths] + ["Transfer-Encoding: chunked"] * is_encoded + ["Host: desk"]
    fields += [f"X-{place}: {place}" for place in range(draw.choice([0, 0, 1, 8]))]
    draw.shuffle(fields)
    cut = draw.randrange(1, len(body) + 1) if body and draw.random() < 0.05 else 0
    told = "".join(f"{line}\r\n" for line in [f"{method} {path} HTTP/1.1", *fields, ""]).encode() + body[:len(body) - cut]
    status = head_answer(site, method, path, lengths, is_encoded)
    if status is not None:
        return told, status, b"{}\n"
    if method == GET:
        return told, 200, None
    if cut and path == "/v1/ticks":
        return told, None, b""
    body = body[:int(lengths[0])]
    if path == "/v1/ticks":
        return told, *block_answer(site, body, expected)
    if path == "/v1/stop":
        if cut:
            return told, None, b""
        return (told, 403, json_line(has=1, needs=3)) if body == b'{"code":"-"}' else (told, 400, b"{}\n")
    return (told, None, b"") if cut else (told, 400, b"{}\n")


def changed_request(draw, site, expected, stored):
    """Bytes that are a request no more, or still are: what is answered isn't known."""
    told = draw.choice(stored) if draw.random() < 0.4 else drawn_request(draw, site, expected)[0]
    return changed(draw, told)
