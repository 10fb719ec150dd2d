"""What the front answers: which scripts run there, who may show it, how long it is kept, who is told what; and what it
passes on to a room and to the gateway: the login, whatever a caller says of it, and of a head what they need."""
import base64
import os

import pytest
from given import each
from nginx import login
from served import Line, message, put_file, until

from .conftest import LONGEST_NAME, started
from .sides import CHECK, ROOM, at_once, begun_by_dav, said_long, standing, values, wrong

POLICY = ("default-src 'none'; script-src 'self'; style-src 'self'; img-src 'self' data:; frame-src blob:; "
          "connect-src 'self'; base-uri 'none'; form-action 'none'; frame-ancestors 'none'")
# what nobody is to be told, whatever a room or the gateway says
SAID = (b"HTTP/1.1 200 OK\r\nX-Accel-Redirect: /whoami\r\nContent-Type: text/html\r\nSet-Cookie: a=b\r\nRefresh: 0\r\n"
        b"Clear-Site-Data: *\r\nContent-Security-Policy: script-src *\r\nContent-Disposition: inline\r\n"
        b"X-Content-Type-Options: none\r\nWWW-Authenticate: Basic realm=\"other\"\r\nCache-Control: public\r\n"
        b"Cross-Origin-Resource-Policy: cross-origin\r\nReferrer-Policy: unsafe-url\r\ncontent-length: 2\r\n\r\n{}")
NEVER = {it: [] for it in ("set-cookie", "refresh", "clear-site-data", "x-accel-redirect", "www-authenticate")}
ALWAYS = NEVER | {"cross-origin-resource-policy": ["same-origin"], "x-content-type-options": ["nosniff"],
                  "referrer-policy": ["no-referrer"], "server": ["nginx"]}
PAGE = ALWAYS | {"content-security-policy": [POLICY], "cache-control": ["no-cache"]}
WEBDAV = ALWAYS | {"content-security-policy": ["default-src 'none'; sandbox; frame-ancestors 'none'"],
                   "content-disposition": ["attachment"], "cache-control": ["private, no-cache"]}
CHALLENGE = {"www-authenticate": ['Basic realm="rooms"']}
SPEAKS = {"dav": ["1, 2"], "ms-author-via": ["DAV"], "allow": [
    "OPTIONS, GET, HEAD, PUT, DELETE, MKCOL, COPY, MOVE, LOCK, UNLOCK, PROPFIND, PROPPATCH"]}
LIMIT, LIMIT_OF_A_FILE = 131072, 1 << 24  # bytes of a body
MORE = ["room-user: ann", "Room-User: ann", "ROOM-USER:ann", "room_user: ann", "connection: room-user",
        "x-room-user: ann", "room-from: 9.9.9.9", "room-kind: gateway", "dav-room: other", "x-forwarded-for: 9.9.9.9",
        "cookie: a=b", "x: y", "accept-encoding: gzip", "referer: http://a/", "origin: http://127.0.0.1"]
STRANGERS = [[], ["authorization: Basic !"], ["authorization: Bearer u01"], ["room-user: u01"], *(
    ["authorization: Basic " + base64.b64encode(it).decode()] for it in (b"u01:no", b"nobody:x", b":", b"u01"))]


@pytest.fixture(scope="module")
def sides(tmp_path_factory):
    """A front, and behind it a room and a gateway that say too much."""
    folder, page = tmp_path_factory.mktemp("sides"), tmp_path_factory.mktemp("page")
    for name in "index.html", "sign-in.html", "login.js":
        (page / name).write_bytes(b"a page")
    at = str(folder / "gateway.sock")
    with standing() as room, standing(at) as gateway:
        room.said = gateway.said = SAID
        front = started(str(folder / "front"), str(page), room.at, dav=at)
        yield front, room, gateway
        front.server.kill()
        front.server.wait()


@pytest.fixture
def front(sides):
    return sides[0]


@pytest.fixture
def room(sides):
    sides[1].came.clear()
    sides[1].got.clear()
    return sides[1]


@pytest.fixture
def gateway(sides):
    sides[2].got.clear()
    return sides[2]


@each("user, method, target, status, fields, body", [
    ("the page", "u01", "GET", "/", 200, PAGE, b"a page"),
    ("its file", "u01", "GET", "/index.html", 200, PAGE, b"a page"),
    ("where people log in", None, "GET", "/sign-in", 200, PAGE, b"a page"),
    ("its script", None, "GET", "/login.js", 200, PAGE, b"a page"),
    ("the login", "u01", "GET", "/whoami", 200, PAGE, b'"u01"\n'),
    ("the rooms", "u01", "GET", "/rooms.json", 200, PAGE, f'["plans","gone","{LONGEST_NAME}"]\n'.encode()),
    ("nothing there", "u01", "GET", "/none", 404, PAGE | {"cache-control": []}, None),
    ("no login", None, "GET", "/", 401, PAGE | {"cache-control": []} | CHALLENGE, None),
    ("a room", "u01", "GET", f"{ROOM}/x", 200, PAGE | {"content-type": []}, b"{}"),
    ("WebDAV", "u01", "GET", "/dav/plans/x", 200, WEBDAV, b"{}"),
    ("all rooms by WebDAV, without a slash", "u01", "GET", "/dav", 200, WEBDAV, b"{}"),
    ("WebDAV, no login", None, "GET", "/dav/plans/x", 401, CHALLENGE, None),
    ("what WebDAV it speaks", None, "OPTIONS", "/dav/any/thing", 200, SPEAKS, b""),
    ("health", None, "GET", "/health", 200, {}, b"well\n")])
def test_heads(front, user, method, target, status, fields, body):
    got = front.once(user, method, target)
    assert (got.status, values(got, fields), got.body if body is not None else None) == (status, fields, body)


@each("user, target, fields", [("a room", "u01", f"{ROOM}/x", PAGE | {"cache-control": []}),
                               ("WebDAV", "u01", "/dav/plans/x", WEBDAV)])
@each("said, more", [("nothing there", b"404 Not Found", {}), ("a wrong login", b"401 Unauthorized", CHALLENGE),
                     ("a fault", b"500 Internal Server Error", {})])
def test_heads_of_what_is_refused_behind_it(front, room, gateway, user, target, fields, said, more):
    """They are the front's own, as of what is done."""
    room.said = gateway.said = SAID.replace(b"200 OK", said)
    got = front.once(user, "GET", target)
    room.said = gateway.said = SAID
    assert (got.status, values(got, fields)) == (int(said[:3]), fields | more)


@each("origin, status", [("ours", "http://127.0.0.1", 200), ("another port", "http://127.0.0.1:8080", 403),
                         ("another site", "http://a.b", 403), ("none", "null", 403), ("its start", "http://127", 403),
                         ("by TLS", "https://127.0.0.1", 403)])
def test_a_page_of_elsewhere_asks(front, origin, status):
    """With the password that a browser remembers."""
    assert front.status("u01", "POST", CHECK, b"{}", [f"origin: {origin}"]) == status


def test_an_update_of_the_page(front):
    """A browser that kept a file asks for it again: it is told to take what it has, and after an update the new one."""
    again = [f"if-none-match: {values(front.once('u01', 'GET', '/index.html'), ['etag'])['etag'][0]}"]
    line = Line(front.port)
    line.send(message(None, "GET", "/index.html", fields=front.fields("u01", again)))
    until(lambda: b"\r\n\r\n" in line.rest or not line.more())
    line.close()
    assert line.rest[:12] == b"HTTP/1.1 304"
    path = os.path.join(front.page, "index.html")
    os.rename(path, f"{path}-before")
    put_file(path, b"a newer page")
    got = front.once("u01", "GET", "/index.html", more=again)
    os.rename(f"{path}-before", path)
    assert (got.status, got.body) == (200, b"a newer page")


# Warnings

WARNING = b'{"plans":{"numbers_days":7}}\n'


@pytest.fixture
def warned(front):
    """A front where u01 is warned of a room."""
    folder = os.path.join(front.folder, "warnings")
    os.makedirs(folder, exist_ok=True)
    put_file(os.path.join(folder, "u01.json"), WARNING)
    return front


def test_a_warning_to_its_owner(warned):
    got = warned.once("u01", "GET", "/warnings.json")
    assert (got.status, got.body, values(got, ["cache-control"])) == (200, WARNING, {"cache-control": ["no-cache"]})


@pytest.mark.parametrize("target", ["/warnings.json", "/warnings.json?user=u01", "/warnings.json/u01", "/u01.json",
                                    "/warnings/u01.json", "/rooms/warnings/u01.json"])
def test_a_warning_to_another_login(warned, target):
    got = warned.once("u02", "GET", target)
    assert (got.status, WARNING in got.body) == (404, False)


@each("more", [("no login", []), ("a wrong one", [wrong("u01")]), ("its name alone", ["room-user: u01"]),
               ("a name that leads elsewhere", [login("../users", "word")]), ("up", [login("..", "word")])])
def test_a_warning_to_strangers(warned, more):
    assert warned.status(None, "GET", "/warnings.json", more=more) == 401


# What is passed on

@each("method, size", [("a question", "POST", 2), ("the most", "POST", LIMIT), ("DELETE", "DELETE", 0),
                       ("GET", "GET", 0), *((f"{it} bytes", "POST", it) for it in (99_999, 129_999, 130_999, 131_069))])
def test_what_a_room_gets(front, room, method, size):
    """The login, the length, and nothing else that the caller sent."""
    assert front.status("u02", method, CHECK, bytes(size), MORE) == 200
    (first, *head), body = room.got[0]
    assert (first, sorted(head), len(body)) == (f"{method} /v1/check HTTP/1.1", [
        "Connection: close", f"Content-Length: {size}", "Host: localhost", "room-user: u02"], size)


def test_what_the_gateway_gets(front, gateway):
    line = begun_by_dav(front, "u01")
    assert line.answer().status == 200
    line.close()
    (first, *head), _ = gateway.got[0]
    assert (first, sorted(head)) == ("GET /dav/plans/a%20b HTTP/1.1", [
        "Connection: close", "Dav-Room: plans", "Host: 127.0.0.1", login("u01", front.users["u01"]),
        "destination: http://a/"])


@pytest.mark.parametrize("name", ["rooms.json", "dav.json", "warnings.json", "login.js", "latest.log", "health"])
def test_a_file_with_a_name_of_the_fronts(front, gateway, name):
    """By WebDAV it is the room's."""
    assert front.once("u01", "GET", f"/dav/plans/{name}").body == b"{}"
    assert [head[0].split()[1] for head, _ in gateway.got] == [f"/dav/plans/{name}"]


def test_half_a_body(front, room):
    """A room is asked once all of it is there."""
    line = Line(front.port)
    line.send(message(None, "POST", CHECK, bytes(1000), fields=front.fields("u01"))[:-1])
    assert not until(lambda: room.came, 1)
    line.send(b"\0")
    assert line.answer().status == 200
    line.close()


def test_strangers_reach_nobody(front, room):
    asked = [(tuple(more), it) for more in STRANGERS for it in (CHECK, "/whoami", "/", "/rooms.json")]
    got = at_once(len(asked), lambda at: front.status(
        None, "POST" if asked[at][1] == CHECK else "GET", asked[at][1], more=asked[at][0]))
    assert dict(zip(asked, got)) == dict.fromkeys(asked, 401)
    assert room.came == []


@each("target, length, status", [
    ("too long", CHECK, LIMIT + 1, 413), ("far too long", CHECK, 10 * LIMIT, 413), ("of no length", CHECK, None, 411),
    ("a file that is too long", "/dav/plans/x", LIMIT_OF_A_FILE + 1, 413),
    ("a file that is far too long", "/dav/plans/x", 10 * LIMIT_OF_A_FILE, 413)])
def test_a_body_that_is_not_passed_on(front, room, target, length, status):
    """It is refused before it is there; without a login nobody is told why."""
    begin = len(room.came)
    assert said_long(front, target, length, [login("u01", front.users["u01"])]) == status
    assert said_long(front, target, length, []) == 401
    assert len(room.came) == begin


@each("method, target, more, status", [
    ("a long field", "POST", CHECK, ["x: " + "a" * 8192], 400), ("a long target", "POST", CHECK + "a" * 8192, [], 414),
    ("fields that are long together", "POST", CHECK, ["x: " + "a" * 6000] * 3, 400),
    ("no such room", "GET", "/rooms/none/v1/check", [], 404), ("a file of the front", "GET", "/users", [], 404),
    ("up and out of the room", "GET", f"{ROOM}/../../users", [], 404),
    ("no room at its place", "POST", "/rooms/gone/v1/check", [], 502)])
def test_what_is_not_passed_on(front, room, method, target, more, status):
    assert front.status("u01", method, target, more=more) == status
    assert room.came == []
