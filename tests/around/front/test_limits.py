"""What the front lets one login ask of a room or the gateway: how often, how much, and how many at once, from however
many addresses. Another login is not held by it, and neither is its owner by a stranger elsewhere who gives its name."""
import contextlib
import os
import select
import socket
import threading
import time

import pytest
from given import each
from served import Line, answers, first_answer, least, message, until

from .conftest import LONGEST_NAME
from .sides import (BURST, CHECK, MANY, OPEN_AT_ONCE, ROOM, SESSION, SLOT, SOON, at_once, begun, begun_by_dav,
                    until_too_many, values, wrong)

OPENS = [ROOM + SESSION, f"{ROOM}/{SESSION}", f"{ROOM}/.{SESSION}", ROOM + SESSION.replace("s", "%73"),
         f"{ROOM}/x/..{SESSION}", f"http://a.b{ROOM}{SESSION}"]
ASKED = 30  # requests from five addresses: more of a login than may be under way
LIMIT_OF_A_FILE = 1 << 24  # bytes
A_SECOND = 20  # of these, where a front has 40 and 400: a slow machine shows this too
HEAVY, HEAVY_WAITING = 10_000, 192  # bytes of a body that holds a room, and how many wait
FEW = 8  # of these at once, where a front has 264 and 12,000
AT_A_ROOM = 6  # requests of one login
DAV_AT_ONCE = 40
BY_GATEWAY = 600  # requests of one login that come at once; those of four are more than an address may


@each("burst, a_second, asked, addresses, free", [
    ("requests", BURST, 1, [("GET", "/whoami", 0)], 1, [("GET", "/index.html", 0)]),
    ("the page", BURST, 1, [("GET", "/index.html", 0)], 1, [("GET", "/whoami", 0)]),
    ("sessions", 30, 0.1, [("POST", it, 2) for it in OPENS], 4,
     [("DELETE", ROOM + SESSION, 0), ("POST", SLOT + "1", 0)]),
    ("large bodies", 20, 2, [("POST", CHECK, 1000)], 4, [("POST", CHECK, 999)]),
    ("large questions", 8, 0.5, [("POST", CHECK, 4000)], 4, [("POST", CHECK, 3999)])])
def test_a_login_asks_so_much(fronted, burst, a_second, asked, addresses, free):
    """A front that lets fewer large bodies pass at once, and nobody ask more often than once a second."""
    front, begin = fronted(rate="1r/s", bulk=20), time.monotonic()
    once = lambda user, method, target, size, at=0: front.status(
        user, method, target, bytes(size), source=f"127.0.0.{1 + at % addresses}")
    strange = threading.Thread(target=at_once, args=(OPEN_AT_ONCE, lambda at: front.once(
        None, *asked[0][:2], bytes(asked[0][2]), [wrong("u01")], "127.0.0.9")))
    strange.start()
    found = until_too_many(lambda at: once("u01", *asked[at % len(asked)], at))
    passed, most = found.count(200), burst + 2 + a_second * (time.monotonic() - begin)
    assert set(found) == {200, 429}
    assert burst <= passed <= most
    assert [once("u01", *it) for it in free] == [200] * len(free)
    assert once("u02", *asked[0]) == 200
    strange.join()


# Under way at once

def by_the_gateway(front, user, *asked):
    """The status of a request at the socket where the gateway asks, with its caller's login, or none in that time."""
    with socket.socket(socket.AF_UNIX) as line:
        line.settimeout(SOON)
        line.connect(os.path.join(front.folder, "work", "dav.sock"))
        asked = asked or ("POST", f"{SLOT}99", b'{"cmd":"MKDIR","path":"/a"}')
        line.sendall(message(None, *asked, fields=front.fields(user)))
        with contextlib.suppress(TimeoutError):
            return first_answer(line.recv(1 << 16))[0].status
    return None


def of_addresses(front, begin, count, *words):
    return [begin(front, "u01", at, f"127.2.0.{1 + at // 6}", *words) for at in range(count)]


def need_others_refused(behind, lines, most):
    """So many have come to who stands behind the front, and the others are answered, as too many."""
    assert until(lambda: len(select.select(lines, [], [], 0)[0]) >= len(lines) - most, SOON)
    answered = select.select(lines, [], [], 0)[0]
    assert [it.answer().status for it in answered] == [429] * (len(lines) - most)
    assert until(lambda: len(behind.came) == most, SOON)


def under_way(front, behind, begin, most):
    """So many of one login are begun that no more of them come to who stands behind the front."""
    behind.may.clear()
    lines = of_addresses(front, begin, ASKED)
    need_others_refused(behind, lines, most)
    return lines


def others_pass(front, behind, begin, lines, one_more):
    """While theirs are under way, whose callers may have left."""
    most = len(behind.came)
    other = begin(front, "u02")
    assert until(lambda: len(behind.came) > most, SOON)
    for it in lines:
        it.close()
    time.sleep(1)
    one_more()
    behind.may.set()
    assert other.answer().status == 200


def test_under_way_at_a_room(fronted, peer, memory):
    front = fronted(dav=os.path.join(memory, "no.sock"))
    lines = under_way(front, peer, begun, AT_A_ROOM)
    assert by_the_gateway(front, "u01") == 429

    def one_more():
        assert begun(front, "u01").answer().status == 429
    others_pass(front, peer, begun, lines, one_more)


def test_under_way_by_webdav(fronted, gateway):
    """Who comes beyond is told so before a body is sent. The gateway itself still asks the room for those."""
    front = fronted(dav=gateway.at)
    lines = under_way(front, gateway, begun_by_dav, OPEN_AT_ONCE)
    assert by_the_gateway(front, "u01") == 200

    def one_more():
        got = begun_by_dav(front, "u01", length=LIMIT_OF_A_FILE).answer()
        assert (got.status, values(got, ["retry-after"])) == (429, {"retry-after": ["5"]})
    one_more()
    others_pass(front, gateway, begun_by_dav, lines, one_more)


FORMS = [b'{"cmd":"SETLIST","path":"/a","aclflag":0,"entries":[]}', b'{"cmd":"SETLI\\u0053T","path":"/a"}',
         b'{"cmd":"R\\u0045NAME","path":"/a/b","to":"/c/b"}', b'{"path":"/a/b","cmd":"RENAME","to":"/c/b"}',
         b'{"cmd":"RENAME","path":"/a/b","to":"/a/c/d"}',
         b'{"path":"/' + b"\\n" * 65_000 + b'","cmd":"SETLIST"}']
SHORT = [b'{"cmd":"RENAME","path":"/a/b","to":"/a/c"}', b'{"cmd":"MKDIR","path":"/a"}']


@pytest.mark.parametrize("form, count", [*((it, 2) for it in FORMS), *((it, 4) for it in SHORT)],
                         ids=lambda it: ascii(it)[:60])
def test_long_ones_under_way(front, peer, form, count):
    """Two SETLISTs or moves to another folder of a login, however they are written, and behind whatever; a new name in
    the same folder is none of them, and neither is another login's."""
    peer.may.clear()
    lines = [begun(front, "u01", at, f"127.2.1.{1 + at}", form) for at in range(4)]
    need_others_refused(peer, lines, count)
    lines.append(begun(front, "u02", body=form))
    assert until(lambda: len(peer.came) > count, SOON)
    for it in lines:
        it.close()


@pytest.mark.parametrize("room, other", [("plans", LONGEST_NAME), (LONGEST_NAME, "plans")])
def test_a_move_that_is_under_way(fronted, peer, memory, room, other):
    """Whoever asks for dates of that room is told so, and of no other."""
    front = fronted(dav=os.path.join(memory, "no.sock"))
    dates = lambda it: by_the_gateway(front, "u02", "GET", f"/latest.log?{it}")
    move = message(None, "POST", f"{SLOT.replace('plans', room)}1", FORMS[2], fields=front.fields("u01"))
    peer.may.clear()
    with contextlib.closing(Line(front.port)) as line:
        line.send(move)
        assert until(lambda: len(peer.came) == 1, SOON)
        assert [dates(it) for it in (room, other)] == [409, 200]
        peer.may.set()
        assert line.answer().status == 200
    assert until(lambda: dates(room) == 200)


def seconds_of(front, peer, form, pause, others=()):
    """Until an answer is there that the room gave after a while, once these others, begun before, came to it too."""
    peer.may.clear()
    before = len(peer.came)
    lines = [begun(front, "u01", at, body=it) for at, it in enumerate(others, 1)]
    line = begun(front, "u01", body=form)
    assert until(lambda: len(peer.came) > before + len(lines), SOON)
    time.sleep(pause)
    begin = time.monotonic()
    peer.may.set()
    got = line.answer()
    assert (got.status, values(got, ["room-much"])) == (200, {"room-much": []})
    return time.monotonic() - begin


@each("form, took, held", [("SETLIST", FORMS[0], 1, 3), ("one of very long", FORMS[0], 8, 3),
                           ("one of a moment", FORMS[0], 0.2, 0.9), ("RENAME in its folder", SHORT[0], 1, None)])
def test_the_answer_to_a_long_one_is_held_back(front, peer, form, took, held):
    """Where it took long, for so many seconds at least."""
    def seconds():
        assert until(lambda: 0.1 < time.time() % 1 < 0.4)  # (nginx counts whole ones)
        return seconds_of(front, peer, form, took)
    assert (least(seconds, held or 3, 1 if held else 9) > (held or 3)) == bool(held)


@each("form, much, is_held", [
    ("SETLIST of who had many", FORMS[0], b"room-much: 1\r\n", True), ("SETLIST of who had few", FORMS[0], b"", False),
    ("RENAME in its folder", SHORT[0], b"room-much: 1\r\n", False)])
def test_the_answer_to_one_that_took_less(front, peer, form, much, is_held):
    """It is held back for a second where its login had many of late, as haproxy tells."""
    peer.said = peer.said.replace(b"\r\n", b"\r\n" + much, 1)

    def seconds():
        assert until(lambda: 0.1 < time.time() % 1 < 0.4)
        return seconds_of(front, peer, form, 0.03)
    found = least(seconds, 0.9, 4 if is_held else 9)
    assert (0.9 < found < 5) if is_held else (found < 0.9)
    assert ("room-long: u01" in peer.got[-1][0]) == (form == FORMS[0])


@each("rate, took, much, most", [
    ("for two seconds, of who had many", "30r/m", 0.03, b"room-much: 1\r\n", 9),
    ("for four, of who had many", "15r/m", 0.03, b"room-much: 1\r\n", 12),
    ("for two, and took longer", "30r/m", 0.2, b"", 9), ("for three, and took longer", "20r/m", 0.2, b"", 6)])
def test_the_answer_to_one_that_waited_in_the_front(fronted, peer, rate, took, much, most):
    """Since its login had asked before: it is held back as if it had not waited, and not for its wait."""
    front = fronted(long=rate, long_at_once=1)
    peer.said = peer.said.replace(b"\r\n", b"\r\n" + much, 1)

    def seconds():
        assert until(lambda: 0.1 < time.time() % 1 < 0.4)
        return seconds_of(front, peer, FORMS[0], took, others=SHORT[:1] * 2)
    assert 0.9 < least(seconds, most, 4) < most


def all_by_the_gateway(front, user, count, *asked):
    """The statuses of so many requests at once, at that socket."""
    asks = lambda *more: message(None, *asked or ("GET", "/whoami"), fields=front.fields(user, more))
    path = os.path.join(front.folder, "work", "dav.sock")
    assert until(lambda: os.path.exists(path))  # (nginx makes it behind its port)
    with socket.socket(socket.AF_UNIX) as line:
        line.connect(path)
        threading.Thread(target=line.sendall, args=(asks() * (count - 1) + asks("connection: close"),)).start()
        return {it.status for it in answers(b"".join(iter(lambda: line.recv(1 << 17), b"")))}


def test_the_gateway_is_no_address(fronted, memory):
    """What logins ask by WebDAV, each within its own limit, is not counted together as that of an address."""
    users = "u01", "u02", "u03", "u04"
    front = fronted(users=users, dav=os.path.join(memory, "no.sock"), rate="1r/s")
    assert [all_by_the_gateway(front, it, BY_GATEWAY) for it in users] == [{200}] * len(users)
    assert 429 in all_by_the_gateway(front, "u01", MANY - 1)


def test_the_gateway_is_no_login(fronted, memory):
    """What it asks of a room counts for whose login it has."""
    front, asked = fronted(dav=os.path.join(memory, "no.sock"), rate="1r/s"), ("POST", f"{SLOT}1", b'{"cmd":"STAT"}')
    assert [all_by_the_gateway(front, it, BY_GATEWAY, *asked) for it in ("u01", "u02")] == [{200}] * 2
    assert 429 in all_by_the_gateway(front, "u01", BY_GATEWAY, *asked)


# Spread over the second

def beside(lines, asked):
    """The statuses of what does not wait behind those that are spread, and whether some of these wait then."""
    found = [it() for it in asked]
    return found, len(select.select(lines, [], [], 0)[0]) < len(lines)


def test_many_by_webdav(fronted, gateway):
    """From some at once on they come spread over the second, also to be told that they are too many: who is told so
    sends a whole file again."""
    front, many = fronted(dav=gateway.at, rate=f"{A_SECOND}r/s", connections=4096), 3 * DAV_AT_ONCE
    begin = time.monotonic()
    lines = of_addresses(front, begun_by_dav, many)
    others = beside(lines, [lambda: begun_by_dav(front, "u02").answer().status])
    assert {it.answer().status for it in lines} <= {200, 429}
    took = time.monotonic() - begin
    assert took >= (many - DAV_AT_ONCE - 1) / A_SECOND
    assert others == ([200], True)


def test_heavy_ones(fronted):
    """Bodies that hold a room go there spread over the second, of each login by itself, from however many addresses.
    The next ones wait, more than clients have under way; and what is small does not wait behind them."""
    many = 2 * (FEW + HEAVY_WAITING)
    front = fronted(heavy=f"{A_SECOND}r/s", pieces=FEW, under_way=many, connections=4096)
    begin = time.monotonic()
    lines = of_addresses(front, begun, many, bytes(HEAVY))
    others = beside(lines, [lambda: front.status("u01", "POST", SLOT + "98", bytes(HEAVY - 1)),
                            lambda: front.status("u02", "POST", SLOT + "98", bytes(HEAVY))])
    early = time.monotonic() - begin
    found = [it.answer().status for it in lines]
    took, passed = time.monotonic() - begin, found.count(200)
    assert set(found) == {200, 429}
    assert FEW + HEAVY_WAITING <= passed <= FEW + HEAVY_WAITING + 2 + A_SECOND * early
    assert took >= (passed - FEW - 1) / A_SECOND
    assert others == ([200, 200], True)


@each("begin_one", [("at a room", begun), ("by WebDAV", begun_by_dav)])
def test_in_the_long_run(fronted, gateway, begin_one):
    """Behind as many as half a minute has a login asks less often, from however many addresses: it waits, and nobody
    else does."""
    many = 6 * A_SECOND
    front = fronted(dav=gateway.at, long=f"{A_SECOND}r/s", long_at_once=FEW, under_way=many, connections=4096)
    begin = time.monotonic()
    lines = of_addresses(front, begin_one, many)
    others = beside(lines, [lambda: begin_one(front, "u02").answer().status])
    found = [it.answer().status for it in lines]
    took = time.monotonic() - begin
    assert took >= (many - FEW - 1) / A_SECOND
    assert found.count(200) >= many - FEW
    assert others == ([200], True)


def test_a_long_file_where_no_room_has_webdav(front):
    """It is told what a short one is."""
    for method in "PUT", "POST", "PROPFIND":
        told = [front.status("u01", method, "/dav/plans/x", bytes(it)) for it in (1, 131_073, 1 << 24)]
        assert told == told[:1] * 3
    assert front.status(None, "PUT", "/dav/plans/x", bytes(131_073)) == 401
    assert front.status("u01", "PUT", "/dav/plans/x", bytes((1 << 24) + 1)) == 413
