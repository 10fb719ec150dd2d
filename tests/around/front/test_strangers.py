"""What strangers cost, and callers who are slow: each request is counted before it is answered, no log grows by it past
the limits, and nobody else waits."""
import contextlib
import math
import os
import re
import shutil
import socket
import subprocess
import time

import pytest
from given import each
from nginx import login
from served import HANGS, Line, end_with_parent, least, message, text_of

from .sides import BURST, CHECK, OPEN_AT_ONCE, ROOM, SESSION, log_of, said_long, sent_at_once, until_too_many

MANY = 900  # requests over one connection: nginx takes 1,000
AT_AN_ADDRESS = 2000  # requests that come at once
ODD = "\u00e9" * 1900  # nginx writes four letters for each byte
LONG = "x" * 2950  # of a head that nginx takes
LINE = 700  # bytes of a log's line, at most
LOGS = "access.log", "error.log", "errors", "fileroom-logins.log"
OPEN = f"{ROOM}{SESSION}"
CONNECTIONS = 40  # of a front that is soon full
SLOW, SECONDS = 300, 5  # connections of each kind, and how long they stay
STRANGERS = [
    ("no login", []), ("a head of odd bytes", [f"user-agent: {ODD}", f"referer: {ODD}"]),
    ("a name that is too long", [login("u" * len(LONG), "no")]), ("a name of other letters", [login("u 1", "no")]),
    ("a password that is too long", [login("u01", LONG)]), ("another kind of login", ["authorization: Bearer u01"]),
    ("who logs out", [login("logged-out", "x")])]


def logged(front):
    """The bytes of all logs."""
    front.settle()
    return sum(os.path.getsize(it) for it in (log_of(front, name) for name in LOGS) if os.path.exists(it))


@pytest.fixture
def slower(fronted):
    """A front that lets nobody ask more often than once a second, however slow this machine is. Its logs do not grow by
    what is asked."""
    front = fronted(rate="1r/s")
    before = logged(front)
    yield front
    assert logged(front) == before


def are_counted(found, answer, begin):
    """(As often as once a second, behind those that come at once.)"""
    passed, most = found.count(answer), BURST + 2 + time.monotonic() - begin
    assert set(found) == {answer, 429}
    assert BURST <= passed <= most


@each("answer, method, target, more", [
    ("where people log in", 200, "GET", "/sign-in", []), ("whose rooms these are", 204, "GET", "/organisation", []),
    ("who is led there", 303, "GET", "/", ["sec-fetch-dest: document"]),
    ("who logs out", 204, "GET", "/log-out", [login("logged-out", "x")]), ("who logs in", 401, "GET", "/log-in", [])])
def test_what_is_for_everybody_is_counted(slower, answer, method, target, more):
    with open(os.path.join(slower.page, "sign-in.html"), "wb"):
        pass
    begin, asked = time.monotonic(), message(None, method, target, fields=slower.fields(None, more))
    are_counted(sent_at_once(slower, asked, MANY), answer, begin)


@each("method, target", [("a look", "GET", "/whoami"), ("an OPEN", "POST", OPEN)])
@each("answer, more", [*((name, 401, more) for name, more in STRANGERS),
                       ("a page of elsewhere", 403, ["origin: http://a.b"]),
                       ("a page of elsewhere, with a login", 403, ["origin: http://a.b", login("u02", "word of u02")])])
def test_strangers_are_counted(slower, method, target, answer, more):
    """(The front counts an OPEN behind the password, where it comes that far.)"""
    begin, asked = time.monotonic(), message(None, method, target, fields=slower.fields(None, more))
    are_counted(sent_at_once(slower, asked, MANY), answer, begin)


def test_an_address_is_counted(slower):
    """Whatever names it gives."""
    begin, names = time.monotonic(), range(AT_AN_ADDRESS // BURST + 2)
    asked = [message(None, "GET", "/whoami", fields=slower.fields(None, [login(f"u{it}", LONG)])) for it in names]
    found = [status for it in asked for status in sent_at_once(slower, it, BURST - 1)]
    passed, most = found.count(401), AT_AN_ADDRESS + 2 + time.monotonic() - begin
    assert set(found) == {401, 429}
    assert AT_AN_ADDRESS <= passed <= most


@each("length, answer", [("too long", 131073, 413), ("of no length", None, 411)])
def test_bodies_that_are_refused_are_counted(slower, length, answer):
    begin, right = time.monotonic(), [login("u02", slower.users["u02"])]
    are_counted(until_too_many(lambda _: said_long(slower, OPEN, length, right)), answer, begin)


@each("data", [("TRACE", message(None, "TRACE", "/whoami", fields=["host: a"])), ("a TLS hello", b"\x16\x03\x01"),
               ("another version", b"GET / HTTP/9.9\r\n\r\n"), ("a long target", b"GET /" + b"a" * 9000),
               ("no host", b"GET / HTTP/1.1\r\n\r\n")])
def test_what_is_no_request_is_not_told(slower, data):
    for _ in range(9):
        with contextlib.closing(Line(slower.port)) as line:
            line.ask(data + b"\r\n")


@each("method, size", [("an OPEN", "POST", 0), ("a body", "GET", 1000)])
def test_what_is_asked_of_no_room_is_counted(fronted, method, size):
    """By a login: its lines are told."""
    front, begin = fronted(rate="1r/s"), time.monotonic()
    asked = message(None, method, OPEN.replace("plans", "nope"), bytes(size), fields=front.fields("u02"))
    found = sent_at_once(front, asked, MANY // 2)
    passed, most = found.count(404), BURST + 2 + time.monotonic() - begin
    assert set(found) == {404, 429}
    assert 0 < passed <= most


def test_lines_of_who_is_let_in(fronted):
    """One for each that a room was asked, cut to a bound; none for what is not there, or was too many. They are counted
    by login, from however many addresses it comes."""
    front, begin = fronted(rate="100r/s"), time.monotonic()
    fields = front.fields("u01", [f"user-agent: {ODD}", 'referer: http://a.b/"x'])
    asked = [message(None, "GET", it + "%41" * 900, fields=fields) for it in ("/", "/rooms/gone/")]
    assert set(sent_at_once(front, asked[0], MANY, "127.0.3.1")) == {404, 429}
    for at in range(4):
        assert set(sent_at_once(front, asked[1], BURST, f"127.0.4.{at + 1}")) <= {502, 429}
    front.settle()
    told, most = text_of(log_of(front, "access.log")).splitlines(), BURST + 2 + 100 * (time.monotonic() - begin)
    assert BURST <= len(told) <= most
    assert len(max(told, key=len).encode()) <= LINE


# Slow callers

def test_slow_callers(front, peer):
    """Half heads, half bodies and answers that nobody takes: others are served, and a room gets whole requests."""
    with open(os.path.join(front.page, "large"), "wb") as file:
        file.truncate(1 << 22)
    half = message(None, "POST", CHECK, bytes(131072), fields=front.fields("u01"))[:-1]
    unread = message(None, "GET", "/large", fields=front.fields("u03")) * 4  # (more than the sockets hold)
    lines = [Line(front.port) for _ in range(3 * OPEN_AT_ONCE)]
    for at, line in enumerate(lines):
        line.send((half[:60], half, unread)[at % 3])
    begin = time.monotonic()
    assert front.status("u02", "POST", CHECK, b"{}") == 200
    assert front.status("u01", "GET", "/whoami") == 429  # (one more of whose bodies are slow)
    assert time.monotonic() - begin < 15  # (so long the front waits for a slow body)
    assert len(peer.came) == 1
    lines[1].send(b"\0")
    assert lines[1].answer().status == 200
    assert len(peer.came) == 2
    for line in lines:
        line.close()


def test_half_a_head(front):
    """One that does not end is not waited for longer than the front says."""
    def seconds():
        begin = time.monotonic()
        with contextlib.closing(Line(front.port)) as line, contextlib.suppress(OSError):
            line.send(message(None, "GET", "/", fields=front.fields(None))[:-4])
            line.to_end()
        return time.monotonic() - begin
    assert least(seconds, 55, 3) < 55  # (nginx by itself waits for a minute)


def test_too_many_connections(fronted):
    """Strangers who take all connections write no line of a log for each of theirs."""
    front = fronted(connections=CONNECTIONS)
    logs = [log_of(front, it) for it in ("error.log", "errors")]
    size = lambda: sum(os.path.getsize(it) for it in logs if os.path.exists(it))
    before, lines = size(), []
    for _ in range(3 * CONNECTIONS):
        lines.append(socket.create_connection(("127.0.0.1", front.port)))
        with contextlib.suppress(OSError):
            lines[-1].sendall(b"GET / HT")
    time.sleep(1)
    found = [it for path in logs if os.path.exists(path) for it in re.findall(r"\[alert\].*", text_of(path))]
    assert found == []
    assert size() - before < 2000
    for it in lines:
        it.close()


def longest_wait(front):
    """Seconds that somebody else waits beside slow heads, slow bodies and slow readers: very many where one of the
    tools that send them finds nobody there."""
    words = ["slowhttptest", "-c", str(SLOW), "-r", str(SLOW), "-i", "1", "-l", str(SECONDS), "-p", "4",
             "-u", f"http://127.0.0.1:{front.port}/"]
    how = {"stdin": subprocess.DEVNULL, "stdout": subprocess.PIPE, "text": True, "preexec_fn": end_with_parent}
    tools = [subprocess.Popen([*words, it], **how) for it in ("-H", "-B", "-X")]
    end, found, longest = time.monotonic() + SECONDS, set(), 0
    while time.monotonic() < end:
        begin = time.monotonic()
        found.add(front.status("u01", "GET", "/whoami", source="127.0.0.9"))
        longest = max(longest, time.monotonic() - begin)
        time.sleep(0.05)
    said = [re.sub(r"\x1b\[[0-9;]*[A-Za-z]", "", it.communicate(timeout=HANGS)[0]) for it in tools]
    assert found == {200}
    is_there = [set(re.findall(r"available: +(\w+)", it)) for it in said] == 3 * [{"YES"}]
    return longest if is_there else math.inf


@pytest.mark.skipif(not shutil.which("slowhttptest"), reason="this machine lacks slowhttptest")
def test_slowhttptest(fronted):
    """Nobody else waits as long as a slow head may take."""
    front = fronted(connections=2048)
    assert least(lambda: longest_wait(front), 4, 3) < 4
