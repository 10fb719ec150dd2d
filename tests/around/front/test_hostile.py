"""A directory that is slow, or says what is no answer (RFC 4511): a question to it has one end by the clock, and only
its yes is one. (What it says in order: test_asks.py.)"""
import contextlib
import os
import socket
import ssl
import sys
import threading
import time

import pytest
from given import each
from nginx import FOLDER, certified

sys.path.append(os.path.join(FOLDER, "..", "signin"))
from fileroom_signin import directory
from fileroom_signin.directory import BIND_ANSWER, ENUMERATED, EXTENDED_ANSWER, INTEGER, SEQUENCE, Down, part

pytestmark = pytest.mark.without_program
PATIENCE = 1  # seconds for all servers that take no connection
WAIT = 5  # seconds for one that does, or for each of them
MINUTE = 60  # seconds for one that answers, on any machine
SLACK = 40  # more, on a slow machine
RIGHT = part(ENUMERATED, b"\0")
REST = b"\4\0\4\0"  # no name, no words


def said(number, kind, code=RIGHT):
    return part(SEQUENCE, part(INTEGER, bytes([number])) + part(kind, code + REST))


class Server:
    """At a port of this machine, by TLS at once or when it was asked for: one that answers each request with what
    `answer` makes of its number, byte by byte where it pauses. With None it ends."""

    def __init__(self, pair, answer, is_tls=True, pause=0):
        self.pair, self.answer, self.is_tls, self.pause, self.got = pair, answer, is_tls, pause, []
        self.listener = socket.create_server(("127.0.0.1", 0))
        self.port = self.listener.getsockname()[1]
        self.url = f"{'ldaps' if is_tls else 'ldap'}://127.0.0.1:{self.port}"
        threading.Thread(target=self.serve, daemon=True).start()

    def serve(self):
        with contextlib.suppress(OSError):
            while True:
                line = self.listener.accept()[0]
                threading.Thread(target=self.speak, args=(line,), daemon=True).start()

    def speak(self, line):
        with contextlib.suppress(OSError):
            if self.is_tls:
                context = ssl.SSLContext(ssl.PROTOCOL_TLS_SERVER)
                context.load_cert_chain(*self.pair)
                line = context.wrap_socket(line, server_side=True)
            with line:
                while data := line.recv(4096):
                    self.got.append(data)
                    answer = self.answer(data[4])
                    if answer is None:
                        return
                    for it in [bytes([one]) for one in answer] if self.pause else [answer]:
                        time.sleep(self.pause)
                        line.sendall(it)


class Dripping:
    """Stands before a server, and from when `begun` is true hands on byte by byte what it sends, TLS itself too."""

    def __init__(self, its, begun):
        self.its, self.begun, self.listener = its, begun, socket.create_server(("127.0.0.1", 0))
        self.url = f"ldaps://127.0.0.1:{self.listener.getsockname()[1]}"
        threading.Thread(target=self.serve, daemon=True).start()

    def serve(self):
        with contextlib.suppress(OSError), self.listener.accept()[0] as caller:
            with socket.create_connection(("127.0.0.1", self.its.port)) as line:
                threading.Thread(target=self.hand_on, args=(caller, line, 0), daemon=True).start()
                self.hand_on(line, caller, WAIT / 2)

    def hand_on(self, source, to, pause):
        with contextlib.suppress(OSError):
            while data := source.recv(4096):
                for it in [bytes([one]) for one in data] if pause and self.begun(self.its) else [data]:
                    time.sleep(pause)
                    to.sendall(it)


@pytest.fixture(scope="module")
def pair(tmp_path_factory):
    return certified(str(tmp_path_factory.mktemp("cert")), "IP:127.0.0.1", "DNS:localhost")


@pytest.fixture
def serve(pair):
    made = []

    def one(*words, **how):
        made.append(Server(pair, *words, **how))
        return made[-1]
    yield one
    for it in made:
        it.listener.close()


@pytest.fixture
def asks(pair, monkeypatch):
    """What these servers make of ann's login, and after how long."""
    monkeypatch.setattr(directory, "IN_ALL", MINUTE)

    def ask(*urls, seconds=MINUTE):
        with open(pair[0], encoding="utf-8") as file:
            conf = {"servers": urls, "binds": ["uid={},ou=people"], "ca": file.read(), "timeout": seconds}
        begin = time.monotonic()
        try:
            got = directory.Directory(conf, lambda words: None).is_right("ann", "ann-word")
        except Down as fault:
            got = fault
        return got, time.monotonic() - begin
    return ask


def is_down(got, took, may_count, seconds=MINUTE):
    assert isinstance(got, Down), got
    assert got.may_count is may_count
    assert took < seconds + SLACK


@each("kind, is_tls, may_count", [("an answer", BIND_ANSWER, True, True),
                                  ("one before TLS", EXTENDED_ANSWER, False, False)])
def test_one_that_drips(serve, asks, kind, is_tls, may_count):
    """A byte now and then is no more time."""
    its = serve(lambda number: said(number, kind), is_tls, pause=WAIT / 2)
    is_down(*asks(its.url, seconds=WAIT), may_count, WAIT)


@each("begun, may_count", [("of its beginning", lambda its: True, False),
                           ("of the answer", lambda its: its.got, True)])
def test_tls_that_drips(serve, asks, begun, may_count):
    """Nor is a byte of TLS itself."""
    its = Dripping(serve(lambda number: said(number, BIND_ANSWER)), begun)
    is_down(*asks(its.url, seconds=WAIT), may_count, WAIT)
    its.listener.close()


@pytest.fixture
def deaf():
    """Makes one at an address that takes no connection, and refuses none."""
    made = []

    def one(address, port=0):
        listener = socket.create_server((address, port), backlog=0)
        made.append(listener)
        for _ in range(4):
            made.append(socket.socket())
            made[-1].setblocking(False)
            made[-1].connect_ex(listener.getsockname())
        return listener.getsockname()[1]
    yield one
    for it in made:
        it.close()


@pytest.fixture
def named(monkeypatch):
    """Gives `localhost` these addresses, and the server's URL by that name."""
    def one(port, *addresses):
        def found(host, *words, **how):
            its = addresses if host == "localhost" else [host]
            return [(socket.AF_INET, socket.SOCK_STREAM, 6, "", (it, port)) for it in its]
        monkeypatch.setattr(socket, "getaddrinfo", found)
        return f"ldaps://localhost:{port}"
    return one


def test_a_name_with_many_addresses(deaf, named, asks):
    """They share its time."""
    port = deaf("127.0.0.1")
    its = [f"127.0.0.{at}" for at in range(2, 14)]
    for it in its:
        deaf(it, port)
    is_down(*asks(named(port, "127.0.0.1", *its), seconds=WAIT), False, WAIT)


def test_the_last_of_many_addresses(serve, named, asks, monkeypatch):
    """It is asked, within what the others leave of the time."""
    its, connect, parts = serve(lambda number: said(number, BIND_ANSWER)), socket.create_connection, []

    def one(address, seconds):
        parts.append(seconds)
        if address[0] != "127.0.0.1":
            raise TimeoutError("timed out")
        return connect(address, seconds)
    monkeypatch.setattr(socket, "create_connection", one)
    url = named(its.port, "127.0.0.2", "127.0.0.3", "127.0.0.1")
    assert asks(url)[0] is True
    assert parts == [pytest.approx(MINUTE / count, abs=MINUTE / 4) for count in (3, 2, 1)]


def test_many_servers(deaf, asks, monkeypatch):
    monkeypatch.setattr(directory, "IN_ALL", PATIENCE)
    urls = [f"ldaps://127.0.0.1:{deaf('127.0.0.1')}" for _ in range(6)]
    is_down(*asks(*urls, seconds=4 * WAIT), False, PATIENCE)


@each("answer", [
    ("no LDAP", lambda number: b"HTTP/1.1 200 OK\r\n\r\n"),
    ("to another request", lambda number: said(number + 1, BIND_ANSWER)),
    ("to a request of another kind", lambda number: said(number, EXTENDED_ANSWER)),
    ("an empty code", lambda number: said(number, BIND_ANSWER, part(ENUMERATED, b""))),
    ("no code but a number", lambda number: said(number, BIND_ANSWER, part(INTEGER, b"\0"))),
    ("a code that is cut", lambda number: part(SEQUENCE, part(INTEGER, bytes([number])) + b"\x61\x03\x0a\x05\0")),
    ("no length", lambda number: b"\x30\x80" + said(number, BIND_ANSWER)[2:] + b"\0\0"),
    ("an empty one", lambda number: part(SEQUENCE, b"")),
    ("its end", lambda number: said(0, EXTENDED_ANSWER, part(ENUMERATED, b"\x34"))), ("none", lambda number: None)])
def test_what_is_no_answer(serve, asks, answer):
    """The directory may have counted the password."""
    is_down(*asks(serve(answer).url), True)


def test_an_answer_of_any_length_is_not_read(serve, asks):
    """It would fill the memory."""
    its = serve(lambda number: b"\x30\x84\xff\xff\xff\xff" + said(number, BIND_ANSWER)[2:])
    assert "it speaks no LDAP" in str(asks(its.url)[0])


def test_what_comes_in_the_clear_is_no_answer(serve, asks):
    """Somebody between says yes behind the answer to STARTTLS, before there is TLS."""
    its = serve(lambda number: said(number, EXTENDED_ANSWER) + said(number + 1, BIND_ANSWER), is_tls=False)
    is_down(*asks(its.url), False)
    assert b"ann-word" not in b"".join(its.got)
