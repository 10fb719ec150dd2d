"""The gateway's connections to the front: they are kept for whoever asks next, and a session's files stay open."""
import base64
import contextlib
import shutil
import socket
import threading
import time

import pytest
from given import each
from room_client import Settings
from room_client.line import Lost
from served import until

from fileroom_dav import front, visit

SOON = 120
WHOLE = b"HTTP/1.1 200 OK\r\nContent-Length: 10\r\n\r\n{\"code\":0}"
CLOSING = WHOLE.replace(b"\r\n\r\n", b"\r\nConnection: close\r\n\r\n")


class Peer:
    """Stands in the front's place: each connection says these answers, one to each request, and then ends."""

    def __init__(self, at, *answers):
        self.heard, self.count, self.ended, self.answers = [], 0, 0, answers
        self.listener = socket.socket(socket.AF_UNIX)
        self.listener.bind(at)
        self.listener.listen()
        threading.Thread(target=self.serve, daemon=True).start()

    def serve(self):
        with contextlib.suppress(OSError):
            while True:
                line, _ = self.listener.accept()
                self.count += 1
                threading.Thread(target=self.answer, args=(line,), daemon=True).start()

    def answer(self, line):
        with line:
            for it in self.answers:
                head = line.recv(1 << 16)
                if not head:
                    break
                self.heard.append(head)
                line.sendall(it)
        self.ended += 1


@pytest.fixture
def standing(tmp_path):
    peers = []

    def stands(*answers):
        peers.append(Peer(str(tmp_path / "front"), *answers))
        return peers[0], front.Connections(str(tmp_path / "front"))
    yield stands
    for it in peers:
        it.listener.close()


def asks(connections, user="ann", password="word"):
    """The status of one request, as a visit asks."""
    line = front.FrontLine(connections, Settings(url="http://localhost/rooms/plans", login=user, password=password))
    line.open(60.0)
    try:
        return line.ask("POST", "/v1/x", b"{}").status
    finally:
        line.leave()


def test_a_connection_is_kept_for_the_next(standing):
    """Of any login, whose own request names it."""
    peer, connections = standing(*[WHOLE] * 4)
    assert [asks(connections, it) for it in ("ann", "bob", "ann")] == [200] * 3
    assert peer.count == 1
    names = [it.decode().partition("Authorization: ")[2].partition("\r")[0] for it in peer.heard]
    assert names[0] == names[2] != names[1]


def test_a_password_goes_on_as_it_came(standing):
    """In UTF-8, by which the front looks it up."""
    peer, connections = standing(WHOLE)
    assert asks(connections, password="w\u00f6rd \u20ac:") == 200
    pair = peer.heard[0].partition(b"Authorization: Basic ")[2].partition(b"\r")[0]
    assert base64.b64decode(pair).decode() == "ann:w\u00f6rd \u20ac:"


@each("answers", [("said so", [CLOSING] * 2), ("closed it", [WHOLE])])
def test_what_the_front_closes_is_not_kept(standing, answers):
    """The next request goes out by another one."""
    peer, connections = standing(*answers)
    for it in range(3):
        assert asks(connections) == 200
        assert until(lambda: peer.ended > it, SOON)
    assert peer.count == 3


@each("answer", [("cut", WHOLE[:-1]), ("with more behind it", WHOLE + b"HTTP/1.1 200 OK\r\n"), ("no end", WHOLE[:9]),
                 ("no length", b"HTTP/1.1 200 OK\r\n\r\n{}"), ("no HTTP", b"220 hello\r\n\r\n"),
                 ("too long", WHOLE.replace(b"10", b"9999999"))])
def test_no_whole_answer(standing, answer):
    """It is as if none had come, and the connection goes."""
    peer, connections = standing(answer)
    with pytest.raises(Lost):
        asks(connections)
    assert (until(lambda: peer.ended == 1, SOON), len(connections.idle)) == (True, 0)


def test_a_fault_within_an_answer(standing, monkeypatch):
    """What comes of it later is nobody else's answer."""
    _, connections = standing(WHOLE)
    monkeypatch.setattr(front, "whole", lambda *_: [][0])
    with pytest.raises(IndexError):
        asks(connections)
    assert len(connections.idle) == 0


def test_few_are_kept_and_not_for_long(standing, monkeypatch):
    peer, connections = standing(WHOLE)
    lines = [connections.take(5.0) for _ in range(front.MOST_IDLE + 1)]
    for it in lines:
        connections.leave(it)
    assert (len(connections.idle), lines[-1].fileno()) == (front.MOST_IDLE, -1)
    later = time.monotonic() + 25  # (the front closes them after 30)
    monkeypatch.setattr(front.time, "monotonic", lambda: later)
    assert connections.take(5.0) not in lines
    assert {it.fileno() for it in lines} == {-1}


def test_a_session_is_read_once(tmp_path, monkeypatch):
    """A few of them are kept, and what is closed is read back."""
    monkeypatch.setattr(visit, "MOST_IDLE", 2)
    states, read = visit.States(), []
    monkeypatch.setattr(visit.KeptState, "_read", lambda self, *how: read.append(self.path) or super(
        visit.KeptState, self)._read(*how))

    def visits(name, request):
        with contextlib.closing(states.take(visit.KeptState, str(tmp_path / name), "http://x", "ann", 0.0)) as its:
            before = its.kept[0].pending
            its.record(request)
            return before
    assert [visits(*it) for it in (("a", "1"), ("b", "2"), ("a", "3"), ("c", "4"), ("a", "5"))] == [
        None, None, "1", None, "3"]
    assert read.count(str(tmp_path / "a")) == read.count(str(tmp_path / "c")) > 0
    assert (visits("b", "6"), len(states.idle)) == ("2", 2)


def test_a_session_whose_files_are_gone(tmp_path):
    """Another one begins, as where the gateway started anew."""
    states, folder = visit.States(), tmp_path / "sessions"

    def visits():
        with contextlib.closing(states.take(visit.KeptState, str(folder / "a"), "http://x", "ann", 0.0)) as its:
            its.record("1")
            return its.session.name
    before = visits()
    assert visits() == before
    shutil.rmtree(folder)
    assert visits() != before
