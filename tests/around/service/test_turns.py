"""Before a room its callers wait in turns by login; what they send, and what is answered, stays as it is."""
import contextlib
import os
import socket
import threading

import pytest
from served import WAIT, free_port, until
from turns import Turns

ANSWER = b"HTTP/1.1 200 OK\r\ncontent-length: 5\r\nconnection: close\r\n\r\n{\"a\"}"
TARGETS = [bytes([it]) for it in (*range(0x21, 0x7F), *range(0x80, 0x100))]


class Asked:
    """A room that answers one request after another, once it may. `heard` has each one's target and body."""

    def __init__(self):
        self.heard, self.heads, self.may_answer, self.answer, self.pause = [], [], threading.Event(), ANSWER, 0
        self.begin(free_port())  # (which nobody else has while it is down)

    def begin(self, port):
        self.listener = socket.create_server(("127.0.0.1", port), backlog=128)
        self.port = self.listener.getsockname()[1]
        threading.Thread(target=self.serve, daemon=True).start()

    def serve(self):
        with contextlib.suppress(OSError):
            while True:
                line, _ = self.listener.accept()
                with line, line.makefile("rb") as file:
                    self.hear(line, file)

    def hear(self, line, file):
        head = [*iter(file.readline, b"\r\n")]
        length, = (int(it.split(b":")[1]) for it in head if it.lower().startswith(b"content-length:"))
        self.heads += head
        self.heard.append((head[0].split(b" ")[1], file.read(length)))
        self.may_answer.wait()
        threading.Event().wait(self.pause)
        line.sendall(self.answer)

    def end(self):
        """(A thread that waits would still take one.)"""
        self.listener.shutdown(socket.SHUT_RDWR)
        self.listener.close()


@pytest.fixture
def room():
    its = Asked()
    yield its
    its.end()


@pytest.fixture
def turns(tmp_path, room):
    with contextlib.closing(Turns(str(tmp_path / "room.sock"), room.port)) as its:
        yield its


@pytest.fixture
def path(turns, tmp_path):
    return str(tmp_path / "room.sock")


def sends(path, user, target, body=b"", more=b""):
    line = socket.socket(socket.AF_UNIX)
    line.settimeout(WAIT)
    line.connect(path)
    head = (b"POST %b HTTP/1.1\r\nhost: localhost\r\nconnection: close\r\ncontent-length: %d\r\nroom-user: %b\r\n"
            b"%b\r\n")
    line.sendall(head % (target, len(body), user, more) + body)
    return line


def answered(line):
    with line, line.makefile("rb") as file:
        return file.read()


def descriptors(turns):
    return len(os.listdir(f"/proc/{turns.process.pid}/fd"))


@contextlib.contextmanager
def seen(turns):
    """What comes, or goes, meanwhile is seen by the process between."""
    before = descriptors(turns)
    yield
    assert until(lambda: descriptors(turns) != before)
    threading.Event().wait(0.05)


def waits(path, room, turns):
    """One request stands at the room, and another one's behind it."""
    lines = [sends(path, b"first", b"/first")]
    assert until(lambda: room.heard)
    with seen(turns):
        lines.append(sends(path, b"next", b"/next"))
    return lines


def users_of(room):
    return [target.decode().strip("/").partition("-")[0] for target, _ in room.heard]


def test_each_login_has_its_turn(path, room, turns):
    """Two ask six things each, and then a third one asks, as if nobody had more than one."""
    lines = waits(path, room, turns)
    for user in b"ann", b"cat":
        for at in range(6):
            with seen(turns):  # (that they come in this order)
                lines.append(sends(path, user, b"/%b-%d" % (user, at)))
    with seen(turns):
        lines.append(sends(path, b"bob", b"/bob-0"))
    room.may_answer.set()
    assert [answered(it) for it in lines] == [ANSWER] * 15
    users = users_of(room)
    assert users[:5] == ["first", "next", "ann", "cat", "bob"]
    for end in range(5, 14):
        assert abs(users[:end].count("ann") - users[:end].count("cat")) <= 2, users


def test_who_has_two_under_way_has_a_turn_too(path, room):
    """All the time, beside eight who ask one thing after another: no row of those forms that stand before it."""
    room.may_answer.set()
    room.pause, most = 0.003, 300

    def asks(user):
        while len(room.heard) < most:
            answered(sends(path, user, b"/" + user))
    askers = [threading.Thread(target=asks, args=(it,)) for it in (b"ann", b"ann", *(b"u%d" % it for it in range(8)))]
    for it in askers:
        it.start()
    for it in askers:
        it.join()
    users = users_of(room)
    assert users.count("ann") > most / 9 / 2, users


def test_what_is_sent_and_answered_stays_as_it_is(path, room):
    room.may_answer.set()
    body = os.urandom(131072)
    assert answered(sends(path, b"ann", b"/all", body)) == ANSWER
    assert room.heard == [(b"/all", body)]
    room.answer = b"HTTP/1.1 200 OK\r\ncontent-length: 90000\r\nconnection: close\r\n\r\n" + os.urandom(90000)
    assert answered(sends(path, b"ann", b"/large")) == room.answer


def test_each_target_comes_as_it_is(path, room):
    """Also those that are none of ours: the room refuses them in its own words."""
    room.may_answer.set()
    targets = [b"/rooms" + it + b"x" for it in TARGETS] + [b"/" + b"a" * 16300, b"//a/../b?c#d"]
    for it in targets:
        assert answered(sends(path, b"ann", it)) == ANSWER
    assert [target for target, _ in room.heard] == targets


def test_a_room_that_is_down_answers_nothing(path, room):
    """So the front says in its own words that the room did not take it. Once it is there again it answers."""
    room.end()
    for _ in range(3):
        assert answered(sends(path, b"ann", b"/a")) == b""
    room.begin(room.port)
    room.may_answer.set()
    assert answered(sends(path, b"ann", b"/b")) == ANSWER


def test_names_that_differ_by_a_number_have_places_of_their_own(path, turns):
    """Nearly all: a request takes one descriptor, and the first in a place two more."""
    lines = [sends(path, b"u%03d" % it, b"/") for it in range(300)]
    assert until(lambda: descriptors(turns) > 300 + 2 * 250), descriptors(turns)
    for it in lines:
        it.close()


def test_of_many_at_once_each_is_answered(path, room, turns):
    """More than there are descriptors for: the others wait until there are."""
    lines, taken = [sends(path, b"u%d" % it, b"/u%d" % it) for it in range(600)], [0]

    def takes_no_more():
        taken.append(descriptors(turns))
        return taken[-1] > 800 and len({*taken[-10:]}) == 1
    assert until(takes_no_more)
    room.may_answer.set()
    assert [answered(it) for it in lines] == [ANSWER] * 600


def has_much(path, user, is_long=True):
    """Whether the front is told that this login's lists and moves took much of the room's time, by such an answer."""
    got = answered(sends(path, user, b"/", more=b"room-long: %b\r\n" % user if is_long else b""))
    return b"room-much: 1\r\n" in got


@pytest.mark.parametrize("pause, most", [(0.011, 1000), (0.042, 100)])
def test_who_has_a_room_do_what_takes_long(path, room, pause, most):
    """So often in ten seconds, and sooner if it took longer. (On a busy machine all does.) Nothing is told of others,
    nor with an answer to what is not of that kind, and nothing to the room."""
    room.may_answer.set()
    room.pause = pause
    assert not any(has_much(path, b"cat", False) for _ in range(30))
    asked = len(room.heard)
    assert until(lambda: has_much(path, b"ann"), pause=0)
    assert 25 < len(room.heard) - asked <= most
    assert [has_much(path, b"ann", False), has_much(path, b"bob")] == [False, False]
    assert b"room-long" not in b"".join(room.heads)


def test_who_does_not_wait_is_not_asked_for(path, room, turns):
    lines = waits(path, room, turns)
    with seen(turns):
        gone = sends(path, b"ann", b"/gone")
    with seen(turns):
        last = sends(path, b"bob", b"/last")
    with seen(turns):
        gone.close()
    room.may_answer.set()
    assert [answered(it) for it in (*lines, last)] == [ANSWER] * 3
    assert [target for target, _ in room.heard] == [b"/first", b"/next", b"/last"]
