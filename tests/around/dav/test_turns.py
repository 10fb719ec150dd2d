"""Whose turn it is: threads, the processor, what comes behind answers, what is asked again. The gateway's parts by
themselves."""
import contextlib
import os
import re
import socket
import threading
import time
import types
from concurrent.futures import ThreadPoolExecutor
from unittest import mock

import pytest
from fileroom_dav import app, asked, behind, faults, seats, tree, turns, visit
from nginx import FOLDER, login
from room_client import slots
from room_client.faults import SessionLost
from served import WAIT, text_of, until

write_private = visit.write_private


class Channel:
    """A connection as waitress has it."""

    def __init__(self, user):
        self.said, self.service = [], "it is served"
        self.server = types.SimpleNamespace(trigger=types.SimpleNamespace(pull_trigger=self.said.append))
        self.requests = [types.SimpleNamespace(headers={"AUTHORIZATION": login(user, "x").partition(": ")[2]})]


def test_turns_to_threads():
    """Of a login some are at work, some wait, and who comes beyond is told so; another's are next."""
    its, beyond = turns.Turns(None), Channel("ann")
    for _ in range(turns.MOST_AT_WORK + turns.MOST_WAITING):
        its.append(Channel("ann"))
    its.append(Channel("bob"))
    assert len(its) == turns.MOST_AT_WORK + 1
    assert [its.popleft().login for _ in range(len(its))] == ["ann"] * turns.MOST_AT_WORK + ["bob"]
    its.append(beyond)
    assert (len(its), beyond.said) == (0, [beyond.service])
    assert beyond.requests[0].error.to_response()[:2] == (
        "503 Service Unavailable", [mock.ANY, ("Retry-After", faults.LATER)])
    for _ in range(turns.MOST_WAITING):
        its.ended("ann")
        assert (its.popleft().login, len(its)) == ("ann", 0)
    for user in ["ann"] * turns.MOST_AT_WORK + ["bob"]:
        its.ended(user)
    assert (its.counts, its.waiting) == ({}, {})


def test_one_login_is_told_at_once(tmp_path):
    gate, goes, said = app.Gate("/none", str(tmp_path)), threading.Event(), []
    gate.seats = types.SimpleNamespace(visits=lambda *_: goes.wait(WAIT) and app.Reply(204))

    def ask(user):
        environ = {"REQUEST_METHOD": "GET", "PATH_INFO": "/dav/plans/x",
                   "HTTP_AUTHORIZATION": login(user, "word").partition(": ")[2]}
        gate(environ, lambda status, fields: said.append((user, status[:3], dict(fields).get("Retry-After"))))
    with ThreadPoolExecutor(20) as crew:
        for _ in range(turns.MOST_AT_WORK):
            crew.submit(ask, "ann")
        assert until(lambda: gate.at_work.counts["ann"] == turns.MOST_AT_WORK)
        ask("ann")
        assert said == [("ann", "503", faults.LATER)]
        bob = crew.submit(ask, "bob")
        assert until(lambda: gate.at_work.counts["bob"] or bob.done())
        assert len(said) == 1
        goes.set()
    assert sorted(said[1:]) == [("ann", "204", None)] * turns.MOST_AT_WORK + [("bob", "204", None)]
    assert gate.at_work.counts == {}


@pytest.fixture
def floor():
    """By a clock that is set."""
    with mock.patch.object(turns, "PATIENCE", 60):
        it = turns.Floor(now=lambda: it.clock)
        it.clock = 0.0
        yield it


def count_of(floor):
    """How many wait."""
    return sum(map(len, floor.waiting.values()))


def test_turns_to_compute(floor):
    """One thread at a time, and next is who computed least of late, however many of another wait."""
    order, crew = [], []

    def computes(user, seconds, among):
        with floor.of(user), floor.of(user):
            order.append(user)
            floor.clock += seconds
            assert floor.login == user
            among()

    def comes(user, seconds=1.0, among=lambda: None):
        crew.append(threading.Thread(target=computes, args=(user, seconds, among), daemon=True))
        count = count_of(floor)
        crew[-1].start()
        assert until(lambda: count_of(floor) > count or not crew[-1].is_alive())

    def others_come():
        """(While eve computes.)"""
        for user in "eve", "eve", "fay", "fay":
            comes(user)
        comes("ann", 0.1, lambda: comes("ann", 0.1))
    computes("eve", 1.0, others_come)
    for it in crew:
        it.join(WAIT)
    assert order == ["eve", "fay", "ann", "ann", "eve", "fay", "eve"]
    assert (floor.login, floor.waiting, floor.spent) == (None, {}, {})


def test_who_computed_nothing_is_owed_nothing(floor):
    order, floor.spent = [], {"eve": 90.0, "gus": 90.0}

    def computes(user):
        with floor.of(user):
            order.append(user)
            floor.clock += 1.0
    with ThreadPoolExecutor(4) as crew, floor.of("gus"):
        for at, user in enumerate(["fay", "fay", "fay", "eve"]):
            crew.submit(computes, user)
            until(lambda: count_of(floor) > at)
    assert order == ["fay", "eve", "fay", "fay"]


def test_nobody_waits_long_for_one():
    floor = turns.Floor()

    def beside():
        with floor.of("fay"):
            return floor.login, floor.holder, floor.waiting
    with ThreadPoolExecutor(1) as crew, floor.of("eve"):
        assert crew.submit(beside).result(20) == ("eve", None, {})
    assert (floor.login, floor.waiting) == (None, {})


def test_long_answers_are_made_in_parts(floor):
    """Where others wait, after a moment."""
    order = []

    def computes():
        with floor.of("fay"):
            order.append("fay")
    with ThreadPoolExecutor(1) as crew, floor.of("eve"):
        crew.submit(computes)
        until(lambda: floor.waiting)
        for _ in range(2):
            floor.pause()
            order.append("eve")
            floor.clock += 2 * turns.LONGEST
        floor.pause()
    assert order == ["eve", "fay", "eve"]


LISTING, FILE = 257, 300  # requests for the first listing of a full folder, and for a file of 16 MiB


def test_one_asks_at_once_what_a_file_takes():
    """And all in all less than the front lets the gateway ask for one."""
    clock = types.SimpleNamespace(now=0.0, monotonic=lambda: clock.now)
    conf = text_of(os.path.join(FOLDER, "fileroom.conf"))
    (rate,), bursts = (set(re.findall(it, conf)) for it in (
        r"zone=fileroom_(?:by_)?gateway:1m rate=(\d+)r/s", r"zone=fileroom_(?:by_)?gateway burst=(\d+) nodelay"))
    with mock.patch.object(slots, "time", clock), mock.patch.object(visit.UserPace, "rest", lambda _, seconds: setattr(
            clock, "now", clock.now + seconds)):
        pace, asked = visit.UserPace("eve", turns.Floor()), 0
        while clock.now < 10:
            pace.wait()
            asked += 1
            assert clock.now == 0 or asked > max(LISTING, FILE)
            assert asked <= min(map(int, bursts)) + int(rate) * clock.now


def test_a_wait_is_nobodys_turn():
    """Before the next attempt, and for a place."""
    floor, seen = turns.Floor(), []
    pace = visit.UserPace("eve", floor)
    with floor.of("eve"), mock.patch.object(slots.time, "sleep", side_effect=lambda _: seen.append(floor.login)):
        pace.rest(1.0)
        assert (seen, floor.login) == ([None], "eve")

    def waits():
        with floor.of("eve"), pace.place():
            seen.append(floor.login)
    with ThreadPoolExecutor(1) as crew, pace.place(), pace.place():
        crew.submit(waits)
        until(lambda: pace.places._cond._waiters)
        seen.append(floor.login)
    assert (seen, floor.login) == ([None, None, "eve"], None)


def test_hashes_and_the_disk_are_nobodys_turn(tmp_path):
    """A file that is replaced waits for the disk, a page in its place does not."""
    floor, seen = turns.Floor(), []
    its = mock.Mock(size=9, pieces=["000"], is_of=lambda _: seen.append(floor.login) or True)
    one = types.SimpleNamespace(pace=visit.UserPace("eve", floor))
    state = visit.KeptState(str(tmp_path / "state"), "http://x", "eve", 1.0)
    with contextlib.closing(state), floor.of("eve"), mock.patch.object(tree, "filled", return_value=b"x"), (
            mock.patch.object(visit, "write_private",
                              side_effect=lambda *how: (seen.append(floor.login), write_private(*how)))):
        assert tree.pieces_of(one, "/a", its, range(1)) == b"x"
        visit.Seat(0, mock.Mock(), None, state, one.pace, None)
        state.save(state.session)
        state.record("short", 0)
        state.record("x" * 90_000, 0)
    assert (seen, floor.login) == ([None, None, "eve", None], None)


@contextlib.contextmanager
def front_saying(gate, *statuses, meanwhile=lambda: None):
    """A front that answers a connection each so. What comes by them behind the answers."""
    behind = []

    def answers():
        for status in statuses:
            peer, _ = front.accept()
            with peer:
                peer.recv(4096)
                meanwhile()
                peer.sendall(b"HTTP/1.1 %s\r\nContent-Length: 2\r\n\r\n{}" % status)
                behind.append(peer.recv(1))
    with socket.socket(socket.AF_UNIX) as front:
        front.bind(gate)
        front.listen()
        one = threading.Thread(target=answers, daemon=True)
        one.start()
        yield behind
        one.join(WAIT)


ANN = types.SimpleNamespace(user="ann", password="word")


def test_the_floor_is_free_while_the_front_answers(tmp_path):
    """And it is the caller's before, and behind."""
    gate, seen = app.Gate(str(tmp_path / "front"), str(tmp_path)), []

    def look():
        until(lambda: gate.floor.login is None)
        seen.append(gate.floor.login)

    def done(asked):
        seen.append(gate.floor.login)
        gate.need_login(asked, "/whoami")
        seen.append(gate.floor.login)
        return app.Reply(204)
    with front_saying(str(tmp_path / "front"), b"200 OK", meanwhile=look), mock.patch.object(gate, "done", done):
        gate.in_turn(ANN)
        gate.seats.front.take(5.0).close()  # (which is kept, and waited for else)
    assert (seen, gate.floor.login) == (["ann", None, "ann"], None)


def test_a_login_is_asked_for_again(tmp_path):
    """Where the front lets no more through for now; and no connection is held in the wait. (The last one is kept.)"""
    with front_saying(str(tmp_path / "front"), b"429 Too Many Requests", b"503 Service Unavailable", b"200 OK") as said:
        gate = app.Gate(str(tmp_path / "front"), str(tmp_path))
        assert gate.need_login(ANN, "/whoami") == b"{}"
        assert until(lambda: said == [b""] * 2)
        gate.seats.front.take(5.0).close()
    assert said == [b""] * 3


LONGEST_LOGIN = "Of_32.Letters-and_Numbers.012345"


@pytest.mark.parametrize("user, password, is_taken", [
    (LONGEST_LOGIN, "a:b", True), ("ann", "x" * 400, True), ("ann", "", True), ("ann", "x" * 401, False),
    (f"{LONGEST_LOGIN}6", "x", False), ("", "x", False), ("a/b", "x", False), ("ann@1", "x", False)],
    ids=lambda it: f"{it}"[:9])
def test_who_logs_in(user, password, is_taken):
    """By a name that a roster may have, by which a file of the gateway has its own too."""
    field = login(user, password).partition(": ")[2]
    if is_taken:
        assert asked.login_of(field) == (user, password)
        return
    with pytest.raises(faults.Answered) as why:
        asked.login_of(field)
    assert why.value.status == 401


@pytest.mark.parametrize("status, told", [(b"401 Unauthorized", 401), (b"403 Forbidden", 502), (b"404 Not Found", 502)])
def test_a_login_that_the_front_does_not_take(tmp_path, status, told):
    with front_saying(str(tmp_path / "front"), status), pytest.raises(faults.Answered) as why:
        gate = app.Gate(str(tmp_path / "front"), str(tmp_path))
        try:
            gate.need_login(ANN, "/whoami")
        finally:
            gate.seats.front.take(5.0).close()
    assert why.value.status == told


@pytest.mark.parametrize("cmd, has_changed", [("WRITE", True), ("READ", False)])
def test_what_many_requests_changed(cmd, has_changed):
    """(As the session is lost.)"""
    one = object.__new__(visit.Visit)
    one.has_changed, one.pace = False, visit.UserPace("eve", turns.Floor())
    with mock.patch.object(visit.Room, "ask_all", side_effect=SessionLost({"code": 20, "error": "BADSESSION"})), (
            pytest.raises(SessionLost)):
        one.ask_all([{"cmd": cmd}])
    assert one.has_changed == has_changed


@pytest.mark.parametrize("has_changed, times", [(False, 2), (True, 1)])
def test_a_visit_is_not_repeated_after_a_change(tmp_path, has_changed, times):
    """Where the room does not know the session any more, what was done by it is not done a second time."""
    its, count = seats.Seats("/none", str(tmp_path), 1.0), []
    visit_ = mock.MagicMock(has_changed=has_changed, front_status=0, left=[])
    visit_.__exit__.return_value = False

    def does(_):
        count.append(1)
        raise SessionLost({"code": 20, "error": "BADSESSION"})
    with mock.patch.object(seats.Seats, "visit", return_value=visit_), pytest.raises(faults.Answered):
        its.visits("plans", "ann", "word", does)
    assert (len(count), its.taken) == (times, set())


def test_a_place_is_free_again_behind_a_fault():
    pace = visit.UserPace("ann", turns.Floor())
    for _ in range(visit.AT_ONCE):
        with pytest.raises(ZeroDivisionError), pace.place():
            1 / 0
    assert pace.places.acquire(blocking=False)


@pytest.fixture
def work():
    """What is behind answers, all of which ends at once, or in time."""
    its = types.SimpleNamespace(queue=behind.Behind(), may_end=threading.Event(), at_work=[])

    def add(login):
        its.queue.add(login, lambda: (its.at_work.append(login), its.may_end.wait(WAIT)))

    def wait_for(count):
        assert until(lambda: len(its.at_work) >= count)
        time.sleep(0.1)  # (no more come)
        return sorted(its.at_work)
    its.add, its.wait_for = add, wait_for
    yield its
    its.may_end.set()


def test_one_of_a_login_is_behind_at_a_time(work):
    for it in "ann", "ann", "ann", "bob":
        work.add(it)
    assert work.wait_for(2) == ["ann", "bob"]
    work.may_end.set()
    assert work.wait_for(4) == ["ann", "ann", "ann", "bob"]


def test_few_threads_behind(work):
    for at in range(2 * behind.MOST_AT_ONCE):
        work.add(str(at))
    assert len(work.wait_for(behind.MOST_AT_ONCE)) == behind.MOST_AT_ONCE


def test_few_wait_behind(work):
    """Of a login, and of all."""
    for _ in range(behind.MOST_OF_ONE + 1):
        assert work.queue.has_room("ann")
        work.add("ann")
        work.wait_for(1)
    assert not work.queue.has_room("ann")
    assert work.queue.has_room("bob")
    for at in range(behind.MOST + behind.MOST_AT_ONCE):
        work.add(str(at))
    assert not work.queue.has_room("bob")


def test_a_fault_behind_ends_no_thread(work):
    work.queue.add("ann", lambda: 1 / 0)
    work.add("ann")
    assert work.wait_for(1) == ["ann"]


def test_a_stop_of_what_is_behind(work):
    """It waits for what it has, not for long, and nothing more is taken."""
    work.add("ann")
    work.wait_for(1)
    begin = time.monotonic()
    work.queue.stop(0.3)
    assert 0.2 < time.monotonic() - begin < 30  # (work that nobody ends ends by itself, later)
    assert not work.queue.has_room("bob")
    threading.Timer(0.2, work.may_end.set).start()
    work.queue.stop(WAIT)
    assert time.monotonic() - begin < WAIT
