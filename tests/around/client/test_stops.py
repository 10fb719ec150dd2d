"""The client is stopped, at each of its steps and at the keyboard, and what is kept is lost or set back: each request
acts once, or it is told that this is not known. (Kills of client and room: tests/around/judge.)"""
import contextlib
import json
import os
import signal
import threading
import types
from unittest import mock

import pytest
from given import each
from room_client import SessionLost, slots
from room_client.line import Line
from room_client.manifest import PIECE
from room_client.state import SLOTS, State
from served import HANGS, sqlite, until, waiting_at

from .desk import STOPPED, in_child, is_pending, some, steps_to

ASKS = [(Line, "ask", True)]  # (before it the request is on record, and behind it the next one is not yet)


@pytest.fixture
def log(desk):
    with desk.other() as room:
        room.create("/log", b"")


# At each step: before and after each write of its file, each request sent, and before and after its reply is told

@each("steps, piece_of, is_over", [
    # whoever sees what it tells, and starts it again where it told nothing
    ("told", [(State, "save", True), (State, "_flush_folder", True), *ASKS], lambda it: b"%d." % it,
     lambda told, _: told),
    # whoever looks at the exit status alone, with the same piece each time: the steps up to the last write of the file,
    # after which nothing but the status is left to tell
    ("ended", [(State, "save", False), *ASKS], lambda _: b"x", lambda _, status: status == 0)])
def test_stop_at_each_step(desk, log, steps, piece_of, is_over):
    pieces, was_stopped = [], True
    while was_stopped:
        pieces.append(piece_of(len(pieces)))
        was_stopped = append_until(desk, steps, pieces[-1], len(pieces) - 1, is_over)
    assert len(pieces) > 6
    with desk.other() as room:
        assert room.read("/log") == b"".join(pieces)


def append_until(desk, steps, piece, stop_at, is_over):
    """Whether it was stopped. Each start ends at that step; after three that were stopped, one is let through."""
    for stops in range(4):
        told, status = append_in_child(desk, steps, piece, stop_at if stops < 3 else None)
        assert status in (0, STOPPED)
        if is_over(told, status):
            return stops > 0 or status == STOPPED
    raise AssertionError("it never ended")


def append_in_child(desk, steps, piece, stop_at):
    """What it tells, and its status."""
    reader, writer = os.pipe()

    def appends():
        step = steps_to(stop_at, steps)
        with desk.room() as room:
            room.append("/log", piece)
            step()
            os.write(writer, b"told")
            step()
    status = in_child(appends)
    os.close(writer)
    with os.fdopen(reader, "rb") as pipe:
        return pipe.read(), status


# At the keyboard

LONG = "--patience", "120"  # (the key comes before that ends)


def interrupts(child, is_under_way):
    """Once that is so. Its status, and what it said."""
    assert until(is_under_way), "nothing is under way"
    child.send_signal(signal.SIGINT)
    out, err = child.communicate(timeout=HANGS)
    return child.returncode, out, err.decode()


@contextlib.contextmanager
def held(desk):
    """The room answers nothing."""
    os.kill(desk.served.server.pid, signal.SIGSTOP)
    try:
        yield
    finally:
        os.kill(desk.served.server.pid, signal.SIGCONT)


def test_key_stops_a_command(desk):
    desk.prints("put", "-", "/a", want="/a: 0 bytes\n")
    desk.file("x", b"x")
    with held(desk):
        is_sent = lambda: is_pending(desk.path("ann.json"), "APPEND") and waiting_at(desk.served.port)
        assert interrupts(desk.start(*LONG, "append", "x", "/a"), is_sent) == (130, b"", (
            "room: APPEND /a: whether it was done is not known: it is kept, and sent again before your next command, "
            "or by: room session finish\n"))
    assert desk.does("session", "finish") == (0, "", "room: finished what was pending: APPEND /a: done\n")
    desk.prints("get", "/a", want="x")


@pytest.mark.front
def test_key_stops_several_slots(desk):
    """It ends at once, and each acts once."""
    with desk.behind() as room:
        room.mkdir("/d")
    desk.file("in", some(40 * PIECE, 1))
    with held(desk):
        assert interrupts(desk.start(*LONG, "put", "in", "/d/a"), lambda: waiting_at(desk.served.port))[0] == 130
    assert desk.does("put", "in", "/d/a")[0] == 0
    desk.file("in", some(40 * PIECE, 2))
    desk.front.faults[:] = 25 * ["pass"] + 99 * ["hold"]  # (it is at its pieces by then)
    is_held = lambda: len(desk.front.faults) <= 99 - SLOTS and is_pending(desk.path("front.json.3"), "CREATE")
    status, out, err = interrupts(desk.start(*LONG, "put", "in", "/d/a"), is_held)
    del desk.front.faults[:]
    desk.front.held.set()
    assert (status, out) == (130, b"")
    assert "room: stopped: of what was under way it is not known whether it was done" in err
    said = "room: what was under way at /d/a was stopped: give it again\n"
    assert desk.does("session", "finish") == (0, "", said)
    desk.prints("get", "/d/a", "out", want=f"{40 * PIECE} bytes to out\n")


def test_key_is_told_also_where_some_slots_have_not_begun():
    said = []
    slot = types.SimpleNamespace(stop=lambda: None, say=said.append)
    begins = mock.patch.object(threading.Thread, "start", side_effect=[None, KeyboardInterrupt])
    with begins, pytest.raises(KeyboardInterrupt):
        slots.Crew([{}, {}], said.append).run([slot, slot])
    assert [it.partition(":")[0] for it in said] == ["stopped"]


# The room does not know the session any more, or not so far

def test_session_of_a_room_made_anew(desk):
    desk.prints("put", "-", "/a", stdin=b"x", want="/a: 1 bytes\n")
    desk.served.kill()
    assert sqlite(desk.served.db, "DELETE FROM kept; DELETE FROM session;") == ""
    desk.served.start()
    desk.refuses("ls", status=4, want="BADSESSION (20) at /: the session is not open: the room was made anew or set "
                 "back to a copy, or the session was closed: begin another: room session new")
    desk.prints("session", "new", want="begun anew\n")
    desk.prints("ls", want="a\n")


@pytest.mark.parametrize("more, name", [(0, "SEQ_MISORDERED (22)"), (1, "SEQ_FALSE_RETRY (23)")])
def test_session_of_a_state_file_set_back(desk, more, name):
    desk.prints("mkdir", "/a", want="/a: made\n")
    kept = json.loads(desk.read("ann.json"))
    for path in "/b", "/c":
        desk.prints("mkdir", path, want=f"{path}: made\n")
    desk.file("ann.json", json.dumps(kept | {"number": kept["number"] + more}).encode())
    status, out, err = desk.does("mkdir", "/d")
    assert (status, out) == (4, "")
    assert err.startswith(f"room: {name}") and err.endswith("begin another: room session new\n"), err
    with pytest.raises(SessionLost), desk.room() as room:
        room.mkdir("/d")


def test_session_names_what_was_pending(desk):
    with desk.room() as room:
        room.create("/a", b"")
        room.state.record('{"cmd":"APPEND","data":"eA==","path":"/a"}')
        room.slot().is_answered = False
    assert "\npending: APPEND /a\n" in desk.does("session")[1]
    desk.prints("session", "new", want="begun anew; whether this was done is not known, look: APPEND /a\n")
    desk.prints("get", "/a", want="")


@pytest.mark.front
def test_session_in_a_state_file_of_before(desk):
    """One slot, with something pending: it is done once, and the next session has more."""
    with desk.behind() as room:
        room.create("/log", b"")
    old = {"url": desk.front_url, "user": "ann", "name": "0123456789abcdef" * 2, "is_open": True, "number": 1,
           "pending": '{"cmd":"APPEND","data":"eA==","path":"/log"}'}
    with desk.behind(state=desk.path("opens")) as room:
        slot = room.slot()
        slot.need_done(slot.until_answered("POST", f"/v1/sessions/{old['name']}", '{"slots":1}'))
    desk.file("old", json.dumps(old).encode())
    said = []
    for count in 1, SLOTS:
        with desk.behind(said.append, state=desk.path("old")) as room:
            assert (room.read("/log"), room.state.session.slots) == (b"x", count)
    assert said == ["finished what was pending: APPEND /log: done"]
