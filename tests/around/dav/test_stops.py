"""The gateway is killed in the middle of a save by renames, or who saves is held then: what was begun is put right, and
the document stays itself."""
import contextlib
import os
import re
import time

import pytest

from .desk import asks, makes_changes, stop
from .saves import LARGE, SMALL, TRASH, Saves

HOW = {"kind": Saves, "patience": 60}
SOON = 40  # seconds: the gateway waits longer for the room


class Stop:
    """The gateway is killed, and started again. The program sends the request again that had no answer, and goes on."""
    says = "left by a stop in room plans", "put right at a request of"

    def __init__(self, desk):
        self.desk, self.has_come = desk, False

    def comes(self):
        self.has_come = True
        stop(self.desk.gateway)

    def step(self, step, new, *secrets):
        with contextlib.suppress(OSError):
            got, _ = self.desk.step("ann", step, new)
            if got.status != 502:
                return got
        assert self.has_come
        assert self.desk.shown(*secrets) == [], step
        self.desk.start_gateway()
        got, _ = self.desk.step("ann", step, new)
        assert self.desk.shown(*secrets) == [], step
        return got


class Hold(Stop):
    """Ann is held: she is told so at once, reads on, and what she had begun is put right once she may change things
    again."""
    says = ("put right at a request of ann",)

    def comes(self):
        self.has_come = True
        self.desk.hold()

    def step(self, step, new, *secrets):
        begin = time.monotonic()
        got, _ = self.desk.step("ann", step, new)
        if got.status == 429:
            assert b"you are held" in got.body
            assert time.monotonic() - begin < SOON
            assert self.desk.shown(*secrets) == [], step
            for user, path in ("ann", "/"), ("bob", "/"), ("ann", self.desk.top):
                self.desk.names(user, path)
            self.desk.release()
            got, _ = self.desk.step("ann", step, new)
        self.desk.release()
        assert self.desk.shown(*secrets) == [], step
        return got


def is_stopped(desk, kind, program, size, last):
    """Whether it came to so many changes."""
    old, new = os.urandom(size), os.urandom(size + 10)
    doc, secrets = desk.made(old), (old[:60], new[:60])
    before, its, count, watches = desk.itself(doc), kind(desk), 0, False

    def is_it(message):
        nonlocal count
        count += watches and b".room-writing-" not in message and makes_changes(message)
        return count == last
    desk.loser.meanwhile = is_it, its.comes
    for step in desk.steps(program, doc):
        watches = step[0] == "MOVE" or step[:2] == ("PUT", doc)
        got = its.step(step, new, *secrets)
        assert got.status in (200, 201, 204, 404), (step, got.body)
    desk.loser.meanwhile = None
    if desk.get("ann", doc) != new:
        assert its.has_come
        assert desk.get("ann", doc) == old
        desk.does("ann", "PUT", doc, 204, new)
    assert desk.itself(doc) == before
    assert desk.shown(*secrets) == []
    assert {*desk.inside()} == {doc}
    return its.has_come


@pytest.mark.parametrize("kind, program, size", [
    (Stop, "word", SMALL), (Stop, "word", LARGE), (Stop, "vim", SMALL), (Stop, "vim", LARGE), (Hold, "vim", SMALL),
    (Hold, "word", LARGE)])
def test_at_each_change_of_a_save(desk, kind, program, size):
    last, said = 1, len(desk.said())
    while is_stopped(desk, kind, program, size, last):
        last += 1
    assert last > 7
    assert [it for it in kind.says if it not in desk.said()[said:]] == []


def killed(desk, cmd, name, *request, **how):
    """The gateway is, behind that request to the room."""
    with desk.before(asks(cmd, name), lambda: stop(desk.gateway)), contextlib.suppress(OSError):
        assert desk.ask(*request, **how).status == 502
    desk.start_gateway()


def lost(desk, cmd, name, *request, **how):
    """That request acts, and its answer is lost with the session."""
    assert desk.as_sessions_end(asks(cmd, name), *request, **how) == 503


@pytest.mark.parametrize("user", ["ann", "bob", "cat"])
def test_a_move_over_a_file(desk, user):
    desk.made()
    desk.does("ann", "PUT", "new", 201, b"new")
    killed(desk, "RENAME", desk.at("new~"), "ann", "MOVE", "new", to="a.odt")
    assert re.fullmatch("new~[0-9a-f]{16}", sorted(desk.inside())[1])
    assert f"left by a stop in room plans: {desk.at('new')} may lie as {desk.at('new~')}" in desk.said()
    desk.names(user, desk.top)
    assert ("new" in desk.inside()) == (user != "cat")
    assert desk.get("ann", "new") == b"new"
    assert sorted(desk.inside()) == ["a.odt", "new"]
    desk.does("ann", "MOVE", "new", 204, to="a.odt")
    assert desk.get("ann", "a.odt") == b"new"


def test_a_move_over_a_file_as_the_session_is_lost(desk):
    desk.made()
    desk.does("ann", "PUT", "new", 201, b"new")
    lost(desk, "RENAME", desk.at("new~"), "ann", "MOVE", "new", to="a.odt")
    assert desk.get("ann", "new") == b"new"


@pytest.mark.parametrize("user, by", [("ann", TRASH), ("bob", "folder~")])
def test_a_move_over_a_folder(desk, user, by):
    desk.made()
    for it in "folder", "other":
        desk.does(user, "MKCOL", it, 201)
    desk.does(user, "PUT", "folder/in", 201, b"i")
    killed(desk, "RENAME", by, user, "MOVE", "other", to="folder")
    assert len(desk.inside()) == (2 if user == "ann" else 3)
    assert desk.get(user, "folder/in") == b"i"
    assert sorted(desk.inside()) == ["a.odt", "folder", "other"]


@pytest.mark.parametrize("stops, cmd", [(killed, "RENAME"), (lost, "RENAME"), (lost, "GETLIST")])
def test_a_name_that_opens(desk, stops, cmd):
    desk.made()
    desk.does("ann", "PUT", "n.tmp", 201, b"new")
    stops(desk, cmd, desk.at("n."), "ann", "MOVE", "n.tmp", to="n.odt")
    if stops is killed:
        desk.does("cat", "GET", "n.odt", 403)
    desk.does("ann", "PROPFIND", "/", 207, Depth="0")
    assert desk.get("cat", "n.odt") == b"new"


def test_who_moved_what_aside_as_the_session_is_lost(desk):
    desk.made()
    before = desk.kept("a.odt")
    lost(desk, "RENAME", desk.at("x~"), "ann", "MOVE", "a.odt", to="x~")
    desk.does("ann", "PUT", "a.odt", 201, b"new")
    assert desk.kept("a.odt") == before


@pytest.mark.parametrize("stops", [killed, lost])
def test_who_removed_what_is_aside(desk, stops):
    """It is in the trash, though no answer came, and waits there."""
    desk.made()
    before = desk.itself("a.odt")
    desk.does("ann", "MOVE", "a.odt", 201, to="x~")
    stops(desk, "RENAME", desk.at("x~"), "ann", "DELETE", "x~")
    assert desk.inside() == {}
    desk.does("ann", "PUT", "a.odt", 201, b"new")
    assert desk.itself("a.odt") == before


def test_what_is_aside_has_made_way(desk):
    """It is in the trash as the gateway is killed, and does not come back where somebody else has its name: it waits
    there."""
    desk.made()
    before = desk.itself("a.odt")
    desk.play("ann MOVE a.odt 201 > x~; ann PUT b.odt 201 > other")
    killed(desk, "RENAME", f'"path":"{desk.at("x~")}"', "ann", "MOVE", "b.odt", to="x~")
    desk.play("bob CREATE x~; ann PUT a.odt 201 > new")
    assert (desk.itself("a.odt"), sorted(desk.inside())) == (before, ["a.odt", "b.odt", "x~"])
