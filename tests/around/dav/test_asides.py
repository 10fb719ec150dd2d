"""While a document lies aside, somebody else may take its name, or move it on: what its list denies them, or others,
is written into nothing of theirs, and into nothing that is open."""
import os
import unicodedata

import pytest
from given import each
from room_client import files
from room_client.words import FOLDER

from .desk import PIECE, asks
from .saves import LARGE, NO_PUPILS, SECRET, SIZES, TRASH, Saves

HOW = {"kind": Saves}


def state(desk):
    """All that is in the folder, and its lists."""
    kinds = {it: "LIST" if kind == FOLDER else "READ" for it, kind in desk.inside().items()}
    return {it: [desk.asked("ann", cmd, it, keep=False) for cmd in ("STAT", "GETLIST", kinds[it])] for it in kinds}


def aside(desk, doc="a.odt", aside="x~", tmp="n.tmp", data=SECRET, user="ann", is_open=False):
    """What the document was that a program has moved aside, which has put its new version."""
    desk.made(b"old secret" if len(data) < PIECE else os.urandom(70_000))
    if doc != "a.odt":
        desk.wire("ann", "RENAME", "a.odt", to=doc)
    if is_open:
        desk.set_list(doc, 1, [])
    before = desk.itself(doc)
    desk.does(user, "PUT", tmp, 201, data)
    desk.does("cat", "GET", tmp, 200 if tmp == "plain.odt" else 403)
    desk.does(user, "MOVE", doc, 201, to=aside)
    return before


def ways(tmp="n.tmp"):
    """How a program brings the new version, or gives back the old one."""
    return [("MOVE", tmp, b"", "a.odt"), ("PUT", "a.odt", SECRET, None), ("COPY", tmp, b"", "a.odt"),
            ("MOVE", "x~", b"", "a.odt")]


def need_refused(desk, ways, why, user="ann"):
    before = state(desk)
    for method, path, body, to in ways:
        got = desk.ask(user, method, path, body, to=to)
        assert (got.status, state(desk)) == (412, before), (method, path, got.body)
        assert why in got.body
    assert [it for it in desk.shown(SECRET) if not it.endswith("plain.odt")] == []


def need_saved(desk, before, data=SECRET, doc="a.odt"):
    assert desk.itself(doc) == before
    assert desk.get("ann", doc) == data
    assert desk.shown(SECRET, b"old secret") == []


# Somebody else takes the name, or moves on what is aside

@pytest.mark.parametrize("tmp, size, theirs", [
    *((it, 10, 5) for it in ("~WRD1.tmp", "5D4A1F01", "N.TMP", ".goutputstream-1", "plain.odt")),
    *(("n.tmp", LARGE, it) for it in SIZES)])
def test_somebody_elses_file(desk, tmp, size, theirs):
    new = (SECRET + os.urandom(size))[:size]
    before = aside(desk, tmp=tmp, data=new)
    desk.does("bob", "PUT", "a.odt", 201, os.urandom(theirs))
    need_refused(desk, ways(tmp), b"is bob's")
    desk.play(f"bob PUT a.odt 204 > bob's own; bob DELETE a.odt 204; ann MOVE {tmp} 201 > a.odt")
    need_saved(desk, before, new)


@each("steps, count, why", [
    ("somebody elses folder", "bob MKCOL a.odt 201", 4, b"is bob's"),
    ("ones own that is open", "ann PUT open.odt 201 > open; bob RENAME open.odt > a.odt", 4, b"has another list"),
    ("moved to another folder", "bob MKCOL in 201; bob MOVE x~ 201 > in/x~", 3, b"is not where you moved it"),
    ("removed", "bob MKCOL in 201; bob DELETE x~ 204", 3, b"is not where you moved it"),
    ("moved on by page", "bob RENAME x~ > y", 3, b"is not where you moved it"),
    ("an open one in its place", "ann PUT open.odt 201 > open; bob RENAME x~ > y; bob RENAME open.odt > x~", 3,
     b"is not where you moved it"),
    ("an open one of its name", "ann PUT open.odt 201 > open; bob RENAME x~ > y; bob RENAME open.odt > a.odt", 3,
     b"has another list")])
def test_it_is_refused(desk, steps, count, why):
    """Where it went, whoever asks is not told; and it is no new document."""
    aside(desk)
    desk.play(steps)
    need_refused(desk, [it for it in ways()[:count] if it[0] != "PUT" or "MKCOL a.odt" not in steps], why)


@each("user, lies, steps", [
    ("somebody elses file is moved away", "ann", "x~", "bob PUT a.odt 201 > bob's; ann MOVE a.odt 201 > theirs.bak; "
     "ann MOVE n.tmp 201 > a.odt; bob GET theirs.bak 200 > bob's"),
    ("somebody elses file is moved over it, as a second save does", "ann", "a.odt~", "bob PUT a.odt 201 > bob's; "
     "ann MOVE a.odt 204 > a.odt~; ann PUT a.odt 201 > new secret; bob GET a.odt~ 200 > bob's"),
    *(("it has its own name by page", it, "x~", f"ann RENAME x~ > a.odt; {it} PUT a.odt 204 > new secret")
      for it in ("ann", "bob")),
    *(("it has another name by webdav", "ann", "x~", f"bob MOVE x~ 201 > y.odt; {it}; ann GET y.odt 200 > old secret")
      for it in ("ann MOVE n.tmp 201 > a.odt", "ann PUT a.odt 201 > new secret", "ann COPY n.tmp 201 > a.odt"))])
def test_it_is_saved(desk, user, lies, steps):
    before = aside(desk, user=user, aside=lies)
    desk.play(steps)
    need_saved(desk, before)


def test_a_file_of_ones_own_with_the_same_list(desk):
    """It tells nobody what the one aside does not."""
    aside(desk)
    desk.wire("ann", "CREATE", "a.odt", data="")
    desk.set_list("a.odt", 1, [NO_PUPILS])
    desk.play("ann PUT a.odt 204 > new secret; cat GET a.odt 403")


@pytest.mark.parametrize("is_open", [False, True])
def test_who_saves_somebody_elses_document(desk, is_open):
    """What its owner puts there is somebody else's, too, whatever its list."""
    aside(desk, user="bob", is_open=is_open)
    desk.does("ann", "PUT", "a.odt", 201, b"ann's")
    need_refused(desk, ways(), b"is ann's", "bob")


def test_two_of_ones_own(desk):
    """Both were moved aside, and they are not shown to the same: nobody knows which waits."""
    aside(desk)
    desk.wire("ann", "CREATE", "a.odt", data="")
    desk.set_list("a.odt", 1, [NO_PUPILS, NO_PUPILS | {"who": "bob", "flag": 0}])
    desk.does("ann", "MOVE", "a.odt", 201, to="y~")
    need_refused(desk, ways()[:3], b"not where you moved it, or not as it was")
    desk.play("ann MOVE y~ 201 > a.odt; bob GET a.odt 403")


def test_without_a_trash(desk):
    """Nothing takes the place of what is aside and waits, for it would be gone."""
    before = aside(desk, user="bob")
    desk.does("ann", "PUT", "a.odt", 201, b"ann's")
    need_refused(desk, [("MOVE", "a.odt", b"", "x~")], b"for good", "bob")
    desk.play("bob DELETE a.odt 204; bob PUT a.odt 201 > new secret")
    need_saved(desk, before)


def test_what_is_aside_is_removed(desk):
    """It is in the trash, and waits still."""
    before = aside(desk)
    desk.play("bob PUT a.odt 201 > bob's; ann DELETE x~ 204")
    need_refused(desk, ways()[:3], b"is bob's")
    desk.play("ann DELETE a.odt 204; ann PUT a.odt 201 > new secret")
    need_saved(desk, before)


def test_a_name_of_other_letters(desk):
    """A document whose name is not composed, where somebody else has that name composed."""
    doc = unicodedata.normalize("NFD", "é.odt")
    before = aside(desk, doc=doc)
    desk.play("bob PUT é.odt 201 > bob's; ann MOVE n.tmp 201 > é.odt")
    need_saved(desk, before, doc=doc)


@pytest.mark.parametrize("cmd, way", [("CREATE", 0), ("CREATE", 1), ("SETLIST", 0), ("SETLIST", 1), ("RENAME", 0),
                                      ("RENAME", 1), ("RENAME", 2)])
def test_a_file_that_comes_meanwhile(desk, cmd, way):
    """Between two requests to the room."""
    aside(desk)
    desk.does("ann", "PUT", "b.odt", 201, SECRET)
    desk.set_list("b.odt", 1, [NO_PUPILS])
    method, path, body, to = [*ways()[:2], ("MOVE", "b.odt", b"", "a.odt")][way]
    before = state(desk)
    with desk.before(asks(cmd), lambda: desk.wire("bob", "CREATE", "a.odt", data="Ym9iJ3M=")):
        got = desk.ask("ann", method, path, body, to=to)
    after = state(desk)
    assert (got.status, after.pop("a.odt")[2]["data"]) == (412, "Ym9iJ3M="), got.body
    assert after == before


def test_a_version_that_comes_meanwhile(desk):
    """As the document, a large one, has its name again: somebody else's is not written over."""
    old, new, theirs = (os.urandom(LARGE) for _ in range(3))
    desk.made(old)
    desk.does("ann", "MOVE", "a.odt", 201, to="x~")

    def writes():
        with desk.room("bob") as room:
            files.write(room, desk.at("a.odt"), theirs)
    with desk.before(asks("GETLIST", f'"path":"{desk.at("a.odt")}"'), writes):
        desk.does("ann", "PUT", "a.odt", 412, new)
    assert desk.get("ann", "x~") == theirs


def test_a_lock_makes_none(desk):
    aside(desk)
    desk.wire("bob", "RENAME", "x~", to="y")
    before = state(desk)
    desk.locked("ann", "a.odt", 412, Depth="0")
    assert state(desk) == before
    desk.locked("bob", "a.odt", 201, Depth="0")


@each("steps", [
    ("to another folder", "ann MKCOL in 201; ann MOVE x~ 201 > in/x~; ann PUT a.odt 201 > new"),
    ("over another one", "ann PUT other 201 > other; ann MOVE x~ 204 > other; ann PUT a.odt 201 > new"),
    ("another one over it", "ann PUT other 201 > other; ann MOVE other 204 > x~; ann PUT a.odt 201 > new"),
    ("away", "ann MKCOL in 201; ann MOVE x~ 201 > y; ann MOVE y 201 > in/y; ann PUT a.odt 201 > new"),
    ("a folder of its name", "ann MKCOL a.odt 201; ann MOVE n.tmp 204 > a.odt"),
    *(("with its folder", f"ann MKCOL in 201; ann PUT in/a 201 > a; ann MOVE in/a 201 > in/a.bak; {it}; "
       "ann MKCOL in 201; ann PUT in/a 201 > new") for it in ("ann MOVE in 201 > away", "ann DELETE in 204"))])
def test_what_one_moves_oneself(desk, steps):
    """A new document may have the name."""
    aside(desk)
    desk.play(steps)


def test_backups_in_turn(desk):
    desk.made()
    desk.play("ann COPY a.odt 201 > a.odt.bak; ann COPY a.odt 204 > a.odt.bak; ann MOVE a.odt.bak 201 > 1.bak")
    desk.play("ann COPY a.odt 201 > a.odt.bak; ann COPY a.odt 204 > a.odt.bak; ann MOVE a.odt.bak 201 > 2.bak")
    assert desk.shown(b"old secret") == []
    assert desk.inside(TRASH)
