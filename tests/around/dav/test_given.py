"""What somebody else lays where a program saves, and gives away or opens: no version goes into it that they, or others,
could read there."""
import base64
import os

import pytest
from given import each

from .desk import HERS, PIECE, asks, makes_changes
from .saves import SECRET, SIZES, Saves

HOW = {"kind": Saves}
OLD = b"old secret"
ALL = {"flag": 0, "mask": 0x1F07FF, "type": 0}
VIEW = ALL | {"mask": 0x1200A9}
WRITE_UNTOLD = ALL | {"mask": 0x10007, "who": "ann"}  # to read, write and remove, and not to ask whose it is
OPEN = [ALL | {"who": "ann"}, ALL | {"who": "bob"}, VIEW | {"who": "cat"}]
MAY_ADD = ALL | {"mask": 0x1200A2, "who": "bob"}  # in a folder, and to read nothing there
CLOSED = [HERS, HERS | {"who": "ann"}, MAY_ADD]


def lays(desk, path, entries, owner="bob"):
    """Bob makes it, with this list, and gives it to the owner."""
    desk.wire("bob", "CREATE", path, data="")
    if entries:
        desk.wire("bob", "SETLIST", path, aclflag=2, entries=entries)
    if owner != "bob":
        desk.wire("bob", "CHOWN", path, owner=owner, group="eng")


def need_kept(desk, path, method, source=None):
    """It is refused, and nothing went there."""
    got = desk.ask("ann", method, source or path, b"" if source else SECRET, to=path if source else None)
    assert (got.status, desk.shown(SECRET)) == (403, []), got.body


@pytest.mark.parametrize("name", ["n.tmp", "5D4A1F00"])
@each("entries, owner", [("of whom one is not told", [WRITE_UNTOLD, VIEW | {"who": "cat"}], "bob"),
                         ("of ones own and open", OPEN, "ann")])
def test_a_programs_name(desk, entries, owner, name):
    desk.made()
    lays(desk, name, entries, owner)
    need_kept(desk, name, "PUT")


def test_a_programs_name_that_has_its_folders_list(desk):
    """It is closed before anything is there, but for a folder."""
    desk.made()
    lays(desk, "n.tmp", None, "ann")
    desk.does("ann", "PUT", "n.tmp", 204, SECRET)
    assert desk.shown(SECRET) == []
    desk.does("ann", "MOVE", "n.tmp", 204, to="a.odt")
    assert desk.shown(SECRET) == []
    desk.play("ann MKCOL m.tmp 201; ann PUT m.tmp 405 > new secret")
    desk.names("cat", "m.tmp")


def test_a_programs_name_that_another_one_takes(desk):
    desk.made()
    desk.does("ann", "PUT", "n.tmp", 201, SECRET)
    lays(desk, "m.tmp", OPEN)
    need_kept(desk, "m.tmp", "MOVE", "n.tmp")
    assert desk.get("ann", "n.tmp") == SECRET


def test_a_programs_name_of_what_is_aside(desk):
    """It has the list of the document that it is."""
    desk.made()
    desk.play("ann MOVE a.odt 201 > x~; ann PUT x~ 204 > new secret; cat GET x~ 403; bob RENAME x~ > y")
    lays(desk, "x~", OPEN, "ann")
    need_kept(desk, "x~", "PUT")


def test_a_programs_name_of_somebody_elses_that_is_aside(desk):
    desk.made()
    desk.play("bob MOVE a.odt 201 > x~; bob PUT x~ 403 > new secret")


def need_backed_up(desk, name, entries, owner):
    desk.does("bob", "GET", "r.odt", 403)
    lays(desk, name, entries, owner)
    desk.play(f"ann COPY r.odt 204 > {name}; bob GET {name} 403")
    assert desk.get("ann", name) == SECRET


@pytest.mark.parametrize("name", ["r.odt.bak", "r.old", "Copy of r.odt"])
@each("entries, owner", [("bobs and open", OPEN, "bob"), ("anns and open", OPEN, "ann"), ("bobs", None, "bob")])
def test_a_backup(desk, name, entries, owner):
    """Of a document that has its folder's list, where others may add."""
    desk.made(entries=CLOSED)
    desk.does("ann", "PUT", "r.odt", 201, SECRET)
    need_backed_up(desk, name, entries, owner)


@pytest.mark.parametrize("by_webdav", [True, False], ids=["by WebDAV", "past it"])
def test_a_backup_of_any_name_that_has_the_documents(desk, by_webdav):
    """Of one that was not made a moment ago, or is closed."""
    desk.made(entries=CLOSED)
    if by_webdav:
        desk.does("ann", "PUT", "r.odt", 201, SECRET)
        desk.set_list("r.odt", 2, [ALL | {"who": "ann"}])
    else:
        desk.wire("ann", "CREATE", "r.odt", data=base64.b64encode(SECRET).decode())
    need_backed_up(desk, "1 r.odt x", OPEN, "bob")
    if by_webdav:
        lays(desk, "2 r.odt x", OPEN)
        desk.does("ann", "MOVE", "r.odt", 204, to="2 r.odt x")
        desk.does("bob", "GET", "2 r.odt x", 403)


@pytest.mark.parametrize("name", ["r.odt.bak", "Copy of r.odt"])
@pytest.mark.parametrize("is_closed", [False, True])
def test_a_backup_that_comes_meanwhile(desk, name, is_closed):
    """As the document is about to be copied there."""
    desk.made()
    desk.does("ann", "PUT", "r.odt", 201, SECRET)
    if is_closed:
        desk.set_list("r.odt", 2, [ALL | {"who": "ann"}])
    with desk.before(asks("CREATE"), lambda: lays(desk, name, OPEN)):
        desk.does("ann", "COPY", "r.odt", 412, to=name)
    assert desk.shown(SECRET) == ([] if is_closed else [desk.at("r.odt")])


GIVEN_BACK = "ann MOVE a.odt 201 > x~; bob MOVE x~ 201 > a.odt"


@each("steps", [
    ("given back and taken again", GIVEN_BACK + "; ann PUT a.odt 204 > another secret; bob MOVE a.odt 201 > z; "
     "ann PUT a.odt 201 > new secret"),
    ("given back and moved aside anew", GIVEN_BACK + "; ann MOVE a.odt 201 > y~; ann PUT a.odt 201 > new secret"),
    ("given back by its owner", "bob MOVE a.odt 201 > x~; ann MOVE x~ 201 > a.odt; bob PUT a.odt 204 > new secret"),
    ("made a moment ago and closed", "ann MOVE a.odt 201 > any-name; ann PUT a.odt 201 > new secret")])
def test_it_stays_itself(desk, steps):
    desk.made()
    before = desk.itself("a.odt")
    desk.play(steps)
    assert desk.itself("a.odt") == before
    assert desk.shown(SECRET, b"another secret") == []


def test_it_is_taken_again_past_webdav(desk):
    """It is not there."""
    desk.made()
    desk.play(GIVEN_BACK + "; ann PUT a.odt 204 > another secret; bob RENAME a.odt > z; ann PUT a.odt 412 > new secret")
    assert desk.shown(SECRET, b"another secret") == []


def test_who_was_given_it_back_removes_it(desk):
    """It waits no longer: it has its own name."""
    desk.made()
    desk.play(GIVEN_BACK + "; ann DELETE a.odt 204; ann PUT a.odt 201 > new")
    assert all(it["flag"] & 0x80 for it in desk.kept("a.odt")[1]["entries"])


@pytest.mark.parametrize("size", SIZES)
def test_a_list_that_is_not_told(desk, size):
    """Another document whose list is not told either is none of before."""
    doc, flag = desk.made(os.urandom(size)), 0x3 if size > PIECE else 0
    hidden = {"flag": flag, "mask": 0x1101EF, "type": 0, "who": "bob"}  # (all but READ_ACL)
    desk.does("ann", "PUT", "b.odt", 201, os.urandom(size))
    desk.set_list(doc, 2, [hidden, HERS | {"flag": flag}])
    desk.set_list("b.odt", 2, [hidden, HERS | {"flag": flag}, VIEW | {"flag": flag, "who": "cat"}])
    desk.play("bob MOVE a.odt 201 > x.bak; ann RENAME x.bak > y; ann RENAME b.odt > x.bak")
    desk.play("bob PUT a.odt 412 > new secret; ann RENAME x.bak > b.odt; ann RENAME y > x.bak")
    desk.does("bob", "PUT", doc, 201, os.urandom(size))


@pytest.mark.parametrize("user, status", [("bob", 423), ("ann", 201)])
def test_what_is_aside_is_locked(desk, user, status):
    """By somebody else it holds off the next version, too; by oneself it does not."""
    desk.made()
    number = desk.number("a.odt")
    desk.does("ann", "MOVE", "a.odt", 201, to="x.bak")
    desk.locked(user, "x.bak", Depth="0")
    desk.does("ann", "PUT", "a.odt", status, SECRET)
    assert desk.number("x.bak" if status == 423 else "a.odt") == number


# What somebody lays between two of the gateway's requests

def test_another_one_lies_there_meanwhile(desk):
    """As what was aside is to have its name again."""
    desk.made()
    desk.does("ann", "MOVE", "a.odt", 201, to="x.bak")

    def swaps():
        desk.wire("bob", "RENAME", "x.bak", to="y")
        lays(desk, "x.bak", OPEN)
    with desk.before(asks("RENAME"), swaps):
        desk.does("ann", "PUT", "a.odt", 412, SECRET)
    assert desk.shown(SECRET) == []
    assert [*desk.inside()] == ["x.bak", "y"]


@each("name, method, path, to, data", [
    ("a programs name", "n.tmp", "PUT", "n.tmp", None, SECRET),
    ("a programs name of a large file", "n.tmp", "PUT", "n.tmp", None, SECRET + bytes(70_000)),
    ("a backup", "a.odt.bak", "COPY", "a.odt", "a.odt.bak", b"")])
def test_a_name_that_is_taken_meanwhile(desk, name, method, path, to, data):
    """Before each change of a save in turn: what has the name is taken away, and an open one lies there."""
    last, has_come = 0, True
    while has_come:
        last, has_come, count = last + 1, False, 0
        desk.made()

        def is_it(message):
            nonlocal count
            count += b".room-writing-" not in message and makes_changes(message)
            return count == last

        def takes():
            nonlocal has_come
            has_come = True
            desk.asked("bob", "RENAME", name, to="away")
            lays(desk, name, OPEN)
        desk.loser.meanwhile = is_it, takes
        assert desk.ask("ann", method, path, data, to=to).status in ((201, 412) if to else (201, 204, 412))
        desk.loser.meanwhile = None
        assert desk.shown(SECRET, OLD) == [], last
    assert last > 3
