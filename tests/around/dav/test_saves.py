"""Programs save by renames, each in its own order: what has the document's name stays that document, with its owner,
group, list and number, and whom its list denies is shown no byte of it, before, after, or between two requests."""
import os
import unicodedata

import pytest

from .desk import HERS, Wire, asks
from .saves import ENG_CHANGES, ENG_EDITS, LARGE, NO_PUPILS, PROGRAMS, PUPILS_VIEW, SECRET, SIZES, SMALL, TRASH, Saves

HOW = {"kind": Saves, "others": ("other",)}
TWO, FOUR = [("ann", SMALL), ("bob", LARGE)], [(user, size) for user in ("ann", "bob") for size in SIZES]
OPEN = "b3Blbg=="


@pytest.mark.parametrize("program, user, size", [
    (it, *how) for it in PROGRAMS for how in (FOUR if it in ("word", "vim") else TWO)])
def test_a_program(desk, program, user, size):
    """By the owner and by another, small and large."""
    old, new = os.urandom(size), os.urandom(size + 10)
    doc = desk.made(old)
    before = desk.itself(doc)
    for data in new, old:  # (and once more)
        desk.save(program, user, doc, data, old[:60], new[:60])
        assert desk.get(user, doc) == data
        assert desk.kept(doc) == before[0]
    assert desk.itself(doc) == before
    assert sorted(desk.inside()) == ([doc, doc + "~"] if program == "emacs" else [doc])


@pytest.mark.parametrize("before, after", [SIZES, SIZES[::-1]])
@pytest.mark.parametrize("program", ["word", "vim", "excel"])
def test_another_form(desk, program, before, after):
    """A document becomes large, and a large file small. (Where it becomes a folder, its number is another.)"""
    old, new = os.urandom(before), os.urandom(after)
    doc = desk.made(old)
    its, _ = desk.kept(doc)
    desk.save(program, "ann", doc, new, old[:60], new[:60])
    assert desk.get("bob", doc) == new
    now, list_ = desk.kept(doc)
    assert now | {"kind": None} == its | {"kind": None}
    assert "pupils" in [it["who"] for it in list_["entries"] if it["type"] == 1]


# What is no save, what may not be done, and what else goes with it

def is_new(desk, doc, user):
    """Whether it is another document, by its folder's list."""
    its, list_ = desk.kept(doc)
    return list_["entries"][0]["flag"] & 0x80 and its["owner"] == user


def test_what_is_no_save(desk):
    desk.made()
    for mover, putter in ("ann", "bob"), ("bob", "ann"):
        desk.play(f"{mover} MOVE a.odt 201 > x~; {putter} PUT a.odt 201 > another's")
        assert is_new(desk, "a.odt", putter)
        desk.play("ann DELETE a.odt 204; ann MOVE x~ 201 > a.odt")
    assert not is_new(desk, "a.odt", "ann")


def test_another_room(desk):
    """Of the same path, by the same user."""
    doc, other = desk.made(), Wire(desk.beside["other"], "ann")
    aside = desk.at("x~")
    for command in ({"cmd": "MKDIR", "path": desk.top}, {"cmd": "CREATE", "path": aside, "data": ""},
                    {"cmd": "SETLIST", "path": aside, "aclflag": 1, "entries": [NO_PUPILS]}):
        assert other.ask(command)["code"] == 0
    desk.does("ann", "MOVE", doc, 201, to="x~")
    desk.does("ann", "PUT", f"/dav/other{desk.at(doc)}", 201, b"new", raw=True)
    assert [it for it, _ in other.ask({"cmd": "LIST", "path": desk.top})["names"]] == [doc, "x~"]
    lists = [other.ask({"cmd": "GETLIST", "path": it})["entries"] for it in (aside, desk.at(doc))]
    assert [NO_PUPILS in it for it in lists] == [True, False]


@pytest.mark.parametrize("data, owner", [(b"small", "ann"), (b"l" * 70_000, "bob")], ids=["list", "owner"])
def test_another_document(desk, data, owner):
    """One with a list or an owner of its own stays itself."""
    doc = desk.made(b"old")
    desk.does(owner, "PUT", "b.odt", 201, data)
    if owner == "ann":
        desk.set_list("b.odt", 1, [NO_PUPILS | {"who": "bob", "flag": 0}])
    desk.play("ann MOVE a.odt 201 > x~; ann MOVE b.odt 201 > a.odt")
    its, list_ = desk.kept(doc)
    assert its["owner"] == owner
    assert "pupils" not in [it["who"] for it in list_["entries"] if it["type"] == 1]
    assert desk.get("ann", "x~") == b"old"


def test_another_document_where_the_first_is_aside(desk):
    """It is not taken for it."""
    desk.made()
    desk.play("ann MOVE a.odt 201 > x~; ann RENAME x~ > y; bob CREATE x~; ann PUT a.odt 412 > new")


@pytest.mark.parametrize("program", ["word", "vim"])
@pytest.mark.parametrize("size", SIZES)
def test_who_may_not(desk, program, size):
    """Bob may rename it, and not write it: all is as it was, and he is told why."""
    old, new = os.urandom(size), os.urandom(size)
    doc = desk.made(old)
    desk.set_list(doc, 1, [{"flag": 0x3 if size == LARGE else 0, "mask": 0x6, "type": 1, "who": "bob"}])
    before, steps, said = desk.kept(doc), [*desk.steps(program, doc)], []
    for it in steps:
        said.append(desk.step("bob", it, new)[0])
        if said[-1].status == 403:
            break
    aside = next(it[2] for it in steps if it[:2] == ("MOVE", doc))
    assert b"you lack the right" in said[-1].body
    assert desk.get("ann", aside) == old
    desk.does("bob", "MOVE", aside, 201, to=doc)
    assert desk.kept(doc) == before
    assert {*desk.inside()} <= {doc, *(it[1] for it in steps)}


def test_with_edit(desk):
    """The first day's right is not enough: nothing is moved."""
    doc = desk.made(entries=[ENG_EDITS, HERS, PUPILS_VIEW])
    desk.play("bob PUT a.odt 204 > new; bob MOVE a.odt 403 > a.odt~")
    assert desk.get("ann", doc) == b"new"


@pytest.mark.parametrize("size", SIZES)
def test_a_new_name_is_of_its_folder(desk, size):
    """What a program put under a name of its own is for nobody else, until it has one that stays."""
    desk.made()
    desk.wire("ann", "CHOWN", desk.top, owner="ann", group="staff")
    data = os.urandom(size)
    for status in 201, 204:
        desk.does("ann", "PUT", "~WRD1.tmp", status, data)
        for user in "bob", "cat":
            desk.does(user, "GET", "~WRD1.tmp", 403)
    desk.play("ann MOVE ~WRD1.tmp 201 > ~WRD2.tmp; cat GET ~WRD2.tmp 403; ann MOVE ~WRD2.tmp 201 > new.odt")
    its, list_ = desk.kept("new.odt")
    assert (its["group"], list_["aclflag"]) == ("staff", 1)
    for user in "bob", "cat":
        assert desk.get(user, "new.odt") == data
    desk.does("ann", "PUT", "mine.tmp", 201, b"m")
    desk.set_list("mine.tmp", 2, [{"flag": 0, "mask": 0x1F07FF, "type": 0, "who": "OWNER@"}])
    desk.play("ann MOVE mine.tmp 201 > mine.odt; cat GET mine.odt 403; ann PUT .~lock.a.odt# 201 > ann has it open")
    desk.play("cat GET .~lock.a.odt# 200; ann PUT 20261201 201 > a day; cat GET 20261201 200")


@pytest.mark.parametrize("size", SIZES)
def test_what_is_refused_at_last_leaves_nothing(desk, size):
    """As the new bytes, which lie in the trash, are to have their name."""
    desk.made()
    before = desk.inside(TRASH)
    for name, status, does in (("m.tmp", 412, lambda: desk.wire("bob", "CREATE", "m.tmp", data="")),
                               ("n.tmp", 403, lambda: desk.set_list(desk.top, 2, [PUPILS_VIEW]))):
        with desk.before(asks("RENAME", name), does):
            desk.does("ann", "PUT", name, status, os.urandom(size))
        assert desk.inside(TRASH) == before


@pytest.mark.parametrize("size, aside", [(SMALL, "~WRL1.tmp"), (LARGE, "a.bak")])
def test_what_is_removed_before_the_new_one_comes(desk, size, aside):
    """It waits in the trash, and is the document again."""
    old, new = os.urandom(size), os.urandom(size)
    doc = desk.made(old)
    before = desk.itself(doc)
    desk.does("ann", "PUT", "n.tmp", 201, new)
    desk.does("ann", "MOVE", doc, 201, to=aside)
    desk.does("ann", "DELETE", aside, 204)
    desk.does("ann", "MOVE", "n.tmp", 201, to=doc)
    assert desk.itself(doc) == before
    assert desk.get("bob", doc) == new


@pytest.mark.parametrize("name", [unicodedata.normalize("NFD", "é.odt"), " a.odt"], ids=["not composed", "a blank"])
def test_a_name_of_other_letters(desk, name):
    """A document whose name is not composed, or begins with a blank, has that again."""
    desk.made()
    desk.wire("ann", "CREATE", name, data="")
    desk.set_list(name, 1, [NO_PUPILS])
    before = desk.itself(name)
    desk.save("vim with another name", "ann", name, SECRET, SECRET)
    assert desk.itself(name) == before


@pytest.mark.parametrize("part", ["a", "odt", "a.odt"])
def test_a_new_version_by_a_part_of_the_name(desk, part):
    """What was just made is no document whose backup has that name."""
    doc = desk.made(doc="a.odt.txt")
    before = desk.itself(doc)
    desk.does("ann", "PUT", part, 201, b"new")
    desk.does("ann", "MOVE", part, 204, to=doc)
    assert desk.itself(doc) == before


@pytest.mark.parametrize("owner, name", [("ann", "a.odt.bak"), ("bob", "a.odt.bak"), ("bob", "a.odt~")])
def test_a_backup_over_an_open_one(desk, owner, name):
    """The document's list goes along, whoever had a file of that name."""
    desk.made()
    desk.wire(owner, "CREATE", name, data=OPEN)
    desk.does("ann", "COPY", "a.odt", 204, to=name)
    assert desk.shown(b"old secret") == []
    assert desk.get("ann", name) == b"old secret"


def test_a_backup_of_what_has_a_list_that_is_not_told(desk):
    desk.made()
    desk.set_list("a.odt", 2, [{"flag": 0, "mask": 0x81, "type": 0, "who": "bob"}])
    desk.play("bob COPY a.odt 201 > a.odt.bak; cat GET a.odt.bak 403")
    assert desk.get("bob", "a.odt.bak") == b"old secret"


@pytest.mark.parametrize("owner, group, by, looks", [
    ("cat", "eng", "bob", "cat GET a.odt.bak 200 > old secret; ann GET a.odt.bak 200 > old secret"),
    ("ann", "pupils", "ann", "cat GET a.odt.bak 200 > old secret; bob GET a.odt.bak 403")])
def test_a_backup_is_for_the_documents_owner_and_group(desk, owner, group, by, looks):
    """Also where somebody else makes it, by a list that names neither, or one's own has another group."""
    desk.made()
    desk.set_list("a.odt", 2, [HERS | {"flag": 0}, ENG_CHANGES | {"flag": 0, "who": "GROUP@"}])
    desk.wire("ann", "CHOWN", "a.odt", owner=owner, group=group)
    desk.play(f"{by} COPY a.odt 201 > a.odt.bak; {looks}")


@pytest.mark.parametrize("name", ["a.odt.tmp", "5D4A1F00"])
def test_a_programs_name_that_somebody_else_has(desk, name):
    """Nothing that is to become a version goes into a file of theirs, who could read it there."""
    desk.made()
    desk.wire("bob", "CREATE", name, data=OPEN)
    assert b"somebody else" in desk.does("ann", "PUT", name, 403, SECRET).body
    assert desk.shown(SECRET) == []
    desk.does("bob", "PUT", name, 204, b"theirs")


def test_what_is_aside_as_another_takes_its_name(desk):
    """It is no version of before: it goes to the trash, also by a name that is else removed for good."""
    desk.made()
    desk.play("ann PUT ~WRD1.tmp 201 > new; ann MOVE a.odt 201 > ~WRL1.tmp; bob PUT a.odt 201 > bob's")
    desk.play("ann MOVE ~WRD1.tmp 412 > a.odt")
    before = {*desk.inside(TRASH)}
    desk.does("ann", "DELETE", "~WRL1.tmp", 204)
    kept, = {*desk.inside(TRASH)} - before
    assert "WRL1.tmp" in kept
    assert desk.get("ann", f"{TRASH}/{kept}") == b"old secret"


def test_the_trash_does_not_fill(desk):
    before = desk.inside(TRASH)
    desk.made()
    for name, data in *((it, "x") for it in ("4913", ".a.odt.swp", "a.odt~", "#a.odt#", ".~a.odt")), ("empty.odt", ""):
        desk.play(f"ann PUT {name} 201 > {data}; ann DELETE {name} 204")
    assert desk.inside(TRASH) == before
    desk.does("ann", "DELETE", "a.odt", 204)
    assert len(desk.inside(TRASH)) == len(before) + 1
