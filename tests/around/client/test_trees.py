"""Several files and folders, names, and an editor: put, get, cp, find, sync, edit. (What each prints: trees.txt.)"""
import glob
import json
import os
import re
import sys
import tempfile
from unittest import mock

import pytest
from given import each
from room_client import editing, trees
from room_client.room import MOST_BYTES
from room_client.slots import Slot
from room_client.words import shown
from served import HANGS

from .desk import COMMAND, EVERYBODY, Desk, before_first

pytestmark = pytest.mark.front


def here(desk, top):
    """What is below a folder here: the bytes of files, None for folders."""
    paths = glob.glob("**", root_dir=desk.path(top), recursive=True, include_hidden=True)
    return {it: None if os.path.isdir(desk.path(f"{top}/{it}")) else desk.read(f"{top}/{it}") for it in paths if it}


def test_names_that_are_none_here(desk):
    """(This room takes no such names: one that tells them is played.)"""
    with desk.room() as room:
        room.mkdir("/d")
        room.mkdir("/d/up")
        for name, data in ("up/x", b"out"), ("here", b"out"), ("a", b"in"):
            room.create(f"/d/{name}", data)
    before, asked = here(desk, "."), Slot.ask

    def ask(slot, command):
        text = json.dumps(asked(slot, json.loads(json.dumps(command).replace("/d/..", "/d/up"))))
        return json.loads(text.replace('"up"', '".."').replace('"here"', '"."'))

    for words in (["get", "-r", "/d", "to"], ["sync", "room:/d", "to"]):
        with mock.patch.object(Slot, "ask", ask):
            status, _, err = desk.does(*words)
        assert status == 0
        for it in ".", "..":
            assert f"room: /d/{it} is left out: no file here can have that name\n" in err
        assert here(desk, "to") == {"a": b"in"}
        assert {it for it in here(desk, ".") if it not in before and "json" not in it} <= {"to", "to/a"}


def test_put_of_what_was_looked_at(desk):
    """Swapped between the look and the reading, so that the client would read elsewhere."""
    for name in "private", "photos/a.txt", "photos/2026/lake.jpg", "photos/2026/June/b.txt":
        desk.file(name, b"a secret")
    os.mkdir(desk.path("photos/empty"))
    made = trees.make_folders

    def swap(*words):
        os.remove(desk.path("photos/a.txt"))
        os.symlink(desk.path("private"), desk.path("photos/a.txt"))
        os.rename(desk.path("photos/2026"), desk.path("photos/before"))
        os.symlink(desk.path("photos/before"), desk.path("photos/2026"))
        return made(*words)
    with mock.patch.object(trees, "make_folders", swap):
        status, out, err = desk.does("put", "-r", "photos", "/other")
    assert (status, out, err.count("\n")) == (5, "", 3), err
    desk.prints("find", "/other", "*", want="/other/2026/\n/other/2026/June/\n/other/empty/\n")


@each("words", [("put", ["put", "-r", "photos", "/d"]), ("sync", ["sync", "photos", "room:/d"])])
def test_a_folder_here_that_cannot_be_listed(desk, words):
    """It is left out, and the status says so."""
    for name in "photos/a.txt", "photos/shut/b.txt":
        desk.file(name, b"x")
    plain = os.scandir

    def scandir(at):
        if os.path.basename(at) == "shut":
            raise PermissionError(13, "Permission denied")
        return plain(at)
    with mock.patch("os.scandir", scandir):
        status, _, err = desk.does(*words)
    assert (status, err) == (5, "room: what is in it is left out: photos/shut: Permission denied\n")
    desk.prints("find", "/d", "*", want="/d/a.txt\n/d/shut/\n")


def test_names_are_composed_and_trimmed_as_they_are_made(desk):
    desk.prints("put", "-", "/a\u0308 ", stdin=b"x", want="/\u00e4: 1 bytes\n")
    desk.prints("mkdir", "/ d ", want="/d: made\n")
    desk.prints("mv", "/a\u0308", "/d /o\u0308", want="/\u00e4 is now /d/\u00f6\n")
    desk.prints("get", "/d/o\u0308", want="x")
    with desk.room() as room:
        room.create("/u\u0308", b"of another client")
    desk.prints("get", "/u\u0308", want="of another client")
    desk.file("up/e\u0301", b"1")
    desk.prints("put", "-r", "up", "/up", want="/up/\u00e9: 1 bytes\n")
    desk.prints("sync", "up", "room:/up", want="1 same\n")


def test_names_of_a_twin_take_nobodys_place(desk):
    """What bob, who may add things, has made under a name that, put back, would be another's."""
    names = {"plan": b"ann's", "caf\u00e9": b"ann's too"}
    with desk.room() as room:
        room.set_list("/", 0, [EVERYBODY | {"who": "OWNER@"}, EVERYBODY | {"mask": 0x1200AF}])
        room.mkdir("/s")
        for name, data in names.items():
            room.create(f"/s/{name}", data)
    with desk.room("bob") as bob:
        for name in " plan", "cafe\u0301":
            bob.create(f"/s/{name}", b"bob's")
    status, out, err = desk.does("sync", "room:/s", "s")
    assert (status, out) == (0, "got caf\u00e9\ngot plan\n2 got\n")
    assert err.count("put back, it would take the place of another one in the room") == 2, err
    assert desk.does("get", "-r", "/s", "t")[1] == "9 bytes to t/caf\u00e9\n5 bytes to t/plan\n"
    for name in " plan", "cafe\u0301", " new", "new ":  # (as a client of before left them)
        desk.file(f"s/{name}", b"bob's")
    status, out, err = desk.does("sync", "s", "room:/s")
    assert (status, out) == (0, "2 same\n")
    assert err.count("another one gets the same name in the room") == 4, err
    for name in "plan", "new ":
        os.remove(desk.path(f"s/{name}"))
    for words in ("sync", "s", "room:/s"), ("put", "-r", "s", "/s"):
        status, out, err = desk.does(*words)
        assert status == 1
        assert "EXIST (4) at /s/plan" in err
    with desk.room() as room:
        assert {it: room.read(f"/s/{it}") for it in [*names, "new"]} == names | {"new": b"bob's"}


@each("words, where", [("of two folders", ["put", "a/x", "b/x", "b/y", "/d/"], "/d"),
                       ("in two folders of a name", ["put", "-r", "a/d", "b/d", "/"], "/d")])
def test_put_of_two_that_get_one_name(desk, words, where):
    """The first alone is put, whichever of them is large; the other ones are."""
    for top, size in ("a", 3), ("b", MOST_BYTES + 1):
        for it in "x", "d/x":
            desk.file(f"{top}/{it}", size * b"x")
    for it in "b/y", "b/d/y":
        desk.file(it, b"yy")
    with desk.room() as room:
        room.mkdir("/d")
    up = words[1:-1][-1] if "-r" in words else "b"
    status, out, err = desk.does(*words)
    assert (status, sorted(out.splitlines())) == (2, ["/d/x: 3 bytes", "/d/y: 2 bytes"])
    assert re.fullmatch(f"room: {up}/x: a/(d/)?x goes to /d/x too: put this under another name\n", err)
    desk.prints("ls", "-l", where, want="3  ann:eng  x\n2  ann:eng  y\n")


# What an editor was given lies in a folder of its own, which goes once it was put

ADDS = 'printf " two" >>"$1"'


@each("does, status, out, says, stands, left", [
    ("adds", ADDS, 0, "/a.txt: 7 bytes\n", "", "one two", []),
    ("nothing", ":", 0, "nothing was changed\n", "", "one", []),
    ("fails", f"{ADDS}; exit 3", 5, "", "ended with status 3: nothing was put; it is in {tmp}", "one", [b"one two"]),
    ("is slow", f"{ADDS}; {{bob}} put theirs /a.txt >&2", 7, "", "what you wrote is in {tmp}", "theirs", [b"one two"]),
    ("is shut out", f'{ADDS}; {{bob}} acl /a.txt add "deny EVERYONE@ write" >&2', 1, "", "what you wrote is in {tmp}",
     "one", [b"one two"])])
def test_edit(desk, does, status, out, says, stands, left):
    with desk.room() as room:
        room.create("/a.txt", b"one")
        room.set_list("/", 1, [EVERYBODY])
    desk.file("theirs", b"theirs")
    editor = does.replace("{bob}", " ".join([sys.executable, COMMAND, *Desk.words_of(desk, "bob")]))
    tmp = desk.path("tmp")
    os.mkdir(tmp)
    with mock.patch.object(tempfile, "tempdir", tmp), mock.patch.dict(os.environ, VISUAL=f"sh -c '{editor}' x"):
        got = desk.does("edit", "/a.txt")
    assert got[:2] == (status, out), got[2]
    assert says.format(tmp=tmp) in got[2]
    assert [[desk.read(f"tmp/{it}/{one}") for one in os.listdir(f"{tmp}/{it}")] for it in os.listdir(tmp)] == [
        [it] for it in left]
    desk.prints("get", "/a.txt", want=stands)


def test_edit_of_a_new_file(desk):
    with mock.patch.dict(os.environ, EDITOR=f"sh -c '{ADDS}' x"):
        desk.prints("edit", "/new", want="/new: 4 bytes\n")
    desk.prints("get", "/new", want=" two")


def test_edit_of_a_name_that_somebody_takes(desk):
    """Behind the last look: theirs stays, and what was written lies here."""
    def takes():
        with desk.room("bob") as bob:
            bob.create("/new", b"theirs")
    with desk.room() as room:
        room.set_list("/", 1, [EVERYBODY])
    os.mkdir(tmp := desk.path("tmp"))
    with (mock.patch.object(tempfile, "tempdir", tmp), mock.patch.dict(os.environ, EDITOR=f"sh -c '{ADDS}' x"),
          before_first(editing.files, "write", takes)):
        status, out, err = desk.does("edit", "/new")
    assert (status, out) == (1, "")
    assert "EXIST (4) at /new" in err
    folder, = os.listdir(tmp)
    assert desk.read(f"tmp/{folder}/new") == b" two"
    desk.prints("get", "/new", want="theirs")


def test_edit_whose_editor_is_told_to_stop_something(desk):
    """A terminal gives the key to all: an editor that runs something goes on behind it, and what is written is put."""
    does = "kill -INT $PPID; sleep 0.5; printf typed >$1"
    with mock.patch.dict(os.environ, VISUAL=f"sh -c '{does}' x", TMPDIR=desk.folder):
        child = desk.start("edit", "/new")
    assert (child.communicate(timeout=HANGS), child.returncode) == ((b"/new: 5 bytes\n", b""), 0)
    desk.prints("get", "/new", want="typed")


def test_edit_that_is_stopped_tells_where_the_text_is(desk):
    os.mkdir(tmp := desk.path("tmp"))
    with (mock.patch.object(tempfile, "tempdir", tmp), mock.patch.dict(os.environ, EDITOR=f"sh -c '{ADDS}' x"),
          mock.patch.object(editing.files, "write", side_effect=KeyboardInterrupt)):
        status, out, err = desk.does("edit", "/new")
    folder, = os.listdir(tmp)
    assert (status, out, err) == (130, "", f"room: what you wrote is in {tmp}/{folder}/new\n")
    assert desk.read(f"tmp/{folder}/new") == b" two"


@pytest.mark.parametrize("editor", ["none", "'", " "])
def test_edit_without_an_editor(desk, editor):
    """(Nothing is left in the folder of this machine: what ends each file of tests looks there.)"""
    with mock.patch.dict(os.environ, VISUAL=editor):
        desk.refuses("edit", "/a", status=5, want=f"no editor {shown(editor)}: name one by VISUAL or EDITOR")


def test_edit_by_what_is_no_program(desk):
    """(What a program would have been given goes again.)"""
    editor, tmp = desk.path("editor"), desk.path("tmp")
    desk.file("editor", b"no program")
    os.chmod(editor, 0o700)
    os.mkdir(tmp)
    with mock.patch.object(tempfile, "tempdir", tmp), mock.patch.dict(os.environ, VISUAL=editor):
        desk.refuses("edit", "/a", status=5, want=f"{editor}: Exec format error: name an editor by VISUAL or EDITOR")
    assert os.listdir(tmp) == []
