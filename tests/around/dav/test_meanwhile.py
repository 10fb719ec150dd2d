"""What somebody else does between two requests of one method: what they made or wrote stays."""
import contextlib

import pytest
from room_client import files, manifest

from .desk import ANNS, BOB_READS, BOB_WRITES, asks, make_folders


@contextlib.contextmanager
def meanwhile(desk, cmd, path, does, *words):
    """Ann does this past the gateway as its command at this path, with these words, is on its way to the room."""
    def happens():
        with desk.room() as room:
            does(room)
    with desk.before(asks(cmd, f'"path":"{path}"', *words), happens):
        yield


def test_what_a_look_costs(desk):
    """Requests to the front. rclone asks so, with Depth 1, for each file that it put."""
    desk.play("ann MKCOL /look 201; ann PUT /look/it 201 > x")
    for path, names, most in ("/look/it", 1, 1), ("/look/none", 0, 1), ("/look/", 2, 2), ("/look", 2, 2):
        before = desk.loser.count
        assert len(desk.ask("ann", "PROPFIND", path, Depth="1").hrefs) == names
        assert desk.loser.count - before <= most, path


@pytest.mark.parametrize("first, most", [("PUT /made 201 > 1", 1), ("CREATE /read; ann GET /read 200", 1),
                                         ("CREATE /unseen", 2)])
def test_what_a_save_costs(desk, first, most):
    """One request, where this document was made or read a moment ago."""
    desk.play(f"ann {first}")
    path, before = first.split()[1].rstrip(";"), desk.loser.count
    desk.does("ann", "PUT", path, 204, b"new")
    assert desk.loser.count - before == most
    assert desk.get("ann", path) == b"new"


def test_a_save_over_what_is_gone(desk):
    """It is made anew, and also where it is a folder by now what stands there stays."""
    desk.play("ann PUT /gone 201 > 1; ann GET /gone 200")
    with desk.room() as room:
        room.remove("/gone")
    desk.does("ann", "PUT", "/gone", 201, b"2")
    with desk.room() as room:
        room.remove("/gone")
        room.mkdir("/gone")
    desk.does("ann", "PUT", "/gone", 405, b"3")
    desk.does("ann", "DELETE", "/gone", 204)


def test_a_listing_beside_a_save(desk):
    """What is told before the new version is there is not told behind it."""
    desk.play("ann MKCOL /beside 201; ann PUT /beside/it 201 > old")
    with desk.before(asks("WRITE"), lambda: desk.told("ann", "/beside")):
        desk.does("ann", "PUT", "/beside/it", 204, b"newer")
    assert "<D:getcontentlength>5<" in desk.told("ann", "/beside")


def test_a_copy_that_may_not_replace(desk):
    desk.does("ann", "PUT", "/source", 201, b"mine")
    with meanwhile(desk, "CREATE", "/target", lambda room: room.create("/target", b"theirs")):
        desk.does("ann", "COPY", "/source", 412, to="/target", Overwrite="F")
    desk.does("ann", "MKCOL", "/place", 201)
    with meanwhile(desk, "CREATE", "/place", lambda room: room.create("/place", b"theirs")):
        desk.does("ann", "COPY", "/source", 412, to="/place")  # (of the folder alone)
    assert [desk.get("ann", it) for it in ("/target", "/place")] == [b"theirs"] * 2


def test_a_copied_folder_that_may_not_replace(desk):
    desk.play("ann MKCOL /from 201; ann PUT /from/it 201 > mine")
    with meanwhile(desk, "MKDIR", "/to", lambda room: (room.mkdir("/to"), room.create("/to/it", b"theirs"))):
        desk.does("ann", "COPY", "/from", 412, to="/to", Overwrite="F")
    assert desk.get("ann", "/to/it") == b"theirs"


@pytest.mark.parametrize("size, cmd", [(3, "WRITE"), (70_000, "MKDIR")])
def test_a_moved_file_that_changes(desk, size, cmd):
    """Its newer bytes do not go with the name that it had."""
    old, new = f"/old{size}", f"/new{size}"
    desk.does("ann", "PUT", old, 201, b"old")
    desk.does("ann", "PUT", new, 201, b"n" * size)
    with meanwhile(desk, cmd, old, lambda room: room.put(new, b"newer")):
        desk.does("ann", "MOVE", new, 204, to=old)
    assert (desk.get("ann", new), desk.get("ann", old)) == (b"newer", b"n" * size)


@pytest.mark.parametrize("size", [3, 70_000])
def test_a_file_that_changes_before_it_is_moved(desk, size):
    """Over another one goes what is there as it goes, not what was looked at before."""
    old, new, newer = f"/there{size}", f"/goes{size}", b"N" * size
    desk.does("ann", "PUT", old, 201, b"old")
    desk.does("ann", "PUT", new, 201, b"n" * size)
    with meanwhile(desk, "RENAME", new, lambda room: files.put(room, new, newer), f'"to":"{new}~'):
        desk.does("ann", "MOVE", new, 204, to=old)
    assert desk.get("ann", old) == newer
    desk.does("ann", "GET", new, 404)


@pytest.mark.parametrize("size", [3, 70_000])
def test_a_file_that_changes_while_it_becomes_a_version(desk, size):
    """What was read of it is the version, and it stays with what came since."""
    doc, aside, draft, newer = f"/doc{size}", f"/doc{size}.bak", f"/draft{size}", b"N" * size
    desk.play(f"ann PUT {doc} 201 > old; ann MOVE {doc} 201 > {aside}")
    desk.does("ann", "PUT", draft, 201, b"n" * size)
    with meanwhile(desk, "RENAME", aside, lambda room: files.put(room, draft, newer)):
        desk.does("ann", "MOVE", draft, 201, to=doc)
    assert [desk.get("ann", it) for it in (doc, aside, draft)] == [b"n" * size, b"old", newer]


def test_what_others_put_into_a_copy(desk):
    """Of a copy that is refused goes what it made, and nothing else."""
    with desk.room() as room:
        make_folders(room, mixed=[ANNS, BOB_READS], both=[ANNS, BOB_WRITES])
        room.mkdir("/mixed/a")
        room.create("/mixed/a/b", b"b" * 9)
        room.create("/mixed/z", b"hers")
        room.set_list("/mixed/z", 0, [])
    with meanwhile(desk, "CREATE", "/both/copy/a/b", lambda room: room.create("/both/copy/a/theirs", b"t")):
        desk.does("bob", "COPY", "/mixed", 403, to="/both/copy")
    with desk.room() as room:
        assert room.children("/both/copy") == {"a": "folder"}
        assert room.children("/both/copy/a") == {"theirs": "file"}
    desk.does("bob", "COPY", "/mixed", 403, to="/both/none")
    desk.does("bob", "PROPFIND", "/both/none", 404, Depth="0")


@pytest.mark.parametrize("above", ["", "/above"])
def test_a_part_that_gets_another_name_as_its_file_is_removed(desk, above):
    """By what comes behind a save: the file is there, and goes whole. So does a folder that it is in."""
    path = f"{above}/parts"
    with desk.room() as room:
        if above:
            room.mkdir(above)
        files.put(room, path, b"p" * 70_000)
        its, = (it for it in room.children(path) if it.startswith(manifest.PIECES))
    gone = its.replace(manifest.PIECES, manifest.GONE)
    with meanwhile(desk, "LIST", f"{path}/{its}", lambda room: room.rename(f"{path}/{its}", f"{path}/{gone}")):
        desk.does("ann", "DELETE", above or path, 204)
    desk.does("ann", "GET", above or path, 404)


def test_a_part_that_comes_as_its_file_is_removed(desk):
    """Once, as a late step of what comes behind a save, or without end: then it is looked at a few times."""
    is_it, count = asks("REMOVE", '"path":"/filled"'), 0

    def fills():
        nonlocal count
        count += 1
        desk.wire("ann", "CREATE", f"/filled/{count}", data="")
        if count != 2:
            desk.loser.meanwhile = is_it, fills
    desk.play("ann MKCOL /filled 201; ann PUT /filled/it 201 > x")
    desk.loser.meanwhile = is_it, fills
    desk.does("ann", "DELETE", "/filled", 204)
    assert count == 2
    desk.play("ann MKCOL /filled 201")
    desk.loser.meanwhile = is_it, fills
    got = desk.does("ann", "DELETE", "/filled", 409)
    desk.loser.settle()
    assert b"NOTEMPTY" in got.body
    assert count <= 10
    desk.does("ann", "DELETE", "/filled", 204)
