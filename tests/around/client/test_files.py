"""Large files: two writers at once, uploads that are stopped at each step, and what is told of them."""
import contextlib
import os
import pathlib
import random
import re
import subprocess
import sys
from unittest import mock

import pytest
from given import each
from room_client import clearing, files, manifest, trash
from room_client.clearing import remove_all
from room_client.faults import OtherVersion, Refused
from room_client.line import Line
from room_client.manifest import MOST, PIECE
from room_client.replacing import Replacement
from room_client.slots import Slot
from room_client.uploads import Upload
from served import HANGS

from .desk import ALL, COMMAND, EVERYBODY, STOPPED, VIEW, before_first, in_child, is_pending, parts, some, steps_to

SEED = 1
STEPS = [(Line, "ask", True)]  # (before it the request is on record, and behind it the next one is not yet)
OLD, MINE, THEIRS = (some(PIECE + 1, it) for it in range(3))
GIVE_AGAIN = "what was under way at /d/a was stopped: give it again"
pytestmark = pytest.mark.front


def test_of_one_that_is_too_large_nothing_is_sent(desk):
    desk.file("in", bytes(MOST + 1))
    desk.prints("ls", want="")
    passed = desk.front.passed
    desk.refuses("put", "in", "/bigger", want="FBIG (9) at /bigger: a file has at most 16 MiB (16,777,216 bytes): "
                 "split it; nothing was sent")
    assert desk.front.passed == passed


def test_a_removal_begins_with_the_manifest(desk):
    """What is left where it is stopped is no damaged file."""
    with desk.room() as room, mock.patch.object(Slot, "ask", autospec=True, side_effect=Slot.ask) as asked:
        files.put(room, "/gone", OLD)
        remove_all(room, "/gone")
    commands = [it.args[1] for it in asked.call_args_list]
    assert next(it["path"] for it in commands if it["cmd"] == "REMOVE") == f"/gone/{manifest.NAME}"


@each("bin_, names", [("for good", None, []), ("to the trash", "/bin", ["bin"])])
def test_a_part_that_gets_another_name_as_its_file_is_removed(desk, bin_, names):
    """By what comes behind somebody's save."""
    with desk.room() as room:
        files.put(room, "/a", OLD)
        room.mkdir("/bin") if bin_ else None
        its, = (it for it in room.children("/a") if it.startswith(manifest.PIECES))
        gone = its.replace(manifest.PIECES, manifest.GONE)
        with before_first(clearing, "pieces_in", lambda: room.rename(f"/a/{its}", f"/a/{gone}")):
            trash.discard(room, "/a", bin_, False)
        assert list(room.children("/")) == names


def test_progress_at_a_terminal_alone(desk):
    desk.file("in", some(8 * PIECE, 1))
    desk.prints("put", "in", "/a", want="/a: 524288 bytes\n")  # (nothing on standard error)
    main, terminal = os.openpty()
    for words, far in (("get", "/a", "out"), "/a: 512 KiB"), (("put", "in", "/a"), "/a: 100 %"):
        done = subprocess.run([sys.executable, "-B", COMMAND, *desk.words_of("ann"), *words], env=desk.environment(),
                              cwd=desk.folder, stdout=subprocess.PIPE, stderr=terminal, stdin=subprocess.DEVNULL,
                              timeout=HANGS)
        assert done.returncode == 0
        said = os.read(main, 1 << 16).decode()
        assert far in said
        assert said.endswith("\r\033[K")
    os.close(main)
    os.close(terminal)


def test_list_and_rights_are_those_of_one_document(desk):
    """In the words of its list, and in who may do what: there with what its pieces are handed."""
    desk.file("in", MINE)
    desk.prints("put", "in", "/a", want="/a: 65537 bytes\n")
    rights = [("OWNER@", ALL, 3), ("bob", VIEW, 0), ("eng", VIEW, 3), ("zoe", 0x1200EF, 3), ("pat", 0x3, 3)]
    with desk.behind() as room:
        room.set_list("/a", 2, [{"flag": flag, "mask": mask, "type": 0, "who": it} for it, mask, flag in rights])
        room.set_list("/", 0, [EVERYBODY | {"flag": 0}])
    desk.prints("acl", "/a", want=(
        "# /a: large file of owner ann and group eng\n"
        "flags protected\n"
        "allow OWNER@ all inherit\n"
        "allow bob view\n"
        "allow eng view inherit\n"
        "allow zoe read,write,append,read-named-attrs,execute,delete-child,read-attributes,read-acl,synchronize "
        "inherit\n"
        "allow pat read,write inherit\n"))
    desk.prints("who", "/a", want=(
        "ann (owner)   all\n"
        "bob           read-named-attrs,execute,read-attributes,read-acl,synchronize\n"
        "eng           view\n"
        "pat           none\n"
        "zoe           edit\n"
        "group:eng     none\n"
        "anybody else  none\n"))
    for user, code in ("bob", 5), ("eng", 0):
        with desk.room(user) as room:
            assert room.ask_all([{"cmd": "READ", "path": f"/a/{manifest.NAME}"}])[0]["code"] == code


# Two who write the same file at once

def writes(desk, data=THEIRS):
    with desk.other() as room:
        files.write(room, "/a", data, fills=True)


def takes_pieces(desk):
    """A writer who began before, and was slow, may take them for left over."""
    with desk.other() as room:
        folder, = (it for it in room.children("/a") if it.startswith(manifest.PIECES))
        remove_all(room, f"/a/{folder}")


OVERTAKEN, BEHIND = "somebody else wrote another version meanwhile", "came right behind yours"
SPARE = [".room-gone", ".room-pieces"]


@each("before, step, does, why, stands, left", [
    ("came first, of none", None, "put_pieces", writes, OVERTAKEN, THEIRS, SPARE[1:]),
    ("came first", OLD, "put_pieces", writes, OVERTAKEN, THEIRS, SPARE),
    # (neither knows of the other: the later one stands, and is whole)
    ("came first, and cleared mine", OLD, "share", writes, OVERTAKEN, THEIRS, SPARE),
    ("came right before the manifest", OLD, "put_manifest", writes, None, MINE, None),
    ("came right behind", OLD, "look_after", writes, BEHIND, THEIRS, SPARE),
    # (the folder of a writer who is slow was cleared)
    ("took mine for left over", None, "put_manifest", writes, "", THEIRS, None),
    ("took mine away, which are put again", None, "look_after", takes_pieces, None, MINE, None)])
def test_another_version(desk, before, step, does, why, stands, left):
    ends = contextlib.nullcontext() if why is None else pytest.raises(OtherVersion, match=why)
    with desk.behind() as room:
        if before:
            files.write(room, "/a", before)
        with before_first(Upload, step, lambda: does(desk)), ends:
            files.write(room, "/a", MINE)
        assert files.read(room, "/a") == stands
        room.settle()
        assert left is None or parts(room.children("/a")) == left


def test_another_version_of_a_document(desk):
    with desk.behind() as room:
        room.create("/a", b"old")
        with before_first(Upload, "put_pieces", lambda: writes(desk, b"theirs")), pytest.raises(OtherVersion):
            files.write(room, "/a", MINE)
        assert files.read(room, "/a") == b"theirs"
        assert list(room.children("/")) == ["a"]


def shuts(desk):
    """Somebody takes the right to add folders away."""
    with desk.other() as room:
        room.set_list("/", 1, [{"flag": 3, "mask": 0x4, "type": 1, "who": "ann"}, EVERYBODY])


def test_a_new_file_whose_pieces_are_refused_leaves_nothing(desk):
    with desk.behind() as room:
        with before_first(Upload, "put_pieces", lambda: shuts(desk)), pytest.raises(Refused, match="add-folder"):
            files.write(room, "/a", MINE)
        assert room.children("/") == {}


def test_a_document_whose_large_version_may_not_have_its_name(desk):
    """It has its name again."""
    with desk.behind() as room:
        room.create("/a", b"old")
        with before_first(Replacement, "take_name", lambda: shuts(desk)), pytest.raises(Refused, match="add-folder"):
            files.write(room, "/a", MINE)
        assert files.read(room, "/a") == b"old"


# An upload is stopped at each of its steps: before and after each request

def put_in_child(data, stop_at, room):
    def puts():
        steps_to(stop_at, STEPS)
        with room:
            files.write(room, "/d/a", data, fills=True)
    return in_child(puts)


def found(room, before, data):
    """Which of them is there, seen by another: None is nothing, or a folder that is no file yet."""
    try:
        now = files.read(room, "/d/a")
    except Refused as fault:
        assert fault.reply["error"] in ("NOENT", "ISDIR")
        return None
    assert now in (before, data)
    return "new" if now == data else "old"


def stop_once(desk, stop_at, before, data, ends):
    """What a reader sees then. The next writer leaves nothing else: but for a whole new version that was to take a
    document's place, under a name that is seen. Whether it was stopped."""
    with desk.other() as other:
        other.mkdir("/d")
        for it in before:
            files.write(other, "/d/a", it)
    mine = {"state": desk.path("mine")}
    status = put_in_child(data, stop_at, desk.room(**mine))
    assert status in (0, STOPPED)
    with desk.other() as other:
        ends.add(found(other, before[-1] if before else None, data))
    if status == 0:
        return False
    with desk.room(**mine) as room:
        files.write(room, "/d/a", data, fills=True)
    with desk.other() as other:
        assert files.read(other, "/d/a") == data
        left = [it for it in other.children("/d") if re.fullmatch(r"a \([0-9a-f]{4}\)", it)]
        assert [*other.children("/d")] == ["a", *left]
        assert [files.read(other, f"/d/{it}") for it in left] == [data] * len(left[:1])
        assert not left or before == [b"small"]
        desk.need_tidy(other, "/d/a")
        remove_all(other, "/d")
    return True


@each("before, want", [
    ("a new file", [], {None, "new"}), ("a new version", [some(2 * PIECE, 2)], {"old", "new"}),
    ("a new version in a spare", [some(2 * PIECE + 1, 3), some(2 * PIECE, 2)], {"old", "new"}),
    # (between two of its requests nothing has the name)
    ("in the place of a document", [b"small"], {"old", None, "new"})])
@pytest.mark.timeout(900)
def test_stopped_at_each_step(desk, before, want):
    stop_at, ends = 0, set()
    while stop_once(desk, stop_at, before, MINE, ends):
        stop_at += 1
    assert stop_at > 16
    assert ends == want


def test_stopped_at_random_over_several_slots(desk):
    """Each writer is told of what the one before left on record, by a file that they all write. (Each has 20 pieces to
    send, by two steps, behind some looks, so the last of them is stopped as pieces are under way.)"""
    dice, before, told = random.Random(SEED), OLD, pathlib.Path(desk.path("told"))
    mine = {"state": desk.path("mine"), "say": lambda words: told.open("a").write(f"{words}\n")}
    with desk.behind() as room:
        room.mkdir("/d")
        files.write(room, "/d/a", OLD)
    for seed, stop_at in enumerate([*(dice.randrange(40) for _ in range(11)), 39]):
        data = some(20 * PIECE, seed)
        assert put_in_child(data, stop_at, desk.behind(**mine)) == STOPPED
        with desk.behind() as room:
            now = files.read(room, "/d/a")
        assert now in (before, data)
        before = now
    with desk.behind(**mine) as room:
        files.write(room, "/d/a", data)
        assert files.read(room, "/d/a") == data
        room.settle()
        desk.need_tidy(room, "/d/a")
    assert GIVE_AGAIN in told.read_text().splitlines()


@each("stop_at, sign, comes, stands, says", [
    # somebody writes a newer version; the first one goes on
    ("a manifest that is late", 0, manifest.NAME, THEIRS, THEIRS, [GIVE_AGAIN]),
    # (then the version is there, and is not to be given again)
    ("as what was before is emptied", 20, manifest.GONE, None, MINE, [])])
def test_stopped_as_it_is_on_record(desk, stop_at, sign, comes, stands, says):
    said = []
    with desk.behind() as room:
        room.mkdir("/d")
        files.write(room, "/d/a", OLD)
    while not is_pending(desk.path("mine"), '"WRITE"', sign):
        if comes is None:
            with desk.behind() as room:
                files.write(room, "/d/a", some(PIECE + 1, stop_at))
        put_in_child(MINE, stop_at, desk.room(state=desk.path("mine")))
        stop_at += 1
    if comes:
        with desk.behind() as room:
            files.write(room, "/d/a", comes)
    with desk.room(state=desk.path("mine"), say=said.append) as room:
        assert files.read(room, "/d/a") == stands
    assert said == says


def test_a_piece_whose_reply_was_lost_is_read_anew(desk):
    data = some(3 * PIECE, 1)
    with desk.behind() as room:
        files.write(room, "/a", data)
        desk.front.faults[:] = ["pass", "pass", "lose", "cut", "lose"]
        assert files.read(room, "/a") == data
        assert desk.front.faults == []
