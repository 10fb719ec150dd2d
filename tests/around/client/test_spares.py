"""Spares of large files: what a save asks and makes, races, and what others prepare or do meanwhile."""
import contextlib
import sys
import threading
from unittest import mock

import pytest
from given import each
from room_client import files, spares, uploads
from room_client.faults import OtherVersion, Refused
from room_client.manifest import PIECE
from room_client.room import unheard
from room_client.slots import Slot
from room_client.uploads import Upload

from .desk import before_first, some

MAKES = "CREATE", "MKDIR"
RACES = 30
SAVES = [("new", 80, 1, 83), ("the same bytes", 80, 1, 0), ("other bytes, first time", 80, 2, 81), ("later", 80, 3, 0),
         ("larger", 96, 4, 16), ("smaller", 48, 5, 0), ("larger again", 80, 6, 0), ("16 MiB, first time", 256, 7, 176),
         ("second time", 256, 8, 160), ("later", 256, 9, 0)]
pytestmark = pytest.mark.front


@contextlib.contextmanager
def asked():
    """The commands that are asked, each with whether it made an object."""
    found, ask = [], Slot.ask

    def heard(slot, command):
        reply = ask(slot, command)
        found.append(command["cmd"] in MAKES and reply["code"] == 0)
        return reply
    with mock.patch.object(Slot, "ask", heard):
        yield found


def save(room, data):
    """How often it asked before it was answered and behind the answer, and how many objects it made."""
    with asked() as made:
        files.write(room, "/a", data)
        before = len(made)
        room.settle()
    assert files.read(room, "/a") == data
    return before, len(made) - before, sum(made)


@pytest.mark.timeout(900)
def test_what_a_save_asks_and_makes(desk, tell):
    largest = 0  # version until now
    with desk.room() as room:
        for name, pieces, seed, makes in SAVES:
            before, behind, made = save(room, some(pieces * PIECE - 9, seed))
            tell(f"spares: {name}: {pieces} pieces: {before} requests, {behind} behind the answer, {made} objects")
            largest = max(largest, pieces)
            assert (name, made) == (name, makes)
            assert before <= min(pieces + 15, 1.3 * pieces), name
            assert behind <= 2 * pieces + 2 * largest + 10, name


def test_saves_of_somebody_elses_file(desk):
    """Who may not give pieces away has sets of their own, and makes none once there are two."""
    with desk.room() as room:
        room.set_list("/", 2, [{"flag": 3, "mask": 0x1701FF, "type": 0, "who": "EVERYONE@"}])
        files.write(room, "/a", some(2 * PIECE, 1))
    with desk.room("bob") as room:
        assert [save(room, some(2 * PIECE, seed))[2] for seed in range(2, 7)] == [3, 0, 0, 0, 0]


def test_a_version_is_told_before_the_rest(desk):
    said = []
    desk.file("in", some(PIECE + 1, 1))
    with before_first(Upload, "tidy", lambda: said.append(sys.stdout.buffer.getvalue())):
        desk.prints("put", "in", "/a", want="/a: 65537 bytes\n")
    assert said == [b"/a: 65537 bytes\n"]


def test_pieces_that_are_elsewhere_for_a_moment_are_not_written_anew(desk):
    """Somebody moves the file as its pieces are looked at, and it has its name again before its manifest is."""
    moves, lock = [("STAT", 3, "/a", "/b"), ("READ", 2, "/b", "/a")], threading.RLock()
    with desk.behind() as room, desk.behind(state=desk.path("mover")) as mover:
        for seed in range(4):
            files.write(room, "/a", some(2 * PIECE, seed))  # (which does first what is left of the one before)
        with asked() as made:
            ask = Slot.ask

            def moved(slot, command):
                with lock:
                    if slot in room.slots.values() and moves and moves[0][:2] == (
                            command["cmd"], command["path"].count("/")):
                        mover.rename(*moves.pop(0)[2:])
                return ask(slot, command)
            with mock.patch.object(Slot, "ask", moved):
                room.settle()
        assert (moves, sum(made)) == ([], 0)
        desk.need_tidy(room, "/a")


def test_what_is_refused_behind_is_told_and_no_fault(desk):
    desk.file("in", some(PIECE + 1, 1))
    with mock.patch.object(Upload, "tidy", side_effect=Refused({"code": 2, "error": "ACCESS", "bit": 2})):
        status, out, err = desk.does("put", "in", "/a")
    assert (status, out) == (0, "/a: 65537 bytes\n")
    assert "it is there, and what was before it is not cleared" in err


# At once

@pytest.fixture
def one(desk):
    with desk.behind(state=desk.path("0")) as room:
        yield room


@pytest.fixture
def other(desk):
    with desk.behind(state=desk.path("1")) as room:
        yield room


def race(rooms, data):
    """Who was told that theirs is there."""
    told, start = [False, False], threading.Barrier(2)

    def write(at):
        start.wait()
        with contextlib.suppress(OtherVersion):
            files.write(rooms[at], "/a", data[at], fills=True)
            told[at] = True
        rooms[at].settle()
    threads = [threading.Thread(target=write, args=(it,)) for it in range(2)]
    for it in threads:
        it.start()
    for it in threads:
        it.join()
    return told


def test_race_of_two_writers(desk, one, other, tell):
    """Each ends in a version of one of them, and who is told that it is there was not overtaken unseen. (They go on
    until one was overtaken.)"""
    ends = []
    while len(ends) < RACES or 1 not in ends and len(ends) < 10 * RACES:
        data = [some(2 * PIECE - it, len(ends)) for it in range(2)]
        told = race((one, other), data)
        assert files.read(one, "/a") in [it for it, is_told in zip(data, told) if is_told]
        ends.append(sum(told))
    files.write(one, "/a", b"last")
    one.settle()
    desk.need_tidy(one, "/a")
    assert 1 in ends
    tell(f"spares: of {len(ends)} races {ends.count(1)} with one told that another came first")


# What one writer clears behind its answer, and what another one makes a version of meanwhile

@pytest.mark.parametrize("step, comes, stands", [
    pytest.param("share", 0, 1, id="the same bytes beside a new version"),  # (whose pieces are no version's yet)
    pytest.param("put_manifest", 1, 2, id="behind another one")])  # (its pieces were there as that began)
def test_meanwhile_a_version_comes(one, other, step, comes, stands):
    versions = [some(3 * PIECE - it, it) for it in range(3)]
    files.write(one, "/a", versions[0])
    with before_first(Upload, step, lambda: files.write(other, "/a", versions[comes])):
        files.write(one, "/a", versions[stands])
    for it in (one, other) if comes == 0 else (other, one):
        it.settle()
    assert files.read(one, "/a") == versions[stands]


def test_meanwhile_a_version_comes_as_its_pieces_are_cleared(one, other):
    """Behind the last look at the manifest."""
    versions, clear = [some(3 * PIECE - it, it) for it in range(3)], uploads.clear
    files.write(one, "/a", versions[0])
    one.settle()
    upload = Upload(one, "/a", versions[2], unheard)
    upload.begin(False, False)
    upload.put_pieces("/a")

    def late(room, at, name, *args, **how):
        if name == upload.its.folder and how:
            upload.put_manifest("/a", False)
            upload.look_after()
        clear(room, at, name, *args, **how)
    with mock.patch.object(uploads, "clear", late):
        files.write(other, "/a", versions[1])
        other.settle()
    assert files.read(one, "/a") == versions[2]


def test_meanwhile_pieces_come_that_are_no_versions_yet(one, other):
    """They are their writer's, who may be killed behind the manifest: nobody puts them again then."""
    versions = [some(3 * PIECE - it, it) for it in range(3)]
    files.write(one, "/a", versions[0])
    one.settle()
    upload = Upload(other, "/a", versions[2], unheard)

    def comes():
        upload.begin(False, False)
        upload.put_pieces("/a")
    with before_first(Upload, "put_manifest", comes):
        files.write(one, "/a", versions[1])
    one.settle()
    upload.put_manifest("/a", False)
    assert files.read(one, "/a") == versions[2]


# Kind (0 allows, 1 denies), flags (1 for files, 8 not here) and mask (1 reads, 0x20 passes) of an entry
@each("kind, flag, mask, want", [
    ("passes and reads", 0, 1, 0x21, True), ("passes alone", 0, 1, 0x20, False), ("reads here", 0, 0, 0x21, False),
    ("passes not here", 0, 9, 0x20, True), ("reads alone", 0, 1, 1, True), ("is denied both", 1, 1, 0x21, True),
    ("is denied to read", 1, 1, 1, False), ("is denied to pass", 1, 0, 0x20, True),
    ("is denied both below", 1, 9, 0x21, False)])
def test_who_may_pass_a_spare_may_read_in_it(kind, flag, mask, want):
    both = {"type": 0, "flag": 1, "mask": 0x21}, {"type": kind, "flag": flag, "mask": mask}
    assert [spares.may_read(it) for it in (both, both[::-1], both[:1])] == [want, want, True]
