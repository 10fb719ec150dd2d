"""The trash: its places, the names in it, and what is not removed from it. (What each command prints: trash.txt.)"""
import time
from unittest import mock

import pytest
from given import each
from room_client import trash

from .desk import ALL

STAMP, OWNERS = "20261126214307", {"flag": 0, "mask": ALL, "type": 0, "who": "OWNER@"}
pytestmark = pytest.mark.front


@pytest.fixture
def in_tokyo(monkeypatch):
    """Whose clock is nine hours ahead."""
    monkeypatch.setenv("TZ", "Asia/Tokyo")
    time.tzset()
    yield
    monkeypatch.undo()
    time.tzset()


@pytest.fixture
def in_trash(desk):
    """The names in ann's trash."""
    with desk.room() as room:
        for path in "/trash", "/trash/ann", "/d":
            room.mkdir(path)
        room.set_list("/trash/ann", 2, [OWNERS, OWNERS | {"flag": 3, "who": "ann"}])  # (as fileroom-admin makes it)

    def names():
        with desk.room() as room:
            return sorted(room.children("/trash/ann"))
    return names


def test_a_name_again_and_again(desk, in_trash, in_tokyo):
    """In the same second, which a name tells by the clock of no place."""
    for _ in range(3):
        desk.prints("put", "-", "/d/x", stdin=b"x", want="/d/x: 1 bytes\n")
        with mock.patch("room_client.trash.time.time", return_value=1e9):
            desk.prints("rm", "/d/x", want="/d/x: in /trash/ann\n")
    desk.prints("put", "-", "/d/x", stdin=b"x", want="/d/x: 1 bytes\n")
    with mock.patch("room_client.trash.time.time", return_value=1e9), mock.patch("room_client.trash.TRIES", 3):
        desk.refuses("rm", "/d/x", status=2, want="/trash/ann has too many things of that name: room trash empty")
    desk.prints("rm", "--for-good", "/d/x", want="/d/x: removed\n")
    names = [f"x~d~200109090146{it}" for it in (40, 41, 42)]
    assert in_trash() == names
    status, _, err = desk.does("trash", "restore", "x")
    assert status == 2
    assert f"3 things in the trash had the name x: name one as it is there: '{names[0]}' (was in /d, " in err
    desk.prints("trash", "restore", names[1], want="/d/x: restored\n")
    assert in_trash() == [names[0], names[2]]
    desk.prints("rm", f"/trash/ann/{names[0]}", want=f"/trash/ann/{names[0]}: removed\n")
    assert in_trash() == [names[2]]


@each("called, want", [("as it was", "\u00e9", True), ("by letters that are not composed", "e\u0301", True),
                       ("as it is there", f"\u00e9~d~{STAMP}", True), ("another one", "e", False)])
def test_what_something_in_the_trash_is_called(called, want):
    assert trash.is_called(f"\u00e9~d~{STAMP}", called) == want


def test_places_are_one_for_a_sixteenth_of_the_users():
    assert trash.places_of("ann") == ["/trash/@d/ann", "/trash/ann"]
    parts = [trash.places_of(f"member{it:03}")[0].split("/")[2] for it in range(1000)]
    assert max(map(parts.count, parts)) < 256


@each("path, name, its", [
    ("top", "/a", "a~", ("a", "/")),
    ("deep", "/photos/2026/lake.jpg", "lake.jpg~photos~2026~", ("lake.jpg", "/photos/2026")),
    ("a mark", "/a~b", "a~b~…~", ("a~b", None)), ("a long folder", "/" + "x" * 48 + "/b", "b~…~", ("b", None)),
    ("one that just has room", "/" + "x" * 47 + "/b", "b~" + "x" * 47 + "~", ("b", "/" + "x" * 47)),
    ("long", "/" + "x" * 60 + ".jpg", "x" * 38 + "….jpg~…~", ("x" * 38 + "….jpg", None))])
def test_name_in_it_tells_where_it_was(path, name, its):
    assert trash.name_in_trash(path, STAMP) == name + STAMP
    assert len((name + STAMP).encode()) <= 64
    assert trash.told_by(name + STAMP) == trash.Thrown(*its, 1795729387)


def test_when_it_was_removed_is_told_by_the_clock_of_here(in_tokyo):
    assert trash.told_by(f"a~d~{STAMP}").words() == "was in /d, removed 2026-11-27 06:43"


@pytest.mark.parametrize("name", ["odd", STAMP, f"~{STAMP}", "a~20261326214307", f"a~…b~{STAMP}"])
def test_name_that_it_did_not_give(name):
    assert trash.told_by(name) is None
