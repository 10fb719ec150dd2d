"""Each request acts once, though its answer or itself is lost on the way."""
import random
from unittest import mock

import pytest
from given import each
from room_client import NoAnswer, Refused

SEED = 1
FAULTS = "lose", "drop", "cut", "pass", 408, 429, 500, 502, 503, 504
KEPT = "not known: it is kept"
NOT_KEPT = "nothing was done, and nothing is kept"
AGAIN = "that was this very request, done once: give it again to do it a second time"
pytestmark = pytest.mark.front


@pytest.fixture
def log(desk):
    """A document to which pieces are added. What the next command finds there, and what it says before."""
    with desk.behind() as room:
        room.create("/log", b"")

    def found(**how):
        said = []
        with desk.behind(said.append, **how) as room:
            return room.read("/log"), said
    return found


def loses(desk, does, word="APPEND", fault="lose", why=KEPT):
    """Has something asked that gets no answer, and is told so."""
    with desk.losing(word, fault), pytest.raises(NoAnswer, match=why), desk.behind() as room:
        does(room)


def append(data, path="/log"):
    return lambda room: room.append(path, data)


def test_gives_up_and_goes_on_later(desk, log):
    loses(desk, append(b"piece"), why=rf"\(it answered 504; is the room served\?\); .*{KEPT}, and sent again before")
    assert log() == (b"piece", ["finished what was pending: APPEND /log: done"])


def test_nothing_follows_what_got_no_answer(desk, log):
    """Whoever goes on after a fault, as to clear up, would count on without knowing that the number was used."""
    with desk.behind() as room:
        with desk.losing("APPEND", "drop"), pytest.raises(NoAnswer) as first:
            room.append("/log", b"first")
        with pytest.raises(NoAnswer) as later:
            room.append("/log", b"next")
        assert str(later.value) == str(first.value)
    assert log()[0] == b"first"


def test_a_pending_read_is_finished_without_a_word(desk):
    loses(desk, lambda room: room.children("/"), "LIST", why="no answer|answered 504")
    said = []
    with desk.behind(said.append) as room:
        assert room.was_pending
    assert said == []


def test_the_same_again_is_the_one_that_was_pending(desk, log):
    loses(desk, append(b"piece"))
    said = []
    with desk.behind(said.append) as room:
        assert [room.append("/log", b"piece")["size"] for _ in range(2)] == [5, 10]
    assert said == ["finished what was pending: APPEND /log: done", AGAIN]


OTHER = {"cmd": "APPEND", "data": "b3RoZXI=", "path": "/log"}


@each("does", [("one", lambda room: room.ask(OTHER)), ("some at once", lambda room: room.ask_all([OTHER]))])
def test_the_same_again_behind_others_is_done(desk, log, does):
    """What was pending may be the first alone that changes something."""
    loses(desk, append(b"piece"))
    with desk.behind() as room:
        does(room)
        room.append("/log", b"piece")
    assert log()[0] == b"pieceotherpiece"


def with_trash(desk):
    """Ann's, and what goes there."""
    with desk.room() as room:
        for path in "/trash", "/trash/ann", "/d", "/e":
            room.mkdir(path)
        room.set_list("/trash/ann", 2, [{"flag": 0, "mask": 0x1F07FF, "type": 0, "who": "OWNER@"}])
        for path in "/d/a", "/d/b":
            room.create(path, b"x")


@each("words, before, says", [
    ("into a folder", ["mv", "/d/a", "/e"], [], "/d/a is now /e/a\n"),
    ("to a name", ["mv", "/d/a", "/b"], [], "/d/a is now /b\n"),
    ("to the trash", ["rm", "/d/a"], [], "/d/a: in /trash/ann\n"),
    ("back", ["trash", "restore", "a"], ["rm", "/d/a"], "/d/a: restored\n")])
def test_a_command_that_moves(desk, words, before, says):
    with_trash(desk)
    if before:
        desk.does(*before)
    with desk.losing("RENAME"):
        assert desk.does(*words)[0] == 3
    status, out, err = desk.does(*words)
    assert (status, out) == (0, says), err
    assert AGAIN in err


@each("to, words, at, want", [("another one", "/c", ["/b", "/d"], "/d", {"c", "d"}),
                              ("into a folder that was to move", "/c", ["/b", "/c"], "/c/b", {"c"}),
                              ("one that was refused", "/b", ["/a", "/b"], "/b", {"b"})])
def test_a_move_behind_one_that_was_pending(desk, to, words, at, want):
    """It is done itself."""
    with desk.room() as room:
        room.mkdir("/a")
        room.create("/b", b"")
    with desk.losing("RENAME"):
        assert desk.does("mv", "/a", to)[0] == 3
    with desk.other() as other:
        if to == "/b":
            other.remove("/b")
    status, out, err = desk.does("mv", *words)
    assert (status, out) == (0, f"{words[0]} is now {at}\n"), err
    assert f"finished what was pending: RENAME /a {to}: {'EXIST' if to == '/b' else 'done'}" in err
    with desk.other() as other:
        assert {*other.children("/")} == want


def test_a_restore_behind_another_that_was_pending(desk):
    with_trash(desk)
    desk.does("rm", "/d/a", "/d/b")
    with desk.losing("RENAME"):
        assert desk.does("trash", "restore", "a")[0] == 3
    status, out, err = desk.does("trash", "restore", "b")
    assert (status, out) == (0, "/d/b: restored\n"), err
    with desk.other() as other:
        assert {*other.children("/d")} == {"a", "b"}


@pytest.mark.parametrize("fault, why", [
    (503, "the room is being started again"), (429, "the front lets no more of yours through")])
def test_why_there_is_no_answer_yet(desk, fault, why):
    said = []
    with desk.behind(said.append) as room, mock.patch("room_client.slots.WORD_AFTER", 0):
        desk.front.faults[:] = [fault] * 2
        room.children("/")
    assert len(said) == 1
    assert f"no answer yet (it answered {fault}): {why}" in said[0]


@pytest.mark.parametrize("fault", [503, 429])
def test_who_waits_keeps_no_connection(desk, fault):
    """A room serves one connection after another: an open one would hold everybody else back until the next attempt."""
    is_open = []
    with desk.behind() as room:
        room.children("/")
        desk.front.faults[:] = [fault] * 2
        with mock.patch.object(room.pace, "rest", lambda _: is_open.append(room.line.connection.sock is not None)):
            room.children("/")
    assert is_open == [False] * 2


def test_a_name_that_is_not_found_is_told_as_such(desk):
    said = []
    with pytest.raises(NoAnswer, match="its host's name is not found"), mock.patch("room_client.slots.WORD_AFTER", 0):
        with desk.behind(said.append, url="https://desk.invalid", patience=0.5) as room:
            room.children("/")
    assert "no answer yet (its host's name is not found): is the URL right" in said[0]


def test_who_is_held_is_told_so_at_once(desk, log):
    loses(desk, append(b"not this"), fault="held", why=f"^you are held.*or who runs it holds you.*{NOT_KEPT}")
    desk.front.faults[:] = ["lose", "held"]
    with pytest.raises(NoAnswer, match="you are held.*whether it was done is not known"):
        with desk.behind(patience=60) as room:
            room.append("/log", b"piece")
    assert log()[0] == b"piece"


@pytest.mark.parametrize("fault, came, has", [("lose", "the room had it", b"piece"),
                                              ("drop", "not done, since you are held", b"")])
def test_who_is_held_reads_on_whatever_is_pending(desk, log, fault, came, has):
    """A look finds out whether the room had it, and uses its number up."""
    loses(desk, append(b"piece"), fault=fault)
    desk.front.is_held = True
    data, said = log()
    desk.front.is_held = False
    assert (data, len(said)) == (has, 1)
    assert f"APPEND /log: {came}" in said[0]
    with desk.behind() as room:
        room.append("/log", b"s")
    assert log() == (has + b"s", [])


def test_lines_are_the_same_again(desk):
    """They are another request the second time, since the document ends its line by then."""
    with desk.behind() as room:
        room.create("/log", b"begin")
    how = {"stdin": b"piece"}
    words = ["append", "--line", "-", "/log"]
    desk.front.faults[:] = [*["pass"] * 2, "lose"]  # (OPEN, READ, APPEND)
    assert desk.does(*words, flags=["--patience", "0"], **how)[0] == 3
    assert [desk.does(*words, **how)[:2] for _ in range(2)] == [(0, f"/log: {it} bytes\n") for it in (12, 18)]
    with desk.behind() as room:
        assert room.read("/log") == b"begin\npiece\npiece\n"


def test_a_refused_one_given_again_is_asked_again(desk):
    with desk.behind() as room:
        room.mkdir("/d")
    loses(desk, append(b"x", "/d/log"))
    with desk.other() as other:
        other.create("/d/log", b"")
    said = []
    with desk.behind(said.append) as room:
        assert room.append("/d/log", b"x")["size"] == 1
    assert said[0].startswith("finished what was pending: APPEND /d/log: NOENT ")


def test_a_read_that_was_pending_is_read_anew(desk, log):
    loses(desk, lambda room: room.read("/log"), "READ", why="no answer|answered 504")
    with desk.other() as other:
        other.write("/log", b"new")
    assert log()[0] == b"new"


@pytest.mark.parametrize("path", ["/.room-note", "/.room-new-note", "/.room-gone-0123456789abcdef0"])
def test_a_name_that_only_begins_like_a_part_of_a_file(desk, path):
    """What makes it is no step of many, and is done later."""
    loses(desk, lambda room: room.create(path, b"piece"), "CREATE", fault="drop")
    said = []
    with desk.behind(said.append) as room:
        assert room.read(path) == b"piece"
    assert said == [f"finished what was pending: CREATE {path}: done"]


@pytest.mark.parametrize("fault", [401, 403, 404, 413])
def test_what_surely_was_not_done_is_not_kept(desk, log, fault):
    loses(desk, append(b"not this"), fault=fault, why=f"answered {fault}: .*; {NOT_KEPT}")
    assert log() == (b"", [])


def test_what_was_refused_or_never_came_is_not_kept(desk, log):
    with pytest.raises(Refused), desk.behind() as room:
        room.append("no path", b"not this")
    with desk.behind() as room:
        port, room.line.connection.port = room.line.connection.port, 1
        room.line.close()
        room.settings.patience = 0.1
        with pytest.raises(NoAnswer, match=f"refused.*{NOT_KEPT}"):
            room.append("/log", b"not this")
        room.line.connection.port, room.settings.patience = port, 20
        assert room.append("/log", b"this")["size"] == 4


def test_what_may_be_done_is_kept_though_it_is_refused_later(desk, log):
    desk.front.faults[:] = ["lose", 401]
    with pytest.raises(NoAnswer, match=f"answered 401.*{KEPT}"), desk.behind() as room:
        room.append("/log", b"once")
    desk.front.faults[:] = [403]
    with pytest.raises(NoAnswer, match=f"answered 403.*{KEPT}"), desk.behind():
        pytest.fail("it went on without an answer")
    assert log()[0] == b"once"


def test_several_slots_act_once_each(desk):
    dice, asked = random.Random(SEED), [{"cmd": "APPEND", "data": "eA==", "path": f"/log{it}"} for it in range(30)]
    with desk.behind() as room:
        room.ask_all(it | {"cmd": "CREATE", "data": ""} for it in asked)
        for _ in range(3):
            desk.front.faults[:] = dice.choices(FAULTS, k=40)
            assert {it["code"] for it in room.ask_all(asked)} == {0}
        assert {room.stat(it["path"])["size"] for it in asked} == {3}
