"""Who changed what in a folder, and when, is told to whom the room shows it, and to nobody else: bob and cat look for
what ann does where they may not."""
import itertools
import json
import os
import signal
import subprocess
import time
from concurrent.futures import ThreadPoolExecutor
from unittest import mock
from urllib.parse import quote

import pytest
from served import HERE, put_file, text_of, until, waiting_at

from .desk import ANNS, BOB_READS, BOB_WRITES, make_folders
from fileroom_dav import latest as its_log
from fileroom_dav.latest import Latest

CATS = BOB_READS | {"who": "cat"}
BYTES = b"some bytes"
SHUT = BOB_READS | {"type": 1}


def latest(desk, user, path="/open", status=200):
    got = desk.ask(user, "GET", f"/dav/plans{quote(path)}?latest", raw=True)
    assert got.status == status, got.body
    return json.loads(got.body) if status == 200 else None


def who(desk, user, path="/open"):
    """By name, who changed it."""
    return {name: its for name, (its, *_) in latest(desk, user, path).items()}


@pytest.fixture
def place(desk):
    """Folders in which bob writes and cat reads, and one of ann's alone."""
    with desk.room() as room:
        make_folders(room, open=[ANNS, BOB_WRITES, CATS], shut=[ANNS])
        root = room.get_list("/")
        room.set_list("/", root["aclflag"], [*root["entries"], CATS | {"flag": 0}])
    yield desk
    for name in "open", "shut", "aside", "other":
        desk.ask("ann", "DELETE", f"/{name}")


def test_it_is_told_who_and_when(place):
    """Of folders too, and of a large file as one; nothing of what is gone, and nothing of its pieces."""
    begun = int(time.time())
    place.does("ann", "PUT", "/open/a", 201, BYTES)
    place.does("bob", "PUT", "/open/large", 201, bytes(200_000))
    place.does("bob", "MKCOL", "/open/sub", 201)
    place.does("ann", "PUT", "/open/gone", 201, BYTES)
    place.does("ann", "DELETE", "/open/gone", 204)
    place.does("bob", "PUT", "/open/a", 204, b"bob's")
    found = latest(place, "cat")
    assert {name: (its, kind) for name, (its, _, kind) in found.items()} == {
        "a": ("bob", "file"), "large": ("bob", "folder"), "sub": ("bob", "folder")}
    assert all(begun <= when <= time.time() for _, when, _ in found.values())
    assert who(place, "ann", "/") == {}  # (what was made past the front)


def test_what_one_may_not_see_is_not_told(place):
    """Neither what is in a folder that is closed, nor what is, by its own list, in one that is open; from the moment on
    at which a list is set."""
    place.does("ann", "PUT", "/shut/secret", 201, BYTES)
    place.does("ann", "PUT", "/open/a", 201, BYTES)
    place.does("ann", "PUT", "/open/b", 201, BYTES)
    latest(place, "cat", "/shut", 403)
    assert who(place, "cat") == {"a": "ann", "b": "ann"}
    for mask in 0x1, 0x80:  # to read it, to see its owner and size
        place.wire("ann", "SETLIST", "/open/b", aclflag=1, entries=[SHUT | {"flag": 0, "mask": mask, "who": "cat"}])
        assert who(place, "cat") == {"a": "ann"}
        assert who(place, "bob") == {"a": "ann", "b": "ann"}
    place.wire("ann", "SETLIST", "/open", aclflag=3, entries=[ANNS, BOB_WRITES, CATS | {"mask": 0xA0}])
    latest(place, "cat", "/open", 403)  # (to whom it names nothing)
    place.wire("ann", "SETLIST", "/", aclflag=0, entries=[ANNS | {"flag": 3}])
    latest(place, "bob", "/open", 403)
    latest(place, "bob", "/open/nothing", 403)
    place.wire("ann", "SETLIST", "/", aclflag=0, entries=[ANNS, BOB_READS | {"flag": 0}, CATS | {"flag": 0}])


def test_it_asks_the_same_whether_there_is_something_or_not(place):
    """Of each name, so that the time it takes says nothing of what is in the log."""
    place.wire("ann", "CREATE", "/open/old", data="")
    place.does("ann", "PUT", "/open/new", 201, BYTES)
    place.wire("ann", "SETLIST", "/open/new", aclflag=2, entries=[ANNS | {"flag": 0}])
    assert who(place, "cat") == {}
    place.quiet()
    before = place.loser.count
    latest(place, "cat")
    place.quiet()
    asked = place.loser.count - before
    place.wire("ann", "REMOVE", "/open/new")
    place.wire("ann", "CREATE", "/open/new", data="")
    place.quiet()
    before = place.loser.count
    latest(place, "cat")
    place.quiet()
    assert place.loser.count - before == asked > 0


def test_a_name_that_is_made_anew_tells_nothing_of_the_thing_before(place):
    """Whether that was removed, moved away, or went with its folder; and what comes from a closed place tells nothing
    of that."""
    place.does("ann", "PUT", "/shut/plan", 201, BYTES)
    place.does("ann", "PUT", "/open/plan", 201, BYTES)
    place.does("ann", "MOVE", "/open/plan", 201, to="/shut/before")
    assert who(place, "cat") == {}
    place.does("bob", "PUT", "/open/plan", 201, BYTES)
    assert who(place, "cat") == {"plan": "bob"}
    place.does("ann", "DELETE", "/open/plan", 204)
    place.does("ann", "MOVE", "/shut/plan", 201, to="/open/plan")
    assert who(place, "cat") == {"plan": "ann"}
    place.does("ann", "MKCOL", "/open/sub", 201)
    place.does("ann", "PUT", "/open/sub/a", 201, BYTES)
    assert who(place, "cat", "/open/sub") == {"a": "ann"}
    place.does("ann", "MOVE", "/open/sub", 201, to="/shut/sub")
    latest(place, "cat", "/open/sub", 404)
    place.does("bob", "MKCOL", "/open/sub", 201)
    assert who(place, "cat", "/open/sub") == {}
    place.wire("bob", "CREATE", "/open/sub/a", data="")  # (past the front: of this one nothing is known)
    assert who(place, "cat", "/open/sub") == {}
    place.does("ann", "MOVE", "/open/sub", 201, to="/open/sub2")
    assert who(place, "cat", "/open/sub2") == {}


def client_of(desk, user, number):
    """One that writes its commands in its own way: in a session of its own, by one slot after another."""
    where, slots = f"/rooms/plans/v1/sessions/{number:032x}", itertools.count()

    def does(command):
        got = desk.ask(user, "POST", f"{where}/slots/{next(slots)}/1", command.encode(), raw=True)
        assert got.status == 200 and json.loads(got.body)["code"] == 0, got.body
    assert desk.ask(user, "POST", where, b'{"slots":2}', raw=True).status == 200
    return does


def test_a_command_in_an_odd_form_has_its_line(place):
    """One that begins as if it set a list takes away what is there."""
    place.does("ann", "PUT", "/open/a", 201, BYTES)
    odd = '{"cmd":"SETLIST","cmd":"%s","path":"/open/a","keep":[[1]],"keep":true%s}'
    does = client_of(place, "bob", 1)
    does(odd % ("REMOVE", ""))
    does(odd % ("CREATE", ',"data":""'))
    assert who(place, "cat") == {"a": "bob"}


def test_a_move_whose_line_is_held_back(place):
    """The answer to a move that took long comes late, and so does its line: till then nothing is told."""
    place.does("bob", "PUT", "/open/plan", 201, BYTES)
    place.wire("bob", "SETLIST", "/open/plan", aclflag=0, entries=[ANNS | {"flag": 0}])
    place.wire("ann", "CREATE", "/shut/new", data="")
    place.wire("ann", "SETLIST", "/shut/new", aclflag=0, entries=[ANNS | {"flag": 0}, CATS | {"flag": 0}])
    assert who(place, "cat") == {}
    does, room = client_of(place, "ann", 2), place.served.server.pid
    with ThreadPoolExecutor(2) as crew:
        os.kill(room, signal.SIGSTOP)
        first = crew.submit(does, '{"cmd":"RENAME","path":"/open/plan","to":"/shut/before"}')
        assert until(lambda: waiting_at(place.served.port) == 1)
        second = crew.submit(does, '{"cmd":"RENAME","path":"/shut/new","to":"/open/plan"}')
        assert until(lambda: waiting_at(place.served.port) == 2)
        time.sleep(0.5)  # (so the front holds the answers back for some ten seconds)
        os.kill(room, signal.SIGCONT)
        assert until(lambda: place.asked("cat", "STAT", "/open/plan")["code"] == 0)
        found = who(place, "cat")
        assert not first.done() and not second.done() and found == {}
        first.result(), second.result()
    place.does("ann", "PUT", "/open/after", 201, BYTES)
    found = who(place, "cat")
    assert found["after"] == "ann" and found.get("plan") in (None, "ann")


def test_the_log_of_before_tells_what_came_before(place):
    """Once the log was turned over."""
    log = f"{place.front.folder}/work/latest.log"
    place.does("ann", "PUT", "/open/a", 201, BYTES)
    place.does("ann", "PUT", "/open/b", 201, BYTES)
    assert until(lambda: '/open/b' in text_of(log))
    os.rename(log, f"{log}.1")
    os.kill(place.front.server.pid, signal.SIGUSR1)
    assert until(lambda: os.path.exists(log))
    place.does("bob", "PUT", "/open/a", 204, b"bob's")
    assert who(place, "cat") == {"a": "bob", "b": "ann"}


def test_a_large_file_has_no_dates_without_its_manifest(place):
    """To whom that is closed, and once it is gone."""
    place.does("ann", "PUT", "/open/large", 201, bytes(200_000))
    assert who(place, "cat") == {"large": "ann"}
    manifest = "/open/large/.room-file"
    place.wire("ann", "SETLIST", manifest, aclflag=0, entries=[ANNS | {"flag": 0}])
    assert who(place, "cat") == {}
    assert who(place, "ann") == {"large": "ann"}
    client_of(place, "ann", 3)('{"cmd":"REMOVE","path":"%s"}' % manifest)
    assert who(place, "ann") == {}


def test_a_login_that_comes_back_sees_what_it_may_see_then(place):
    place.does("ann", "PUT", "/open/a", 201, BYTES)
    users = f"{place.front.folder}/users"
    before = text_of(users)
    with open(users, "w") as file:
        file.writelines(it for it in before.splitlines(True) if not it.startswith("cat:"))
    latest(place, "cat", "/open", 401)
    put_file(users, before)
    place.wire("ann", "SETLIST", "/open", aclflag=3, entries=[ANNS, BOB_WRITES])
    latest(place, "cat", "/open", 403)
    assert who(place, "bob") == {"a": "ann"}


@pytest.mark.parametrize("target", ["/latest.log", "/latest.log.1", "/latest.log?latest", "/dav/../latest.log",
                                    "/dav/plans/..%2f..%2flatest.log", "/changes.log"])
def test_the_log_is_given_to_the_gateway_alone(place, target):
    assert place.ask("ann", "GET", target, raw=True).status in (400, 404)
    assert place.ask(None, "GET", target, raw=True).status in (400, 401)


# The log itself

def line(at, user, cmd, path, to=None, took=0.0, number=1, slot=None, status=200, length=10, room="plans"):
    slot = slot or f"v1/sessions/{user.encode().hex():0>32}/slots/0"
    asked = {"cmd": cmd, "path": path, **({"to": to} if to else {})}
    its = {"end": f"{at:.3f}", "took": f"{took:.3f}", "user": user, "slot": f"{room}/{slot}/{number}",
           "status": str(status), "length": str(length), "asked": json.dumps(asked, separators=(",", ":"))}
    return json.dumps(its, separators=(",", ":")).encode()


def served(file, room="plans"):
    return json.dumps({"slot": f"{room}/", "file": file}, separators=(",", ":")).encode()


MADE = line(1, "ann", "CREATE", "/f/a")
IS = {"a": ("ann", 1)}


@pytest.mark.parametrize("lines, want", [
    ([MADE], IS),
    ([line(1, "ann", "CREATE", "/f/a", room="office")], {}),
    ([line(1, '"slot":"plans/', "CREATE", "/f/a", room="office")], {}),
    ([line(1, "ann", "CREATE", "/f/a", room="plans2")], {}),
    ([line(1, "ann", "CREATE", "/g/a"), line(2, "ann", "CREATE", "/f/b/a", number=2)], {}),
    ([MADE, line(2, "bob", "WRITE", "/f/a")], {"a": ("bob", 2)}),
    ([MADE, line(2, "bob", "REMOVE", "/f/a")], {}),
    ([MADE, line(2, "bob", "RENAME", "/f", "/g")], {}),
    ([MADE, line(2, "bob", "RENAME", "/g", "/f")], {}),
    ([MADE, line(2, "bob", "RENAME", "/f/a", "/f/b")], {"b": ("bob", 2)}),
    ([MADE, line(2, "bob", "MKDIR", "/f")], {}),
    # refused, and not known
    ([MADE, line(2, "bob", "REMOVE", "/f/a", length=60)], IS),
    ([MADE, line(2, "bob", "REMOVE", "/f/a", status=409, length=40)], IS),
    ([MADE, line(2, "bob", "REMOVE", "/f/a", status=502, length="-")], {}),
    ([MADE, line(2, "bob", "CREATE", "/f/a", status=504, length="-")], {}),
    ([MADE, line(2, "bob", "WRITE", "/f/a", status=502, length="-")], IS),
    # sent again: once it was done nothing more is, and by the first time if that had no answer
    ([MADE, line(2, "bob", "WRITE", "/f/a"), MADE], {"a": ("bob", 2)}),
    ([MADE, line(2, "ann", "WRITE", "/f/a", number=2, status=502, length="-"),
      line(3, "ann", "WRITE", "/f/a", number=2)], {"a": ("ann", 3)}),
    ([line(1, "ann", "CREATE", "/f/a", status=502, length="-"), line(2, "bob", "REMOVE", "/f/a"),
      line(3, "bob", "CREATE", "/f/a", number=2), line(4, "ann", "CREATE", "/f/a")], {}),
    ([MADE, line(2, "ann", "REMOVE", "/f/a")], {}),  # (another one under its number)
    # two lines that may have come in either order, as one whose answer was held back
    ([line(5, "bob", "CREATE", "/f/a"), line(9, "ann", "RENAME", "/x", "/f/a", took=8)], {}),
    ([line(5, "bob", "CREATE", "/f/a"), line(9, "ann", "WRITE", "/f/a", took=8)], {}),
    ([line(5, "ann", "WRITE", "/f/a"), line(9, "ann", "WRITE", "/f/a", took=8, number=2)], {"a": ("ann", 9)}),
    ([line(5, "ann", "RENAME", "/x", "/f"), line(6, "bob", "CREATE", "/f/a", took=2)], {}),
    ([line(5, "ann", "RENAME", "/x", "/f"), line(6, "bob", "CREATE", "/f/a", took=0.5)], {"a": ("bob", 6)}),
    ([line(5, "ann", "CREATE", "/f/a"), line(6, "bob", "WRITE", "/f/a", took=2),
      line(7, "ann", "WRITE", "/f/a", number=2)], {"a": ("ann", 7)}),
    ([line(9, "bob", "WRITE", "/f/a"), line(5, "bob", "WRITE", "/f/a", number=2),
      line(10, "ann", "WRITE", "/f/a", took=3)], {}),
    # what cannot be read
    ([MADE, b"{"], {}),
    ([MADE, MADE[:-30]], {}),
    ([MADE, line(2, "bob", "CREATE", "/f/b").replace(b'/f/b\\"}', b"/f/")], {}),  # (its command was cut)
    ([MADE, line(2, "bob", "CREATE", "/f/b").replace(b"/f/b", b"f/b")], {}),
    ([MADE, line(2, "bob", "CREATE", "/f/b").replace(b"path", b"part")], {}),
    ([MADE, line(2, "bob", "SETLIST", "/f/a")], IS),
    # and what is behind such a line may have come before
    ([b"{", line(9, "bob", "CREATE", "/f/a", took=2)], {}),
    ([b"{", line(9, "bob", "CREATE", "/f/b", took=2), line(9.5, "bob", "CREATE", "/f/a", took=2, number=2)], {}),
    ([b"{", line(9, "bob", "CREATE", "/f/b"), line(9.5, "bob", "CREATE", "/f/a", took=0.1, number=2)],
     {"a": ("bob", 9)}),
    # a room that is served from another file by now, and one that is served again
    ([MADE, served("1 2")], {}),
    ([served("1 2"), MADE, served("1 2")], IS),
    ([served("1 2"), MADE, served("3 4")], {}),
    ([served("1 2"), MADE, served("3 4", room="office")], IS),
    # (the room may know less of its slots by then)
    ([served("1 2"), line(1, "ann", "REMOVE", "/f/a"), served("3 4"), line(2, "bob", "CREATE", "/f/a"),
      line(3, "ann", "REMOVE", "/f/a")], {}),
    # a large file, and what it is made of
    ([line(1, "ann", "CREATE", "/f/a/.room-file")], IS),
    ([line(1, "ann", "CREATE", "/f/a/.room-file"), line(2, "bob", "REMOVE", "/f/a/.room-file")], {}),
    ([line(1, "ann", "CREATE", "/f/a/.room-file"), line(2, "bob", "RENAME", "/f/a/.room-file", "/g/b")], {}),
    ([line(1, "ann", "MKDIR", "/f/.room-new-0123456789abcdef")], {}),
])
def test_a_line_counts_as_long_as_it_must_be_of_what_is_there(lines, want):
    assert Latest("plans", "/f").of(lines).found == want


@pytest.mark.parametrize("newest, older, want", [
    (b"t}\n{2}\n", (206, b"{1}\n"), [b"{2}"]), (b"{2}\n", (206, b"t}\n{1}\n"), [b"{1}", b"{2}"]),
    (b"{2}\n", (404, b"none\n"), [b"{2}"])])
def test_the_end_of_the_log(newest, older, want):
    """A line that is cut where it begins is none, and the log before counts where this one is short."""
    said = iter([(206, newest), older])
    gate = mock.Mock()
    gate.seats.file_of_front = lambda *_, **fields: next(said)
    with mock.patch.object(its_log, "MOST", 7):
        assert its_log.lines(gate, mock.Mock()) == want


def test_what_came_with_a_folder_above_has_no_dates():
    for to in "/e", "/e/f":
        above = line(2, "bob", "RENAME", "/x", to)
        for all_lines, want in ([MADE.replace(b"/f/a", b"/e/f/a"), above], {}), ([above, MADE], {}):
            assert Latest("plans", "/e/f").of(all_lines).found == want


@pytest.mark.skipif(not os.path.exists("/proc/sys/kernel/random/uuid"), reason="Linux alone tells a number of its own")
def test_a_room_says_from_which_file_it_is_served(tmp_path):
    """Another one where it was restored, and where none is there or nothing tells; the same after each restart."""
    db, log = tmp_path / "var/lib/fileroom/plans/room.db", tmp_path / "var/log/fileroom/latest.log"

    def begins(path=os.environ["PATH"]):
        subprocess.run([os.path.join(HERE, "..", "service", "fileroom-began"), "plans"], check=True,
                       env={**os.environ, "ROOT": str(tmp_path), "PATH": path}, stderr=subprocess.DEVNULL)
        its = json.loads(text_of(log).splitlines()[-1])
        assert its["slot"] == "plans/"
        return its["file"]
    db.parent.mkdir(parents=True)
    subprocess.run([os.path.join(HERE, "..", "service", "fileroom-began"), "plans"], check=True,
                   env={**os.environ, "ROOT": str(tmp_path)})  # (without a front)
    log.parent.mkdir(parents=True)
    assert begins() != begins()
    db.write_text("a room")
    born = subprocess.run(["stat", "-c", "%W", db], capture_output=True, text=True).stdout.strip()
    first = begins()
    assert (begins() == first) == (born not in ("0", "-"))
    db.rename(tmp_path / "aside")
    db.write_text("a room")
    assert begins() != first
    for born in "0", "-":  # (as a standby's file system has it)
        put_file(str(tmp_path / "stat"), f"#!/bin/sh\necho 7 {born}\n")
        (tmp_path / "stat").chmod(0o755)
        assert begins(f"{tmp_path}:{os.environ['PATH']}") != begins(f"{tmp_path}:{os.environ['PATH']}")
    assert Latest("plans", "/f").of([MADE, text_of(log).encode().splitlines()[-1]]).found == {}


def test_the_log_has_what_it_needs(place):
    """No list, no owner, no piece of a large file, and nothing of bytes."""
    log = f"{place.front.folder}/work/latest.log"
    before = len(text_of(log).splitlines())
    place.does("bob", "PUT", "/open/words.tmp", 201, BYTES)  # (which is given a list of its own)
    place.does("bob", "PUT", "/open/large", 201, bytes(200_000))
    place.does("bob", "PUT", "/open/small", 201, b"secret words")
    assert until(lambda: '/open/small' in text_of(log))
    asked = [json.loads(json.loads(it)["asked"]) for it in text_of(log).splitlines()[before:]]
    mine = [it for it in asked if it["path"].startswith("/open")]
    assert {it["cmd"] for it in asked} <= {"MKDIR", "CREATE", "WRITE", "APPEND", "RENAME", "REMOVE"}
    assert not [it for it in mine if "/.room-writing-" in it["path"] and it["cmd"] == "CREATE"]
    assert not [it for it in mine if {*it} - {"cmd", "path", "to"}]
