"""The roster's file, which is read again as each connection comes while a room is served."""
import json
import os
import subprocess
import time

import pytest
from given import each
from served import Room, message, run, session, slot, whole

ANN, BOTH = "[users]\nann = [\"eng\"]\n", "[users]\nann = [\"eng\"]\nkim = [\"eng\"]\n"
BOB = "[users]\nbob = []\n"
MOST = 16 * 1024 * 1024  # bytes of its file
BAD, UNREAD = "fileroom: bad roster\n", "fileroom: cannot read roster\n"
UNKNOWN, OPENED = whole(b'{"code":42,"error":"UNKNOWN_USER"}', 403), whole(b'{"code":0,"slots":3}')


@pytest.fixture
def told(tmp_path):
    """A room of ann's that is served, and what it writes on standard error."""
    room = Room(str(tmp_path / "room"), ANN)
    room.told = str(tmp_path / "told")
    with open(room.told, "wb") as file:
        room.start(stderr=file)
    yield room
    room.kill()


def lines_of(room):
    with open(room.told) as file:
        return file.read()


def put(room, text):
    """The file has this text at once; or there is none."""
    if text is None:
        os.unlink(room.roster)
        return
    with open(f"{room.roster}.new", "wb") as file:
        file.write(text if isinstance(text, bytes) else text.encode())
    os.replace(f"{room.roster}.new", room.roster)


def opened(room, user):
    """What a session's OPEN is answered, over a connection of its own."""
    line = room.line()
    try:
        return line.ask(session(3, user.encode().hex().rjust(32, "0"), user)).whole
    finally:
        line.close()


def let_in(room, *users):
    return [it for it in users if opened(room, it) == OPENED]


def test_each_change_counts_from_the_next_connection_on(told):
    for text, users in (ANN, ["ann"]), (BOTH, ["ann", "kim"]), (BOB, ["bob"]), (ANN, ["ann"]), ("[users]\n", []):
        put(told, text)
        assert let_in(told, "ann", "bob", "kim") == users
    assert lines_of(told) == ""


def test_a_file_that_is_written_in_its_place(told):
    with open(told.roster, "a") as file:
        file.write("kim = []\n")
    assert let_in(told, "ann", "kim") == ["ann", "kim"]


def test_other_bytes_of_the_same_size_and_time_count(told):
    """Nothing but its bytes says that a file is another."""
    was = os.stat(told.roster)
    with open(told.roster, "r+") as file:
        file.write(ANN.replace("ann", "kim"))
    os.utime(told.roster, ns=(was.st_atime_ns, was.st_mtime_ns))
    assert os.stat(told.roster).st_size == was.st_size
    assert let_in(told, "ann", "kim") == ["kim"]


@each("text, line", [("no roster", "no roster", BAD), ("nothing", "", BAD), ("two tables", BOB + "[more]\n", BAD),
                     ("a name that is none", '[users]\n"a b" = []\n', BAD), ("no file", None, UNREAD),
                     ("no UTF-8", b"[users]\nann = [\"\xff\"]\n", UNREAD)])
def test_what_is_no_roster_changes_nothing_and_is_told_once(told, text, line):
    put(told, BOTH)
    assert let_in(told, "ann", "kim") == ["ann", "kim"]
    put(told, text)
    assert let_in(told, "ann", "bob", "kim") == ["ann", "kim"]
    assert lines_of(told) == line
    put(told, BOB)
    assert let_in(told, "ann", "bob", "kim") == ["bob"]
    assert lines_of(told) == line


def test_each_fault_that_is_another_is_told(told):
    for text in "no roster", "nor this", None, "nor this", "nor this":
        put(told, text) if text or os.path.exists(told.roster) else None
        assert let_in(told, "ann", "bob") == ["ann"]
    assert lines_of(told) == BAD + BAD + UNREAD + BAD


def test_the_roster_of_before_comes_back(told):
    """It is the same file again, and nothing is told of it."""
    put(told, "no roster")
    assert let_in(told, "ann") == ["ann"]
    put(told, ANN)
    assert (let_in(told, "ann"), lines_of(told)) == (["ann"], BAD)


def test_a_connection_that_stays_open_keeps_its_users(told):
    line = told.line()
    assert line.ask(session()).whole == OPENED
    put(told, BOB)
    assert line.ask(slot(0, 1, {"cmd": "STAT", "path": "/"})).status == 200
    line.close()
    line = told.line()
    assert line.ask(slot(0, 2, {"cmd": "STAT", "path": "/"})).whole == UNKNOWN
    line.close()


def test_a_session_goes_on_as_its_user_comes_back(told):
    """As over a restart with each of these rosters."""
    answers = []
    for is_anew in False, True:
        sid, heard = ("e" if is_anew else "d") * 32, []
        put(told, ANN)
        for text, data in (
                (ANN, session(3, sid)), (ANN, slot(0, 1, {"cmd": "STAT", "path": "/"}, sid=sid)),
                (BOB, slot(0, 2, {"cmd": "STAT", "path": "/"}, sid=sid)),
                (BOB, message("bob", "POST", f"/v1/sessions/{sid}", b'{"slots":3}')),
                (ANN, slot(0, 2, {"cmd": "STAT", "path": "/"}, sid=sid)),
                (ANN, slot(0, 1, {"cmd": "STAT", "path": "/"}, sid=sid))):
            put(told, text)
            if is_anew:
                told.kill()
                told.start(stderr=subprocess.DEVNULL)
            line = told.line()
            heard.append(line.ask(data).whole)
            line.close()
        answers.append(heard)
    assert answers[0] == answers[1]
    assert (answers[0][2], len({*answers[0]})) == (UNKNOWN, 5)


def test_groups_count_with_the_next_connection(told):
    """The root's list lets its group read."""
    sid = b"kim".hex().rjust(32, "0")
    for number, groups, code in (1, '["eng"]', 0), (2, "[]", 5), (3, '["eng"]', 0):
        put(told, f"[users]\nkim = {groups}\n")
        assert opened(told, "kim") == OPENED
        line = told.line()
        told_so = line.ask(slot(0, number, {"cmd": "LIST", "path": "/"}, "kim", sid))
        assert json.loads(told_so.body)["code"] == code
        line.close()


def test_a_start_takes_no_bad_roster(told):
    told.kill()
    put(told, "no roster")
    assert run("serve", told.db, told.roster, str(told.port), "1") == (1, b"", BAD.encode())


def pipe(room):
    """The file is a pipe that nobody writes to, so that an open of it would wait for ever."""
    os.unlink(room.roster)
    os.mkfifo(room.roster)


def of_size(room, size):
    """The file is ann's and kim's roster, with a remark behind it up to this size."""
    put(room, BOTH + "#" + "." * (size - len(BOTH) - 1))


def test_a_pipe_is_no_roster(told):
    pipe(told)
    assert (let_in(told, "ann", "kim"), lines_of(told)) == (["ann"], UNREAD)
    put(told, BOTH)
    assert (let_in(told, "ann", "kim"), lines_of(told)) == (["ann", "kim"], UNREAD)
    pipe(told)
    told.kill()
    assert run("serve", told.db, told.roster, str(told.port), "1") == (1, b"", UNREAD.encode())


def test_a_roster_has_at_most_16_mib(told):
    of_size(told, MOST + 1)
    assert (let_in(told, "ann", "kim"), lines_of(told)) == (["ann"], UNREAD)
    of_size(told, MOST)
    assert (let_in(told, "ann", "kim"), lines_of(told)) == (["ann", "kim"], UNREAD)


def test_nobody_is_refused_while_users_come(told):
    """Appends, each by a connection of its own, while fifty users come one after another."""
    line, waits = told.line(), []
    for data in session(1), slot(0, 1, {"cmd": "CREATE", "data": "", "path": "/log"}):
        assert line.ask(data).status == 200
    line.close()
    for number in range(2, 1002):
        if number % 20 == 2:
            put(told, ANN + "".join(f"new{it} = []\n" for it in range(number // 20 + 1)))
            assert opened(told, f"new{number // 20}") == OPENED
        begin = time.monotonic()
        line = told.line()
        assert line.ask(slot(0, number, {"cmd": "APPEND", "data": "IQ==", "path": "/log"})).status == 200
        line.close()
        waits.append(time.monotonic() - begin)
    # (a busy machine has one wait now and then, and no change of users does)
    assert (sorted(waits)[-25] < 1, lines_of(told)) == (True, ""), sorted(waits)[-30:]
