"""Reads a served room with the `sqlite3` program, and serves a room that `sqlite3` made.

A file that the program wrote has no finding of integrity_check and foreign_key_check, the declarations of
docs/TABLES.md, and whole lists (tools/lists). A room that sqlite3 made with those declarations is served like one that
`init` made. Each request is one commit of the log. Reports of 10,000 objects are those of the plain model (drawn.py).
What is nearly a room: test_nearly_rooms.py; rows that are no values: test_odd_rows.py; a room that is made beside what
somebody else keeps: test_crash.py and test_power.py.
"""
import contextlib
import itertools
import json
import random
import shutil
import sqlite3
import struct
import subprocess

import drawn
import pytest
from given import each
from plain import ALL, OWNER_RIGHTS
from rows import other_rows, put
from served import (WAIT, Room, bytes_of, end_with_parent, findings_of, fresh_tables, lists_say, message, run, session,
                    slot, sqlite, started_here)

DUMP = "SELECT * FROM room; SELECT * FROM node; SELECT * FROM entry ORDER BY 1, 2; SELECT node, hex(bytes) FROM doc;" \
    "SELECT * FROM session; SELECT sid, slot, seq, CAST(request AS TEXT), CAST(reply AS TEXT) FROM kept;"
pytestmark = pytest.mark.usefixtures("alone")


def made_by_sqlite(db, change="", says=""):
    """A fresh room of ann and eng, as docs/TABLES.md declares it, then changed. `says` is what sqlite3 is to print."""
    assert sqlite(db, fresh_tables() + change) == says


def is_sound(db):
    assert findings_of(db) == []
    assert lists_not_whole(db) == (0, ", 0 lists that are not whole")


def lists_not_whole(db):
    """The status of tools/lists, and the end of what it says."""
    status, text = lists_say(db)
    return status, text.rstrip()[-len(", 0 lists that are not whole") :]


REQUESTS = [
    {"cmd": "MKDIR", "path": "/plans"},
    {"cmd": "CREATE", "path": "/plans/a", "data": "aGk="},
    {"cmd": "APPEND", "path": "/plans/a", "data": "IQ=="},
    {"cmd": "CREATE", "path": "/plans/large", "data": "AAAA" * 21845},
    {"aclflag": 1, "cmd": "SETLIST", "path": "/plans",
     "entries": [{"flag": 3, "mask": 2033663, "type": n % 2, "who": f"u{n}"} for n in range(32)]},
    {"cmd": "MKDIR", "path": "/plans/under"},
    {"aclflag": 0, "cmd": "SETLIST", "path": "/",
     "entries": [{"flag": 3, "mask": 2033663, "type": 0, "who": "OWNER@"}]},
    {"aclflag": 1, "cmd": "SETLIST", "path": "/plans", "entries": []},
    {"cmd": "MKDIR", "path": "/gone"},
    {"cmd": "CREATE", "path": "/gone/b", "data": ""},
    {"cmd": "REMOVE", "path": "/gone/b"},
    {"cmd": "REMOVE", "path": "/gone"},
    {"cmd": "RENAME", "path": "/plans/a", "to": "/a"},
    {"cmd": "CHOWN", "path": "/a", "owner": "bob", "group": "staff"},
    {"cmd": "READ", "path": "/a"},
    {"cmd": "LIST", "path": "/"},
]
LAST, NEXT, NEW_SID = len(REQUESTS), len(REQUESTS) + 1, "f" * 32
OPEN, CLOSE = session(16, NEW_SID, "bob"), message("bob", "DELETE", f"/v1/sessions/{NEW_SID}")
REFUSED = {"cmd": "REMOVE", "path": "/plans"}  # by its command alone: it is accepted
# What is sent then, and its commits: one where it changes a row, if only its slot's.
THEN = [
    (0, slot(0, LAST, REQUESTS[-1])),
    (0, slot(0, LAST, REFUSED)),
    (0, slot(0, LAST - 1, REQUESTS[-2])),
    (0, slot(0, LAST + 2, REQUESTS[-1])),
    (0, slot(3, 1, REQUESTS[-1])),
    (0, slot(0, NEXT, REQUESTS[-1], "bob")),
    (0, slot(0, NEXT, REQUESTS[-1], "nobody")),
    (0, slot(0, NEXT, {"cmd": "NONE"})),
    (0, message("ann", "POST", "/v1/none")),
    (0, message(None, "POST", "/v1/check", {"child": "file", "entries": []})),
    (1, slot(0, NEXT, REFUSED)),
    (1, slot(0, NEXT + 1, {**REFUSED, "keep": False})),
    (0, slot(0, NEXT + 1, {**REFUSED, "keep": False})),
    (0, session()),
    (0, session(2)),
    (0, CLOSE),
    (1, OPEN),
    (0, OPEN),
    (1, CLOSE),
    (0, CLOSE),
    (0, OPEN),
]


def commits_in(log):
    """How many commits a log in SQLite's format holds: its frames that name the size of the database after them."""
    data = bytes_of(log)
    page, salts, found = int.from_bytes(data[8:12], "big"), data[16:24], 0
    for at in range(32, len(data) - page - 23, 24 + page):
        size, = struct.unpack(">I", data[at + 4 : at + 8])
        if data[at + 8 : at + 16] != salts:
            break
        found += size != 0
    return found


def committing(room, line, commits, asked):
    """The answer to a message, which takes so many commits of the log."""
    log = f"{room.db}-wal"
    before = commits_in(log)
    answer = line.ask(asked).whole
    assert commits_in(log) - before == commits, asked[-120:]
    return answer


def answers_of(room):
    """The answers, on two connections. Each request is one commit."""
    line = room.start(2).line()
    asked = [session(), *(slot(0, seq, command) for seq, command in enumerate(REQUESTS, 1))]
    answers = [committing(room, line, 1, it) for it in asked]
    line.close()
    line = room.line()
    answers += [committing(room, line, *it) for it in THEN]
    assert answers[LAST + 1] == answers[LAST]  # (a repeat on another connection)
    line.close()
    assert room.wait() == 0
    return answers


def opened(room, *commands):
    """A room in which ann has done so much, and which no server has open."""
    line = room.start(1).line()
    line.ask(session())
    for seq, command in enumerate(commands, 1):
        line.ask(slot(0, seq, command))
    line.close()
    room.wait()


def test_both_ways(tmp_path):
    """A room that init made, and one that sqlite3 made."""
    first, second = Room(str(tmp_path / "program")), Room(str(tmp_path / "sqlite3"), made=False)
    made_by_sqlite(second.db)
    declared = "SELECT type, name, tbl_name, sql FROM sqlite_master ORDER BY name;"
    assert sqlite(first.db, declared) == sqlite(second.db, declared)
    assert sqlite(first.db, DUMP) == sqlite(second.db, DUMP)
    assert answers_of(first) == answers_of(second)
    for room in first, second:
        alone = shutil.copy(room.db, tmp_path / "alone.db")
        assert run("report", str(alone), room.roster, "lists") == room.report("lists")
        is_sound(room.db)
    assert sqlite(first.db, DUMP) == sqlite(second.db, DUMP)
    for kind in "access", "lists":
        assert first.report(kind) == second.report(kind)
    # as docs/TABLES.md shows
    assert sqlite(first.db, "SELECT name, owner FROM node WHERE parent = 1 ORDER BY name;") == "a|bob\nplans|ann\n"
    assert sqlite(first.db, "SELECT count(*) FROM node; SELECT count(*) FROM doc;") == "5\n2\n"
    copy = str(tmp_path / "copy.db")
    assert sqlite(first.db, f".backup {copy}") == ""
    is_sound(copy)
    assert run("report", copy, first.roster, "lists") == first.report("lists")


@each("change, says", [(it[0], *it) for it in (
    ("PRAGMA user_version = 7;", ""), ("PRAGMA journal_mode = WAL;", "wal\n"), ("VACUUM;", ""),
    ("PRAGMA journal_mode = WAL; PRAGMA application_id = 5; ANALYZE;", "wal\n"))])
def test_what_else_sqlite3_may_set(tmp_path, change, says):
    room = Room(str(tmp_path), made=False)
    made_by_sqlite(room.db, change, says)
    before = room.report("lists")
    assert (before[0], before[2]) == (0, b"")
    answers_of(room)
    is_sound(room.db)


NEW_LIST = [(0, 3, 2033663, "OWNER@"), (1, 67, 1, "staff"), (0, 1, 1, "EVERYONE@")]  # of the root


def test_rows_by_hand(own):
    """Rows that no client can bring about in a short time, and one that is no value of its type."""
    stat, again = {"cmd": "STAT", "path": "/"}, {"cmd": "LIST", "path": "/"}
    last, more = ({"cmd": "MKDIR", "path": path} for path in ("/last", "/more"))

    def asks(change, *asked):
        """What a server over the changed rows answers."""
        assert sqlite(own.db, change) == ""
        line = own.start(1).line()
        for seq, command, code in asked:
            got = line.ask(slot(0, seq, command))
            status = 503 if code == 30 else 409 if code > 19 else 200
            assert (got.status, b'"code":%d' % code in got.body) == (status, True), (change, seq, command)
        line.close()
        own.wait()

    opened(own, stat)
    asks("UPDATE kept SET seq = 4294967295;", (4294967295, stat, 0), (4294967295, again, 23), (1, stat, 22),
         (4294967294, stat, 22), (0, again, 0), (0, again, 0), (4294967295, stat, 22), (1, stat, 0), (2, stat, 0))
    asks("UPDATE room SET next = 1;", (3, last, 30), (3, {**more, "cmd": "CREATE", "data": ""}, 30))
    asks("UPDATE room SET next = 1000000;", (3, last, 0), (4, more, 12), (5, {**more, "cmd": "CREATE", "data": ""}, 12),
         (6, {**last, "cmd": "REMOVE"}, 0), (7, last, 12))
    asks("UPDATE node SET owner = 'no name' WHERE id = 1;", (8, stat, 30), (8, stat, 30), (7, last, 12))
    asks("UPDATE node SET owner = 'ann' WHERE id = 1;", (8, stat, 0), (9, stat, 0))
    entries = [{"flag": flag, "mask": mask, "type": kind, "who": who} for kind, flag, mask, who in NEW_LIST]
    asks("UPDATE entry SET place = place + 7;",
         (10, {"aclflag": 0, "cmd": "SETLIST", "path": "/", "entries": entries}, 0))
    # (the places with gaps are gone)
    assert sqlite(own.db, "SELECT node, place, who FROM entry ORDER BY 1, 2;") == "".join(
        f"1|{place}|{entry['who']}\n" for place, entry in enumerate(entries))
    is_sound(own.db)


NODE, ENTRY = "INSERT INTO node VALUES (2, 1, {});", "INSERT INTO entry VALUES (2, 0, 0, 131, 1, 'bob');"


@each("change, count", [
    ("fresh", "", 0), ("old", NODE.format("'old', 1, 'ann', 'eng', 1"), 1),
    ("protected", NODE.format("'shut', 1, 'ann', 'eng', 3"), 0),
    ("of its own", NODE.format("'own', 1, 'ann', 'eng', 0") + ENTRY, 1),
    ("of one entry", "DELETE FROM entry WHERE place = 1;", 0)])
def test_a_list_that_is_not_whole_is_told(tmp_path, change, count):
    """And tools/lists leaves the file."""
    db = str(tmp_path / "room.db")
    made_by_sqlite(db, change)
    before = bytes_of(db)
    assert lists_not_whole(db) == (count, f", {count} lists that are not whole")
    assert bytes_of(db) == before


def test_a_file_that_is_held(own):
    held = (1, b"", b"fileroom: store failed\n")
    pipes = {"stdin": subprocess.PIPE, "stdout": subprocess.PIPE, "text": True, "preexec_fn": end_with_parent}
    holder = subprocess.Popen(["sqlite3", "-batch", own.db], **pipes)
    started_here.append(holder)
    holder.stdin.write("BEGIN EXCLUSIVE; SELECT 'held';\n")
    holder.stdin.flush()
    holder.stdout.readline()
    assert own.report("lists") == held
    holder.communicate("ROLLBACK;\n", timeout=WAIT)
    assert own.report("lists")[0] == 0
    own.start(1)
    assert own.report("lists") == held


# Reports of a large room

def others(room, due):
    """The lines of each report that are not as they are due: where, what stands there, and what is due."""
    found = {}
    for kind, text in due.items():
        status, got, faults = room.report(kind)
        pairs = itertools.zip_longest(got.decode().split("\n"), text.split("\n"))
        found[kind] = [(number, *it) for number, it in enumerate(pairs, 1) if it[0] != it[1]]
        found[kind] += [(status, faults)] if status or faults else []
    return found


def turned(room, db, numbers):
    """The first entry of a document, which names everyone, allows all in the place of denying, or the other way."""
    is_one = lambda it: it["who"] == "EVERYONE@" and it["mask"] & ~OWNER_RIGHTS
    at = next(at for at, it in room.things.items() if not it.is_folder and it.own and is_one(it.own[0]))
    with contextlib.closing(sqlite3.connect(db)) as table, table:
        turn = "UPDATE entry SET type = 1 - type, mask = ? WHERE node = ? AND place = 0"
        table.execute(turn, (ALL, numbers[at]))


@pytest.mark.timeout(900)
def test_reports_of_a_large_room(tmp_path):
    """A row that is another shows in one line of the lists, and in one of each user."""
    dice = random.Random(1)
    plain, top = drawn.room(dice), 3 * drawn.OBJECTS
    numbers = {(): 1, **dict(zip([it for it in plain.things if it], dice.sample(range(2, top), drawn.OBJECTS - 1)))}
    plain.made = top - 1
    users = "".join(f"{json.dumps(it)} = {json.dumps(groups)}\n" for it, groups in drawn.USERS.items())
    room = Room(str(tmp_path), f"[users]\n{users}")
    put(room.db, plain, numbers)
    assert [*other_rows(room.db, plain).items()][:3] == []
    due = plain.reports()
    assert {kind: it[:3] for kind, it in others(room, due).items()} == {"access": [], "lists": []}
    turned(plain, room.db, numbers)
    assert {kind: len(it) for kind, it in others(room, due).items()} == {"access": len(drawn.USERS), "lists": 1}
