"""Rows that are no values: a request that meets one is answered DELAY and changes nothing, the others are answered, and
once the row is mended it acts. A decision comes to no row behind the one that leaves nothing open."""
import contextlib
import json
import sqlite3

import pytest
from given import each
from served import SID, Room, slot

DELAY = b'{"code":30,"error":"DELAY"}'
STAT = {"cmd": "STAT", "path": "/"}
OWN = [{"flag": 3, "mask": 2033663, "type": 0, "who": "OWNER@"}]
# A file /a with its list, which follows the root's, and its bytes; and a session of 16 slots, of which two keep a
# request.
KEPT = b'{"cmd":"STAT","path":"/"}'
ROWS = f"""UPDATE room SET next = 3;
INSERT INTO node VALUES (2, 1, 'a', 0, 'ann', 'eng', 1);
INSERT INTO entry VALUES (2, 0, 0, 0, 2033663, 'ann'), (2, 1, 0, 128, 2033663, 'OWNER@'),
 (2, 2, 0, 128, 1179817, 'GROUP@');
INSERT INTO doc VALUES (2, x'6869');
INSERT INTO session VALUES ('{SID}', 'ann', 16, 1);
INSERT INTO kept VALUES ('{SID}', 0, 1, x'{KEPT.hex()}', x'7b7d'), ('{SID}', 1, 1, x'{KEPT.hex()}', x'7b7d');"""
# Tables with a room's columns, and no types, keys or rules.
LOOSE = """CREATE TABLE room (one, version, next);
CREATE TABLE node (id, parent, name, kind, owner, grp, aclflag);
CREATE TABLE entry (node, place, type, flag, mask, who);
CREATE TABLE doc (node, bytes);
CREATE TABLE session (sid, owner, slots, open);
CREATE TABLE kept (sid, slot, seq, request, reply);
INSERT INTO room VALUES (1, 2, 2);
INSERT INTO node VALUES (1, NULL, '', 1, 'ann', 'eng', 0);
INSERT INTO entry VALUES (1, 0, 0, 3, 2033663, 'OWNER@'), (1, 1, 0, 3, 1179817, 'GROUP@');"""
LIST = [{"flag": flag, "mask": mask, "type": 0, "who": who}
        for flag, mask, who in ((0, 2033663, "ann"), (128, 2033663, "OWNER@"), (128, 1179817, "GROUP@"))]
# What is asked, each in a slot of its own, under a letter: the slot, the number, the command, and the answer's body.
ASKED = {
    "A": (0, 1, STAT, {}),  # again
    "N": (1, 2, STAT, {"aclflag": 0, "code": 0, "group": "eng", "kind": "folder", "owner": "ann", "size": 1}),
    "S": (2, 1, {"cmd": "STAT", "path": "/a"},
          {"aclflag": 1, "code": 0, "group": "eng", "kind": "file", "owner": "ann", "size": 2}),
    "R": (3, 1, {"cmd": "READ", "path": "/a"}, {"code": 0, "data": "aGk="}),
    "L": (4, 1, {"cmd": "LIST", "path": "/"}, {"code": 0, "names": [["a", "file"]]}),
    "G": (5, 1, {"cmd": "GETLIST", "path": "/a"}, {"aclflag": 1, "code": 0, "entries": LIST}),
    "T": (6, 1, {"aclflag": 0, "cmd": "SETLIST", "entries": OWN, "path": "/"}, {"code": 0}),
    "M": (7, 1, {"cmd": "MKDIR", "path": "/e"}, {"code": 0}),
}
# Which of them meet a value that is none; where it stands: the table, the column, which rows, and what mends it; how
# many of the values the tables take that `init` makes; and the values.
ODDS = [
    ("LT", "node", "name", "id = 2", "'a'", 7, "'a/b'", "'/'", "'..'", "CAST(x'610a' AS TEXT)",
     "CAST(x'6100' AS TEXT)", "CAST(x'ff' AS TEXT)", f"'{'x' * 65}'", "NULL"),
    ("SRGT", "node", "id", "id = 2", "2", 0, "-2"),
    ("SRLGT", "node", "kind", "id = 2", "0", 0, "2", "-1", "4294967296", "NULL", "'file'"),
    ("SRGT", "node", "aclflag", "id = 2", "1", 0, "8", "256", "-1", "1.5"),
    ("SRGT", "node", "owner", "id = 2", "'ann'", 2, "'a/b'", "''"),
    ("SRGT", "node", "grp", "id = 2", "'eng'", 2, "'no group'", f"'{'1' * 33}'", "NULL"),
    ("NSRLGMT", "node", "kind", "id = 1", "1", 0, "2", "-1", "'folder'"),
    ("NSRLGMT", "node", "aclflag", "id = 1", "0", 0, "256", "-8"),
    ("NSRLGMT", "node", "owner", "id = 1", "'ann'", 2, "''", "'a/b'"),
    ("SRGT", "entry", "mask", "node = 2 AND place = 0", "2033663", 4, "2033664", "2097151", "4294967297", "-1"),
    ("SRGT", "entry", "type", "node = 2 AND place = 0", "0", 0, "2", "-1"),
    ("SRGT", "entry", "flag", "node = 2 AND place = 0", "0", 4, "16", "32", "256", "-1"),
    ("SRGT", "entry", "who", "node = 2 AND place = 0", "'ann'", 3, "''", "'a/b'", "'owner@'", "NULL"),
    ("SRGT", "entry", "place", "node = 2 AND place = 0", "0", 1, "-1"),
    ("GT", "entry", "who", "node = 2 AND place = 1", "'OWNER@'", 1, "'a/b'"),
    ("NSRLGM", "entry", "mask", "node = 1 AND place = 0", "2033663", 1, "2035711"),
    ("M", "entry", "who", "node = 1 AND place = 1", "'GROUP@'", 1, "'a/b'"),
    ("SR", "doc", "bytes", "node = 2", "x'6869'", 0, "NULL"),
    ("R", "doc", "bytes", "node = 2", "x'6869'", 0, "'hi'"),
    ("ANSRLGTM", "session", "owner", "1", "'ann'", 1, "'a/b'", "NULL"),
    ("ANSRLGTM", "session", "slots", "1", "16", 4, "0", "17", "-1", "4294967297"),
    ("ANSRLGTM", "session", "open", "1", "1", 0, "2", "7"),
    ("AN", "kept", "seq", "1", "1", 2, "-1", "4294967296"),
    ("A", "kept", "request", "1", f"x'{KEPT.hex()}'", 0, "'text'", "NULL"),
    ("A", "kept", "reply", "1", "x'7b7d'", 0, "'text'", "0", "1.5"),
    ("M", "room", "next", "1", "3", 2, "-1", "4294967296", "NULL", "'two'"),
]
# What else stands in the tables: rows that no request reads, and a reply that is not kept or is empty. The answer to
# each letter that is not as above.
OTHERS = [
    ("INSERT INTO session VALUES ('no name', 'a/b', -1, 7);", {}),
    ("INSERT INTO node VALUES (-7, -1, 'a/b', 0, '', '', 0);", {}),
    ("INSERT INTO entry VALUES (-7, -1, 0, 0, -1, '');", {}),
    ("UPDATE kept SET reply = NULL;", {"A": b'{"code":25,"error":"RETRY_UNCACHED"}'}),
    ("UPDATE kept SET reply = x'';", {"A": b""}),
]
# A list of /a: bob reads, all are denied to read and write, bob writes and appends. The row that is changed, and what
# bob is answered who reads, writes and appends: D where a decision comes to a row that is no entry.
DECIDED = """UPDATE node SET aclflag = 0 WHERE id = 2;
DELETE FROM entry WHERE node = 2;
INSERT INTO entry VALUES (2, 2, 0, 0, 6, 'bob'), (2, 1, 1, 0, 3, 'EVERYONE@'), (2, 0, 0, 0, 1, 'bob');
UPDATE session SET owner = 'bob';
DELETE FROM kept;"""
SPOILT = [
    ("mask = mask", "place = 2", ".n."),
    ("mask = 2033664", "place = 2", ".nD"),
    ("flag = 16", "place = 1", ".DD"),
    ("who = 'a/b'", "place = 1", ".DD"),
    ("mask = -1", "place = 0", "DDD"),
    ("place = -1", "place = 2", "DDD"),
    ("place = 4294967296", "place = 0", "nn."),
]
GOOD = {letter: json.dumps(it[3], separators=(",", ":")).encode() for letter, it in ASKED.items()}
pytestmark = pytest.mark.usefixtures("alone")


def changed(db, *texts):
    """Runs statements over a file; what sqlite3 refuses is none of them."""
    with contextlib.closing(sqlite3.connect(db)) as table:
        table.execute("PRAGMA foreign_keys = ON")
        try:
            for text in texts:
                table.executescript(text)
        except sqlite3.IntegrityError:
            return False
        return True


def rows_of(db):
    """All rows, in their order."""
    with contextlib.closing(sqlite3.connect(db)) as table:
        table.text_factory = bytes
        return [table.execute(f"SELECT * FROM {name} ORDER BY 1, 2").fetchall()
                for name in ("room", "node", "entry", "doc", "session", "kept")]


def asked(room, letters, due, times=1):
    """What a server over these rows answers to each of these requests, so many times."""
    line = room.start(1).line()
    for letter in [it for it in letters for _ in range(times)]:
        at, seq, command, _ = ASKED[letter]
        body = line.ask(slot(at, seq, command)).body
        assert body == due[letter] if letter in due else body != DELAY, command
    line.close()
    assert room.wait() == 0


@pytest.fixture(scope="module")
def made(tmp_path_factory):
    """Rooms with the rows, in tables without types, keys and rules, or as `init` makes them."""
    loose, declared = (Room(str(tmp_path_factory.mktemp("made")), made=it) for it in (False, True))
    assert changed(loose.db, LOOSE, ROWS) and changed(declared.db, ROWS)
    return {"loose": loose, "declared": declared}


@pytest.fixture(params=["loose", "declared"])
def room(request, made, tmp_path):
    return made[request.param].copied(Room, str(tmp_path))


def test_rows_as_they_should_be(room):
    asked(room, GOOD, GOOD, times=2)


@each("text, answers", [(it[0][:40], *it) for it in OTHERS])
def test_what_else_stands_there(room, text, answers):
    if changed(room.db, text):
        asked(room, GOOD, {**GOOD, **answers}, times=2)


def spoils(room, odd, value):
    """Whether the tables take a value that is none. `init` makes some that refuse it."""
    letters, table, column, where, mends, *_ = odd
    with contextlib.closing(sqlite3.connect(room.db)) as conn:
        rows = ", ".join(str(it) for it, in conn.execute(f"SELECT rowid FROM {table} WHERE {where}"))
    before = rows_of(room.db)
    if not changed(room.db, f"UPDATE {table} SET {column} = {value} WHERE {where};"):
        assert rows_of(room.db) == before
        return False
    before = rows_of(room.db)
    asked(room, letters, dict.fromkeys(letters, DELAY), times=2)
    assert rows_of(room.db) == before
    asked(room, [it for it in "ANSRLG" if it not in letters], {})
    assert changed(room.db, f"UPDATE {table} SET {column} = {mends} WHERE rowid IN ({rows});")
    asked(room, letters + "".join(it for it in "TM" if it not in letters), GOOD, times=2)
    return True


@each("odd", [(" ".join(it[1:4]), it) for it in ODDS])
def test_values_that_are_none(made, tmp_path, odd):
    taken = dict.fromkeys(made, 0)
    for kind, at in [(kind, at) for kind in made for at in range(6, len(odd))]:
        room = made[kind].copied(Room, str(tmp_path / f"{kind}{at}"))
        taken[kind] += spoils(room, odd, odd[at])
    assert taken == {"loose": len(odd[6:]), "declared": odd[5]}


@each("changes, where, wanted", [(f"{changes} of {where}", changes, where, it) for changes, where, it in SPOILT])
def test_decided(made, tmp_path, changes, where, wanted):
    room = made["loose"].copied(Room, str(tmp_path))
    assert changed(room.db, DECIDED, f"UPDATE entry SET {changes} WHERE node = 2 AND {where};")
    asks = [({"cmd": "READ", "path": "/a"}, b'{"code":0,"data":"aGk="}', 1),
            ({"cmd": "WRITE", "data": "aGk=", "path": "/a"}, b'{"code":0,"size":2}', 2),
            ({"cmd": "APPEND", "data": "IQ==", "path": "/a"}, b'{"code":0,"size":3}', 4)]
    line = room.start(1).line()
    for at, (letter, (command, done, bit)) in enumerate(zip(wanted, asks)):
        denied = b'{"bit":%d,"code":5,"error":"ACCESS","path":"/a"}' % bit
        got = line.ask(slot(at, 1, command, user="bob")).body
        assert got == {".": done, "n": denied, "D": DELAY}[letter], command
    line.close()
    room.wait()
