"""Databases that are nearly rooms, and files that are nearly databases: what `report`, `serve` and `init` say of each.
What is refused is left as it was."""
import contextlib
import os
import sqlite3

import pytest
from given import each
from served import Room, bytes_of, fresh_tables, run

NO_ROOM, FAILED, EXISTS = "not a room", "store failed", "room exists"
MADE = None  # `init` makes a room of it
# The tables of a room with their columns, as `adopt` asks for them: no types, keys or rules.
TABLES = {"room": "one version next", "node": "id parent name kind owner grp aclflag",
          "entry": "node place type flag mask who", "doc": "node bytes", "session": "sid owner slots open"}
VERSIONS = [{**TABLES, name: "sid slot seq request reply"} for name in ("slot", "kept")]
# Behind the tables of a version: statements, and whether the database is a room then. What was version 1 and is taken
# over stands in test_upgrade.py.
BEHIND = [
    [("", False)] + [(f"INSERT INTO room VALUES {it};", False) for it in (
        "(1, 0, 2)", "(1, 2, 2)", "(1, 3, 2)", "(1, -1, 2)", "(1, 4294967297, 2)", "(2, 1, 2)",
        "(1, 1, 2), (1, 1, 2)", "(1, NULL, 2)", "(1, '1', 2)", "(1, 1.0, 2)")],
    [("", False), ("INSERT INTO room VALUES (1, 2, 2);", True)] + [(f"INSERT INTO room VALUES {it};", False) for it in (
        "(1, 0, 2)", "(1, 1, 2)", "(1, 3, 2)", "(1, -2, 2)", "(1, 4294967298, 2)", "(2, 2, 2)",
        "(1, 2, 2), (1, 2, 2)", "(1, NULL, 2)", "(1, '2', 2)", "(1, 2.0, 2)")] + [
        (f"CREATE TABLE slot (sid, slot, seq, request, reply); INSERT INTO room VALUES (1, {it}, 2);", it == 2)
        for it in (1, 2)]]
CHANGED = ["UPDATE room SET version = 3;", "UPDATE room SET version = 1;", "DROP TABLE kept;", "DELETE FROM room;",
           "DROP TABLE doc;", "ALTER TABLE session DROP COLUMN slots;"]
OTHERS = ["CREATE TABLE rooms (one, version, next); INSERT INTO rooms VALUES (1, 2, 2);",
          "CREATE TABLE t (x INTEGER PRIMARY KEY, y TEXT); CREATE INDEX i ON t (y);"]
# what the program's SQLite does not read, or holds against a file
UNREAD = ["PRAGMA auto_vacuum = 1; CREATE TABLE t (x);", "PRAGMA encoding = 'UTF-16'; CREATE TABLE t (x);",
          "CREATE TABLE u (x UNIQUE); CREATE TABLE t (x REFERENCES u (x)); INSERT INTO t VALUES (7);"]
PAGE, PAGES = 4096, 11  # of a room's file
LOG = 32 + PAGES * (24 + PAGE)  # bytes of one that has each page
BAD = ["hello", "text", "zeros", "letters", "part"]  # files
NAMES = [*VERSIONS[0], "kept", "ROOM", "NODE", "Entry", "dOC", "SESSIOn", '"Slot"', "Kept", "[ROOM]", "`node`"]


def declared(tables):
    return "".join(f"CREATE TABLE {name} ({', '.join(columns.split())});" for name, columns in tables.items())


def less_something(tables):
    """The tables without one of them, or one column, or with two names exchanged."""
    for name, columns in tables.items():
        yield f"no {name}", {it: tables[it] for it in tables if it != name}
        for column in columns.split():
            yield f"no {name}.{column}", {**tables, name: " ".join(it for it in columns.split() if it != column)}
    for one in tables:
        for other in tables:
            if one < other:
                renamed = {one: other, other: one}
                yield f"{one} and {other}", {renamed.get(it, it): columns for it, columns in tables.items()}


def cases():
    """Statements that make a database, what `report` says of it, and what `init` does. Of a room they are None."""
    for text in CHANGED:
        yield text, fresh_tables() + text, NO_ROOM, EXISTS
    for number, tables in enumerate(VERSIONS):
        for name, less in less_something(tables):
            yield f"version {number + 1}, {name}", declared(less), NO_ROOM, EXISTS
        for text, is_room in BEHIND[number]:
            yield f"version {number + 1}, {text}", declared(tables) + text, None if is_room else NO_ROOM, EXISTS
    text = (declared(VERSIONS[1]) + "INSERT INTO room VALUES (1, 2, 2);").upper()
    yield "names in capital letters", text, None, EXISTS
    for text in OTHERS:
        yield text, text, NO_ROOM, MADE
    for text in UNREAD:
        yield text, text, FAILED, FAILED
    for name in NAMES:
        yield f"a table {name}", f"CREATE TABLE {name} (x); INSERT INTO {name} VALUES (7);", NO_ROOM, EXISTS
    for name in VERSIONS[1]:
        yield f"a view {name}", f"CREATE VIEW {name} AS SELECT 1 AS x;", NO_ROOM, FAILED
        yield f"an index {name}", f"CREATE TABLE t (x); CREATE INDEX {name} ON t (x);", NO_ROOM, FAILED


class Place(Room):
    """A folder with a database file, perhaps a log, and a roster."""

    def __init__(self, folder, data=b"", log=None, made_by=""):
        super().__init__(str(folder), made=False)
        for end, held in ("", data), ("-wal", log):
            if held is not None:
                with open(self.db + end, "wb") as file:
                    file.write(held)
        if made_by:
            with contextlib.closing(sqlite3.connect(self.db)) as table:
                table.executescript(made_by)
        self.before = bytes_of(self.db)

    def refuses(self, says, *words):
        """A job ends with this line, and leaves the file with its bytes, and no file but a log."""
        assert run(*words) == (1, b"", f"fileroom: {says}\n".encode()), words[0]
        assert bytes_of(self.db) == self.before, words[0]
        assert {*os.listdir(os.path.dirname(self.db))} <= {"room.db", "room.db-wal", "roster.toml"}, words[0]

    def is_no_room(self, says, init_says):
        """What is said of no room; where `init` makes one of it, that is one."""
        self.refuses(says, "report", self.db, self.roster, "lists")
        self.refuses(says, "serve", self.db, self.roster, str(self.port), "1")
        if init_says is MADE:
            self.takes_room()
        else:
            self.refuses(init_says, "init", self.db, "ann", "eng")

    def takes_room(self):
        assert run("init", self.db, "ann", "eng") == (0, b"", b"")
        assert self.report("lists")[0] == 0

    def is_room(self):
        """What is taken for a room, whatever else is in it; no second one is made."""
        got = self.report("lists")
        assert (got[0], got[2]) == (0, b"")
        self.refuses(EXISTS, "init", self.db, "ann", "eng")


@each("text, says, init_says", [(name[:60], *it) for name, *it in cases()])
def test_databases(tmp_path, text, says, init_says):
    place = Place(tmp_path, made_by=text)
    if says:
        place.is_no_room(says, init_says)
    else:
        place.is_room()


@pytest.fixture(scope="module")
def good(tmp_path_factory):
    """A room's file."""
    data = bytes_of(Room(str(tmp_path_factory.mktemp("good"))).db)
    assert len(data) == PAGES * PAGE
    return data


@pytest.fixture(scope="module")
def logged(tmp_path_factory):
    """What a file and its log hold where the room is in the log, by one commit."""
    db = str(tmp_path_factory.mktemp("logged") / "room.db")
    with contextlib.closing(sqlite3.connect(db, isolation_level=None)) as table:
        table.execute("PRAGMA journal_mode = WAL")
        table.executescript(f"BEGIN; {fresh_tables()} COMMIT;")
        data, log = bytes_of(db), bytes_of(db + "-wal")
    assert len(log) == LOG
    return data, log


@pytest.fixture
def files(good, logged):
    """Files that are no databases, by name; and a log."""
    return {"hello": b"hello", "text": b"[users]\nann = []\n" * 300, "zeros": bytes(8192), "letters": b"S" * 8192,
            "part": good[:100], "log": logged[1], "none": None}


@pytest.mark.parametrize("size", sorted({2, 1000, *(at - less for at in range(2048, PAGES * PAGE + 1, 2048)
                                                    for less in (1, 1024)), *range(PAGE, PAGES * PAGE, PAGE)}))
def test_cut(tmp_path, good, size):
    Place(tmp_path, good[:size]).is_no_room(FAILED, FAILED)


@pytest.mark.parametrize("size", [0, 1])
def test_new(tmp_path, good, size):
    """Of no byte or of one: a stop may leave it of a file that was just made."""
    place = Place(tmp_path, good[:size])
    assert place.report("lists") == (1, b"", b"fileroom: not a room\n")
    place.takes_room()


@pytest.mark.parametrize("log", ["none", *BAD])
@pytest.mark.parametrize("name", [*BAD, "log"])
def test_no_database(tmp_path, files, name, log):
    Place(tmp_path, files[name], files[log]).is_no_room(FAILED, FAILED)


@pytest.mark.parametrize("log", [*BAD, "log"])
def test_a_room_and_no_log(tmp_path, good, files, log):
    Place(tmp_path, good, files[log]).is_room()


@pytest.mark.parametrize("log", BAD)
def test_nothing_and_no_log(tmp_path, files, log):
    Place(tmp_path, b"", files[log]).is_no_room(NO_ROOM, MADE)


@pytest.mark.parametrize("at", range(0, LOG, 1129))
def test_a_wrong_byte_in_a_log(tmp_path, logged, at):
    """Files that are not opened, or have the room, or have none and take one."""
    data, log = logged
    place = Place(tmp_path, data, log[:at] + bytes([log[at] ^ 16]) + log[at + 1 :])
    status, _, says = place.report("lists")
    if status == 0:
        place.is_room()
    else:
        due = (0, b"", b"") if says == b"fileroom: not a room\n" else (1, b"", says)
        assert run("init", place.db, "ann", "eng") == due
