"""A room of version 1 is taken over by the program, which is stopped while it does.

version1.sql of tests/cases makes the room; version1.db, which sqlite3 made of it, is taken over, as it is and with all
its rows in a log. The reports are then those of version 1, the file is what docs/TABLES.md says of one that was taken
over, and each slot goes on where it was: its last request gets the reply that stands in the corpus, byte for byte, and
the next number runs. What is no room of either version is refused, and stays.

`report` is killed (SIGKILL) before each call that changes a file or flushes it, and in the middle of each write; each
write finds no room, or each one from it on; each flush fails; and files may not grow beyond a limit. `serve` is killed
before each such call. Then sqlite3 finds version 1 or version 2, whole, and version 1 where there was no room; and the
room is taken over after all.
"""
import ast
import contextlib
import itertools
import os
import re
import shutil
import signal
import sqlite3
import tempfile

import beside
import preloaded
import pytest
from given import each
from served import (HERE, Room, bytes_of, findings_of, free_port, lists_say, message, narrow, run, sqlite,
                    start_program, text_of, wait_for_port)

CASES, TOP = os.path.join(HERE, "cases"), os.path.join(HERE, "..")
CORPUS, TEXT, LISTS = (os.path.join(CASES, f"version1.{end}") for end in ("db", "sql", "lists"))
REPORT, FAILED = (0, bytes_of(LISTS), b""), (1, b"", b"fileroom: store failed\n")
KILLED = -signal.SIGKILL
WHOLE = (0, "5 objects, 0 lists that are not whole\n")
DECLARED = "SELECT type, name, tbl_name, sql FROM sqlite_master"
ROWS = "SELECT one, next FROM room; SELECT * FROM node; SELECT * FROM entry; SELECT node, hex(bytes) FROM doc;" \
    "SELECT * FROM session; SELECT sid, slot, seq, hex(request), hex(reply) FROM {} ORDER BY 1, 2;"
MEMORY = "/dev/shm"  # where a flush costs nothing
ANN, BOB, CLOSED = "0123456789abcdef" * 2, "fedcba9876543210" * 2, "0" * 32
STAT = {"cmd": "STAT", "path": "/"}
pytestmark = [pytest.mark.usefixtures("alone"), pytest.mark.timeout(900)]


def statements(text):
    """The lines of a text of SQL that are no comments."""
    return [line for line in text.splitlines() if not line.startswith("--")]


def strings_of(path, name):
    """The strings of an array or constant in a file of Rattle."""
    found = text_of(path).partition(f" {name}: ")[2].partition(" = ")[2].partition(";\n\n")[0]
    return [ast.literal_eval(f'""{it}""') for it in re.findall(r'"(?:[^"\\]|\\.)*"', found, re.S)]


def declarations(begin):
    """The tables that docs/TABLES.md declares in the block that begins so."""
    page = text_of(os.path.join(TOP, "docs", "TABLES.md"))
    block = page.partition(begin)[2].partition("```")[0]
    return [it for it in (begin.removeprefix("```sql\n") + block).splitlines() if it.startswith("CREATE")]


class OldRoom(Room):
    """A room of version 1 in a folder of its own, all of it in the file or in the log beside it."""

    def __init__(self, folder, in_log=False):
        self.folder = tempfile.mkdtemp(dir=folder)
        super().__init__(self.folder, made=False)
        if in_log:
            self.fill_log()
        else:
            shutil.copy(CORPUS, self.db)

    def fill_log(self):
        """Nothing but the first page is in the file."""
        with tempfile.TemporaryDirectory(dir=self.folder) as other:
            db = os.path.join(other, "room.db")
            with contextlib.closing(sqlite3.connect(db, isolation_level=None)) as table:
                table.execute("PRAGMA journal_mode = WAL")
                table.executescript("\n".join(statements(text_of(TEXT))))
                beside.copied(db, self.db)

    def held(self):
        """What the file and its log hold."""
        return bytes_of(self.db), bytes_of(self.db + "-wal") if os.path.exists(self.db + "-wal") else b""

    @contextlib.contextmanager
    def copied(self):
        """A copy of both, to look at."""
        with tempfile.TemporaryDirectory(dir=self.folder) as other:
            yield beside.copied(self.db, os.path.join(other, "copy.db"))

    def asked(self, text):
        """What the sqlite3 program says."""
        with self.copied() as copy:
            return sqlite(copy, text)

    def whole(self):
        """All that is in the room: the declarations, and the rows of each table."""
        with self.copied() as copy, contextlib.closing(sqlite3.connect(copy)) as it:
            declared = it.execute(f"{DECLARED} ORDER BY name").fetchall()
            names = [name for kind, name, _, _ in declared if kind == "table"]
            return declared, {name: it.execute(f"SELECT * FROM {name}").fetchall() for name in names}

    def is_sound(self):
        with self.copied() as copy:
            assert findings_of(copy) == []

    def refuses(self, says, *words):
        """A command is refused, and leaves the database file with its bytes, and what sqlite3 finds there. (To open a
        store begins a log beside it.)"""
        before = self.held()[0], self.asked(".dump")
        assert run(*words) == (1, b"", f"fileroom: {says}\n".encode())
        assert (self.held()[0], self.asked(".dump")) == before


@pytest.fixture(scope="module")
def memory():
    """A folder where a flush costs nothing."""
    with tempfile.TemporaryDirectory(prefix="fileroom-", dir=MEMORY if os.path.isdir(MEMORY) else None) as folder:
        yield folder


@pytest.fixture
def old(memory):
    return OldRoom(memory)


def test_the_corpus_is_what_its_texts_say(old, tmp_path):
    made = str(tmp_path / "made.db")
    assert sqlite(made, text_of(TEXT)) == ""
    assert sqlite(CORPUS, ".dump") == sqlite(made, ".dump")
    crate = os.path.join(TOP, "crates", "test_tables", "src", "stores", "version_1.rt")
    assert strings_of(crate, "VERSION_1") == statements(text_of(TEXT))
    tables = [*declarations("```sql\nCREATE TABLE room")[:5], *declarations("```sql\nCREATE TABLE slot")]
    assert [it for it in statements(text_of(TEXT)) if it.startswith("CREATE")] == tables
    old.is_sound()
    assert lists_say(old.db) == WHOLE


def test_taken_over_as_the_docs_say(old, tmp_path):
    fresh, version = str(tmp_path / "fresh.db"), "SELECT version FROM room;"
    assert run("init", fresh, "ann", "eng") == (0, b"", b"")
    rows, tables = old.asked(ROWS.format("slot")), old.asked(f"{DECLARED};")
    assert old.asked(version) == "1\n"
    assert old.report("lists") == REPORT
    assert old.asked(version) == "2\n"
    assert old.asked(ROWS.format("kept")) == rows
    assert old.asked("SELECT count(*) FROM slot; SELECT count(*) FROM kept;") == "0\n7\n"
    assert old.asked(f"{DECLARED} WHERE tbl_name <> 'slot';") == sqlite(fresh, f"{DECLARED};")
    assert old.asked(f"{DECLARED} WHERE tbl_name <> 'kept';") == tables
    old.is_sound()
    assert lists_say(old.db) == WHOLE


def test_taken_again_as_it_is(old):
    """And over either version no second room is made."""
    old.refuses("room exists", "init", old.db, "ann", "eng")
    assert old.report("lists") == REPORT
    before, rows = old.held()[0], old.whole()
    for _ in range(2):
        assert old.report("lists") == REPORT
        assert old.whole() == rows
        assert old.held()[0] == before
    old.refuses("room exists", "init", old.db, "ann", "eng")


KEPT = declarations("```sql\nCREATE TABLE room")[5]


@each("change, says", [
    ("version 3", "UPDATE room SET version = 3;", "not a room"),
    ("version 0", "UPDATE room SET version = 0;", "not a room"),
    ("version 2 without kept", "UPDATE room SET version = 2;", "not a room"),
    ("version 1 with kept", KEPT, "not a room"),
    ("version 1 with kept and no slot", f"{KEPT} DROP TABLE slot;", "not a room"),
    ("version 1 without slot", "DROP TABLE slot;", "not a room"),
    ("no reply", "ALTER TABLE slot DROP COLUMN reply;", "not a room"),
    ("no version", "DELETE FROM room;", "not a room"),
    ("version 1 without doc", "DROP TABLE doc;", "not a room"),
    ("no version that is taken, and no next number", "UPDATE room SET version = 2, next = -1;", "not a room"),
    ("a kept with less", "CREATE TABLE kept (sid, slot, seq, request);", "store failed"),
    ("a view of that name", "CREATE VIEW kept AS SELECT 1 AS x;", "store failed"),
    ("an index of that name", "CREATE INDEX kept ON node (owner);", "store failed"),
    ("no next number", "UPDATE room SET next = -1;", "store failed"),
    ("a next number too large", "UPDATE room SET next = 4294967296;", "store failed")])
def test_no_room(old, change, says):
    """Of either version, or none that can become one."""
    assert sqlite(old.db, change) == ""
    old.refuses(says, "report", old.db, old.roster, "lists")
    old.refuses(says, "serve", old.db, old.roster, str(free_port()), "1")


# Rows that no client brings about

def many_slots(sessions):
    """Statements that add so many sessions, with 16 slots that keep a reply each."""
    return f"""INSERT INTO session WITH RECURSIVE n (i) AS (SELECT 1 UNION ALL SELECT i + 1 FROM n LIMIT {sessions})
SELECT printf('1%031x', i), 'bob', 16, 1 FROM n;
INSERT INTO slot WITH RECURSIVE n (i) AS (SELECT 0 UNION ALL SELECT i + 1 FROM n LIMIT 16)
SELECT sid, i, i + 1, x'7b7d', CAST(sid || i AS BLOB) FROM session, n WHERE sid LIKE '1%';"""


# Other rows than a client brings about, which are taken over as they are; and many.
CARRIED = [*map(many_slots, (3, 125)),
           "DELETE FROM slot;", "DELETE FROM slot WHERE slot <> 15;", "UPDATE slot SET seq = 0;",
           "UPDATE slot SET seq = -1 WHERE slot = 15;", "UPDATE slot SET seq = 9223372036854775807 WHERE slot = 15;",
           "UPDATE slot SET slot = -1 WHERE slot = 15;", "UPDATE slot SET slot = 4294967296 WHERE slot = 15;",
           "UPDATE slot SET request = x'', reply = x'';", "UPDATE session SET owner = 'a/b', slots = 99, open = 0;",
           "CREATE TABLE mine (x, y UNIQUE); INSERT INTO mine VALUES (7, 'a');"]
# The tables of version 1 with two of their keys, and no types nor rules; another `slot`, of which the column by the
# name of `rowid` tells no row; and rows that `kept` does not take, or that no number tells apart.
LOOSE = f"""CREATE TABLE room (one UNIQUE, version, next);
CREATE TABLE node (id, parent, name, kind, owner, grp, aclflag);
CREATE TABLE entry (node, place, type, flag, mask, who);
CREATE TABLE doc (node, bytes);
CREATE TABLE session (sid UNIQUE, owner, slots, open);
CREATE TABLE slot (sid, slot, seq, request, reply);
INSERT INTO room VALUES (1, 1, 2);
INSERT INTO node VALUES (1, NULL, '', 1, 'ann', 'eng', 0);
INSERT INTO session VALUES ('{ANN}', 'ann', 3, 1);
INSERT INTO slot VALUES ('{ANN}', 0, 1, x'7b7d', x'7b7d');"""
OTHER = f"""DROP TABLE slot;
CREATE TABLE slot (rowid, sid, slot, seq, request, reply);
INSERT INTO slot VALUES (7, '{ANN}', 0, 1, x'7b7d', x'7b7d');"""
NOT_TAKEN = ["UPDATE slot SET sid = 'another';", "UPDATE slot SET sid = NULL;", "UPDATE slot SET slot = 'first';",
             "UPDATE slot SET seq = NULL;", "UPDATE slot SET request = 'text';", "UPDATE slot SET reply = 'text';",
             "INSERT INTO slot SELECT * FROM slot;",
             OTHER + "INSERT INTO slot SELECT rowid, sid, 1, seq, request, reply FROM slot;",
             OTHER + "UPDATE slot SET rowid = NULL;", OTHER + "UPDATE slot SET rowid = 'first';"]


def is_carried(old):
    """Its rows are those of before, and its other tables."""
    others = f"{DECLARED} WHERE tbl_name NOT IN ('kept', 'slot') ORDER BY name; SELECT count(*) FROM slot;"
    before, tables = old.asked(ROWS.format("slot")), old.asked(others).rsplit("\n", 2)[0]
    got = old.report("lists")
    assert (got[0], got[2]) == (0, b"")
    assert old.asked(ROWS.format("kept")) == before
    assert old.asked(others) == f"{tables}\n0\n"
    assert old.asked("SELECT version FROM room;") == "2\n"


@each("change", [(it[:60], it) for it in CARRIED])
def test_taken_over_as_they_are(old, change):
    assert sqlite(old.db, change) == ""
    is_carried(old)
    if "mine" in change:
        assert old.asked("SELECT * FROM mine;") == "7|a\n"


@each("change", [("loose", ""), ("rowid", OTHER), *((it[-60:], it) for it in NOT_TAKEN)])
def test_loose_tables(old, change):
    os.remove(old.db)
    assert sqlite(old.db, LOOSE + change) == ""
    if change in NOT_TAKEN:
        old.refuses("store failed", "report", old.db, old.roster, "lists")
    else:
        is_carried(old)


# Slots go on

def asks(line, user, sid, slot, seq, command, due):
    """A request and the code that its body is to hold, or the body."""
    got = line.ask(message(user, "POST", f"/v1/sessions/{sid}/slots/{slot}/{seq}", command)).body
    if isinstance(due, int):
        assert b'"code":%d' % due in got, (user, slot, seq, got)
    else:
        assert got == due, (user, slot, seq)


def slots_of_corpus():
    """Each slot of the corpus with its user, last number, request and reply."""
    with contextlib.closing(sqlite3.connect(CORPUS)) as table:
        wanted = "SELECT session.owner, sid, slot, seq, request, reply FROM slot JOIN session USING (sid)"
        return table.execute(wanted).fetchall()


def goes_on(room):
    """Each slot of a served room goes on where it was in version 1."""
    line = room.start(1).line()
    for _ in range(2):
        for user, sid, slot, seq, request, reply in slots_of_corpus():
            asks(line, user, sid, slot, seq, request, reply)
            asks(line, user, sid, slot, seq - 1, STAT, 22)
            asks(line, user, sid, slot, seq, {"cmd": "STAT", "path": "/other"}, 23)
    asks(line, "ann", ANN, 0, 3, {"cmd": "APPEND", "data": "IQ==", "path": "/plans/a"}, 22)
    asks(line, "ann", CLOSED, 0, 1, STAT, 20)
    for user, sid, slot, seq, _, _ in slots_of_corpus():
        for _ in range(2):
            asks(line, user, sid, slot, (seq + 1) % 2**32, STAT, 0)
    asks(line, "bob", BOB, 2, 1, {**STAT, "keep": False}, 0)  # (a slot that was not used)
    asks(line, "bob", BOB, 2, 1, STAT, 25)
    asks(line, "bob", BOB, 2, 2, STAT, 0)
    line.close()
    assert room.wait() == 0


@pytest.mark.parametrize("in_log", [False, True], ids=["file", "log"])
def test_each_slot_goes_on(memory, in_log):
    goes_on(OldRoom(memory, in_log))


def test_a_number_that_is_none_and_an_empty_reply(old):
    change = "UPDATE slot SET seq = -1 WHERE slot = 1; UPDATE slot SET reply = x'' WHERE slot = 2;"
    assert sqlite(old.db, change) == ""
    line = old.start(1).line()
    asks(line, "ann", ANN, 1, 1, {"cmd": "LIST", "path": "/"}, 30)
    asks(line, "ann", ANN, 2, 1, {"cmd": "MKDIR", "path": "/plans"}, b"")
    line.close()
    old.wait()


# The program is stopped

class Stopped:
    """Rooms after a program was stopped or failed: of version 1 or 2, whole, and then taken over."""

    def __init__(self, folder):
        self.folder, self.known, self.killed = folder, set(), {}
        self.env = {**os.environ, "LD_PRELOAD": preloaded.built(folder, os.path.join(HERE, "lib", "stop.c"))}
        room = OldRoom(folder)
        self.first, _, self.upgraded = room.whole(), room.report("lists"), room.whole()

    def left(self, room, versions):
        """The version that is left, which is one of these."""
        found = room.whole()
        version = found[1]["room"][0][1]
        assert version in versions
        assert found == (self.first if version == 1 else self.upgraded)
        held = room.held()
        if held not in self.known:
            room.is_sound()
            assert room.report("lists") == REPORT
            assert room.whole() == self.upgraded
            goes_on(room)
            self.known.add(held)
        shutil.rmtree(room.folder)
        return version

    def report(self, how, at, in_log):
        """The version that `report` leaves where its call of this number is the one, or None where it has no such."""
        room = OldRoom(self.folder, in_log)
        got = room.report("lists", env={**self.env, "STOP": f"{how} {at}"})
        ends = (KILLED, b"", b"") if how in "kh" else FAILED
        assert got == (ends if got[0] else REPORT), f"{how} {at}"
        version = self.left(room, ([1, 2] if how in "khs" else [1]) if got[0] else [2])
        return version if got[0] else None

    def killed_at_each(self, in_log):
        """The versions that `report` leaves where it is killed before each of its calls."""
        if in_log not in self.killed:
            each_call = (self.report("k", at, in_log) for at in itertools.count(1))
            self.killed[in_log] = [*itertools.takewhile(bool, each_call)]
        return self.killed[in_log]


@pytest.fixture(scope="module")
def stopped(memory):
    return Stopped(memory)


@pytest.mark.parametrize("in_log", [False, True], ids=["file", "log"])
@each("how", [("killed", "k"), ("killed in a write", "h"), ("no room from there", "n"), ("no room once", "o"),
              ("a flush that fails", "s")])
def test_report_at_each_call(stopped, how, in_log):
    left = stopped.killed_at_each(in_log)
    assert {*left} == {1, 2}
    if how != "k":
        left = [stopped.report(how, at + 1, in_log) for at in range(len(left))]
    assert sum(it is not None for it in left) > 2


def test_serve_killed_at_each_call(stopped):
    for at in itertools.count(1):
        room = OldRoom(stopped.folder)
        words = ("serve", room.db, room.roster, str(room.port), "1")
        server = start_program(*words, env={**stopped.env, "STOP": f"k {at}"})
        if wait_for_port(room.port, server):
            break
        assert server.wait() == KILLED
        stopped.left(room, [1, 2])
    server.kill()
    server.wait()
    stopped.left(room, [2])
    assert at > 3


SIZES = [0, 1, 40, 41, 1000, *range(4096, 330000, 8192)]


@pytest.mark.parametrize("size", SIZES)
def test_files_that_cannot_grow(stopped, size):
    room = OldRoom(stopped.folder)
    got = room.report("lists", **narrow(size))
    assert got == (FAILED if size < 4096 or got[0] and size < SIZES[-1] else REPORT)
    stopped.left(room, [1] if got[0] else [2])
