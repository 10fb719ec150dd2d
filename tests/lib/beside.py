"""A database with what somebody else keeps there, in which `init` makes a room: whatever stops it, theirs stays as it
was, and of the room's tables all are there or none."""
import contextlib
import os
import shutil
import sqlite3
import tempfile

from served import findings_of

ROOM = {"room", "node", "entry", "doc", "session", "kept"}
# (rows of some pages, and pages that are free again, which the room takes first; the program reads no table that has a
# trigger or a partial index)
THEIRS = """BEGIN;
CREATE TABLE mine (x INTEGER PRIMARY KEY, y TEXT UNIQUE, z BLOB);
CREATE TABLE "a log" (x REFERENCES mine, at REAL);
CREATE TABLE noted (x, CHECK (x > 0));
CREATE TABLE gone (z);
CREATE INDEX late ON "a log" (at DESC);
CREATE INDEX many ON noted (x) WHERE x > 7;
CREATE VIEW both_of AS SELECT y, at FROM mine JOIN "a log" USING (x);
CREATE TRIGGER notes AFTER INSERT ON noted BEGIN INSERT INTO "a log" VALUES (new.x, new.x / 2.0); END;
WITH RECURSIVE n (x) AS (SELECT 1 UNION ALL SELECT x + 1 FROM n WHERE x < 60)
    INSERT INTO mine SELECT x, 'y' || x, CAST(printf('%0500d', x) AS BLOB) FROM n;
INSERT INTO noted SELECT x FROM mine;
INSERT INTO gone SELECT z FROM mine;
DROP TABLE gone;
COMMIT;
"""


def told(db):
    """What is in a file beside a room, declarations and rows; and the tables of a room that are there."""
    with contextlib.closing(sqlite3.connect(db)) as table:
        declared = table.execute("SELECT type, name, tbl_name, sql FROM sqlite_master ORDER BY name").fetchall()
        theirs = [it for it in declared if it[2] not in ROOM]
        names = [name for kind, name, *_ in theirs if kind in ("table", "view")]
        rows = {name: sorted(table.execute(f'SELECT * FROM "{name}"')) for name in names}
        return (theirs, rows), {name for kind, name, *_ in declared if kind == "table"} & ROOM


def copied(db, copy):
    """The file and the log beside it."""
    for end in "", "-wal":
        if os.path.exists(db + end):
            shutil.copy(db + end, copy + end)
    return copy


def fault(db, theirs):
    """What is wrong with a file and its log in which `init` was stopped, or None."""
    with tempfile.TemporaryDirectory(dir=os.path.dirname(db)) as folder:
        copy = copied(db, os.path.join(folder, "copy.db"))
        found = findings_of(copy)
        if found:
            return f"SQLite finds {found}"
        others, tables = told(copy)
    if others != theirs:
        return "what somebody else has there is not as it was"
    return None if tables in (set(), ROOM) else f"of a room's tables {sorted(tables)} are there"
