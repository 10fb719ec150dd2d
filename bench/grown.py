"""Rooms of a shape: how many documents of 1 KiB, at which depth, in folders of which size, with lists of which length.

They lie below `/p/g0/f0`, `/p/g0/f1` and so on, at a greater depth with more folders `p` above. At depth 1 some lie at
the root, as many as are asked for, and some in folders there, which are listed; the others below `/p`. Each object has
the list that the root hands down, of which the last entry decides and the others are somebody else's.
"""
import contextlib
import os
import sqlite3
from typing import NamedTuple

from served import Room, work_folder

EVERYTHING = 0x1F07FF
AT_ROOT, FOLDERS_PART, FILES_PART = 3, 0x83, 0x80  # flags: handed down to all, and as folders and files are given it
USERS = [f"u{n:02}".ljust(32, "u") for n in range(16)]
GROUPS = [f"g{n:02}".ljust(32, "g") for n in range(16)]
ROSTER = "[users]\nann = []\n" + "".join(f"{user} = {GROUPS}\n" for user in USERS)
AT_THE_ROOT, FOLDERS_THERE = 110, 25  # documents and folders at the root, at depth 1


class Shape(NamedTuple):
    objects: int = 1000
    depth: int = 4
    size: int = 10
    length: int = 4
    letters: int = 0  # of a document's name, at least


class Grown:
    """A room of a shape. Its folders are pairs of a path and the paths of the documents in it; `listed` are the paths
    of those that have the shape's size."""

    def __init__(self, home, name, shape):
        self.room, self.shape, self.nodes, self.folders = Room(os.path.join(home, name), ROSTER), shape, [], []
        if shape.depth == 1:
            self.filled(1, "", AT_THE_ROOT)
            for n in range(FOLDERS_THERE):
                self.filled(self.node(1, f"l{n}", 1), f"/l{n}", shape.size)
        self.below((shape.objects - sum(len(paths) for _, paths in self.folders)) // shape.size)
        self.put(shape.length - 1)
        self.listed = [path for path, _ in self.folders if path]
        if shape.depth == 1:
            self.listed, self.folders = self.listed[:FOLDERS_THERE], self.folders[:1]

    def below(self, folders):
        """So many folders below `/p`."""
        top, path = 1, ""
        for _ in range(max(1, self.shape.depth - 3)):
            top, path = self.node(top, "p", 1), f"{path}/p"
        for n in range(folders):
            if n % 100 == 0:
                upper, above = self.node(top, f"g{n // 100}", 1), f"{path}/g{n // 100}"
            self.filled(self.node(upper, f"f{n}", 1), f"{above}/f{n}", self.shape.size)

    def node(self, parent, name, kind):
        number = len(self.nodes) + 2
        self.nodes.append((number, parent, name, kind, "ann", "eng", 1))
        return number

    def filled(self, parent, path, count):
        names = [f"o{n}".ljust(self.shape.letters, "o") for n in range(count)]
        self.folders.append((path, [f"{path}/{name}" for name in names]))
        for name in names:
            self.node(parent, name, 0)

    def put(self, last):
        """Writes the rows into the file, with lists of entries up to the last, which decides."""
        with contextlib.closing(sqlite3.connect(self.room.db)) as db, db:
            db.executemany("INSERT INTO node VALUES (?, ?, ?, ?, ?, ?, ?)", self.nodes)
            db.execute("INSERT INTO doc SELECT id, randomblob(1024) FROM node WHERE kind = 0")
            db.execute("DELETE FROM entry")
            db.execute(f"""WITH RECURSIVE p(n) AS (SELECT 0 UNION ALL SELECT n + 1 FROM p WHERE n < {last})
                INSERT INTO entry SELECT id, n, 0, iif(id = 1, {AT_ROOT}, iif(kind, {FOLDERS_PART}, {FILES_PART})),
                {EVERYTHING}, iif(n = {last}, 'EVERYONE@', 'nobody') FROM node CROSS JOIN p""")
            db.execute(f"UPDATE room SET next = {len(self.nodes) + 2}")

    @contextlib.contextmanager
    def copied(self, kind):
        """A room of this class over a copy of the file."""
        with work_folder(dir="/dev/shm") as folder:
            yield self.room.copied(kind, folder)
