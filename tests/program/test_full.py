"""Rooms whose files cannot grow, as on a full disk: each request is answered as it should be or DELAY, what was
answered stays, and the same request acts once when there is room again.

Documents of up to 64 KiB are made, each with its own bytes, until one is answered DELAY; then others are asked for, and
the same one again. LIMITS (12) are tried of how many bytes a file may have, by a limit of the process: the same fault
of a write as a full disk's. It is lifted while the program runs, or for one that is started anew. One room is on a disk
with a MiB left, which is really full then, and made larger.
"""
import base64
import contextlib
import os
import random
import resource
import shutil
import sqlite3
import subprocess

import pytest
from given import number
from served import Room, findings_of, narrow, session, slot, whole

LIMITS = [60 * 1024 + at * (37 * 1024 + 123) for at in range(number("LIMITS", 12))]  # bytes of a file
MOST = 200  # documents
DISK, LEFT = 64 * 2**20, 2**20  # bytes of a disk, and those that are left of it once a room is made
DELAY = b'{"code":30,"error":"DELAY"}'
pytestmark = pytest.mark.usefixtures("alone")


class Narrow(Room):
    """A room whose files cannot grow beyond a limit."""

    def __init__(self, folder, limit):
        super().__init__(folder)
        self.limit = max(limit, os.path.getsize(self.db))

    def start(self):
        return super().start(**narrow(self.limit))

    def lift(self):
        """While the server runs."""
        resource.prlimit(self.server.pid, resource.RLIMIT_FSIZE, (resource.RLIM_INFINITY, resource.RLIM_INFINITY))

    def widen(self):
        """For the next server."""
        self.limit = resource.RLIM_INFINITY


class Small(Room):
    """A room on a disk that is soon full."""

    def __init__(self, folder):
        super().__init__(folder)
        self.folder = folder
        self.resize(DISK - shutil.disk_usage(folder).free + LEFT)

    def resize(self, size):
        subprocess.run(["mount", "-o", f"remount,size={size}", self.folder], check=True)

    def lift(self):
        self.resize(DISK)

    widen = lift


def made(command):
    return whole(b'{"code":0,"size":%d}' % len(base64.b64decode(command["data"])))


def fill(line, dice):
    """Makes documents until one is answered DELAY: those that were made, and the one that was not."""
    done = []
    while len(done) < MOST:
        bytes_ = dice.randbytes(dice.choice([10, 1000, 20000, 65536]))
        command = {"cmd": "CREATE", "data": base64.b64encode(bytes_).decode(), "path": f"/d{len(done)}"}
        got = line.ask(slot(0, len(done) + 1, command))
        if got.body == DELAY:
            return done, command
        assert got.whole == made(command)
        done.append(command)
    raise AssertionError(f"{MOST} documents, and no request was answered DELAY")


def anew(room, line):
    """A connection to another server."""
    line.close()
    room.kill()
    return room.start().line()


def documents_of(db):
    with contextlib.closing(sqlite3.connect(db)) as table:
        query = "SELECT name, bytes FROM node JOIN doc ON doc.node = node.id WHERE parent = 1"
        return sorted((f"/{name}", bytes(it)) for name, it in table.execute(query))


def acts_once(room, name, is_lifted):
    line = room.start().line()
    if line.ask(session(2)).body == DELAY:
        room.widen()
        line = anew(room, line)
        assert line.ask(session(2)).whole == whole(b'{"code":0,"slots":2}')
        return
    done, late = fill(line, random.Random(name))
    asked = slot(0, len(done) + 1, late)
    for it in slot(1, 1, {"cmd": "STAT", "path": "/"}), asked, asked:  # (it stays so while there is no room)
        body = line.ask(it).body
        assert body == DELAY or b'"code":0' in body
    if is_lifted:
        room.lift()
    room.widen()
    got = line.ask(asked)
    if got.body == DELAY:  # (the fault shut the store)
        line = anew(room, line)
        got = line.ask(asked)
    assert got.whole == made(late)
    line = anew(room, line)
    assert line.ask(asked).whole == made(late)
    line.close()
    room.kill()
    assert findings_of(room.db) == []
    assert documents_of(room.db) == sorted((it["path"], base64.b64decode(it["data"])) for it in [*done, late])


@pytest.mark.parametrize("is_lifted", [False, True], ids=["anew", "lifted"])
@pytest.mark.parametrize("limit", LIMITS)
def test_a_limit(tmp_path, limit, is_lifted):
    acts_once(Narrow(str(tmp_path / "own"), limit), f"limit {limit}, lifted: {is_lifted}", is_lifted)


@pytest.mark.within("unshare", "-rm")
def test_a_full_disk(tmp_path):
    disk = str(tmp_path)
    subprocess.run(["mount", "-t", "tmpfs", "-o", f"size={DISK}", "tmpfs", disk], check=True)
    try:
        acts_once(Small(disk), "a full disk", True)
    finally:
        subprocess.run(["umount", "-l", disk], check=True)
