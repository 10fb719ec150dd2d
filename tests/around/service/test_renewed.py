"""`fileroom-admin room renew`: objects have numbers without gaps, and all else is as it was, wherever it stops."""
import base64
import contextlib
import importlib.machinery
import importlib.util
import os
import shutil
import sqlite3
import subprocess
import tomllib
import types
from unittest import mock

import pytest
import rows
from given import each
from served import PROGRAM, Line, slot, text_of

from .contents import SERVICE
from .machines import FOLDER, Machine, Served
from .stopped import KILLED, counted, in_a_child
from .stopped import stopped as admin_stopped

SCRIPT = os.path.join(SERVICE, "fileroom-renew")
FULL = 1_000_000
DATA = base64.b64encode(bytes(range(256)) * 9).decode()
SPOILT = tomllib.loads(text_of(os.path.join(FOLDER, "spoilt.toml")))


@pytest.fixture
def script(monkeypatch):
    """`fileroom-renew` as a module."""
    monkeypatch.setenv("FILEROOM", PROGRAM)
    loader = importlib.machinery.SourceFileLoader("renew", SCRIPT)
    module = importlib.util.module_from_spec(importlib.util.spec_from_loader("renew", loader))
    loader.exec_module(module)
    return module


def lived_in(machine, it):
    """Objects that went, one below a folder that is younger, lists, owners, a trash, and sessions of two users."""
    of = lambda who, mask=0x1F07FF, flag=3: {"type": 0, "flag": flag, "mask": mask, "who": who}  # noqa: E731
    it.holds("ann", "SETLIST", "/", aclflag=1, entries=[of("OWNER@"), of("EVERYONE@")])
    machine.does("trash", "plans")
    for at in range(9):
        it.holds("ann", "CREATE", f"/gone{at}", data=DATA)
    it.holds("ann", "CREATE", "/old", data=DATA)
    it.holds("bob", "MKDIR", "/young")
    it.holds("ann", "RENAME", "/old", to="/young/old")
    it.holds("bob", "CREATE", "/young/empty", data="")
    it.holds("bob", "SETLIST", "/young", aclflag=2, entries=[of("bob"), of("eng", 0x1200A9, 0x43), of("ann")])
    it.holds("ann", "CHOWN", "/young/old", owner="ann", group="staff")
    for at in range(9):
        it.holds("ann", "REMOVE", f"/gone{at}")
    assert it.holds("bob", "CREATE", "/young/last", data=DATA) == {"code": 0, "size": 9 * 256}


def numbers_of(db):
    with contextlib.closing(sqlite3.connect(db)) as table:
        return [it for it, in table.execute("SELECT id FROM node ORDER BY id")], \
            table.execute("SELECT next FROM room").fetchone()[0]


def beside(db):
    """What lies in a room's folder that a killed program does not leave. (sqlite3 of a test leaves one.)"""
    return sorted({*os.listdir(os.path.dirname(db))} - {"room.db", "room.db-wal", "room.db-shm"})


def without_room(db):
    """All that a room has but for its next number, with the rowids of sessions and of what slots keep."""
    with contextlib.closing(sqlite3.connect(db)) as table:
        more = [table.execute(f"SELECT rowid, * FROM {it} ORDER BY rowid").fetchall() for it in ("session", "kept")]
    return {it: its for it, its in rows.stored(db).items() if it != "room"}, more


@pytest.fixture(scope="module")
def past(tmp_path_factory, begun):
    """A machine's root whose room plans has lived, what its callers' slots are at, what it has, its objects, and how
    many numbers were used."""
    folder = str(tmp_path_factory.mktemp("m"))
    machine = Machine(os.path.join(folder, "m"), begun)
    machine.stand_in("nginx", "true")
    machine.backed_up()
    it = Served(machine)
    lived_in(machine, it)
    it.end()
    db = machine.at("var/lib/fileroom/plans/room.db")
    os.chmod(db, 0o640)
    look = os.path.join(shutil.copytree(os.path.dirname(db), os.path.join(folder, "look")), "room.db")
    assert os.path.getsize(f"{look}-wal") > os.path.getsize(look)  # (its log has most of it)
    numbers, next_ = numbers_of(look)
    return types.SimpleNamespace(root=machine.root, slots=it.numbers, has=without_room(look), objects=len(numbers),
                                 used=next_ - 1)


class Lived(Machine):
    """Such a machine, with its room's file."""

    def __init__(self, folder, past):
        super().__init__(folder, past.root)
        self.stand_in("nginx", "true")
        self.past, self.db = past, self.at("var/lib/fileroom/plans/room.db")
        self.roster = self.at("etc/fileroom/plans.toml")

    def anew(self):
        """The room is as it was."""
        shutil.rmtree(os.path.dirname(self.db))
        shutil.copytree(os.path.join(self.past.root, "var/lib/fileroom/plans"), os.path.dirname(self.db))

    def at_next(self, number):
        """Has the next object get this number."""
        with contextlib.closing(sqlite3.connect(self.db)) as table, table:
            table.execute("UPDATE room SET next = ?", (number,))

    def is_renewed(self, db=None, next_=None):
        """All is the same by its path; the old numbers, or those without a gap. Whether these."""
        db = db or self.db
        numbers, found = numbers_of(db)
        dense = numbers == [*range(1, len(numbers) + 1)] and found == len(numbers) + 1
        assert without_room(db) == self.past.has
        assert dense or found == (next_ or self.past.used + 1)
        return dense

    def asked(self):
        """What services were asked to do."""
        return [it for it in self.told() if "is-active" not in it]


@pytest.fixture
def lived(folder, past):
    it = Lived(os.path.join(folder, "m"), past)
    yield it
    it.end()


def test_as_somebody_calls_it(lived):
    """What services are asked, what is said, and that the room goes on."""
    used, count = lived.past.used, lived.past.objects
    lived.env.update(TMPDIR="/dev/shm")  # (another disk, from which nothing can be renamed)
    assert lived.does("room", "renew", "plans") == (
        0, f"plans: {count} objects; of 1,000,000 numbers {used} were used, and {count} are now\n", "")
    assert lived.told() == ["systemctl is-active -q fileroom@plans", "systemctl stop fileroom@plans",
                            "systemctl start fileroom@plans"]
    assert lived.is_renewed()
    assert (beside(lived.db), os.stat(lived.db).st_mode & 0o777) == ([], 0o640)
    assert lived.does("room", "renew", "plans") == (
        0, f"plans: {count} objects, and no number is of one that is gone\n", "")
    it = Served(lived)
    it.numbers = {**lived.past.slots}
    line = Line(it.room.port)
    last = {"cmd": "CREATE", "path": "/young/last", "data": DATA}  # (bob's, who sends it again)
    told = line.ask(slot(0, it.numbers["bob"], last, "bob", b"bob".hex().rjust(32, "e")))
    line.close()
    assert told.body == b'{"code":0,"size":2304}'
    assert it.holds("bob", "MKDIR", "/young/next") == {"code": 0}
    it.end()
    assert numbers_of(lived.db)[0][-1] == count + 1


def test_a_room_that_is_served(lived):
    Served(lived)
    status, _, faults = lived.does("room", "renew", "plans")
    assert status == 1 and "(is the room served?)" in faults


@pytest.mark.timeout(900)
def test_stopped_at_each_step(lived, script):
    """The room is the old one or the new one, and the next call goes on."""
    status, at, outcomes = KILLED, 0, set()

    def one():
        left = [at]
        for name in "replace", "unlink", "fsync", "listdir":
            setattr(os, name, counted(getattr(os, name), left))
        for name in "opened", "reported", "renumber", "need_same", "sync", "fold":
            setattr(script, name, counted(getattr(script, name), left))
        script.shutil.copyfile = counted(shutil.copyfile, left)
        return script.main([lived.db, lived.roster])

    while status == KILLED:
        lived.anew()
        status = in_a_child(one)
        assert status in (0, KILLED), f"stopped at {at}"
        look = shutil.copytree(os.path.dirname(lived.db), os.path.join(lived.folder, "look"))
        outcomes.add(lived.is_renewed(os.path.join(look, "room.db")))
        shutil.rmtree(look)
        done = subprocess.run([SCRIPT, lived.db, lived.roster], env=lived.env, capture_output=True)
        assert (done.returncode, lived.is_renewed(), beside(lived.db)) == (0, True, []), f"{at}: {done.stderr}"
        at += 1
    assert outcomes == {False, True}


def test_the_command_stopped_at_each_step(lived):
    """The next one of any kind has the room renewed and started, or neither was begun."""
    status, at = KILLED, 0
    while status == KILLED:
        lived.anew()
        lived.told()
        status = admin_stopped(lived, at, "room", "renew", "plans")
        assert lived.does("user", "list")[0] == 0, f"stopped at {at}"
        dense = lived.is_renewed()
        assert lived.asked()[-1:] == ["systemctl start fileroom@plans"] * dense, f"stopped at {at}"
        at += 1
    assert (status, dense) == (0, True)


ORDER = ["sync room.db", "gone room.db-wal", "sync plans", "renamed", "sync plans"]


def test_kept_first(lived, script):
    """The disk has the new file, and has no log of the old one any more, before the new one has the room's name."""
    seen = []

    def noted(word, task):
        def one(*words, **how):
            seen.append(f"{word} {os.path.basename(words[0])}" if word != "renamed" else word)
            return task(*words, **how)
        return one

    with mock.patch.object(script, "sync", noted("sync", script.sync)), mock.patch.object(
            os, "unlink", noted("gone", os.unlink)), mock.patch.object(os, "replace", noted("renamed", os.replace)):
        assert script.main([lived.db, lived.roster]) == 0
    at = seen.index("sync new.db") if "sync new.db" in seen else len(seen)
    assert [it for it in seen[at:] if it in ORDER] == ORDER, seen


@pytest.mark.parametrize("what", SPOILT)
def test_a_new_file_that_is_not_the_same(lived, script, what):
    """Whatever made it so. (The program's reports are left out: it is this comparison that has to find it.)"""
    def spoil(old, new, renumber=script.renumber):
        renumber(old, new)
        with contextlib.closing(sqlite3.connect(new)) as table, table:
            assert sum(table.execute(it).rowcount for it in SPOILT[what].split(";")) != 0

    with mock.patch.object(script, "renumber", spoil), mock.patch.object(script, "reported", lambda *_: []):
        told = script.main([lived.db, lived.roster])
    assert (told, lived.is_renewed(), beside(lived.db)) == (1, False, [])


@pytest.mark.parametrize("which", ["old", "new"])
def test_a_file_that_sqlite_finds_damaged(lived, script, which, capfd):
    """With each row where it belongs: it counts one free page more than there is."""
    def miscount(path):
        with contextlib.closing(sqlite3.connect(path)) as table:
            table.execute("PRAGMA wal_checkpoint(TRUNCATE)")
        with open(path, "r+b") as file:
            file.seek(36)
            more = int.from_bytes(file.read(4), "big") + 1
            file.seek(36)
            file.write(more.to_bytes(4, "big"))

    def spoil(old, new, renumber=script.renumber):
        renumber(old, new)
        if which == "new":
            miscount(new)

    if which == "old":
        miscount(lived.db)
    with mock.patch.object(script, "renumber", spoil), mock.patch.object(script, "reported", lambda *_: []):
        told = script.main([lived.db, lived.roster])
    assert (told, lived.is_renewed(), beside(lived.db)) == (1, False, [])
    assert "sqlite3 finds it damaged" in capfd.readouterr().err


def test_a_program_that_reports_another_room(lived, script):
    reports = iter([["a"], ["b"]])
    with mock.patch.object(script, "reported", lambda *_: next(reports)):
        assert script.main([lived.db, lived.roster]) == 1
    assert not lived.is_renewed()


def test_written_to_meanwhile(lived, script):
    """No program can, since it is locked until the new file has its name; but a hand."""
    def writes(*words, need_same=script.need_same):
        with pytest.raises(script.Fault, match="cannot be locked"), script.held(lived.db):
            pass
        with open(lived.db, "r+b") as file:
            file.write(b"SQLite")
        os.utime(lived.db)
        return need_same(*words)

    with mock.patch.object(script, "need_same", writes):
        assert script.main([lived.db, lived.roster]) == 1
    assert not lived.is_renewed()


def test_a_disk_without_space(lived, script, capfd):
    twice = lambda _: mock.Mock(free=2 * os.path.getsize(lived.db))
    with mock.patch.object(script.shutil, "disk_usage", twice):
        assert script.main([lived.db, lived.roster]) == 1
    assert ("free some space" in capfd.readouterr().err, lived.is_renewed()) == (True, False)


def test_a_command_that_fails_starts_the_room_again(lived):
    lived.env.update(FILEROOM="false")
    lived.told()
    assert lived.does("room", "renew", "plans")[0] == 1
    assert lived.asked() == ["systemctl stop fileroom@plans", "systemctl start fileroom@plans"]
    assert not lived.is_renewed()


@each("next_, ends", [("one left", FULL, False), ("none left", FULL + 1, True)])
def test_a_full_room(lived, next_, ends):
    """Without a number left no row shows whether it answered ROOM_FULL: so its sessions end. With one they stay."""
    lived.at_next(next_)
    before = rows.stored(lived.db)
    status, told, _ = lived.does("room", "renew", "plans")
    after = rows.stored(lived.db)
    is_open = {its[-1] for it, its in after.items() if it[0] == "session"}
    kept = [it for it in after if it[0] == "slot"]
    assert (status, "sessions have ended" in told, 1 in is_open, kept == []) == (0, ends, not ends, ends)
    objects = [{it: its for it, its in found.items() if it[0] == "object"} for found in (before, after)]
    assert objects[0] == objects[1]


# By night: the backup renews a room more than half of whose numbers are used, half of these by what is gone

@pytest.mark.parametrize("used, objects, want", [
    (500_000, 1, False), (500_001, 1, True), (600_000, 300_000, True), (600_000, 300_001, False),
    (FULL, 500_000, True), (FULL, 500_001, False)])
def test_what_is_due(script, used, objects, want):
    assert script.is_due(used, objects) == want


@each("next_, env, hosts, want", [
    ("half of them", 500_001, {}, None, False), ("a standby", 500_002, {}, "10.0.0.1\n", False),
    ("turned off", 500_002, {"RENEW": "no"}, None, False), ("more", 500_002, {}, None, True)])
def test_by_night(lived, next_, env, hosts, want):
    lived.at_next(next_)
    inode = os.stat(lived.db).st_ino
    if hosts:
        lived.write("etc/fileroom/plans.hosts", hosts)
    how = {"env": lived.env | env, "capture_output": True, "text": True}
    done = subprocess.run([SCRIPT, "--due", lived.db, lived.roster], **how)
    assert (done.returncode, bool(done.stdout), os.stat(lived.db).st_ino != inode) == (0, want, want), done.stderr
    assert lived.is_renewed(next_=next_) == want
