"""A room that moves: packed on one machine, brought to another, below two roots; and one that is removed, and back."""
import contextlib
import json
import os
import re
from unittest import mock

import pytest
from fileroom_admin import archives, places, rooms
from given import each
from served import bytes_of, text_of

from .machines import ADMIN, Served, stamp

STRACE = "strace", "-qq", "-y", "-e", "trace=fsync", "-e", "signal=none", "-o"


def test_an_archive(exported):
    assert {os.stat(exported.path).st_mode & 0o777, *exported.modes} == {0o600}
    assert sorted(exported.its) == ["about.json", "logins", "names.json", "room.db", "room.db-wal", "roster.toml"]
    assert exported.machine.does("room", "export", "plans", exported.path)[0] == 1  # (over a file)


def test_an_archive_is_on_the_disk(tmp_path, monkeypatch):
    """All of it, and its name, before what removes the room goes on."""
    monkeypatch.chdir(tmp_path)
    kept = []
    with mock.patch("os.fsync", lambda handle: kept.append(os.fstat(handle))), archives.new_file("plans.tar") as file:
        file.write(b"all of it")
    assert [it.st_ino for it in kept] == [os.stat(it).st_ino for it in ("plans.tar", ".")]
    assert kept[0].st_size == 9


def test_no_login_of_another_room_is_in_it(exported):
    logins = lambda text: sorted(it.partition(":")[0] for it in text.splitlines())
    assert logins(exported.its["logins"].decode()) == ["ann", "bob"]
    assert logins(text_of(exported.machine.at("etc/nginx/fileroom/users"))) == ["ann", "bob", "eve"]


@pytest.mark.parametrize("room", ["none", "club", "plans"])
def test_an_archive_of_no_room(machine, folder, room):
    """Nor of one without a backup, or whose backup holds no file."""
    latest = machine.at(f"var/backups/fileroom/plans/{stamp(1)}")
    os.makedirs(latest)
    os.mkfifo(f"{latest}/room.db")
    assert machine.does("room", "export", room, f"{folder}/tar")[0] == 1
    assert not os.path.exists(f"{folder}/tar")


# Calls fileroom-admin where no backup can be made.
NO_BACKUP = """import sys
sys.path.insert(0, sys.argv[1])
from fileroom_admin import copying, leaving, moving, places, rooms
from fileroom_admin.command import main
def back_up(_, room):
    raise places.Fault(f"no backup of {room} now")
for it in copying, leaving, moving, rooms:
    it.back_up = back_up
sys.exit(main(sys.argv[2:]))
"""


def test_no_backup_of_now(machine, folder):
    """One of before is taken for nothing that wants the room as it is now, and all stays as it was."""
    machine.backed_up()
    before, first = machine.files(), ("-c", NO_BACKUP, os.path.dirname(ADMIN))
    for words in (f"room export plans {folder}/tar", "room renew plans", "room copy plans / club /new",
                  "room remove plans", "user remove --to ann plans bob"):
        machine.told()
        status, said, faults = machine.does(*words.split(), first=first)
        assert (status, "no backup of plans now" in said + faults) == (1, True), words
        after = machine.files()
        held = [it for it in {**after, **before} if after.get(it) != before.get(it)]
        assert held == ["etc/nginx/fileroom/held/bob@plans"] * ("--to" in words), words
        assert [it for it in machine.told() if " start " in it or " stop " in it] == [
            f"systemctl {it} fileroom@plans" for it in ("stop", "start")] * ("room remove" in words), words
    assert not os.path.exists(f"{folder}/tar")


@each("status, hours, why", [
    ("it fails", 1, 0, "there is no backup"), ("it is none of now", 0, 2, "that was made is not there"),
    ("it is of a time to come", 0, -2, "is named for a time to come"), ("it is one", 0, 0, None)])
def test_a_backup_that_is_asked_for(status, hours, why):
    its = mock.Mock(is_machine=True, copies=lambda _: [stamp(9), stamp(hours)])
    with mock.patch.object(rooms.subprocess, "run", return_value=mock.Mock(returncode=status)) as run, \
            pytest.raises(places.Fault, match=why) if why else contextlib.nullcontext():
        rooms.back_up(its, "plans")
    assert run.call_args[0] == (["systemctl", "start", "fileroom-backup@plans"],)


def test_room_list(exported):
    *lines, front = exported.machine.does("room", "list")[1].splitlines()
    assert front == "front  http://127.0.0.1:8080/  for this machine alone"
    rows = [it.split("  ") for it in lines]
    assert [it[:1] + it[3:6] for it in rows] == [
        ["club", "2 users", "backup never, 0 kept", exported.machine.at("run/fileroom/club.sock")],
        ["plans", "2 users", f"backup {exported.backup}, 1 kept", exported.machine.at("run/fileroom/plans.sock")]]
    assert all(float(it[2].removesuffix(" MiB")) > 0 for it in rows)


def test_brought_to_another_machine(there, exported):
    """It is there as it was, with its users' passwords."""
    there.told()
    backups = there.at("var/backups/fileroom")
    os.rmdir(backups)
    status, said, faults = there.does("room", "import", exported.path)
    assert (status, said.splitlines()[0]) == (
        0, "the room plans is served here, with 2 users, and backed up each night"), faults
    assert [it for it in there.told() if "plans" in it] == [f"systemctl enable --now fileroom{it}" for it in (
        "@plans", "-backup@plans.timer", "-try@plans.timer")]
    assert there.fits("bob", exported.word)
    assert os.stat(backups).st_mode & 0o777 == 0o700  # (the rooms' user makes none)
    assert "ann" in said  # (whose password here stays)
    for it in "fileroom/plans.toml", "fileroom/plans.env", *(f"nginx/fileroom/{it}" for it in (
            "rooms/plans.users.json", "rooms/plans.conf", "queues/plans.conf")):
        assert text_of(there.at(f"etc/{it}")) == text_of(exported.machine.at(f"etc/{it}")), it
    assert json.loads(text_of(there.at("etc/nginx/fileroom/rooms.json"))) == ["club", "plans"]
    assert json.loads(text_of(there.at("etc/nginx/fileroom/names.json"))) == {"bob": "Bob Ray"}
    room = Served(there)
    room.numbers["ann"] = 2  # (her session goes on, and its slot)
    assert room.holds("ann", "LIST", "/")["names"] == [["minutes", "folder"]]
    room.end()
    assert there.does("room", "import", exported.path)[0] == 1
    assert there.does("room", "import", "--as", "second", exported.path)[0] == 0
    assert os.path.exists(there.at("var/lib/fileroom/second/room.db"))


def test_a_room_with_a_standby(machine):
    """It is its manager's to stop."""
    machine.write("etc/fileroom/plans.hosts", "10.0.0.1\n")
    machine.told()
    for it in "renew", "remove":
        assert machine.does("room", it, "plans") == (1, "", (
            "fileroom-admin: plans has a standby: bring it back to one machine first (man fileroom-standby)\n"))
    assert machine.told() == []


REMOVES = [f"systemctl {it}" for it in (
    "is-active -q fileroom@plans", "stop fileroom@plans", "disable --now fileroom-try@plans.timer",
    "disable --now fileroom-backup@plans.timer", "disable --now fileroom@plans", "stop fileroom-proxy@plans.socket",
    "reload-or-restart nginx")]
COMES_BACK = [f"systemctl {it}" for it in (
    "reload-or-restart nginx", *(f"enable --now fileroom{it}" for it in (
        "@plans", "-backup@plans.timer", "-try@plans.timer")), "start fileroom@plans")]


@each("what, asked", [("it is down", "fileroom@plans", REMOVES[:2]),
                      ("it is served", "fileroom-backup@plans.timer", REMOVES[:4] + COMES_BACK)])
def test_a_service_that_does_not_end(machine, what, asked):
    """The room is as it was, and so is what serves it."""
    machine.backed_up()
    before = machine.files()
    machine.breaks(what)
    machine.told()
    assert machine.does("room", "remove", "plans")[0] == 1
    assert (machine.files(), machine.told()) == (before, asked)
    assert os.stat(machine.at("var/backups/fileroom-removed")).st_mode & 0o777 == 0o700


def test_removed_and_back(machine):
    """A room ends in an archive, and comes back out of it, with its bounds."""
    machine.backed_up()
    for words in ("few", "--group", "eng"), ("many", "--user", "bob"):
        assert machine.does("bound", "plans", *words)[0] == 0
    bounds = machine.does("bound", "plans")
    db = bytes_of(machine.at("var/lib/fileroom/plans/room.db"))
    roster = text_of(machine.at("etc/fileroom/plans.toml"))
    machine.told()
    status, said, faults = machine.does("room", "remove", "plans", within=(*STRACE, machine.at("../flushed")))
    assert status == 0, faults
    assert machine.told() == REMOVES
    assert [it for it in machine.files() if "plans" in it and not it.startswith("var/")] == []
    users = text_of(machine.at("etc/nginx/fileroom/users"))
    assert ("bob:" in users, "ann:" in users) == (False, True)
    assert text_of(machine.at("etc/nginx/fileroom/rooms.json")) == '["club"]\n'
    folder = machine.at("var/lib/fileroom/plans")
    kept, = [it for it in os.listdir(folder) if it.startswith("room.db.undone-")]
    assert bytes_of(os.path.join(folder, kept)) == db
    path = said.splitlines()[0].partition(" is in ")[2].partition(": ")[0]
    flushed = re.findall(r"<(.+)>\) += 0", text_of(machine.at("../flushed")))
    assert flushed[:3] == [os.path.realpath(machine.at(it)) for it in (
        "var/backups", path, "var/backups/fileroom-removed")]
    assert machine.does("room", "import", path)[0] == 0
    assert machine.does("bound", "plans") == bounds
    assert machine.does("dav", "list")[1] == "no room has WebDAV\n"
    assert text_of(machine.at("etc/fileroom/plans.toml")) == roster
    assert bytes_of(os.path.join(folder, "room.db")) == db


@pytest.mark.parametrize("words", [("add", "second", "lou", "eng"), ("import", "--as", "second", "PATH")])
def test_backups_of_a_room_of_before_are_not_those_of_a_new_one(there, exported, words):
    """They would be what `check` and `sees` look at."""
    there.write(f"var/backups/fileroom/second/{exported.backup}/room.db", "")
    call = "room", *(exported.path if it == "PATH" else it for it in words)
    status, _, faults = there.does(*call)
    assert (status, "has backups of a room of before" in faults) == (1, True)
    os.rename(there.at("var/backups/fileroom/second"), there.at("var/backups/fileroom/second.before"))
    assert there.does(*call)[::2] == (0, "")
