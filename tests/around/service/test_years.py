"""`fileroom-admin` over the years: many users at once, renamed and removed ones, groups. Each command is one change,
which a room that is served has taken once the command has ended, without a restart."""
import json
import os
import subprocess
import sys
import threading
import time

import pytest
from served import HERE, text_of, until

from .machines import LOOKS
from .stopped import stops

CLIENT = os.path.join(HERE, "..", "client", "room")
ALL = {"type": 0, "flag": 3, "mask": 0x1F07FF}
ACCESS, UNKNOWN_USER = 5, 42
ANEW = "for a list of now: systemctl start fileroom-backup@{}; fileroom-admin user owns {}"


@pytest.mark.timeout(900)
def test_what_is_typed_and_said(bare):
    bare.plays("years.txt")


def test_an_import_stopped_at_a_step(machine):
    machine.write("../table.csv", "user,groups,name\nkim,eng staff,Kim Öz\nlou,,\n")
    stops(machine, "user", "import", "club", os.path.join(machine.folder, "table.csv"))


def test_a_rename_stopped_at_a_step(machine):
    machine.does("user", "name", "bob", "Bob Ray")
    machine.does("user", "add", "club", "bob", "staff")
    stops(machine, "user", "rename", "bob", "bob.ray")


def test_a_sync_stopped_at_a_step(both_backed_up):
    machine = both_backed_up
    machine.does("user", "name", "bob", "Bob Ray")
    machine.write("../table.csv", "user,groups,name\nann,eng,Ann\nkim,eng staff,Kim Öz\n")
    stops(machine, "user", "import", "--sync", "plans", os.path.join(machine.folder, "table.csv"))


def test_a_removal_from_all_rooms_stopped_at_a_step(machine):
    machine.does("user", "add", "club", "bob", "staff")
    stops(machine, "user", "remove", "--all", "bob")


@pytest.fixture
def owned(machine, plans):
    """What bob has in plans, and the name of its backup."""
    for path in "/of-bob", "/of-bob/a\u202eb", *(
            f"/of-bob/.room-{it}" for it in ("pieces-0123456789abcdef", "pieces-0123456789abcdef/00", "file")):
        plans.holds("ann", "SETLIST", "/", aclflag=1, entries=[ALL | {"who": it} for it in ("OWNER@", "EVERYONE@")])
        plans.holds("bob", "MKDIR", path)
    plans.holds("ann", "MKDIR", "/of-ann")
    plans.holds("ann", "SETLIST", "/of-ann", aclflag=1, entries=[ALL | {"who": "bob"}, ALL | {"who": "ann"}])
    plans.holds("ann", "MKDIR", "/of-ann/below")
    plans.room.kill()
    return os.path.basename(machine.backed_up())


def owns(backup):
    return [f"the backup {backup} of plans does not have what was done since; {ANEW.format('plans', 'bob')}",
            f"bob owns 2 things in plans, by the backup {backup}: /of-bob, /of-bob/a\\u202eb",
            f"bob is named in 1 lists in plans, by the backup {backup}: /of-ann",
            "to hand it over, as bob or who else may set owners there: room chown -r --from bob USER:GROUP /"]


def test_what_is_not_known(machine):
    assert machine.does("user", "owns", "bob")[1].count("is not known: ") == 2


@pytest.mark.parametrize("user", ["bob", "nobody"])
def test_what_somebody_owns(machine, owned, user):
    """Who never was in a room, and has nothing there, is told no list of it."""
    assert machine.does("user", "owns", user)[1].splitlines() == [
        f"what {user} owns in club is not known: club has no backup; {ANEW.format('club', user)}",
        *(owns(owned) if user == "bob" else [
            "by the latest backups nothing is nobody's, and no list names nobody, in plans"])]


def test_what_is_owned_by_who_leaves_is_handed_over(machine, plans, owned):
    """By the line that is told; and so is how that user comes back."""
    plans.room.start()
    groups = json.loads(text_of(machine.at("etc/nginx/fileroom/rooms/plans.users.json")))["bob"]
    status, said, faults = machine.does("user", "remove", "plans", "bob")
    assert (status, [line for line in said.splitlines() if line in owns(owned)]) == (0, owns(owned)), faults
    assert f"to bring bob back: {' '.join(['fileroom-admin user add --again plans bob', *groups])}\n" in said
    words = ["--url", f"http://127.0.0.1:{plans.room.port}", "--room-user", "ann", "--state", machine.at("../state")]
    line = owns(owned)[-1].partition(": room ")[2].replace("USER:GROUP", "ann:eng").split()
    done = subprocess.run([sys.executable, "-B", CLIENT, *words, *line], capture_output=True, text=True)
    assert (done.returncode, done.stdout[:13]) == (0, "/: 5 objects "), done.stderr
    assert plans.holds("ann", "STAT", "/of-bob")["owner"] == "ann"


def test_a_sync_keeps_the_owner_and_gives_no_old_name_to_somebody_new(machine, plans, owned):
    plans.room.start()
    path = os.path.join(machine.folder, "table.csv")
    sync = "user", "import", "--sync", "plans", path
    refused = f"fileroom-admin: nothing was changed: 1 faults in {path}\n"
    machine.write("../table.csv", "user,groups\nkim,eng\nbob,eng\n")
    assert machine.does(*sync) == (
        1, "", f"fileroom-admin: ann is not in the table, and owns the room plans\n{refused}")
    assert machine.does("user", "remove", "plans", "bob")[0] == 0
    machine.write("../table.csv", "user,groups\nann,eng\nbob,eng\nkim,eng\n")
    known = (f"fileroom-admin: bob is new, and the backup {owned} of plans has things or lists of somebody of that "
             "name; if it is the same person: --again\n")
    assert machine.does(*sync) == (1, "", known + refused)
    assert machine.does("user", "add", "plans", "bob", "eng") == (1, "", known)
    assert machine.does("user", "add", "--again", "plans", "bob", "eng")[0] == 0
    assert machine.does("user", "remove", "plans", "bob")[0] == 0
    assert machine.does(*sync, "--again")[0] == 0
    assert "bob = " in text_of(machine.at("etc/fileroom/plans.toml"))


def test_a_backup_whose_rows_are_no_rooms(machine, owned):
    db = machine.at(f"var/backups/fileroom/plans/{owned}/room.db")
    odd = "PRAGMA foreign_keys=OFF; UPDATE node SET parent = 99 WHERE name = 'of-bob'"
    subprocess.run(["sqlite3", db, odd], check=True)
    status, said, faults = machine.does("user", "owns", "bob")
    assert (status, said.count("cannot be read"), faults) == (0, 1, "")


def test_a_room_takes_its_users_without_a_restart(machine, plans):
    """Each change counts from the next request on, and the session of who comes back goes on."""
    pid = plans.room.server.pid
    machine.told()
    for words, code in (("add plans kim eng", 0), ("groups plans kim", ACCESS), ("groups plans kim eng", 0),
                        ("remove plans kim", UNKNOWN_USER), ("add plans kim eng", 0)):
        assert machine.does("user", *words.split())[0] == 0
        assert plans.holds("kim", "LIST", "/")["code"] == code, words
        plans.numbers["kim"] -= code == UNKNOWN_USER  # (it used up no number)
    assert (plans.room.server.pid, plans.room.server.poll()) == (pid, None)
    assert not [it for it in machine.told() if "start" in it]


@pytest.mark.timeout(900)
def test_nobody_waits_while_users_come(machine, plans):
    """Appends, each by a connection of its own, while fifty users come: none is refused, and the room goes on."""
    assert plans.holds("ann", "CREATE", "/log", data="")["code"] == 0
    codes, is_over = [], threading.Event()
    machine.told()

    def append():
        while not is_over.wait(0.005):
            codes.append(plans.holds("ann", "APPEND", "/log", data="IQ==")["code"])

    appending = threading.Thread(target=append)
    appending.start()
    try:
        for at in range(50):
            assert machine.does("user", "add", "plans", f"new{at}", "eng")[0] == 0
            assert plans.holds(f"new{at}", "LIST", "/")["code"] == 0
    finally:
        is_over.set()
        appending.join()
    assert ({*codes}, len(codes) > 50) == ({0}, True)
    assert [it for it in machine.told() if not LOOKS.match(it)] == []


def test_a_room_that_is_renewed_is_waited_for(machine, plans):
    """One that is served answers again once the command has ended; one that does not run is not waited for."""
    plans.room.kill()
    machine.told()
    done = []
    command = threading.Thread(target=lambda: done.append(machine.does("room", "renew", "plans")[0]))
    command.start()
    asked = os.path.join(machine.folder, "told")
    until(lambda: not command.is_alive() or "systemctl start fileroom@plans\n" in text_of(asked))
    time.sleep(1)
    assert done == []
    plans.room.start()
    command.join()
    assert done == [0]
