"""`fileroom-admin sees`: what a user may do, by the latest backup. Each right is compared with the program's report."""
import base64
import json
import os
import random
import subprocess

import pytest
from fileroom_admin import owned, sees
from fileroom_admin.places import Places
from given import each, number
from room_client.report import read_report
from room_client.words import ALL, SETS
from served import PROGRAM

from .contents import large
from .machines import Served

SEED = number("SEED", 1)
USERS = {"ann": ["eng"], "bob": ["eng", "staff"], "kim": ["staff"], "lou": []}
ROSTER = "[users]\n" + "".join(f"{it} = {json.dumps(groups)}\n" for it, groups in USERS.items())
WHO = "OWNER@", "GROUP@", "EVERYONE@", *USERS, "eng", "staff"
DOWN = {"type": 0, "flag": 3}
THINGS = 40


@pytest.fixture
def room(machine):
    """Its room plans, with more users, served."""
    machine.write("etc/fileroom/plans.toml", ROSTER)
    return Served(machine)


def allow(who, mask, **more):
    return {**DOWN, "who": who, "mask": mask, **more}


def entries(dice, is_folder):
    flags = [0, 1, 2, 3, 7, 11, 0x43, 0x40] if is_folder else [0, 0x40]
    return [{"type": dice.randrange(2), "flag": dice.choice(flags), "who": dice.choice(WHO),
             "mask": dice.randrange(1 << 21) & ALL} for _ in range(dice.randrange(5))]


def make_at_random(room, dice):
    """Things of each user below each other, and then their lists."""
    folders, made = [""], []
    assert room.holds("ann", "SETLIST", "/", aclflag=0, entries=[allow("EVERYONE@", ALL)])["code"] == 0
    for at in range(THINGS):
        user, is_folder = dice.choice([*USERS]), dice.randrange(3) > 0
        path = f"{dice.choice(folders)}/{at}"
        more = {"cmd": "MKDIR"} if is_folder else {"cmd": "CREATE", "data": ""}
        assert room.holds(user, path=path, **more)["code"] == 0
        folders += [path] * is_folder
        made.append((path, is_folder, user))
    for path, is_folder, user in reversed(made):
        its = {"aclflag": dice.choice([0, 1, 1, 3]), "entries": entries(dice, is_folder)}
        assert room.holds(user, "SETLIST", path, **its)["code"] == 0


def each_of(thing, path=""):
    yield path or "/", thing.mask
    for it in thing.children:
        yield from each_of(it, f"{path}/{it.name}")


def test_each_right_is_as_the_program_reports_it(machine, room, tmp_path):
    make_at_random(room, random.Random(SEED))
    room.room.kill()
    backup = machine.backed_up()
    report = [PROGRAM, "report", os.path.join(backup, "room.db"), machine.at("etc/fileroom/plans.toml"), "access"]
    told = {(it.path, it.user): it.mask for it in read_report(
        subprocess.run(report, capture_output=True, check=True).stdout)}
    with owned.opened(Places(machine.root), "plans", os.path.basename(backup)) as table:
        found = {(path, user): mask for user, groups in USERS.items()
                 for path, mask in each_of(sees.root_of(table, sees.Subject(user, groups)))}
    assert (len(told), len({*told.values()}) > 20) == ((THINGS + 1) * len(USERS), True)
    assert found == told


@pytest.fixture
def school(machine, room):
    """What eng changes and staff sees, but for some; the name of its backup."""
    def put(path, *entries, aclflag=1, data=None):
        more = {"cmd": "MKDIR"} if data is None else {"cmd": "CREATE", "data": base64.b64encode(data).decode()}
        assert room.holds("ann", path=path, **more)["code"] == 0
        if entries:
            assert room.holds("ann", "SETLIST", path, aclflag=aclflag, entries=[*entries])["code"] == 0

    room.holds("ann", "SETLIST", "/", aclflag=0, entries=[
        allow("OWNER@", ALL), allow("eng", SETS["change"], flag=0x43), allow("staff", SETS["view"], flag=0x43)])
    put("/class", allow("staff", SETS["view"], flag=0x43))
    for it in "abcde":
        put(f"/class/{it}.txt", allow("kim", 0x6, flag=0), data=b"")
    put("/class/marks", {"type": 1, "flag": 0x43, "who": "staff", "mask": 0x1})
    put("/class/marks/may", data=b"")
    put("/closed", allow("eng", SETS["change"], flag=0x43), aclflag=2)
    put("/closed/in", allow("kim", SETS["view"], flag=0), data=b"")
    for path, data in large("/plan", [b"x"]):
        put(path, *[allow("staff", 0x80, flag=0x40)] * path.endswith("file"), aclflag=2, data=data)
    put("/mixed")
    put("/mixed/.room-file", data=b"")
    put("/mixed/.room-note", allow("kim", 0x6, flag=0), data=b"")
    room.room.kill()
    return os.path.basename(machine.backed_up())


NO_ENTRY = "no entry names them for kim, so they are denied"


@each("words, lines", [
    ("a room", "kim plans", [
        "/  view  (and 3 things below)", "/plan  read-attributes,read-acl",
        "/class/  edit  of 5 documents: a.txt, b.txt, c.txt, d.txt, e.txt",
        "/class/marks  traverse,read-attributes,read-acl  (and 1 thing below)",
        "/closed  none  (cannot go in: 1 thing)", "/mixed/.room-note  edit"]),
    ("nothing", "lou plans", ["/  none  (cannot go in: 14 things)"]),
    ("a document", "kim plans /class/marks/may", [
        "read: deny group:staff read inherited, from /class/marks",
        "read-attributes,read-acl: allow group:staff view inherited, from /class",
        f"write,append,delete,write-acl,write-owner: {NO_ENTRY}"]),
    ("a closed folder above", "kim plans /closed/in", [
        "kim cannot get there: /closed does not let kim go through to what is in it", "view: allow kim view",
        f"write,append,delete,write-acl,write-owner: {NO_ENTRY}"]),
    ("the owner", "ann plans /class/a.txt", [
        "read-acl,write-acl: ann owns it", "read,write,append,read-attributes,delete,write-owner: allow OWNER@ all "
        "inherited, from /"]),
    ("a large file", "kim plans /plan", [
        "view: allow group:staff view inherit inherited, from /",
        f"write,append,delete,write-acl,write-owner: {NO_ENTRY}",
        "read: denied all the same, by the list of what it is made of: /plan/.room-file"])])
def test_what_is_told(machine, school, words, lines):
    groups = {"kim": "staff", "lou": "no group", "ann": "eng"}[words.split()[0]]
    first = f"plans, by the backup {school}, with {words.split()[0]} in {groups}:"
    assert machine.does("sees", *words.split()) == (0, "".join(f"{it}\n" for it in [first, *lines]), "")


def test_trashes_of_many_others_are_one_line(machine, room):
    """A school has hundreds; one's own has a line."""
    for at in range(6):
        assert machine.does("user", "add", "plans", f"m{at}")[0] == 0
    assert machine.does("trash", "plans")[0] == 0
    room.room.kill()
    backup = os.path.basename(machine.backed_up())
    status, said, _ = machine.does("sees", "ann", "plans")
    assert (status, said.splitlines()) == (0, [
        f"plans, by the backup {backup}, with ann in eng:", "/  all  (and 16 things below)",
        "/trash  none  of 9 things that others have there"])


@each("words, said, faults", [
    ("no such path", "kim plans /class/no", "what kim may do in plans is not known: the backup SCHOOL has no "
     "/class/no; of what was made since, after: systemctl start fileroom-backup@plans\n", ""),
    ("no user", "zed", "", "fileroom-admin: zed is no user of a room\n"),
    ("no user of it", "kim club", "", "fileroom-admin: kim is no user of the room club\n")])
def test_what_is_not_known(machine, school, words, said, faults):
    assert machine.does("sees", *words.split()) == (1, said.replace("SCHOOL", school), faults)


def test_rooms_without_a_backup_hide_no_other(machine, school):
    status, said, faults = machine.does("sees", "ann")
    assert (status, said.splitlines()[:2], faults) == (1, [
        "what ann may do in club is not known: club has no backup",
        f"plans, by the backup {school}, with ann in eng:"], "")


def test_a_backup_whose_rows_are_no_rooms(machine, school):
    """As whoever writes to a room's file may leave it."""
    odd = "PRAGMA foreign_keys=OFF; UPDATE node SET parent = id WHERE name = 'class'"
    subprocess.run(["sqlite3", machine.at(f"var/backups/fileroom/plans/{school}/room.db"), odd], check=True)
    status, said, faults = machine.does("sees", "kim", "plans")
    assert (status, faults) == (1, "")
    assert said == f"what kim may do in plans is not known: the backup {school} of plans cannot be read: " \
        "an object is in no folder, or in itself\n"
