"""Somebody leaves, and what that user owns is handed over first: by the lists, whole, or told and the user stays."""
import json
import os

import pytest
from given import each
from fileroom_admin.trash import part_of
from served import text_of

from .machines import TOLD

ALL = {"type": 0, "flag": 3, "mask": 0x1F07FF}
CHANGE = 0x1301EF
PIECES = "/f/big", "/f/big/.room-pieces-0123456789abcdef", "/f/big/.room-pieces-0123456789abcdef/000"
OWNED = "/f", *PIECES, "/f/only", "/f/only/in"
REMOVE = "user", "remove", "--to", "kim", "plans", "bob"
HELD = "etc/nginx/fileroom/held/bob@plans"


@pytest.fixture
def leaver(machine, plans):
    """The room plans with what bob has there, of which a folder lets nobody but its owner in; its backup."""
    machine.write("etc/fileroom/plans.toml", '[users]\nann = ["eng"]\nbob = ["eng"]\nkim = []\n')
    plans.room.kill()
    plans.room.start()
    plans.holds("ann", "SETLIST", "/", aclflag=0, entries=[ALL | {"who": "OWNER@"}, ALL | {"who": "EVERYONE@"}])
    for path in "/f", *PIECES[:2], "/f/only":
        plans.holds("bob", "MKDIR", path)
    for path in PIECES[2], "/f/only/in":
        plans.holds("bob", "CREATE", path, data="")
    plans.holds("ann", "CREATE", "/anns", data="")
    plans.holds("bob", "SETLIST", "/f/only", aclflag=2, entries=[ALL | {"who": "OWNER@"}])
    copied(machine, plans)
    return plans


def copied(machine, plans):
    plans.room.kill()
    machine.backed_up()
    plans.room.start()


def owners(plans, user="kim"):
    return {path: plans.holds(user, "STAT", path).get("owner") for path in OWNED}


def test_all_is_handed_over_and_the_user_is_gone(machine, leaver):
    """Also what only its owner reaches; each keeps its group."""
    assert leaver.holds("ann", "CHOWN", "/f/big", owner="bob", group="staff")["code"] == 0
    status, said, faults = machine.does(*REMOVE)
    assert (status, faults) == (0, "")
    assert said.splitlines()[:2] == ["plans: 4 things of bob belong to kim",
                                     "bob is no user of the room plans any more, and has no login"]
    assert ("things in plans" in said, "hand it over" in said) == (False, False)
    assert owners(leaver) == dict.fromkeys(OWNED, "kim")
    assert leaver.holds("kim", "STAT", "/f/big")["group"] == "staff"
    assert "bob" not in text_of(machine.at("etc/fileroom/plans.toml"))
    assert not os.path.exists(machine.at(HELD))


def test_who_leaves_changes_nothing_meanwhile(machine, leaver):
    seen = []
    leaver.meanwhile = lambda: seen.append(os.path.exists(machine.at(HELD)))
    assert machine.does(*REMOVE)[0] == 0
    assert {*seen[:12]} == {True}


@pytest.fixture
def stuck(machine, leaver):
    """One thing that its owner may not give away, and one behind a folder that was closed to him."""
    for path, entries in ("/f/only/in", [ALL | {"who": "EVERYONE@", "mask": CHANGE, "flag": 0}]), ("/f/big", []):
        assert leaver.holds("bob", "SETLIST", path, aclflag=2, entries=entries)["code"] == 0
    assert leaver.holds("bob", "CHOWN", "/f/big", owner="ann", group="eng")["code"] == 5
    return leaver


def test_what_the_lists_refuse_is_told_and_the_user_stays(machine, stuck):
    status, said, faults = machine.does(*REMOVE)
    assert (status, said.splitlines()) == (1, [
        "plans: 2 things of bob belong to kim, 2 do not",
        "plans: /f/big is still bob's: its list gives bob no read-attributes",
        "plans: /f/only/in is still bob's: its list gives bob no write-owner"])
    assert faults == (
        "fileroom-admin: bob stays a user, and is held: not all was handed over in plans. Correct what is named and "
        "call this again; or leave it: the same without --to\n")
    assert "bob" in text_of(machine.at("etc/fileroom/plans.toml"))
    assert os.path.exists(machine.at(HELD))
    assert machine.does("user", "remove", "plans", "bob")[0] == 0


def test_another_thing_in_the_place_of_one(machine, leaver):
    """Whose it is now counts: what somebody else put there since the backup is not given away."""
    assert leaver.holds("ann", "REMOVE", PIECES[2])["code"] == 0
    assert leaver.holds("ann", "CREATE", PIECES[2], data="")["code"] == 0
    assert machine.does(*REMOVE)[:2][0] == 0
    assert owners(leaver) == dict.fromkeys(OWNED, "kim") | {PIECES[2]: "ann"}


def test_what_was_moved_meanwhile_is_told(machine, leaver):
    assert leaver.holds("ann", "RENAME", PIECES[2], to="/moved")["code"] == 0
    status, said, _ = machine.does(*REMOVE)
    assert status == 1
    assert f"plans: {PIECES[2]} is still bob's: it was moved or removed meanwhile\n" in said
    copied(machine, leaver)
    assert machine.does(*REMOVE)[0] == 0
    assert leaver.holds("kim", "STAT", "/moved")["owner"] == "kim"


@pytest.mark.parametrize("most", [0, 3, 8])
def test_killed_in_the_middle_it_goes_on(machine, leaver, most):
    leaver.killed(*REMOVE, behind=most)
    assert (os.path.exists(machine.at(HELD)), "bob" in text_of(machine.at("etc/fileroom/plans.toml"))) == (True, True)
    copied(machine, leaver)
    assert machine.does(*REMOVE)[0] == 0
    assert owners(leaver) == dict.fromkeys(OWNED, "kim")
    assert not os.path.exists(machine.at(HELD))


@pytest.mark.parametrize("to, why", [
    ("zed", "zed is no user of plans: fileroom-admin user add ROOM zed"), ("bob", "bob has what bob owns already")])
def test_to_nobody_is_nothing_handed_over(machine, leaver, to, why):
    assert machine.does("user", "remove", "--to", to, "plans", "bob") == (1, "", f"fileroom-admin: {why}\n")
    assert (os.path.exists(machine.at(HELD)), leaver.askers) == (False, set())
    assert "bob" in text_of(machine.at("etc/fileroom/plans.toml"))


def test_a_room_that_is_not_served_stops_no_other(machine, leaver):
    """But the user stays in both."""
    for user in "bob", "kim":
        assert machine.does("user", "add", "club", user)[0] == 0
    status, said, faults = machine.does("user", "remove", "--all", "--to", "kim", "bob")
    assert (status, said.splitlines()) == (1, [
        "club: what bob owns is not handed over: club has no backup", "plans: 4 things of bob belong to kim"])
    assert "not all was handed over in club." in faults
    assert [("bob" in text_of(machine.at(f"etc/fileroom/{it}.toml"))) for it in ("club", "plans")] == [True, True]


def table(machine, text):
    """What a table of rooms is called by, in which bob and kim do not stand."""
    machine.write("../table.csv", text)
    return "user", "import", "--sync", "--no-passwords", "--to", "ann", os.path.join(machine.folder, "table.csv")


def test_a_table_hands_over_what_those_own_who_go(machine, leaver):
    """Of all of them, before they go; and others come."""
    leaver.holds("kim", "MKDIR", "/kims")
    copied(machine, leaver)
    machine.stand_in("fail2ban-client", TOLD)
    machine.write("etc/fileroom/bounds.json", '{"plans": {"users": {"ann": "few", "bob": "many"}}}')
    machine.write("etc/nginx/fileroom/names.json", '{"ann": "Ann", "bob": "Bob"}')
    machine.told()
    status, said, faults = machine.does(*table(machine, "user,rooms,groups\nann,plans club,eng\nnia,plans,eng\n"))
    assert (status, faults) == (0, "")
    assert [it.partition(" unbanip ")[2] for it in machine.told() if "unbanip" in it] == ["bob@plans kim@plans"] * 6
    assert [it for it in said.splitlines() if " belong " in it or " owns " in it] == [
        "plans: 4 things of bob belong to ann", "plans: 1 things of kim belong to ann"]
    assert owners(leaver, "ann") == dict.fromkeys(OWNED, "ann")
    assert leaver.holds("ann", "STAT", "/kims")["owner"] == "ann"
    assert text_of(machine.at("etc/fileroom/plans.toml")) == '[users]\nann = ["eng"]\nnia = ["eng"]\n'
    assert os.listdir(os.path.dirname(machine.at(HELD))) == []
    assert [json.loads(text_of(machine.at(it))) for it in ("etc/fileroom/bounds.json", "etc/nginx/fileroom/names.json")
            ] == [{"plans": {"users": {"ann": "few"}}}, {"ann": "Ann"}]


def test_a_table_leaves_who_has_something_left_and_goes_on(machine, stuck):
    """They are named at the end, also where all goes into one log; and the same again does the rest, once that is
    mended."""
    stuck.holds("kim", "MKDIR", "/kims")
    copied(machine, stuck)
    words = table(machine, "user,rooms,groups,name\nann,plans club,eng,Ann A.\nnia,plans,eng,Nia N.\n")
    status, said, _ = machine.does(*words, within=("env", "-u", "PYTHONUNBUFFERED", "sh", "-c", 'exec "$@" 2>&1', "sh"))
    assert (status, [it for it in said.splitlines() if " belong " in it or "users" in it]) == (1, [
        "plans: 2 things of bob belong to ann, 2 do not", "plans: 1 things of kim belong to ann",
        "plans: 2 users, as the table has it, and 1 who stay", "club: 1 users, as the table has it"])
    assert said.splitlines()[-1] == (
        "fileroom-admin: bob stays a user, and is held: not all was handed over in plans. Correct what is named and "
        "call this again; or leave it: the same without --to")
    assert text_of(machine.at("etc/fileroom/plans.toml")) == (
        '[users]\nann = ["eng"]\nbob = ["eng"]\nnia = ["eng"]\n')
    assert "bob" in text_of(machine.at("etc/nginx/fileroom/users"))
    assert os.listdir(os.path.dirname(machine.at(HELD))) == ["bob@plans"]
    assert stuck.holds("ann", "STAT", "/kims")["owner"] == "ann"
    for user, path, flag in ("ann", "/f/only", 3), ("bob", "/f/only/in", 0), ("bob", "/f/big", 3):
        its = stuck.holds(user, "SETLIST", path, aclflag=0, entries=[ALL | {"who": "EVERYONE@", "flag": flag}])
        assert its["code"] == 0, path
    status, said, faults = machine.does(*words)
    assert (status, faults, owners(stuck, "ann")) == (0, "", dict.fromkeys(OWNED, "ann"))
    assert text_of(machine.at("etc/fileroom/plans.toml")) == '[users]\nann = ["eng"]\nnia = ["eng"]\n'
    assert (os.path.exists(machine.at(HELD)), "bob" in text_of(machine.at("etc/nginx/fileroom/users"))) == (
        False, False)


def test_an_empty_trash_that_its_owner_does_not_reach_stops_no_table(machine, leaver):
    """Nobody but the room's owner passes through its top folder any more."""
    assert machine.does("trash", "plans")[0] == 0
    leaver.holds("ann", "SETLIST", "/", aclflag=0, entries=[ALL | {"who": "OWNER@"}, ALL | {"who": "kim"}])
    copied(machine, leaver)
    words = table(machine, "user,rooms,groups\nann,plans club,eng\nnia,plans,eng\n")
    status, said, faults = machine.does(*words)
    assert (status, "/ does not let bob go through" in said, "kim" in faults, "bob stays" in faults) == (
        1, True, False, True), said + faults
    assert text_of(machine.at("etc/fileroom/plans.toml")) == (
        '[users]\nann = ["eng"]\nbob = ["eng"]\nnia = ["eng"]\n')
    again = [it for it in words if it not in ("--to", "ann")]
    assert machine.does(*again)[0] == 0
    assert text_of(machine.at("etc/fileroom/plans.toml")) == '[users]\nann = ["eng"]\nnia = ["eng"]\n'


def test_a_table_hands_over_to_nobody_who_goes(machine, leaver):
    words = table(machine, "user,rooms,groups\nann,plans club,eng\nbob,plans,eng\n")
    status, _, faults = machine.does(*("kim" if it == "ann" else it for it in words))
    assert (status, faults) == (1, "fileroom-admin: kim has what kim owns already\n")
    assert leaver.askers == set()


@each("more, lines, want", [("tried", ["--dry-run"], "", 0), ("refused", [], "ann,plans,eng\n", 1)])
def test_a_table_that_is_tried_or_refused_hands_over_nothing(machine, leaver, more, lines, want):
    """And holds nobody."""
    words = table(machine, f"user,rooms,groups\nann,plans club,eng\n{lines}")
    assert machine.does(*words[:3], *more, *words[3:])[0] == want
    assert (leaver.askers, os.path.exists(machine.at(HELD)), owners(leaver, "bob")) == (
        set(), False, dict.fromkeys(OWNED, "bob"))


def test_a_new_name_owns_it_all_by_the_lines_that_are_told(machine, leaver):
    """And the old one is nobody's."""
    said = machine.does("user", "rename", "bob", "rob")[1]
    told = next(it for it in said.splitlines() if it.startswith("to have rob own it: "))
    for line in told.partition(": ")[2].split("; "):
        name, *words = line.split()
        assert (name, machine.does(*words)[0]) == ("fileroom-admin", 0)
    assert owners(leaver, "rob") == dict.fromkeys(OWNED, "rob")
    assert [it for it in text_of(machine.at("etc/fileroom/plans.toml")).splitlines() if "ob" in it] == ['rob = ["eng"]']


def test_a_login_of_before_is_another_person_where_its_trash_is_empty(machine, leaver):
    """With a thing in it the trash is told, since it would be the new one's; empty it is made theirs, whosever it was.
    """
    words = table(machine, "user,rooms,groups\nann,plans club,eng\nkim,plans,\nbob,plans,\n")
    sync = [*words[:4], words[-1]]
    assert machine.does("trash", "plans")[0] == 0
    trash = f"{part_of('bob')}/bob"
    assert leaver.holds("bob", "CREATE", f"{trash}/old", data="")["code"] == 0
    copied(machine, leaver)
    assert machine.does(*REMOVE)[0] == 0
    copied(machine, leaver)
    assert "bob is new, and the backup" in machine.does(*sync)[2]
    assert leaver.holds("kim", "REMOVE", f"{trash}/old")["code"] == 0
    copied(machine, leaver)
    assert machine.does(*sync)[::2] == (0, "")
    assert leaver.holds("bob", "STAT", trash)["owner"] == "bob"
