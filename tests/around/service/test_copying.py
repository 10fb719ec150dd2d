"""What is in a folder goes into another room: as it was, and nobody sees it before its owner lets them in."""
import base64
import contextlib
import fcntl
import os
import shlex
import sqlite3
import subprocess
import sys

import pytest
from served import text_of

from .contents import SERVICE, edit, large
from .machines import Served

ALL = {"type": 0, "flag": 3, "mask": 0x1F07FF}
FOR_ALL = [ALL | {"who": "OWNER@"}, ALL | {"who": "EVERYONE@"}]
WORDS = "room", "copy", "plans", "/w", "club", "/new"
ACCESS = 5
TOP = os.path.join(SERVICE, "..")


@pytest.fixture
def made(machine):
    """The room plans with a folder of what users have there: things that follow it, lists of their own, also an empty
    one, a large file; and its backup, the last."""
    machine.write("etc/fileroom/plans.toml", '[users]\nann = ["eng"]\nbob = ["staff"]\nkim = []\n')
    its = Served(machine)
    its.holds("ann", "SETLIST", "/", aclflag=0, entries=FOR_ALL)
    for path, data in [("/w", None), ("/w/team", None), ("/w/team/x", b"x" * 65536), ("/w/secret", None),
                       ("/w/secret/in", b"in"), ("/w/doc", b"text"), *large("/w/big", [b"1" * 65536, b"2"]),
                       ("/trash", None), ("/trash/it", b"it")]:
        more = {"cmd": "MKDIR"} if data is None else {"cmd": "CREATE", "data": base64.b64encode(data).decode()}
        assert its.holds("ann", path=path, **more)["code"] == 0
    for path, owner, entries, flags in (
            ("/w/team", "kim", [ALL | {"who": "staff", "flag": 0x43}], 1), ("/w/team/x", "bob", None, 1),
            ("/w/secret/in", "bob", [{"type": 0, "flag": 0, "mask": 1, "who": "EVERYONE@"}], 1),
            ("/w/doc", "bob", None, 1), ("/w/big", "ann", [], 2),
            ("/w/secret", "bob", [ALL | {"who": "OWNER@"}], 2)):
        assert its.holds("ann", "CHOWN", path, owner=owner, group="staff")["code"] == 0
        if entries is not None:
            assert its.holds(owner, "SETLIST", path, aclflag=flags, entries=entries)["code"] == 0
    its.room.kill()
    machine.backed_up()
    return machine


@pytest.fixture
def club(made):
    """The room club, served, where bob is a user too, and kim is not; everybody may do anything at its top."""
    assert made.does("user", "add", "club", "bob", "staff")[0] == 0
    its = Served(made, "club")
    assert its.holds("ann", "SETLIST", "/", aclflag=0, entries=FOR_ALL)["code"] == 0
    return its


def stops(club, user, path):
    """The code of an answer, and where a list refuses it."""
    reply = club.holds(user, "STAT", path)
    return reply["code"], reply.get("path")


def things(machine, room, top):
    """Below a folder: kind, owner, group, flags, bytes and own entries of each path."""
    with sqlite3.connect(f"file:{machine.at(f'var/lib/fileroom/{room}/room.db')}?mode=ro", uri=True) as table:
        nodes = {it: row for it, *row in table.execute("SELECT id, parent, name, kind, owner, grp, aclflag FROM node")}
        found = {}
        for it, (parent, name, *its) in nodes.items():
            path = f"/{name}"
            while parent and nodes[parent][0]:
                path, parent = f"/{nodes[parent][1]}{path}", nodes[parent][0]
            if path.startswith(f"{top}/"):
                own = table.execute("SELECT type, flag, mask, who FROM entry WHERE node = ? AND flag < 128 "
                                    "ORDER BY place", (it,)).fetchall()
                data = table.execute("SELECT bytes FROM doc WHERE node = ?", (it,)).fetchall()
                found[path.removeprefix(top)] = (*its, own, data)
    return found


def test_all_is_as_it_was_but_for_who_is_not_there(made, club):
    status, said, faults = made.does(*WORDS)
    assert (status, faults) == (0, "")
    assert said.splitlines() == [
        "club: /new has 10 things of plans, and lets in ann alone, who sets its list",
        "ann owns what was of kim, since they are no users of club",
        "the list of /w in plans: allow OWNER@ all inherit inherited; allow EVERYONE@ all inherit inherited"]
    want = things(made, "plans", "/w")
    kind, owner, *more = want["/team"]
    assert (owner, len(want)) == ("kim", 10)
    club.room.kill()
    assert things(made, "club", "/new") == want | {"/team": (kind, "ann", *more)}
    with sqlite3.connect(f"file:{made.at('var/lib/fileroom/club/room.db')}?mode=ro", uri=True) as table:
        assert table.execute("SELECT sum(open) FROM session WHERE owner = 'ann'").fetchone() == (1,)  # (the test's)


def test_nobody_is_let_in_before_the_list_is_set(made, club):
    assert made.does(*WORDS)[0] == 0
    assert [stops(club, "bob", f"/new/{it}") for it in ("doc", "team/x", "secret/in")] == [(ACCESS, "/new")] * 3
    entries = [ALL | {"who": "ann"}, {"type": 0, "flag": 0x43, "mask": 0x1200A9, "who": "staff"}]
    assert club.holds("ann", "SETLIST", "/new", aclflag=2, entries=entries)["code"] == 0
    assert [club.holds("bob", "READ", f"/new/{it}")["code"] for it in ("doc", "team/x", "secret/in")] == [0] * 3
    assert [club.holds("ann", "READ", f"/new/{it}")["code"] for it in ("team/x", "secret/in")] == [0, ACCESS]


def test_others_change_something_meanwhile(made, club):
    """A copy of much takes hours."""
    taken = []

    def takes_the_lock():
        with open(made.at("etc/fileroom/admin.lock"), "rb+") as lock, contextlib.suppress(BlockingIOError):
            fcntl.flock(lock, fcntl.LOCK_EX | fcntl.LOCK_NB)
            taken.append(True)
    club.meanwhile = takes_the_lock
    assert made.does(*WORDS)[0] == 0
    assert len(taken) > 10


def test_the_lines_of_running_let_the_others_in(made, club):
    """Where so far nobody passes the room's top but its owner: with the group's members as they were, not with those of
    that name there, and its new owner reads no more than before."""
    assert club.holds("ann", "SETLIST", "/", aclflag=0, entries=FOR_ALL[:1])["code"] == 0
    for words in ("user add club mo staff", "user add club lea", "group add club club bob lea",
                  "group add club club-cast bob", "room copy --group staff=club-cast plans /w club /club"):
        status, _, faults = made.does(*words.split())
        assert status == 0, faults
    lines = [it.strip() for it in text_of(f"{TOP}/docs/RUNNING.md").splitlines() if it.startswith("       room ")]
    assert [it.split()[1] for it in lines] == ["acl", "acl", "acl", "chown"]
    asks = ["--url", f"http://127.0.0.1:{club.room.port}", "--room-user", "ann", "--state", made.at("../state")]
    for it in (shlex.split(line)[1:] for line in lines):
        done = subprocess.run([sys.executable, "-B", f"{TOP}/client/room", *asks, *it], env=made.env, timeout=300)
        assert done.returncode == 0
    assert [club.holds("bob", "READ", f"/club/{it}")["code"] for it in ("doc", "team/x")] == [0, 0]
    assert [club.holds("mo", "READ", "/club/team/x")["code"], club.holds("bob", "LIST", "/")["code"]] == [ACCESS] * 2
    assert [club.holds("ann", "READ", f"/club/{it}")["code"] for it in ("doc", "secret/in")] == [ACCESS] * 2
    assert club.holds("lea", "MKDIR", "/club/new")["code"] == 0


OTHERS = ("fileroom-admin: these groups have other members in club, so what is copied for them would be {}: have it be "
          "for another group there, with the same members (--group OLD=NEW), or say that those of club are meant "
          "(--other-members)\n")


@pytest.mark.parametrize("plans, club_has, told", [
    ({"bob": ["staff"]}, {"bob": [], "mo": ["staff"]}, "staff (gained by mo; lost by bob)"),
    ({"bob": ["staff"]}, {"bob": []}, "staff (lost by bob)"),  # in club there is none
    ({"bob": ["staff"], "kim": []}, {"bob": ["staff"], "kim": ["staff"]}, "staff (gained by kim)"),
    # (no list names eng: it is some things' own)
    ({"bob": ["staff"]}, {"bob": ["staff", "eng"]}, "eng (gained by bob)"),
    ({"bob": ["staff"]}, {"bob": ["staff"], **{f"u{it}": ["staff"] for it in range(7)}},
     "staff (gained by u0, u1, u2, u3, u4 and 2 more)")])
def test_a_group_that_has_other_members_there_is_refused(made, club, plans, club_has, told):
    ann = {"ann": ["eng"]}
    for room, users in ("plans", ann | plans), ("club", ann | club_has):
        made.write(f"etc/fileroom/{room}.toml", "[users]\n" + "".join(
            f"{user} = {groups}\n".replace("'", '"') for user, groups in users.items()))
    assert made.does(*WORDS) == (1, "", OTHERS.format(told))
    assert club.holds("ann", "LIST", "/")["names"] == []
    assert made.does(*WORDS, "--other-members")[0] == 0


def test_a_group_has_another_name_there(made, club):
    """With who was in it; who is in the group of the old name there gains nothing."""
    made.write("etc/fileroom/plans.toml", '[users]\nann = ["eng", "crew"]\nbob = ["staff"]\n')
    made.write("etc/fileroom/club.toml", '[users]\nann = ["eng"]\nbob = ["team"]\nmo = ["staff"]\n')
    # (nothing is of crew)
    status, said, faults = made.does(*WORDS, "--group", "staff=team", "--group", "crew=none")
    assert (status, faults) == (0, "")
    assert said.splitlines()[-1].startswith("the list of /w in plans, with the groups' names of club: allow ")
    assert club.holds("ann", "STAT", "/new/doc")["group"] == "team"
    pass_all = [ALL | {"who": "ann"}, ALL | {"who": "EVERYONE@", "flag": 0}]
    assert club.holds("ann", "SETLIST", "/new", aclflag=2, entries=pass_all)["code"] == 0
    assert [club.holds(it, "READ", "/new/team/x")["code"] for it in ("bob", "mo")] == [0, ACCESS]
    # the same members are looked for in the group of the new name
    assert made.does(*WORDS[:-1], "/newer", "--group", "staff=crew")[::2] == (1, OTHERS.format("crew (lost by bob)"))


@pytest.mark.parametrize("given, why", [
    ("staff", "--group wants OLD=NEW: 'staff' is not"),
    ("stuff=x", "plans has no group 'stuff'"),
    ("staff=", "the group '' is not 1 to 32 letters, digits, '.', '_' or '-'")])
def test_a_group_that_is_none(made, club, given, why):
    assert made.does(*WORDS, "--group", given) == (1, "", f"fileroom-admin: {why}\n")
    assert club.holds("ann", "LIST", "/")["names"] == []


def test_of_a_whole_room_the_trashes_stay_behind(made, club):
    assert made.does("room", "copy", "plans", "/", "club", "/all")[0] == 0
    assert [*club.holds("ann", "LIST", "/all")["names"]] == [["w", "folder"]]
    assert club.holds("ann", "READ", "/all/w/doc")["code"] == 0


@pytest.mark.parametrize("words, why", [
    ("plans /w club /there", "ann is refused MKDIR /there: EXIST (4)"),
    ("plans /w plans /new", "within a room: room cp -r"), ("plans /no club /new", "there is no /no"),
    ("plans /w/doc club /new", "/w/doc is no folder"),
    ("plans /w none /new", "there is no room none: club, plans"), ("club / plans /new", "club has no backup")])
def test_what_is_refused_changes_nothing(made, club, words, why):
    assert club.holds("ann", "MKDIR", "/there")["code"] == 0
    assert made.does("room", "copy", *words.split()) == (1, "", f"fileroom-admin: {why}\n")
    assert club.holds("ann", "LIST", "/")["names"] == [["there", "folder"]]


def test_a_backup_in_which_somebody_wrote(made, club):
    backups = made.at("var/backups/fileroom/plans")
    latest, = os.listdir(backups)
    edit(os.path.join(backups, latest, "room.db"), "UPDATE node SET parent = id WHERE name = 'team'")
    status, said, faults = made.does(*WORDS)
    assert (status, said, f"the backup {latest} of plans cannot be read: " in faults) == (1, "", True), faults
    assert club.holds("ann", "LIST", "/")["names"] == []


def test_what_does_not_fit_is_told_and_stays_closed(made, club):
    path = ""
    for at in range(13):
        path += f"/{at}"
        assert club.holds("ann", "MKDIR", path)["code"] == 0
    status, _, faults = made.does(*WORDS[:-1], f"{path}/new")
    assert (status, f"; a part is at {path}/new of club, where ann alone comes in: remove that, and call this again\n"
            in faults) == (1, True)
    assert stops(club, "bob", f"{path}/new/doc") == (ACCESS, f"{path}/new")


@pytest.mark.parametrize("most", [8, 16, 24])
def test_killed_in_the_middle_nobody_is_let_in(made, club, most):
    club.killed(*WORDS, behind=most)
    assert {stops(club, "bob", f"/new/{it}") for it in ("doc", "team", "secret")} == {(ACCESS, "/new")}
    assert made.does(*WORDS)[::2] == (1, "fileroom-admin: ann is refused MKDIR /new: EXIST (4)\n")
