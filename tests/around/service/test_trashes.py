"""Each user has a trash that is theirs alone, also where others made one before, or something in its place, or where a
call was left in its middle."""
import base64

import pytest
from served import text_of

from .machines import Served

ROSTER = "etc/fileroom/plans.toml"
ALL = 0x1F07FF


def of(who, mask=ALL, flag=3):
    return {"type": 0, "flag": flag, "mask": mask, "who": who}


def settled(machine, count, new, *some):
    told = f"plans: {count} of {count} users have a trash ({new} new)\n"
    assert machine.does("trash", "plans", *some) == (0, told, "")


@pytest.mark.parametrize("made", [["/trash"], ["/trash/", "/trash/@d", "/trash/@3/", "/trash/@3/bob"]],
                         ids=["a document", "a folder with documents"])
def test_something_is_in_its_way(machine, made):
    """Somebody made what is in the place of a trash, and keeps others out of it: it is put aside, and all have one."""
    machine.write(ROSTER, '[users]\nann = ["eng"]\nbob = ["eng"]\neve = []\n')
    it = Served(machine)
    it.holds("ann", "SETLIST", "/", aclflag=0, entries=[of("OWNER@", flag=0), of("EVERYONE@", flag=0)])
    for path in made:
        it.holds("eve", *(("MKDIR", path[:-1]) if path[-1] == "/" else ("CREATE", path)),
                 **({} if path[-1] == "/" else {"data": ""}))
    for path in reversed(made):
        it.holds("eve", "SETLIST", path.rstrip("/"), aclflag=2, entries=[of("eve", flag=0)])
    settled(machine, 3, 3)
    for user, path in ("ann", "/trash/@d/ann"), ("bob", "/trash/@3/bob"), ("eve", "/trash/@0/eve"):
        assert it.holds(user, "STAT", path).get("owner") == user


TRASH = {"ann": "/trash/@d/ann", "bob": "/trash/bob", "eve": "/trash/eve", "kim": "/trash/@1/kim",
         "lou": "/trash/@0/lou"}


@pytest.fixture
def meddled(machine):
    """A room of five users, one of whom made folders of /trash first, and goes on meddling while all get one."""
    machine.write(ROSTER, '[users]\nann = ["eng"]\nbob = ["eng"]\neve = []\nkim = []\nlou = []\n')
    it = Served(machine)
    it.holds("ann", "SETLIST", "/", aclflag=1, entries=[of("OWNER@"), of("EVERYONE@")])
    for path in "/trash", "/trash/bob", "/trash/eve":  # (by somebody who may make folders)
        it.holds("eve", "MKDIR", path)
    it.holds("eve", "SETLIST", "/trash/bob", aclflag=2, entries=[of("bob"), of("eve")])
    it.holds("eve", "CREATE", "/trash/bob/thrown~20260101000000", data="")
    for path in "/trash/@1", "/trash/@1/kim":
        it.holds("eve", "MKDIR", path)
        it.holds("eve", "SETLIST", path, aclflag=2, entries=[of("EVERYONE@")])
    it.holds("eve", "CREATE", "/trash/@1/@settled", data=base64.b64encode(b"kim\n").decode())
    it.holds("eve", "CHOWN", "/trash/@1/kim", owner="kim", group="kim")
    it.meanwhile = lambda: [it.holds("eve", "SETLIST", path, aclflag=2, entries=[of("EVERYONE@")])
                            for path in ("/trash", "/trash/@1", "/trash/bob")]
    settled(machine, 5, 5)
    it.meanwhile = lambda: None
    return it


def test_whose_each_is(meddled):
    for path in TRASH["kim"], "/trash/bob", "/trash/@1":
        assert meddled.holds("eve", "RENAME", path, to="/taken")["code"] == 5
    owners = {user: meddled.holds(user, "STAT", path).get("owner") for user, path in TRASH.items()}
    assert owners == {user: user for user in TRASH}
    looks = {(user, whose): meddled.holds(user, "LIST", path)["code"] for user in TRASH for whose, path in
             TRASH.items()}
    assert looks == {(user, whose): 5 * (user != whose) for user, whose in looks}
    assert [meddled.holds(user, "MKDIR", f"/trash/of-{user}")["code"] for user in TRASH] == [0, 5, 5, 5, 5]


def test_one_that_was_left_or_is_open(machine, meddled):
    meddled.holds("ann", "MKDIR", "/trash/@3")
    meddled.holds("ann", "MKDIR", "/trash/@3/zed")
    machine.write(ROSTER, text_of(machine.at(ROSTER)) + "zed = []\n")
    meddled.room.kill()
    meddled.room.start()
    for entries, flags, *some in (None, 0), ([of("OWNER@"), of("kim", flag=0x43)], 2, "kim"), (
            [of("kim")], 1, "kim", "lou"):
        if entries:  # (a group of that name; and what the folder above may hand down)
            meddled.holds("kim", "SETLIST", TRASH["kim"], aclflag=flags, entries=entries)
        for new in 1, 0:
            settled(machine, len(some) or 6, new, *some)
    assert meddled.holds("ann", "LIST", "/trash/@3/zed")["code"] == 5


def test_not_asked_again(machine, meddled):
    """A session takes a row for good: who was found to have a trash opens none by the next call, but where named."""
    def asked(*some):
        meddled.askers.clear()
        return machine.does("trash", "plans", *some), {it.decode() for it in meddled.askers}

    assert asked()[1] == {"ann"}
    assert asked("kim", "lou")[1] == {"ann", "kim", "lou"}
    meddled.holds("ann", "SETLIST", "/trash/@1/@settled", aclflag=2, entries=[of("EVERYONE@", flag=0)])
    assert asked()[1] == {"ann", "kim"}  # (what others may write down is not believed)
    (status, _, faults), _ = asked("nobody")
    assert status == 1 and "nobody is no user" in faults
    assert asked(*TRASH)[1] == {*TRASH}


def test_of_a_new_user(machine, meddled):
    status, said, faults = machine.does("user", "add", "plans", "may", "eng")
    assert (status, faults, "no trash" in said) == (0, "", False)
    assert meddled.holds("ann", "LIST", "/trash/@7/may")["code"] == 5
    assert meddled.holds("ann", "LIST", "/trash/@7")["names"] == [["@settled", "file"], ["may", "folder"]]


def test_no_room_is_served(machine):
    assert machine.does("trash", "plans") == (1, "", "fileroom-admin: the room is not served\n")
