"""A login that asks a room for more in a day than its bound is held: counted by fail2ban itself from the log of a real
nginx, with the filters, jails and action as they are shipped, but for smaller numbers."""
import json
import os
import re

import pytest
from ban import Fail2ban
from nginx import Front
from served import HERE, text_of, until

from .machines import Machine, Served, stamp

SOON = 120  # seconds, on a machine that has much to do
SMALL = {"2000": "3", "20000": "12", "200000": "40", "3277": "5", "32768": "20", "327680": "60"}  # in the place of each
BEHIND = "u1", "u2", "u3", "u4", "u5"  # who ask behind others, each once
USERS = "ann", "bob", "kim", "lou", "max", "ned", "pam", "sue", "--at", *BEHIND
STAT = {"cmd": "STAT", "path": "/"}
PADDED = ('{"cmd":"STAT","path":"/"' + " " * 5000 + "}").encode()


class Caller:
    """A login at the front, with a session of one slot in a room."""

    def __init__(self, front, user, room="plans"):
        self.front, self.user, self.number = front, user, 0
        self.base = f"/rooms/{room}/v1/sessions/{os.urandom(16).hex()}"
        front.once(user, "POST", self.base, {"slots": 1})

    def asks(self, body):
        told = self.front.once(self.user, "POST", f"{self.base}/slots/0/{self.number + 1}", body)
        self.number += told.status == 200
        return told

    def makes(self, *names):
        """The statuses."""
        return {self.asks({"cmd": "MKDIR", "path": f"/{self.user}-{it}"}).status for it in names}


@pytest.fixture(scope="module")
def ground(tmp_path_factory, begun):
    """A machine whose room plans is served at a front, where it is the room club too."""
    folder = str(tmp_path_factory.mktemp("m"))
    it = Machine(os.path.join(folder, "m"), begun)
    it.stand_in("nginx", "true")
    it.write("../table.csv", "user,groups\n" + "".join(
        f"{user},{'pupils' * (user == 'kim')}\n" for user in USERS[2:]))
    status, _, faults = it.does("user", "import", "plans", it.at("../table.csv"))
    assert status == it.does("user", "add", "club", "ned")[0] == 0, faults
    room = Served(it)
    room.holds("ann", "SETLIST", "/", aclflag=1, entries=[
        {"type": 0, "flag": 3, "mask": 0x1F07FF, "who": "EVERYONE@"}])
    it.front = Front(os.path.join(folder, "front"), {user: f"word of {user}" for user in USERS},
                     {"plans": room.room.port, "club": room.room.port}, os.path.join(HERE, "..", "page"),
                     dav=os.path.join(folder, "no.sock"), opens="60r/m")
    os.makedirs(it.at("etc/nginx/fileroom/held"))
    os.symlink(it.at("etc/nginx/fileroom/held"), os.path.join(it.front.folder, "held"))
    yield it
    it.end()
    it.front.server.kill()
    it.front.server.wait()


@pytest.fixture(scope="module")
def ban(tmp_path_factory, ground):
    folder = str(tmp_path_factory.mktemp("b"))
    ground.stand_in("fail2ban-client", f'exec /usr/bin/fail2ban-client -s {folder}/sock "$@"')
    it = Fail2ban(folder, os.path.join(ground.front.folder, "work/changes.log"), ground.env, lambda jails: re.sub(
        r"maxretry = (\d+)", lambda it: f"maxretry = {SMALL[it[1]]}", jails))
    yield it
    it.end()


def is_held(machine, user, room="plans"):
    return os.path.exists(machine.at(f"etc/nginx/fileroom/held/{user}@{room}"))


def soon_held(machine, user, room="plans"):
    return until(lambda: is_held(machine, user, room), SOON)


def soon_free(machine, user):
    return until(lambda: not is_held(machine, user), SOON)


def until_counted(machine, user, bodies):
    """Until fail2ban has acted on all that was asked before: it holds who asks for so much behind that."""
    behind = Caller(machine.front, user)
    assert {behind.asks(it).status for it in bodies} == {200}
    assert soon_held(machine, user)


def until_made(machine, user):
    until_counted(machine, user, [{"cmd": "MKDIR", "path": f"/{user}-{at}"} for at in range(12)])


# At the front

def test_what_a_held_login_may(ground):
    """It reads on, and changes nothing, also by WebDAV; elsewhere, and others, go on."""
    sue = Caller(ground.front, "sue")
    assert ground.does("user", "hold", "plans", "sue")[0] == 0
    told = sue.asks({"cmd": "MKDIR", "path": "/sue-more"})
    assert (told.status, [it for it in told.fields if it.lower().startswith("room-held")]) == (429, ["Room-Held: 1"])
    assert told.body.startswith(b"held: this login") and told.body.endswith(b"; or an administrator holds it\n")
    for body, status in ((STAT, 200), ({"cmd": "LIST", "path": "/"}, 200), (PADDED, 429),
                         ({"cmd": "REMOVE", "path": "/sue-1"}, 429), ({"cmd": "WRITE", "path": "/x", "data": ""}, 429)):
        assert sue.asks(body).status == status, body
    for method in "PUT", "MKCOL", "MOVE", "LOCK", "DELETE", "COPY", "PROPPATCH", "POST":
        assert ground.front.once("sue", method, "/dav/plans/x").status == 429, method
    for method in "GET", "PROPFIND", "UNLOCK":
        assert ground.front.once("sue", method, "/dav/plans/x").status == 502, method
    assert ground.front.once("sue", "PUT", "/dav/plans/x", b"A" * 1_000_000).status == 429
    assert ground.front.once("sue", "PUT", "/dav/club/x").status == 502
    assert Caller(ground.front, "sue", "club").makes("there") == {200}
    assert Caller(ground.front, "ann").makes("own") == {200}


# Counted by fail2ban

@pytest.mark.usefixtures("ban")
def test_who_makes_more(ground):
    """At the bound one goes on; what makes nothing, or is refused, does not count, and what is written oddly does."""
    bob = Caller(ground.front, "bob")
    assert bob.makes(*range(11)) == {200}
    for body in ({"cmd": "LIST", "path": "/"}, {"cmd": "WRITE", "path": "/none", "data": ""},
                 {"cmd": "MKDIR", "path": "/"}):
        assert {bob.asks(body).status for _ in range(3)} == {200}
    until_made(ground, "u1")
    assert not is_held(ground, "bob")
    assert bob.asks(b'{"cmd":"\\u004dKDIR","path":"/bob-odd"}').body == b'{"code":0}'
    assert soon_held(ground, "bob")


@pytest.mark.usefixtures("ban")
def test_who_sends_more(ground):
    """What is sent counts, done or refused, and what a look is padded with."""
    max_ = Caller(ground.front, "max")
    bodies = [PADDED, json.dumps({"cmd": "WRITE", "path": "/none", "data": "A" * 2000}).encode()]
    assert {max_.asks(bodies[at % 2]).status for at in range(19)} == {200}
    until_counted(ground, "u2", [PADDED] * 20)
    assert not is_held(ground, "max")
    max_.asks(bodies[0])
    assert soon_held(ground, "max")


def test_whose_day_is_over(ground, ban):
    """Each jail lets those go whom it holds: the lower ones counted enough hours before, and held nobody. (This one's
    name is like an option.)"""
    at = Caller(ground.front, "--at")
    assert at.makes(*range(12)) == {200}
    until_made(ground, "u5")
    assert until(lambda: "u5@plans" in ban.asked("status", "fileroom-made-few"), SOON)  # (it has counted all before)
    assert is_held(ground, "--at") and "--at@plans" in ban.asked("status", "fileroom-made-few")
    ban.asked("set", "fileroom-made-few", "unbanip", "--at@plans")
    assert "--at@plans" not in ban.asked("status", "fileroom-made-few")
    assert is_held(ground, "--at")
    ban.asked("set", "fileroom-made-usual", "unbanip", "--at@plans")
    assert soon_free(ground, "--at")
    assert at.makes("more") == {200}


@pytest.mark.usefixtures("ban")
def test_bounds_of_a_group_and_of_ones_own(ground):
    """A group's bound is lower, one's own may be higher."""
    for words in ("few", "--group", "pupils"), ("many", "--user", "lou"):
        assert ground.does("bound", "plans", *words)[0] == 0
    assert Caller(ground.front, "kim").makes(*range(3)) == {200}
    assert Caller(ground.front, "lou").makes(*range(30)) == {200}
    assert soon_held(ground, "kim")
    until_made(ground, "u3")
    assert not is_held(ground, "lou")


@pytest.mark.usefixtures("ban")
def test_a_room_with_few_numbers_left(ground):
    """Nobody makes as many in it."""
    latest = f"var/backups/fileroom/club/{stamp(0)}"
    ground.write(f"{latest}/numbers", "800001\n")
    assert Caller(ground.front, "ned", "club").makes(*range(3)) == {200}
    assert soon_held(ground, "ned", "club")


def test_who_is_released_is_counted_anew(ground, ban):
    pam = Caller(ground.front, "pam")
    pam.makes(*range(12))
    assert soon_held(ground, "pam")
    assert pam.makes("a") == {429}
    assert until(lambda: "pam@plans" in ban.asked("status", "fileroom-made-usual"), SOON)
    assert ground.does("user", "release", "plans", "pam") == (0, "pam is not held in plans\n", "")
    assert "pam@plans" not in ban.asked("status", "fileroom-made-usual")
    assert pam.makes("b", *(f"c{at}" for at in range(10))) == {200}
    until_made(ground, "u4")
    assert not is_held(ground, "pam")
    assert pam.makes("d") == {200}
    assert soon_held(ground, "pam")


@pytest.mark.usefixtures("ban")
def test_check_tells_nothing_where_fail2ban_counts(ground):
    ground.does("bound", "plans", "many", "--user", "ann")
    assert "nobody is held at them" not in ground.does("check")[1]


# By fileroom-admin alone

@pytest.mark.parametrize("bound, told", [("few", ["plans"]), ("none", []), (None, [])])
def test_check_tells_where_nobody_counts(machine, bound, told):
    """Where no bound was set nothing is told."""
    machine.stand_in("fail2ban-client", "exit 255")
    if bound:
        machine.does("bound", "plans", bound)
    lines = [it for it in machine.does("check")[1].splitlines() if "nobody is held at them" in it]
    assert [it.partition(":")[0] for it in lines] == told


def test_who_is_told_of_it(machine):
    """Who runs the machine by check, a monitor, and a room's owner on the page."""
    machine.backed_up()
    machine.write("etc/nginx/fileroom/held/kim@plans-2", "")  # (in another room)
    for user in "ann", "bob":
        assert machine.does("user", "hold", "plans", user) == (0, f"{user} is held in plans\n", "")
    told = [it for it in machine.does("check")[1].splitlines() if " is held since " in it]
    assert [(it.split()[1], it.partition(", ")[2]) for it in told] == [
        (user, "by hand, or as `user remove --to` left something") for user in ("ann", "bob")]
    assert [it for it in machine.numbers().items() if it[0].startswith("fileroom_held")] == [
        ('fileroom_held{room="club"}', "0"), ('fileroom_held{room="plans"}', "2")]
    path = machine.at("etc/nginx/fileroom/warnings/ann.json")
    assert json.loads(text_of(path))["plans"]["held"] == ["ann", "bob"]
    assert [oct(os.stat(machine.at(f"etc/nginx/fileroom/held{it}")).st_mode & 0o777) for it in ("", "/bob@plans")] == [
        "0o750", "0o640"]
    machine.does("user", "release", "plans", "bob")
    assert json.loads(text_of(path))["plans"]["held"] == ["ann"]


def test_who_is_held_by_hand_is_let_go_by_hand(machine):
    machine.does("user", "hold", "plans", "bob")
    for words in ("hold", "--at", "many"), ("release", "--over", "many"):
        machine.does("user", *words, "plans", "bob")
    assert is_held(machine, "bob")


@pytest.mark.parametrize("words", [
    "user hold ../x ann", "user hold club ../x", "user hold club a/b", "bound none few", "bound plans most",
    "bound plans few --user nobody"])
def test_nobody_and_nowhere(machine, words):
    assert machine.does(*words.split())[0] != 0


def test_a_room_that_is_gone(machine):
    assert machine.does("user", "hold", "none", "bob")[1] == ""


def holds(machine, user, *at):
    """At which of these bounds somebody is held."""
    return [it for it in at if machine.does("user", "hold", "plans", user, "--at", *it.split())[1]]


def test_whose_bound_counts(machine):
    """A user's own first, then the least of the groups', then the room's; who has a higher one is not held, and who has
    a lower one since is."""
    machine.does("user", "add", "plans", "kim", "pupils", "staff")
    machine.does("bound", "plans", "many")
    machine.does("bound", "plans", "few", "--user", "bob")
    assert machine.does("bound", "plans") == (0, "plans  many\nplans  user bob  few\n", "")
    assert holds(machine, "ann", "usual", "few", "many") == ["many"]
    assert holds(machine, "bob", "many", "few") == ["many", "few"]
    for words in ("few", "--group", "pupils"), ("many", "--group", "staff"):
        machine.does("bound", "plans", *words)
    assert holds(machine, "kim", "few") == ["few"]
    machine.does("bound", "plans", "none", "--user", "kim")
    assert holds(machine, "kim", "few", "many") == []


@pytest.mark.parametrize("used, bound, held_at", [
    (800_000, "usual", []), (800_001, "usual", ["few --made"]), (800_001, "many", [])])
def test_where_few_numbers_are_left(machine, used, bound, held_at):
    """Few objects are too many for who has the usual bound; what is sent uses up no number, and counts as before."""
    machine.write(f"var/backups/fileroom/plans/{stamp(0)}/numbers", f"{used}\n")
    machine.does("bound", "plans", bound, "--user", "bob")
    assert holds(machine, "bob", "few", "few --made") == held_at


def test_who_leaves(machine):
    """Neither hold nor bound waits for the next of that name; and who is renamed keeps the bound."""
    for user in "kim", "lou":
        machine.does("user", "add", "plans", user)
    for user in "kim", "lou", "bob":
        machine.does("bound", "plans", "few", "--user", user)
        machine.does("user", "hold", "plans", user)
    machine.does("user", "remove", "plans", "kim")
    machine.does("user", "rename", "lou", "ted")
    assert [it for it in machine.does("bound", "plans")[1].splitlines() if " user " in it] == [
        "plans  user bob  few", "plans  user ted  few"]
    assert [is_held(machine, it) for it in ("kim", "lou", "ted", "bob")] == [False, False, False, True]


def test_a_room_that_goes(machine):
    names = "etc/nginx/fileroom/names.json"
    machine.write(names, '{"ann": "Ann", "bob": "Bob", "kim": "Kim"}\n')
    for room in "plans", "club":
        machine.does("bound", room, "few", "--user", "ann")
        machine.does("user", "hold", room, "ann")
    machine.backed_up()
    assert machine.does("room", "remove", "plans")[0] == 0
    assert [is_held(machine, "ann", it) for it in ("plans", "club")] == [False, True]
    its = text_of(machine.at("etc/fileroom/bounds.json"))
    assert [f'"{it}"' in its for it in ("plans", "club")] == [False, True]
    assert json.loads(text_of(machine.at(names))) == {"ann": "Ann", "kim": "Kim"}  # (bob was in this room alone)
