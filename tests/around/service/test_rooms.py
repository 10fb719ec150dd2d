"""`fileroom-admin` and its rooms, users and certificate: each change whole or not at all, also where it stops at any
step, and the next call at one of its own."""
import errno
import os
import subprocess
from unittest import mock

import pytest
from fileroom_admin import changes
from fileroom_admin.places import Fault, Places
from given import each
from nginx import certified
from served import put_file, text_of

from .stopped import stopped, stops, undone

FRONT = ["systemctl daemon-reload", "systemctl restart nginx", "systemctl reload-or-restart fileroom-ports",
         "systemctl enable --now fileroom-try@club.timer fileroom-try@plans.timer",
         "systemctl try-restart fileroom@club fileroom@plans"]  # what `front` asks of services
HTTPS = ["systemctl reload-or-restart nginx", "systemctl reload-or-restart fileroom-ports"]  # and `tls`
NEW = [f"systemctl {it}" for it in (
    "daemon-reload", "enable fileroom-ports", "reload-or-restart fileroom-ports", "enable --now fileroom@new",
    "enable --now fileroom-backup@new.timer", "enable --now fileroom-try@new.timer", "reload-or-restart nginx")]
LONG = "x" * 256


def test_what_is_typed_and_said(bare):
    for it in "rooms.txt", "left.txt":
        bare.plays(it)


@each("typed, word", [
    ("one", "long enough it is\n", "long enough it is"), ("of Windows", "of Windows it is\r\n", "of Windows it is"),
    ("the longest", f"{LONG}\n", LONG), ("of other letters", "p\u00e4ssw\u00f6rter\n", "p\u00e4ssw\u00f6rter"),
    ("short", "short\n", None), ("too long", f"{LONG}x\n", None), ("too many bytes", "\u00e9" * 129, None),
    ("in two parts", "in two\rparts of it\n", None), ("nothing", "\n", None)])
def test_a_password_that_is_given(machine, typed, word):
    assert machine.does("user", "passwd", "bob", "--stdin", stdin="the one of before\n")[0] == 0
    status, _, faults = machine.does("user", "passwd", "bob", "--stdin", stdin=typed)
    assert (status, faults.count("letters")) == ((0, 0) if word else (1, 1))
    assert machine.fits("bob", word or "the one of before")


def test_a_password_has_a_slow_hash_and_one_that_was_drawn_a_quick_one(machine):
    machine.does("user", "passwd", "bob", "--stdin", stdin="long enough it is\n")
    machine.does("user", "passwd", "ann")
    lines = dict(it.split(":") for it in text_of(machine.at("etc/nginx/fileroom/users")).splitlines())
    assert (lines["bob"][:3], lines["ann"][:6]) == ("$y$", "{SSHA}")


@each("what, words, asked", [
    *((f"a room, {it}", it.split()[-1], "room add new ann eng", NEW) for it in NEW[2:]),
    *((f"a certificate, {it}", it.split()[-1], "tls CERT KEY", HTTPS) for it in HTTPS),
    *((f"front, {it}", it.split()[-1], "front", FRONT) for it in FRONT[1:])])
def test_a_service_that_fails_leaves_all_as_it_was(machine, pair, what, words, asked):
    """And what has read it reads the old again."""
    machine.told()
    machine.breaks(what)
    before = machine.files()
    status, *_ = machine.does(*words.replace("CERT KEY", " ".join(pair)).split())
    assert status == 1
    assert machine.files() == before
    first = next(at for at, it in enumerate(asked) if it.split()[-1] == what)
    back = asked[::-1] if words == "front" else undone(asked)  # (a timer that was there stays)
    assert machine.told() == asked[:first + 1] + back
    if "add new" in words:
        is_aside(machine)


def is_aside(machine):
    """The file of a room that came to nothing is there under another name."""
    names = {it.rpartition("-")[0] for it in os.listdir(machine.at("var/lib/fileroom/new"))}
    assert names == {"room.db-wal.undone", "room.db.undone"}


def test_the_rooms_program_refuses_the_roster(machine):
    before = machine.files()
    machine.told()
    machine.env.update(FILEROOM="false")
    assert machine.does("user", "add", "plans", "kim", "eng")[0] == 1
    assert (machine.files() == before, machine.told()) == (True, [])


@pytest.mark.usefixtures("asks_nginx")
def test_another_site_is_broken(machine):
    machine.write("etc/nginx/conf.d/other.conf", "no such word;\n")
    before = machine.files()
    assert machine.does("room", "add", "new", "ann", "eng")[0] == 1
    assert machine.files() == before
    is_aside(machine)


def test_the_rooms_program_has_nothing_of_roots(machine, folder):
    """No word of its environment, no group, and no terminal: it begins a session of its own."""
    machine.stand_in("setpriv", f'{{ echo "$@"; ps -o sid= -p $$; env; }} >{folder}/seen; shift 4; exec "$@"')
    machine.env.update(OF_ROOT="a word")
    assert machine.does("room", "add", "school", "ann", "eng")[0] == 0
    words, session, *env = text_of(f"{folder}/seen").splitlines()
    assert words.split()[:4] == ["--reuid=fileroom", "--regid=fileroom", "--clear-groups", "--"]
    assert int(session) != os.getsid(0)
    assert {it.partition("=")[0] for it in env} - {"PWD", "SHLVL", "_"} == {"PATH"}


def test_a_roster_keeps_its_mode_and_group(machine):
    roster = machine.at("etc/fileroom/plans.toml")
    os.chown(roster, -1, 65534)
    os.chmod(roster, 0o640)
    assert machine.does("user", "groups", "plans", "bob")[0] == 0
    assert (os.stat(roster).st_gid, os.stat(roster).st_mode & 0o777) == (65534, 0o640)


def test_a_login_without_a_room_is_nobody_elses(machine):
    """Who is renamed so would have two passwords."""
    with open(machine.at("etc/nginx/fileroom/users"), "a", encoding="utf-8") as file:
        file.write("zed:{SSHA}x\n")
    assert machine.does("user", "rename", "bob", "zed") == (1, "", "fileroom-admin: zed is there already\n")


def test_an_update_keeps_the_logs(machine):
    logs = {machine.at(it): it for it in ("var/log/fileroom/changes.log", "var/log/nginx/fileroom-logins.log")}
    for it in logs:
        put_file(it, "a line\n")
    assert machine.does("front")[0] == machine.does("room", "add", "school", "ann", "eng")[0] == 0
    assert {text_of(it) for it in logs} == {"a line\n"}


def test_a_link_is_no_room(machine):
    """Who is the rooms' user turns no folder of root's into a room."""
    victim = os.path.join(machine.folder, "victim")
    os.mkdir(victim)
    os.symlink(victim, machine.at("var/lib/fileroom/linked"))
    assert machine.does("room", "add", "linked", "ann", "eng")[0] == 1
    assert os.listdir(victim) == []


# Stopped at its steps

@each("words, broken", [
    ("a room, which fails", "room add more ann eng", "fileroom-backup@more.timer"),
    *((it, it, "") for it in ("user add plans kim eng", "user passwd bob", "user passwd bob --stdin",
                              "user remove plans bob", "tls CERT KEY", "room add more lou eng"))])
def test_stopped_at_a_step(machine, pair, words, broken):
    stops(machine, *words.replace("CERT KEY", " ".join(pair)).split(), stdin="some longer word\n", broken=broken)


def test_written_since_it_was_stopped(machine):
    """What somebody writes between a call that was killed and the next one is not lost by the undoing."""
    roster, journal = (machine.at(f"etc/fileroom/{it}") for it in ("plans.toml", "admin.journal"))
    at = 0
    while not os.path.exists(journal) or "lee" not in text_of(roster):
        machine.does("user", "list")
        stopped(machine, at, "user", "add", "plans", "lee", "eng")
        at += 1
    before = text_of(roster)
    machine.write("etc/fileroom/plans.toml", before + "# by hand\n")
    told = machine.does("user", "list")
    assert (told[0], text_of(roster)) == (0, before + "# by hand\n")
    assert told[2] == "fileroom-admin: undoing a change that was stopped\n"
    assert "lee" not in text_of(machine.at("etc/nginx/fileroom/rooms/plans.users.json"))


def of_a_roster(machine):
    """A change of it, after which a service reads it."""
    its = changes.Change(Places(machine.root))
    its.put(machine.at("etc/fileroom/plans.toml"), "[users]\n")
    its.then("systemctl", "restart", "nginx")
    return its


def test_what_cannot_go_on_is_undone(machine):
    """Stopped once it was decided, and the service fails still."""
    before = machine.files()
    with mock.patch.multiple(changes.Journal, finish=mock.Mock(side_effect=OSError), undo=mock.Mock()), \
            pytest.raises(OSError):
        of_a_roster(machine).happen()
    machine.breaks("nginx")
    status, _, faults = machine.does("user", "list")
    assert (status, faults.splitlines()[0]) == (1, "fileroom-admin: continuing a change that was stopped")
    assert machine.files() == before


def test_undone_on_a_full_disk(machine):
    before, its, states = machine.files(), of_a_roster(machine), []

    def write(self, state, task=changes.Journal.write):
        states.append(state)
        if len(states) > 1:
            raise OSError(errno.ENOSPC, "no space")
        task(self, state)

    with mock.patch.object(changes.Journal, "write", write), pytest.raises(OSError):
        its.happen()
    assert machine.files() == before


def test_a_journal_that_is_cut(machine):
    """Whoever looks at it decides: nothing is done."""
    machine.write("etc/fileroom/admin.journal", '{"files": [')
    status, _, told = machine.does("user", "add", "plans", "lee", "eng")
    assert (status, told.count("\n")) == (1, 1) and "admin.journal is no JSON: " in told
    assert text_of(machine.at("etc/fileroom/admin.journal")) == '{"files": ['
    assert "lee" not in text_of(machine.at("etc/fileroom/plans.toml"))


# A certificate

@pytest.fixture(scope="session")
def certificates(tmp_path_factory):
    """One with its key, one for no host with its own, one that ended, and a key with a passphrase."""
    folder = str(tmp_path_factory.mktemp("tls"))
    cert, key = certified(folder, "DNS:room.example", "DNS:www.room.example", "IP:127.0.0.1", "IP:2001:db8::1")
    other, its_key = certified(os.path.join(folder, "other"), "email:ann@room.example")
    ended, shut = os.path.join(folder, "ended.pem"), os.path.join(folder, "shut.pem")
    for words in ["x509", "-in", cert, "-signkey", key, "-days", "-1", "-out", ended], [
            "pkey", "-in", key, "-aes256", "-passout", "pass:word", "-out", shut]:
        subprocess.run(["openssl", *words], check=True, capture_output=True)
    return {"CERT": cert, "KEY": key, "OTHER": other, "ITS": its_key, "ENDED": ended, "SHUT": shut}


@pytest.mark.parametrize("words, why", [
    ("OTHER ITS", "has no host name"), ("CERT ITS", "does not match the first certificate"),
    ("ENDED KEY", "has expired"), ("CERT SHUT", "has a passphrase"), ("KEY KEY", "openssl x509"),
    ("CERT CERT", "no private key"), ("CERT NONE", "no private key")])
def test_a_certificate_that_is_none(machine, certificates, words, why):
    before = machine.files()
    status, _, faults = machine.does("tls", *(certificates.get(it, "/none") for it in words.split()))
    assert status == 1 and why in faults
    assert machine.files() == before


@pytest.mark.usefixtures("asks_nginx")
def test_a_certificate(machine, certificates):
    machine.told()
    status, said, faults = machine.does("tls", certificates["CERT"], certificates["KEY"])
    assert (status, faults) == (0, "")
    assert said.startswith("the front listens by https, as room.example www.room.example 127.0.0.1 [2001:db8::1], ")
    assert os.stat(machine.at("etc/nginx/fileroom/tls/key.pem")).st_mode & 0o777 == 0o600
    assert "server_name room.example www.room.example 127.0.0.1 [2001:db8::1];" in text_of(
        machine.at("etc/nginx/conf.d/fileroom-redirect.conf"))
    assert machine.told() == HTTPS
    front = machine.does("room", "list")[1].splitlines()[-1]
    assert front.partition("  until ")[0] == (
        "front  https://room.example/ https://www.room.example/ https://127.0.0.1/ https://[2001:db8::1]/")


@pytest.mark.parametrize("other", ["listen 8443 ssl", "listen 192.168.1.5:8443 ssl"])
def test_another_port_is_told(machine, certificates, other):
    """As RUNNING has it written."""
    assert machine.does("tls", certificates["CERT"], certificates["KEY"])[0] == 0
    listen = "etc/nginx/fileroom/listen.conf"
    machine.write(listen, text_of(machine.at(listen)).replace("listen 443 ssl", other))
    front = machine.does("room", "list")[1].splitlines()[-1]
    assert front.startswith("front  https://room.example:8443/ ") and " https://[2001:db8::1]:8443/ " in front


def test_a_key_in_the_certificates_file(machine, certificates, folder):
    """It does not come into the file that every user of the machine may read."""
    both = os.path.join(folder, "both.pem")
    with open(both, "w", encoding="utf-8") as file:
        file.write(text_of(certificates["KEY"]) + text_of(certificates["CERT"]))
    assert machine.does("tls", both, both)[0] == 0
    cert, key = (machine.at(f"etc/nginx/fileroom/tls/{name}.pem") for name in ("cert", "key"))
    assert (text_of(cert), text_of(key)) == (text_of(certificates["CERT"]), text_of(both))
    assert os.stat(key).st_mode & 0o777 == 0o600


def test_a_program_that_ends_each_time_is_not_waited_for():
    """The room's unit starts it again a second later, for ever."""
    places, tries = mock.Mock(is_machine=True), iter(range(100))
    starts = lambda *_: (0, f"NRestarts={next(tries)}")
    with mock.patch.object(changes, "answers", return_value=False), mock.patch.object(changes, "said", starts), \
            mock.patch.object(changes, "time", mock.Mock(monotonic=lambda: 0)) as clock, \
            pytest.raises(Fault, match="journalctl -u fileroom@plans"):
        clock.sleep.side_effect = [None] * 9
        changes.wait_until_answers(places, "plans")
    assert 2 < clock.sleep.call_count < 9


def test_a_program_that_ended_before_is_waited_for():
    """What systemd has counted since somebody started the unit is of before."""
    places, answers = mock.Mock(is_machine=True), iter([False] * 3 + [True])
    with mock.patch.object(changes, "answers", lambda _: next(answers)), \
            mock.patch.object(changes, "said", return_value=(0, "NRestarts=7")), \
            mock.patch.object(changes, "time", mock.Mock(monotonic=lambda: 0)):
        changes.wait_until_answers(places, "plans")
    assert next(answers, None) is None
