"""What a monitor is told: numbers of `fileroom-admin check --prometheus`, the trial of a backup, and /health."""
import json
import os
import re
import shutil
import stat
import subprocess
import time
from unittest import mock

import pytest
from fileroom_admin import places
from given import each
from nginx import Front, login
from served import HERE, Room, bytes_of, least, put_file, text_of

from .contents import BACKUP, SERVICE
from .machines import Served, stamp

SAMPLE = r"fileroom_[a-z_]+(\{[a-z]+=\"[^\"]*\"(,[a-z]+=\"[^\"]*\")*\})? -?[0-9.e+-]+"
HOUR = 3600
WRONG = 1.8  # seconds that a wrong login is not answered
PLANS = "var/backups/fileroom/plans"


@pytest.fixture
def latest(machine):
    """A backup that is five hours old."""
    to = machine.at(f"{PLANS}/{stamp(5)}")
    os.rename(machine.backed_up(), to)
    return to


def test_each_number_is_what_is_there(machine, latest):
    before = machine.at(f"{PLANS}/{stamp(53)}")
    os.mkdir(before)
    with open(os.path.join(before, "room.db"), "wb") as file:
        file.truncate(os.path.getsize(os.path.join(latest, "room.db")))
    os.truncate(os.path.join(latest, "room.db-wal"), 20000)
    now, old = time.strftime("%d/%b/%Y:%H:%M:%S %z"), "01/Jan/2020:00:00:00 +0000"
    asked = 'x - ann [{}] "POST /rooms/{}/v1/sessions/0/slots/0/1 HTTP/1.1" {} 9 "-" "-" {}\n'
    machine.write("var/log/nginx/access.log", "".join(asked.format(*it) for it in (
        (old, "plans", 200, 9.0), (now, "plans", 200, 0.5), (now, "plans", 503, 2.0), (now, "club", 200, 0.125),
        (now, "made-up", 404, 0.1)))
        + "no line\n" + 'x - - [' + now + '] "GET / HTTP/1.1" 200 1 "-" "-" 0.1\n')
    machine.write("var/log/nginx/access.log.1", asked.format(now, "plans", 200, 0.25))  # (it has just been turned over)
    machine.shows("fileroom@plans MemoryMax=123456\n")
    room = Served(machine)
    found = machine.numbers()
    room.end()
    assert {f"fileroom_{it}": found.get(f"fileroom_{it}") for it in WANTED} == {
        f"fileroom_{it}": want for it, want in WANTED.items()}
    assert round(float(found['fileroom_room_growth_bytes_per_day{room="plans"}'])) == 10000
    assert text_of(os.path.join(latest, "owner")) == "ann\n"
    size = sum(os.stat(machine.at(f"var/lib/fileroom/plans/{name}")).st_size for name in ("room.db", "room.db-wal"))
    assert int(found['fileroom_room_bytes{room="plans"}']) == size
    assert 5 * HOUR <= float(found['fileroom_backup_age_seconds{room="plans"}']) < 6 * HOUR
    count = sum(not line.startswith("    ") for line in machine.does("check")[1].splitlines())
    assert abs(int(found["fileroom_findings"]) - count) <= 1  # (the room is served no more)


WANTED = {
    'up{room="plans"}': "1", 'up{room="club"}': "0", 'users{room="plans"}': "2", 'backups{room="plans"}': "2",
    'backups{room="club"}': "0", 'memory_limit_bytes{room="plans"}': "123456",
    'answers{room="plans",kind="2xx"}': "2", 'answers{room="plans",kind="5xx"}': "1",
    'answers{room="club",kind="2xx"}': "1",
    'answers{room="made-up",kind="4xx"}': None, 'answer_seconds{room="plans",quantile="0.5"}': "0.5",
    'restore_age_seconds{room="plans"}': None}


def test_said_before(machine, folder):
    """What the unit may not ask in its sandbox was asked before: what nginx has against its files, and a standby's
    state, which are then asked of nobody."""
    its, found = machine.env, []
    machine.write("etc/fileroom/club.hosts", "10.77.0.1\n")
    for nginx, standby in ("true", "exit 0"), ("echo no such word; exit 1", "exit 1"):
        machine.stand_in("nginx", nginx)
        machine.stand_in("fileroom-standby", standby)
        words = [os.path.join(SERVICE, "fileroom-asked"), folder]
        subprocess.run(words, env={**its, "ETC": machine.at("etc")}, check=True)
        for name in "nginx", "fileroom-standby":
            machine.stand_in(name, "exit 77")
        machine.env = its | {"SAID": folder}
        told = machine.numbers()
        found.append((int(told["fileroom_findings"]), told['fileroom_standby_whole{room="club"}']))
        text = machine.does("check")[1]
        machine.env = its
    assert [it for _, it in found] == ["1", "0"]
    assert found[1][0] - found[0][0] == 2
    assert "configuration: no such word\n" in text


def test_what_is_asked_before(machine, folder):
    """Each with its status, and all that it says. (The sign-in service is not there.)"""
    machine.write("etc/nginx/fileroom/signin/directory.toml", "")
    machine.write("etc/fileroom/club.hosts", "10.77.0.1\n")
    for status, name in enumerate(("nginx", "fail2ban-client", "fileroom-standby"), 3):
        machine.stand_in(name, f'echo "$*"; echo no >&2; exit {status}')
    words = [os.path.join(SERVICE, "fileroom-asked"), folder]
    subprocess.run(words, env={**machine.env, "ETC": machine.at("etc")}, check=True)
    told = {it: text_of(os.path.join(folder, it)) for it in ("nginx", "fail2ban", "standby-club", "signin")}
    assert told.pop("signin").startswith("127\n")
    assert told == {"nginx": "3\n-tq\nno\n", "fail2ban": "4\nstatus\nno\n", "standby-club": "5\ncheck club\nno\n"}


def test_to_a_file(machine, folder):
    """As Prometheus reads it, and nothing lies beside it."""
    os.mkdir(os.path.join(folder, "to"))
    path = os.path.join(folder, "to", "fileroom.prom")
    for _ in range(2):
        assert machine.does("check", "--prometheus", path)[:2] == (0, "")
        lines = text_of(path).splitlines()
        assert lines[0].startswith("# HELP fileroom_up ")
        assert [it for it in lines if not it.startswith("#") and not re.fullmatch(SAMPLE, it)] == []
        assert stat.S_IMODE(os.stat(path).st_mode) == 0o644
    assert os.listdir(os.path.join(folder, "to")) == ["fileroom.prom"]


def test_no_owner_is_set(folder):
    """The unit's filter ends a program that sets one."""
    path = os.path.join(folder, "fileroom.prom")
    with mock.patch.object(places.os, "fchown", side_effect=AssertionError("an owner is set")):
        places.write("numbers", path)
    assert text_of(path) == "numbers"


def test_what_cannot_be_written_leaves_nothing(folder):
    with mock.patch.object(places.os, "replace", side_effect=OSError), pytest.raises(OSError):
        places.write("numbers", os.path.join(folder, "fileroom.prom"))
    assert os.listdir(folder) == []


def test_another_file_in_its_place(folder):
    """Who has the folder puts a link to a file of root's where the new one was just made: that file stays as it is."""
    secret = os.path.join(folder, "secret")
    with open(os.open(secret, os.O_WRONLY | os.O_CREAT, 0o600), "w", encoding="utf-8") as file:
        file.write("of root")

    def swapped(make=places.tempfile.mkstemp, **how):
        handle, made = make(**how)
        os.unlink(made)
        os.symlink(secret, made)
        return handle, made

    with mock.patch.object(places.tempfile, "mkstemp", swapped):
        places.write("numbers", os.path.join(folder, "fileroom.prom"))
    assert (text_of(secret), stat.S_IMODE(os.stat(secret).st_mode)) == ("of root", 0o600)


@each("counts, want, is_told", [
    ("one backup", {1: 400_000}, None, False), ("of half a day", {12: 1000, 1: 400_000}, None, False),
    ("none used", {49: 400_000, 1: 400_000}, None, False),
    ("at a pace", {97: 100_000, 49: 300_000, 1: 500_000}, 5.0, True),
    ("30 days and more", {49: 690_000, 1: 709_300}, 30.1, False),
    ("below 30 days", {49: 690_000, 1: 709_500}, 29.8, True),
    ("of days before", {10 * 24: 1, 49: 400_000, 1: 400_100}, 11_998, False),
    ("renewed between", {97: 600_000, 73: 700_000, 49: 100_000, 1: 200_000}, 16.0, True),
    ("renewed just now", {97: 600_000, 49: 900_000, 1: 100_000}, None, False),
    ("by one that tells none", {97: 100_000, 49: 300_000, 1: None}, 7.0, True)])
def test_how_long_numbers_last(machine, counts, want, is_told):
    """By the backups of eight days, also where the room was renewed between."""
    for hours, count in counts.items():
        machine.write(f"{PLANS}/{stamp(hours)}/numbers", "" if count is None else f"{count}\n")
    found = machine.numbers()
    used, left = (found.get(f'fileroom_numbers_{it}{{room="plans"}}') for it in ("used", "left_days"))
    latest = [it for it in counts.values() if it][-1]
    assert (int(used), left and round(float(left), 1 if float(left) < 99 else 0)) == (latest, want)
    days = f", and at the pace of the last days the others last {want:.0f} days" if want else ""
    told = f"plans: of the 1,000,000 numbers that it has for objects, {latest:,} are used"
    assert [it for it in machine.does("check")[1].splitlines() if it.startswith(told[:30])] == [told + days] * is_told


def test_until_the_certificate_ends(looked_at):
    """By the clock of no place. (It was made of 23 days, not long ago.)"""
    looked_at.env.update(TZ="Asia/Tokyo")
    assert 22.9 < float(looked_at.numbers()["fileroom_certificate_seconds"]) / 86400 <= 23


def test_panels_and_rules_name_numbers_that_there_are():
    names = set(re.findall(r'"([a-z_]+)": "', text_of(os.path.join(SERVICE, "admin/fileroom_admin/numbers.py"))))
    board = json.loads(text_of(os.path.join(SERVICE, "grafana.json")))
    asked = {target["expr"] for panel in board["panels"] for target in panel["targets"]}
    assert {it for it in asked if it.removeprefix("fileroom_") not in names} == set()
    ruled = set(re.findall(r"\bfileroom_([a-z_]+)\b", text_of(os.path.join(SERVICE, "alerts.yml"))))
    assert ruled - names == set()
    assert {"numbers_left_days", "memory_left_days", "disk_left_days", "certificate_seconds"} <= ruled


# A backup is restored, served and asked

def tries(machine, room="plans"):
    env = machine.env | {"BACKUPS": machine.at("var/backups/fileroom"), "BACKUP": BACKUP}
    done = subprocess.run([os.path.join(SERVICE, "fileroom-tried"), room], env=env, capture_output=True, text=True)
    return done.returncode, done.stdout, done.stderr


def hidden(machine):
    return [it for it in os.listdir(machine.at(PLANS)) if it[0] == "."]


def test_a_trial(machine, latest):
    """Also of one whose log was cut, and where one of before left something."""
    os.truncate(os.path.join(latest, "room.db-wal"), 41)
    os.mkdir(machine.at(f"{PLANS}/.try-left"))
    os.mkdir(machine.at(f"{PLANS}/{stamp(53)}"))  # (an older one, which is none)
    assert tries(machine) == (0, f"{latest}: restored, served, and asked\n", "")
    assert hidden(machine) == [".tried"]
    assert text_of(machine.at(f"{PLANS}/.tried")) == os.path.basename(latest) + "\n"
    assert float(machine.numbers()['fileroom_restore_age_seconds{room="plans"}']) < HOUR


def test_a_folder_of_another_name_is_no_backup(machine, latest):
    """As one that somebody put aside: it is not the latest, and nothing ends at its name."""
    shutil.copytree(latest, os.path.join(os.path.dirname(latest), f"old-{os.path.basename(latest)}"))
    assert tries(machine) == (0, f"{latest}: restored, served, and asked\n", "")
    assert machine.numbers()['fileroom_backups{room="plans"}'] == "1"
    assert machine.does("warn") == (0, "", "")
    assert f"by the backup {os.path.basename(latest)}: " in machine.does("user", "owns", "ann")[1]


@each("name, edit", [
    ("damaged", "room.db", lambda data: b"x" + data[1:]), ("empty", "room.db", lambda _: b""),
    ("without users", "roster.toml", lambda _: b"[users]\n"), ("no roster", "roster.toml", lambda _: b"x")])
def test_a_backup_that_is_none(machine, latest, name, edit):
    """It is told, and does not count as tried."""
    path = os.path.join(latest, name)
    data = edit(bytes_of(path))
    put_file(path, data)
    status, _, faults = tries(machine)
    assert (status, len(faults.splitlines()), hidden(machine)) == (1, 1, []), faults


def test_no_backup(machine):
    assert tries(machine, "club")[0] == 1


# /health

@pytest.fixture(scope="module")
def front(tmp_path_factory):
    folder = str(tmp_path_factory.mktemp("m"))
    room = Room(folder).start()
    it = Front(os.path.join(folder, "front"), {"ann": "a-word"}, {"plans": room.port}, os.path.join(HERE, "..", "page"))
    yield it
    room.kill()
    it.server.kill()
    it.server.wait()


def test_health(front):
    """A stranger is told that the front is there, below the limits and in no log."""
    def seconds(more):
        begin = time.monotonic()
        got = front.once(None, "GET", "/health", more=more)
        assert (got.status, got.body) == (200, b"well\n")
        return time.monotonic() - begin
    front.once(None, "GET", "/Health")
    for more in (), [login("ann", "wrong")], [login("", "")]:
        assert least(lambda its=more: seconds(its), WRONG) < WRONG  # (nobody waits for it)
    many = [front.once(None, "GET", "/health", source="127.0.9.9") for _ in range(260)]
    assert {it.status for it in many if it} <= {200, 429}
    work = os.path.join(front.folder, "work")
    assert [it for it in os.listdir(work) if it.endswith(".log") and "health" in text_of(os.path.join(work, it))] == []


@pytest.mark.parametrize("path", ["/health/", "/healthy", "/HEALTH", "/whoami", "/rooms.json", "/names.json",
                                  "/rooms/plans/v1/check", "/health/../rooms.json"])
def test_a_stranger_is_told_nothing_else(front, path):
    assert front.once(None, "GET", path).status == 401
