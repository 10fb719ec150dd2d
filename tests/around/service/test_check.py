"""`fileroom-admin check` tells each thing that is put wrong, and nothing where nothing is."""
import os
import re
import shutil
import subprocess
import time
from unittest import mock

import pytest
from fileroom_admin import looking, places
from given import each
from served import PROGRAM, end_with_parent, started_here, text_of
from transcripts import by_shell

from .conftest import LATE
from .contents import SERVICE
from .machines import FOLDER

NOTHING = 0, "no problems found; rooms checked: club, more, plans\n", ""
CLUB, FRONT = "var/backups/fileroom/club", "var/backups/fileroom-front/2020-01-01.tar.gz"


def test_nothing_is_wrong(looked_at):
    """(Its certificate is of 23 days.)"""
    assert looked_at.does("check") == NOTHING


PUT_WRONG = re.findall(r"(?m)^([^#\s].*)\n  (.*)$", text_of(os.path.join(FOLDER, "wrong.txt")))


def is_told(machine, what):
    """What is told, or is told in part, in this order, each with what to do."""
    status, said, _ = machine.does("check")
    found, want = said.splitlines(), what.split(" .. ")
    assert (status, len(found)) == (1, 2 * len(want)), said
    assert all(it.startswith("    ") for it in found[1::2]), said
    assert all(map(str.__contains__, found[::2], want)), said


@pytest.mark.parametrize("what, line", PUT_WRONG, ids=[ascii(f"{what}: {line[:40]}")[1:-1] for what, line in PUT_WRONG])
def test_put_wrong(looked_at, what, line):
    by_shell(line, looked_at.root, **looked_at.env)
    is_told(looked_at, what)


def test_what_front_puts_right(looked_at):
    """All that it is told to do for."""
    does = "run fileroom-admin front"
    for what, line in PUT_WRONG:
        if re.search("page's roster|not from the installed version|its part of the front|^768|rooms.json and", what):
            by_shell(line, looked_at.root, **looked_at.env)
    remedies = looked_at.does("check")[1].splitlines()[1::2]
    assert ({it.strip().partition(",")[0] for it in remedies}, len(remedies)) == ({does}, 10)
    assert looked_at.does("front")[0] == 0
    assert looked_at.does("check") == NOTHING


@pytest.mark.parametrize("program, what", [("openssl", "there is no openssl .. there is no openssl"),
                                           ("sqlite3", "there is no sqlite3"), ("curl", "there is no curl")])
def test_a_program_that_is_missing(looked_at, program, what):
    looked_at.lacks(program)
    is_told(looked_at, what)


@each("most, is_noted", [
    ("little", lambda size: -(-4 * size // 3), True), ("just too little", lambda size: -(-5 * size // 2) - 1, True),
    ("enough", lambda size: -(-5 * size // 2), False), ("no limit", lambda _: "infinity", False)])
def test_memory_for_a_start(looked_at, most, is_noted):
    """A note is no finding."""
    folder = looked_at.at("var/lib/fileroom/plans")
    size = sum(os.stat(os.path.join(folder, it)).st_size for it in ("room.db", "room.db-wal"))
    looked_at.shows(f"fileroom@plans MemoryMax={most(size)}\n")
    status, told, faults = looked_at.does("check")
    note = "note: plans: if long lists fill its file of 0 MiB, its start takes more"
    assert told.startswith(note) == is_noted
    assert (status, told[-len(NOTHING[1]):], faults) == NOTHING


def test_numbers_that_are_no_finding(looked_at):
    """Also a link, which is not followed, and a pipe, at which nobody waits."""
    numbers = f"var/backups/fileroom/plans/{LATE}/numbers"
    for text in "750000\n", "x", "":
        looked_at.write(numbers, text)
        assert looked_at.does("check") == NOTHING, text
    looked_at.write("../used-up", "750001\n")
    for plant in lambda it: os.symlink(looked_at.at("../used-up"), it), os.mkfifo:
        os.remove(looked_at.at(numbers))
        plant(looked_at.at(numbers))
        assert looked_at.does("check") == NOTHING


@pytest.mark.parametrize("hours, more, found", [(25, [], 0), (27, [], 1), (27, ["--backup-hours", "28"], 0)])
def test_hours_of_a_backup(looked_at, hours, more, found):
    now, club, front = time.time(), looked_at.at(CLUB), looked_at.at(FRONT)
    looked_at.env.update(TZ="Asia/Tokyo")  # (a backup's name is of no place)
    made = time.strftime("%Y-%m-%dT%H-%M-%SZ", time.gmtime(now - hours * 3600))
    os.rename(os.path.join(club, *os.listdir(club)), os.path.join(club, made))
    assert looked_at.does("check", *more)[0] == found
    os.rename(os.path.join(club, made), os.path.join(club, LATE))
    os.utime(front, (now, now - hours * 3600))
    assert looked_at.does("check", *more)[0] == found


def test_in_the_clear_for_this_machine_alone(looked_at):
    looked_at.write("etc/nginx/fileroom/listen.conf", "listen 127.0.0.1:20081;\nlisten [::1]:20081;\n")
    assert looked_at.does("check") == NOTHING


# A folder on a disk of its own of 8 MiB, with so much of it filled.
SMALL = """set -e
cp -a "$1" "$1-kept"
mount -t tmpfs -o size=8m small "$1"
cp -a "$1-kept/." "$1"
rm -r "$1-kept"
head -c "$2" /dev/zero >"$1/filled"
exec "${@:3}" """


@pytest.mark.parametrize("filled, found", [("6500K", 0), ("7400K", 1)])
@pytest.mark.parametrize("folder_of", ["var/lib/fileroom", "var/backups/fileroom", "var/lib/fileroom/plans",
                                       "var/log/fileroom", "var/log"])
def test_a_disk_that_is_nearly_full(looked_at, folder_of, filled, found):
    os.makedirs(looked_at.at("var/log/fileroom"), exist_ok=True)
    unshare = ["unshare", "--mount", *([] if os.geteuid() == 0 else ["--map-root-user"])]
    path = looked_at.at(folder_of)
    status, said, _ = looked_at.does("check", within=[*unshare, "bash", "-c", SMALL, "bash", path, filled])
    of = looked_at.at("var/log/fileroom") if "log" in folder_of else path
    more = ": while it is full, the log of changes lacks what is done, and no bound counts it" * ("log" in folder_of)
    assert (status, said.count(f"the disk of {of} has 0 MiB free{more}\n")) == (found, found), said


# What is installed

class Installed:
    """All, below a folder beside the root, and `check` of it."""

    def __init__(self, machine):
        self.machine, self.top = machine, os.path.join(machine.folder, "usr")
        self.puts(PROGRAM)
        machine.does("front", first=[self.admin])

    @property
    def admin(self):
        return os.path.join(self.top, "bin", "fileroom-admin")

    def puts(self, program):
        words = [os.path.join(SERVICE, "install"), "", self.top]
        subprocess.run(words, env={**self.machine.env, "FILEROOM": program}, capture_output=True, check=True)

    def begins(self):
        """A process of the program that is there. (It waits for a message.)"""
        roster = self.machine.at("etc/fileroom/plans.toml")
        how = {"stdin": subprocess.PIPE, "stdout": subprocess.DEVNULL, "preexec_fn": end_with_parent}
        words = [os.path.join(self.top, "bin", "fileroom"), "replay", roster, "--", "ann", "eng"]
        started_here.append(subprocess.Popen(words, **how))
        return started_here[-1]

    def says(self, pid, later=None):
        """Of a room whose process has this number, and another one once it was asked for."""
        self.machine.shows(*(f"fileroom@plans MainPID={it}\n" for it in (pid, pid if later is None else later)))
        return self.machine.does("check", first=[self.admin])


@pytest.fixture
def installed(looked_at):
    yield Installed(looked_at)
    for it in started_here:
        it.kill()
        it.wait()


def test_a_rooms_process_runs_what_is_installed(installed):
    """Told where another program was installed since it began, and not where the same bytes were, or none is."""
    other = os.path.join(installed.machine.folder, "other")
    shutil.copy2(PROGRAM, other)
    with open(other, "ab") as file:
        file.write(b"\n")
    told = 1, "plans: its process does not run the installed program\n    systemctl restart fileroom@plans\n", ""
    first = installed.begins()
    assert installed.says(first.pid) == NOTHING
    installed.puts(other)
    assert installed.says(first.pid) == told
    second = installed.begins()
    assert installed.says(second.pid) == NOTHING  # (the room was started again)
    assert installed.says(os.getpid(), later=second.pid) == NOTHING  # (it has just begun)
    installed.puts(PROGRAM)
    assert installed.says(second.pid) == told
    assert installed.says(first.pid) == NOTHING  # (the same bytes)
    assert (first.poll(), second.poll()) == (None, None)
    second.kill()
    second.wait()
    assert installed.says(second.pid) == installed.says(0) == NOTHING


def test_one_version_and_no_unit_in_the_place_of_its_own(installed):
    installed.machine.shows("")
    installed.machine.plays("units.txt")


def test_whose_a_rooms_file_is(looked_at):
    """What is told to do about it gives away nothing that a link leads to."""
    its, path = places.Places(looked_at.root), looked_at.at("var/lib/fileroom/plans/link")
    os.symlink("/etc/passwd", path)
    its.is_machine, found = True, looking.Findings(its)
    with mock.patch.object(looking.os, "stat", side_effect=AssertionError("it was followed")):
        found.owner(path)
    assert [remedy for _, remedy in found.found] == [f"chown -h fileroom:fileroom {path}"]
