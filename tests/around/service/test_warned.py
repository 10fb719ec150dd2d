"""What ends within days is told in time: to a monitor, by `check`, and on the page to the owner of the room alone."""
import fcntl
import json
import os
import shutil
import subprocess
import sys
from unittest import mock

import pytest
from fileroom_admin import looking, paces, places
from given import each
from served import text_of, until

from .machines import ADMIN, stamp

DAY, MB = 24, 1 << 20
SOON = 120  # seconds, on a machine that has much to do
FULL_NOT_NEAR = 1 << 50  # bytes of a disk
AT_A_PACE = {97: 1 * MB, 49: 3 * MB, 1: 5 * MB}  # 1 MiB a day
BACKUPS, WARNINGS = "var/backups/fileroom", "etc/nginx/fileroom/warnings"


def backups(machine, sizes, **files):
    """Gives club backups so many hours old of so many bytes, the latest with these files besides: where that is."""
    folders = {hours: f"{BACKUPS}/club/{stamp(hours)}" for hours in sizes}  # (by the second, which goes on)
    for hours, size in sizes.items():
        machine.write(f"{folders[hours]}/room.db", "")
        os.truncate(machine.at(f"{folders[hours]}/room.db"), size)
    latest = folders[min(sizes)]
    for name, text in files.items():
        machine.write(f"{latest}/{name}", text)
    return latest


def grown(machine, limit):
    """The room club has 5 MiB, and its unit this much memory."""
    os.truncate(machine.at("var/lib/fileroom/club/room.db"), 5 * MB)
    machine.shows(f"fileroom@club MemoryMax={limit}\n")


@each("sizes, limit, want, is_told", [
    ("one backup", {1: 5 * MB}, 20 * MB, None, False), ("of half a day", {12: MB, 1: 5 * MB}, 20 * MB, None, False),
    ("of one size", {49: 5 * MB, 1: 5 * MB}, 20 * MB, None, False),
    ("smaller than before", {49: 6 * MB, 1: 5 * MB}, 20 * MB, None, False),
    ("at a pace", AT_A_PACE, 20 * MB, 15.0, True), ("30 days and more", AT_A_PACE, int(35.1 * MB), 30.1, False),
    ("below 30 days", AT_A_PACE, int(34.9 * MB), 29.9, True),
    ("of days before", {240: 1, 49: 5 * MB, 1: 5 * MB}, 20 * MB, None, False),
    ("no limit", AT_A_PACE, "infinity", None, False), ("too large already", AT_A_PACE, 4 * MB, 0.0, True)])
def test_memory(machine, sizes, limit, want, is_told):
    """A room that grows does not start again once its file is as large as its unit's memory."""
    backups(machine, sizes)
    grown(machine, limit)
    left = machine.numbers().get('fileroom_memory_left_days{room="club"}')
    assert (left and round(float(left), 1)) == want
    told = [it for it in machine.does("check")[1].splitlines() if it.startswith("club: its file has 5 MiB")]
    assert told == ([
        f"club: its file has 5 MiB, its unit {limit // MB} MiB of memory to hold it, and at the pace of the last days "
        f"does not start again in {want:.0f} days"] if is_told else [])


@each("sizes, kept, free, want", [
    ("of one size, and few yet", [10] * 5, "", 100, 9), ("of one size, and soon enough", [10] * 28, "", 50, None),
    ("that many do not fit", [10] * 28, "", 35, 2), ("as many as are kept", [10] * 8, "KEEP=8 RENEW=no", 21, None),
    ("that grow", range(10, 18), "KEEP=8", 100, 7), ("too full for one", [10] * 30, "", 19, 0)])
def test_a_disk(machine, sizes, kept, free, want):
    """Each backup is one more, until so many are kept; and one needs space for two of its room."""
    backups(machine, {1 + DAY * at: size * MB for at, size in enumerate(reversed(sizes))})
    it, folder = places.Places(machine.root), machine.at(BACKUPS)
    usage = mock.Mock(free=free * MB, total=FULL_NOT_NEAR)
    with mock.patch.object(paces.shutil, "disk_usage", lambda _: usage), mock.patch.object(
            paces, "said", lambda *words: (0, f"Environment={kept}")):
        found = looking.Findings(it)
        assert paces.of_disk(it, folder) == want
        found.disk(folder)
    assert [text for text, _ in found.found if "at the pace of the last days" in text] == ([] if want is None else [
        f"the disk of {folder}, at the pace of the last days, has no space for rooms and backups in {want} days"])


def test_a_disk_that_is_not_full_soon(machine):
    backups(machine, {1: MB})
    assert [it for it in machine.numbers() if "disk_left" in it] == []


# On the page

def warned(machine):
    """Who is told what."""
    assert machine.does("warn") == (0, "", "")
    folder = machine.at(WARNINGS)
    return {name: json.loads(text_of(os.path.join(folder, name))) for name in os.listdir(folder)}


@pytest.mark.parametrize("limit, days", [(8.1, 3), (15.1, 10), (16.1, None)])
def test_the_owner_of_a_room_that_grows(machine, limit, days):
    """Nobody else; and of eleven days nobody."""
    backups(machine, AT_A_PACE, owner="ann\n")
    grown(machine, int(limit * MB))
    assert warned(machine) == ({"ann.json": {"club": {"memory_days": days}}} if days else {})
    if days:
        assert [oct(os.stat(machine.at(it)).st_mode & 0o777) for it in (WARNINGS, f"{WARNINGS}/ann.json")] == [
            "0o750", "0o640"]


def test_what_is_over(machine):
    backups(machine, AT_A_PACE, owner="ann\n")
    grown(machine, int(8.1 * MB))
    assert warned(machine) != {}
    grown(machine, int(16.1 * MB))
    assert warned(machine) == {}


@pytest.fixture
def few_numbers(machine):
    """Where the latest backup of a room is that has few numbers left."""
    latest = backups(machine, {49: 1, 1: 1}, numbers="900000\n", owner="ann\n")
    first = min(os.listdir(machine.at(f"{BACKUPS}/club")))
    machine.write(f"{BACKUPS}/club/{first}/numbers", "800000\n")
    return latest


def test_the_owner_of_a_room_with_few_numbers(machine, few_numbers):
    assert warned(machine) == {"ann.json": {"club": {"numbers_days": 2}}}
    shutil.copytree(machine.at(f"{BACKUPS}/club"), machine.at(f"{BACKUPS}/plans"))
    assert warned(machine) == {"ann.json": {it: {"numbers_days": 2} for it in ("club", "plans")}}


@pytest.mark.parametrize("owner", ["../ann", "", "a b", "x" * 33, "ann\nbob"])
def test_an_owner_that_is_none(machine, few_numbers, owner):
    machine.write(f"{few_numbers}/owner", owner)
    assert warned(machine) == {}
    assert not os.path.exists(machine.at(f"{WARNINGS}/../ann.json"))


def test_an_owner_by_a_link(machine, few_numbers):
    os.remove(machine.at(f"{few_numbers}/owner"))
    machine.write("of-root", "ann\n")
    os.symlink(machine.at("of-root"), machine.at(f"{few_numbers}/owner"))
    assert warned(machine) == {}


def is_waiting(pid):
    """For a lock."""
    rows = map(str.split, text_of("/proc/locks").splitlines())
    return any(it[1:3] == ["->", "FLOCK"] and it[5] == str(pid) for it in rows)


def test_one_writes_at_a_time(machine, few_numbers):
    """Another's new file, of which it knows nothing, would pass for one of before."""
    assert len(warned(machine)) == 1
    new, lock = machine.at(f"{WARNINGS}/.fileroom-new"), os.open(machine.at(WARNINGS), os.O_RDONLY)
    fcntl.flock(lock, fcntl.LOCK_EX)
    machine.write(new, "")
    line = [sys.executable, "-B", ADMIN, "--root", machine.root, "warn"]
    with subprocess.Popen(line, env=machine.env) as other:
        until(lambda: is_waiting(other.pid) or other.poll() is not None, SOON)
        assert os.path.exists(new)
        os.remove(new)
        os.close(lock)
    assert other.returncode == 0
