"""What a room outlasts: kills while people write, backups, a full disk, and that it is large."""
import base64
import os
import pwd
import subprocess
import time

from served import peak_of, text_of
from ways import (SOON, SOON_BY_TIMER, Writers, as_user, backups, caller, drop_ins, journal, kill, must, once, said,
                  seconds_until_served, state, tally, until, write)

SLOW = """#!/bin/sh
until [ -e /usr/local/slow/may ]; do sleep 0.1; done
exec /usr/bin/sqlite3 "$@"
"""
LARGE = """
BEGIN;
WITH RECURSIVE n(i) AS (SELECT 1 UNION ALL SELECT i + 1 FROM n WHERE i < 70)
    INSERT INTO node SELECT 1000 + i, 1, 'f' || i, 1, 'ann', 'eng', 1 FROM n;
WITH RECURSIVE n(i) AS (SELECT 0 UNION ALL SELECT i + 1 FROM n WHERE i < 17499)
    INSERT INTO node SELECT 2000 + i, 1001 + i / 250, 'd' || i, 0, 'ann', 'eng', 1 FROM n;
INSERT INTO doc SELECT id, zeroblob(65536) FROM node WHERE id >= 2000;
UPDATE room SET next = 20000;
COMMIT;
"""  # 17,500 documents of 64 KiB: 1.1 GiB


def killed_while_they_write():
    writers, kills = Writers(8, 30, 1), 0
    while writers.are_at_it() and kills < 6:
        time.sleep(2)
        kill("plans")
        kills += 1
    writers.end()
    tally.differs("killed while they wrote", kills > 1, True)


def timer_fires():
    """The nightly backup while people write: it comes by its timer; the room is there again before the copy has been
    looked at, which is made to wait for that; and nothing is lost."""
    lines = {"fileroom-backup@plans.timer": SOON_BY_TIMER,
             "fileroom-backup@plans.service": "[Service]\nEnvironment=PATH=/usr/local/slow:/usr/bin:/bin\n"}
    os.makedirs("/usr/local/slow")
    write("/usr/local/slow/sqlite3", SLOW)
    os.chmod("/usr/local/slow/sqlite3", 0o755)
    before, writers = backups("plans"), Writers(4, 40, 101)
    with drop_ins(lines):
        must("systemctl", "restart", "fileroom-backup@plans.timer")
        until(lambda: state("fileroom-backup@plans") == "activating", "the timer's backup begins")
        until(lambda: state("fileroom@plans") != "active", "the room rests")
        until(lambda: state("fileroom@plans") == "active", "the room is started again")
        took = seconds_until_served()
        tally.differs(f"served again while the copy is looked at, after {took:.1f} s", state("fileroom-backup@plans"),
                      "activating")
        write("/usr/local/slow/may", "")
        until(lambda: state("fileroom-backup@plans") != "activating", "the backup ends")
    writers.end()
    tally.differs("a backup more", len(backups("plans") - before), 1)
    must("systemctl", "restart", "fileroom-backup@plans.timer")


def backups_are_kept():
    """As many as a drop-in says, the latest."""
    made = []
    with drop_ins({"fileroom-backup@plans.service": "[Service]\nEnvironment=KEEP=2\n"}):
        for _ in range(3):
            must("systemctl", "start", "fileroom-backup@plans")
            made.append(max(it for it in backups("plans") if it[0] != "."))
    tally.differs("what is kept", {it for it in backups("plans") if it[0] != "."}, {*made[1:]})


def backups_are_tried():
    """The latest backup is restored, served and asked, by the timer; where that fails it is told."""
    must("systemctl", "start", "fileroom-backup@plans")
    tried = "/var/backups/fileroom/plans/.tried"
    with drop_ins({"fileroom-try@plans.timer": SOON_BY_TIMER}):
        must("systemctl", "restart", "fileroom-try@plans.timer")
        until(lambda: os.path.exists(tried), "the timer has it tried")
        until(lambda: state("fileroom-try@plans") != "activating", "the trial ends")
    must("systemctl", "restart", "fileroom-try@plans.timer")
    folder = f"/var/backups/fileroom/plans/{max(it for it in backups('plans') if it[0] != '.')}"
    tally.differs("what was tried", text_of(tried), os.path.basename(folder) + "\n")
    os.rename(f"{folder}/room.db", f"{folder}/away")
    tally.differs("one without its file", said("systemctl", "start", "fileroom-try@plans")[0] == 0, False)
    tally.differs("it is told", "not restored as a trial" in said("fileroom-admin", "check")[1], True)
    os.rename(f"{folder}/away", f"{folder}/room.db")
    must("systemctl", "start", "fileroom-try@plans")
    tally.differs("and no more", "not restored as a trial" in said("fileroom-admin", "check")[1], False)


def watched(told):
    """The timer's look at the room club finds it so, and the numbers say so: the fault, or nothing."""
    before = which_look()
    until(lambda: is_over(before), "the look before ends")
    with drop_ins({"fileroom-watch.timer": SOON_BY_TIMER}):
        must("systemctl", "restart", "fileroom-watch.timer")
        until(lambda: which_look() != before, "the timer has the watch look")
        its = which_look()
        until(lambda: is_over(its), "it ends")
    tally.differs("what the watch found", told_by(its), told)
    must("systemctl", "restart", "fileroom-watch.timer")
    numbers, found = (said("fileroom-admin", "check", *it)[1] for it in (["--prometheus"], []))
    tally.differs(f"fileroom_up: {told}", f'fileroom_up{{room="club"}} {int(not told)}' in numbers.splitlines(), True)
    tally.differs(f"check: {found}", (told or "club takes no request") in found, bool(told))


def which_look():
    return must("systemctl", "show", "--value", "--property=InvocationID", "fileroom-watch")


def is_over(look):
    return which_look() != look or state("fileroom-watch") != "activating"


def told_by(look):
    """What it said of the room club in the journal."""
    must("journalctl", "--sync")
    told = must("journalctl", "--no-pager", "--output=cat", f"_SYSTEMD_INVOCATION_ID={look}")
    return "".join(it for it in told.splitlines() if it.startswith("club "))


def room_does_not_start():
    """The watch says so, and then no more."""
    with drop_ins({"fileroom@club.service": "[Service]\nExecStart=\nExecStart=/bin/false\n"}):
        must("systemctl", "restart", "fileroom@club")
        watched("club takes no request: its program does not run: journalctl -u fileroom@club says why")
    must("systemctl", "restart", "fileroom@club")
    seconds_until_served("club")
    watched("")


def disk_is_full():
    """The room answers DELAY, which `check` and the watch explain and the room's journal does not. With space again it
    acts, by itself."""
    folder, owner, big = "/var/lib/fileroom/club", pwd.getpwnam("fileroom"), base64.b64encode(bytes(48000)).decode()
    must("systemctl", "stop", "fileroom@club")
    must("cp", "--archive", folder, "/root/small")
    size = 1024 + int(must("du", "--summarize", "--block-size=1K", "/root/small").split()[0])  # KiB
    must("mount", "-t", "tmpfs", "-o", f"size={size}k,mode=700,uid={owner.pw_uid},gid={owner.pw_gid}", "small", folder)
    must("cp", "--archive", "--no-target-directory", "/root/small", folder)
    must("systemctl", "start", "fileroom@club")
    seconds_until_served("club")
    before, it, number, got = journal("club"), caller("club"), 0, None
    it.open()
    while number < 200 and (got is None or got.status == 200):
        number += 1
        asks = "POST", f"/v1/sessions/{it.sid}/slots/0/{number}", {"cmd": "CREATE", "path": f"/{number}", "data": big}
        got = once(*asks, room="club")
    tally.differs("a full disk", got and got.body, b'{"code":30,"error":"DELAY"}')
    tally.differs("it is told", f"the disk of {folder} has 0 MiB free" in said("fileroom-admin", "check")[1], True)
    tally.differs("the journal", journal("club"), before)
    watched(f"club takes no request: the disk of {folder} is full; nobody can read either until there is space")
    must("mount", "-o", f"remount,size={size + 8192}k", folder)
    got = once(*asks, room="club")
    tally.differs("the same once there is space", got and got.body, b'{"code":0,"size":48000}')
    watched("")
    must("systemctl", "stop", "fileroom@club")
    must("umount", folder)
    must("systemctl", "start", "fileroom@club")
    seconds_until_served("club")


def large_room_starts():
    """A room of 1.1 GiB starts again, also where there is no log (sqlite3 leaves none), and `check` tells it where
    three quarters of its unit's memory are less."""
    must("systemctl", "stop", "fileroom@club")
    must("cp", "--archive", "/var/lib/fileroom/club", "/root/club")
    made = subprocess.run(as_user("fileroom", "fileroom", "sqlite3", "-batch", "/var/lib/fileroom/club/room.db"),
                          input=LARGE, text=True, capture_output=True)
    tally.differs("it is filled", (made.returncode, made.stdout + made.stderr), (0, ""))
    must("systemctl", "start", "fileroom@club")
    took = seconds_until_served("club", 4 * SOON)
    print(f"machine: a room of 1.1 GiB is served after {took:.0f} s", flush=True)
    tally.differs("its starts", must("systemctl", "show", "--property=NRestarts", "fileroom@club"), "NRestarts=0")
    # (a booted machine may have no controller of memory, and then nobody holds the unit to its limit)
    pid, most = (int(must("systemctl", "show", "--value", f"--property={it}", "fileroom@club"))
                 for it in ("MainPID", "MemoryMax"))
    peak = peak_of(pid) >> 10
    tally.differs(f"it took {peak} MiB, of {most >> 20} that its unit has", 1024 < peak < most >> 20, True)
    for limit, is_told in ("1450M", True), ("1600M", False):
        must("systemctl", "set-property", "--runtime", "fileroom@club", f"MemoryMax={limit}")
        tally.differs(f"told at {limit}", "club: its file has" in said("fileroom-admin", "check")[1], is_told)
    must("systemctl", "revert", "fileroom@club")
    must("systemctl", "stop", "fileroom@club")
    must("cp", "--archive", "--no-target-directory", "/root/club", "/var/lib/fileroom/club")
    must("systemctl", "start", "fileroom@club")
    seconds_until_served("club")
