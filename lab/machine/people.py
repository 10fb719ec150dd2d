"""An administrator's year: who comes and goes, what they did, a room on another machine, and what a monitor is told."""
import glob
import grp
import json
import os
import pwd
import re
import time

from clients import Caller
from served import text_of
from ways import (FRONT, PASSWORDS, SOON, SOON_BY_TIMER, UNPACKED, as_user, caller, drop_ins, must, once, once_known,
                  said, seconds_until_served, starts, state, tally, until, write)


def changes_are_told():
    """The log of changes has them, also once it was turned over; no program but root's and nginx's workers reads it."""
    it = caller()
    it.open()
    for name, turn in ("one", ["logrotate", "-f", "/etc/logrotate.d/fileroom"]), ("two", [
            "systemctl", "kill", "--signal=USR1", "--kill-whom=main", "nginx"]), ("three", ["true"]):
        tally.differs(f"/told-{name}", it.slot({"cmd": "MKDIR", "path": f"/told-{name}"}).status, 200)
        until(lambda: told_of_plans()[-1:] == [f"done  MKDIR /told-{name}"], f"/told-{name} is told")
        must(*turn)
        time.sleep(2)  # (in which nginx opens its logs: no state tells it)
        for user in "mallory", "www-data":
            for path in glob.glob("/var/log/fileroom/*") + ["/var/log/fileroom/changes.log"]:
                group = grp.getgrgid(pwd.getpwnam(user).pw_gid).gr_name
                tally.differs(f"{user} reads {path}", said(*as_user(user, group, "cat", path))[0] == 0, False)
    tally.differs("what is told", told_of_plans(), [f"done  MKDIR /told-{it}" for it in ("one", "two", "three")])


def told_of_plans():
    lines = must("fileroom-admin", "log", "plans", "--path", "/").splitlines()
    return [it.split("  ", 3)[3] for it in lines if "/told-" in it]


def members_come():
    """Fifty users come at once, while the room goes on; each has a trash."""
    it = caller("club")
    it.open()
    it.slot({"cmd": "SETLIST", "path": "/", "aclflag": 0, "entries": [
        {"flag": 3, "mask": 0x1F07FF, "type": 0, "who": who} for who in ("OWNER@", "EVERYONE@")]})
    table = "user,groups,name\n" + "".join(f"m{it:02},staff,Member {it}\n" for it in range(50))
    write("/root/members.csv", table)
    before = starts("club")
    told = must("fileroom-admin", "user", "import", "club", "/root/members.csv")
    PASSWORDS["m07"] = dict(line.split(",") for line in told.splitlines() if line.startswith("m"))["m07"]
    got = once("POST", f"/v1/sessions/{'7' * 32}", {"slots": 1}, user="m07", room="club")
    tally.differs("at once", (starts("club") - before, got and got.body), (0, b'{"code":0,"slots":1}'))
    must("fileroom-admin", "group", "add", "club", "board", *(f"m{it:02}" for it in range(20)))
    got = once("POST", f"/v1/sessions/{'9' * 32}", {"slots": 1}, user="m07", room="club")
    tally.differs("so is a group of many", (starts("club") - before, got and got.body), (0, b'{"code":0,"slots":1}'))
    tally.differs("trashes", must("fileroom-admin", "trash", "club"), "club: 51 of 51 users have a trash (0 new)")
    must("fileroom-admin", "user", "rename", "m07", "mo")
    PASSWORDS["mo"] = PASSWORDS["m07"]
    got = once("POST", f"/v1/sessions/{'8' * 32}", {"slots": 1}, user="mo", room="club")
    tally.differs("by another name", got and got.body, b'{"code":0,"slots":1}')


def member_leaves():
    """What somebody owns is told as they leave, by the latest backup, and handed over by the line that is told: all but
    the trashes, which nobody else may look into."""
    PASSWORDS["leo"] = must("fileroom-admin", "-q", "user", "add", "club", "leo", "staff")
    ann, leo = (Caller(lambda *words, user=user: once(*words, user=user, room="club"), os.urandom(16).hex())
                for user in ("ann", "leo"))
    for it in ann, leo:
        it.open()
    ann.slot({"cmd": "SETLIST", "path": "/", "aclflag": 0, "entries": [
        {"flag": 3, "mask": 0x1F07FF, "type": 0, "who": who} for who in ("OWNER@", "EVERYONE@")]})
    tally.differs("leo makes a folder", leo.slot({"cmd": "MKDIR", "path": "/of-leo"}).body, b'{"code":0}')
    must("systemctl", "start", "fileroom-backup@club")
    told = must("fileroom-admin", "user", "remove", "club", "leo")
    line = re.search(r": (room chown -r --from leo) USER:GROUP /", told)
    tally.differs(f"what is told: {told}", ("/of-leo" in told, bool(line)), (True, True))
    got = once("POST", f"/v1/sessions/{'6' * 32}", {"slots": 1}, user="leo", room="club")
    tally.differs("leo is let in", got and got.status, 401)
    words = line[1].split() if line else ["false"]
    told = said(words[0], "--url", f"http://127.0.0.1:{FRONT}/rooms/club", "--login", "ann", "--password-file",
                "/root/.config/room-password", *words[1:], "ann:eng", "/")[1]
    tally.differs("what is handed over", [line for line in told.splitlines() if "trash" not in line],
                  ["/: 1 objects changed to ann:eng"])
    tally.differs("whose it is", json.loads(ann.slot({"cmd": "STAT", "path": "/of-leo"}).body).get("owner"), "ann")


def room_moves():
    """A room is removed, and comes back from its archive: its session goes on, and what was sent acts once. What is
    packed goes to another machine too (`arrives`)."""
    it = caller()
    it.open()
    first = it.slot({"cmd": "MKDIR", "path": "/moved"})
    listed = [line.split("  ")[0] for line in must("fileroom-admin", "room", "list").splitlines()]
    tally.differs("the rooms", listed, ["club", "plans", "front"])
    archive = must("fileroom-admin", "room", "remove", "plans").partition(" is in ")[2].partition(": ")[0]
    until(lambda: getattr(once("POST", "/v1/check"), "status", 0) == 404, "it is gone")
    tally.differs("its units", [state(f"fileroom{it}") for it in ("@plans", "-proxy@plans.socket")], ["inactive"] * 2)
    must("cp", archive, "/root/moved.tar")
    with open("/root/moved.json", "w", encoding="utf-8") as file:
        json.dump([it.sid, PASSWORDS["ann"]], file)
    must("fileroom-admin", "room", "import", archive)
    seconds_until_served()
    again = once_known("POST", f"/v1/sessions/{it.sid}/slots/0/1", {"cmd": "MKDIR", "path": "/moved"})
    tally.differs("sent again", again and again.body, first.body)
    must("systemctl", "start", "fileroom-backup@plans")


def arrives():
    """On the other machine: the room with its session, and ann's login."""
    sid, PASSWORDS["ann"] = json.loads(text_of("/root/moved.json"))
    must("env", "-u", "FILEROOM", f"{UNPACKED}/install")
    must("systemd-sysusers", "/usr/local/lib/sysusers.d/fileroom.conf")
    must("fileroom-admin", "room", "import", "/root/moved.tar")
    seconds_until_served()
    for number, want in (1, b'{"code":0}'), (2, b'{"code":4,"error":"EXIST"}'):
        got = once_known("POST", f"/v1/sessions/{sid}/slots/0/{number}", {"cmd": "MKDIR", "path": "/moved"})
        tally.differs(f"request {number}", got and got.body, want)
    tally.differs("it is backed up", said("systemctl", "start", "fileroom-backup@plans")[0], 0)
    tally.end()


def monitor_is_told():
    """The timer has the numbers written where the node exporter of Prometheus reads them."""
    numbers = "/var/lib/prometheus/node-exporter/fileroom.prom"
    os.makedirs(os.path.dirname(numbers))
    with drop_ins({"fileroom-metrics.timer": SOON_BY_TIMER}):
        must("systemctl", "enable", "--now", "fileroom-metrics.timer")
        until(lambda: os.path.exists(numbers), "the timer has them written", 4 * SOON)  # (its unit gives way)
        until(lambda: state("fileroom-metrics") != "activating", "its unit ends")
    must("systemctl", "disable", "--now", "fileroom-metrics.timer")
    told, by_hand = text_of(numbers), must("fileroom-admin", "check", "--prometheus")
    tally.differs("what root has by hand", samples(told), samples(by_hand))
    write("/etc/nginx/conf.d/other.conf", "no such word;\n")
    must("systemctl", "start", "fileroom-metrics")
    os.remove("/etc/nginx/conf.d/other.conf")
    tally.differs("a finding more", found(text_of(numbers)), found(told) + 1)
    for line in 'fileroom_up{room="plans"} 1', 'fileroom_up{room="club"} 1', 'fileroom_users{room="plans"} 2':
        tally.differs(line, line in told.splitlines(), True)
    tally.differs("answers were counted", 'fileroom_answers{room="plans",kind="2xx"}' in told, True)
    tally.differs("a balancer", must("curl", "-s", f"http://127.0.0.1:{FRONT}/health"), "well")


def samples(told):
    """The names of its numbers, and how many things `check` finds. (What was answered is of the last ten minutes.)"""
    return [it.rpartition(" ")[0] for it in told.splitlines() if "fileroom_answer" not in it], found(told)


def found(told):
    return int(re.search(r"(?m)^fileroom_findings (\d+)$", told)[1])
