"""Somebody who has a login on the machine, mallory, is after a room; and what a unit keeps off."""
import contextlib
import glob
import grp
import os
import pwd
import re
import subprocess
import time

from mallory import PROBE, REACH, TAKE
from served import text_of
from ways import (FRONT, PORT, as_user, caller, drop_ins, kill, must, once, said, seconds_until_served, state, tally,
                  until, write)

GIVEN = "x" * 8 + "-mallory"  # what mallory answers with
BOUNDS = {"fileroom@": 1.0, "fileroom-proxy@": 1.0, "fileroom-standby@": 1.0, "fileroom-backup@": 1.1,
          "fileroom-try@": 1.0, "fileroom-ports": 2.0, "fileroom-rejoin@": 2.2, "fileroom-dav": 1.0,
          "fileroom-metrics": 2.0, "fileroom-watch": 1.5, "fileroom-roster": 1.9, "fileroom-signin": 1.4}


@contextlib.contextmanager
def taker(port, what):
    """While it lasts mallory takes the port as soon as it is free, and answers there. Nobody is to come."""
    words = as_user("mallory", "mallory", "python3", "-c", TAKE, str(port), GIVEN)
    child = subprocess.Popen(words, stdout=subprocess.PIPE, text=True)
    tally.differs(f"{what}: who takes the port", child.stdout.readline(), "begins\n")
    try:
        yield
    finally:
        child.kill()
        tally.differs(f"{what}: what came to who took the port", child.stdout.read()[:300], "")


def ask_for(seconds, what):
    """Asks all the time, and what is answered is the room's, or nothing is."""
    end, it, bodies = time.monotonic() + seconds, caller(), set()
    while time.monotonic() < end:
        got = once("POST", f"/v1/sessions/{it.sid}", {"slots": 1})
        bodies.add(got.body[:40] if got else b"")
        time.sleep(0.2)
    tally.differs(f"{what}: nobody else answers", {it for it in bodies if GIVEN.encode() in it}, set())


def port_is_taken():
    """The room's port, while the room is stopped, killed, backed up, and started again."""
    with taker(PORT, "stopped"):
        must("systemctl", "stop", "fileroom@plans")
        ask_for(3, "stopped")
        must("systemctl", "start", "fileroom@plans")
        seconds_until_served()
    with taker(PORT, "killed"):
        for _ in range(3):
            kill("plans")
            ask_for(2, "killed")
        seconds_until_served()
    with taker(PORT, "backed up"):
        must("systemctl", "--no-block", "start", "fileroom-backup@plans")
        ask_for(5, "backed up")
        seconds_until_served()


def front_is_taken():
    """The front's port while nginx is down: nobody is told a password."""
    with taker(FRONT, "nginx is down"):
        must("systemctl", "stop", "nginx")
        ask_for(3, "nginx is down")
    must("systemctl", "start", "nginx")
    seconds_until_served()


def room_is_reached():
    """By users of the machine, and by other programs of www-data's, past the front; and whose passwords are read."""
    for user in "mallory", "nobody", "www-data":
        group = grp.getgrgid(pwd.getpwnam(user).pw_gid).gr_name
        for at in str(PORT), "/run/fileroom/plans.sock":
            told = said(*as_user(user, group, "python3", "-c", REACH, at))[1]
            tally.differs(f"{user} at {at}", told, "refused")
        status, _ = said(*as_user(user, group, "cat", "/etc/nginx/fileroom/users"))
        tally.differs(f"{user} reads the passwords", status == 0, False)
    tally.differs("root at the socket", said("python3", "-c", REACH, "/run/fileroom/plans.sock")[1], "reached")


# What a program in a room's unit could do.

def room_looks_round():
    """A program in the place of the room's own sees the room, and neither another one nor a backup."""
    probe, line = "/var/lib/fileroom/plans/probe", "ExecStart=/usr/bin/python3 /usr/local/share/probe.py"
    other = must("systemctl", "show", "--value", "--property=MainPID", "fileroom@club")
    write("/usr/local/share/probe.py", PROBE.replace("OTHER", other))
    with drop_ins({"fileroom@plans.service": f"[Service]\nRestart=no\nExecStart=\n{line}\n"}):
        must("systemctl", "restart", "fileroom@plans")
        until(lambda: state("fileroom@plans") != "active", "the probe ends")
    tally.differs("it sees its own room, and nothing else", os.path.exists(probe) and text_of(probe), "(True, [])")
    with contextlib.suppress(FileNotFoundError):
        os.remove(probe)
    seconds_until_served("club")  # (it was stopped by no signal)
    must("systemctl", "restart", "fileroom@plans")
    seconds_until_served()


def asked_before_it_is_there():
    """Somebody asks while the room is down, and nothing hands on yet: what begins then is in the room's network."""
    must("systemctl", "stop", "fileroom@plans", "fileroom-proxy@plans.service")
    tally.differs("no room", once("POST", "/v1/check").status, 502)
    must("systemctl", "start", "fileroom@plans")
    seconds_until_served()


def units_are_bounded():
    """What `systemd-analyze security` says of each unit that is installed is at most so much."""
    found = [glob.glob(f"{prefix}/lib/systemd/system/fileroom*.service") for prefix in ("/usr/local", "/usr")]
    installed = [os.path.basename(it) for it in found[0] or found[1]]
    tally.differs("the units", sorted(installed), sorted(f"{it}.service" for it in BOUNDS))
    for unit, most in BOUNDS.items():
        told = said("systemd-analyze", "security", "--no-pager", unit + "plans" * unit.endswith("@"))[1]
        found = re.search(r"exposure level for \S+: ([0-9.]+)", told)
        tally.differs(f"the exposure of {unit}: {found and found[1]}", bool(found) and float(found[1]) <= most, True)


# Walls, and a standby that was not made.

def walls_fail_open():
    """Where its rules are not there, fileroom-ports fails, and the rules of before stay."""
    rules = "/usr/local/share/fileroom/fileroom.nft"
    os.rename(rules, f"{rules}-away")
    tally.differs("without its rules", said("systemctl", "reload", "fileroom-ports")[0] == 0, False)
    tally.differs("the rules of before", said("nft", "list", "table", "inet", "fileroom")[0], 0)
    os.rename(f"{rules}-away", rules)
    must("systemctl", "restart", "fileroom-ports")


def standby_fails():
    """A volume that cannot be made (there is no Gluster here) leaves the room as it was, and its commands too."""
    status, _ = said("fileroom-standby", "make", "plans", "10.0.0.1", "10.0.0.2", "10.0.0.3")
    tally.differs("fileroom-standby make", (status, os.path.exists("/etc/fileroom/plans.hosts")), (1, False))
    with contextlib.suppress(FileNotFoundError):
        os.remove("/etc/fileroom/plans.hosts")


def standby_serves():
    """The standby's unit, over a mount in the place of the volume, is reached as the room's own was, and then that."""
    folder = "/var/lib/fileroom/plans"
    must("systemctl", "stop", "fileroom@plans")
    must("mount", "--bind", folder, folder)
    must("systemctl", "start", "fileroom-standby@plans")
    seconds_until_served()
    said("systemctl", "kill", "--signal=KILL", "fileroom-standby@plans")
    seconds_until_served()
    must("systemctl", "stop", "fileroom-standby@plans")
    must("umount", folder)
    tally.differs("not below the mount", said("systemctl", "start", "fileroom-standby@plans")[0], 1)
    must("systemctl", "start", "fileroom@plans")
    seconds_until_served()


def older_machine():
    """One as it was before rooms had networks of their own is taken over by `fileroom-admin front`."""
    older = {"/etc/nginx/nginx.conf": ("user www-data fileroom-front;", "user www-data;"),
             "/etc/nginx/fileroom/rooms/plans.conf": ("http://fileroom_behind/rooms/plans/",
                                                      f"http://127.0.0.1:{PORT}/"),
             "/etc/nginx/conf.d/fileroom.conf": (r"limit_conn_zone \S+ zone=fileroom_open:",
                                                 "limit_conn_zone $remote_user zone=fileroom_open:")}
    for path, (now, then) in older.items():
        text = re.sub(now, then, text_of(path))
        tally.differs(f"{path} as it was", then in text, True)
        write(path, text)
    must("chgrp", "www-data", "/etc/nginx/fileroom/users")
    with drop_ins({"fileroom@plans.service": "[Service]\nPrivateNetwork=no\n"}):
        must("systemctl", "restart", "fileroom@plans")
        must("systemctl", "restart", "nginx")
    must("fileroom-admin", "front")
    seconds_until_served()
    room_is_reached()
