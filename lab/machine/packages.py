"""The package: in the place of an installation, over an older one, removed, purged; and a machine that is lost."""
import glob
import os

import removal
import typed
import ways
from ways import (TOP, UNPACKED, Writers, are_as_before, first_day, must, of_package, said,
                  seconds_until_served, tally)

ROOMS = "plans", "club"
PACKAGES = [f"/root/fileroom_{it}_amd64.deb" for it in ("0.9", "1.0")]


def package_takes_over():
    """From what `make install` put there."""
    if not os.path.exists(PACKAGES[0]):
        print("machine: there is no package, since `make dist` did not take the program")
        return
    must(f"{UNPACKED}/install", "--remove")
    must("dpkg", "-i", PACKAGES[0])
    for room in "plans", "club":
        seconds_until_served(room)


def lost():
    """All but copies of the backups; and the rooms come back by the lines of RUNNING."""
    for room in ROOMS:
        must("systemctl", "start", f"fileroom-backup@{room}")
        must("systemctl", "disable", "--now", f"fileroom@{room}", f"fileroom-backup@{room}.timer",
             f"fileroom-try@{room}.timer", f"fileroom-proxy@{room}.socket")
    must("systemctl", "disable", "--now", "fileroom-ports")
    must("mkdir", "-p", "/srv/copies/fileroom-log")
    must("sh", "-c", "cp /var/log/fileroom/changes.log* /srv/copies/fileroom-log")
    must("sh", "-c", "mv /var/backups/fileroom /var/backups/fileroom-front /srv/copies; chown -R 0:0 /srv/copies")
    must("rm", "-r", *(path for it in removal.LINKS for path in glob.glob(it)), "/etc/nginx/fileroom",
         "/etc/logrotate.d/fileroom", "/var/lib/fileroom", "/etc/fileroom", "/var/log/fileroom")
    must("systemctl", "restart", "nginx")
    shell, of_front = typed.Shell("/root", HOME="/root"), max(os.listdir("/srv/copies/fileroom-front"))
    lines = typed.commands(TOP, "docs/RUNNING.md", "The machine is lost", 3)
    tally.differs("lines for a lost machine", len(lines), 7)
    for line, told in lines:
        for room in ROOMS if "plans" in line else ROOMS[:1]:
            date = max(os.listdir(f"/srv/copies/fileroom/{room}"))
            given = line.replace("DAY.tar.gz", of_front).replace("DATE", date).replace("plans", room)
            status, said_then = shell.does(given)
            due = typed.as_told(said_then, [it.replace("plans", room) for it in told])
            tally.differs(f"lost: {given}", (status, said_then), (0, due))
    are_as_before(*ROOMS)
    tally.differs("what was done before", "MKDIR" in said("fileroom-admin", "log", "plans")[1], True)
    tally.differs("its files' mode", must("stat", "-c", "%U %a", "/var/lib/fileroom/plans/room.db"), "fileroom 600")


def packaged():
    """On a machine that had Debian's base system alone, and got the older package with what it needs from apt. It is
    upgraded while clients write; an older one does not take its place; rooms outlive it, a purge too, and the next
    installation serves them."""
    old, new = PACKAGES
    tally.differs("what it brought", (os.path.exists("/usr/sbin/nginx"), os.path.exists("/usr/bin/curl")), (True, True))
    first_day("/root", of_package)
    writers = Writers(8, 60, 1)
    must("apt-get", "install", "-y", new)
    writers.end()
    status, told = said("apt-get", "install", "-y", "--allow-downgrades", old)
    tally.differs(f"an older version: {told[-300:]}", (status, "version 1.0 is installed" in told), (100, True))
    version = lambda: said("dpkg-query", "-W", "-f", "${db:Status-Status} ${Version}", "fileroom")[1]
    tally.differs("the version that stays", version(), "installed 1.0")
    must("systemctl", "start", "fileroom-backup@plans", "fileroom-backup@club")
    tally.differs("fileroom-admin check", said("fileroom-admin", "check"), (
        0, "no problems found; rooms checked: club, plans"))
    must("apt-get", "remove", "-y", "fileroom")
    tally.differs("an older version, once it is removed", said("dpkg", "-i", old)[0], 1)
    must("apt-get", "install", "-y", new)
    leaves = removal.Scene(ways)
    leaves.play(new)
    must("apt-get", "install", "-y", new)
    leaves.is_there("installed after a purge")
    leaves.in_the_clear()
    are_as_before("plans", "club")
    lost()
    tally.end()
