"""`fileroom-admin check`: what is wrong with a machine, each finding with its remedy."""
import glob
import grp
import os
import pwd
import re
import shutil
import stat
import time

from . import alive, dav, now, paces, rosters, signin, warned
from .changes import JOURNAL, sum_in
from .front import OF_ROOM, end_of, of_room
from .held import JAILS, Bounds, is_by_hand
from .owned import TO_COME, age_of
from .places import (BEHIND, CHANGES, FRONT_FILES, HERE, LISTEN, LOGINS, SEARCHED, WORKERS, Fault, read, read_json,
                     said, said_before, sample)

PROGRAMS = {"nginx": "nginx-light", "haproxy": "haproxy", "openssl": "openssl", "sqlite3": "sqlite3",
            "nft": "nftables", "curl": "curl", "logrotate": "logrotate"}
ROOM_LEFT = 1 << 30  # bytes that a disk should have free, or a tenth of it
DAYS_LEFT = 21  # of a certificate
TRIED_DAYS = 9  # since a backup was tried
FULL = 3 / 4  # of a unit's memory: a room's file that is larger is told
OF_LISTS = 2.5  # so much memory its start takes where long lists fill it
USED = 750_000  # numbers of a room for objects: from here on it is told
DAYS = 30  # or from how many days on before they end, and before memory or a disk does
OTHERS = stat.S_IRWXG | stat.S_IRWXO
CLEAR = 8080  # the front's port without TLS
LISTENS = "0A"  # a state, in /proc/net/tcp
DEFAULT_SITE = "etc/nginx/sites-enabled/default"
PREFIX = os.path.join(HERE, "../../../..")  # of what `make install` put; in a checkout there is nothing
# where systemd looks for units before it does below the prefix
BEFORE = "etc/systemd/system.control", "etc/systemd/system", "run/systemd/system", "usr/local/lib/systemd/system"
FRONT_REMEDY = "run fileroom-admin front"
ONE_VERSION = "make install, or the package again: of one version"
SUMS = "share/fileroom/sums"
ROSTER_CONF, BY_DIRECTORY = "etc/fileroom/roster.conf", "fileroom-roster"
ALL_UNITS = "fileroom-.service"  # whose drop-ins are those of each unit whose name begins so
OF_ALL = "00-hardening.conf"  # a drop-in of ours
OF_MANAGER = "50-pacemaker.conf"  # a drop-in of Pacemaker's own, for what it starts


class Findings:
    def __init__(self, places):
        self.places, self.found, self.notes = places, [], []

    def add(self, text, remedy):
        """Once, however many looks find it. (A program may say it in several lines.)"""
        its = " ".join(text.splitlines()), remedy
        if its not in self.found:
            self.found.append(its)

    def note(self, text, more):
        """What may be meant, and is told alone."""
        self.notes.append((f"note: {text}", more))

    def part(self, task, *words):
        """A look that cannot be done is a finding too."""
        try:
            task(*words)
        except (Fault, OSError, ValueError) as fault:
            self.add(str(fault), "correct what it names")

    def programs(self):
        for name, package in PROGRAMS.items():
            if not shutil.which(name, path=SEARCHED):
                self.add(f"there is no {name}", f"apt-get install {package}")
        versions = [said(it, "--version")[1].split()[-1:] for it in (self.places.program, "room")]
        if versions[0] != versions[1]:
            self.add(f"program and client have different versions, {versions}", ONE_VERSION)
        if os.path.exists(self.places.at(JOURNAL)):
            self.add("a change was interrupted", "fileroom-admin user list: the next command finishes it")

    def installed(self):
        """(In a checkout there are no sums.)"""
        sums = [it.split("  ") for it in read(os.path.join(PREFIX, SUMS), "").splitlines()]
        others = [name for its_sum, name in sums if sum_in(os.path.join(PREFIX, name)) != its_sum]
        if others:
            self.add(f"not from the same installation: {', '.join(others[:9])}", ONE_VERSION)
        if sums:
            self.units()

    def units(self):
        """What systemd takes in the place of an installed unit, or with it, or has not read yet."""
        names = ["fileroom-ports.service", *(it for room in self.places.rooms() for it in self.places.units(room))]
        names += [dav.SOCKET, dav.SERVICE] if dav.rooms_of(self.places) else []
        names += [signin.SOCKET, signin.SERVICE] if signin.is_on(self.places) else []
        for name in sorted({*names, *map(template_of, names), ALL_UNITS}):
            for folder in BEFORE:
                self.unit_before(self.places.at(f"{folder}/{name}"), name)
        if "NeedDaemonReload=yes" in said("systemctl", "show", "--property=NeedDaemonReload", *names)[1].splitlines():
            self.add("systemd has not reloaded the changed units", "systemctl daemon-reload; systemctl "
                     f"try-restart {' '.join(map(self.places.unit, self.places.rooms()))}")

    def unit_before(self, path, name):
        """A unit there hides the installed one, with what an update changes in it; a drop-in changes some lines."""
        installed = os.path.join(PREFIX, "lib/systemd/system", template_of(name))
        if os.path.lexists(path) and os.path.realpath(path) != os.path.realpath(installed):
            self.add(f"{path} hides the installed unit", "move it away, then systemctl daemon-reload and restart it; "
                     f"put your own lines into a drop-in: systemctl edit {name}")
        ours = os.path.realpath(os.path.join(PREFIX, "lib/systemd/system", f"{name}.d", OF_ALL))
        for it in sorted(glob.glob(f"{glob.escape(path)}.d/*.conf")):
            if os.path.basename(it) == OF_MANAGER or os.path.realpath(it) == ours:
                continue
            self.note(f"{it} changes the installed unit", f"if that is not intended: systemctl revert {name}")

    def front(self):
        for name, path in FRONT_FILES.items():
            if read(self.places.at(path), "") != sample(name):
                self.add(f"/{path} is not from the installed version", FRONT_REMEDY)
        main = read(self.places.at("etc/nginx/nginx.conf"))
        if re.search(r"(?m)^\s*worker_connections 768;", main):
            self.add("nginx allows only 768 connections a process", FRONT_REMEDY)
        if not re.search(rf"(?m)^\s*user\s+\S+\s+{WORKERS}\s*;", main):
            self.add(f"nginx's workers lack the group {WORKERS}, so they reach no room",
                     f"{FRONT_REMEDY}, or the line in nginx.conf: user www-data {WORKERS};")
        status, told = said_before("nginx", "nginx", "-tq")
        if status:
            self.add(f"nginx refuses its configuration: {told[:200]}", "correct what it names")
        if not any(map(self.places.has_standby, self.places.rooms())):  # (else it runs where the room is)
            self.unit("nginx")
        if sorted(read_json(self.places.front("rooms.json"), list)) != self.places.rooms():
            self.add("rooms.json and /etc/fileroom name different rooms", FRONT_REMEDY)
        self.listening(read(self.places.at(LISTEN)))
        behind = self.places.at(BEHIND)
        if os.path.lexists(behind) and not stat.S_ISSOCK(os.lstat(behind).st_mode):
            self.add(f"{behind} is no socket, so nginx hands on no request to a room",
                     f"mv {behind} {behind}.other; systemctl restart nginx")

    def listening(self, text):
        clear = [it for it in re.findall(r"(?m)^\s*listen (.*);", text) if " ssl" not in it]
        outside = [it for it in clear if not it.startswith(("127.", "[::1]", "unix:"))]
        for it in outside:
            self.add(f"the front takes unencrypted connections from elsewhere ({it})", "fileroom-admin tls CERT KEY")
        if any(it.startswith(f"127.0.0.1:{CLEAR}") for it in clear):
            self.others_there()
        if " ssl" in text:
            if os.path.lexists(self.places.at(DEFAULT_SITE)):
                self.add("Debian's default site answers everybody at port 80, and logs whatever is sent to it",
                         f"rm /{DEFAULT_SITE}; systemctl reload nginx")
            cert = self.places.front("tls/cert.pem")
            if said("openssl", "x509", "-noout", "-checkend", str(DAYS_LEFT * 86400), "-in", cert)[0]:
                has_ended = said("openssl", "x509", "-noout", "-checkend", "0", "-in", cert)[0]
                self.add(f"the certificate {'has expired' if has_ended else 'expires'}: {end_of(cert)}",
                         "fileroom-admin tls, with a new one (docs/RUNNING.md, HTTPS)")
            if "PRIVATE KEY" in read(cert):  # (as versions before put it there, where it stood in the file CERT)
                self.add(f"{cert} has a private key, which any user of this machine can read",
                         "fileroom-admin tls, with a new key and its certificate")
            self.mode(self.places.front("tls/key.pem"), OTHERS, "chmod 600")

    def others_there(self):
        """Whoever has the port while nginx is down keeps it from starting. (fileroom.nft lets nobody answer there.)"""
        for table in "tcp", "tcp6":
            rows = [it.split() for it in read(self.places.at(f"proc/net/{table}"), "").splitlines()[1:]]
            for uid in sorted({it[7] for it in rows if it[3] == LISTENS and it[1].endswith(f":{CLEAR:04X}")} - {"0"}):
                self.add(f"a program of the user with the number {uid} has the front's port, {CLEAR}",
                         f"ss -ltnp 'sport = :{CLEAR}' names it: end it; systemctl restart nginx")

    def passwords(self):
        users = self.places.front("users")
        self.mode(users, stat.S_IRWXO | stat.S_IWGRP, "chmod 640")
        if self.places.is_machine and grp.getgrgid(os.stat(users).st_gid).gr_name != WORKERS:
            self.add(f"{users} does not belong to the group of nginx's workers", f"chgrp {WORKERS} {users}")
        if os.path.exists(self.places.at(LOGINS)):
            self.mode(self.places.at(LOGINS), OTHERS & ~stat.S_IRGRP, "chmod 640")
        self.mode(os.path.dirname(self.places.at(CHANGES)), OTHERS & ~stat.S_IXGRP, "chmod 710")
        known = {user for room in self.places.rooms() for user in now.users(self.places, room)}
        for it in sorted({*rosters.logins_of(read(users))} - known):
            self.add(f"{it} has a login but is in no roster", f"fileroom-admin user add ROOM {it}")

    def mode(self, path, not_these, remedy):
        if stat.S_IMODE(os.stat(path).st_mode) & not_these:
            self.add(f"{path} has permissions that are too open", f"{remedy} {path}")

    def room(self, room):
        places = self.places
        self.mode(places.roster(room), stat.S_IWGRP | stat.S_IWOTH, "chmod go-w")
        self.part(self.page_copy, room, places.roster(room))
        if any(read(places.front(f"{it}/{room}.conf"), "") != of_room(name, room) for it, name in OF_ROOM.items()):
            self.add(f"{room}: its part of the front is not as it should be", FRONT_REMEDY)
        if places.has_standby(room):
            self.standby(room)
        if self.is_here(room):
            self.mode(places.state(room), OTHERS, "chmod 700")
            self.owner(places.file(room))
            self.memory(room)
            self.part(self.answering, room)
        self.running(room)
        units = [] if places.has_standby(room) else [f"fileroom@{room}", f"fileroom-proxy@{room}.socket"]
        for unit in *units, f"fileroom-backup@{room}.timer", f"fileroom-try@{room}.timer":
            self.unit(unit)

    def page_copy(self, room, roster):
        if read(self.places.front(f"rooms/{room}.users.json"), "") != rosters.page_copy(read(roster), roster):
            self.add(f"{room}: the page's roster differs from the room's", FRONT_REMEDY)

    def answering(self, room):
        """(Where nothing listens for it, its units are found.)"""
        fault = alive.trouble(self.places, room)
        if fault:
            self.add(fault, "docs/RUNNING.md, A room that takes no request")

    def unit(self, name):
        if said("systemctl", "is-active", "-q", name)[0]:
            self.add(f"{name} is not running", f"systemctl enable --now {name}; journalctl -u {name} shows why")

    def running(self, room):
        """(It is looked at twice: what has just begun is systemd's own program yet.)"""
        unit = self.places.unit(room)
        if all(runs_other(unit, pause) for pause in (0, 1)):
            self.add(f"{room}: its process does not run the installed program", f"systemctl restart {unit}")

    def is_here(self, room):
        """(A room with a standby is where its volume is mounted.)"""
        return not self.places.has_standby(room) or os.path.ismount(self.places.state(room))

    def standby(self, room):
        if said("systemctl", "is-active", "-q", f"fileroom@{room}")[0] == 0:
            self.add(f"fileroom@{room} runs though the room has a standby", f"systemctl disable --now fileroom@{room}")
        if said_before(f"standby-{room}", "fileroom-standby", "check", room)[0]:
            self.add(f"{room}: its standby is not as it must be", f"fileroom-standby check {room}")

    def memory(self, room):
        """(As it opens its file the program holds the largest table, and the file may be that one table.)"""
        limit, size = paces.memory_of(self.places.unit(room)), paces.size_of(self.places.state(room))
        days = paces.of_memory(self.places, room)
        if limit and size > limit * FULL or days is not None and days < DAYS:
            pace = "" if days is None else f", and at the pace of the last days does not start again in {days:.0f} days"
            self.add(f"{room}: its file has {size >> 20} MiB, its unit {limit >> 20} MiB of memory to hold it{pace}",
                     "give the machine more memory (docs/RUNNING.md, Memory, has other ways); "
                     f"fileroom-admin log {room} shows who writes so much")
        elif limit and size * OF_LISTS > limit:
            self.note(f"{room}: if long lists fill its file of {size >> 20} MiB, its start takes more than the "
                      f"{limit >> 20} MiB of memory of its unit", "docs/RUNNING.md, Memory, has more")

    def numbers(self, room):
        """(The program counts them, and `fileroom-backup` writes down the count.)"""
        folder, names = self.places.backups(room), self.places.copies(room)
        used, left = paces.of_numbers(folder, names)
        if used > USED or left is not None and left < DAYS:
            days = "" if left is None else f", and at the pace of the last days the others last {left:.0f} days"
            self.add(f"{room}: of the {paces.NUMBERS:,} numbers that it has for objects, {used:,} are used{days}",
                     f"fileroom-admin room renew {room}; fileroom-admin log {room} shows who makes so many")

    def held(self, room):
        for user, since in warned.held_in(self.places, room).items():
            when = time.strftime("%Y-%m-%dT%H:%M", time.localtime(since))
            lets_go = f"fileroom-admin user release {room} {user}"
            if is_by_hand(self.places, room, user):
                self.add(f"{room}: {user} is held since {when}, by hand, or as `user remove --to` left something",
                         f"{lets_go}; or call that again")
                continue
            self.add(f"{room}: {user} is held since {when}, for asking more in a day than the bound of this login",
                     f"fileroom-admin log {room} --user {user} shows what; {lets_go}; "
                     f"fileroom-admin bound {room} many --user {user}")

    def counted(self):
        """(Who has set no bound is not asked to have fail2ban.)"""
        rooms = [it for it in self.places.rooms() if Bounds(self.places).are_set(it)]
        told = said_before("fail2ban", "fail2ban-client", "status")[1] if rooms else ""
        lacking = {*JAILS} - {*re.findall(r"[\w-]+", told)}
        if rooms and lacking:
            self.add(f"{', '.join(rooms)}: bounds are set, and nobody is held at them: fail2ban has no jail "
                     f"{', '.join(sorted(lacking))}", "docs/RUNNING.md, What a login may ask in a day, has the lines; "
                     "journalctl -u fail2ban shows why it does not run")

    def owner(self, path):
        """(A room's process that was taken over can make it a link, to what is root's.)"""
        if not self.places.is_machine:
            return
        owner = pwd.getpwuid(os.lstat(path).st_uid).pw_name
        if owner != "fileroom":
            self.add(f"{path} belongs to {owner}", f"chown -h fileroom:fileroom {path}")

    def wall(self):
        if said("nft", "list", "table", "inet", "fileroom")[0]:
            self.add("the rules of fileroom.nft are not active",
                     "systemctl enable fileroom-ports; systemctl restart fileroom-ports")

    def webdav(self):
        """(Where no room has it, nothing is looked for.)"""
        rooms = dav.rooms_of(self.places)
        for name, text in dav.files_of(rooms).items():
            if read(self.places.front(name), "") != text:
                self.add(f"/etc/nginx/fileroom/{name} is not from the installed version", FRONT_REMEDY)
        for room in {*rooms} - {*self.places.rooms()}:
            self.add(f"{dav.LIST} names {room}, and there is no such room", FRONT_REMEDY)
        if not rooms:
            return
        if dav.lacks_parts():
            self.add("the gateway of WebDAV lacks a package", dav.PACKAGES)
        self.unit(dav.SOCKET)
        if not said("systemctl", "is-failed", "-q", dav.SERVICE)[0]:
            self.add(f"{dav.SERVICE} has failed", f"journalctl -u {dav.SERVICE} shows why")
        self.mode(self.places.at(dav.MEETING), stat.S_IRWXO | stat.S_IWGRP, "chmod 750")

    def directory(self):
        """(Where none is asked, nothing is looked for.)"""
        if not signin.is_on(self.places):
            return
        if read(self.places.front(signin.FRONT), "") != sample("signin.conf"):
            self.add(f"/etc/nginx/fileroom/{signin.FRONT} is not from the installed version", FRONT_REMEDY)
        if signin.lacks_parts():
            self.add("the sign-in service lacks a package", signin.PACKAGES)
        self.unit(signin.SOCKET)
        if not said("systemctl", "is-failed", "-q", signin.SERVICE)[0]:
            self.add(f"{signin.SERVICE} has failed", f"journalctl -u {signin.SERVICE} shows why")
        for text, remedy in signin.faults(self.places):
            self.add(text, remedy)

    def synced(self):
        """(Where no directory gives the roster, nothing is looked for.)"""
        conf = self.places.at(ROSTER_CONF)
        if not os.path.exists(conf):
            return
        self.mode(conf, OTHERS, "chmod 600")
        self.unit(f"{BY_DIRECTORY}.timer")
        if not said("systemctl", "is-failed", "-q", f"{BY_DIRECTORY}.service")[0]:
            self.add("users are not as the directory has them: the last sync failed, or was refused",
                     f"journalctl -u {BY_DIRECTORY} says why; docs/RUNNING.md, Users from a directory")

    def backup(self, room, hours):
        names = self.places.copies(room)
        if not said("systemctl", "is-failed", "-q", f"fileroom-backup@{room}.service")[0]:
            self.add(f"{room}: its last backup failed", f"journalctl -u fileroom-backup@{room} says why")
        if not names:
            self.add(f"{room} has no backup", f"systemctl start fileroom-backup@{room}")
            return
        age = age_of(max(names))
        if age < 0:
            self.add(f"{room}: the backup {max(names)} is {TO_COME}",
                     f"move it away from {self.places.backups(room)}; or, if that is its time, correct the clock")
        if age > hours * 3600:
            self.add(f"{room}: the latest backup is {age / 3600:.0f} hours old",
                     f"journalctl -u fileroom-backup@{room} says why")

    def trial(self, room):
        """(The first backups have had no week yet.)"""
        folder, week = self.places.backups(room), TRIED_DAYS * 86400
        names = self.places.copies(room)
        tried = os.path.join(folder, ".tried")
        age = time.time() - os.lstat(tried if os.path.exists(tried) else os.path.join(folder, min(names))).st_mtime \
            if names else 0
        if not said("systemctl", "is-failed", "-q", f"fileroom-try@{room}.service")[0] or age > week:
            self.add(f"{room}: the latest backup was not restored as a trial", f"systemctl start fileroom-try@{room}; "
                     f"journalctl -u fileroom-try@{room} shows why")

    def backup_of_front(self, hours):
        folder = self.places.at("var/backups/fileroom-front")
        names = [it for it in (os.listdir(folder) if os.path.isdir(folder) else []) if it.endswith(".tar.gz")]
        made = [os.stat(os.path.join(folder, it)).st_mtime for it in names]
        if not made or time.time() - max(made) > hours * 3600:
            self.add("the front has no backup of the last day", f"fileroom-backup --front {folder}")

    def disk_of_logs(self):
        """Where it is another one than those of rooms and backups."""
        folder = os.path.dirname(self.places.at(CHANGES))
        if os.path.isdir(folder) and not any(paces.is_on(it, os.stat(folder).st_dev) for it in self.places.disks()):
            self.disk(folder, ": while it is full, the log of changes lacks what is done, and no bound counts it")

    def disk(self, folder, more=""):
        if os.path.isdir(folder):
            it = shutil.disk_usage(folder)
            if it.free < min(ROOM_LEFT, it.total / 10):
                self.add(f"the disk of {folder} has {it.free >> 20} MiB free{more}", "delete what is not needed")
            days = paces.of_disk(self.places, folder)
            if days is not None and days < DAYS:
                self.add(f"the disk of {folder}, at the pace of the last days, has no space for rooms and backups in "
                         f"{days:.0f} days",
                         "delete what is not needed, or keep fewer backups (man fileroom-backup, KEEP)")


def runs_other(unit, pause):
    """Whether its process has other bytes than the installed program, after so many seconds."""
    time.sleep(pause)
    installed = sum_in(os.path.join(PREFIX, "bin/fileroom"))
    pid = re.search(r"(?m)^MainPID=([1-9]\d*)$", said("systemctl", "show", "--property=MainPID", unit)[1])
    return bool(installed and pid) and sum_in(f"/proc/{pid[1]}/exe") not in (None, installed)


def template_of(unit):
    return re.sub(r"@.*\.", "@.", unit)


def look(it, hours):
    """Fills the findings. (A machine where nothing has begun lacks a room alone.)"""
    places = it.places
    has_begun = bool(places.rooms()) or os.path.exists(places.front("rooms.json"))
    of_front = [it.front, it.passwords, it.wall, it.webdav, it.directory, it.synced]
    for task in it.programs, it.installed, *(of_front if has_begun else []):
        it.part(task)
    if not places.rooms():
        it.add("there is no room", "fileroom-admin room add NAME OWNER GROUP, or room import FILE")
    it.part(it.counted)
    for room in places.rooms():
        it.part(it.room, room)
        it.part(it.held, room)
        if it.is_here(room):
            it.part(it.backup, room, hours)
            it.part(it.trial, room)
            it.part(it.numbers, room)
    if has_begun and (not places.rooms() or any(map(it.is_here, places.rooms()))):
        it.part(it.backup_of_front, hours)
    for folder in places.disks():
        it.part(it.disk, folder)
    it.part(it.disk_of_logs)


def check(places, hours, say):
    """Says each finding, or that there is none, and notes. The exit status."""
    it = Findings(places)
    look(it, hours)
    for text, remedy in it.found + it.notes:
        say(f"{text}\n    {remedy}")
    if not it.found:
        say(f"no problems found; rooms checked: {', '.join(places.rooms())}")
    return 1 if it.found else 0
