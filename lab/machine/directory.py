"""A school whose people stand in a directory, Debian's slapd, by the lines of RUNNING: the timer's service brings them
into two rooms, and they log in by the directory's passwords, at the front and by WebDAV."""
import json
import os
import socket

import authority
import typed
from clients import Caller
from nginx import login
from people import samples
from served import message, one_answer, text_of
from slapd import BIND, GROUPS, People

SERVER, FOLDER = "ldap.school.example", "/root/directory"
TEACHERS, PUPILS = ("tea", "tim", "leo", "lou"), tuple(f"p{it}" for it in range(1, 69))
LEAVERS, COMERS = PUPILS[8:], tuple(f"n{it}" for it in range(1, 61))  # at the end of the year, and then: sixty each
MEMBERS = {"All Teachers": TEACHERS, "All Pupils": PUPILS, "Office": ("tea", "tim")}
WORDS = {it: f"word of {it}" for it in (*TEACHERS, *PUPILS, *COMERS)}
ROOMS = {"lessons": [*TEACHERS, *PUPILS], "office": ["tea", "tim"]}
CONF = """servers = ["ldaps://ldap.school.example"]
users = "ou=people,dc=school,dc=example"
groups = "ou=groups,dc=school,dc=example"
[rooms.lessons]
"All Teachers" = "teachers"
"All Pupils" = "pupils"
[rooms.office]
Office = "staff"
[local.lessons]
ann = ["eng"]
[local.office]
ann = ["eng"]
"""
ROSTER_CONF, EDITS = "/etc/fileroom/roster.conf", "editor "
SOCKET, SERVICE = "fileroom-signin.socket", "fileroom-signin.service"
SYNC, TIMER = "fileroom-roster.service", "fileroom-roster.timer"
NUMBERS = "/var/lib/prometheus/node-exporter/fileroom.prom"
OUT = 100  # seconds after which a password that was right is not kept any more
ALL, CHANGE = 0x1F07FF, 0x1301EF  # rights
EVERYONE = [{"flag": 3, "mask": ALL, "type": 0, "who": it} for it in ("OWNER@", "EVERYONE@")]
PROBE = """
import glob, json, os, sys
def reads(path):
    try:
        return bool(os.listdir(path) if os.path.isdir(path) else open(path, "rb").read(1))
    except OSError:
        return False
places = ["/var/lib/fileroom", "/var/lib/fileroom-dav", "/var/backups", "/var/log", "/etc/fileroom", "/run/fileroom",
          "/etc/nginx/fileroom/users", "/etc/nginx/fileroom/signin/directory.toml", "/etc/nginx/fileroom/tls", "/root",
          *glob.glob("/proc/*/root/etc/nginx/fileroom/users")]
found = {"sees": [it for it in places if reads(it)], "rooms": reads("/etc/nginx/fileroom/rooms"),
         "conf": reads(os.environ["CREDENTIALS_DIRECTORY"] + "/directory.toml"), "user": os.getuid() > 60000}
print("probe " + json.dumps(found), flush=True)
"""
FOUND = {"sees": [], "rooms": True, "conf": True, "user": True}


def groups():
    lines = [f"dn: {GROUPS}", "objectClass: organizationalUnit", ""]
    for name, its in MEMBERS.items():
        members = [f"member: {BIND.format(it)}" for it in its]
        lines += [f"dn: cn={name},{GROUPS}", "objectClass: groupOfNames", *members, ""]
    return "\n".join(lines)


class Scene:
    """`it` is the module of what scenes share."""

    def __init__(self, it, unpacked):
        self.it, self.tally = it, it.tally
        self.shell = typed.Shell(unpacked, HOME="/root")

    def play(self):
        for step in (self.begin, self.users_come, self.turned_on, self.logged_in, self.looked_round, self.handed_over,
                     self.many_leave, self.gone, self.away, self.turned_off, self.end):
            step()

    def begin(self):
        """The directory, which this machine trusts, and two rooms where ann is the owner."""
        self.people = People(FOLDER, WORDS, [f"DNS:{SERVER}", "IP:127.0.0.1"], 636, groups(), days=60)
        authority.write("/etc/hosts", f"127.0.0.1 {SERVER}\n", "a")
        self.it.must("install", "-m", "644", self.people.ca, f"{authority.TRUSTED}/directory.crt")
        self.it.must("update-ca-certificates")
        for room in ROOMS:
            self.it.must("fileroom-admin", "room", "add", room, "ann", "eng")
            self.it.seconds_until_served(room)
            ann = self.caller("ann", room)
            ann.slot({"cmd": "SETLIST", "path": "/", "aclflag": 0, "entries": EVERYONE})
        self.it.must("fileroom-admin", "dav", "on", "lessons")

    def lines(self, heading, *begins):
        """RUNNING's lines that begin so, of a part of `heading`."""
        found = [line for line, _ in typed.commands(self.it.TOP, "docs/RUNNING.md", heading)]
        return [line for line in found if line.startswith(begins)]

    def does(self, lines, many):
        self.tally.differs("lines", len(lines), many)
        for line in lines:
            if line.startswith(EDITS):
                self.it.write(ROSTER_CONF, CONF)
                continue
            status, told = self.shell.does(line)
            self.tally.differs(f"{line}: {told}", status, 0)

    # Asking.

    def caller(self, user, room):
        self.it.PASSWORDS.update(WORDS)
        its = Caller(lambda *words: self.it.once_known(*words, user, room), os.urandom(16).hex())
        its.open()
        return its

    def status(self, user, word=None, method="GET", path="/whoami"):
        fields = ["host: 127.0.0.1:8080", login(user, word or WORDS.get(user) or self.it.PASSWORDS[user]), "depth: 0"]
        got = one_answer(self.it.FRONT, message(None, method, path, b"", fields=fields))
        return got and got.status

    def each(self, *logins):
        return [self.status(*(it if isinstance(it, tuple) else (it,))) for it in logins]

    def users(self, room):
        told = self.it.must("fileroom-admin", "user", "list", "--csv", room).splitlines()
        return sorted(it.partition(",")[0] for it in told[1:])

    def check(self):
        return self.it.said("fileroom-admin", "check")

    def journal(self, unit):
        self.it.must("journalctl", "--sync")
        return self.it.must("journalctl", "--no-pager", "--boot", "--output=cat", f"--unit={unit}")

    # The steps.

    def users_come(self):
        """By hand they are looked at; by the timer they come."""
        self.does(self.lines("The roster", "F=", "install ", EDITS, "$F/", "fileroom-admin ", "systemctl "), 6)
        self.synced()
        for room, its in ROOMS.items():
            self.tally.differs(f"who is in {room}", self.users(room), sorted(["ann", *its]))
        self.tally.differs("the table is away", os.path.exists("/run/fileroom-roster"), False)

    def synced(self, result="success"):
        with self.it.drop_ins({TIMER: self.it.SOON_BY_TIMER}):
            before = self.began()
            self.it.must("systemctl", "restart", TIMER)
            self.it.until(lambda: self.began() != before, "the timer has them synced")
            self.it.until(lambda: self.it.state(SYNC) != "activating", "the sync ends", 4 * self.it.SOON)
        self.it.must("systemctl", "restart", TIMER)
        got = self.it.must("systemctl", "show", "--value", "--property=Result", SYNC)
        self.tally.differs(f"the sync: {self.journal(SYNC)[-600:] if got != result else ''}", got, result)

    def began(self):
        return self.it.must("systemctl", "show", "--value", "--property=ExecMainStartTimestampMonotonic", SYNC)

    def turned_on(self):
        self.tally.differs("before", self.each("tea", "ann"), [401, 200])
        self.does(self.lines("The front", "fileroom-admin signin on ldap"), 1)
        self.it.until(lambda: self.status("tea") == 200, "the front asks the directory")
        status, told = self.it.said("fileroom-admin", "signin", "check")
        self.tally.differs(f"signin check: {told}", (status, f"{SERVER}:636 answers" in told), (0, True))
        status, told = self.check()
        self.tally.differs(f"check: {told}", "director" in told, False)

    def logged_in(self):
        """At the front, in each room, and by WebDAV; nobody else, and who has a password of this machine."""
        self.tally.differs("everyone", {*self.each(*ROOMS["lessons"])}, {200})
        others = ("p1", "wrong"), ("P1", "word of p1"), COMERS[0], "ann"
        self.tally.differs("others", self.each(*others), [401, 401, 401, 200])
        for user, room in ("p1", "lessons"), ("tim", "office"):
            got = self.caller(user, room).slot({"cmd": "MKDIR", "path": f"/of-{user}"})
            self.tally.differs(f"{user} in {room}", got.body, b'{"code":0}')
        dav = ("p1", None, "PROPFIND", "/dav/lessons/"), ("p1", "none", "PROPFIND", "/dav/lessons/")
        self.it.until(lambda: self.each(*dav) == [207, 401], "WebDAV")
        self.tally.differs("made by WebDAV", self.each(("p1", None, "MKCOL", "/dav/lessons/by-dav")), [201])

    def looked_round(self):
        """A program in the place of the service's own sees the rooms' users, and its conf."""
        self.it.write("/usr/local/share/probe.py", PROBE)
        line = "/usr/bin/python3 /usr/local/share/probe.py"
        with self.it.drop_ins({SERVICE: f"[Service]\nRestart=no\nExecStart=\nExecStart={line}\n"}):
            self.it.must("systemctl", "restart", SERVICE)
            self.it.until(lambda: self.it.state(SERVICE) != "active", "the probe ends")
            self.it.must("systemctl", "stop", SOCKET, SERVICE)
        told = [it for it in self.journal(SERVICE).splitlines() if it.startswith("probe ")]
        self.tally.differs("what it found", json.loads(told[-1][6:]) if told else "nothing", FOUND)
        self.it.must("systemctl", "reset-failed", SERVICE)
        self.it.must("systemctl", "start", SOCKET)
        self.it.until(lambda: self.status("tim") == 200, "the service is there again")

    def handed_over(self):
        """What leo has, before he goes; what lou has, once the directory took her."""
        for user in "leo", "lou":
            self.caller(user, "lessons").slot({"cmd": "MKDIR", "path": f"/of-{user}"})
        told = self.it.must("fileroom-admin", "user", "remove", "--all", "--to", "tea", "leo")
        self.tally.differs(f"leo's: {told}", self.owner("/of-leo"), "tea")
        for user in "leo", "lou":
            self.people.leaves(user, "All Teachers")
        self.it.must("systemctl", "start", "fileroom-backup@lessons")
        self.synced()
        told = [it for it in self.journal(SYNC).splitlines() if "lou owns " in it]
        self.tally.differs("lou's are told", len(told), 1)
        self.it.until(lambda: self.each("leo", "lou") == [401, 401], "both are out")
        self.it.must("fileroom-admin", "user", "add", "lessons", "lou", "teachers")
        told = self.it.must("fileroom-admin", "user", "remove", "--all", "--to", "tea", "lou")
        self.tally.differs(f"lou's: {told}", self.owner("/of-lou"), "tea")

    def many_leave(self):
        """By hand, while the timer rests, so that what they own is handed over, and others come. One of them keeps a
        thing by its list, and stays until that is mended."""
        for user in LEAVERS:
            self.caller(user, "lessons").slot({"cmd": "MKDIR", "path": f"/of-{user}"})
        kept, stays = f"/of-{LEAVERS[0]}", LEAVERS[0]
        self.sets_list(stays, kept, CHANGE)
        self.it.must("systemctl", "stop", TIMER)
        for user in LEAVERS:
            self.people.leaves(user, "All Pupils")
        for user in COMERS:
            self.people.comes(user, "All Pupils")
        reads, takes = (it.replace("--dry-run", "--many --to ann") for it in self.lines(
            "The roster", "$F/", "fileroom-admin "))
        self.does([reads], 1)
        status, told = self.shell.does(takes)
        said = f"fileroom-admin: {stays} stays a user, and is held: not all was handed over in lessons."
        self.tally.differs(f"one stays: {told}", (status, told[-1].startswith(said)), (1, True))
        why = f"lessons: {kept} is still {stays}'s: its list gives {stays} no write-owner"
        self.tally.differs("why is told", why in told, True)
        self.have_come(stays)
        self.it.must("fileroom-admin", "user", "release", "lessons", stays)
        self.sets_list(stays, kept, ALL)
        self.does([reads, takes], 2)
        self.it.must("systemctl", "start", TIMER)
        self.have_come()
        self.tally.differs("it is handed over", self.owner(kept), "ann")

    def sets_list(self, user, path, mask):
        entries = [{"flag": 0, "mask": mask, "type": 0, "who": "EVERYONE@"}]
        got = self.caller(user, "lessons").slot({"cmd": "SETLIST", "path": path, "aclflag": 2, "entries": entries})
        self.tally.differs(f"the list of {path}", got.body, b'{"code":0}')

    def have_come(self, *stay):
        """Who is new is there, who left is out, and what they had is ann's."""
        gone = [it for it in LEAVERS if it not in stay]
        self.tally.differs("who is in lessons", self.users("lessons"), sorted([
            "ann", "tea", "tim", *PUPILS[:8], *COMERS, *stay]))
        ann = self.caller("ann", "lessons")  # (each login opens a few sessions a minute)
        owners = {json.loads(ann.slot({"cmd": "STAT", "path": f"/of-{it}"}).body).get("owner") for it in gone}
        self.tally.differs("theirs", owners, {"ann"})
        self.it.until(lambda: self.each(gone[0], gone[-1]) == [401, 401], "they are out")
        self.tally.differs("others are in", {*self.each(*COMERS)}, {200})
        got = self.caller(COMERS[0], "lessons").slot({"cmd": "MKDIR", "path": f"/of-{COMERS[0]}-{len(stay)}"})
        self.tally.differs("and make something", got.body, b'{"code":0}')

    def owner(self, path):
        return json.loads(self.caller("ann", "lessons").slot({"cmd": "STAT", "path": path}).body).get("owner")

    def gone(self):
        """Who is no entry of the directory any more, before the next sync and after it."""
        self.people.changes("p8")
        self.it.until(lambda: self.status("p8") == 401, "p8 is out", OUT)
        self.tally.differs("a user yet", "p8" in self.users("lessons"), True)
        self.synced()
        self.tally.differs("and no more", "p8" in self.users("lessons"), False)

    def away(self):
        """It is told, nobody goes, and who has a password of this machine goes on."""
        self.tally.differs("p2", self.status("p2"), 200)
        self.people.stop()
        begin = self.journal(SERVICE)
        self.tally.differs("meanwhile", self.each("p2", "p3", "ann", ("p4", None, "PROPFIND", "/dav/lessons/")),
                           [200, 503, 200, 503])
        self.tally.differs("it is told why", "refused" in self.journal(SERVICE)[len(begin):], True)
        said = f"server ldaps://{SERVER}:636 does not answer"
        for words in ["signin", "check"], ["check"]:
            status, told = self.it.said("fileroom-admin", *words)
            self.tally.differs(f"{words}: {told}", (status, said in told), (1, True))
        self.monitored()
        self.synced("exit-code")
        self.tally.differs("the last sync is told", "the last sync failed" in self.check()[1], True)
        left = ["ann", "tea", "tim", *PUPILS[:7], *COMERS]
        self.tally.differs("who is in lessons", self.users("lessons"), sorted(left))
        self.people.start()
        self.it.until(lambda: self.status("p3") == 200, "it is there again")
        self.synced()
        self.tally.differs("check", "director" in self.check()[1], False)

    def monitored(self):
        """The unit of the numbers, which may reach no other machine itself, counts what `check` finds."""
        os.makedirs(os.path.dirname(NUMBERS), exist_ok=True)
        self.it.must("systemctl", "start", "fileroom-metrics")
        by_hand = self.it.must("fileroom-admin", "check", "--prometheus")
        self.tally.differs("what root has by hand", samples(text_of(NUMBERS)), samples(by_hand))

    def turned_off(self):
        self.it.must("fileroom-admin", "signin", "off")
        self.it.until(lambda: self.status("p3") == 401, "no directory is asked")
        self.tally.differs("its units", [self.it.state(it) for it in (SOCKET, SERVICE)], ["inactive"] * 2)
        with socket.socket(socket.AF_UNIX) as line:
            self.tally.differs("its socket", line.connect_ex("/run/fileroom-signin/check.sock") == 0, False)
        self.tally.differs("ann", self.status("ann"), 200)

    def end(self):
        self.it.must("systemctl", "disable", "--now", TIMER)
        os.remove(ROSTER_CONF)
        self.it.must("fileroom-admin", "dav", "off", "lessons")
        for room in ROOMS:
            self.it.must("fileroom-admin", "room", "remove", room)
        self.people.stop()
