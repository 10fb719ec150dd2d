"""WebDAV with systemd itself: a room gets it, its units, and what a program in the gateway's place could do."""
import contextlib
import grp
import json
import os
import pwd

from mallory import READS, REACH
from nginx import login
from served import Line, message, text_of

FOLDER = "/var/lib/fileroom-dav"
PACKAGE = "/root/fileroom_1.0_amd64.deb"
GATEWAY, MEETING = "/run/fileroom-dav/gateway.sock", "/run/fileroom-front/dav.sock"
PROBE = READS + """
def writes(path):
    try:
        return bool(open(path, "x"))
    except OSError:
        return False
def told(at, *fields):
    try:
        it = socket.socket(socket.AF_UNIX if isinstance(at, str) else socket.AF_INET)
        it.settimeout(5)
        it.connect(at)
        it.sendall(b"\\r\\n".join([b"GET /rooms/plans/v1/sessions/x HTTP/1.1", b"host: x", *fields, b"", b""]))
        return it.recv(12).decode()
    except OSError:
        return "refused"
places = ["/var/lib/fileroom", "/var/lib/fileroom/plans/room.db", "/var/backups", "/etc/nginx/fileroom/users",
          "/etc/fileroom", "/run/fileroom", "/root", *glob.glob("/proc/*/root/etc/nginx/fileroom")]
open("/var/lib/fileroom-dav/probe", "w").write(json.dumps({
    "sees": [it for it in places if reads(it)],
    "run": [os.path.join(top, it) for top, _, names in os.walk("/run") for it in names],
    "writes": [it for it in ("/etc/probe", "/run/probe", "/run/fileroom-front/probe") if writes(it)],
    "reaches": [told(it) for it in (("127.0.0.1", 8001), ("127.0.0.1", 8080), "/run/fileroom/plans.sock")],
    "front": [told("/run/fileroom-front/dav.sock"), told("/run/fileroom-front/dav.sock", b"room-user: ann")]}))
os.kill(-1, 19)  # (SIGSTOP, to all of the same user's)
open("/var/lib/fileroom-dav/probe", "w").write("it sent a signal")
"""
FOUND = {"sees": [], "run": [MEETING], "writes": [], "reaches": ["refused"] * 3,
         "front": ["HTTP/1.1 401"] * 2}


class Scene:
    """`it` is the module of the scenes."""

    def __init__(self, it):
        self.it, self.tally = it, it.tally

    def ask(self, method, path, body=b""):
        """The status, through the front, as ann."""
        fields = ["host: 127.0.0.1:8080", login("ann", self.it.PASSWORDS["ann"]), "depth: 0", "connection: close"]
        with contextlib.suppress(OSError), contextlib.closing(Line(self.it.FRONT)) as line:
            line.send(message(None, method, path, body, fields=fields))
            return line.to_end()[9:12].decode()
        return "none"

    def is_there(self, what):
        """A document goes into the room and comes out of it."""
        path = f"/dav/plans/by-{what}"
        self.it.until(lambda: self.ask("PROPFIND", "/dav/plans/") == "207", f"WebDAV, {what}")
        self.tally.differs(f"put and got, {what}", [self.ask("PUT", path, b"x"), self.ask("GET", path)], ["201", "200"])

    def play(self):
        for step in self.turned_on, self.reached_by_others, self.looked_round, self.killed, self.turned_off:
            step()
        self.it.must("fileroom-admin", "dav", "on", "plans")
        self.is_there("on-again")
        self.reinstalled()

    def reinstalled(self):
        """(Where a package is installed that is there yet.)"""
        if self.it.said("dpkg", "--status", "fileroom")[0] == 0 and os.path.exists(PACKAGE):
            self.it.must("dpkg", "-r", "fileroom")
            self.tally.differs("it ends with the package", self.it.state("fileroom-dav.socket"), "inactive")
            self.it.must("dpkg", "-i", PACKAGE)
            self.is_there("reinstalled")

    def turned_on(self):
        self.tally.differs("before", [self.it.state(f"fileroom-dav.{it}") for it in ("socket", "service")],
                           ["inactive"] * 2)
        self.it.must("fileroom-admin", "dav", "on", "plans")
        self.is_there("on")
        self.tally.differs("the other room", self.ask("PROPFIND", "/dav/club/"), "404")

    def reached_by_others(self):
        for user in "mallory", "nobody", "www-data":
            group = grp.getgrgid(pwd.getpwnam(user).pw_gid).gr_name
            for at in GATEWAY, MEETING, FOLDER:
                words = ["ls", at] if at == FOLDER else ["python3", "-c", REACH, at]
                status, told = self.it.said(*self.it.as_user(user, group, *words))
                self.tally.differs(f"{user} at {at}", told == "refused" or status != 0, True)

    def looked_round(self):
        """A program in the place of the gateway's own."""
        self.it.write("/usr/local/share/probe.py", PROBE)
        line = "[Service]\nRestart=no\nExecStart=\nExecStart=/usr/bin/python3 /usr/local/share/probe.py\n"
        with self.it.drop_ins({"fileroom-dav.service": line}):
            self.it.must("systemctl", "restart", "fileroom-dav.service")
            self.it.until(lambda: self.it.state("fileroom-dav.service") != "active", "the probe ends")
            self.it.must("systemctl", "stop", "fileroom-dav.socket", "fileroom-dav.service")
        probe = os.path.join(FOLDER, "probe")
        text = text_of(probe) if os.path.exists(probe) else "it wrote nothing"
        self.tally.differs("what it found", json.loads(text) if text[:1] == "{" else text, FOUND)
        self.it.must("systemctl", "reset-failed", "fileroom-dav.service")
        self.it.must("systemctl", "start", "fileroom-dav.socket")
        self.is_there("probed")

    def killed(self):
        self.it.must("systemctl", "kill", "--signal=KILL", "fileroom-dav")
        self.is_there("killed")
        self.it.must("systemctl", "kill", "--signal=KILL", "nginx")
        self.tally.differs("what a killed nginx left", os.path.exists(MEETING), True)
        self.it.must("systemctl", "restart", "nginx")
        self.is_there("nginx-killed")

    def turned_off(self):
        self.it.must("fileroom-admin", "dav", "off", "plans")
        self.tally.differs("off", [self.it.state(f"fileroom-dav.{it}") for it in ("socket", "service")],
                           ["inactive"] * 2)
        self.it.until(lambda: self.ask("PROPFIND", "/dav/plans/") == "405", "it is gone")
        self.tally.differs("its socket", os.path.exists(MEETING), False)
