"""The gateway of WebDAV under a limit of memory, while some logins ask it for as much as they can.

Each login asks 16 at once, in turn for a whole document of 16 MiB, for 200 properties of 200 things, and for the first
byte of that document. Another user saves by a rename over a file meanwhile, as programs do, and downloads it. The unit
is not killed, nobody else is told 502, and nothing half is left.
"""
import base64
import collections
import contextlib
import http.client
import os
import re
import statistics
import threading
import time

LIMIT, AT_ONCE, SECONDS = 256, 16, 60  # MiB of the unit, requests of a login, and how long
LARGE, SIZE, THINGS = "/dav/plans/pressed/large", 1 << 24, 200
MANY, SAVES = "/dav/plans/pressed/many/", "/dav/plans/pressed/saves/"
NEVER = {"502", "504", "none"}  # is told to who saves: 429 and 503 are, and he comes again
PROPERTIES = ('<?xml version="1.0"?><propfind xmlns="DAV:"><prop xmlns:x="urn:x">'
              + "".join(f"<x:p{it}/>" for it in range(200)) + "</prop></propfind>").encode()
ASKED = (("GET", LARGE, b"", {}), ("PROPFIND", MANY, PROPERTIES, {"Depth": "1"}),
         ("GET", LARGE, b"", {"Range": "bytes=0-0"}))
CONTROLLER = "/sys/fs/cgroup/memory"  # where the machine has version 1 of the groups
TOPS = CONTROLLER, "/sys/fs/cgroup"
EVERYONE = {"flag": 3, "mask": 0x1F07FF, "type": 0, "who": "EVERYONE@"}


class Asker:
    """A login. Each request has a connection of its own."""

    def __init__(self, port, user, password):
        self.port = port
        self.fields = {"Authorization": "Basic " + base64.b64encode(f"{user}:{password}".encode()).decode(),
                       "Connection": "close"}

    def ask(self, method, path, body=b"", fields=()):
        """The status and the body, or `none` where it was cut."""
        with contextlib.closing(http.client.HTTPConnection("127.0.0.1", self.port, timeout=60)) as line:
            try:
                line.request(method, path, body, {**self.fields, **dict(fields)})
                got = line.getresponse()
                return str(got.status), got.read()
            except (OSError, http.client.HTTPException):
                return "none", b""


class Presser:
    """One login that asks, round after round, until it is told to end."""

    def __init__(self, port, user, password, ended):
        self.askers = [Asker(port, user, password) for _ in range(AT_ONCE)]
        self.ended, self.told = ended, collections.Counter()

    def play(self):
        while not self.ended.is_set():
            for method, path, body, fields in ASKED:
                threads = [threading.Thread(target=self.once, args=(it, method, path, body, fields))
                           for it in self.askers]
                for it in threads:
                    it.start()
                for it in threads:
                    it.join()

    def once(self, asker, *asked):
        self.told[f"{asked[0]} {asker.ask(*asked)[0]}"] += 1


class Saver:
    """Somebody else, who saves and downloads until all ends."""

    def __init__(self, asker, ended):
        self.asker, self.ended, self.statuses, self.seconds, self.wrong = asker, ended, collections.Counter(), [], []
        self.number, self.last, self.unsure = 0, asker.ask("GET", f"{SAVES}report")[1], set()

    def play(self):
        while not self.ended.is_set():
            since = time.monotonic()
            self.statuses[self.saves(), self.downloads()] += 1
            self.seconds.append(time.monotonic() - since)

    def saves(self):
        """What is written beside the document is moved over it. (What was not told can be done, or not.)"""
        self.number += 1
        text = b"%d" % self.number
        put = self.asker.ask("PUT", f"{SAVES}report.new", text)[0]
        if put not in ("201", "204"):
            return put, "-"
        to = {"Destination": f"{SAVES}report", "Overwrite": "T"}
        move = self.asker.ask("MOVE", f"{SAVES}report.new", b"", to)[0]
        if move in ("201", "204"):
            self.last, self.unsure = text, set()
        elif move in NEVER:
            self.unsure.add(text)
        return put, move

    def downloads(self):
        status, text = self.asker.ask("GET", f"{SAVES}report")
        if status == "200" and text != self.last and text not in self.unsure:
            self.wrong.append((text, self.last))
        return status


class Scene:
    """`it` is the module of the scenes."""

    def __init__(self, it):
        self.it, self.tally = it, it.tally

    def play(self):
        it = self.it
        it.must("fileroom-admin", "dav", "on", "plans")
        for user in "eve", "mia", "sue", "tom":
            it.PASSWORDS[user] = it.must("fileroom-admin", "-q", "user", "add", "plans", user, "eng")
        it.seconds_until_served()
        self.fill()
        self.bound()
        with it.drop_ins({"fileroom-dav.service": f"[Service]\nMemoryMax={LIMIT}M\nMemorySwapMax=0\n"}):
            for logins in ["eve"], ["eve", "mia", "sue"]:
                self.pressed(logins)
        it.must("systemctl", "restart", "fileroom-dav.service")

    def asker(self, user):
        return Asker(self.it.FRONT, user, self.it.PASSWORDS[user])

    def fill(self):
        ann, asker = self.it.caller(), self.asker("ann")
        ann.open()
        for path in "/pressed", "/pressed/many", "/pressed/saves":
            ann.slot({"cmd": "MKDIR", "path": path})
            ann.slot({"cmd": "SETLIST", "path": path, "aclflag": 0, "entries": [EVERYONE]})
        for number in range(THINGS):
            ann.slot({"cmd": "CREATE", "path": f"/pressed/many/{number}", "data": ""})
        self.it.until(lambda: asker.ask("PROPFIND", MANY, b"", {"Depth": "0"})[0] == "207", "WebDAV")
        self.tally.differs("the large one", asker.ask("PUT", LARGE, os.urandom(SIZE))[0], "201")
        self.tally.differs("the report", asker.ask("PUT", f"{SAVES}report", b"first")[0], "201")

    def bound(self):
        """A booted machine has its groups of version 1 to read; systemd writes in them where it may. Of version 1 it
        knows no limit of swap: what begins from now on is not swapped out."""
        if os.path.isdir(CONTROLLER):
            self.it.must("mount", "-o", "remount,rw,bind", CONTROLLER)
            self.it.write(f"{CONTROLLER}/memory.swappiness", "0")
            self.it.must("systemctl", "daemon-reexec")

    def group(self, *names):
        """A number of the unit's group of memory, by either version's name; 0 while it has none."""
        for path in (f"{top}/system.slice/fileroom-dav.service/{it}" for top in TOPS for it in names):
            with contextlib.suppress(FileNotFoundError), open(path, encoding="utf-8") as file:
                return int(file.read())
        return 0

    def killed(self):
        """How often the unit was, since it was started by hand."""
        return int(self.it.must("systemctl", "show", "--value", "--property=NRestarts", "fileroom-dav.service"))

    def pressed(self, logins):
        it, ended, what = self.it, threading.Event(), f"{len(logins)} logins"
        it.must("systemctl", "restart", "fileroom-dav.service")
        it.until(lambda: self.asker("ann").ask("PROPFIND", MANY, b"", {"Depth": "0"})[0] == "207", "WebDAV, bounded")
        limit = self.group("memory.limit_in_bytes", "memory.max")
        self.tally.differs(f"the limit, {what}", limit, LIMIT << 20)
        saver = Saver(self.asker("tom"), ended)
        pressers = [Presser(it.FRONT, user, it.PASSWORDS[user], ended) for user in logins]
        threads = [self.tally.thread(f"{what}: {one}", one.play) for one in (saver, *pressers)]
        peaks = self.peaks(threads, ended)
        told = sum((one.told for one in pressers), collections.Counter())
        print(f"machine: WebDAV pressed by {what}: memory.peak {max(peaks) >> 20} MiB of {LIMIT}, killed "
              f"{self.killed()} times; they were told {dict(sorted(told.items()))}", flush=True)
        print(f"machine: a save and a download took {statistics.median(saver.seconds):.2f} s, at most "
              f"{max(saver.seconds):.2f}; answers {dict(saver.statuses)}", flush=True)
        self.is_well(saver, what)

    def peaks(self, threads, ended):
        """The unit's peak as it is seen each second, while all of them are at it. (It begins anew with the unit.)"""
        for one in threads:
            one.start()
        end, found = time.monotonic() + SECONDS, [0]
        while time.monotonic() < end:
            time.sleep(1)
            found.append(self.group("memory.max_usage_in_bytes", "memory.peak"))
        ended.set()
        for one in threads:
            one.join(300)
        return found

    def is_well(self, saver, what):
        self.tally.differs(f"killed, {what}", self.killed(), 0)
        told = {word for (save, down) in saver.statuses for word in (*save, down)}
        self.tally.differs(f"another user is told, {what}", told & NEVER, set())
        self.tally.differs(f"what was downloaded and never saved, {what}", saver.wrong[:3], [])
        self.it.until(lambda: saver.saves()[1] == "204", f"a save, {what}")
        self.tally.differs(f"what is there, {what}", saver.asker.ask("GET", f"{SAVES}report"), ("200", saver.last))
        text = self.asker("ann").ask("PROPFIND", SAVES, b"", {"Depth": "1"})[1].decode()
        names = sorted(re.findall(rf"{SAVES}([^<]+)<", text))
        self.tally.differs(f"what is left, {what}", names, ["report"])
