"""The log of the latest changes, from which the page has its dates, with systemd itself: a room that begins notes its
file there, logrotate's timer turns it over, and nginx begins it anew."""
import itertools
import json
import os

from nginx import login
from served import message, one_answer, text_of

LOG = "/var/log/fileroom/latest.log"
DB = "/var/lib/fileroom/plans/room.db"
LARGE = 3 << 20  # bytes: more than logrotate leaves alone
OTHERS = '{"slot":"elsewhere/0","filled":"' + "x" * 900 + '"}\n'  # a line of another room


class Scene:
    """`it` is the module of what scenes share."""

    def __init__(self, it):
        self.it, self.tally, self.ann = it, it.tally, it.caller()

    def play(self):
        self.it.must("fileroom-admin", "dav", "on", "plans")
        self.ann.open()
        for step in self.noted, self.turned_over, self.of_another_file, self.begun_anew:
            step()
        self.it.must("fileroom-admin", "dav", "off", "plans")

    def makes(self, name):
        self.tally.differs(f"/{name}", self.ann.slot({"cmd": "MKDIR", "path": f"/{name}"}).status, 200)

    def told(self):
        """Whose changes the page is told, by name; or the status."""
        fields = ["host: 127.0.0.1:8080", login("ann", self.it.PASSWORDS["ann"])]
        got = one_answer(self.it.FRONT, message(None, "GET", "/dav/plans/?latest", b"", fields=fields))
        if not got or got.status != 200:
            return got and got.status
        return {name: its[0] for name, its in json.loads(got.body).items() if name.startswith("dated")}

    def tells(self, *names, when):
        """(The line of a change comes behind its answer; a worker of before may answer once.)"""
        want = dict.fromkeys(names, "ann")
        self.it.until(lambda: self.told() == want, f"{names} are dated, {when}, and not {self.told()}")

    def noted_file(self):
        """Of which file the room was when it last began, by the log."""
        lines = [json.loads(it) for it in text_of(LOG).splitlines() if it.startswith('{"slot":"plans/","file"')]
        return lines[-1]["file"] if lines else None

    def file(self):
        return self.it.must("stat", "-c", "%i %W", DB)

    def noted(self):
        self.it.must("systemctl", "restart", "fileroom@plans")
        self.it.seconds_until_served()
        self.tally.differs("the file that it began with", self.noted_file(), self.file())
        self.makes("dated-1")
        self.tells("dated-1", when="at once")
        self.it.must("systemctl", "restart", "fileroom@plans")
        self.it.seconds_until_served()
        self.tells("dated-1", when="of the same file")

    def turned_over(self):
        """By the timer of logrotate, in its sandbox; nginx goes on in the new one."""
        with open(LOG, "a", encoding="utf-8") as file:
            file.write(OTHERS * (LARGE // len(OTHERS)))
        self.makes("dated-2")
        self.tells("dated-2", when="before it is turned over")
        every = self.it.must("systemctl", "show", "--value", "--property=TimersCalendar", "logrotate.timer")
        self.tally.differs(f"each hour: {every}", "OnCalendar=*-*-* *:00:00 " in every, True)
        with self.it.drop_ins({"logrotate.timer": self.it.SOON_BY_TIMER}):
            self.it.must("systemctl", "restart", "logrotate.timer")
            self.it.until(lambda: os.path.exists(f"{LOG}.1"), "the timer has it turned over")
            self.it.until(lambda: self.it.state("logrotate") != "activating", "logrotate ends")
            result = self.it.must("systemctl", "show", "--value", "--property=Result", "logrotate")
            self.tally.differs("logrotate", result, "success")
        self.it.must("systemctl", "restart", "logrotate.timer")
        for user, path in itertools.product(("mallory", "www-data"), (LOG, f"{LOG}.1")):
            words = self.it.as_user(user, user, "cat", path)
            self.tally.differs(f"{user} reads {path}", self.it.said(*words)[0] == 0, False)
        self.makes("dated-3")
        self.tells("dated-2", "dated-3", when="by both logs")
        self.tally.differs("it is in the new one", "/dated-3" in text_of(LOG), True)

    def of_another_file(self):
        """As after a restore."""
        self.it.must("systemctl", "stop", "fileroom@plans")
        self.it.must("cp", "--archive", DB, f"{DB}.copy")
        self.it.must("mv", f"{DB}.copy", DB)
        self.it.must("systemctl", "start", "fileroom@plans")
        self.it.seconds_until_served()
        self.tally.differs("another file", self.noted_file(), self.file())
        self.tells(when="of another file")
        self.makes("dated-4")
        self.tells("dated-4", when="since then")

    def begun_anew(self):
        """A halt may have cut the lines of what the room did: none outlives nginx."""
        self.tally.differs("before", "/dated" in text_of(LOG) and os.path.exists(f"{LOG}.1"), True)
        self.it.must("systemctl", "restart", "nginx")
        self.it.seconds_until_served()
        self.tally.differs("what there was", "/dated" in text_of(LOG) or os.path.exists(f"{LOG}.1"), False)
        self.tells(when="of a new nginx")
        self.makes("dated-5")
        self.tells("dated-5", when="by a new nginx")
