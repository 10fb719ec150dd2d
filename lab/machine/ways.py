"""What the scenes share, on the machine that they have: its commands, its rooms as ann asks them through the front, and
who else is there.

Each scene asks through the front, as ann, and puts all back as it was.
"""
import contextlib
import os
import subprocess
import time

import served
import typed
from clients import SHARED, Caller, Client, SharedTally, look
from nginx import login
from served import message, one_answer, put_file as write, text_of

TOP = os.path.dirname(os.path.dirname(os.path.dirname(os.path.abspath(__file__))))
UNPACKED = "/root/unpacked"
PORT = 8001  # of rooms, in their networks
FRONT = 8080
SOON = 90  # seconds in which a room is there again, on a busy machine
SOON_BY_TIMER = "[Timer]\nOnCalendar=\nRandomizedDelaySec=0\nAccuracySec=1s\nOnActiveSec=3\n"
PASSWORDS = {}  # of users, by name
tally = SharedTally()


def said(*words, **how):
    """The status, and all that a command says."""
    done = subprocess.run(words, stdout=subprocess.PIPE, stderr=subprocess.STDOUT, text=True, **how)
    return done.returncode, done.stdout.strip()


def must(*words):
    status, told = said(*words)
    tally.need(status == 0, f"{' '.join(words)}: {told}")
    return told


def reload(units):
    """(A timer ends before, which by a reload would fire at once.)"""
    timers = [it for it in units if it.endswith(".timer")]
    if timers:
        must("systemctl", "stop", *timers)
    must("systemctl", "daemon-reload")


@contextlib.contextmanager
def drop_ins(texts):
    """While it lasts units have these lines too."""
    for unit, text in texts.items():
        os.makedirs(f"/etc/systemd/system/{unit}.d")
        write(f"/etc/systemd/system/{unit}.d/scene.conf", text)
    reload(texts)
    yield
    for unit in texts:
        os.remove(f"/etc/systemd/system/{unit}.d/scene.conf")
        os.rmdir(f"/etc/systemd/system/{unit}.d")
    reload(texts)


def until(task, what, most=SOON):
    if not served.until(task, most):
        tally.differs(what, "not", f"in {most} seconds")


def state(unit):
    return said("systemctl", "is-active", unit)[1]


def journal(room):
    """What it has of the room's program since the machine was started."""
    must("journalctl", "--sync")
    return must("journalctl", "--no-pager", "--boot", "--output=cat", f"--unit=fileroom@{room}")


def starts(room):
    """How often it was started."""
    return journal(room).count("Started ")


def backups(room):
    return set(os.listdir(f"/var/backups/fileroom/{room}"))


# Asking, as ann.

def once(method, target, body=b"", user="ann", room="plans", port=FRONT):
    """The answer to one message through the front, or None."""
    fields = ["host: 127.0.0.1:8080", login(user, PASSWORDS[user])]
    return one_answer(port, message(None, method, f"/rooms/{room}{target}", body, fields=fields))


def once_known(*words):
    """The same, once nginx knows the room: as it reads its files anew, a worker of before may take a request yet."""
    end = time.monotonic() + SOON
    while True:
        got = once(*words)
        if got and got.status != 404 or time.monotonic() > end:
            return got
        time.sleep(0.1)


def caller(room="plans"):
    return Caller(lambda *words: once(*words, room=room), os.urandom(16).hex())


def seconds_until_served(room="plans", most=SOON):
    """Until the room, and nobody else, answers."""
    begin, it = time.monotonic(), caller(room)
    while time.monotonic() < begin + most:
        got = once("POST", f"/v1/sessions/{it.sid}", {"slots": 1}, room=room)
        if got and got.body == b'{"code":0,"slots":1}':
            return time.monotonic() - begin
        time.sleep(0.1)
    tally.differs(f"the room {room} is served again", None, f"in {most} seconds")
    return most


def kill(room):
    """(One that is between two starts has no process.)"""
    said("systemctl", "kill", "--signal=KILL", f"fileroom@{room}")


class Writers:
    """Clients that write, each piece until it is answered, and send some again."""

    def __init__(self, count, pieces, first):
        self.reader = caller()
        self.reader.open()
        if first == 1:
            everyone = {"flag": 3, "mask": 0x1F07FF, "type": 0, "who": "EVERYONE@"}
            self.reader.slot({"cmd": "SETLIST", "path": "/", "aclflag": 0, "entries": [everyone]})
        with contextlib.suppress(AttributeError):
            self.reader.slot({"cmd": "REMOVE", "path": SHARED})
        self.reader.slot({"cmd": "CREATE", "path": SHARED, "data": ""})
        self.clients = [Client(once, first + n, 1, pieces) for n in range(count)]
        self.threads = [tally.thread(f"client {it.number}", it.play) for it in self.clients]
        for it in self.threads:
            it.start()

    def are_at_it(self):
        return any(it.is_alive() for it in self.threads)

    def end(self):
        for it in self.threads:
            it.join(300)
        tally.differs("what is there of their pieces", *look(self.reader, self.clients))


def as_user(user, group, *words):
    return ["setpriv", f"--reuid={user}", f"--regid={group}", "--clear-groups", *words]


def of_package(line):
    """What is done of the first day's lines where there is a package."""
    return None if line.startswith(("make ", "systemd-sysusers ")) else line


def first_day(folder=UNPACKED, as_done=lambda line: {"make install": "./install"}.get(line, line)):
    """Its lines, as they stand; apt-get has nothing to do. And another room, for those who are after it."""
    shell = typed.Shell(folder, HOME="/root")
    for line, told in typed.commands(TOP, "docs/RUNNING.md", "The first day"):
        if as_done(line) is None:
            continue
        status, lines = shell.does(as_done(line))
        tally.differs(f"the first day: {line}", (status, lines), (0, typed.as_told(lines, told)))
    PASSWORDS["ann"] = text_of("/root/.config/room-password").strip()
    must("fileroom-admin", "room", "add", "club", "ann", "eng")
    must("useradd", "mallory")


def are_as_before(*rooms):
    for room in rooms:
        seconds_until_served(room)
    is_there("/minutes", "what was there before")


def is_there(path, what):
    """In the room plans. (What is not there has status 200 too.)"""
    it = caller()
    it.open()
    tally.differs(what, it.slot({"cmd": "STAT", "path": path}).body[:9], b'{"aclflag')
