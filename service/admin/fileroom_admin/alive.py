"""Whether a room takes requests: by one that uses up a number of a slot, and so is written down, as each of people's.
Its session, and which number was the last, stand in a file, since each session takes a row of the room for good."""
import contextlib
import fcntl
import functools
import json
import os
import re
import secrets
import shutil
import time

from room_client.slots import UNCACHED

from . import now, paces
from .asking import Patience, Session
from .front import end_of
from .places import LISTEN, Fault, read, said

FOLDER = "var/lib/fileroom-watch"
WAIT, SOON = 10, 2  # seconds that a room may take, and where its disk is full, since all rooms are asked in turn
LITTLE = 1 << 20  # bytes of a disk that is full
FAILED = "d9b373ed55a64feb8242e02dbe79a49c"  # systemd's message that a unit failed, which says by what
LATELY = "-5min"
LOOK = {"cmd": "ACCESS", "mask": 1, "path": "/", "keep": False}  # which needs no right


class Own(Session):
    """A session that goes on from call to call."""

    def looks(self):
        """The code of its answer. (The last number may have been used by a call that could not write that down.)"""
        if self.opened["code"]:
            return self.opened["code"]
        code = UNCACHED  # (as the last request has it, where it is sent again)
        for _ in range(2):
            if code == UNCACHED:
                self.number += 1
                code = self.send("POST", f"{self.target}/slots/0/{self.number}", LOOK)["code"]
        return code


@functools.cache
def fault_of(places, room):
    """Why the room takes no request, in words; or nothing, where it does. (`check` and numbers ask it once.)"""
    users = now.users(places, room)
    if not users:
        return None
    try:
        with kept(places, room) as its:
            its.update({} if its else fresh(users))
            if looked(places, room, its):
                its.update(fresh(users))
                code = looked(places, room, its)
                return f"{room} refuses a request that needs no right ({code})" if code else None
    except Fault:
        return f"{room} takes no request: {why(places, room)}"
    return None


def looked(places, room, its):
    patience = Patience(SOON if is_full(places, room) else WAIT)
    session = Own(places.socket(room), its["user"], patience, its["session"], its["number"])
    code = session.looks()
    its["number"] = session.number
    return code


def fresh(users):
    return {"user": next(iter(users)), "session": secrets.token_hex(16), "number": 0}


@contextlib.contextmanager
def kept(places, room):
    """What the file has, for one call at a time; and what it has then. (On a full disk it stays as it was.)"""
    folder = places.at(FOLDER)
    os.makedirs(folder, 0o700, exist_ok=True)
    with open(os.open(os.path.join(folder, f"{room}.json"), os.O_RDWR | os.O_CREAT, 0o600), "r+b") as file:
        fcntl.flock(file, fcntl.LOCK_EX)
        try:
            its = json.loads(file.read() or b"{}")
        except ValueError:
            its = {}
        yield its
        with contextlib.suppress(OSError):
            os.pwrite(file.fileno(), json.dumps(its).encode().ljust(200), 0)


def is_full(places, room):
    with contextlib.suppress(OSError):  # (one that is not there)
        return shutil.disk_usage(places.state(room)).free < LITTLE
    return False


def why(places, room):
    if is_full(places, room):
        return f"the disk of {places.state(room)} is full; nobody can read either until there is space"
    unit = places.unit(room)
    if failed_by(unit) == "oom-kill":
        limit, size = paces.memory_of(unit) or 0, paces.size_of(places.state(room))
        return f"its program was killed for want of memory: the file has {size >> 20} MiB, the unit {limit >> 20} MiB"
    if said("systemctl", "is-active", "-q", unit)[0] or began_anew(unit):
        return f"its program does not run: journalctl -u {unit} says why"
    return "its program runs, and says DELAY, or nothing: memory may be short, or the disk may fail"


def failed_by(unit):
    """What ended its program last, if that was lately. (systemctl shows it until the next start alone, and systemd
    starts a room again a second later.)"""
    shows = "--quiet", "--lines=1", f"--since={LATELY}", "--output=cat", "--output-fields=UNIT_RESULT"
    return said("journalctl", *shows, "_PID=1", f"MESSAGE_ID={FAILED}", f"UNIT={unit}.service")[1]


def began_anew(unit):
    """Whether its program ended and was started again while the room was asked, as one that never stays."""
    began = re.search("(?m)^ActiveEnterTimestampMonotonic=([0-9]+)$", said(
        "systemctl", "show", "--property=ActiveEnterTimestampMonotonic", unit)[1])
    return bool(began) and time.monotonic() - int(began[1]) / 1e6 < WAIT


def trouble(places, room):
    """The same of a room that is to be served here, and does not rest for its backup."""
    is_here = os.path.exists(places.socket(room))
    rests = is_here and said("systemctl", "is-active", f"fileroom-backup@{room}.service")[1] == "activating"
    return fault_of(places, room) if is_here and not rests else None


def or_why_not(places, room):
    """The same, or why it cannot be asked."""
    try:
        return trouble(places, room)
    except (Fault, OSError) as fault:
        return str(fault)


def has_ended(places):
    """That the front's certificate did: no browser or client that looks at it goes on."""
    cert = places.front("tls/cert.pem")
    if " ssl" not in read(places.at(LISTEN), "") or not said(
            "openssl", "x509", "-noout", "-checkend", "0", "-in", cert)[0]:
        return None
    return f"the front's certificate has expired: {end_of(cert)}; fileroom-admin tls, with a new one, replaces it"


def is_down(places):
    """That nginx is, by which people reach the rooms. (Where it was killed, Debian's unit does not start it again.)"""
    is_served = any(os.path.exists(places.socket(it)) for it in places.rooms())
    if not is_served or not said("systemctl", "is-active", "-q", "nginx")[0]:
        return None
    return "nothing reaches a room: nginx is not running: systemctl start nginx; journalctl -u nginx shows why"


def watch(places, say):
    """Says of each room that takes no request why, and if no room can be reached by people; its unit brings that to the
    journal. The status."""
    faults = [*filter(None, (is_down(places), has_ended(places), *(or_why_not(places, it) for it in places.rooms())))]
    for it in faults:
        say(it)
    return 1 if faults else 0
