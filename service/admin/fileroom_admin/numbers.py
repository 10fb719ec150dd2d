"""Numbers for a monitor: `fileroom-admin check --prometheus`, as Prometheus' node exporter reads them from a file."""
import datetime
import json
import os
import re
import shutil
import time

from . import alive, now, paces, warned
from .front import end_of
from .looking import Findings, look
from .owned import age_of, latest
from .places import LISTEN, Fault, read, said_before

WINDOW = 600  # seconds of the front's log that are counted
TAIL = 8 << 20  # bytes of it that are read at most
LINE = re.compile(rb'\S+ - \S* \[([^\]]+)\] "[A-Z]+ /rooms/([A-Za-z0-9_-]+)/v1/[^"]*" (\d)\d\d .* ([\d.]+)$')
ABOUT = {
    "up": "whether the room takes a request, which it writes down",
    "room_bytes": "size of the room's file and log",
    "room_growth_bytes_per_day": "by its backups of the last days",
    "memory_limit_bytes": "of the room's unit: its file has to fit it",
    "memory_left_days": "until it does not, and the room does not start again, as it grew in the last days",
    "numbers_used": "of the 1,000,000 numbers that the room has for objects, by its latest backup",
    "numbers_left_days": "until they end, as they were used in the last days",
    "users": "users of the roster",
    "held": "logins that only read, by their bound of a day or by hand",
    "backups": "backups that are kept",
    "backup_age_seconds": "since the latest backup",
    "restore_age_seconds": "since a backup was restored and served, as a trial",
    "standby_whole": "whether another machine could take the room over",
    "answers": "answers of the room in the last ten minutes, by the hundred of their status",
    "answer_seconds": "how long these took",
    "disk_free_bytes": "free on the disk of this folder",
    "disk_left_days": "until it has no space for rooms and backups, as they grew in the last days",
    "certificate_seconds": "until the certificate ends",
    "findings": "what fileroom-admin check finds",
}


class Numbers:
    def __init__(self, places):
        self.places, self.found = places, {it: [] for it in ABOUT}

    def add(self, name, value, **labels):
        if value is not None:
            words = ",".join(f"{key}={json.dumps(its, ensure_ascii=False)}" for key, its in labels.items())
            self.found[name].append(f"fileroom_{name}{{{words}}} {value:.10g}" if words else
                                    f"fileroom_{name} {value:.10g}")

    def text(self):
        lines = []
        for name, samples in self.found.items():
            if samples:
                lines += [f"# HELP fileroom_{name} {ABOUT[name]}", f"# TYPE fileroom_{name} gauge", *samples]
        return "\n".join(lines) + "\n"

    def room(self, room):
        places = self.places
        is_here = not places.has_standby(room) or os.path.ismount(places.state(room))
        if places.has_standby(room):
            is_whole = not said_before(f"standby-{room}", "fileroom-standby", "check", room)[0]
            self.add("standby_whole", is_whole, room=room)
        self.add("held", len(warned.held_in(places, room)), room=room)
        self.add("users", len(now.users(places, room)), room=room)
        if is_here:
            self.add("up", is_up(places, room), room=room)
            self.add("room_bytes", paces.size_of(places.state(room)), room=room)
            self.add("memory_limit_bytes", paces.memory_of(places.unit(room)), room=room)
            self.add("memory_left_days", paces.of_memory(places, room), room=room)
        self.backups(room)

    def backups(self, room):
        folder = self.places.backups(room)
        names = self.places.copies(room)
        self.add("backups", len(names), room=room)
        if not names:
            return
        used, left = paces.of_numbers(folder, names)
        self.add("numbers_used", used or None, room=room)
        self.add("numbers_left_days", left, room=room)
        self.add("backup_age_seconds", age_of(latest(self.places, room)), room=room)
        tried = os.path.join(folder, ".tried")
        if os.path.exists(tried):
            self.add("restore_age_seconds", time.time() - os.lstat(tried).st_mtime, room=room)
        self.add("room_growth_bytes_per_day", paces.growth_of(self.places, room), room=room)

    def front(self):
        found, rooms = {}, {*self.places.rooms()}
        for line in lines_of_front(self.places.at("var/log/nginx/access.log")):
            its = LINE.match(line)
            if its and its[2].decode() in rooms and time.time() - logged_at(its[1]) < WINDOW:
                found.setdefault((its[2].decode(), its[3].decode()), []).append(float(its[4]))
        for (room, hundred), seconds in sorted(found.items()):
            self.add("answers", len(seconds), room=room, kind=f"{hundred}xx")
        for room in sorted({it for it, _ in found}):
            seconds = sorted(one for (its, _), some in found.items() if its == room for one in some)
            for share in 0.5, 0.9, 0.99:
                self.add("answer_seconds", seconds[int(share * (len(seconds) - 1))], room=room, quantile=str(share))

    def machine(self, findings):
        for folder in *self.places.disks(), self.places.at("var/log"):
            if os.path.isdir(folder):
                self.add("disk_free_bytes", shutil.disk_usage(folder).free, folder=folder)
                self.add("disk_left_days", paces.of_disk(self.places, folder), folder=folder)
        if " ssl" in read(self.places.at(LISTEN), ""):
            end = datetime.datetime.strptime(end_of(self.places.front("tls/cert.pem")), "%b %d %H:%M:%S %Y %Z")
            self.add("certificate_seconds", end.replace(tzinfo=datetime.timezone.utc).timestamp() - time.time())
        self.add("findings", len(findings.found))


def is_up(places, room):
    return os.path.exists(places.socket(room)) and not alive.fault_of(places, room)


def lines_of_front(path):
    """The last ones of the front's log, and of the one before."""
    for it in f"{path}.1", path:
        if os.path.exists(it):
            with open(it, "rb") as file:
                file.seek(max(0, os.fstat(file.fileno()).st_size - TAIL))
                yield from file.read(TAIL).splitlines()


def logged_at(text):
    try:
        return datetime.datetime.strptime(text.decode(), "%d/%b/%Y:%H:%M:%S %z").timestamp()
    except ValueError:
        return 0


def told(places, hours):
    """All of them; what cannot be had is left out, and is one of the findings."""
    findings, it = Findings(places), Numbers(places)
    look(findings, hours)
    for task in (*((it.room, room) for room in places.rooms()), (it.front,), (it.machine, findings)):
        try:
            task[0](*task[1:])
        except (Fault, OSError, ValueError):
            continue
    return it.text()
