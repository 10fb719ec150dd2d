"""How many days what a room needs lasts, as its backups of the last days grew: numbers for objects, memory, disks.

A pace is None where it is not known, or nothing was used; so is what lasts then."""
import contextlib
import os
import re
import shutil

from .owned import made_at
from .places import said

NUMBERS = 1_000_000  # that a room has for objects
PACE_DAYS = 8  # over which a pace is taken
LEAST = 0.5  # days that tell something
KEPT = 30  # backups, where KEEP is not set: each is a copy of the room
A_BACKUP = 2  # so much of a room's size has to be free where it is backed up
FAR = 400  # days on which nobody counts
DAY = 86400


def unlinked(path, flags):
    return os.open(path, flags | os.O_NOFOLLOW | os.O_NONBLOCK)


def text_in(path):
    """The beginning of a file of somebody else's, or nothing."""
    with contextlib.suppress(OSError), open(path, "rb", opener=unlinked) as file:
        return file.read(40).decode(errors="replace").strip()
    return ""


def count_in(path):
    text = text_in(path)
    return int(text) if re.fullmatch("[0-9]{1,9}", text) else 0


def size_of(folder):
    paths = [os.path.join(folder, it) for it in ("room.db", "room.db-wal")]
    return sum(os.lstat(it).st_size for it in paths if os.path.exists(it))


def of_numbers(folder, names):
    """How many numbers a room has used, by its latest backup that tells it, or 0; and how many days the others last.
    (A room that was renewed begins anew.)"""
    counts = [(made_at(it), count_in(os.path.join(folder, it, "numbers"))) for it in names]
    counts = [(when, used) for when, used in counts if used]
    if not counts:
        return 0, None
    now, used = counts[-1]
    since = [it for it in counts if it[0] >= now - PACE_DAYS * DAY]
    begin = max((at for at in range(1, len(since)) if since[at][1] < since[at - 1][1]), default=0)
    days, more = (now - since[begin][0]) / DAY, used - since[begin][1]
    return used, max(NUMBERS - used, 0) * days / more if more and days > LEAST else None


def growth_of(places, room):
    """Bytes a day."""
    folder, names = places.backups(room), places.copies(room)
    first = next((it for it in names if made_at(it) > made_at(names[-1]) - PACE_DAYS * DAY), None)
    days = (made_at(names[-1]) - made_at(first)) / DAY if first else 0
    if days <= LEAST:
        return None
    return (size_of(os.path.join(folder, names[-1])) - size_of(os.path.join(folder, first))) / days


def memory_of(unit):
    told = re.search(r"(?m)^MemoryMax=(\d+)$", said("systemctl", "show", "--property=MemoryMax", unit)[1])
    return int(told[1]) if told else None


def of_memory(places, room):
    """Until the room's file is as large as its unit's memory, which its start takes."""
    limit, growth = memory_of(places.unit(room)), growth_of(places, room)
    if not limit or not growth or growth < 0:
        return None
    return max(limit - size_of(places.state(room)), 0) / growth


def kept_by(room):
    told = said("systemctl", "show", "--property=Environment", f"fileroom-backup@{room}.service")[1]
    found = re.search(r"\bKEEP=([0-9]{1,6})\b", told)
    return int(found[1]) if found else KEPT


class Room:
    """What a room and its backups take of a disk, day by day."""

    def __init__(self, places, room, disk):
        folder = places.backups(room)
        self.growth = max(growth_of(places, room) or 0, 0)
        self.is_here, self.is_backed_up = is_on(places.state(room), disk), is_on(folder, disk)
        self.sizes = [size_of(os.path.join(folder, it)) for it in places.copies(room)]
        self.size, self.most = (self.sizes or [0])[-1], kept_by(room)

    def a_day_more(self):
        """How much they take more of the disk then."""
        self.size += self.growth
        taken = self.growth * self.is_here
        if self.is_backed_up and self.sizes:
            self.sizes.append(self.size)
            taken += self.size - (self.sizes.pop(0) if len(self.sizes) > self.most else 0)
        return taken

    def needed(self):
        return A_BACKUP * self.size * self.is_backed_up


def of_disk(places, folder):
    """Until the disk of a folder has no space for rooms and backups any more."""
    disk, free = os.stat(folder).st_dev, shutil.disk_usage(folder).free
    rooms = [Room(places, it, disk) for it in places.rooms()]
    for day in range(FAR):
        if free < max([it.needed() for it in rooms], default=0):
            return day
        free -= sum(it.a_day_more() for it in rooms)
    return None


def is_on(folder, disk):
    return os.path.isdir(folder) and os.stat(folder).st_dev == disk
