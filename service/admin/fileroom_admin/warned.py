"""What the front tells the owner of a room, and nobody else: that its numbers, memory or disk end within days, and
whose login is held.

/etc/nginx/fileroom/warnings/LOGIN.json has the rooms of that owner of which this is so: {"plans":{"numbers_days":7}}.
"""
import contextlib
import fcntl
import grp
import json
import os
import re

from . import paces, rosters
from .places import WORKERS, write

SOON = 10  # days
FOLDER, HELD = "warnings", "held"


def of_room(places, room):
    """What is soon to end, with the whole days that are left."""
    folders = [it for it in (places.state(room), places.backups(room)) if os.path.isdir(it)]
    days = {"numbers_days": [paces.of_numbers(places.backups(room), places.copies(room))[1]],
            "memory_days": [paces.of_memory(places, room)],
            "disk_days": [paces.of_disk(places, it) for it in folders]}
    least = {name: min((it for it in its if it is not None), default=SOON + 1) for name, its in days.items()}
    told = {name: int(its) for name, its in least.items() if int(its) <= SOON}
    held = [*held_in(places, room)]
    return {**told, "held": held} if held else told


def held_in(places, room):
    """Each login that is held, and since when."""
    folder, found = places.front(HELD), {}
    for name in sorted(os.listdir(folder)) if os.path.isdir(folder) else []:
        user, _, its = name.partition("@")
        with contextlib.suppress(FileNotFoundError):
            if its == room:
                found[user] = os.stat(os.path.join(folder, name)).st_mtime
    return found


def group_of_workers(places):
    return grp.getgrnam(WORKERS).gr_gid if places.is_machine else -1


def own_folder(places, folder):
    """One that nginx's workers read, and no other user of the machine."""
    os.makedirs(folder, 0o750, exist_ok=True)
    os.chown(folder, -1, group_of_workers(places))
    os.chmod(folder, 0o750)


def owner_of(places, room):
    """Whose the room's top folder is, as the latest backup says it; or nothing, where that is no login."""
    for name in places.copies(room)[-1:]:
        found = paces.text_in(os.path.join(places.backups(room), name, "owner"))
        return found if re.fullmatch(rosters.NAME, found) else None
    return None


def put(places):
    """All of them as they are now, and none of before. (One call at a time: several logins may be held at once.)"""
    folder = places.front(FOLDER)
    own_folder(places, folder)
    lock = os.open(folder, os.O_RDONLY | os.O_DIRECTORY | os.O_CLOEXEC)
    try:
        fcntl.flock(lock, fcntl.LOCK_EX)
        put_alone(places, folder)
    finally:
        os.close(lock)


def put_alone(places, folder):
    told = {}
    for room in places.rooms():
        its, owner = of_room(places, room), owner_of(places, room)
        if its and owner:
            told.setdefault(owner, {})[room] = its
    for owner, its in told.items():
        write(json.dumps(its) + "\n", os.path.join(folder, f"{owner}.json"), 0o640, group_of_workers(places))
    for name in {*os.listdir(folder)} - {f"{it}.json" for it in told}:
        with contextlib.suppress(FileNotFoundError):
            os.unlink(os.path.join(folder, name))
