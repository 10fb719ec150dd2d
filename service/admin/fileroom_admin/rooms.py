"""Rooms: a new one, a list of all, a backup of one as it is now, and new numbers for its objects."""
import os
import subprocess
import time

from . import now, owned, people, rosters
from .asking import answers
from .changes import Change
from .front import address, put_front, put_room
from .places import Fault, read, said

FRESH = 3600  # seconds: a backup that is older was not made for this
PATIENCE = 120  # seconds in which a large room has read its file again


def room_add(call, room, owner, group):
    places = call.places
    rosters.need_room_name(room)
    rosters.need_name(owner, "the owner")
    rosters.need_name(group, "the group")
    if room in places.rooms() or any(map(os.path.lexists, places.files(room))):
        raise Fault(f"the room {room} already exists")
    need_no_copies(places, room)
    people.need_no_twins(places, {room: {owner: [group]}})
    change = Change(places)
    put_front(change)
    people.put_roster(change, room, read(places.roster(room), "[users]\n"), {owner: [group]})
    change.room = room, owner, group
    put_room(change, room)
    drawn = people.draw(change, owner)
    change.happen(lambda: people.tell_password(call, owner, drawn, (
        f"the room {room} is served, and backed up each night")))
    people.trash_for(call, room, owner)


def need_no_copies(places, room):
    """(The latest would tell what is in this room, and whether it is backed up.)"""
    if places.copies(room):
        raise Fault(f"{places.backups(room).rstrip('/')} has backups of a room of before, which would count as this "
                    "room's: move that folder away first")


def room_list(call):
    """Each room: whether it is served, size, users, latest backup and how many there are, where it answers, and the
    program's version. And where people find them."""
    places = call.places
    version = said(places.program, "--version")[1].split()[-1:]
    for room in places.rooms():
        copies = places.copies(room)
        size = sum(os.stat(it).st_size for it in places.files(room) if os.path.exists(it))
        its = [room, "served" if now.is_served(places, room) else "not served", f"{size / (1 << 20):.2f} MiB",
               f"{len(now.users(places, room))} users", f"backup {max(copies, default='never')}, {len(copies)} kept"]
        call.say("  ".join([*its, places.socket(room), *version]))
    if where := address(places):
        call.say(where)


def back_up(places, room):
    """(It takes as long as it takes. On another root than / the latest one is taken.)"""
    if places.is_machine:
        done = subprocess.run(["systemctl", "start", f"fileroom-backup@{room}"], check=False)
        if done.returncode:
            raise Fault(f"there is no backup: journalctl -u fileroom-backup@{room}")
        name = owned.latest(places, room)
        if owned.age_of(name) < 0:
            raise Fault(f"the backup {name} of {room} is {owned.TO_COME}: move it away, or correct the clock")
        if owned.age_of(name) > FRESH:
            raise Fault(f"the backup of {room} that was made is not there")


def until_answers(places, room):
    end, path = time.monotonic() + PATIENCE, places.socket(room)
    while os.path.exists(path) and now.is_served(places, room):
        if answers(path):
            return
        if time.monotonic() > end:
            raise Fault(f"all is changed, and the room {room} does not answer yet: journalctl -u {places.unit(room)}")
        time.sleep(0.1)


def room_renew(call, room):
    """New numbers for its objects, while it rests: those of what was removed can be used again. (A stop leaves the
    old room or the new one, and the next call goes on.)"""
    places, unit = call.places, call.places.unit(room)
    now.need_room(places, room)
    need_no_standby(places, room)
    back_up(places, room)
    start, change = ("systemctl", "start", unit) if now.is_served(places, room) else ("true",), Change(places)
    change.then("systemctl", "stop", unit, undo=start)
    change.then("renew", room, undo=("true",))
    change.then(*start, undo=("true",))
    told = change.happen()[1]
    until_answers(places, room)
    call.say(f"{room}: {told}")


def need_no_standby(places, room):
    if places.has_standby(room):
        raise Fault(f"{room} has a standby: bring it back to one machine first (man fileroom-standby)")
