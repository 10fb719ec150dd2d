"""WebDAV: which rooms have it, and what the front and the gateway need for that."""
import json
import os

from . import now
from .changes import Change
from .places import HERE, Fault, asked, read_json, said, sample

LIST = "dav.json"  # beside the front's files: the rooms that have it
SOCKET, SERVICE = "fileroom-dav.socket", "fileroom-dav.service"
MEETING = "run/fileroom-front"  # the folder where the front listens for the gateway, and nobody else comes in
NEEDS = "waitress", "defusedxml"
PACKAGES = "apt-get install " + " ".join(f"python3-{it}" for it in NEEDS)


def rooms_of(places):
    return read_json(places.front(LIST), list)


def files_of(rooms):
    """The front's files for the rooms that have it, by their names."""
    each = {f"dav/{it}.room.conf": sample("dav.conf").replace("@NAME@", it) for it in rooms}
    return each | {"dav/top.conf": sample("dav-top.conf"), "dav-proxy.conf": sample("dav-proxy.conf")} if rooms else {}


def lacks_parts():
    """Whether the gateway could not start for want of packages."""
    return said("/usr/bin/python3", "-c", f"import {', '.join(NEEDS)}")[0] != 0


def need_place(places):
    """The gateway's user, and the folder where the front listens for it. (No owners are set on another root than /.)"""
    if places.is_machine:
        asked("systemd-sysusers", os.path.join(HERE, "../../../../lib/sysusers.d/fileroom.conf"))
        asked("systemd-tmpfiles", "--create", os.path.join(HERE, "../../../../lib/tmpfiles.d/fileroom.conf"))


def tell(call):
    call.say("\n".join(rooms_of(call.places)) or "no room has WebDAV")


def turn_on(call, room):
    now.need_room(call.places, room)
    if lacks_parts():
        raise Fault(f"the gateway needs two packages: {PACKAGES}")
    need_place(call.places)
    become(call.places, sorted({*rooms_of(call.places), room}))
    call.say(f"{room} is at /dav/{room}/ for file managers")


def turn_off(call, room):
    now.need_room(call.places, room)
    become(call.places, [it for it in rooms_of(call.places) if it != room])
    call.say(f"{room} has no WebDAV")


def become(places, after):
    """The rooms that have it."""
    before, change = rooms_of(places), Change(places)
    put(change, before, after)
    change.look("nginx", "-tq")
    change.then("systemctl", "daemon-reload")
    serve(change, before, after)
    change.then(*places.read_front())
    change.happen()


def serve(change, before, after):
    """The gateway, which is there while some room has it."""
    if bool(before) != bool(after):
        here, gone = ("enable", "--now"), ("disable", "--now")
        how, back = (here, gone) if after else (gone, here)
        change.then("systemctl", *how, SOCKET, undo=("systemctl", *back, SOCKET))
    if before and not after:
        change.then("systemctl", "stop", SERVICE, undo=("true",))


def put(change, before, after):
    """The files of the front, of the rooms that have it from now on."""
    files, at = files_of(after), change.places.front
    for name in files_of(before).keys() - files.keys():
        change.remove(at(name))
    for name, text in files.items():
        change.put(at(name), text)
    if before or after:
        change.put(at(LIST), json.dumps(after) + "\n")
