"""A whole room in one tar file, with which it moves to another machine, or is kept once it is not served any more: the
room's file and log, roster, logins, display names, bounds, and the front's certificate."""
import contextlib
import json
import os
import pwd
import select
import subprocess
import tarfile
import time

from . import archives, dav, held, now, owned, people, rosters, signin
from .archives import ABOUT, BOUNDS, CERT, DB, KEY, LOG, LOGINS, NAMES, NEW_HERE, ROSTER, add, add_file, new_file
from .changes import AS_ROOMS, FOLDER, MOST_SAID, Change, begun, keep, own_folder, put_aside
from .front import put_front, put_room, tls
from .places import HERE, LISTEN, SEARCHED, Fault, asked, read, said
from .rooms import back_up, need_no_copies, need_no_standby

REMOVED = "var/backups/fileroom-removed"
LOOKED_AT = ".roster.toml"  # in the room's folder, for the program
SHARED = f"{DB}-shm"  # which sqlite3 leaves
ASIDE = f"{DB}.undone-", f"{LOG}.undone-"
NAMED = 5  # users, where there are more
LONGEST = 1800  # seconds that the rooms' user may look at a file


def room_export(call, room, path):
    """The room rests while it is copied, as for a backup, which this is too."""
    now.need_room(call.places, room)
    with new_file(path) as file:
        back_up(call.places, room)
        pack(call.places, room, file)
    call.say(f"the room {room} as it is now is in {path}; whoever has that file has its passwords' hashes, and the "
             "key of the certificate")


def pack(places, room, file):
    one, name = owned.of_backups(), owned.latest(places, room)
    users = now.users(places, room)
    logins = [it for it in now.passwords(places).splitlines() if it.partition(":")[0] in users]
    names = {user: name for user, name in now.names(places).items() if user in users}
    about = {"form": archives.FORM, "room": room, "backup": name, "dav": room in dav.rooms_of(places)}
    texts = {ABOUT: json.dumps(about), ROSTER: read(places.roster(room)),
             LOGINS: "".join(f"{it}\n" for it in logins), NAMES: json.dumps(names)}
    if room in (bounds := held.Bounds(places).set):
        texts[BOUNDS] = json.dumps(bounds[room])
    if " ssl" in read(places.at(LISTEN), ""):
        texts |= {it: read(places.front(it)) for it in (CERT, KEY)}
    with tarfile.open(fileobj=file, mode="w", format=tarfile.PAX_FORMAT) as tar:
        for member, text in texts.items():
            add(tar, member, text.encode())
        with one.closing(one.folder_at(os.path.join(places.backups(room), name))) as folder:
            for member in LOG, DB:
                with contextlib.suppress(FileNotFoundError):
                    add_file(tar, member, os.open(member, one.FILE_HERE, dir_fd=folder))


def room_remove(call, room):
    """It ends, and is kept in an archive, from which `room import` brings it back."""
    places = call.places
    now.need_room(places, room)
    need_no_standby(places, room)
    archive = places.at(REMOVED)
    os.makedirs(archive, mode=0o700, exist_ok=True)
    keep(archive)
    path = os.path.join(archive, f"{room}-{time.strftime('%Y-%m-%dT%H-%M-%SZ', time.gmtime())}.tar")
    was_served, is_packed = now.is_served(places, room), False
    try:
        asked("systemctl", "stop", places.unit(room))
        with new_file(path) as file:
            back_up(places, room)
            pack(places, room, file)
        is_packed = True
        take_out(places, room).happen()
    except BaseException:
        if room in places.rooms():  # (it stays, so the archive goes)
            if is_packed:
                os.unlink(path)
            if was_served:
                said("systemctl", "start", places.unit(room))
        raise
    call.say(f"the room {room} is not served any more; all of it is in {path}: fileroom-admin room import FILE")
    put_aside(places.state(room))
    held.let_go(places, room)
    call.say(f"its backups stay in {places.backups(room)}, and its files, renamed, in {places.state(room)}: remove "
             "them once nobody needs them")


def take_out(places, room):
    """The change after which nothing of this machine knows the room."""
    change, users = Change(places), now.users(places, room)
    for path in (places.roster(room), places.env(room), places.front(f"rooms/{room}.users.json"),
                 places.front(f"rooms/{room}.conf"), places.front(f"queues/{room}.conf")):
        change.remove(path)
    change.put(places.front("rooms.json"), json.dumps([it for it in places.rooms() if it != room]) + "\n")
    with_dav = dav.rooms_of(places)
    left = [it for it in with_dav if it != room]
    dav.put(change, with_dav, left)
    others = {user for it in places.rooms() if it != room for user in now.users(places, it)}
    people.put_passwords(change, {it: None for it in users if it not in others})
    people.put_names(change, {it: None for it in users if it not in others})
    held.Bounds(places).leave(change, room)
    change.look("nginx", "-tq")
    for it in reversed(places.started(room)):
        change.then("systemctl", "disable", "--now", it, undo=("systemctl", "enable", "--now", it))
    change.then("systemctl", "stop", f"fileroom-proxy@{room}.socket", undo=("true",))
    dav.serve(change, with_dav, left)
    change.then(*places.read_front())
    return change


def room_import(call, path, name=None, certificate=False):
    """A room that `room export` or `room remove` packed, under its name or another one."""
    places = call.places
    with archives.opened(path) as archive:
        room, roster = name or archive.room, archive.text(ROSTER)
        rosters.need_room_name(room)
        if room in places.rooms() or any(map(os.path.lexists, places.files(room))):
            raise Fault(f"the room {room} already exists (--as NAME brings it under another name)")
        if room != archive.room:  # (else they are its own)
            need_no_copies(places, room)
        if certificate and not archive.has_certificate():
            raise Fault(f"{path} has no certificate")
        users, had = rosters.users_of(roster, ROSTER), now.logins(places)
        (logins, odd), names = rosters.logins_within(archive.text(LOGINS), users), archive.names()
        bounds = archive.bounds()
        own_folder(places, places.backups().rstrip("/"))
        with begun(places, room), new_state(places, places.state(room)) as folder:
            need_space(folder, archive)
            unpack(places, archive, folder)
            look_at(places, room, roster, folder)
            put_in(places, room, roster, logins, names, bounds).happen()
        call.say(f"the room {room} is served here, with {len(users)} users, and backed up each night")
        tell_logins(call, users, had, odd)
        if bounds:
            call.say(f"its bounds came along: fileroom-admin bound {room}")
        take_certificate(call, archive, certificate)
        if archive.had_dav:
            take_dav(call, room)


def take_certificate(call, archive, is_wanted):
    """By it whoever made the archive could have the front listen for everybody, with a key that they have too."""
    if is_wanted:
        with archive.pair() as paths:
            tls(call, *paths)
    elif archive.has_certificate():
        call.say("the certificate that came with it is not put to work: fileroom-admin tls CERT KEY")


def take_dav(call, room):
    """(The room is there, whether the gateway can be or not.)"""
    try:
        dav.turn_on(call, room)
    except Fault as fault:
        call.say(f"the room had WebDAV, and has none here: {fault}; then: fileroom-admin dav on {room}")


def look_at(places, room, roster, folder):
    """Whether sqlite3 and the program take it for a room, before anything else knows of it."""
    by_rooms(os.path.join(HERE, "../../fileroom-one"), "--room", places.state(room))
    for it in {SHARED, LOOKED_AT} & {*os.listdir(folder)}:  # (the other is of a call that was killed)
        os.unlink(it, dir_fd=folder)
    with open(os.open(LOOKED_AT, NEW_HERE, 0o644, dir_fd=folder), "w", encoding="utf-8") as file:
        file.write(roster)
        os.fchmod(file.fileno(), 0o644)
    path = os.path.join(places.state(room), LOOKED_AT)
    by_rooms(places.program, "report", places.file(room), path, "lists")
    os.unlink(LOOKED_AT, dir_fd=folder)


def put_in(places, room, roster, logins, names, bounds):
    """(Nobody who is here by now gets a login or a name by it: both are the machine's, and so of all rooms.)"""
    change, users = Change(places), rosters.users_of(roster)
    people.need_no_twins(places, {room: users})
    here = {user for it in places.rooms() for user in now.users(places, it)}
    has, named = here | {*now.logins(places)}, here | {*now.names(places)}
    change.room = (room,)
    put_front(change)
    change.put(places.roster(room), roster)
    change.put(places.front(f"rooms/{room}.users.json"), rosters.page_copy(roster))
    put_room(change, room)
    people.put_passwords(change, {user: line for user, line in logins.items() if user not in has})
    people.put_names(change, {user: names[user] for user in users if user in names and user not in named})
    held.Bounds(places).take(change, room, bounds)
    return change


def tell_logins(call, users, had, odd):
    """(Somebody of the same name who has a login here keeps it: logins are the machine's.)"""
    has, odd = now.logins(call.places), [it for it in odd if it not in had]
    for what, found in (("these have the password of this machine", [it for it in users if it in had]),
                        ("these have no login, since the archive's has a form that is not written here", odd),
                        ("these log in by the directory" if signin.is_on(call.places) else "these have no login", [
                            it for it in users if it not in {*has, *odd}])):
        if found:
            more = f" and {len(found) - NAMED} more" if len(found) > NAMED else ""
            call.say(f"{what}: {', '.join(found[:NAMED])}{more}")


def by_rooms(*words):
    """Has the rooms' user read a file that anybody may have written. (What a process of theirs says is bounded, and so
    is its time: others who change something wait behind it.)"""
    nothing = {"stdin": subprocess.DEVNULL, "stdout": subprocess.DEVNULL, "env": {**os.environ, "PATH": SEARCHED}}
    with subprocess.Popen([*AS_ROOMS, *words], stderr=subprocess.PIPE, cwd="/", **nothing) as reader:
        told = told_by(reader)
    if told is None:
        raise Fault(f"it is no room: to look at it takes longer than {LONGEST} seconds")
    if reader.returncode:
        raise Fault(f"it is no room: {owned.of_backups().shown(told.decode(errors='replace').strip()[:300])}")


def told_by(reader):
    """The beginning of what a process says until it ends, or nothing where it takes too long."""
    end, told, more = time.monotonic() + LONGEST, b"", b"more"
    try:
        while more and len(told) < MOST_SAID:
            if not select.select([reader.stderr], [], [], max(end - time.monotonic(), 0))[0]:
                return None
            more = os.read(reader.stderr.fileno(), MOST_SAID - len(told))
            told += more
        reader.stderr.close()
        reader.wait(max(end - time.monotonic(), 0))
        return told
    except subprocess.TimeoutExpired:
        return None
    finally:
        reader.kill()


@contextlib.contextmanager
def new_state(places, state):
    """A room's folder, opened. Where what follows fails, what came into it meanwhile is removed, and itself if it is
    new."""
    own_folder(places, os.path.dirname(state))
    is_new = not os.path.lexists(state)
    own_folder(places, state)
    folder = os.open(state, FOLDER)
    before = {*os.listdir(folder)}
    try:
        yield folder
    except BaseException:
        for it in {*os.listdir(folder)} - before:
            if it in (DB, LOG, SHARED, LOOKED_AT) or it.startswith(ASIDE):
                os.unlink(it, dir_fd=folder)
        if is_new:
            with contextlib.suppress(OSError):
                os.rmdir(state)
        raise
    finally:
        os.close(folder)


def need_space(folder, archive):
    disk, need = os.fstatvfs(folder), archive.space()
    free = disk.f_bavail * disk.f_frsize
    if free <= need:
        raise Fault(f"the rooms' disk has {free >> 20} MiB free, and this room takes {need >> 20}: free some space")


def unpack(places, archive, folder):
    """The room's file and its log. (The log first: a file without its log might pass for the whole room.)"""
    owner = pwd.getpwnam("fileroom") if places.is_machine else None
    for member in [LOG] * (LOG in archive.members) + [DB]:
        with open(os.open(member, NEW_HERE, 0o600, dir_fd=folder), "wb") as file:
            if owner:
                os.fchown(file.fileno(), owner.pw_uid, owner.pw_gid)
            archive.copy(member, file)
            file.flush()
            os.fsync(file.fileno())
    os.fsync(folder)
