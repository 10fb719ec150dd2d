"""The front: its files, each room's place in it, and its certificate."""
import grp
import ipaddress
import json
import os
import re

from . import dav, now, rosters, signin
from .changes import Change
from .people import FOR_WORKERS
from .places import (ASIDE, CHANGES, FRONT_FILES, HERE, LISTEN, LOGINS, REDIRECT, WORKERS, Fault, asked, read,
                     read_json, said, sample)

PORT = 8001  # of each room, in a network of its own
ROOM_LISTS = "rooms.json"
OF_QUEUES = "room_"
OF_ROOM = {"rooms": "room.conf", "queues": "queue.conf"}  # of the front: a folder, and the sample of a room's file


def room_names(places):
    return read_json(places.front(ROOM_LISTS), list)


def address(places):
    """Where people find it, in a line; or nothing, where there is no room."""
    listens = read(places.at(LISTEN), "")
    if " ssl" in listens:
        cert, port = places.front("tls/cert.pem"), other_port(listens)
        return f"front  {' '.join(f'https://{it}{port}/' for it in names_of(cert))}  until {end_of(cert)}"
    return "front  http://127.0.0.1:8080/  for this machine alone" if places.rooms() else ""


def other_port(listens):
    """Than that of https, as it stands in an address."""
    port = re.search(r"(?m)^ *listen +(?:\S+:)?(\d+) ", listens)
    return f":{port[1]}" if port and port[1] != "443" else ""


def put_room(change, room):
    """Its place in the front, and its units, which are started."""
    places = change.places
    change.put(places.env(room), f"PORT={PORT}\n")
    put_place(change, room)
    change.put(places.front(ROOM_LISTS), json.dumps(sorted({*room_names(places), room})) + "\n")
    change.then("systemctl", "daemon-reload")
    change.then("systemctl", "enable", "fileroom-ports")
    change.then("systemctl", "reload-or-restart", "fileroom-ports")
    for it in places.started(room):
        change.then("systemctl", "enable", "--now", it, undo=("systemctl", "disable", "--now", it))
    change.then("answers", room, undo=("true",))
    change.then(*places.read_front())


def put_front(change, anew=False):
    """The front's files as they are installed, where they are not there, or all anew but where it listens."""
    places = change.places
    for name, path in FRONT_FILES.items():
        if anew or not os.path.exists(places.at(path)):
            change.put(places.at(path), sample(name))
    if not os.path.exists(places.at(LISTEN)):
        change.put(places.at(LISTEN), sample("listen.conf"))
    main = places.at("etc/nginx/nginx.conf")
    made = with_group(re.sub(r"(?m)^(\s*worker_connections) 768;", r"\1 4096;", read(main)))
    if made != read(main):
        change.put(main, made)
    if anew or not os.path.exists(places.front("users")):
        change.put(places.front("users"), now.passwords(places), *FOR_WORKERS)
    for name, its in (ROOM_LISTS, room_names(places)), ("names.json", now.names(places)):
        if not os.path.exists(places.front(name)):
            change.put(places.front(name), json.dumps(its) + "\n")
    need_log_folder(places)
    for path, group in (LOGINS, "adm"), (CHANGES, WORKERS):
        if not os.path.exists(places.at(path)):
            change.put(places.at(path), "", 0o640, group)
    change.look("nginx", "-tq")


def need_log_folder(places):
    """(The log of changes has paths of documents: a folder that root and nginx's workers alone can enter.)"""
    folder = os.path.dirname(places.at(CHANGES))
    os.makedirs(folder, exist_ok=True)
    if places.is_machine:
        os.chown(folder, 0, grp.getgrnam(WORKERS).gr_gid)
    os.chmod(folder, 0o710)


def renew(call):
    """After an update: the front's files, and each room's, as the installed program has them; and the rooms.

    (nginx first: a room whose port was the machine's is then asked by its socket alone. It is started again: as it
    reads files anew, it takes no zone by another key, without a word to who asked for that.)
    """
    places = call.places
    need_group(places)
    change, rooms = Change(places), places.rooms()
    put_front(change, anew=True)
    for room in rooms:
        put_place(change, room)
        change.put(places.front(f"rooms/{room}.users.json"), rosters.page_copy(read(places.roster(room))))
    change.put(places.front(ROOM_LISTS), json.dumps(rooms) + "\n")
    before = dav.rooms_of(places)
    with_dav = [it for it in before if it in rooms]
    if with_dav:
        dav.need_place(places)
    dav.put(change, before, with_dav)
    names = re.search(r'server_name ([^";]+);', read(places.at(REDIRECT), read(places.at(ASIDE), "")))
    if names:
        change.put(places.at(REDIRECT), sample("redirect.conf").replace("@NAMES@", names[1]))
        change.remove(places.at(ASIDE))
    change.then("systemctl", "daemon-reload")
    change.then(*places.read_front("restart"))
    if rooms:
        change.then("systemctl", "reload-or-restart", "fileroom-ports")
        change.then("systemctl", "enable", "--now", *(f"fileroom-try@{it}.timer" for it in rooms))
        change.then("systemctl", "try-restart", *map(places.unit, rooms))
    dav.serve(change, before, with_dav)
    if with_dav:
        change.then("systemctl", "enable", "--now", dav.SOCKET)  # (a purge of the package took its link)
        change.then("systemctl", "try-restart", dav.SERVICE)
    signin.put(change)
    change.happen()
    call.say(f"the front has the files of this program, and the rooms {', '.join(places.rooms()) or 'none'}")


def put_place(change, room):
    for folder, name in OF_ROOM.items():
        change.put(change.places.front(f"{folder}/{room}.conf"), of_room(name, room))


def tls(call, cert, key):
    places = call.places
    if not os.path.exists(places.at(FRONT_FILES["fileroom.conf"])):
        raise Fault("there is no front yet, which comes with a room: fileroom-admin room add NAME OWNER GROUP")
    change = Change(places)
    names = names_of(cert)
    need_pair(cert, key)
    change.put(places.front("tls/cert.pem"), signin.certificates_in(cert))
    change.put(places.front("tls/key.pem"), read(key), 0o600)
    change.put(places.at(LISTEN), sample("tls.conf"))
    change.put(places.at(REDIRECT), sample("redirect.conf").replace("@NAMES@", " ".join(names)))
    change.look("nginx", "-tq")
    change.then(*places.read_front())
    change.then("systemctl", "reload-or-restart", "fileroom-ports")
    change.happen()
    call.say(f"the front listens by https, as {' '.join(names)}, until {end_of(cert)}; http is redirected to it")


def of_room(sample_name, room):
    """(nginx takes two queues for one whose names differ by large and small letters alone; and no queue or zone of the
    front's own begins so.)"""
    queue = OF_QUEUES + re.sub("[A-Z]", lambda letter: f"{letter[0].lower()}.", room)
    return sample(sample_name).replace("@NAME@", room).replace("@QUEUE@", queue)


def need_group(places):
    """Makes what sysusers.conf names, as an update may bring it. (No owners are set on another root than /.)"""
    if places.is_machine:
        asked("systemd-sysusers", os.path.join(HERE, "../../../../lib/sysusers.d/fileroom.conf"))


def with_group(text):
    """nginx.conf, whose workers have the group that rooms' sockets and passwords are for."""
    return re.sub(r"(?m)^(\s*user\s+[\w-]+)\s*;", rf"\1 {WORKERS};", text)


def names_of(cert):
    """The names and addresses by which a browser takes the certificate."""
    told = asked("openssl", "x509", "-noout", "-ext", "subjectAltName", "-in", os.path.abspath(cert))
    names = re.findall(r"DNS:([A-Za-z0-9.*-]+)", told)
    addresses = map(ipaddress.ip_address, re.findall(r"IP Address:([0-9A-Fa-f.:]+)", told))
    names += [f"[{it}]" if it.version == 6 else str(it) for it in addresses]
    if not names:
        raise Fault(f"{cert} has no host name or address in its subjectAltName: browsers refuse such a certificate")
    return names


def end_of(cert):
    return asked("openssl", "x509", "-noout", "-enddate", "-in", os.path.abspath(cert)).partition("=")[2]


def need_pair(cert, key):
    cert, key = os.path.abspath(cert), os.path.abspath(key)
    if said("openssl", "x509", "-noout", "-checkend", "0", "-in", cert)[0]:
        raise Fault(f"the certificate has expired: {end_of(cert)}")
    status, public = said("openssl", "pkey", "-pubout", "-passin", "pass:", "-in", key)
    if status:
        raise Fault(f"{key} is no private key, or has a passphrase: nginx starts with nobody there to type it")
    if public != asked("openssl", "x509", "-noout", "-pubkey", "-in", cert):
        raise Fault("the key does not match the first certificate in the file")
