"""A room with all that a backup may hold, backups of rooms, and a room's file in which somebody wrote."""
import base64
import contextlib
import hashlib
import json
import os
import sqlite3
import subprocess
import time

import manifests
from served import HANGS, HERE, PROGRAM, Line, Room, session, slot, until

SERVICE = os.path.join(HERE, "..", "service")
BACKUP = os.path.join(SERVICE, "fileroom-backup")
INSIDE = ".room-pieces-0123456789abcdef"


def odd_manifests():
    """Some that whoever may write a document may write."""
    return {"deep\u202e": b"[" * 60000, "list": manifests.members(folder="[1]").encode(),
            "long": manifests.members(pieces=manifests.some_pieces(6000, "000")).encode()}


def large(path, pieces, digest=None):
    """The folder of a large file (docs/FILES.md), its pieces, and its manifest."""
    whole = b"".join(pieces)
    names = [f"{at:03}" for at in range(len(pieces))]
    manifest = {"folder": INSIDE, "form": 1, "pieces": names, "size": len(whole),
                "sha256": digest or hashlib.sha256(whole).hexdigest()}
    return [(path, None), (f"{path}/{INSIDE}", None), *((f"{path}/{INSIDE}/{it}", data) for it, data in zip(
        names, pieces)), (f"{path}/.room-file", json.dumps(manifest).encode())]


def filled(folder):
    """A room with a document, a folder, two large files, one of them damaged, and odd ones; killed. The bytes of the
    large ones, and what each path has."""
    room = Room(folder).start()
    pieces = [bytes([at]) * 65536 for at in range(3)] + [b"end"]
    made = [("/a.txt", b"text"), ("/f", None), ("/f/b", b""), ("/f/g", None), ("/f/g/\u00e9 c", b"more"),
            *large("/f/big", pieces), *large("/f/bad", pieces, 64 * "0"), *large("/m", [b"end"]), ("/m/plan", b"plan")]
    for name, text in odd_manifests().items():
        made += [(f"/f/{name}", None), (f"/f/{name}/.room-file", text)]
    line = Line(room.port)
    line.ask(session())
    for seq, (path, data) in enumerate(made, 1):
        command = {"cmd": "MKDIR", "path": path}
        if data is not None:
            command = {"cmd": "CREATE", "path": path, "data": base64.b64encode(data).decode()}
        assert line.ask(slot(0, seq, command)).body.startswith(b'{"code":0'), path
    line.close()
    room.kill()
    return room, b"".join(pieces), dict(made)


def backed_up(room, folder, env=None):
    """The backup of a room that is not served. (Each is named by its second.)"""
    until(lambda: not os.path.exists(os.path.join(folder, time.strftime("%Y-%m-%dT%H-%M-%SZ", time.gmtime()))))
    env = env or {**os.environ, "FILEROOM": PROGRAM}
    done = subprocess.run([BACKUP, room.db, room.roster, folder], env=env, capture_output=True, text=True)
    assert (done.returncode, done.stderr) == (0, "")
    return done.stdout.strip()


def edit(path, *texts):
    """Writes in a room's file. (Each text over a connection of its own, which reads the tables anew.)"""
    for it in texts:
        with contextlib.closing(sqlite3.connect(path)) as table:
            table.executescript(it)


def measured(*words, **env):
    """The status of a command, what it says as a fault, and the KiB of memory that it or one of its own took."""
    how = {"stdout": subprocess.DEVNULL, "stderr": subprocess.PIPE, "text": True, "env": {**os.environ, **env}}
    with subprocess.Popen(words, **how) as it:
        faults = it.stderr.read()
        _, status, its = os.wait4(it.pid, 0)
        it.returncode = os.waitstatus_to_exitcode(status)
    return it.returncode, faults, its.ru_maxrss


def said(*words, **env):
    """The status, and all that a command says."""
    how = {"capture_output": True, "text": True, "timeout": HANGS, "env": {**os.environ, "FILEROOM": PROGRAM, **env}}
    done = subprocess.run(words, **how)
    return done.returncode, done.stdout, done.stderr


def below(folder):
    return sorted(os.path.relpath(os.path.join(at, it), folder) for at, _, names in os.walk(folder) for it in names)
