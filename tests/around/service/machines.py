"""A machine below a folder of its own, for `fileroom-admin`: what stands for systemctl, nft and setpriv writes down
what it is asked; nginx looks at the very files, moved; program and openssl are the machine's. A room of it is served at
its socket."""
import contextlib
import json
import os
import re
import select
import shutil
import socket
import subprocess
import sys
import threading
import time
import types

from nginx import PATH
from served import PROGRAM, WAIT, Line, Room, free_port, put_file, session, slot, text_of
from transcripts import as_told, by_shell, lines_of, scenes

from . import fits
from .contents import SERVICE, backed_up

FOLDER = os.path.dirname(os.path.abspath(__file__))
ADMIN = os.path.join(SERVICE, "admin", "fileroom-admin")
NGINX = """user www-data;
include /etc/nginx/modules-enabled/*.conf;
events {
    worker_connections 768;
}
http {
    include /etc/nginx/conf.d/*.conf;
}
"""
LOOKS = re.compile("systemctl (is-|show)|nft list")  # what is asked of them, and changes nothing
TOLD = 'echo "$(basename "$0") $*" >>"$ROOT/../told"\n'
STAND_INS = {
    "systemctl": TOLD + r"""if [ "$1" = show ]; then
    for it in "${@:3}"; do sed -n "s/^$it \(${2#--property=}=\)/\1/p" "$ROOT/../shown"; done
    [ "$2 $3" != "--property=MainPID fileroom@plans" ] || mv "$ROOT/../shown-next" "$ROOT/../shown" 2>/dev/null
    exit 0
fi
if [ "$1" = is-failed ]; then grep -qsxF -- "failed ${@: -1}" "$ROOT/../broken"; exit; fi
[ ! -e "$ROOT/../broken" ] || ! grep -qxF -- "${@: -1}" "$ROOT/../broken" """,
    "setpriv": 'shift 4; exec "$@"',
    "nft": TOLD + '[ ! -e "$ROOT/../broken" ] || ! grep -qxF nft "$ROOT/../broken"',
    "room": 'exec "$FILEROOM" --version',
    "fileroom-admin": f'umask 077; exec {sys.executable} -B {ADMIN} --root "$ROOT" "$@"',
    "fileroom-backup": f'exec {SERVICE}/fileroom-backup "$@"',
    "fits": f'exec {sys.executable} -B {FOLDER}/fits.py "$@"',
    "fileroom-standby": TOLD + "exit 1",
    # (the same files, with the root's folders in the place of the machine's, and ports that need no root)
    "nginx": """set -e
at=$(mktemp -d); trap 'rm -r "$at"' EXIT
cp -r "$ROOT/etc/nginx" "$at/nginx"
find "$at/nginx" -name '*.conf' -exec sed -i "s,/etc/nginx,$at/nginx,g; s,/var/log/nginx,$at,; /^user /d
    s,/var/log/fileroom,$at,; s,/run/fileroom-front,$at," {} +
find "$at/nginx" -name '*.conf' -exec sed -i "s,listen 443,listen 20443,; s,listen 80;,listen 20080;,;
    s,::]:443,::]:20443,; s,::]:80;,::]:20080;," {} +
PATH=$PATH:/usr/sbin; for it in $(which -a nginx); do [ "$it" = "$0" ] || break; done
"$it" -tq -e "$at/errors" -g "pid $at/pid;" -c "$at/nginx/nginx.conf" """,
}


def stamp(hours):
    """The name of a backup that was made so many hours before."""
    return time.strftime("%Y-%m-%dT%H-%M-%SZ", time.gmtime(time.time() - 3600 * hours))


class Machine:
    """A root with what Debian's nginx has there, or with what another root has, and the stand-ins."""

    def __init__(self, folder, like=None):
        self.folder, self.root, self.tools = folder, os.path.join(folder, "root"), os.path.join(folder, "tools")
        self.rooms = []  # that are served, or were
        if like:
            shutil.copytree(like, self.root, symlinks=True)
        else:
            for it in "etc/nginx/conf.d", "etc/nginx/modules-enabled", "var/log/nginx":
                os.makedirs(self.at(it))
            self.write("etc/nginx/nginx.conf", NGINX)
        os.mkdir(self.tools)
        self.shows("")
        for name, text in STAND_INS.items():
            self.stand_in(name, text)
        self.env = {**os.environ, "PATH": f"{self.tools}:{PATH}", "ROOT": self.root, "FILEROOM": PROGRAM}

    def like(self, root):
        """Takes this root in the place of its own."""
        shutil.rmtree(self.root)
        shutil.copytree(root, self.root, symlinks=True)

    def end(self):
        for it in self.rooms:
            it.end()

    def stand_in(self, name, text):
        path = os.path.join(self.tools, name)
        with open(path, "w", encoding="utf-8") as file:
            file.write(f"#!/bin/bash\n{text}\n")
        os.chmod(path, 0o755)

    def at(self, path):
        return os.path.join(self.root, path)

    def write(self, path, text):
        put_file(self.at(path), text)

    def does(self, *words, stdin="", first=(), within=()):
        """Status, what is said, and what is told as a fault."""
        line = [*within, sys.executable, "-B", *(first or [ADMIN]), "--root", self.root, *words]
        how = {"capture_output": True, "text": True, "env": self.env, "timeout": 300, "umask": 0o077}
        done = subprocess.run(line, input=stdin, **how)
        return done.returncode, done.stdout, done.stderr

    def plays(self, name):
        """Plays the scenes of a text of this folder (transcripts.py), each line by a shell in the root: behind what it
        says stand what services are to do, and `changed` where it fails and a file is another."""
        self.told()
        for scene, typed in scenes(os.path.join(FOLDER, name)).items():
            for line, told in typed:
                before = self.files()
                status, *texts = by_shell(line.removeprefix("  $ "), self.root, **self.env)
                said = lines_of(status, *(it.replace(self.root, "") for it in texts))
                said += [f"* {it}" for it in self.told() if not LOOKS.match(it)]
                said += ["changed"] * (status != 0 and before != self.files())
                assert said == as_told(said, told), f"{name}, {scene}: {line}"

    def numbers(self):
        """What a monitor gets."""
        lines = self.does("check", "--prometheus")[1].splitlines()
        return dict(it.rsplit(" ", 1) for it in lines if not it.startswith("#"))

    def backed_up(self, room="plans"):
        """The backup that is made of a room. (What a unit does on a machine.)"""
        its = types.SimpleNamespace(db=self.at(f"var/lib/fileroom/{room}/room.db"), roster=self.at(
            f"etc/fileroom/{room}.toml"))
        os.makedirs(self.at("var/backups/fileroom"), exist_ok=True)
        return backed_up(its, self.at(f"var/backups/fileroom/{room}"), self.env)

    def lacks(self, program):
        """From now on no program of this name is found (but in /usr/sbin, which is always looked in)."""
        few = os.path.join(self.folder, f"without-{program}")
        os.mkdir(few)
        for folder in filter(os.path.isdir, self.env["PATH"].split(os.pathsep)):
            for it in {*os.listdir(folder)} - {program, *os.listdir(few)}:
                os.symlink(os.path.join(folder, it), os.path.join(few, it))
        self.env.update(PATH=few)

    def told(self):
        """What the stand-ins were asked since the last time."""
        path = os.path.join(self.folder, "told")
        lines = text_of(path).splitlines() if os.path.exists(path) else []
        with open(path, "w", encoding="utf-8"):
            pass
        return lines

    def fits(self, user, word):
        """Whether a password is that of the front's line."""
        return fits.fits(self.root, user, word)

    def breaks(self, what):
        """From now on systemctl fails where it is asked about this unit; or about none."""
        self.write("../broken", what)

    def shows(self, text, later=None):
        """What systemctl shows of units, lines UNIT NAME=VALUE: now, and once a room's process was asked for."""
        self.write("../shown", text)
        if later is not None:
            self.write("../shown-next", later)

    def files(self, logins=None):
        """Each file below the root but the lock and a room's log: its mode and text. Of a login that is none of these a
        name alone, since each hash has another salt."""
        found = {}
        for folder, _, names in os.walk(self.root):
            for name in names:
                path = os.path.join(folder, name)
                if name.startswith("room.db-") or ".undone-" in name or name == "admin.lock":
                    continue
                text = "bytes" if name == "room.db" or name.endswith(".tar") else text_of(path)
                if name == "users" and logins is not None:
                    text = [it if it in logins else it.partition(":")[0] for it in text.splitlines()]
                found[os.path.relpath(path, self.root)] = oct(os.stat(path).st_mode), text
        return found


class Served:
    """A room of the machine, at its socket, where what comes is handed on as it came."""

    def __init__(self, machine, name="plans"):
        self.machine, self.room = machine, Room.__new__(Room)
        machine.rooms.append(self)
        self.room.db = machine.at(f"var/lib/fileroom/{name}/room.db")
        self.room.roster = machine.at(f"etc/fileroom/{name}.toml")
        self.room.env, self.room.port, self.numbers = None, free_port(), {}
        self.meanwhile, self.one_by_one = lambda: None, threading.Lock()  # what happens behind each request
        self.askers = set()  # who asked by the socket
        self.room.start()
        os.makedirs(machine.at("run/fileroom"), exist_ok=True)
        self.path = machine.at(f"run/fileroom/{name}.sock")
        self.listener = socket.socket(socket.AF_UNIX)
        self.listener.bind(self.path)
        self.listener.listen()
        threading.Thread(target=self.hand_on, daemon=True).start()

    def hand_on(self):
        """(One connection after another, as the room takes them.)"""
        with contextlib.suppress(OSError):
            while True:
                line, _ = self.listener.accept()
                with line, contextlib.suppress(ConnectionError), \
                        socket.create_connection(("127.0.0.1", self.room.port)) as to:
                    self.pump(line, to)
                self.meanwhile()

    def pump(self, line, to):
        while True:
            for one in select.select([line, to], [], [])[0]:
                data = one.recv(1 << 16)
                if not data:
                    return
                self.askers.update(re.findall(rb"\r\nroom-user: (\S+)\r\n", data))
                (to if one is line else line).sendall(data)

    def holds(self, user, cmd, path, **more):
        """What the room answers, asked past the socket."""
        sid = user.encode().hex().rjust(32, "e")
        with self.one_by_one:
            line, self.numbers[user] = Line(self.room.port), self.numbers.get(user, 0) + 1
            line.ask(session(1, sid, user))
            told = line.ask(slot(0, self.numbers[user], {"cmd": cmd, "path": path, **more}, user, sid))
            line.close()
        return json.loads(told.body)

    def killed(self, *words, behind):
        """Kills this call of fileroom-admin once it has asked the room that often and once more."""
        its, asked, begun, ended = self.machine, [], threading.Event(), threading.Event()

        def one():
            asked.append(1)
            if len(asked) > behind and not ended.is_set():
                begun.wait()
                call[0].kill()
                call[0].wait()
                ended.set()
        self.meanwhile, call = one, []
        call.append(subprocess.Popen([sys.executable, "-B", ADMIN, "--root", its.root, *words],
                                     stdout=subprocess.DEVNULL,
                                     env=its.env | {"TMPDIR": its.folder}))  # (what a kill leaves there)
        begun.set()
        assert ended.wait(WAIT)
        self.meanwhile = lambda: None

    def end(self):
        self.room.kill()
        with contextlib.suppress(OSError):  # (it has ended before)
            self.listener.shutdown(socket.SHUT_RDWR)
        shutil.rmtree(self.machine.at("run"), ignore_errors=True)
