"""Where the office is: a room of some years on a machine below a folder, with front, gateway, fail2ban and its nights.

Users' passwords are NAME-word. Of services the room itself is stopped and started; all else of a night is what
fileroom-backup@.service has, in its order.
"""
import contextlib
import glob
import json
import os
import re
import shutil
import sqlite3
import subprocess
import sys
import threading

import gateway
from ban import Fail2ban
from nginx import Front
from served import HERE, PROGRAM, Room, put_file, text_of
from turns import Turns

TOP = os.path.join(HERE, "..")
SERVICE, PAGE = os.path.join(TOP, "service"), os.path.join(TOP, "page")
UNIT = os.path.join(SERVICE, "fileroom-backup@.service")
ADMIN = os.path.join(SERVICE, "admin", "fileroom-admin")
OWNER, GROUP = "boss", "all"
PAST = 600_000  # numbers that the room has used: by this more than half, nearly all of what is gone
SOCKET = "root/run/fileroom/plans.sock"
LOGS = "root/etc/nginx/fileroom/work"


def roster_of(users):
    return "[users]\n" + "".join(f"{user} = {json.dumps(groups)}\n" for user, groups in users.items())


class Place:
    def __init__(self, folder, users, **front):
        self.folder, self.users = folder, users
        self.tools = self.at("tools")
        self.env = {**os.environ, "FILEROOM": PROGRAM, "PATH": f"{self.tools}:{os.environ['PATH']}:/usr/sbin"}
        self.make_room()
        self.front = Front(self.at("root/etc/nginx/fileroom"), {it: f"{it}-word" for it in users},
                           {"plans": self.at(SOCKET)}, PAGE, dav=self.at("gate.sock"), connections=4096, **front)
        self.start_gateway()
        self.make_tools()
        self.ban = None

    def at(self, path):
        return os.path.join(self.folder, path)

    def write(self, path, text, mode=0o644):
        put_file(self.at(path), text)
        os.chmod(self.at(path), mode)

    def make_room(self):
        self.room = Room(self.at("root/var/lib/fileroom/plans"), "", OWNER, GROUP)
        self.room.roster = self.at("root/etc/fileroom/plans.toml")
        self.write(self.room.roster, roster_of(self.users))
        self.write("root/etc/fileroom/plans.env", "")
        os.makedirs(self.at("root/var/backups/fileroom"))
        with contextlib.closing(sqlite3.connect(self.room.db)) as table, table:
            table.execute("UPDATE room SET next = ?", (PAST + 1,))
        self.room.start()
        os.makedirs(self.at("root/run/fileroom"))
        Turns(self.at(SOCKET), self.room.port)

    def start_gateway(self):
        with open(self.at("gateway.log"), "w") as log:
            to, at = self.at("root/etc/nginx/fileroom/work/dav.sock"), self.at("gate.sock")
            self.gateway = gateway.start(to, self.at("state"), at, log)

    def make_tools(self):
        """What fail2ban's action and `fileroom-admin` call."""
        for name, text in ("fileroom-admin", f'exec {sys.executable} -B {ADMIN} --root {self.at("root")} "$@"'), (
                "fail2ban-client", f'exec /usr/bin/fail2ban-client -s {self.at("ban/sock")} "$@"'), (
                "systemctl", "exit 0"), ("nginx", "exit 0"):
            self.write(f"tools/{name}", f"#!/bin/sh\n{text}\n", 0o755)

    def admin(self, *words):
        done = subprocess.run([self.at("tools/fileroom-admin"), *words], env=self.env, capture_output=True, text=True)
        return done.returncode, done.stdout + done.stderr

    # A night.

    def night(self, **env):
        """The status of each part but the room's own, and what they say."""
        status, told = [], ""
        for line in re.findall(r"(?m)^ExecStart(?:Pre)?=[-+]*(.*)$", text_of(UNIT)):
            words = line.replace("%i", "plans").replace(" /", f" {self.at('root')}/").split()
            if words[0].endswith("fileroom-rest"):
                self.room.start() if "--end" in words else self.room.kill()
                continue
            done = subprocess.run([os.path.join(SERVICE, os.path.basename(words[0])), *words[1:]],
                                  env={**self.env, "KEEP": "2", **env}, capture_output=True, text=True)
            status.append(done.returncode)
            told += done.stdout + done.stderr
        self.admin("warn")
        return status, told

    def sessions_of_dav(self):
        """The names of those that the gateway has."""
        found = set()
        for path in glob.glob(self.at("state/sessions/plans/*")):
            with contextlib.suppress(FileNotFoundError, ValueError), open(path, encoding="utf-8") as file:
                found.add((os.path.basename(path), json.load(file).get("name")))
        return found

    def copied(self):
        """The room's file and its log, while nobody asks for anything."""
        shutil.rmtree(self.at("copy"), ignore_errors=True)
        os.mkdir(self.at("copy"))
        for end in "", "-wal":
            if os.path.exists(self.room.db + end):
                shutil.copy(self.room.db + end, self.at(f"copy/room.db{end}"))
        return self.at("copy/room.db")

    def asked(self):
        """How many requests the front had until now, those of the gateway too."""
        with open(self.at(f"{LOGS}/access.log"), "rb") as file:
            return sum(1 for _ in file)

    def is_quiet(self, seconds=2.0):
        """Whether the room does nothing for a while."""
        ran = f"/proc/{self.room.server.pid}/schedstat"
        before = text_of(ran)
        threading.Event().wait(seconds)
        return text_of(ran) == before

    # Who is held.

    def begin_to_count(self):
        """By fail2ban, anew, as on another day, whose log of changes is a new one."""
        if not shutil.which("fail2ban-server"):
            return False
        self.end_counting()
        log = self.at(f"{LOGS}/changes.log")
        os.truncate(log, 0)
        self.ban = Fail2ban(self.at("ban"), log, self.env)
        return True

    def end_counting(self):
        if self.ban:
            self.ban.end()
        shutil.rmtree(self.at("ban"), ignore_errors=True)

    def held(self):
        folder = self.at("root/etc/nginx/fileroom/held")
        return sorted(os.listdir(folder)) if os.path.isdir(folder) else []
