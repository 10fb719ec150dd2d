"""A room on a volume of three copies in the laboratory: mounted and served on one machine, and looked at."""
import contextlib
import os
import shutil
import signal
import subprocess
import tempfile
import threading
import time

from lab import WALL, Lab, sh, until
from load import PORT, USERS
from served import PROGRAM, findings_of

HERE = os.path.dirname(os.path.abspath(__file__))
TOP = os.path.abspath(os.path.join(HERE, "..", ".."))
SERVICE = os.path.join(TOP, "service")
TOOL = os.path.join(SERVICE, "standby", "fileroom-standby")
NAME = "plans"
FOLDER, BRICK = f"/var/lib/fileroom/{NAME}", f"/srv/fileroom/{NAME}"
SERVED = "/srv/bin/fileroom"  # a copy of the program, which everybody may run
AS_USER = ["setpriv", "--reuid", "fileroom", "--regid", "fileroom", "--clear-groups"]
DB, ROSTER, HOSTS = f"{FOLDER}/room.db", f"/etc/fileroom/{NAME}.toml", f"/etc/fileroom/{NAME}.hosts"
MOUNT = "direct-io-mode=enable,attribute-timeout=0,entry-timeout=0"
LISTENS, WHOLE = 120, 300  # seconds: far more than it takes, on a machine that others use
AGAIN = 0.2  # seconds until a program that ended is started again: RestartSec of the unit
SERVE = 'echo $$ >/run/room.pid; exec "$@"'
# what `systemctl restart` does in the laboratory, where no systemd runs: the program ends, and is started again
SYSTEMCTL = '#!/bin/sh\necho "$@" >>/run/systemctl.log\nkill "$(cat /run/room.pid)"\n'
# what is kept of a machine beside Gluster's logs; a process of Gluster writes on SIGUSR1 what it holds
SAYS = {"processes": ["ps", "-ef"], "connections": ["ss", "-tanpi"], "peers": ["gluster", "peer", "status"],
        "volume": ["gluster", "volume", "status"], "heal": ["gluster", "volume", "heal", NAME, "info"]}
DUMPS = "kill -USR1 $(pidof glusterd glusterfs glusterfsd); sleep 2; cp /run/gluster/*dump* /var/log/glusterfs"


class Program:
    """The room's program on a machine, started again whenever it ends, as the unit has it."""

    def __init__(self, machine):
        self.machine, self.is_wanted, self.child, self.starts = machine, True, None, 0
        self.faults = []
        self.thread = threading.Thread(target=self.keep, daemon=True)
        self.thread.start()

    def keep(self):
        words = ["sh", "-c", SERVE, "sh", *AS_USER, SERVED, "serve", DB, ROSTER, str(PORT), "4294967295"]
        while self.is_wanted and self.machine.is_up():
            self.starts += 1
            self.child = self.machine.start(*words, stderr=subprocess.PIPE, text=True, start_new_session=True)
            self.faults.append(self.child.communicate()[1].strip())
            if self.is_wanted:
                time.sleep(AGAIN)

    def listens(self):
        with contextlib.suppress(OSError):
            self.machine.connect(PORT, 1).close()
            return True
        return False

    def end(self, number=signal.SIGKILL):
        """Ends it, for good."""
        self.is_wanted = False
        if self.machine.is_up():
            self.machine.status("sh", "-c", f"kill -{int(number)} $(cat /run/room.pid)")
        self.thread.join(30)


def kept_words(machines):
    """A folder that stays, with Gluster's logs of each machine, and of one that is up its processes and connections,
    and what its mount and its daemons hold at this moment."""
    folder = tempfile.mkdtemp(prefix="fileroom-standby-", dir=os.environ.get("LOGS", "/var/tmp"))
    for it in machines:
        at = os.path.join(folder, it.name)
        if it.is_up():
            it.status("sh", "-c", DUMPS)
        with contextlib.suppress(shutil.Error):  # (what is no file, and what goes meanwhile)
            shutil.copytree(it.logs, at, dirs_exist_ok=True)
        for name, words in SAYS.items():
            with open(os.path.join(at, name), "w", encoding="utf-8") as file:
                file.write("\n".join(it.status("timeout", "20", *words)[1:]) if it.is_up() else "it is off\n")
    return folder


def look_at_tables(machine, load, tally, name):
    """SQLite finds nothing wrong in a copy, and the documents and numbers are those of the model."""
    at = os.path.join(machine.folder, "srv", "look")
    shutil.rmtree(at, ignore_errors=True)
    os.mkdir(at)
    machine.run("sh", "-c", f"cp {FOLDER}/room.db* /srv/look/")
    copy = os.path.join(at, "room.db")
    tally.differs(f"{name}: SQLite finds", findings_of(copy), [])
    kept = sh("sqlite3", copy, "SELECT sid, slot, seq FROM kept ORDER BY sid, slot").split()
    want = [f"{sid}|{slot}|{it[0]}" for (sid, slot), it in sorted(load.model.slots.items())]
    tally.differs(f"{name}: the last number of each slot", kept, want)
    # (but what fileroom-admin keeps in a trash)
    held = sh("sqlite3", copy, "SELECT hex(bytes) FROM doc JOIN node ON id = node WHERE name <> '@settled'")
    held = held.split("\n")[:-1]
    want = sorted(it.hex().upper() for it in load.documents())
    tally.differs(f"{name}: the documents", sorted(held), want)


class Standby:
    """The laboratory, its volume and its room. `on` is the machine that serves, where one does."""

    def __init__(self, folder):
        self.lab = Lab(folder)
        self.machines = self.lab.machines
        self.on, self.program = None, None

    def __enter__(self):
        self.lab.__enter__()
        for it in self.machines:
            self.prepare(it)
        first = self.machines[0]
        until(lambda: first.status("gluster", "peer", "status")[0] == 0, 60, "glusterd answers")
        self.make()
        return self

    def make(self):
        """The volume, by the shipped command, and the wall before it."""
        first, *others = self.machines
        first.run(TOOL, "make", NAME, *(it.address for it in self.machines))
        for it in others:
            it.run("sh", "-c", 'cat >"$1"', "sh", HOSTS, input=first.run("cat", HOSTS))
        for it in self.machines:
            it.run(WALL)

    def fresh(self, **changed):
        """All machines are up and nothing is served; a fresh room lies on a whole volume with the shipped settings, but
        for those that are named here, with `_` for each sign."""
        if self.program:
            self.program.end()
        self.on = None
        for it in self.machines:
            if not it.is_up():
                it.boot()
        first = self.machines[0]
        until(lambda: first.gluster("pool", "list").count("Connected") == 3, 60, "all machines are there")
        first.run(TOOL, "set", NAME)
        for option, value in changed.items():
            first.gluster("volume", "set", NAME, option.replace("__", ".").replace("_", "-"), value)
        for it in self.machines:
            if self.is_mounted(it):
                self.unmount(it)
        self.mount(first)
        until(lambda: self.is_connected(first), 60, "all copies are connected")
        first.run("sh", "-c", f"rm -f {DB}*")
        self.need_whole(first)
        first.run(*AS_USER, SERVED, "init", DB, "ann", "eng")
        return self

    def __exit__(self, *why):
        if self.program:
            self.program.is_wanted = False
        self.lab.__exit__(*why)

    def prepare(self, machine):
        """What each machine has: the user, the folders, the roster."""
        machine.run("systemd-sysusers", os.path.join(SERVICE, "sysusers.conf"))
        machine.run("mkdir", "-p", FOLDER, BRICK, "/etc/fileroom", "/srv/bin/standby")
        machine.run("chmod", "700", os.path.dirname(BRICK))
        machine.run("install", "-m", "755", PROGRAM, SERVED)
        for it, to in ("service/fileroom-ports", ""), ("front/fileroom.nft", ""), (
                "service/standby/gluster.nft", "standby"):
            machine.run("cp", os.path.join(TOP, it), f"/srv/bin/{to}")
        machine.run("sh", "-c", 'echo PORT=8001 >"$1"', "sh", ROSTER.replace(".toml", ".env"))
        roster = "[users]\n" + "".join(f"{it} = [{', '.join(map(repr, USERS[it]))}]\n" for it in USERS)
        machine.run("sh", "-c", 'cat >"$1"', "sh", ROSTER, input=roster.replace("'", '"'))

    def where(self):
        return self.on

    # Mount and program.

    def mount(self, machine):
        """As Pacemaker's lines do, and again where glusterd is not ready yet."""
        words = ["mount", "-t", "glusterfs", "-o", MOUNT, f"localhost:/{NAME}", FOLDER]
        until(lambda: machine.status(*words)[0] == 0, LISTENS, f"a mount on {machine.name}", 0.5)

    def keep_words(self):
        """Tells where the words of all machines are kept, for who looks into what went wrong."""
        print(f"standby: what each machine says is kept in {kept_words(self.machines)}", flush=True)

    def local(self):
        """In the place of the volume a folder of the first machine's own disk, with a fresh room."""
        first = self.fresh().machines[0]
        self.unmount(first)
        first.run("sh", "-c", f"rm -rf /srv/local; install -d -o fileroom -g fileroom /srv/local; "
                              f"mount --bind /srv/local {FOLDER}")
        first.run(*AS_USER, SERVED, "init", DB, "ann", "eng")
        return self

    def unmount(self, machine):
        machine.run("umount", FOLDER)

    def is_mounted(self, machine):
        return machine.status("mountpoint", "-q", FOLDER)[0] == 0

    def serve(self, machine):
        """Mounts it there where it is not, and serves: seconds until it listened."""
        begin = time.monotonic()
        if not self.is_mounted(machine):
            self.mount(machine)
        self.serve_here(machine)
        return time.monotonic() - begin

    def serve_here(self, machine):
        """Serves what is in the folder there."""
        self.program = Program(machine)
        until(self.program.listens, LISTENS, f"the room listens on {machine.name}: {self.program.faults[-3:]}", 0.02)
        self.on = machine

    def restart(self):
        """Ends the program and starts it again, where it was."""
        machine = self.on
        self.program.end()
        return self.serve(machine)

    def kill(self, machine):
        if self.program and self.program.machine is machine:
            self.program.is_wanted = False
        if self.on is machine:
            self.on = None
        machine.kill()

    # What it looks like.

    def is_connected(self, machine):
        """Whether this machine's mount has all three copies. (With one alone it answers nothing.)"""
        said = machine.status("sh", "-c", f"cat {FOLDER}/.meta/graphs/active/{NAME}-client-*/private")[1]
        return said.count("connected = 1") == 3

    def is_healed(self, machine):
        status, told, _ = machine.status("gluster", "volume", "heal", NAME, "info", "summary")
        counts = [line.rpartition(" ")[2] for line in told.splitlines() if line.startswith("Total Number of entries")]
        return status == 0 and counts == ["0"] * 3

    def knows_all(self, machine):
        return machine.status("gluster", "pool", "list")[1].count("Connected") == 3

    def need_whole(self, machine):
        """Waits until this machine's mount has all three copies, none is behind, and each machine knows the others: the
        seconds."""
        begin = time.monotonic()
        until(lambda: self.is_connected(machine), WHOLE, "all copies are connected")
        until(lambda: self.is_healed(machine), WHOLE, "no copy is behind", 0.5)
        for it in self.machines:
            until(lambda it=it: self.knows_all(it), WHOLE, f"{it.name} knows the others", 0.5)
        return time.monotonic() - begin

    def look(self, load, tally, name):
        """The program's reports, and the tables, are the model's. The program is ended for it, and started again."""
        machine = self.on
        load.close_line()
        self.program.end()
        for kind, want in load.model.reports().items():
            told = until(lambda: self.report(machine, kind), 30, f"a report on {machine.name}")
            tally.differs(f"{name}: report {kind}", told, want)
        look_at_tables(machine, load, tally, name)
        return self.serve(machine)

    def report(self, machine, kind):
        status, told, _ = machine.status(*AS_USER, SERVED, "report", DB, ROSTER, kind)
        return told if status == 0 else None
