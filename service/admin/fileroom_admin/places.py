"""Where everything lies on a machine, below a root, and how its programs are asked."""
import json
import os
import re
import subprocess
import tempfile

HERE = os.path.dirname(os.path.abspath(__file__))
SEARCHED = os.pathsep.join([os.environ.get("PATH", ""), "/usr/local/bin", "/usr/sbin"])
FRONT_FILES = {  # of the front's samples: where each goes
    "fileroom.conf": "etc/nginx/conf.d/fileroom.conf",
    "proxy.conf": "etc/nginx/fileroom/proxy.conf",
    "worker.conf": "etc/nginx/modules-enabled/60-fileroom.conf",
    "logrotate.conf": "etc/logrotate.d/fileroom",
}
BACKUP = re.compile(r"[0-9]{4}(-[0-9]{2}){2}T[0-9]{2}(-[0-9]{2}){2}Z")  # as fileroom-backup names one
WORKERS = "fileroom-front"  # the group of nginx's workers
LISTEN = "etc/nginx/fileroom/listen.conf"
LOGINS = "var/log/nginx/fileroom-logins.log"
CHANGES = "var/log/fileroom/changes.log"
BEHIND = "var/log/fileroom/behind.sock"
REDIRECT = "etc/nginx/conf.d/fileroom-redirect.conf"
ASIDE = "etc/nginx/fileroom/redirect.conf"  # the same, while the program is away


class Fault(Exception):
    """What is wrong, in a line for who called."""


def said(*words, stdin=""):
    """The status of a program, and all that it says."""
    env = {**os.environ, "PATH": SEARCHED, "LC_ALL": "C"}
    try:
        done = subprocess.run(words, input=stdin, capture_output=True, encoding="utf-8", errors="replace", env=env,
                              cwd="/", timeout=120)
    except FileNotFoundError:
        return 127, f"there is no {words[0]}"
    except subprocess.TimeoutExpired:
        return 124, f"{words[0]} took longer than two minutes"
    return done.returncode, (done.stdout + done.stderr).strip()


def said_before(name, *words):
    """The same; or what the unit of `check` had asked (fileroom-asked), since it may not ask that itself."""
    if "SAID" not in os.environ:
        return said(*words)
    status, _, told = read(os.path.join(os.environ["SAID"], name)).partition("\n")
    return int(status), told.strip()


def asked(*words, stdin=""):
    """What a program says that is to end well."""
    status, told = said(*words, stdin=stdin)
    if status:
        raise Fault(f"{' '.join(words[:4])}: {told[:300] or f'status {status}'}")
    return told


class Places:
    """A machine whose root is this folder: another one than / is for a test, and no owners are set there."""

    def __init__(self, root="/"):
        self.root = os.path.abspath(root)
        self.is_machine = self.root == "/"
        self.program = "fileroom" if self.is_machine else os.environ.get("FILEROOM", "fileroom")

    def at(self, path):
        return os.path.join(self.root, path)

    def roster(self, room):
        return self.at(f"etc/fileroom/{room}.toml")

    def env(self, room):
        return self.at(f"etc/fileroom/{room}.env")

    def has_standby(self, room):
        """Whether other machines can take the room over, by the file that `fileroom-standby make` writes."""
        return os.path.exists(self.at(f"etc/fileroom/{room}.hosts"))

    def unit(self, room):
        return f"fileroom-standby@{room}" if self.has_standby(room) else f"fileroom@{room}"

    def units(self, room):
        rejoin = [f"fileroom-rejoin@{room}.service"] if self.has_standby(room) else []
        backup = f"fileroom-backup@{room}"
        proxy = f"fileroom-proxy@{room}"
        return [f"{self.unit(room)}.service", *rejoin, f"{proxy}.socket", f"{proxy}.service", f"{backup}.service",
                f"{backup}.timer", f"fileroom-try@{room}.service", f"fileroom-try@{room}.timer"]

    def started(self, room):
        """Those that serve a room, back it up, and try its backups."""
        return f"fileroom@{room}", f"fileroom-backup@{room}.timer", f"fileroom-try@{room}.timer"

    def read_front(self, how="reload-or-restart"):
        """The words that have nginx read its files. (Where a room has a standby, the cluster's manager starts it.)"""
        is_managed = any(map(self.has_standby, self.rooms()))
        return "systemctl", f"try-{how}" if is_managed else how, "nginx"

    def state(self, room):
        return self.at(f"var/lib/fileroom/{room}")

    def file(self, room):
        return os.path.join(self.state(room), "room.db")

    def files(self, room):
        """A room's file and its log."""
        return self.file(room), f"{self.file(room)}-wal"

    def backups(self, room=""):
        return self.at(os.path.join("var/backups/fileroom", room))

    def copies(self, room):
        """The names of a room's backups, the latest last. (What begins with a dot is copied, and was not looked at; and
        what has another name is somebody's own.)"""
        folder = self.backups(room)
        return sorted(filter(BACKUP.fullmatch, os.listdir(folder) if os.path.isdir(folder) else []))

    def disks(self):
        """The folders of all rooms and of all backups, and those of a room that are on a disk of their own."""
        each = [it for room in self.rooms() for it in (self.state(room), self.backups(room))]
        return [self.at("var/lib/fileroom"), self.backups().rstrip("/"), *filter(os.path.ismount, each)]

    def front(self, name):
        return self.at(f"etc/nginx/fileroom/{name}")

    def rooms(self):
        """The rooms' names, by the files that their units read."""
        folder = self.at("etc/fileroom")
        names = os.listdir(folder) if os.path.isdir(folder) else []
        return sorted(it.removesuffix(".env") for it in names if it.endswith(".env"))

    def socket(self, room):
        return self.at(f"run/fileroom/{room}.sock")


def sample(name):
    """A file of the front as it was installed, or as the checkout has it."""
    for folder in "../../front", "../../../front":
        path = os.path.join(HERE, folder, name)
        if os.path.exists(path):
            return read(path)
    raise Fault(f"the front's file {name} is not installed")


def read(path, default=None, encoding="utf-8"):
    try:
        with open(path, encoding=encoding) as file:
            return file.read()
    except FileNotFoundError:
        if default is None:
            raise Fault(f"there is no {path}") from None
        return default
    except (OSError, UnicodeDecodeError) as fault:
        raise Fault(f"{path} cannot be read: {fault}") from None


def read_json(path, kind):
    """What a file has, which is a list or a dict; an empty one where it is not there. (People edit such by hand.)"""
    try:
        found = json.loads(read(path, json.dumps(kind())))
    except (ValueError, RecursionError) as fault:
        raise Fault(f"{path} is no JSON: {fault}") from None
    if not isinstance(found, kind):
        raise Fault(f"{path} is another JSON than {json.dumps(kind())} with something in it")
    return found


def write(text, path, mode=0o644, group=None):
    """A reader of the file has the text of before, or this one. (The unit of numbers may set no owner.)"""
    handle, made = tempfile.mkstemp(prefix=".fileroom-", dir=os.path.dirname(os.path.abspath(path)))
    try:
        with open(handle, "w", encoding="utf-8") as file:
            file.write(text)
            if group is not None:
                os.fchown(file.fileno(), -1, group)
            os.fchmod(file.fileno(), mode)  # (its name may be another file's by now, in a folder of somebody's)
        os.replace(made, path)
    except BaseException:
        os.unlink(made)
        raise
