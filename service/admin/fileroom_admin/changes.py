"""A change of several files and services, whole or not at all.

The new files are written beside the old ones, and a journal says what is to happen. Then they are renamed into place,
looked at, and the services take them. A fault undoes all of it. Where the machine or this program stops in the middle,
the next call reads the journal: up to the mark `decided` it undoes, from there on it goes on, unless it was undoing.
"""
import contextlib
import fcntl
import grp
import hashlib
import json
import os
import pwd
import stat
import subprocess
import time

from .asking import answers
from .owned import of_backups
from .places import HERE, SEARCHED, Fault, asked, read_json, said

JOURNAL, LOCK = "etc/fileroom/admin.journal", "etc/fileroom/admin.lock"
NEW, OLD = ".fileroom-new", ".fileroom-old"
FOLDER = os.O_RDONLY | os.O_DIRECTORY | os.O_NOFOLLOW | os.O_CLOEXEC
# What another process of theirs can take: it gets no terminal of root's, and of root's environment the path.
AS_ROOMS = ("setsid", "-w", "env", "-i", f"PATH={SEARCHED}", "setpriv", "--reuid=fileroom", "--regid=fileroom",
            "--clear-groups", "--")
RENEW = os.path.join(HERE, "../../fileroom-renew")
MANY = 5  # starts of a program that ends each time
MOST_SAID = 4096  # bytes of what a process of the rooms' user says
OWN_FILE = os.O_RDWR | os.O_CREAT | os.O_NOFOLLOW | os.O_CLOEXEC


def beside(path, end):
    """(No name that nginx would include.)"""
    return os.path.join(os.path.dirname(path), f".{os.path.basename(path)}{end}")


def forget(path):
    with contextlib.suppress(FileNotFoundError):
        os.unlink(path)


def sum_of(data):
    return None if data is None else hashlib.sha256(data).hexdigest()


def sum_in(path):
    """Of what a file has now, or nothing where there is none."""
    with contextlib.suppress(FileNotFoundError), open(path, "rb") as file:
        return sum_of(file.read())


def bring_back(path, was):
    if not was:
        forget(path)
    elif os.path.exists(beside(path, OLD)):
        os.link(beside(path, OLD), beside(path, NEW))
        os.replace(beside(path, NEW), path)


def keep(path):
    """Has the disk hold what a folder says."""
    folder = os.open(os.path.dirname(path), os.O_RDONLY)
    os.fsync(folder)
    os.close(folder)


def write(path, data, mode, owner):
    forget(path)
    with open(path, "wb", opener=lambda name, flags: os.open(name, flags | os.O_EXCL, 0o600)) as file:
        file.write(data)
        if owner:
            os.chown(path, *owner)
        os.chmod(path, mode)
        file.flush()
        os.fsync(file.fileno())


class Change:
    """What is to become of files and services. `room` is a room whose file is made with it, by its owner and group, or
    is there already where it has none; where all is undone, the file is put aside. `drawn` are users whose password is
    in no file, but its hash."""

    def __init__(self, places):
        self.places = places
        self.files, self.looks, self.does, self.undoes, self.room, self.drawn = {}, [], [], [], None, []

    def put(self, path, text, mode=None, group=None):
        """(A file that is there keeps its mode and owner, unless a mode is given.)"""
        self.files[path] = text if isinstance(text, bytes) else text.encode(), mode, group

    def remove(self, path):
        self.files[path] = None, 0, None

    def look(self, *words):
        """What has to end well once the files are there, before a service reads them."""
        self.looks.append(words)

    def then(self, *words, undo=None):
        """A service's part, once the files are there; and what brings back the old state, by itself the same."""
        self.does.append(words)
        self.undoes.insert(0, undo or words)

    def happen(self, tell=lambda: None):
        """What each service said. `tell` tells the passwords, while the journal still says whose they are."""
        files = [[path, os.path.exists(path), sum_of(data)] for path, (data, *_) in self.files.items()]
        for path, was, its_sum in files:
            os.makedirs(os.path.dirname(path), exist_ok=True)
            forget(beside(path, OLD))
            if was:
                os.link(path, beside(path, OLD))
            if its_sum:
                self.prepare(path, was)
        return Journal(self.places, {"files": files, "room": self.room, "looks": self.looks, "does": self.does,
                                     "undoes": self.undoes, "drawn": self.drawn}).play(tell)

    def prepare(self, path, was):
        data, mode, group = self.files[path]
        owner = (0, grp.getgrnam(group).gr_gid if group else 0) if self.places.is_machine else None
        if was and not mode:
            now = os.stat(path)
            mode, owner = stat.S_IMODE(now.st_mode), (now.st_uid, now.st_gid)
        write(beside(path, NEW), data, mode or 0o644, owner)


class Journal:
    def __init__(self, places, says):
        self.places, self.says, self.path = places, says, places.at(JOURNAL)

    def write(self, state):
        self.says["state"] = state
        write(beside(self.path, NEW), json.dumps(self.says).encode(), 0o600, None)
        os.replace(beside(self.path, NEW), self.path)
        keep(self.path)

    def play(self, tell):
        """Does it all, or undoes it and says why."""
        try:
            self.write("prepared")
            for path, _, its_sum in self.says["files"]:
                if its_sum:
                    os.replace(beside(path, NEW), path)
                else:
                    forget(path)
                keep(path)
            if self.says["room"] and self.says["room"][1:]:
                make_room(self.places, *self.says["room"])
            for words in self.says["looks"]:
                asked(*words)
            self.write("decided")
            return self.finish(tell)
        except BaseException:
            self.undo()
            raise

    def finish(self, tell=lambda: None):
        """What each service said."""
        told = [self.do(*words) for words in self.says["does"]]
        tell()
        self.clear()
        return told

    def do(self, *words):
        if words[0] == "answers":
            return wait_until_answers(self.places, words[1])
        return renew(self.places, words[1]) if words[0] == "renew" else asked(*words)

    def undo(self):
        """The files of before, but where somebody else wrote one since, and services that have read them."""
        was_decided = self.says["state"] in ("decided", "undoing")
        with contextlib.suppress(OSError):  # (on a full disk too)
            self.write("undoing" if was_decided else "prepared")
        if self.says["room"]:
            put_aside(self.places.state(self.says["room"][0]))
        for path, was, its_sum in self.says["files"]:
            forget(beside(path, NEW))
            if its_sum == sum_in(path):
                bring_back(path, was)
        if was_decided:
            for words in self.says["undoes"]:
                said(*words)
        self.clear()

    def clear(self):
        forget(self.path)
        keep(self.path)
        for path, *_ in self.says["files"]:
            forget(beside(path, OLD))
            forget(beside(path, NEW))


@contextlib.contextmanager
def begun(places, room):
    """Has the next call put a room's file aside that comes to its place meanwhile, where this one is stopped."""
    journal = Journal(places, {"files": [], "room": [room], "looks": [], "does": [], "undoes": []})
    try:
        journal.write("prepared")
        yield
    finally:
        journal.clear()


def make_room(places, name, owner, group):
    state = places.state(name)
    for folder in os.path.dirname(state), state, places.backups().rstrip("/"):
        own_folder(places, folder)
    asked(*AS_ROOMS, places.program, "init", places.file(name), "--", owner, group)


def renew(places, room):
    """New numbers for the objects of a room that rests, or why it is as it was. (However long that takes; and what a
    process of the rooms' user says is bounded.)"""
    words = [*(AS_ROOMS if places.is_machine else ()), RENEW, places.file(room), places.roster(room)]
    how = {"stdin": subprocess.DEVNULL, "stdout": subprocess.PIPE, "stderr": subprocess.STDOUT, "cwd": "/"}
    with subprocess.Popen(words, env={**os.environ, "PATH": SEARCHED}, **how) as it:
        told = of_backups().shown(it.stdout.read(MOST_SAID).decode(errors="replace").strip())
    if it.returncode:
        raise Fault(told)
    return told


def own_folder(places, path):
    """A folder of the rooms' user, whose other folders that user could turn into links: none is followed."""
    os.makedirs(os.path.dirname(path), exist_ok=True)
    with contextlib.suppress(FileExistsError):
        os.mkdir(path, 0o700)
    folder = os.open(path, FOLDER)
    try:
        if places.is_machine:
            its = pwd.getpwnam("fileroom")
            os.fchown(folder, its.pw_uid, its.pw_gid)
    finally:
        os.close(folder)


def put_aside(state):
    """A room that was made is not removed: somebody may have put another one there since."""
    with contextlib.suppress(FileNotFoundError, NotADirectoryError):
        folder = os.open(state, FOLDER)
        try:
            for name in {"room.db", "room.db-wal"} & {*os.listdir(folder)}:
                os.replace(name, f"{name}.undone-{int(time.time())}", src_dir_fd=folder, dst_dir_fd=folder)
        finally:
            os.close(folder)


def wait_until_answers(places, room):
    """A room's program is soon there, or never; on another root than / nothing is started."""
    end = time.monotonic() + 120  # (a large one reads its file)
    most = (starts_again(room) if places.is_machine else 0) + MANY
    while places.is_machine and not answers(places.socket(room)):
        if time.monotonic() > end or starts_again(room) >= most:
            raise Fault(f"the room {room} does not answer: journalctl -u fileroom@{room} -u fileroom-proxy@{room}")
        time.sleep(0.1)


def starts_again(room):
    """How often systemd started its program again, which had ended, since somebody started the unit."""
    told = said("systemctl", "show", "--property=NRestarts", f"fileroom@{room}")[1].removeprefix("NRestarts=")
    return int(told) if told.isdecimal() else 0


@contextlib.contextmanager
def alone(places, tell):
    """One call at a time; and what a call before left in the middle is undone, or goes on, first."""
    os.makedirs(places.at("etc/fileroom"), exist_ok=True)
    with open(places.at(LOCK), "rb+", opener=lambda path, _: os.open(path, OWN_FILE, 0o600)) as lock:
        os.fchmod(lock.fileno(), 0o600)  # (who can read it can lock it)
        fcntl.flock(lock, fcntl.LOCK_EX)
        recover(places, tell)
        yield


def recover(places, tell):
    path = places.at(JOURNAL)
    if os.path.exists(path):
        journal = Journal(places, read_json(path, dict))
        if journal.says["state"] == "decided":
            tell("continuing a change that was stopped")
            for user in journal.says.get("drawn", ()):
                tell(f"it may not have told the password of {user}: fileroom-admin user passwd {user}")
            try:
                journal.finish()
            except Fault:
                journal.undo()
                raise
        else:
            tell("undoing a change that was stopped")
            journal.undo()
    for folder in "etc/fileroom", "etc/nginx/fileroom", "etc/nginx/fileroom/rooms", "etc/nginx/fileroom/queues", \
            "etc/nginx/fileroom/dav", "etc/nginx/fileroom/signin", "etc/nginx/fileroom/tls", "etc/nginx/conf.d", \
            "etc/nginx/modules-enabled", "etc/nginx", "etc/logrotate.d", "var/log/fileroom", "var/log/nginx":
        clear_folder(places.at(folder))


def clear_folder(folder):
    """What a call left that was stopped before it wrote its journal."""
    for name in os.listdir(folder) if os.path.isdir(folder) else []:
        if name.endswith((NEW, OLD)):
            forget(os.path.join(folder, name))
