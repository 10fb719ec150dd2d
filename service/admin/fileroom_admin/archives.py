"""The archive of a whole room, one tar file: written whole or not at all, and read as what anybody may have made."""
import contextlib
import io
import json
import os
import re
import stat
import tarfile
import tempfile
import time

from . import held, rosters
from .changes import keep
from .owned import of_backups
from .places import Fault

FORM = 1
ABOUT, DB, LOG, ROSTER, LOGINS, NAMES = "about.json", "room.db", "room.db-wal", "roster.toml", "logins", "names.json"
BOUNDS, CERT, KEY = "bounds.json", "tls/cert.pem", "tls/key.pem"
TEXTS = {ABOUT: 1 << 12, ROSTER: 1 << 20, LOGINS: 1 << 20, NAMES: 1 << 20, BOUNDS: 1 << 20, CERT: 1 << 16,
         KEY: 1 << 16}  # their bytes
NEEDED = {ABOUT, DB, ROSTER, LOGINS, NAMES}
PLAIN = tarfile.REGTYPE, tarfile.AREGTYPE
LONG = re.compile(r"\d\d size=(\d{10,15})\n")  # before a member of 8 GiB or more, whose head has no place for its size
PIECE = 1 << 20
NEW_HERE = os.O_WRONLY | os.O_CREAT | os.O_EXCL | os.O_NOFOLLOW | os.O_CLOEXEC


@contextlib.contextmanager
def new_file(path):
    """One that its maker alone may read, which is whole or not there. The disk has it, and its name."""
    file = open(os.open(path, NEW_HERE, 0o600), "wb")
    try:
        with file:
            yield file
            file.flush()
            os.fsync(file.fileno())
        keep(os.path.abspath(path))
    except BaseException:
        os.unlink(path)
        raise


def add(tar, member, data):
    its = tarfile.TarInfo(member)
    its.size, its.mode, its.mtime = len(data), 0o600, int(time.time())
    tar.addfile(its, io.BytesIO(data))


def add_file(tar, member, handle):
    with open(handle, "rb") as file:
        its, about = os.fstat(file.fileno()), tarfile.TarInfo(member)
        if not stat.S_ISREG(its.st_mode):
            raise Fault(f"{member} of the backup is no file")
        about.size, about.mode, about.mtime = its.st_size, 0o600, int(its.st_mtime)
        tar.addfile(about, file)


class Archive:
    """An open one: where the bytes of each plain member begin, and how many there are."""

    def __init__(self, file, path):
        self.file, self.path, self.members = file, path, {}
        self.read_heads(os.fstat(file.fileno()).st_size)
        for it in sorted(NEEDED - {*self.members}):
            raise self.fault(f"there is no {it}")
        about = self.json(ABOUT)
        if about.get("form") != FORM:
            raise Fault(f"{path} is of another form, by a newer program")
        self.room, self.had_dav = str(about.get("room")), about.get("dav") is True

    def fault(self, why):
        return Fault(f"{self.path} is not what `room export` makes: {of_backups().shown(str(why))[:200]}")

    def read_heads(self, end):
        """(One head at a time, by the library's reader of heads: all of `tarfile` takes links, and sparse and endless
        members too.)"""
        at, size = 0, None
        while (head := self.read(at, tarfile.BLOCKSIZE)) != bytes(tarfile.BLOCKSIZE):
            try:
                its = tarfile.TarInfo.frombuf(head, "utf-8", "strict")
            except (tarfile.TarError, ValueError) as fault:
                raise self.fault(fault) from None
            at += tarfile.BLOCKSIZE
            if its.type == tarfile.XHDTYPE and size is None:
                size = self.long_size(at, its.size)
                at += tarfile.BLOCKSIZE
            else:
                self.take(its, at, its.size if size is None else size, end)
                at += -(-self.members[its.name][1] // tarfile.BLOCKSIZE) * tarfile.BLOCKSIZE
                size = None

    def long_size(self, at, length):
        told = LONG.fullmatch(self.read(at, max(0, min(length, tarfile.BLOCKSIZE))).decode(errors="replace"))
        if not told:
            raise self.fault("a member is no plain file")
        return int(told[1])

    def take(self, its, at, size, end):
        if its.type not in PLAIN or its.name not in {*TEXTS, DB, LOG}:
            raise self.fault(f"{its.name} is no part of a room, or no plain file")
        if its.name in self.members:
            raise self.fault(f"{its.name} stands twice")
        if not 0 <= size <= TEXTS.get(its.name, end):
            raise self.fault(f"{its.name} has {size} bytes")
        if at + size > end:
            raise self.fault(f"its end is not there, in {its.name}")
        self.members[its.name] = at, size

    def read(self, at, size):
        self.file.seek(at)
        return self.file.read(size)

    def text(self, member):
        try:
            return self.read(*self.members[member]).decode()
        except UnicodeDecodeError as fault:
            raise self.fault(f"{member}: {fault}") from None

    def json(self, member):
        """An object of texts and numbers."""
        try:
            found = json.loads(self.text(member))
        except (ValueError, RecursionError) as fault:
            raise self.fault(f"{member}: {fault}") from None
        if not isinstance(found, dict):
            raise self.fault(f"{member} is no object")
        return found

    def names(self):
        found = self.json(NAMES)
        for it in found.values():
            if not isinstance(it, str):
                raise self.fault(f"a name of {NAMES} is no text")
            rosters.need_display_name(it)
        return found

    def bounds(self):
        """What a login may ask of the room in a day; nothing where none was set."""
        found = self.json(BOUNDS) if BOUNDS in self.members else {}
        if not held.are_bounds(found):
            raise self.fault(f"{BOUNDS} has something else than bounds")
        for it in (*found.get("groups", {}), *found.get("users", {})):
            rosters.need_name(it, f"{BOUNDS}: the name")
        return found

    def has_certificate(self):
        return {CERT, KEY} <= {*self.members}

    def space(self):
        """Bytes that the room takes, once the program has read what its log has into its file."""
        return self.members[DB][1] + 2 * self.members.get(LOG, (0, 0))[1]

    def copy(self, member, to):
        at, left = self.members[member]
        self.file.seek(at)
        while left:
            data = self.file.read(min(left, PIECE))
            if not data:
                raise self.fault(f"its end is not there, in {member}")
            left -= len(data)
            to.write(data)

    @contextlib.contextmanager
    def pair(self):
        """The certificate and its key, as files that nobody else may read."""
        with tempfile.TemporaryDirectory(prefix="fileroom-") as folder:
            paths = [os.path.join(folder, it) for it in ("cert", "key")]
            for path, member in zip(paths, (CERT, KEY)):
                with open(os.open(path, NEW_HERE, 0o600), "w", encoding="utf-8") as file:
                    file.write(self.text(member))
            yield paths


@contextlib.contextmanager
def opened(path):
    with open(os.open(path, os.O_RDONLY | os.O_NONBLOCK | os.O_CLOEXEC), "rb") as file:
        if not stat.S_ISREG(os.fstat(file.fileno()).st_mode):
            raise Fault(f"{path} is no file")
        yield Archive(file, path)
