"""Locks: who holds which, kept in a file, and the field If, which names them.

They hold among callers of this gateway alone. A token is told to nobody but whoever has the lock, and counts for them
alone.
"""
import contextlib
import errno
import math
import os
import re
import secrets
import threading
import time
from collections import Counter
from dataclasses import asdict, dataclass, replace

from .faults import Answered, Busy
from .kept import line_of, read_lines, record
from .names import above, is_below
from .spool import disk
from .visit import boot_id

LONGEST = 1800  # seconds
MOST, MOST_OF_ONE = 10_000, 2000  # (davfs2 has one for each file that it has not put yet)
MOST_OVER = 1000  # lines of the file that are over, beside as many as hold
OFTEN = 60.0  # seconds after which a request has the file tell the time again
MOST_CONDITIONS = 50
WORDS = re.compile(r"\s*(?:(<[^<>]*>)|(\[[^\[\]]*\])|(\()|(\))|([Nn][Oo][Tt]\b))")


@dataclass(frozen=True)
class Lock:
    token: str
    room: str
    path: str
    user: str
    is_shared: bool
    is_deep: bool
    owner: str
    seconds: int
    end: float  # by the clock that nobody sets

    def covers(self, path: str) -> bool:
        return self.path == path or self.is_deep and is_below(path, self.path)


@dataclass(frozen=True)
class Stamp:
    """When it was, by the machine's start, its clock since then, and the one that can be set."""

    boot: str
    clock: float
    wall: float


def running() -> float:
    """Seconds since the machine's start, which nobody sets."""
    return time.clock_gettime(time.CLOCK_BOOTTIME)


class Held(Exception):
    """A lock is in the way of another."""

    def __init__(self, lock: Lock):
        super().__init__(lock)
        self.lock = lock


def write_line(file: int, what: list | dict) -> None:
    """At the end of a file, whole or not at all."""
    line = line_of(what)
    count = os.write(file, line)
    if count < len(line):
        os.ftruncate(file, os.fstat(file).st_size - count)
        raise OSError(errno.ENOSPC, os.strerror(errno.ENOSPC))


class Locks:
    """By rooms and paths. Each change is a line at the end of the file, which is written anew once most is over."""

    def __init__(self, path: str, now=running, wall=time.time, boot=boot_id):
        self.path, self.now, self.wall, self.boot = path, now, wall, boot
        self.mutex = threading.RLock()
        self.held: dict[str, Lock] = {}
        self.rooms: dict[str, dict[str, dict[str, Lock]]] = {}  # by path and token
        self.counts: Counter[str] = Counter()  # of users
        self.first_end, self.file = 0.0, -1
        self.stamp = Stamp("", 0.0, 0.0)  # (a file without one has ends by the clock that can be set)
        read_lines(path, self._take_line)
        self._go_on()
        with contextlib.suppress(Busy), disk():  # (the next lock has it written)
            self._write_anew()

    # What is kept

    def _take_line(self, line: object) -> None:
        """A list of locks that are held, the tokens of those that are gone, or the time."""
        if isinstance(line, list):
            for it in line:
                self._remember(record(Lock, it))
        elif "gone" in line:
            for token in line["gone"]:
                self._forget(token)
        else:
            self.stamp = record(Stamp, line)

    def _go_on(self) -> None:
        """By the clock of this start of the machine. After another one the clock that can be set says how long ago the
        file told the time; where that went back, no time went by."""
        before, self.stamp = self.stamp, Stamp(self.boot(), self.now(), self.wall())
        gone_by = max(self.stamp.wall - before.wall, 0.0)
        more = self.stamp.clock - before.clock - gone_by if before.boot != self.stamp.boot else 0.0
        for it in list(self.held.values()):
            self._remember(replace(it, end=min(it.end + more, self.stamp.clock + it.seconds)))

    def _tell_time(self) -> None:
        self.stamp = Stamp(self.stamp.boot, self.now(), self.wall())
        with contextlib.suppress(OSError):  # (a full disk)
            self._note(asdict(self.stamp))

    def _write_anew(self) -> None:
        """On a full disk the file stays as it is."""
        new = os.open(self.path + ".new", os.O_WRONLY | os.O_CREAT | os.O_TRUNC | os.O_APPEND, 0o600)
        try:
            for it in [asdict(self.stamp), *([asdict(it)] for it in self.held.values())]:
                write_line(new, it)
            os.replace(self.path + ".new", self.path)
        except OSError:
            os.ftruncate(new, 0)
            os.close(new)
            raise
        if self.file >= 0:
            os.close(self.file)
        self.file, self.lines = new, len(self.held)

    def _shorten(self) -> None:
        """Of lines that are over. (Before one is noted, which may tell of a lock that is not held yet.)"""
        if self.file < 0:
            self._write_anew()
        elif self.lines > 2 * len(self.held) + MOST_OVER:
            with contextlib.suppress(Busy), disk():
                self._write_anew()

    def _note(self, what: list | dict) -> None:
        self._shorten()
        write_line(self.file, what)
        self.lines += 1

    def _remember(self, lock: Lock) -> None:
        self._forget(lock.token)
        self.held[lock.token] = lock
        self.rooms.setdefault(lock.room, {}).setdefault(lock.path, {})[lock.token] = lock
        self.counts[lock.user] += 1
        self.first_end = min(self.first_end, lock.end)

    def _forget(self, token: str) -> None:
        lock = self.held.pop(token, None)
        if lock is None:
            return
        self.counts[lock.user] -= 1
        room = self.rooms[lock.room]
        del room[lock.path][token]
        if not room[lock.path]:
            del room[lock.path]

    def _paths(self, room: str) -> dict[str, dict[str, Lock]]:
        """Of a room, the locks that have not ended."""
        now = self.now()
        if now >= self.stamp.clock + OFTEN:
            self._tell_time()
        if now >= self.first_end:
            for token in [it.token for it in self.held.values() if it.end <= now]:
                self._forget(token)
            self.first_end = min((it.end for it in self.held.values()), default=math.inf)
        return self.rooms.get(room, {})

    # Which there are

    def on(self, room: str, path: str) -> list[Lock]:
        with self.mutex:
            return list(self._paths(room).get(path, {}).values())

    def at(self, room: str, path: str) -> list[Lock]:
        """Those that cover it: its own first."""
        found = self.on(room, path)
        while path != "/":
            path = above(path)
            found += [it for it in self.on(room, path) if it.is_deep]
        return found

    def below(self, room: str, top: str) -> list[Lock]:
        with self.mutex:
            return [it for path, its in self._paths(room).items() if is_below(path, top) for it in its.values()]

    def named(self, room: str, token: str, user: str) -> Lock | None:
        with self.mutex:
            self._paths(room)
            lock = self.held.get(token)
            return lock if lock and (lock.room, lock.user) == (room, user) else None

    def in_the_way(self, room: str, path: str, is_deep: bool, is_shared: bool) -> list[Lock]:
        """Those beside which a new lock cannot be, those of the path itself first."""
        found = self.at(room, path) + (self.below(room, path) if is_deep else [])
        return [it for it in found if not (is_shared and it.is_shared)]

    def foreign(self, room: str, path: str, user: str, tokens: set[str], *, is_deep: bool = False,
                is_member: bool = False) -> Lock | None:
        """A lock that keeps this caller from changing what is at a path: with `is_deep` also what is below it, with
        `is_member` also which names the folder above has."""
        found = self.at(room, path) + (self.below(room, path) if is_deep else [])
        found += self.on(room, above(path)) if is_member else []
        mine = {it for it in tokens if self.named(room, it, user)}
        for lock in found:
            beside = {it.token for it in self.on(room, lock.path) if it.is_shared}
            if lock.token not in mine and not (lock.is_shared and beside & mine):
                return lock
        return None

    # Changes

    def take(self, room: str, path: str, user: str, is_shared: bool, is_deep: bool, owner: str, seconds: int) -> Lock:
        with self.mutex:
            for lock in self.in_the_way(room, path, is_deep, is_shared):
                raise Held(lock)
            if len(self.held) >= MOST or self.counts[user] >= MOST_OF_ONE:
                raise Busy("there are too many locks")
            token = f"opaquelocktoken:{secrets.token_hex(16)}"
            return self._keep(Lock(token, room, path, user, is_shared, is_deep, owner, seconds, self.now() + seconds))

    def refresh(self, lock: Lock, seconds: int) -> Lock:
        with self.mutex:
            return self._keep(replace(lock, seconds=seconds, end=self.now() + seconds))

    def _keep(self, lock: Lock) -> Lock:
        with disk():
            self._note([asdict(lock)])
        self._remember(lock)
        return lock

    def drop(self, tokens: list[str]) -> None:
        with self.mutex:
            for token in tokens:
                self._forget(token)
            if tokens:
                with contextlib.suppress(OSError):  # (a full disk: after a kill they are there until they end)
                    self._note({"gone": tokens})

    def drop_below(self, room: str, path: str) -> None:
        """What is gone, or has another name, is locked no longer."""
        with self.mutex:
            self.drop([it.token for it in [*self.on(room, path), *self.below(room, path)]])


@dataclass(frozen=True)
class Condition:
    is_not: bool
    kind: str  # token or etag
    value: str


def conditions_of(field: str) -> list[tuple[str | None, list[Condition]]]:
    """The lists of a field If, each with the address that it is about (None is the one of the request)."""
    found, address, listed, is_not, at = [], None, None, False, 0
    field = field.strip()
    while at < len(field):
        word = WORDS.match(field, at)
        if not word or len(found) > MOST_CONDITIONS:
            raise Answered(400, "the field If is none")
        at = word.end()
        angle, square, opens, closes, nots = word.groups()
        if opens and listed is None:
            listed = []
        elif closes and listed:
            found.append((address, listed))
            listed = None
        elif angle and listed is None:
            address = angle[1:-1]
        elif (angle or square) and listed is not None and len(listed) < MOST_CONDITIONS:
            listed.append(Condition(is_not, "token" if angle else "etag", (angle or square)[1:-1]))
        elif not (nots and listed is not None and not is_not):
            raise Answered(400, "the field If is none")
        is_not = bool(nots)
    if listed is not None or not found:
        raise Answered(400, "the field If is none")
    return found


def tokens_of(conditions: list[tuple[str | None, list[Condition]]]) -> set[str]:
    return {it.value for _, listed in conditions for it in listed if it.kind == "token"}


def timeout_of(field: str | None) -> int:
    """The first time of a list that is taken, in seconds."""
    for word in (field or "").split(","):
        told = re.fullmatch(r"\s*Second-([0-9]{1,10})\s*", word, re.IGNORECASE)
        if told:
            return min(max(int(told[1]), 1), LONGEST)
    return LONGEST
