"""What a stop must not make the gateway forget: who moved what aside a moment ago, and what is between two steps. Both
are kept in files, as locks are.

No login is kept: so what a stop left half done is put right at the next request of whoever began it, or of somebody
else to that folder who may.
"""
import contextlib
import os
import secrets
import threading
import time
from collections.abc import Callable, Iterator
from dataclasses import asdict, dataclass, replace

from room_client.faults import Fault, NoAnswer, SessionLost
from room_client.words import shown

from .kept import line_of, read_lines, record, say
from .names import above, composed, is_below
from .spool import disk

MINUTES = 10  # within which what takes the place of a document that was moved aside is its new version
MOST_OF_ONE, MOST = 100, 2000
DAYS = 30  # that what was left half done is remembered
MOST_LEFT = 1000


@dataclass(frozen=True)
class Aside:
    room: str
    user: str
    path: str  # what it had
    aside: str  # what it has
    known: str  # what it is known by, so that nobody lays another document there
    end: float


@dataclass(frozen=True)
class Step:
    """What is begun. `kind` says how it is put right: `back` gives what is at `aside` its path back, `opens` the list
    of its folder to what is at `path`, and `exchange` is told of in saving.py."""

    kind: str
    room: str
    user: str
    path: str
    aside: str = ""
    copy: str = ""
    source: str = ""
    folder: str = ""
    text: str = ""
    takes: bool = False
    when: float = 0.0
    key: str = ""


def read_all(path: str, kind: type) -> list:
    found = []

    def take(line: list) -> None:
        found.extend(record(kind, it) for it in line)
    if read_lines(path, take):
        with contextlib.suppress(OSError):  # (a full disk)
            write_all(path, found)
    return found


def write_all(path: str, its: list) -> None:
    with open(os.open(path + ".new", os.O_WRONLY | os.O_CREAT | os.O_TRUNC, 0o600), "wb") as file:
        file.writelines(line_of([asdict(it)]) for it in its)
    os.replace(path + ".new", path)


class Asides:
    """By whom what was moved aside, and what was made a moment ago (which is no document yet that is moved aside)."""

    def __init__(self, path: str, now=time.time):
        self.path, self.now, self.mutex = path, now, threading.RLock()
        self.kept: list[Aside] = read_all(path, Aside)
        self.fresh: dict[tuple[str, str, str], float] = {}

    def _save(self, kept: list[Aside]) -> None:
        now = self.now()
        self.kept = [it for it in kept if it.end > now][-MOST:]
        with contextlib.suppress(OSError):  # (a full disk: it is remembered until the next start)
            write_all(self.path, self.kept)

    def made(self, room: str, user: str, path: str) -> None:
        with self.mutex:
            now = self.now()
            self.fresh[room, user, path] = now + MINUTES * 60
            if len(self.fresh) > MOST:
                self.fresh = {key: end for key, end in self.fresh.items() if end > now}
            while len(self.fresh) > MOST:
                del self.fresh[next(iter(self.fresh))]

    def is_fresh(self, room: str, user: str, path: str) -> bool:
        with self.mutex:
            return self.fresh.get((room, user, path), 0.0) > self.now()

    @contextlib.contextmanager
    def moving(self, room: str, user: str, source: str, target: str, known: str | None) -> Iterator[None]:
        """Something gets another name, aside where it is `known`: it is on record before, for who is stopped behind
        it."""
        end, path, is_aside = self.now() + MINUTES * 60, source, known is not None
        with self.mutex:
            its = self.is_aside(room, user, source)
            if its:
                is_aside = its.path != target and known is not None
                path, end, known = its.path, its.end, its.known
            one = Aside(room, user, path, target, known or "", end)
            if is_aside:
                mine = [it for it in self.kept if it.user == user]
                self._save([it for it in self.kept if it not in mine[:1 - MOST_OF_ONE]] + [one])
        try:
            yield
        except (NoAnswer, SessionLost):  # (it may lie there)
            raise
        except BaseException:
            self._each(lambda it: None if it == one else it)
            raise
        self.moved(room, user, source, target, one)

    def _each(self, becomes: Callable[[Aside], Aside | None]) -> None:
        with self.mutex:
            kept = [it for it in map(becomes, self.kept) if it]
            if kept != self.kept:
                self._save(kept)

    def moved(self, room: str, user: str, source: str, target: str, one: Aside | None = None) -> None:
        """Something has another name. Who moves on what they moved aside, but to lie aside as `one`, or brings
        something else to its name, has two documents. Where somebody else moves it on in its folder it is followed, and
        else it is not found. (It is, too, where they give its name back, which they could take again.)"""
        def becomes(it: Aside) -> Aside | None:
            if it == one or it.room != room:
                return it
            if it.user == user:
                is_over = it.aside == target and it.path != source
                return None if is_at(it.aside, source) or it.path == target or is_over else it
            return replace(it, aside=target) if it.aside == source and above(target) == above(it.path) else it
        self._each(becomes)

    def of(self, room: str, user: str, path: str) -> list[Aside]:
        """Where it may be, the latest first: however its name is spelled."""
        with self.mutex:
            return [it for it in reversed(self.kept) if (it.room, it.user) == (room, user)
                    and composed(it.path) == composed(path) and it.end > self.now()]

    def is_aside(self, room: str, user: str, path: str) -> Aside | None:
        with self.mutex:
            return next((it for it in self.kept if (it.room, it.user, it.aside) == (room, user, path)
                         and it.path != path and it.end > self.now()), None)

    def keep(self, one: Aside, aside: str) -> None:
        """It lies somewhere else now."""
        with self.mutex:
            self._save([*self.kept, replace(one, aside=aside)])

    def gone(self, room: str, user: str, top: str) -> None:
        """Who moved it aside has removed it, or what it was in."""
        self._each(lambda it: None if (it.room, it.user) == (room, user) and is_at(it.aside, top) else it)

    def ends(self, room: str, user: str, path: str) -> None:
        """Who moved aside what had the name has made something else of that name."""
        self._each(lambda it: None if (it.room, it.user, it.path) == (room, user, path) else it)


def is_at(path: str, top: str) -> bool:
    return path == top or is_below(path, top)


class Steps:
    def __init__(self, path: str, now=time.time):
        self.path, self.now, self.mutex = path, now, threading.RLock()
        self.kept: dict[str, Step] = {it.key: it for it in read_all(path, Step)}
        self.left = set(self.kept)  # by a stop, or where no answer came
        for it in self.kept.values():
            say(f"left by a stop in room {it.room}: {of_what(it)}: the next request of {it.user} puts it right, or of "
                "whoever may")

    def _save(self) -> None:
        write_all(self.path, list(self.kept.values()))

    def begin(self, step: Step) -> Step:
        """Once it is in the file it may be begun."""
        with self.mutex:
            its = replace(step, when=self.now(), key=secrets.token_hex(8))
            self.kept[its.key] = its
            try:
                with disk():
                    self._save()
            except BaseException:
                del self.kept[its.key]
                raise
            return its

    def end(self, its: Step) -> None:
        with self.mutex:
            self.left.discard(its.key)
            if self.kept.pop(its.key, None):
                with contextlib.suppress(OSError):  # (a full disk: there is nothing to put right any more)
                    self._save()

    def leave(self, its: Step) -> None:
        """(Too much, or too old, is told and forgotten.)"""
        with self.mutex:
            self.left.add(its.key)
            old = [it for it in self.kept.values() if it.key in self.left and it.when < self.now() - DAYS * 86400]
            many = [self.kept[key] for key in list(self.kept) if key in self.left][:-MOST_LEFT]
            for it in {it.key: it for it in old + many}.values():
                say(f"given up in room {it.room}: {of_what(it)}")
                self.end(it)

    @contextlib.contextmanager
    def under_way(self, step: Step, undo: Callable[[Step, BaseException], bool]) -> Iterator[Step]:
        """What `undo` can't undo, or the room does not answer to, is left for later."""
        its = self.begin(step)
        try:
            yield its
        except BaseException as why:
            is_undone = False
            with contextlib.suppress(Fault):
                is_undone = undo(its, why)
            self.end(its) if is_undone else self.leave(its)
            raise
        self.end(its)

    def claim(self, room: str, user: str, folders: set[str]) -> list[Step]:
        """What is left for a caller who asks in these folders: nobody else is handed it meanwhile."""
        with self.mutex:
            found = [self.kept[key] for key in self.left if self.kept[key].room == room and (
                self.kept[key].user == user or above(self.kept[key].path) in folders)]
            self.left -= {it.key for it in found}
            return found


def of_what(it: Step) -> str:
    if it.kind == "opens":
        return f"{shown(it.path)} still has a list of its own"
    return f"{shown(it.path)} may lie as {shown(it.copy or it.aside)}"
