"""What is kept in files between two requests, so that each acts once though the client is killed.

The file has the session's name, and of slot 0 the number that was used last and, until its reply was told, the request
of that number. Each further slot has such a file beside it, which is of this session where it has its name. A file is
written, flushed and put in its place before a request of its slot goes out. One process has them at a time.
"""
import contextlib
import fcntl
import json
import os
import secrets
import time
from dataclasses import dataclass, replace

from .faults import LocalFault, reading

NUMBERS = 1 << 32
SLOTS = 4  # of a session that begins: so many requests are under way at once, at most, as a front takes of a login


@dataclass(frozen=True)
class Session:
    url: str
    user: str
    name: str
    is_open: bool = False
    number: int = 0
    pending: str | None = None
    slots: int = 1  # (a file of before has one)

    @classmethod
    def fresh(cls, url: str, user: str) -> "Session":
        return cls(url, user, secrets.token_hex(16), slots=SLOTS)


@dataclass(frozen=True)
class Kept:
    """What is kept of a slot: the number that was used last and, until its reply was told, the request."""

    number: int = 0
    pending: str | None = None


class State:
    """The session of one user in one room, in a file that this process has locked."""

    def __init__(self, path: str, url: str, user: str, patience: float):
        self.path = path
        try:
            os.makedirs(os.path.dirname(os.path.abspath(path)), mode=0o700, exist_ok=True)
            self.lock = os.open(path + ".lock", os.O_RDWR | os.O_CREAT, 0o600)
        except OSError as fault:
            raise LocalFault(f"{fault.filename}: {fault.strerror}: name another file with --state") from None
        try:
            self._take(patience)
            self.session = self._read(self.path, Session) or Session.fresh(url, user)
            self._fit(url, user)
            self.kept = [self._read_slot(slot) for slot in range(self.session.slots)]
        except BaseException:
            self.close()
            raise

    def _take(self, patience: float) -> None:
        end = time.monotonic() + patience
        while True:
            try:
                return fcntl.flock(self.lock, fcntl.LOCK_EX | fcntl.LOCK_NB)
            except BlockingIOError:
                if time.monotonic() >= end:
                    raise LocalFault(f"another process uses {self.path}: wait for it, or give --state") from None
                time.sleep(0.05)

    def _read(self, path: str, kind: type) -> Session | Kept | None:
        if not os.path.exists(path):
            return None
        try:
            with reading(path), open(path, encoding="utf-8") as file:
                found = json.load(file)
            if kind is Kept and found.pop("session") != self.session.name:
                return None
            return kind(**found)
        except (ValueError, TypeError, KeyError, AttributeError):
            raise LocalFault(f"{path} is no state file: name another one with --state") from None

    def _slot_path(self, slot: int) -> str:
        return f"{self.path}.{slot}"

    def _read_slot(self, slot: int) -> Kept:
        if slot == 0:
            return Kept(self.session.number, self.session.pending)
        return self._read(self._slot_path(slot), Kept) or Kept()

    def _fit(self, url: str, user: str) -> None:
        its = self.session
        if (its.url, its.user) != (url, user):
            raise LocalFault(f"{self.path} is for {its.user} at {its.url}: name another file with --state")

    def save(self, session: Session) -> None:
        """Writes the session, is sure that it is there, and takes it."""
        self._write(self.path, vars(session))
        if session.name != self.session.name:
            self._clear_slots()
            self.kept = [Kept() for _ in range(session.slots)]
        self.session, self.kept[0] = session, Kept(session.number, session.pending)

    def _clear_slots(self) -> None:
        """(What is left of them would be of another session, which is seen by its name.)"""
        for slot in range(1, self.session.slots):
            with contextlib.suppress(OSError):
                os.remove(self._slot_path(slot))

    def _write(self, path: str, what: dict) -> None:
        new = path + ".new"
        try:
            with open(os.open(new, os.O_WRONLY | os.O_CREAT | os.O_TRUNC, 0o600), "w", encoding="utf-8") as file:
                json.dump(what, file)
                file.flush()
                os.fsync(file.fileno())
            os.replace(new, path)
            self._flush_folder()
        except OSError as fault:
            raise LocalFault(f"{path} cannot be written: {fault.strerror}: nothing more was sent") from None

    def _flush_folder(self) -> None:
        folder = os.open(os.path.dirname(os.path.abspath(self.path)), os.O_RDONLY | os.O_DIRECTORY)
        try:
            os.fsync(folder)
        finally:
            os.close(folder)

    def keep(self, slot: int, kept: Kept) -> None:
        if slot == 0:
            return self.save(replace(self.session, **vars(kept)))
        self._write(self._slot_path(slot), {"session": self.session.name, **vars(kept)})
        self.kept[slot] = kept

    def record(self, request: str, slot: int = 0) -> None:
        """The request that is sent next in a slot, under its next number."""
        self.keep(slot, Kept((self.kept[slot].number + 1) % NUMBERS, request))

    def withdraw(self, slot: int = 0) -> None:
        """Nobody was sent the request on record: its number is free again."""
        self.keep(slot, Kept((self.kept[slot].number - 1) % NUMBERS))

    def told(self, slot: int = 0) -> None:
        """The reply to the request on record was told."""
        self.keep(slot, replace(self.kept[slot], pending=None))

    def pending(self) -> list[int]:
        """The slots with a request on record."""
        return [slot for slot, kept in enumerate(self.kept) if kept.pending is not None]

    def opened(self) -> None:
        self.save(replace(self.session, is_open=True))

    def begin_anew(self) -> None:
        self.save(Session.fresh(self.session.url, self.session.user))

    def close(self) -> None:
        os.close(self.lock)
