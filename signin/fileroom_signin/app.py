"""What nginx is answered: 204, 401, or 503 where the directory does not answer."""
import base64
import collections
import contextlib
import json
import os
import re
import threading
import time
from collections.abc import Iterable, Iterator

from .directory import Directory, Down
from .known import Known

NAME = re.compile(r"[A-Za-z0-9._-]{1,32}")  # of a user of a roster
MOST = 256  # letters of a password
ROSTER = ".users.json"  # a room's users, as the page has them
READ_FOR = 5  # seconds
# Who waits for the directory holds a thread: so many ask it at once, and so many more wait a moment for a place. The
# last right password of a name has places apart: others may be guesses, and a directory may be slow to say no.
AT_ONCE, LAST_AT_ONCE, BEHIND = 16, 8, 8
PATIENCE = 0.2  # seconds
THREADS = AT_ONCE + LAST_AT_ONCE + 2 * BEHIND + 8  # so that who was right a moment ago waits for nobody
REASONS = {204: "No Content", 401: "Unauthorized", 503: "Service Unavailable"}


class Users:
    """Whom the rooms have. Nobody else is asked about: no other account of the directory can be tried here, nor `ANN`
    for `ann`, which a directory takes for the same. Where rosters have both, it is asked about neither."""

    def __init__(self, folder: str, tell):
        self.folder, self.lock, self.names, self.until = folder, threading.Lock(), frozenset(), 0.0
        self.twins, self.tell = [], tell

    def __contains__(self, name: str) -> bool:
        with self.lock:
            if time.monotonic() > self.until:
                self.names, self.until = self.read(), time.monotonic() + READ_FOR
            return name in self.names

    def read(self) -> frozenset:
        names = set()
        for it in filter(lambda name: name.endswith(ROSTER), os.listdir(self.folder)):
            with open(os.path.join(self.folder, it), encoding="utf-8") as file:
                names |= {*map(str, json.load(file))}
        many = collections.Counter(map(str.lower, names))
        before, self.twins = self.twins, sorted(it for it in names if many[it.lower()] > 1)
        if self.twins not in ([], before):
            self.tell(f"nobody is asked about names that differ by capitals alone: {', '.join(self.twins)}")
        return frozenset(names).difference(self.twins)


class Places:
    """For so many who ask at once, and some who wait."""

    def __init__(self, at_once: int):
        self.asking, self.all = threading.BoundedSemaphore(at_once), threading.BoundedSemaphore(at_once + BEHIND)

    def place(self):
        return held(self.all, 0)

    def place_to_ask(self):
        return held(self.asking, PATIENCE)


@contextlib.contextmanager
def held(places: threading.BoundedSemaphore, patience: float) -> Iterator[None]:
    if not places.acquire(timeout=patience):
        raise Down("too many questions are under way")
    try:
        yield
    finally:
        places.release()


class SignIn:
    """`rooms` is the folder of the front's with each room's users."""

    def __init__(self, conf: dict, rooms: str, tell=print):
        self.directory, self.known, self.users = Directory(conf, tell), Known(conf), Users(rooms, tell)
        self.places, self.places_of_last = Places(AT_ONCE), Places(LAST_AT_ONCE)

    def __call__(self, environ: dict, start_response) -> Iterable[bytes]:
        try:
            status = 204 if self.is_right(environ) else 401
        except Down as fault:
            self.directory.note(str(fault))
            status = 503
        except (OSError, ValueError) as fault:
            self.directory.note(f"the rooms' users cannot be read: {fault}")
            status = 503
        start_response(f"{status} {REASONS[status]}", [("content-length", "0")] * (status != 204))
        return [b""]

    def is_right(self, environ: dict) -> bool:
        user, word = login_of(environ.get("HTTP_AUTHORIZATION", ""))
        if user != environ.get("HTTP_FILEROOM_NAME") or user not in self.users:
            return False
        mark = self.known.mark(user, word)
        if self.known.is_right(mark):
            return True
        return not self.known.is_shut(user, mark) and self.waits(user, word, mark)

    def waits(self, user: str, word: str, mark: bytes) -> bool:
        places = self.places_of_last if self.known.is_last(user, mark) else self.places
        with places.place():
            return self.known.once(mark, lambda: self.is_right_there(user, word, mark, places))

    def is_right_there(self, user: str, word: str, mark: bytes, places: Places) -> bool:
        begun = self.known.begin(user, mark)
        if begun is None:
            return False
        try:
            with places.place_to_ask():
                is_right = self.directory.is_right(user, word)
        except Down as fault:
            if not fault.may_count:
                self.known.forget(user, begun)
            raise
        if not is_right:
            self.known.lose(user, mark)
            return False
        self.known.forget(user, begun)
        self.known.take(user, mark)
        return True


def login_of(field: str) -> tuple[str | None, str]:
    """Name and password of a field `authorization`. (A directory lets anybody in who gives no password.)"""
    kind, _, its = field.partition(" ")
    try:
        user, _, word = base64.b64decode(its.strip(), validate=True).decode().partition(":")
    except ValueError:  # (by whatever letter: nginx reads what stands before the `=`, and may know that login)
        return None, ""
    is_one = kind.lower() == "basic" and NAME.fullmatch(user) and 0 < len(word) <= MOST and "\0" not in word
    return (user, word) if is_one else (None, "")
