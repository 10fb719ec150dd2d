"""One request's way to a room: the caller's own login to the front, over its socket, in a session that is kept.

What `room_client` has is used as it is. Four things differ from the command `room`: the front is reached by its socket
(front.py); a file is not flushed, since what a start of the machine ends is not late either, and another session begins
then; what was left pending is never done late; and a refusal by the front is known by its status.
"""
import base64
import contextlib
import errno
import functools
import json
import os
import threading
from collections import OrderedDict
from dataclasses import replace

from room_client import Room, Settings
from room_client.faults import Fault, LocalFault, SessionLost
from room_client.room import CHANGES, counted, unheard
from room_client.slots import Pace, Slot
from room_client.state import Session, State

from .front import Connections, FrontLine
from .pool import bin_of
from .turns import Floor

# Requests a second of one user, behind some at once (a folder of 256 is listed, or a file of 16 MiB taken): both below
# what the front's socket takes of one (front/fileroom.conf).
RATE, BURST = 400.0, 500.0
PAGE = 4096
WIDTH = 4  # slots of a session: with four sessions of a user that is what a front takes of one at once
AT_ONCE = 2  # requests to rooms of one user, over all sessions: a room answers one at a time, and others wait for few
MOST_IDLE = 128  # sessions whose files stay open
BOOT = "/proc/sys/kernel/random/boot_id"


def boot_id() -> str:
    """(Where systemd starts the gateway it says so, and /proc does not tell.)"""
    if "BOOT_ID" in os.environ:
        return os.environ["BOOT_ID"]
    with open(BOOT, encoding="ascii") as file:
        return file.read().strip()


class KeptState(State):
    """As the command `room` has it, and no flush: it lasts over a kill of this program, and a start of the machine is
    seen. Between two visits it is kept, so that its files are read once."""

    away = contextlib.nullcontext  # (the floor's, once a seat has it)
    width = WIDTH
    home: "States | None" = None  # (once it is whole)
    is_noted = False  # that it is of this start of the machine

    def __init__(self, *how):
        super().__init__(*how)
        if not self.session.is_open:
            self.session = replace(self.session, slots=self.width)

    def begin_anew(self) -> None:
        self.save(replace(Session.fresh(self.session.url, self.session.user), slots=self.width))

    def close(self) -> None:
        self.home.leave(self) if self.home else super().close()

    def _read(self, path: str, kind: type):
        """(What a halt of the machine cut is as if it was not there: another session begins.)"""
        try:
            return super()._read(path, kind)
        except LocalFault:
            return None

    def _write(self, path: str, what: dict) -> None:
        """One page in its place, which a kill does not cut: a file that is replaced waits for the disk."""
        text = json.dumps(what | {"pending": without_bytes(what["pending"])}).encode().ljust(PAGE)
        if len(text) == PAGE and is_page(path):
            return write_private(path, text, os.O_WRONLY)
        with self.away():
            write_private(path + ".new", text, os.O_WRONLY | os.O_CREAT | os.O_TRUNC)
            os.replace(path + ".new", path)

    @property
    def boot_path(self) -> str:
        return self.path + ".boot"

    def is_of_this_start(self) -> bool:
        if not self.is_noted:
            with contextlib.suppress(OSError, ValueError), open(self.boot_path, encoding="ascii") as file:
                self.is_noted = file.read() == boot_id()
        return self.is_noted

    def note_start(self) -> None:
        with open(self.boot_path, "w", encoding="ascii") as file:
            file.write(boot_id())
        self.is_noted = True


class LaterState(KeptState):
    width = 1


class States:
    """Those that no visit has. (One visit has a session at a time: seats.py.)"""

    def __init__(self):
        self.mutex, self.idle = threading.Lock(), OrderedDict()

    def take(self, kind: type[KeptState], path: str, *how) -> KeptState:
        with self.mutex:
            its = self.idle.pop(path, None)
        if its and not os.path.exists(path):  # (its files were taken away)
            its.home = None
            its.close()
            its = None
        if its is None:
            its = kind(path, *how)
            its.home = self
        return its

    def leave(self, its: KeptState) -> None:
        """(Who came long ago is read again.)"""
        with self.mutex:
            self.idle[its.path] = its
            old = self.idle.popitem(last=False)[1] if len(self.idle) > MOST_IDLE else None
        if old:
            old.home = None
            old.close()


def without_bytes(request: str | None) -> str | None:
    """What stands in a file of a request. It is never sent from there, so the bytes of a document are not written with
    it: of the piece of a large file that was half of the gateway's work."""
    if request is None:
        return None
    begin, sign, rest = request.partition('"data":"')  # (the quotes of a name have a \ before them)
    return begin + sign + rest[rest.find('"'):] if sign else request


def is_page(path: str) -> bool:
    with contextlib.suppress(FileNotFoundError):
        return os.stat(path).st_size == PAGE
    return False


def write_private(path: str, text: bytes, how: int) -> None:
    file = os.open(path, how, 0o600)
    try:
        if os.pwrite(file, text, 0) < len(text):
            raise OSError(errno.ENOSPC, os.strerror(errno.ENOSPC))
    finally:
        os.close(file)


class UserPace(Pace):
    """What all requests to rooms of one user share: how many go out a second, how many are under way, and the floor,
    which others have during each wait."""

    def __init__(self, user: str, floor: Floor):
        super().__init__(is_free=False, rate=RATE, burst=BURST)
        self.user, self.floor, self.places = user, floor, threading.BoundedSemaphore(AT_ONCE)

    def computing(self):
        return self.floor.of(self.user)

    def rest(self, seconds: float) -> None:
        with self.floor.away():
            super().rest(seconds)

    @contextlib.contextmanager
    def place(self):
        if not self.places.acquire(blocking=False):
            with self.floor.away():
                self.places.acquire()
        try:
            yield
        finally:
            self.places.release()


class Seat(Slot):
    """A slot that tells its visit what the front answered in the room's place."""

    front_status = 0

    def __init__(self, *how):
        super().__init__(*how)
        self.line.away = self.pace.floor.away
        if self.state:
            self.state.away = self.pace.floor.away

    def ask(self, command: dict) -> dict:
        with self.pace.computing():  # (also by a thread of its own)
            return super().ask(command)

    def _attempt(self, *how):
        with self.pace.place():
            return super()._attempt(*how)

    def need_done(self, answer, command=None):
        if answer.reply is None and not answer.is_held:
            self.front_status = answer.status
        return super().need_done(answer, command)

    def whom(self) -> str:
        """(The address behind the gateway is nothing to its callers.)"""
        return "the room"


class Visit(Room):
    """A room during one request of WebDAV. `has_changed` says whether a change was done by it, or may have been."""

    slot_kind = Seat

    def __init__(self, settings: Settings, front: Connections, states: States, pace: UserPace):
        super().__init__(settings, self._heard)
        self.line_kind = lambda settings, _: FrontLine(front, settings)
        self.states, self.pace, self.state_kind = states, pace, functools.partial(states.take, KeptState)
        self.has_changed, self.told = False, []

    def _heard(self, text: str) -> None:
        """(What the command `room` prints: of uploads that were stopped, and what is left of them.)"""
        self.told.append(text)

    def settle(self) -> None:
        """(What comes behind an answer has threads of its own: no request waits for it.)"""

    def settle_now(self) -> None:
        super().settle()

    def move_to(self, settings: Settings) -> None:
        """Another session, in which it asks one thing at a time, so that its user's next request goes on beside it."""
        self.settings, self.state_kind, self.slots = settings, functools.partial(self.states.take, LaterState), {}

    @functools.cached_property
    def bin(self) -> str | None:
        return bin_of(self)

    @property
    def is_lost(self) -> bool:
        """Whether the room knows the session no more."""
        return any(isinstance(it.left, SessionLost) for it in self.slots.values())

    @property
    def front_status(self) -> int:
        return next((it.front_status for it in self.slots.values() if it.front_status), 0)

    def _begin(self) -> None:
        its = self.state
        if its.session.is_open and not its.is_of_this_start():
            with contextlib.suppress(Fault):
                self.close_session()  # (the room forgets what it held)
            its.begin_anew()
        if not its.session.is_open:
            its.note_start()
            its.save(its.session)
            self._open()
        for number in its.pending():
            self.slot(number).was_taken(json.loads(its.kept[number].pending))
            its.told(number)

    def __exit__(self, *_) -> None:
        """(What was answered is pending no longer, however the visit ends.)"""
        super().__exit__(None, None, None)

    def _hang_up(self) -> None:
        for slot in self.slots.values():
            slot.line.leave()

    def begin_anew(self) -> None:
        """Another session, at the next visit, where the room does not know this one."""
        self.state.begin_anew()

    def ask(self, command: dict, is_step: bool = False) -> dict:
        is_change = command["cmd"] in CHANGES
        try:
            reply = super().ask(command, is_step)
        except SessionLost:
            self.has_changed |= is_change and self.slot().may_be_sent  # (no answer came before: it may have acted)
            raise
        self.has_changed |= is_change
        return reply

    def ask_all(self, commands, heard=unheard, keeps=lambda _, reply: reply) -> list:
        def kept(at: int, reply: dict):
            with self.pace.computing():
                return keeps(at, reply)
        commands = counted(commands)
        try:
            with self.pace.floor.away():
                return super().ask_all(commands, heard, kept)
        finally:
            self.has_changed |= any(it["cmd"] in CHANGES for it in commands)

    # (what only looks needs no reply that is kept: if it is lost, it is asked anew)

    def read(self, path: str) -> bytes:
        return base64.b64decode(self.ask({"cmd": "READ", "keep": False, "path": path})["data"])

    def children(self, path: str) -> dict[str, str]:
        return dict(self.ask({"cmd": "LIST", "keep": False, "path": path})["names"])

    def stat(self, path: str) -> dict:
        return self.ask({"cmd": "STAT", "keep": False, "path": path})

    def access(self, path: str, mask: int) -> int:
        return self.ask({"cmd": "ACCESS", "keep": False, "mask": mask, "path": path})["allowed"]


def file_of_front(front: Connections, settings: Settings, pace: UserPace, target: str, fields: dict) -> (
        tuple[int, bytes]):
    """What the front answers to a caller's own login, beside the rooms: asked until it answers, as a room is."""
    line = FrontLine(front, settings)
    line.fields |= fields
    try:
        return Seat(0, line, settings, None, pace, lambda _: None).until_answered("GET", target, "").status, line.text
    finally:
        line.leave()
