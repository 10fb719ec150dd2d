"""Who changed what is in a folder, and when: the room keeps no times, and the front's log of the latest changes has
some (front/fileroom.conf). They are told to whom the room, asked now, names the thing and lets read it.

The log names paths, and what is at a path may be another thing by now. So a line counts as long as no other one put
something to its path or took it away, or a folder above it; where two lines of two users may have come in either order,
neither; and only those since the room was last served from another file (service/fileroom-began). The room is asked
first: what had come to a path by then has its line in the log that is read after SETTLED; but that of a move whose
answer the front holds back comes behind the answer, so while one is under way nothing is told.
"""
import json
import random
import time
from dataclasses import dataclass, field

from room_client.manifest import FOLDER, NAME, is_hidden
from room_client.room import DONE_MOST
from room_client.words import read_mask

from .asked import Asked, Reply
from .names import above, below, is_below, last
from .tree import standing
from .visit import Visit

MOST = 1 << 20  # bytes of the log's end
SETTLED = 0.3  # seconds until the line of what the room has answered is there
MOVES = 409  # the front, while a move of the room is under way
SEES = read_mask("read,read-attributes")  # (of a folder that is to list it)
PUTS, TAKES = ("MKDIR", "CREATE", "RENAME"), ("REMOVE", "RENAME")
CHANGES = (*PUTS, "WRITE", "APPEND")
LOGS = "/latest.log", "/latest.log.1"
ROUNDED = 0.002  # seconds


def get(gate, visit: Visit, asked: Asked) -> Reply:
    folder = standing(visit, asked.path)
    names = seen(visit, folder)
    with visit.pace.floor.away():
        time.sleep(SETTLED)
    found = Latest(asked.room, folder).of(lines(gate, asked)).found if is_settled(gate, visit, asked) else {}
    told = json.dumps({name: [*found[name], kind] for name, kind in names.items() if name in found})
    return Reply(200, told.encode(), [("Content-Type", "application/json")])


def seen(visit: Visit, folder: str) -> dict[str, str]:
    """The names there, with the kinds, of what the caller may read, of a large file also its manifest. (Each is asked
    about, whether the log has it or not.)"""
    names = {it: kind for it, kind in visit.children(folder).items() if not is_hidden(it)}
    manifests = [f"{it}/{NAME}" for it, kind in names.items() if kind == FOLDER]
    replies = visit.ask_all({"cmd": "ACCESS", "keep": False, "mask": SEES, "path": below(folder, it)}
                            for it in [*names, *manifests])
    shut = {it.partition("/")[0] for it, reply in zip(manifests, replies[len(names):])
            if reply.get("allowed") != SEES and reply.get("error") != "NOENT"}
    return {it: names[it] for it, reply in zip(names, replies) if reply.get("allowed") == SEES and it not in shut}


def is_settled(gate, visit: Visit, asked: Asked) -> bool:
    """Whether no move is under way. (Two who ask at once take each other for one.)"""
    for _ in range(3):
        target = f"{LOGS[0]}?{asked.room}"
        if gate.seats.file_of_front(asked.user, asked.password, target, range="bytes=0-0")[0] != MOVES:
            return True
        with visit.pace.floor.away():
            time.sleep(random.uniform(0.02, 0.2))
    return False


def lines(gate, asked: Asked) -> list[bytes]:
    """The end of the log, the oldest first. (A line that is there twice, as the log is turned over, is as one that was
    sent again.)"""
    found = b""
    for target in LOGS:
        status, its = gate.seats.file_of_front(asked.user, asked.password, target, range=f"bytes=-{MOST}")
        if status not in (200, 206):  # (none is there, or nothing in it yet)
            continue
        found = its + found
        if len(its) == MOST:  # (it begins within a line)
            found = found.partition(b"\n")[2]
            break
    return found.splitlines()


@dataclass
class Line:
    """`since` and `end` are between which times the room was asked; `paths` are what it was asked to change."""
    user: str
    since: float
    end: float
    is_done: bool
    cmd: str
    paths: list[str]

    @property
    def changed(self) -> str:
        """What there is now, or is another by now."""
        return whole(self.paths[-1])


def whole(path: str) -> str:
    """Of a large file its folder."""
    return above(path) if last(path) == NAME else path


@dataclass
class Latest:
    room: str
    folder: str
    found: dict[str, tuple[str, int]] = field(default_factory=dict)  # by name, who changed it, and when
    ends: dict[str, tuple[str, float]] = field(default_factory=dict)  # by name, or "" for all: whose line, until when
    slots: dict[str, tuple] = field(default_factory=dict)  # the last request of each, and when it was first sent
    file: str = ""
    has_skipped: bool = False

    def of(self, all_lines: list[bytes]) -> "Latest":
        sign = f'"slot":"{self.room}/'.encode()
        for it in all_lines:
            if not (it.startswith(b"{") and it.endswith(b"}")):
                self.skip()  # (it may have been of this room)
            elif sign in it:
                self.take(it)
        return self

    def take(self, text: bytes) -> None:
        try:
            its = json.loads(text.decode("utf-8", "replace"))
            if its["slot"].partition("/")[0] != self.room:
                return
            if "file" in its:
                self.begins(its["file"])
                return
            line = self.line(its)
        except (ValueError, KeyError, TypeError, AttributeError, RecursionError):
            self.skip()  # (a command that was cut, or is none)
            return
        if line and line.cmd in (*CHANGES, *TAKES):
            self.act(line)

    def skip(self) -> None:
        """What cannot be read may have put anything anywhere, until the next line came."""
        self.found.clear()
        self.has_skipped = True

    def begins(self, file: str) -> None:
        """The room is served from this file."""
        if file != self.file:
            self.found.clear()
            self.slots.clear()  # (the room may know less of them by now)
        self.file = file

    def line(self, its: dict) -> Line | None:
        """None of what changed nothing: it was refused, or is sent again after it was done."""
        end = float(its["end"])
        if self.has_skipped:
            self.ends[""], self.has_skipped = ("", end), False
        slot, _, number = its["slot"].rpartition("/")
        this, since = (its["user"], number, its["asked"]), end - float(its["took"]) - ROUNDED
        before, first, was_done = self.slots.get(slot, (None, since, False))
        is_again, is_answered = before == this, its["status"] == "200"
        is_done = is_answered and int(its["length"]) <= DONE_MOST
        if its["status"] == "409" or is_again and was_done:
            return None
        self.slots[slot] = this, first if is_again else since, is_done
        if is_answered and not is_done:
            return None
        command = json.loads(its["asked"])
        paths = [command["path"], *([command["to"]] if command["cmd"] == "RENAME" else [])]
        if not all(isinstance(it, str) and it.startswith("/") for it in paths):
            raise ValueError(its["asked"])
        return Line(its["user"], self.slots[slot][1], end, is_done, command["cmd"], paths)

    def act(self, line: Line) -> None:
        if line.cmd in (*PUTS, *TAKES):
            for path in line.paths:
                if path == self.folder or is_below(self.folder, path):
                    self.found.clear()
                    self.is_clear("", line)
                elif above(whole(path)) == self.folder:
                    self.found.pop(last(whole(path)), None)
                    self.is_clear(last(whole(path)), line)
        name = last(line.changed)
        if above(line.changed) == self.folder and line.cmd in CHANGES and not is_hidden(name):
            is_clear = self.is_clear(name, line)
            if is_clear and line.is_done:
                self.found[name] = line.user, int(line.end)
            elif not is_clear:
                self.found.pop(name, None)

    def is_clear(self, name: str, line: Line) -> bool:
        """Whether it came after all that others did there."""
        before = [self.ends.get(it, ("", 0.0)) for it in {name, ""}]
        is_after = all(user == line.user or end <= line.since for user, end in before)
        user, end = self.ends.get(name, ("", 0.0))
        self.ends[name] = line.user if is_after else "", max(end, line.end)
        return is_after
