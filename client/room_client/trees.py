"""Folders of the room with all that is in them: walked, searched, and put beside folders of this machine."""
import base64
import fnmatch
import hashlib
import os
import unicodedata
from collections.abc import Callable, Iterator, Sequence
from dataclasses import dataclass

from . import files, local, trash
from . import manifest as form
from .faults import Fault, LocalFault, NotWhole, OtherVersion, Refused, SessionLost, refused, refused_as
from .local import Tree
from .manifest import Manifest
from .reading import manifests
from .room import MOST_BYTES, Room
from .words import FILE, FOLDER, neat, shown

OF_ONE = Refused, LocalFault, NotWhole, OtherVersion  # faults of one file, behind which others can go on
BATCH = 64  # files that are in memory at once
MOST_TOLD = 3  # folders of others


@dataclass
class RoomTree(Tree):
    """Below a folder of the room. A large file is a file, with its manifest in `large`."""

    def __post_init__(self):
        self.large: dict[str, Manifest] = {}
        self.mixed: list[Fault] = []  # of folders that are not large files alone: what of a file is in them is left out

    def why_not_here(self, path: str) -> str | None:
        """Why it gets no file here. One whose name put back into the room would be another's there is left out: it
        would take that one's place."""
        names = path.split("/")
        if not all(map(local.fits_here, names)):
            return "no file here can have that name"
        above = ("/".join(names[:it]) for it in range(1, len(names) + 1))
        if any(neat(it) != it and neat(it) in self.kinds for it in above):
            return "put back, it would take the place of another one in the room"
        return None


def join(top: str, path: str) -> str:
    return f"{top.rstrip('/')}/{path}"


def tree_of(room: Room, top: str) -> RoomTree:
    """One level after another. What may not be listed is told, and left out."""
    tree, level = RoomTree(), [""]
    while level:
        commands = [{"cmd": "LIST", "path": join(top, path) if path else top} for path in level]
        replies, level_below = room.ask_all(commands), []
        for path, reply, command in zip(level, replies, commands):
            if reply["code"] == 0:
                names = trash.without_pool(command["path"], dict(reply["names"]))
                level_below += add_level(room, tree, top, path, names)
            elif not path:
                raise refused(reply, command)
            else:
                tree.leave_shut(path, refused(reply, command), room.say)
        add_large(room, tree, top, level)
        level = level_below
    return tree


def add_level(room: Room, tree: RoomTree, top: str, path: str, names: dict[str, str]) -> list[str]:
    """Takes what is in one folder, and answers the folders in it. One that looks like a large file waits."""
    if path and (form.is_large(names) or form.is_unfinished(names)):
        tree.kinds[path] = form.NAME
        return []
    left, at = sum(map(form.is_hidden, names)), join(top, path) if path else top
    if form.NAME in names:
        tree.mixed.append(NotWhole(f"{shown(at)} is a large file beside other things: room get gets the file alone"))
    elif left:
        room.say(f"{shown(at)}: what uploads left there is left out ({left}): room ls names it")
    below = [f"{path}/{name}" if path else name for name in names if not form.is_hidden(name)]
    for it in below:
        tree.kinds[it] = names[it.rpartition("/")[2]]
    return [it for it in below if tree.kinds[it] == FOLDER]


def add_large(room: Room, tree: RoomTree, top: str, level: list[str]) -> None:
    paths = [it for it in level if tree.kinds.get(it) == form.NAME]
    for path, its in zip(paths, manifests(room, [join(top, it) for it in paths])):
        if its:
            tree.kinds[path], tree.large[path] = FILE, its
        else:
            del tree.kinds[path]
            tree.left_out.add(path)
            room.say(f"{shown(join(top, path))} is left out: an unfinished upload, or of another form")


def by_folder(tree: RoomTree) -> dict[str, list[str]]:
    """The names in each folder, those of folders with a / at their ends."""
    inside: dict[str, list[str]] = {}
    for path, kind in sorted(tree.kinds.items()):
        above, _, name = path.rpartition("/")
        inside.setdefault(above, []).append(name + "/" * (kind == FOLDER))
    return inside


def find(tree: RoomTree, top: str, pattern: str) -> Iterator[str]:
    """The paths below a folder whose name is as the pattern, or has it in it where it has no * ? or [."""
    fold = lambda text: unicodedata.normalize("NFC", text).casefold()  # noqa: E731
    wanted = fold(pattern if set(pattern) & set("*?[") else f"*{pattern}*")
    for path, kind in sorted(tree.kinds.items()):
        if fnmatch.fnmatchcase(fold(path.rpartition("/")[2]), wanted):
            yield join(top, path) + "/" * (kind == FOLDER)


# Many files at once

@dataclass
class Sent:
    """One file on its way into the room; `top` is the folder below which it was found."""

    place: str
    path: str
    top: str | None = None
    fault: Fault | None = None
    size: int = 0
    owner: str | None = None  # of the file that was there, where that is somebody else

    def __post_init__(self):
        # (a name here that is another in the room was never that file's: it takes no file's place)
        self.is_new = self.top is not None and not self.path.endswith("/" + os.path.relpath(self.place, self.top))

    def words(self) -> str:
        return version_of(self.owner)


def version_of(owner: str | None) -> str:
    """(Whoever may add could have put a file under the name that somebody is about to put.)"""
    return f", a new version of {shown(owner)}'s file" if owner else ""


def send_all(room: Room, pairs: Sequence[tuple], told: Callable[[Sent], None]) -> None:
    """Puts files of this machine at paths of the room; small ones several at once. `pairs` are as `Sent` has them."""
    for part in batched(pairs, BATCH):
        sent = [Sent(*it) for it in part]
        small = {}
        for it in sent:
            try:
                data = local.read_found(it.top, it.place, form.MOST + 1) if it.top else \
                    local.read_local(it.place, form.MOST + 1)
                it.size = len(data)
                if len(data) <= MOST_BYTES:
                    small[it.path] = data
                else:
                    send_one(room, it, data)
            except Fault as fault:
                it.fault = stop_on(fault)
        send_small(room, [it for it in sent if it.path in small and not it.fault], small)
        for it in sent:
            told(it)


def batched(items: Sequence, size: int) -> Iterator[Sequence]:
    for begin in range(0, len(items), size):
        yield items[begin:begin + size]


def stop_on(fault: Fault) -> Fault:
    """A fault of one file, behind which others can go on."""
    if isinstance(fault, SessionLost) or not isinstance(fault, OF_ONE):
        raise fault
    return fault


def send_one(room: Room, it: Sent, data: bytes) -> None:
    bar = local.Progress(it.path, len(data), form.PIECE)
    fills = it.path.rpartition("/")[2] == it.place.rpartition("/")[2]
    try:
        it.owner = files.write(room, it.path, data, is_new=it.is_new, fills=fills, heard=bar.heard)
    finally:
        bar.end()


def send_small(room: Room, sent: list[Sent], data: dict[str, bytes]) -> None:
    """Makes each document, or replaces its bytes; what is a large file there gets a version of one piece."""
    left = sent
    for cmd, goes_on in ("CREATE", "EXIST"), ("WRITE", "ISDIR"):
        commands = [{"cmd": cmd, "data": base64.b64encode(data[it.path]).decode(), "path": it.path} for it in left]
        replies = room.ask_all(commands)
        for it, reply, command in zip(left, replies, commands):
            it.fault = None if reply["code"] == 0 else refused(reply, command)
        written = [it for it, reply in zip(left, replies) if cmd == "WRITE" and reply["code"] == 0]
        left = [it for it, reply in zip(left, replies) if reply.get("error") == goes_on and not it.is_new]
    for it, reply in zip(written, room.ask_all({"cmd": "STAT", "path": it.path} for it in written)):
        it.owner = reply.get("owner") if reply.get("owner") != room.settings.user else None
    for it in left:
        try:
            it.fault = None
            it.owner = files.write(room, it.path, data[it.path])
        except Fault as fault:
            it.fault = stop_on(fault)


def fetch_all(room: Room, top: str, paths: Sequence[str], large: dict[str, Manifest],
              take: Callable[[str, bytes | Fault], None]) -> None:
    """The bytes of files below a folder, or why not."""
    small = [it for it in paths if it not in large]
    for part in batched(small, BATCH):
        commands = [{"cmd": "READ", "path": join(top, it)} for it in part]
        for path, reply, command in zip(part, room.ask_all(commands), commands):
            take(path, base64.b64decode(reply["data"]) if reply["code"] == 0 else refused(reply, command))
    for path in paths:
        if path in large:
            take(path, fetch_large(room, join(top, path), large[path].size))


def fetch_large(room: Room, path: str, size: int) -> bytes | Fault:
    bar = local.Progress(path, size, form.PIECE)
    try:
        return files.read(room, path, bar.heard)
    except Fault as fault:
        return stop_on(fault)
    finally:
        bar.end()


def make_folders(room: Room, top: str, paths: Sequence[str], take: Callable[[Fault], None]) -> list[str]:
    """Makes each folder that is not there yet, the upper ones first; `take` hears of one that cannot be made. Answers
    those that were there."""
    were_there = []
    for path in ["", *paths]:
        at = join(top, path) if path else top
        try:
            room.ask({"cmd": "MKDIR", "path": at}, is_step=True)
        except Refused as fault:
            if refused_as(fault, "EXIST"):
                were_there.append(at)
            elif not path:
                raise
            else:
                take(stop_on(fault))
    return were_there


def tell_owners(room: Room, paths: Sequence[str]) -> None:
    """Of folders that were there, those that are somebody else's. (Whoever may add could have made one under the name
    that somebody is about to put.)"""
    replies = zip(paths, room.ask_all({"cmd": "STAT", "path": it} for it in paths))
    others = [(path, it["owner"]) for path, it in replies if it.get("owner") not in (None, room.settings.user)]
    for path, owner in others[:MOST_TOLD]:
        room.say(f"{shown(path)} was there already: it is {shown(owner)}'s, who can read what comes into it")
    if others[MOST_TOLD:]:
        room.say(f"and {len(others) - MOST_TOLD} more folders are somebody else's")


def sums_of(room: Room, top: str, tree: RoomTree, paths: Sequence[str]) -> dict[str, str]:
    """SHA-256 of files of the room."""
    sums = {path: its.sha256 for path, its in tree.large.items()}
    small = [it for it in paths if it not in tree.large]
    fetch_all(room, top, small, {}, lambda path, data: sums.update(
        {path: ""} if isinstance(data, Fault) else {path: hashlib.sha256(data).hexdigest()}))
    return sums


def sizes_of(room: Room, top: str, tree: RoomTree, paths: Sequence[str]) -> dict[str, int]:
    sizes = {path: its.size for path, its in tree.large.items()}
    small = [it for it in paths if it not in tree.large]
    replies = room.ask_all({"cmd": "STAT", "path": join(top, it)} for it in small)
    return sizes | {path: reply.get("size", -1) for path, reply in zip(small, replies)}
