"""Files of up to 16 MiB, by their paths: a small one is a document, and a large one a folder with pieces and a
manifest."""
from collections.abc import Callable

from . import manifest as form
from .faults import Refused, refused_as
from .manifest import MOST, read_manifest
from .parts import PREPARED, manifest_follows
from .reading import manifest_in, of_version, pieces_of, text_at
from .room import MOST_BYTES, Room, unheard
from .uploads import Upload
from .words import shown

TOO_LARGE = "a file has at most 16 MiB (16,777,216 bytes): split it; nothing was sent"


def read(room: Room, path: str, heard: Callable[[dict], None] = unheard) -> bytes:
    """All bytes of a file, of one version."""
    try:
        return room.read(path)
    except Refused as fault:
        if not refused_as(fault, "ISDIR"):
            raise
        text = text_at(room, path)
        if text is None or read_manifest(text) is None:
            raise fault
    data = of_version(room, path, text, lambda its: pieces_of(room, path, its, heard))
    if not manifest_follows(room, path):
        room.say(f"{shown(path)}: {PREPARED}: save it anew")
    return data


def write(room: Room, path: str, data: bytes, **how) -> str | None:
    """As `put`. The owner of the file, where that is somebody else."""
    return other_owner(room, path) if put(room, path, data, **how) else None


def put(room: Room, path: str, data: bytes, *, is_new: bool = False, fills: bool = False, is_known: bool = False,
        heard: Callable[[dict], None] = unheard) -> bool:
    """Makes the file, or a new version of it: with `is_new` only where nothing is there. With `fills` an empty folder
    is taken for what is left of an upload that was stopped. A document that `is_known` is most likely there, and takes
    one request. Whether a file was there before."""
    need_size(data, path)
    if len(data) > MOST_BYTES:
        return Upload(room, path, data, heard).run(is_new, fills)
    if is_known and not is_new and is_written(room, path, data):
        return True
    try:
        room.create(path, data)
        return False
    except Refused as fault:
        if is_new or not refused_as(fault, "EXIST"):
            raise
    try:
        room.write(path, data)
    except Refused as fault:
        if not refused_as(fault, "ISDIR") or not takes_versions(room, path):
            raise
        Upload(room, path, data, heard).run(is_new, fills)
    return True


def is_written(room: Room, path: str, data: bytes) -> bool:
    """Into a document, where one is there."""
    try:
        room.write(path, data)
        return True
    except Refused as fault:
        if not refused_as(fault, "NOENT", "NOTDIR", "ISDIR"):
            raise
        return False


def other_owner(room: Room, path: str) -> str | None:
    """Who else owns it, as far as one may see."""
    reply, = room.ask_all([{"cmd": "STAT", "path": path}])
    return None if reply.get("owner") in (None, room.settings.user) else reply["owner"]


def takes_versions(room: Room, path: str) -> bool:
    return form.is_unfinished(room.children(path)) or manifest_in(room, path) is not None


def need_size(data: bytes, path: str) -> None:
    if len(data) > MOST:
        raise Refused({"code": 9, "error": "FBIG"}, {"path": path}, TOO_LARGE)
