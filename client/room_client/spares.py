"""Spares: the documents of a version before, which take the bytes of a later one, so that no object is made. Whoever
could once write to the file may have prepared them: docs/FILES.md has what is looked at, when, and why that is enough.
"""
from collections.abc import Iterable

from . import manifest as form
from .faults import Refused, refused
from .room import Room
from .words import FILE, FOLLOWS, INHERITED, NOT_HERE, TO_FILES

READ, EXECUTE = 0x1, 0x20
FIRST = "/000"  # emptied last: without bytes it says that the others have none


def has_own_list(its: dict) -> bool:
    """Whether a list is another than what was handed down."""
    return its["aclflag"] != FOLLOWS or not all(it["flag"] & INHERITED for it in its["entries"])


def looks(path: str, *asked: str) -> list[dict]:
    return [{"cmd": it, "keep": False, "path": path} for it in asked]


def is_as_new(its: dict, its_list: dict, whole: dict, user: str) -> bool:
    """Whether an object of a large file is as the user would make it now, by what STAT and GETLIST tell."""
    return not (its["code"] or its_list["code"] or has_own_list(its_list)) and (
        its["owner"] in (whole["owner"], user) and its["group"] == whole["group"])


def documents_of(room: Room, folder: str, whole: dict) -> frozenset[str] | None:
    """The documents of a folder that fits. (What is below it is looked at once the version is there.)"""
    names, its, its_list = room.ask_all(looks(folder, "LIST", "STAT", "GETLIST"))
    is_ours = names["code"] == 0 and are_pieces(dict(names["names"]))
    fits = is_ours and is_as_new(its, its_list, whole, room.settings.user) and may_read(its_list["entries"])
    return frozenset(dict(names["names"])) if fits else None


def are_pieces(names: dict[str, str]) -> bool:
    """Whether these are documents as an upload names them."""
    return all(kind == FILE and form.OUR_PIECE.fullmatch(it) for it, kind in names.items())


def may_read(entries: Iterable[dict]) -> bool:
    """Whether everybody who may pass a folder with this list may read what is made in it: then no list of what is there
    shows a byte to anybody else. (Entry by entry; no, where that takes more thought.)"""
    for it in entries:
        passes = it["mask"] & EXECUTE and not it["flag"] & NOT_HERE
        reads = it["mask"] & READ and it["flag"] & TO_FILES
        if (passes and not reads) if it["type"] == 0 else (reads and not passes):
            return False
    return True


def are_as_new(room: Room, paths: list[str], whole: dict) -> bool:
    """Whether documents that took bytes are as new ones would be."""
    told = room.ask_all([ask for it in paths for ask in looks(it, "STAT", "GETLIST")])
    return all(is_as_new(*it, whole, room.settings.user) for it in zip(told[::2], told[1::2]))


def empty(room: Room, paths: list[str]) -> None:
    """No bytes are left in these documents, the first piece last. (One that is gone was taken, or removed.)"""
    last = [it for it in paths if it.endswith(FIRST)]
    for part in [it for it in paths if it not in last], last:
        commands = [{"cmd": "WRITE", "data": "", "path": it} for it in part]
        for reply, command in zip(room.ask_all(commands), commands):
            if reply["code"] and reply.get("error") != "NOENT":
                raise refused(reply, command)


def is_empty(room: Room, folder: str) -> bool:
    try:
        return room.stat(folder + FIRST)["size"] == 0
    except Refused:
        return False
