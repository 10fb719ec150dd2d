"""PUT, MKCOL and DELETE."""
from room_client import trash
from room_client.faults import Refused
from room_client.manifest import MOST
from room_client.reading import large_at
from room_client.words import FILE

from . import pool
from .asked import Asked, Reply
from .faults import Answered, is_refused, making
from .names import above, below, for_making, has_blanks, is_below, is_short_lived, last
from .rules import Rules
from .saving import put_in_place
from .steps import Aside
from .tree import is_there, spelled, standing, sum_of
from .visit import Visit


def put(gate, visit: Visit, asked: Asked) -> Reply:
    if asked.field("Content-Range") is not None:
        raise Answered(400, "a part of a file cannot be put")
    data = asked.body(MOST)
    path, rules = place(gate, visit, asked, asked.path), Rules(visit, asked, gate.locks)
    rules.need()
    rules.need_free_to_put(path)
    need_folder_above(gate, visit, asked, path)
    is_new = (asked.field("If-None-Match") or "").strip() == "*"
    with gate.changing(asked.room, path):
        try:
            is_made = put_in_place(gate, visit, asked.room, path, data, is_new)
        except Refused as fault:
            if is_new and is_refused(fault, "EXIST"):
                raise Answered(412, str(fault)) from None
            raise
    return Reply(201 if is_made else 204, b"", [("ETag", f'"{sum_of(data)}"')])


def place(gate, visit: Visit, asked: Asked, path: str) -> str:
    """Where something is made, or replaced: as it stands, as what was moved aside from there was spelled, or as it is
    to be spelled. (Without its blanks a name may be another thing's, and whoever looks for what they made would not
    find it.)"""
    for_making(path)
    found = spelled(visit, path)
    as_asked = below(above(found), last(path))
    for it in gate.asides.of(asked.room, asked.user, as_asked):
        return it.path
    if has_blanks(found) and not is_there(visit, found):
        raise Answered(403, f"{path}: a new name does not begin or end with a blank: give it another")
    return found


def need_folder_above(gate, visit: Visit, asked: Asked, path: str) -> None:
    """Nothing is put into a large file. (Whether a folder is there at all, the room says.)"""
    parent = above(path)
    if parent == "/" or gate.memory.is_plain(asked.room, asked.user, parent):
        return
    try:
        is_file = large_at(visit, parent) is not None
    except Refused:
        return
    if is_file:
        raise Answered(409, f"{parent} is a file")
    gate.memory.note_plain(asked.room, asked.user, parent)


def mkcol(gate, visit: Visit, asked: Asked) -> Reply:
    if asked.length:
        raise Answered(415, "a folder is made without a body")
    path, rules = place(gate, visit, asked, asked.path), Rules(visit, asked, gate.locks)
    rules.need()
    rules.need_free(path, is_member=True)
    need_folder_above(gate, visit, asked, path)
    with gate.changing(asked.room, path):
        make_folder(visit, path)
    gate.asides.ends(asked.room, asked.user, path)
    return Reply(201)


def delete(gate, visit: Visit, asked: Asked) -> Reply:
    path, rules = standing(visit, asked.path), Rules(visit, asked, gate.locks)
    rules.need()
    rules.need_free(path, is_deep=True, is_member=True)
    with gate.changing(asked.room, path):
        discard(gate, visit, asked.room, path)
    gate.locks.drop_below(asked.room, path)
    return Reply(204)


def discard(gate, visit: Visit, room: str, path: str) -> None:
    """To the caller's trash, where there is one, by one request; else for good, with all that is in it. What was moved
    aside goes to the trash too, whatever its name, and waits there: it is no version of before. (A document of no bytes
    goes on from the trash, where nobody else puts something into it meanwhile.)"""
    one = gate.asides.is_aside(room, visit.settings.user, path)
    bin_ = None if is_short_lived(path) and not one else trash.trash_of(visit)
    if bin_ and one:
        trash.put_in_trash(RecordedRename(gate, visit, one), path, bin_)
    elif bin_ is None or path == trash.TOP or is_below(path, trash.TOP):
        pool.remove(visit, path)
    else:
        remove_empty(visit, bin_, trash.discard(visit, path, bin_, True))
    gate.asides.gone(room, visit.settings.user, path)


def remove_empty(visit: Visit, bin_: str, name: str) -> None:
    its, = visit.ask_all([{"cmd": "STAT", "keep": False, "path": below(bin_, name)}])  # (another's may refuse)
    if its.get("kind") == FILE and not its["size"]:
        visit.remove(below(bin_, name))


class RecordedRename:
    """Renames what was moved aside once more, which is on record before."""

    def __init__(self, gate, visit: Visit, one: Aside):
        self.asides, self.visit, self.one = gate.asides, visit, one

    def rename(self, path: str, to: str) -> dict:
        self.asides.keep(self.one, to)
        return self.visit.rename(path, to)


def make_folder(visit: Visit, path: str) -> None:
    try:
        visit.mkdir(path)
    except Refused as fault:
        raise making(fault) from None
