"""The trash: what was removed lies in a folder of the caller's own in /trash, where there is one, until it is emptied.
docs/FILES.md has its place, and the names in it."""
import calendar
import re
import time
from collections.abc import Callable
from dataclasses import dataclass

from . import manifest as form
from .clearing import file_at, looking_again, remove_all, remove_file
from .faults import ACCESS, BadWords, Fault, Refused, refused_as
from .local import is_in
from .room import Room
from .words import FOLDER, GROUP, is_following, neat, shown

TOP = "/trash"
SEPARATOR, CUT = "~", "…"
MOST_BYTES = 64  # of a name
STAMP = "%Y%m%d%H%M%S"
TRIES = 30
ASK = "ask who runs the room for one (fileroom-admin trash)"


class NotYours(Fault):
    """A trash of the caller's name that others could read."""


def places_of(user: str) -> list[str]:
    """Where a user's trash is, and where it was in rooms of before. (A folder holds 256 things, and a room has up to
    1,000 users.)"""
    return [f"{TOP}/@{sum(user.encode()) % 16:x}/{user}", f"{TOP}/{user}"]


def without_pool(path: str, names: dict[str, str]) -> dict[str, str]:
    """The names in a folder. Where it is a trash, the gateway keeps pieces of removed files there, without bytes, which
    no upload left."""
    if path not in places_of(path.rpartition("/")[2]):
        return names
    return {it: kind for it, kind in names.items() if not (form.is_hidden(it) and it.startswith(form.GONE))}


def trash_of(room: Room) -> str | None:
    """The caller's trash for what is removed, where there is one, and nobody else could read it there."""
    path = own_trash(room)
    if path and not is_private(room.get_list(path), room.settings.user):
        raise NotYours(f"the list of your trash {shown(path)} does not keep others out, who could read what you "
                       f"remove: {ASK}; or room rm --for-good")
    return path


def own_trash(room: Room) -> str | None:
    """The caller's trash, where there is one. Its owner may always set its list."""
    for path in places_of(room.settings.user):
        its = standing(room, path)
        if its and its["owner"] != room.settings.user:
            raise NotYours(f"your trash {shown(path)} is {its['owner']}'s, who could read what you remove: {ASK}; or "
                           "room rm --for-good")
        if its:
            return path
    return None


def is_private(its: dict, user: str) -> bool:
    """Whether a list names its owner and this user alone, and takes over nothing that the folder above may hand down
    later: so `fileroom-admin` makes it."""
    return not is_following(its["aclflag"]) and all(
        it["who"] == "OWNER@" or it["who"] == user and not it["flag"] & GROUP for it in its["entries"])


def standing(room: Room, path: str) -> dict | None:
    """What STAT tells of a folder that is there and reached; of one that keeps the caller out, that it is another's."""
    try:
        its = room.stat(path)
        return its if its["kind"] == FOLDER else None
    except Refused as fault:
        if fault.reply["code"] == ACCESS and fault.reply["path"] == path:
            return {"owner": "somebody else"}
        if fault.reply["code"] == ACCESS or refused_as(fault, "NOENT", "NOTDIR"):
            return None
        raise


def name_in_trash(path: str, stamp: str) -> str:
    """It tells where it came from, as far as a name has room."""
    *folders, name = path.split("/")[1:]
    whole = SEPARATOR.join([name, *folders, stamp])
    if len(whole.encode()) <= MOST_BYTES and SEPARATOR not in path and CUT not in path:
        return whole
    end = f"{SEPARATOR}{CUT}{SEPARATOR}{stamp}"
    if len((name + end).encode()) > MOST_BYTES:
        kind = name[name.rfind("."):] if "." in name and len(name) - name.rfind(".") < 8 else ""
        left = MOST_BYTES - len((CUT + kind + end).encode())
        name = name.encode()[:left].decode(errors="ignore") + CUT + kind
    return name + end


@dataclass(frozen=True)
class Thrown:
    """What a name in the trash tells: the name that it had, the folder where it was, if there was room for that, and
    when it was removed."""
    name: str
    folder: str | None
    when: float

    @property
    def place(self) -> str | None:
        return None if self.folder is None else f"{self.folder.rstrip('/')}/{self.name}"

    def words(self) -> str:
        where = f"was in {shown(self.folder)}, " if self.folder else ""
        return f"{where}removed {time.strftime('%Y-%m-%d %H:%M', time.localtime(self.when))}"


def told_by(name: str) -> Thrown | None:
    """None of a name that the trash did not give."""
    *rest, stamp = name.split(SEPARATOR)
    try:
        when = calendar.timegm(time.strptime(stamp, STAMP))
    except ValueError:
        return None
    if not all(rest) or not rest or not re.fullmatch("[0-9]{14}", stamp):
        return None
    if len(rest) > 1 and rest[-1] == CUT:
        return Thrown(SEPARATOR.join(rest[:-1]), None, when)
    return None if CUT in name else Thrown(rest[0], "/" + "/".join(rest[1:]), when)


def put_in_trash(room: Room, path: str, trash: str) -> str:
    """The name that it has there: by one request."""
    now = time.time()
    for more in range(TRIES):
        name = name_in_trash(path, time.strftime(STAMP, time.gmtime(now + more)))
        try:
            room.rename(path, f"{trash}/{name}")
            return name
        except Refused as fault:
            if not refused_as(fault, "EXIST"):
                raise not_taken(fault, path, trash) from None
    raise BadWords(f"{shown(trash)} has too many things of that name: room trash empty")


def not_taken(fault: Refused, path: str, trash: str) -> Refused:
    """What to do where it is the trash that does not take it."""
    its = fault.reply
    if refused_as(fault, "FOLDER_FULL", "TOO_DEEP") or its["code"] == ACCESS and is_in(its["path"], [TOP]):
        why = f"the trash {shown(trash)} does not take it: room trash empty, or room rm --for-good ({fault})"
        return Refused(its | {"code": its["code"]}, {"path": path}, why)
    return fault


def discard(room: Room, path: str, trash: str | None, is_whole: bool) -> str | None:
    """Removes a file, an empty folder or, with `is_whole`, a folder with all that is in it. Its name in the trash, or
    None where it is gone for good."""
    if trash is None or path == TOP or path.startswith(TOP + "/"):
        remove(room, path, is_whole)
        return None
    done = room.was_done(lambda it: it["cmd"] == "RENAME" and it["path"] == path and it["to"].startswith(trash + "/"))
    if done:
        return done["to"].rpartition("/")[2]
    its = room.stat(path)
    if its["kind"] == FOLDER and its["size"] and not is_whole and looking_again(lambda: file_at(room, path)) is None:
        raise Refused({"code": 6, "error": "NOTEMPTY"}, {"path": path})
    return put_in_trash(room, path, trash)


def remove(room: Room, path: str, is_whole: bool) -> None:
    """For good."""
    try:
        room.remove(path)
    except Refused as fault:
        if not refused_as(fault, "NOTEMPTY"):
            raise
        if is_whole:
            remove_all(room, path)
        elif not remove_file(room, path):
            raise


def need_trash(room: Room) -> str:
    trash = own_trash(room)
    if trash is None:
        raise BadWords(f"there is no trash of yours: {ASK}")
    return trash


def is_called(name: str, called: str) -> bool:
    """Whether something of that name in the trash is called so: by that name, or by the one that it had."""
    its = told_by(name)
    return called == name or its is not None and its.name in (called, neat(called))


def named(room: Room, trash: str, called: str) -> str:
    """The name in the trash of what is called so."""
    names = room.children(trash)
    found = [it for it in names if is_called(it, called)]
    if called in names or not found:
        return called
    if len(found) > 1:
        each = ", ".join(f"'{shown(it)}' ({told_by(it).words()})" for it in found)
        raise BadWords(f"{len(found)} things in the trash had the name {shown(called)}: name one as it is there: "
                       f"{each}")
    return found[0]


def restore(room: Room, called: str, to: str | None) -> str:
    """Gives something its place back."""
    trash = need_trash(room)
    above = f"{trash}/"
    done = room.was_done(lambda it: it["cmd"] == "RENAME" and it["path"].startswith(above) and (
        is_called(it["path"].removeprefix(above), called)) and to in (None, it["to"]))
    if done:
        return done["to"]
    name = named(room, trash, called)
    its = told_by(name)
    place = to or its and its.place
    if place is None:
        raise BadWords(f"its name does not say where it was: room trash restore '{shown(called)}' TO")
    room.rename(f"{trash}/{name}", place)
    return place


def names_in(room: Room, path: str) -> dict[str, str]:
    return without_pool(path, room.children(path))


def empty(room: Room, take: Callable[[Fault], None]) -> int:
    """Removes what is in the trash for good, and tells how many things that were. `take` hears of each that stays: one
    that somebody else locked is not to keep the rest."""
    trash, count = need_trash(room), 0
    for name in names_in(room, trash):
        try:
            remove_all(room, f"{trash}/{name}")
            count += 1
        except Refused as fault:
            take(fault)
    return count
