"""Where a file is made that is closed before its bytes come: in the caller's trash, where nobody else adds or removes
anything. From there it goes to its name, with its list, by one request. (A request names a path: in a folder in which
others may remove, something else may lie there by then.) What a stop leaves there lies as what was removed does.
"""
import secrets
import time
from dataclasses import dataclass

from room_client import trash
from room_client.clearing import remove_all
from room_client.faults import Refused
from room_client.words import BITS

from .faults import is_refused
from .names import above, below, is_below, last
from .visit import Visit

ADD_FILE, ADD_FOLDER = BITS["add-file"], BITS["add-folder"]


@dataclass(frozen=True)
class Place:
    """Where a file is made, and the group that it gets there, if it is another than it would have at its name."""

    path: str
    group: str | None = None


def place_for(visit: Visit, path: str, is_folder: bool) -> Place:
    """At its name itself, where the caller has no trash or may not add there: then the room says so."""
    bin_, right = visit.bin, ADD_FOLDER if is_folder else ADD_FILE
    if bin_ is None or is_below(path, trash.TOP):
        return Place(path)
    ours, its, may = visit.ask_all([{"cmd": "STAT", "keep": False, "path": bin_},
                                    {"cmd": "STAT", "keep": False, "path": above(path)},
                                    {"cmd": "ACCESS", "keep": False, "mask": right, "path": above(path)}])
    if "group" not in ours or "group" not in its or may.get("allowed") != right:
        return Place(path)
    path = below(above(path), f"{secrets.token_hex(4)} {last(path)}")  # (nothing there has that name)
    name = trash.name_in_trash(path, time.strftime(trash.STAMP, time.gmtime()))
    return Place(below(bin_, name), None if ours["group"] == its["group"] else its["group"])


def make_empty(visit: Visit, place: Place, is_folder: bool) -> bool:
    """Whether nothing was there."""
    try:
        visit.mkdir(place.path) if is_folder else visit.create(place.path, b"")
    except Refused as fault:
        if is_refused(fault, "EXIST"):
            return False
        raise
    if place.group:
        visit.chown(place.path, visit.settings.user, place.group)
    return True


def name(visit: Visit, place: Place, path: str) -> bool:
    """It goes to its name. Whether nothing has that."""
    if place.path == path:
        return True
    try:
        visit.rename(place.path, path)
        return True
    except Refused as fault:
        if not is_refused(fault, "EXIST"):
            raise
    remove_all(visit, place.path)
    return False
