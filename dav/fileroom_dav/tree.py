"""What is in a room, as WebDAV shows it: a document or a large file is a file, and has a sum of its bytes."""
import base64
import contextlib
import hashlib
from collections.abc import Callable
from dataclasses import dataclass

from room_client.faults import Refused
from room_client.manifest import Manifest, NAME, PIECE, is_hidden, is_large, read_manifest
from room_client.reading import fetch, large_at, manifest_in, of_version
from room_client.words import FOLDER

from .faults import Answered, NotThere, is_refused
from .memory import Memory, Told
from .names import below, composed, is_passing, is_possible
from .spool import Mapped, filled
from .visit import Visit

DIGITS = 32  # of a sum


@dataclass
class Thing:
    """What is at a path. A file may have its bytes with it, and its sum where the caller may read it."""

    path: str
    is_folder: bool
    size: int | None = None
    sum: str | None = None
    large: Manifest | None = None
    data: bytes | Mapped | None = None

    @property
    def etag(self) -> str | None:
        return f'"{self.sum}"' if self.sum else None


def sum_of(data: bytes) -> str:
    return hashlib.sha256(data).hexdigest()[:DIGITS]


def document(path: str, data: bytes) -> Thing:
    return Thing(path, False, len(data), sum_of(data), data=data)


def large(path: str, its: Manifest) -> Thing:
    return Thing(path, False, its.size, its.sha256[:DIGITS], its)


def spelled(visit: Visit, path: str) -> str:
    """How the room spells a path: each name as it was given, where that is there, or else with its letters composed.
    (Most names have one spelling, and nobody is asked.)"""
    at = ""
    for name in path.split("/")[1:]:
        is_kept = composed(name) == name or is_there(visit, below(at, name))
        at = below(at, name if is_kept else composed(name))
    return at


def is_there(visit: Visit, path: str) -> bool:
    """(Where the room does not tell, it refuses what is asked there next.)"""
    try:
        return is_possible(path) and visit.access(path, 0) == 0
    except Refused as fault:
        return not is_refused(fault, "NOENT", "NOTDIR")


def standing(visit: Visit, path: str) -> str:
    """How what is at a path is spelled in the room, if it is there."""
    found = spelled(visit, path)
    if not is_possible(found):
        raise NotThere(path)
    return found


def found_at(visit: Visit, path: str, look):
    """What `look` finds there."""
    try:
        return look(standing(visit, path))
    except Refused as fault:
        if not is_refused(fault, "NOENT", "NOTDIR"):
            raise
    raise NotThere(path)


def thing_at(visit: Visit, path: str, *, is_shown: bool = False) -> Thing:
    """A document comes with its bytes, a large file with its manifest. What the caller may not read is refused or, with
    `is_shown`, told of as far as the room does."""
    if path == "/":
        if is_shown:
            visit.stat(path)
        return Thing(path, True)
    return found_at(visit, path, lambda it: _thing_at(visit, it, is_shown))


def _thing_at(visit: Visit, path: str, is_shown: bool) -> Thing:
    try:
        return document(path, visit.read(path))
    except Refused as fault:
        if not is_refused(fault, "ISDIR") and not (is_shown and is_refused(fault, "ACCESS")):
            raise
    told = visit.stat(path) if is_shown else {"kind": FOLDER}
    if told["kind"] != FOLDER:
        return Thing(path, False, told["size"])
    its = large_at(visit, path) if is_shown else manifest_in(visit, path)
    return large(path, its) if its else Thing(path, True)


def is_folder(visit: Visit, path: str) -> bool:
    """Of what is there: also where its list keeps the caller from looking."""
    try:
        names = visit.children(path)
    except Refused as fault:
        return not is_refused(fault, "NOTDIR")
    return not (is_large(names) and manifest_in(visit, path))


def bytes_of(visit: Visit, its: Thing, wanted: Callable[[Thing], tuple[int, int] | None] = lambda _: None):
    """All bytes of one version, or of a large file the pieces from the first to the last byte that is `wanted`. (That
    may be another version than was looked at: its size and sum are then, too.)"""
    if its.data is None:
        def gathers(found: Manifest) -> bytes | Mapped | None:
            its.size, its.sum, its.large = found.size, found.sha256[:DIGITS], found
            first, last = wanted(its) or (0, max(found.size - 1, 0))
            return pieces_of(visit, its.path, found, range(first // PIECE, last // PIECE + 1))
        its.data = of_version(visit, its.path, its.large.text(), gathers)
    return its.data


def pieces_of(visit: Visit, path: str, its: Manifest, numbers: range) -> bytes | Mapped | None:
    """A large file's bytes in their places, as far as they are in these pieces. Where that is not all, nothing tells
    whether they are of one version but that they lie in its folder."""
    data = filled(its.size, lambda put: fetch(
        visit, path, its, numbers, lambda number, piece: put(PIECE * number, piece)))
    is_all = len(numbers) >= len(its.pieces)
    with visit.pace.floor.away():  # (Python hashes beside what others compute)
        return data if data is not None and (not is_all or its.is_of(data)) else None


# Listings

def listed(visit: Visit, path: str, wants_sums: bool, memory: Memory, room: str,
           is_file_first: bool = False) -> tuple[Thing, list[Thing]]:
    """What is at a path, and what is in it. The names are the room's of now."""
    if is_file_first:
        with contextlib.suppress(Refused):  # (of a folder, or by who may not read it)
            return found_at(visit, path, lambda it: document(it, visit.read(it))), []
    user, mark = visit.settings.user, memory.mark(room)
    try:
        path, names = found_at(visit, path, lambda it: (it, visit.children(it)))
    except Answered:  # (a document is no folder)
        return thing_at(visit, path, is_shown=True), []
    except Refused as fault:
        if is_refused(fault, "ACCESS"):
            return shown_without_names(visit, path, fault), []
        raise
    if is_large(names):
        its = manifest_in(visit, path)
        if its:
            return large(path, its), []
    names = {name: kind for name, kind in names.items() if not is_hidden(name) and not is_passing(name)}
    when, before = memory.recall(room, user, path)
    told = {name: before[name] for name, kind in names.items()
            if name in before and before[name].kind == kind and (before[name].has_sum or not wants_sums)}
    told |= ask_of(visit, path, {name: kind for name, kind in names.items() if name not in told}, wants_sums)
    memory.keep(room, user, path, told, mark, when)
    return Thing(path, True), [thing_of(below(path, name), told[name]) for name in names]


def shown_without_names(visit: Visit, path: str, fault: Refused) -> Thing:
    """A large file is one to whom the room shows no names, too; a folder is refused."""
    its = thing_at(visit, path, is_shown=True)
    if its.is_folder:
        raise fault
    return its


def thing_of(path: str, told: Told) -> Thing:
    is_folder = told.kind == FOLDER and not told.is_large
    return Thing(path, is_folder, None if is_folder else told.size, told.sum)


def ask_of(visit: Visit, path: str, names: dict[str, str], wants_sums: bool) -> dict[str, Told]:
    """What the room tells of names in a folder: a request for each, and two for those that may be large files."""
    wanted = list(names)
    cmds = ["READ" if names[it] == FOLDER or wants_sums else "STAT" for it in wanted]
    commands = [{"cmd": cmd, "keep": False, "path": below(path, it) + (f"/{NAME}" if names[it] == FOLDER else "")}
                for cmd, it in zip(cmds, wanted)]
    # (of up to 64 KiB each that are read, only the sums are kept)
    told = dict(zip(wanted, visit.ask_all(
        commands, keeps=lambda at, reply: told_by(names[wanted[at]], reply, wants_sums))))
    unread = [it for it in wanted if told[it].kind != FOLDER and told[it].size is None]
    sizes = visit.ask_all({"cmd": "STAT", "keep": False, "path": below(path, it)} for it in unread)
    for name, reply in zip(unread, sizes):
        told[name] = Told(names[name], reply.get("size"), None, False, wants_sums)
    need_large(visit, path, told)
    return told


def told_by(kind: str, reply: dict, wants_sums: bool) -> Told:
    if "data" not in reply:
        return Told(kind, None if kind == FOLDER else reply.get("size"), None, False, wants_sums)
    data = base64.b64decode(reply["data"])
    if kind != FOLDER:
        return Told(kind, len(data), sum_of(data), False, wants_sums)
    its = read_manifest(data)
    if its is None:
        return Told(kind, None, None, False, wants_sums)
    return Told(kind, its.size, its.sha256[:DIGITS], True, wants_sums)


def need_large(visit: Visit, path: str, told: dict[str, Told]) -> None:
    """A folder that has other things beside its manifest is shown as a folder."""
    large_ones = [name for name, it in told.items() if it.is_large]
    replies = visit.ask_all({"cmd": "LIST", "keep": False, "path": below(path, it)} for it in large_ones)
    for name, reply in zip(large_ones, replies):
        if reply["code"] != 0 or not is_large(dict(reply["names"])):
            told[name] = Told(FOLDER, None, None, False, told[name].has_sum)
