"""What uploads made is removed, and all that is in a folder; whatever else has a name of theirs stays."""
from collections.abc import Callable

from . import manifest as form, spares
from .faults import Refused, refused, refused_as
from .reading import manifest_in
from .room import Room
from .words import FILE, FOLDER, shown

MOST_KEPT = 50  # bytes of a name that a mark follows
TRIES = 5  # of a removal that meets one part after another


def folder_of(path: str) -> tuple[str, str]:
    """The folder above with a / at its end, and the name."""
    above, _, name = path.rpartition("/")
    return above + "/", name


def clear(room: Room, at: str, name: str, looks=None, is_needed=lambda name: False) -> None:
    """Takes what an upload made out of a file or from beside it, in one request, and then removes it. Somebody who may
    move things may have given one such a name: what `looks` otherwise, or is in the way, is told and left. What turns
    out to be needed then has its name again."""
    path, gone = f"{at}/{name}", f"{at}/{form.other_name(form.GONE)}"
    try:
        found = (looks or pieces_in)(room, path)
        if found is None:
            return room.say(f"{shown(path)} is no part of a file, whatever its name: look at it")
        if name.startswith(form.GONE):
            gone = path
        else:
            room.rename(path, gone)
        if not (is_needed(name) and has_room(room, gone, path)):
            remove_levels(room, [[gone + it for it in level] for level in found])
    except Refused as fault:
        if not refused_as(fault, "NOENT"):
            room.say(f"{shown(gone)} is left of it: {fault}")


def has_room(room: Room, path: str, to: str) -> bool:
    """Whether it could be moved there."""
    try:
        room.rename(path, to)
        return True
    except Refused as fault:
        if not refused_as(fault, "EXIST"):
            raise
        return False


def clear_beside(room: Room, path: str) -> None:
    """What a document's replacement left beside it, where it was stopped. A whole file under that name, which may be
    somebody's, is given one that is seen."""
    above, name = folder_of(path)
    at, names = above.rstrip("/"), room.children(above.rstrip("/") or "/")
    gone, new = form.beside(name)
    if gone in names:
        clear(room, at, gone, document_at)
    if new in names and manifest_in(room, f"{at}/{new}"):
        left = f"{at}/{name.encode()[:MOST_KEPT].decode(errors='ignore')} ({form.other_name('')[:4]})"
        room.rename(f"{at}/{new}", left)
        room.say(f"{shown(left)} is a whole version that was to take the place of {shown(path)}: look at it")
    elif new in names:
        clear(room, at, new, unfinished_at)


# What is at a path and below it, in the order in which it can be removed, where it is of that form; else None.

def document_at(room: Room, path: str) -> list[list[str]] | None:
    return [[""]] if room.stat(path)["kind"] == FILE else None


def pieces_in(room: Room, path: str) -> list[list[str]] | None:
    """Of a folder with pieces, as they are named by us."""
    if room.stat(path)["kind"] == FILE:
        return None
    names = room.children(path)
    return [[f"/{it}" for it in names], [""]] if spares.are_pieces(names) else None


def file_at(room: Room, path: str) -> list[list[str]] | None:
    """Of a large file that has its manifest, or has not yet."""
    if room.stat(path)["kind"] == FILE:
        return None
    names = room.children(path)
    if names and not form.is_large(names) and not form.is_unfinished(names):
        return None
    parts = {f"/{it}": pieces_in(room, f"{path}/{it}") for it in names if it != form.NAME}
    if None in parts.values():
        return None
    manifest = [f"/{form.NAME}"] if form.NAME in names else []
    return [manifest, [at + it for at, (pieces, _) in parts.items() for it in pieces], [*parts], [""]]


def unfinished_at(room: Room, path: str) -> list[list[str]] | None:
    """Of one that has no manifest yet."""
    found = file_at(room, path)
    return None if found and found[0] else found


# Removing

def looking_again(does: Callable):
    """What comes behind a save gives parts of the file other names (uploads.py): so where one is gone, or another is
    there, all is looked at again."""
    for _ in range(TRIES - 1):
        try:
            return does()
        except Refused as fault:
            if not refused_as(fault, "NOENT", "NOTEMPTY"):
                raise
    return does()


def remove_levels(room: Room, levels: list[list[str]]) -> None:
    for paths in levels:
        commands = [{"cmd": "REMOVE", "path": it} for it in paths]
        for reply, command in zip(room.ask_all(commands), commands):
            if reply["code"] and reply.get("error") != "NOENT":
                raise refused(reply, command)


def remove_file(room: Room, path: str) -> bool:
    """Removes a folder that is a large file, or an unfinished one, and has nothing else in it. Whether it was one."""
    return looking_again(lambda: remove_as_found(room, path, file_at(room, path)))


def remove_as_found(room: Room, path: str, found: list[list[str]] | None) -> bool:
    if found:
        remove_levels(room, [[path + it for it in level] for level in found])
    return found is not None


def remove_all(room: Room, path: str) -> None:
    """An object with all that is in it: the manifest of a large file first."""
    looking_again(lambda: remove_tree(room, path))


def remove_tree(room: Room, path: str) -> None:
    try:
        names = room.children(path)
    except Refused as fault:
        if not refused_as(fault, "NOTDIR"):
            raise
        names = {}
    if form.NAME in names:
        remove_one(room, f"{path}/{form.NAME}")
    remove_levels(room, [[f"{path}/{name}" for name, kind in names.items() if kind == FILE and name != form.NAME]])
    for name, kind in names.items():
        if kind == FOLDER:
            remove_tree(room, f"{path}/{name}")
    remove_one(room, path)


def remove_one(room: Room, path: str) -> None:
    try:
        room.ask({"cmd": "REMOVE", "path": path}, is_step=True)
    except Refused as fault:
        if not refused_as(fault, "NOENT"):
            raise
