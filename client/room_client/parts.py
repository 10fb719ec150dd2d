"""What a large file is made of follows the file: it has no entries of its own, and the file's owner and group.
Whoever may write to the file can make it otherwise, and so change the file when its list does not let them any more.
"""
from . import manifest as form
from .clearing import clear, has_room
from .faults import Refused, refused, refused_as
from .manifest import Manifest, read_manifest
from .room import Room
from .spares import are_as_new, has_own_list, looks
from .words import shown

PREPARED = "somebody may write it, whatever its list says, by an owner or a list of its manifest"


def manifest_follows(room: Room, path: str) -> bool:
    """As far as one may look at the file. (One that is gone was moved or removed meanwhile.)"""
    whole, whole_list, its, its_list = room.ask_all(
        ask for it in (path, f"{path}/{form.NAME}") for ask in looks(it, "STAT", "GETLIST"))
    if its.get("error") in ("NOENT", "NOTDIR"):
        return True
    is_owners = whole["code"] or not its["code"] and all(its[it] == whole[it] for it in ("owner", "group"))
    is_listed = whole_list["code"] or not its_list["code"] and not has_own_list(its_list)
    return bool(is_owners and is_listed)


def pieces_follow(room: Room, path: str, its: Manifest) -> bool:
    """Those of the version that the manifest names, with their folder: they may be the caller's too."""
    folder = f"{path}/{its.folder}"
    return are_as_new(room, [folder, *(f"{folder}/{it}" for it in its.pieces)], room.stat(path))


def keep_manifest(room: Room, path: str, its: Manifest | None) -> bool:
    """Whether the manifest follows its file, if it has to be made anew for that; `its` is as it was seen last."""
    if manifest_follows(room, path):
        return True
    try:
        now = make_manifest_anew(room, path)
    except Refused as fault:
        room.say(f"{shown(path)}: {PREPARED}, and it cannot be made anew: {fault}")
        return False
    other = "" if read_manifest(now) == its else "; and another version came meanwhile: look at it"
    room.say(f"{shown(path)}: somebody could write it later, by an owner or a list of its manifest: that was made anew"
             f"{other}")
    return True


def make_manifest_anew(room: Room, path: str) -> bytes:
    """What it has. (The new one is there, and the file's owner's, before the old one goes. Between the two renames the
    file has none. What lies in a folder of this name no other writer clears who began before.)"""
    manifest, folder = f"{path}/{form.NAME}", f"{path}/{form.other_name(form.PIECES)}"
    new, old = (f"{folder}/{it:03d}" for it in range(2))
    text, its = room.read(manifest), room.stat(path)
    room.ask({"cmd": "MKDIR", "path": folder}, is_step=True)
    try:
        room.create(new, text)
        if its["owner"] != room.settings.user:
            room.chown(new, its["owner"], its["group"])
        room.rename(manifest, old)
        return take_place(room, new, old, manifest, text)
    finally:
        if form.NAME in room.children(path):  # (else it has all that there is of one)
            clear(room, path, folder.rpartition("/")[2])


def take_place(room: Room, new: str, old: str, path: str, text: bytes) -> bytes:
    """The new one has what the old one had as it lost its name. Otherwise that has it again, or one of these bytes."""
    try:
        now = room.read(old)
        if now != text:
            room.write(new, now)
            text = now
        room.rename(new, path)
        return text
    except Refused:
        try:
            has_room(room, old, path)
        except Refused as fault:
            if not refused_as(fault, "NOENT"):
                raise
            room.create(path, text)
        raise


# Owners

def pieces_at(at: str, its: Manifest) -> list[list[str]]:
    """The pieces of a version, and then their folder."""
    folder = f"{at}/{its.folder}"
    return [[f"{folder}/{it}" for it in its.pieces], [folder]]


def give_each(room: Room, levels: list[list[str]], owner: str, group: str) -> Refused | None:
    """Gives what is at these paths to somebody, one level after another: whoever gave a folder may not pass through it
    any more. Why that is refused, if it is."""
    for paths in levels:
        commands = [{"cmd": "CHOWN", "group": group, "owner": owner, "path": it} for it in paths]
        failed = next((it for it in zip(room.ask_all(commands), commands) if it[0]["code"]), None)
        if failed:
            return refused(*failed)
    return None


def give(room: Room, path: str, its: Manifest, owner: str, group: str) -> Refused | None:
    """Gives a large file to somebody, its own folder last."""
    return give_each(room, [*pieces_at(path, its), [f"{path}/{form.NAME}"], [path]], owner, group)
