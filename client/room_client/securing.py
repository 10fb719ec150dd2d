"""A large file whose list or owner changes is made of what is as new."""
from . import manifest as form
from .faults import NotWhole, OtherVersion, Refused
from .manifest import Manifest, read_manifest
from .parts import keep_manifest, pieces_follow
from .reading import of_version, pieces_of
from .room import Room, unheard
from .uploads import Upload
from .words import shown


def secure(room: Room, path: str, before: Manifest | None) -> None:
    """A large file has another list, or is to have another owner: what it is made of is as if it was made now, or what
    keeps it from that is told. (Whoever may not read its manifest sees by the names alone that it is one.)"""
    inside, = room.ask_all([{"cmd": "LIST", "path": path}])
    if not form.is_large(dict(inside.get("names", ()))) or not keep_manifest(room, path, before):
        return
    try:
        text = room.read(f"{path}/{form.NAME}")
        its = read_manifest(text)
        if its and not pieces_follow(room, path, its):
            write_anew(room, path, its, text)
    except (NotWhole, OtherVersion, Refused) as fault:
        room.say(f"{shown(path)}: somebody may be able to damage it, whatever its list says: {fault}")


def write_anew(room: Room, path: str, its: Manifest, text: bytes) -> None:
    upload = Upload(room, path, of_version(room, path, text, lambda it: pieces_of(room, path, it, unheard)), unheard)
    upload.its, upload.whole = its, room.stat(path)
    if its.is_of(upload.data) and upload.put_anew(text):
        room.say(f"{shown(path)}: somebody could damage it later, by an owner or a list of its pieces: it was written "
                 "anew")
