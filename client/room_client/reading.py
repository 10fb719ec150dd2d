"""A large file as it stands in the room: its manifest, and the bytes of one version."""
import base64
from collections.abc import Callable, Sequence

from . import manifest as form
from .faults import ACCESS, NotWhole, OtherVersion, Refused, refused_as
from .manifest import Manifest, read_manifest
from .room import Room, unheard
from .words import shown

TRIES = 5  # of a reader that meets one new version after another


def text_at(room: Room, path: str) -> bytes | None:
    """What the manifest's document has, or None where there is none."""
    try:
        return room.read(f"{path.rstrip('/')}/{form.NAME}")
    except Refused as fault:
        if refused_as(fault, "NOENT", "ISDIR", "NOTDIR"):
            return None
        raise


def manifest_in(room: Room, path: str) -> Manifest | None:
    """What makes a file of a folder for whoever reads or writes it by its own path, whatever else lies there."""
    text = text_at(room, path)
    return None if text is None else read_manifest(text)


def manifest_at(room: Room, path: str) -> Manifest | None:
    """That of a folder that is a large file and nothing besides."""
    return manifest_in(room, path) if form.is_large(room.children(path)) else None


def large_at(room: Room, path: str) -> Manifest | None:
    """As far as one may look: where one may not, it is a folder."""
    try:
        return manifest_at(room, path)
    except Refused:
        return None


def manifests(room: Room, paths: list[str]) -> list[Manifest | None]:
    """What is in folders as a manifest, as far as one may look."""
    replies = room.ask_all({"cmd": "READ", "path": f"{path}/{form.NAME}"} for path in paths)
    return [read_manifest(base64.b64decode(it["data"])) if it["code"] == 0 else None for it in replies]


def large_among(room: Room, paths: list[str]) -> dict[str, Manifest]:
    """Of folders, those that are large files: where one may not look, it is a folder."""
    found = {path: its for path, its in zip(paths, manifests(room, paths)) if its}
    replies = zip(found, room.ask_all({"cmd": "LIST", "path": it} for it in found))
    return {path: found[path] for path, it in replies if it["code"] == 0 and form.is_large(dict(it["names"]))}


def of_version(room: Room, path: str, text: bytes, gathers: Callable[[Manifest], object]):
    """What is gathered of a large file by its manifest, or by that of a version that comes meanwhile. (None is gathered
    of one that is not whole.)"""
    for _ in range(TRIES):
        its = read_manifest(text)
        data = its and gathers(its)
        if data is not None:
            return data
        before, text = text, text_at(room, path)
        if text is None:
            raise Refused({"code": 1, "error": "NOENT"}, {"path": path})
        if text == before:
            raise NotWhole(f"{shown(path)} is damaged: its pieces are not what its manifest says, and nothing of it is "
                           "given out: put it again, or ask who keeps the backup")
    raise OtherVersion(f"{shown(path)}: new versions come too fast: get it again")


def pieces_of(room: Room, path: str, its: Manifest, heard: Callable[[dict], None]) -> bytes | None:
    """None where it is not whole."""
    pieces = [b""] * len(its.pieces)
    if not fetch(room, path, its, range(len(pieces)), pieces.__setitem__, heard):
        return None
    data = b"".join(pieces)
    return data if its.is_of(data) else None


def fetch(room: Room, path: str, its: Manifest, numbers: Sequence[int], put: Callable[[int, bytes], object],
          heard: Callable[[dict], None] = unheard) -> bool:
    """Has each of these pieces put in its place, as it comes. Whether all are there, and of their length."""
    commands = [{"cmd": "READ", "keep": False, "path": f"{path}/{its.folder}/{its.pieces[it]}"} for it in numbers]

    def keeps(at: int, reply: dict) -> dict:
        piece = base64.b64decode(reply.get("data", ""))
        fits = reply["code"] == 0 and len(piece) == its.length_of(numbers[at])
        if fits:
            put(numbers[at], piece)
        return {name: it for name, it in reply.items() if name != "data"} | {"fits": fits}
    replies = room.ask_all(commands, heard, keeps)
    denied = next((it for it in zip(replies, commands) if it[0]["code"] == ACCESS), None)
    if denied:
        raise Refused(*denied)
    return all(it["fits"] for it in replies)
