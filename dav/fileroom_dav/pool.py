"""The pool (docs/FILES.md): pieces of large files that their owner removed for good lie, without bytes, in the owner's
trash, for that user's next new file. A program that saves by a temporary file makes and removes one each time.
"""
import contextlib
import functools
import re
from collections.abc import Callable, Iterator

from room_client import spares, trash, uploads
from room_client.clearing import remove_all, remove_levels
from room_client.faults import Fault, Held, Refused
from room_client.manifest import GONE, NAME, PIECES, read_manifest
from room_client.reading import large_at
from room_client.room import Room

from .faults import is_refused
from .names import below, last

MOST = 3
POOLED = re.compile(f"(?:{re.escape(PIECES)}|{re.escape(GONE)})[0-9a-f]{{16}}")


def bin_of(room: Room) -> str | None:
    """The caller's trash, if nobody else reads it."""
    try:
        return trash.trash_of(room)
    except trash.NotYours:
        return None


def pooled(room: Room, bin_: str | None) -> list[str]:
    return [below(bin_, it) for it in room.children(bin_) if POOLED.fullmatch(it)] if bin_ else []


def settled(room: Room, bin_: str | None) -> Iterator[str]:
    """Those that were looked at, where nobody else comes, and have no bytes any more: such a name is given behind that.
    (To one that a stop left otherwise that comes behind the answer.)"""
    for it in pooled(room, bin_):
        if last(it).startswith(GONE):
            yield it
        else:
            room.behind(functools.partial(settle, room, it))


class Upload(uploads.Upload):
    """As page and client make a version; but a new file takes pieces from the pool, and the spare of the next version
    has its name before the answer, since a program may save again at once."""

    def behind(self, tidies: Callable[[], None]) -> None:
        its = read_manifest(self.before) if self.before else None
        if its and tidies != self.tidy_same:
            with contextlib.suppress(Refused, Held):
                self.room.rename(f"{self.path}/{its.folder}", f"{self.path}/{GONE}{its.folder[-16:]}")
        self.tidy_behind(tidies)

    def tidy_behind(self, tidies: Callable[[], None]) -> None:
        super().behind(tidies)

    def tidy_aside(self) -> None:
        """Where what was before the version lies aside, the spare that the file has stays its spare."""
        if read_manifest(self.before).folder in self.room.children(self.path):
            return self.tidy(self.names)
        self.keep_manifest(self.its)
        self.look_at_taken()
        self.keep_one_spare(self.its.folder)

    def empty(self, name: str, gone: str) -> bool:
        return super().empty(gone, gone)

    def spares(self) -> list[str]:
        return super().spares() or ([] if self.names else self.from_pool())

    def from_pool(self) -> list[str]:
        """Into a file of the caller's own."""
        try:
            self.whole = self.whole or self.room.stat(self.path)
            if self.whole["owner"] != self.room.settings.user:
                return []
            one = self.fitting(list(settled(self.room, self.room.bin)))
            if one is None:
                return []
            self.room.rename(one, below(self.path, last(one)))
            return [last(one)]
        except Refused:  # (another request has it)
            return []

    def fitting(self, found: list[str]) -> str | None:
        """The one of the file's group with the number of documents that is nearest to that of the pieces: from half of
        it to twice, but where the pool is full. (Of one of many more those that are over are removed, and a file of its
        size makes them anew.)"""
        need = len(self.its.pieces)
        told = self.room.ask_all([ask for it in found for ask in spares.looks(it, "LIST", "STAT")])
        has = {path: len(names["names"]) for path, names, its in zip(found, told[::2], told[1::2])
               if names["code"] == 0 and its.get("group") == self.whole["group"]}
        fit = [it for it in has if len(found) >= MOST or has[it] <= 2 * need <= 4 * has[it]]
        return min(fit, key=lambda it: abs(has[it] - need), default=None)


def remove(room: Room, path: str, removes: Callable[[Room, str], object] = remove_all) -> None:
    """For good, with all that is in it, or what else `removes` does."""
    try:
        room.remove(path)
    except Refused as fault:
        if not is_refused(fault, "NOTEMPTY"):
            raise
        give(room, path)
        removes(room, path)


def give(room: Room, path: str) -> None:
    """What is removed for good: the pieces of a large file of the caller's own go to the pool, where that has room. It
    is no file any more before."""
    its, bin_ = large_at(room, path), room.bin
    if its is None or bin_ is None or len(pooled(room, bin_)) >= MOST:
        return
    folder, to = f"{path}/{its.folder}", below(bin_, its.folder)
    names, whole, ours = room.ask_all([{"cmd": cmd, "keep": False, "path": at} for cmd, at in (
        ("LIST", folder), ("STAT", path), ("STAT", folder))])
    user = room.settings.user
    if names["code"] or not spares.are_pieces(dict(names["names"])) or whole.get("owner") != user or (
            ours.get("owner") != user):
        return
    try:
        room.remove(f"{path}/{NAME}")
        room.rename(folder, to)
    except Refused:  # (what is removed next is refused too, and told)
        return
    room.behind(functools.partial(settle, room, to))


def settle(room: Room, path: str) -> None:
    """Nobody else comes there any more: what is there is looked at, and loses its bytes."""
    try:
        names, whole = list(room.children(path)), room.stat(path)
        documents = [below(path, it) for it in names]
        if spares.are_as_new(room, [path, *documents], whole):
            spares.empty(room, documents)
            room.rename(path, path.replace(PIECES, GONE))
        else:
            remove_levels(room, [documents, [path]])
    except Fault:  # (another request settles it, or the next one)
        pass
