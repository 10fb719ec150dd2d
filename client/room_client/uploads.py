"""A new version of a large file: its pieces, then its manifest, and what was before it is cleared behind the answer."""
import base64
from collections.abc import Callable, Iterable, Sequence
from dataclasses import dataclass

from . import manifest as form, spares
from .clearing import clear, clear_beside, pieces_in, remove_levels, remove_one
from .faults import Fault, OtherVersion, Refused, overtaken, refused, refused_as
from .manifest import Manifest, read_manifest
from .parts import give_each, keep_manifest, pieces_at
from .reading import manifest_in, pieces_of, text_at
from .replacing import Replacement
from .room import Room
from .spares import has_own_list
from .words import FILE, shown

DEEPEST = 14  # names of the path of a large file
MOST_TRIED = 2  # spares


class Puts(Sequence):
    """The requests that make the pieces of a version, or write them where a document is, each of which is made when it
    is its turn."""

    def __init__(self, folder: str, data: bytes, its: Manifest, there: frozenset[str]):
        self.folder, self.data, self.its, self.there = folder, data, its, there

    def __len__(self) -> int:
        return len(self.its.pieces)

    def __getitem__(self, at: int) -> dict:
        name, data = self.its.pieces[at], base64.b64encode(form.piece(self.data, at)).decode()
        return {"cmd": "WRITE" if name in self.there else "CREATE", "data": data, "path": f"{self.folder}/{name}"}


@dataclass
class Upload:
    """One new version of a file that is a folder, or becomes one."""

    room: Room
    path: str
    data: bytes
    heard: Callable[[dict], None]

    def __post_init__(self):
        self.its = Manifest.of(self.data)
        self.names: dict[str, str] = {}  # what was in the folder as it began
        self.before: bytes | None = None  # the manifest's text then
        self.whole: dict | None = None  # the folder then, as STAT tells it
        self.there: frozenset[str] = frozenset()  # documents of the spare that was taken

    def run(self, is_new: bool, fills: bool) -> bool:
        """Whether something was there before. What was before the version is cleared behind the answer."""
        if self.path.count("/") > DEEPEST:
            raise Refused({"code": 10, "error": "TOO_DEEP"}, {"path": self.path})
        self.room.settle()
        made, its_document = self.begin(is_new, fills)
        if its_document is not None:
            Replacement(self, its_document).run()
        elif self.is_there():
            self.behind(self.tidy_same)
        else:
            self.put_version(made)
        return not made

    def put_version(self, made: bool) -> None:
        try:
            self.put_pieces(self.path, self.spares())
        except Refused:
            if made:
                remove_one(self.room, self.path)
            raise
        if not made:
            self.share(self.made_pieces())
            if text_at(self.room, self.path) != self.before:
                self.give_way("")
        self.put_manifest(self.path, self.before is None)
        if self.before is None and not made:
            self.share([[f"{self.path}/{form.NAME}"]])
        try:
            names = self.look_after()
        except Refused as fault:
            return self.tell_left(fault)
        self.behind(lambda: self.tidy(names))

    def begin(self, is_new: bool, fills: bool) -> tuple[bool, dict | None]:
        """Whether the file's folder was made, and the document (as STAT has it) that is there instead."""
        try:
            self.room.ask({"cmd": "MKDIR", "path": self.path}, is_step=True)
            return True, None
        except Refused as fault:
            if is_new or not refused_as(fault, "EXIST"):
                raise
        its = self.whole = self.room.stat(self.path)
        if its["kind"] == FILE:
            return False, its
        self.names = self.room.children(self.path)
        self.before = text_at(self.room, self.path) if form.NAME in self.names else None
        is_left = form.is_unfinished(self.names)
        if is_left or fills and not self.names:
            self.need_own(its)
        elif not (self.before and read_manifest(self.before)):
            raise Refused({"code": 3, "error": "ISDIR"}, {"path": self.path})
        if is_left or any(it.startswith(form.WRITING) for it in self.names):
            self.room.say(f"{shown(self.path)}: an upload was stopped here, or is under way: what it left is cleared")
        return False, None

    def is_there(self) -> bool:
        """Whether the file has these very bytes. (What is damaged is written anew.)"""
        its = read_manifest(self.before) if self.before else None
        if its is None or (its.sha256, its.size) != (self.its.sha256, self.its.size):
            return False
        try:
            return pieces_of(self.room, self.path, its, self.heard) is not None
        except Refused:
            return False

    def need_own(self, its: dict) -> None:
        """That this folder is as the user would have made it. (Anyone who may add could make one under a name that
        somebody is about to put, open it to others, and give it away.)"""
        if its["owner"] != self.room.settings.user:
            why = f"it is a folder of {its['owner']}, who could read what you put there, and no file yet"
        elif has_own_list(self.room.get_list(self.path)):
            why = ("it is a folder with a list of its own, by which others could read what you put there, and no file "
                   "yet")
        else:
            return
        raise Refused({"code": 3, "error": "ISDIR"}, {"path": self.path}, f"{why}: take another name")

    def spares(self) -> list[str]:
        return [it for it in self.names if it.startswith(form.GONE)]

    def take(self, spare: str) -> str | None:
        """The folder's path, once it is this upload's and nobody else's, and fits."""
        before, writing = f"{self.path}/{spare}", f"{self.path}/{form.other_name(form.WRITING)}"
        try:
            self.room.rename(before, writing)
            there = spares.documents_of(self.room, writing, self.whole)
            if there is not None:
                self.there = there
                return writing
            self.room.rename(writing, before)  # (there it is cleared, or told and left)
        except Refused:
            pass  # (somebody else took it)
        return None

    def put_pieces(self, at: str, from_spares: Sequence[str] = ()) -> None:
        """All pieces in a folder of that name, which is there once they are."""
        self.there = frozenset()
        writing = next(filter(None, map(self.take, from_spares[:MOST_TRIED])), None)
        if writing is None:
            writing = f"{at}/{form.other_name(form.WRITING)}"
            self.room.ask({"cmd": "MKDIR", "path": writing}, is_step=True)
        commands = Puts(writing, self.data, self.its, self.there)
        replies = self.room.ask_all(commands, self.heard)
        failed = next((at for at, it in enumerate(replies) if it["code"] != 0), None)
        try:
            if failed is not None:
                raise refused(replies[failed], commands[failed])
            self.room.rename(writing, f"{at}/{self.its.folder}")
        except Refused as fault:
            if refused_as(fault, "NOENT"):
                self.give_way("")
            clear(self.room, at, writing.rpartition("/")[2])
            if not self.there:
                raise
            self.put_pieces(at)

    def made_pieces(self) -> list[list[str]]:
        """What was made, and not taken from before."""
        pieces, folder = pieces_at(self.path, self.its)
        return [[it for it in pieces if it.rpartition("/")[2] not in self.there], [] if self.there else folder]

    def share(self, levels: list[list[str]]) -> None:
        """What was made belongs to whom the file belongs, who may have no rights on what is somebody else's. (Where it
        is gone, another version came, as is looked at next.)"""
        made = [it for paths in levels for it in paths]
        if not made:
            return
        try:
            its, ours = self.whole or self.room.stat(self.path), self.room.stat(made[-1])
        except Refused as fault:
            if not refused_as(fault, "NOENT"):
                raise
            return
        whose = its["owner"], its["group"]
        if whose != (ours["owner"], ours["group"]):
            refusal = give_each(self.room, levels, *whose)
            if refusal:
                self.room.say(f"{shown(self.path)}: what was put stays yours, and {whose[0]} may lack rights on it: "
                              f"{refusal}")

    def give_way(self, more: str) -> None:
        """Somebody else's version came first."""
        clear(self.room, self.path, self.its.folder)
        raise OtherVersion(overtaken(self.path, more))

    def put_manifest(self, at: str, is_first: bool) -> None:
        """The one request that is the new version."""
        path, text = f"{at}/{form.NAME}", self.its.text()
        try:
            self.room.create(path, text) if is_first else self.room.write(path, text)
        except Refused as fault:
            if refused_as(fault, "EXIST", "NOENT"):
                self.give_way("")
            clear(self.room, at, self.its.folder)
            raise

    def look_after(self) -> dict[str, str]:
        """Whether the new version is whole. What is in the file beside it."""
        now = text_at(self.room, self.path)
        if now != self.its.text():
            self.give_way(", and came right behind yours")
        names = self.room.children(self.path)
        if self.its.folder not in names:  # (another writer, who began before, took it for left over)
            self.put_pieces(self.path)
            self.share(self.made_pieces())
        return names

    # Behind the answer

    def behind(self, tidies: Callable[[], None]) -> None:
        def tidy() -> None:
            try:
                tidies()
                clear_beside(self.room, self.path)
            except Fault as fault:
                self.tell_left(fault)
        self.room.behind(tidy)

    def tell_left(self, fault: Fault) -> None:
        self.room.say(f"{shown(self.path)}: it is there, and what was before it is not cleared: {fault}")

    def tidy(self, names: dict[str, str]) -> None:
        """What was the version until now is the spare of the next one."""
        self.keep_manifest(self.its)
        old = read_manifest(self.before) if self.before else None
        gone = old and form.GONE + old.folder.removeprefix(form.PIECES)
        kept = {old.folder, gone} if old and self.empty(old.folder, gone) else set()
        self.look_at_taken()
        self.clear_others({*names, gone} - {None}, {self.its.folder, *kept})

    def tidy_same(self) -> None:
        self.keep_manifest(read_manifest(self.before))
        self.keep_one_spare(read_manifest(self.before).folder)

    def keep_one_spare(self, folder: str) -> None:
        """Of what was there as it began only that stays, without bytes, and the folder of these pieces."""
        spare = next((it for it in self.spares() if spares.is_empty(self.room, f"{self.path}/{it}") or
                      self.empty(it, it)), None)
        self.clear_others(self.names, {folder, spare})

    def keep_manifest(self, its: Manifest) -> None:
        """(What was made now is as a new one is.)"""
        if self.before is not None:
            keep_manifest(self.room, self.path, its)

    def empty(self, name: str, gone: str) -> bool:
        """Whether these pieces lie there without bytes, under the other name."""
        try:
            found = pieces_in(self.room, f"{self.path}/{name}")
            if found and name != gone:
                self.room.rename(f"{self.path}/{name}", f"{self.path}/{gone}")
            if found:
                spares.empty(self.room, [f"{self.path}/{gone}{it}" for it in found[0]])
            return found is not None
        except Refused as fault:
            return refused_as(fault, "NOENT")

    def look_at_taken(self) -> None:
        """Whether each document that took a piece is as a new one is. Of the others none keeps bytes."""
        folder = f"{self.path}/{self.its.folder}"
        taken, over = ([f"{folder}/{it}" for it in sorted(some)] for some in (
            self.there & {*self.its.pieces}, self.there - {*self.its.pieces}))
        if not self.fit(taken):
            if self.put_anew(self.its.text()):
                self.room.say(f"{shown(self.path)}: somebody had prepared a piece of it: it was written anew")
            return
        try:
            if len(over) <= len(self.its.pieces):
                return spares.empty(self.room, over)
        except Refused:
            pass
        remove_levels(self.room, [over])

    def fit(self, taken: list[str]) -> bool:
        """(What another request moves meanwhile is looked at again: its file may have gone too, or be back.)"""
        return spares.are_as_new(self.room, taken, self.whole) or (
            text_at(self.room, self.path) == self.its.text() and spares.are_as_new(self.room, taken, self.whole))

    def put_anew(self, text: bytes) -> bool:
        """The version once more, in pieces that are made for it, if it stands, with that manifest. Whether it did."""
        bad, self.before = self.its.folder, text
        if text_at(self.room, self.path) != text:
            return False
        self.its = Manifest.of(self.data)
        self.put_pieces(self.path)
        self.share(self.made_pieces())
        stands = text_at(self.room, self.path) == text
        if stands:
            self.put_manifest(self.path, False)
        clear(self.room, self.path, bad if stands else self.its.folder)
        return stands

    def clear_others(self, names: Iterable[str], kept: set) -> None:
        for name in {*names} - kept:
            if name.startswith((form.WRITING, form.GONE)):
                clear(self.room, self.path, name)
            elif name.startswith(form.PIECES) and name in self.names and not self.is_version(name):
                clear(self.room, self.path, name, is_needed=self.is_version)

    def is_version(self, name: str) -> bool:
        """Whether the manifest names these pieces by now."""
        its = manifest_in(self.room, self.path)
        return its is not None and its.folder == name
