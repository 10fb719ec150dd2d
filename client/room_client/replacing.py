"""A document becomes a large file."""
from . import manifest as form
from .clearing import clear, clear_beside, file_at, folder_of
from .faults import Fault, OtherVersion, Refused, overtaken, refused_as
from .parts import give
from .words import FILE, FOLLOWS, INHERITED, TO_FILES, TO_FOLDERS, is_following, shown

# On a document's list, and what the folder that takes its place has to allow beside it, or to deny.
ALLOWED_BESIDE = {0x1: 0x20, 0x2: 0x66}
DENIED_BESIDE = {0x1: 0x20, 0x2: 0x46, 0x4: 0x46}
WRITE, APPEND = 0x2, 0x4


class Replacement:
    """A document gives its name to a large file, that of an `Upload`, which keeps its owner and its list."""

    def __init__(self, upload, its: dict):
        self.room, self.path, self.upload, self.its = upload.room, upload.path, upload, its
        self.above, name = folder_of(self.path)
        self.gone, self.new = (self.above + it for it in form.beside(name))

    def run(self) -> None:
        before = self.room.read(self.path)
        clear_beside(self.room, self.path)
        self.room.ask({"cmd": "MKDIR", "path": self.new}, is_step=True)
        try:
            self.take_list()
            self.upload.put_pieces(self.new)
            self.upload.put_manifest(self.new, True)
            self.take_owner()
            self.need_same(before)
            self.room.rename(self.path, self.gone)
        except Fault:
            clear(self.room, self.above.rstrip("/"), self.new.rpartition("/")[2], file_at)
            raise
        self.take_name()
        clear_beside(self.room, self.path)

    def take_list(self) -> None:
        """The document's own entries, handed down to the pieces, with what it takes to get at them."""
        found = self.room.get_list(self.path)
        own = [carried(it) for it in found["entries"] if not it["flag"] & INHERITED]
        if own or found["aclflag"] != FOLLOWS:
            inherited = [] if is_following(found["aclflag"]) else [
                carried(it) for it in found["entries"] if it["flag"] & INHERITED]
            self.room.set_list(self.new, found["aclflag"], own + inherited)

    def take_owner(self) -> None:
        now = self.room.stat(self.new)
        if (now["owner"], now["group"]) == (self.its["owner"], self.its["group"]):
            return
        refusal = give(self.room, self.new, self.upload.its, self.its["owner"], self.its["group"])
        if refusal:
            whose = f"{self.its['owner']} and {self.its['group']}"
            raise OtherVersion(f"{shown(self.path)} is of {whose}, and a large file in its place would be yours: ask "
                               "its owner to put it, or choose another name")

    def need_same(self, before: bytes) -> None:
        if self.room.stat(self.path)["kind"] != FILE or self.room.read(self.path) != before:
            raise OtherVersion(overtaken(self.path))

    def take_name(self) -> None:
        """Between the two, nothing has the name."""
        try:
            self.room.rename(self.new, self.path)
        except Refused as fault:
            if not refused_as(fault, "EXIST"):
                self.room.rename(self.gone, self.path)
            raise


def carried(entry: dict) -> dict:
    """An entry of a document, for the folder in its place. Nothing is added at a large file's end: who may append alone
    may do nothing to it."""
    mask, extra = entry["mask"], DENIED_BESIDE if entry["type"] else ALLOWED_BESIDE
    if not entry["type"] and not mask & WRITE:
        mask &= ~APPEND
    for bit in extra:
        if entry["mask"] & bit:
            mask |= extra[bit]
    return entry | {"flag": entry["flag"] & ~INHERITED | TO_FILES | TO_FOLDERS, "mask": mask}
