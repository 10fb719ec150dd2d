"""`room sync`: makes one folder the same as another, one way, up or down."""
import hashlib
import os
from dataclasses import dataclass

from . import local, trash, trees
from .faults import BadWords, Fault, LocalFault, Refused
from .local import Tree
from .room import Room
from .showing import Faults
from .words import FILE, FOLDER, shown

MARK = "room:"
WORDS = "one of FROM and TO is a folder of the room, written as room:/PATH"


@dataclass
class Sync:
    """`here` is a folder of this machine, and `top` one of the room."""

    room: Room
    here: str
    top: str
    is_up: bool
    deletes: bool
    only_tells: bool

    def __post_init__(self):
        self.faults, self.counts = Faults(0), {"sent": 0, "got": 0, "made": 0, "removed": 0, "same": 0}

    def run(self) -> None:
        mine, its = self.both_trees()
        source, aim = (mine, its) if self.is_up else (its, mine)
        folders = [it for it, kind in source.kinds.items() if kind == FOLDER and it not in aim.kinds]
        odd = {it for it in source.kinds.keys() & aim.kinds.keys() if source.kinds[it] != aim.kinds[it]}
        for it in sorted(odd):
            self.take(Refused({"code": 4, "error": "EXIST"}, {"path": it}, "a file on one side, a folder on the other"))
        odd |= {*self.make(sorted(folders))}
        is_odd = lambda it: local.is_in(it, odd)  # noqa: E731
        wanted = [it for it, kind in sorted(source.kinds.items()) if kind == FILE and not is_odd(it)]
        self.move(self.changed(wanted, mine, its), mine, its)
        if self.deletes:
            self.remove([it for it in sorted(aim.kinds) if it not in source.kinds and source.is_known(it)
                         and not is_odd(it)], aim)
        told = ", ".join(f"{count} {word}" for word, count in self.counts.items() if count)
        print(told or "nothing to do", flush=True)
        self.faults.end(mine.shut + its.shut)

    def both_trees(self) -> tuple[Tree, trees.RoomTree]:
        """What is below the folder here, and below the room's; the one that is to be made may not be there yet."""
        if self.is_up:
            mine = local.tree_here(self.here, self.room.say)
            if not self.only_tells:
                trees.make_folders(self.room, self.top, [], self.take)
            return mine, self.room_tree()
        its = self.room_tree()
        for fault in its.mixed:
            self.take(fault)
        # (no path here is at, above or below one of these: --delete finds none in its place)
        for it, why in [(it, why) for it in its.kinds if (why := its.why_not_here(it))]:
            self.room.say(f"{shown(trees.join(self.top, it))} is left out: {why}")
            del its.kinds[it]
        is_there = os.path.isdir(self.here)
        return local.tree_here(self.here, self.room.say) if is_there else Tree(), its

    def room_tree(self) -> trees.RoomTree:
        try:
            return trees.tree_of(self.room, self.top)
        except Refused as fault:
            if self.is_up and self.only_tells and fault.reply.get("error") == "NOENT":
                return trees.RoomTree()
            raise

    def changed(self, paths: list[str], mine: Tree, its: trees.RoomTree) -> list[str]:
        """The files that differ: by size, and where that is the same by their sums."""
        both = [it for it in paths if it in mine.places and it in its.kinds]
        sizes = trees.sizes_of(self.room, self.top, its, both)
        alike = [it for it in both if size_here(mine.places[it]) == sizes[it]]
        sums = trees.sums_of(self.room, self.top, its, alike)
        same = {it for it in alike if sums[it] == self.sum_here(mine.places[it])}
        self.counts["same"] = len(same)
        return [it for it in paths if it not in same]

    def sum_here(self, path: str) -> str | None:
        """(As `size_here`.)"""
        try:
            with local.open_found(self.here, path) as file:
                return hashlib.file_digest(file, "sha256").hexdigest()
        except (OSError, LocalFault):
            return None

    def make(self, folders: list[str]) -> list[str]:
        """Those of which no folder here can be made."""
        failed = []
        if self.is_up and not self.only_tells:
            trees.make_folders(self.room, self.top, folders, self.take)
        elif not self.only_tells:
            failed = local.make_all_below(self.here, folders, self.take)
        for it in folders:
            if not local.is_in(it, failed):
                self.tell("made", f"{it}/")
        return failed

    def move(self, paths: list[str], mine: Tree, its: trees.RoomTree) -> None:
        if self.only_tells:
            for it in paths:
                self.tell("sent" if self.is_up else "got", it)
        elif self.is_up:
            trees.send_all(self.room, [(mine.places[it], trees.join(self.top, it), self.here) for it in paths],
                           self.sent)
        else:
            trees.fetch_all(self.room, self.top, paths, its.large, self.got)

    def sent(self, it: trees.Sent) -> None:
        if it.fault:
            return self.take(it.fault)
        self.tell("sent", it.path.removeprefix(self.top.rstrip("/") + "/"), it.words())

    def got(self, path: str, data: bytes | Fault) -> None:
        try:
            if isinstance(data, Fault):
                raise data
            local.write_below(self.here, path.split("/"), data)
        except Fault as fault:
            return self.take(trees.stop_on(fault))
        self.tell("got", path)

    def remove(self, paths: list[str], aim: Tree) -> None:
        """What the source has not. A folder of the room goes as a whole, a folder here once it is empty."""
        if self.is_up:
            whole = [it for it in paths if it.rpartition("/")[0] not in paths and aim.is_known(it)]
        else:
            whole = paths[::-1]
        try:
            place = trash.trash_of(self.room) if self.is_up and whole else None
        except trash.NotYours as fault:
            return self.take(fault)
        for it in whole:
            try:
                if self.only_tells:
                    pass
                elif self.is_up:
                    trash.discard(self.room, trees.join(self.top, it), place, True)
                else:
                    local.remove_below(self.here, it.split("/"), aim.kinds[it])
                self.tell("removed", it)
            except Fault as fault:
                self.take(trees.stop_on(fault))

    def take(self, fault: Fault) -> None:
        self.faults.take(fault)

    def tell(self, word: str, path: str, more: str = "") -> None:
        self.counts[word] += 1
        print(f"{word} {shown(path)}{more}", flush=True)


def size_here(path: str) -> int | None:
    """None where it is gone meanwhile, which is told as it is read."""
    try:
        return os.lstat(path).st_size
    except OSError:
        return None


def sync(room: Room, asked) -> None:
    is_up = asked.to.startswith(MARK)
    if is_up == asked.source.startswith(MARK):
        raise BadWords(WORDS)
    here, top = (asked.source, asked.to) if is_up else (asked.to, asked.source)
    top = top.removeprefix(MARK).rstrip("/") or "/"
    Sync(room, here, top, is_up, asked.delete, asked.dry_run).run()
