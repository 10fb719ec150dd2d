"""An access list as it was before a change that the log tells: as the log has the one before, or else the latest backup
that was made before it. Where neither tells that for certain, it is not known."""
import collections
import contextlib
import datetime

from room_client.words import INHERITED

from . import owned
from .places import Fault
from .sees import way_to
from .words import entries

KNOWN = 5000  # paths whose lists, and so many whose moves, are remembered
NEW = "MKDIR", "CREATE"
MOVES = "RENAME", "REMOVE"
NOT_KNOWN = "not known"


class Latest(collections.OrderedDict):
    """What was noted last of each path, of so many paths; and until when something was forgotten."""

    forgotten = None

    def put(self, path, time, text=None):
        self[path] = time, text
        self.move_to_end(path)
        if len(self) > KNOWN:
            self.forgotten = self.popitem(last=False)[1][0]


class Lists:
    """Those of a room, while its changes are told in their order, from `begin` on."""

    def __init__(self, places, room, begin):
        self.places, self.room, self.begin = places, room, begin
        self.lists, self.moves = Latest(), Latest()
        self.stack, self.opened = contextlib.ExitStack(), (None, None)

    def note(self, change):
        """What a change makes of the lists that are remembered. (Whether it acted may not be known.)"""
        if change.outcome == "refused" or change.file:
            return
        if change.cmd == "SETLIST":
            self.lists.put(change.path, change.time, change.entries if change.outcome == "done" else None)
        elif change.cmd in NEW and change.outcome == "done":
            self.lists.put(change.path, change.time, entries([]))
        elif change.cmd in MOVES:
            for path in filter(None, (change.path, change.to)):
                self.moves.put(path, change.time)

    def before(self, change):
        """What is told behind a change of a list."""
        if change.cmd != "SETLIST" or not change.entries or change.outcome == "refused":
            return ""
        return f"  (before: {self.was(change) or NOT_KNOWN})"

    def was(self, change):
        moved = max((self.moves[it][0] for it in above(change.path) if it in self.moves), default=None)
        time, text = self.lists.get(change.path, (None, None))
        if time and not (moved and moved > time):
            return text
        return self.of_backup(change, [self.begin, moved, self.lists.forgotten, self.moves.forgotten])

    def of_backup(self, change, since):
        """By one that was made before the change, and since all that is not remembered."""
        made = [(when_made(it), it) for it in self.places.copies(self.room)]
        when, name = max((it for it in made if it[0] <= change.time), default=(None, None))
        if not when or any(it and when < it for it in since):
            return None
        try:
            its = way_to(self.table(name), change.path)[-1]
        except (Fault, OSError):
            return None
        return entries([it for it in its.entries if not it["flag"] & INHERITED])

    def table(self, name):
        """Of one backup at a time."""
        if self.opened[0] != name:
            self.stack.close()
            self.opened = name, self.stack.enter_context(owned.opened(self.places, self.room, name, is_whole=True))
        return self.opened[1]


def above(path):
    """The path, and each folder that it is in."""
    parts = path.split("/")
    return ["/".join(parts[:count]) or "/" for count in range(1, len(parts) + 1)]


def when_made(name):
    return datetime.datetime.fromtimestamp(owned.made_at(name), datetime.timezone.utc)


def begins(places, room, since):
    """From when on the log has to be read for this: since the latest backup before."""
    return max((it for it in map(when_made, places.copies(room)) if it <= since), default=since)
