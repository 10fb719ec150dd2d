"""What listings were told, for a short while, so that the next one costs one request: of each caller by itself.

The names of a folder are asked for anew each time, by the caller's own login: whom the room shows no names, it tells
nothing else. Of the documents behind the names it is remembered what they were a moment ago. A change through this
gateway is seen at once, and one past it after FRESH seconds: the wire does not tell whether a document was changed.
Nothing but listings is answered from here.
"""
import threading
import time
from collections import OrderedDict
from dataclasses import dataclass

from .names import above, is_below

FRESH = 15.0  # seconds
MOST_NAMES = 20_000
MOST_PLAIN = 5000


@dataclass(frozen=True)
class Told:
    """What a caller was told of a name in a folder."""

    kind: str
    size: int | None
    sum: str | None
    is_large: bool
    has_sum: bool  # whether the sum was asked for (it may be that the room refused it)


class Memory:
    def __init__(self, now=time.monotonic):
        self.now, self.mutex = now, threading.Lock()
        self.folders: OrderedDict[tuple[str, str, str], tuple[float, dict[str, Told]]] = OrderedDict()
        self.plain: OrderedDict[tuple[str, str, str], float] = OrderedDict()
        self.count = 0
        self.changes: dict[str, int] = {}

    def mark(self, room: str) -> int:
        """How many changes there were: what is told meanwhile may be old."""
        with self.mutex:
            return self.changes.get(room, 0)

    def recall(self, room: str, user: str, path: str) -> tuple[float, dict[str, Told]]:
        """What was told, and when: it grows no younger by being told again."""
        with self.mutex:
            now = self.now()
            when, told = self.folders.get((room, user, path), (0.0, {}))
            return (when, told) if told and now - when < FRESH else (now, {})

    def keep(self, room: str, user: str, path: str, told: dict[str, Told], mark: int, when: float) -> None:
        with self.mutex:
            if self.changes.get(room, 0) != mark:
                return
            self._forget((room, user, path))
            self.folders[room, user, path] = when, told
            self.count += len(told)
            while self.count > MOST_NAMES:
                self._forget(next(iter(self.folders)))

    def _forget(self, key: tuple[str, str, str]) -> None:
        _, told = self.folders.pop(key, (0.0, {}))
        self.count -= len(told)

    def changed(self, room: str, path: str) -> None:
        """Something is done, or may be, at a path: of everybody."""
        with self.mutex:
            self.changes[room] = self.changes.get(room, 0) + 1
            touched = [it for it in self.folders if it[0] == room and (
                it[2] in (path, above(path)) or is_below(it[2], path))]
            for key in touched:
                self._forget(key)

    # Of folders that something is put into, that they were no large files a moment ago. (One that became a file is
    # shown as a folder again, by what is put into it.)

    def is_plain(self, room: str, user: str, path: str) -> bool:
        with self.mutex:
            return self.now() - self.plain.get((room, user, path), -FRESH) < FRESH

    def note_plain(self, room: str, user: str, path: str) -> None:
        with self.mutex:
            self.plain[room, user, path] = self.now()
            self.plain.move_to_end((room, user, path))
            while len(self.plain) > MOST_PLAIN:
                self.plain.popitem(last=False)
