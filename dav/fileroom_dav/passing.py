"""What Finder and Explorer lay beside files (`._NAME`, `.DS_Store`, `desktop.ini` ..) stays here, of each user by
itself, for an hour, and no room has it."""
import itertools
import threading
import time

FRESH = 3600.0  # seconds
MOST_BYTES, MOST_OF_ONE, MOST_OF_ALL = 1 << 18, 1 << 20, 8 << 20


class Passing:
    def __init__(self, now=time.monotonic):
        self.now, self.mutex = now, threading.Lock()
        self.kept: dict[tuple[str, str, str], tuple[float, bytes]] = {}

    def get(self, room: str, user: str, path: str) -> bytes | None:
        with self.mutex:
            when, data = self.kept.get((room, user, path), (0.0, None))
            return data if data is not None and self.now() - when < FRESH else None

    def put(self, room: str, user: str, path: str, data: bytes) -> bool:
        """Whether it was not there before."""
        with self.mutex:
            is_new = self.kept.pop((room, user, path), None) is None
            self.kept = {key: its for key, its in self.kept.items() if self.now() - its[0] < FRESH}
            self.kept[room, user, path] = self.now(), data
            self._bound([it for it in self.kept if it[1] == user], MOST_OF_ONE)
            self._bound(list(self.kept), MOST_OF_ALL)
            return is_new

    def _bound(self, keys: list[tuple[str, str, str]], most: int) -> None:
        """The oldest go."""
        sizes = [500 + 4 * len(path) + len(self.kept[room, user, path][1]) for room, user, path in keys]
        left = sum(sizes)
        for key, size in itertools.takewhile(lambda _: left > most, zip(keys, sizes)):
            del self.kept[key]
            left -= size

    def drop(self, room: str, user: str, path: str) -> bool:
        with self.mutex:
            return self.kept.pop((room, user, path), None) is not None
