"""When each version was first seen here: the room keeps no times, and file managers show one. It decides nothing, may
be lost, and is told with a version's sum, so only to whom the room gave the bytes."""
import contextlib
import os
import sqlite3
import threading
import time

from .kept import set_aside

MOST = 200_000  # versions
FORM = """
CREATE TABLE IF NOT EXISTS seen (room TEXT, path TEXT, sum TEXT, time INTEGER, PRIMARY KEY (room, path)) WITHOUT ROWID
"""


def opened(path: str) -> sqlite3.Connection:
    os.close(os.open(path, os.O_RDWR | os.O_CREAT, 0o600))
    table = sqlite3.connect(path, check_same_thread=False, isolation_level=None)
    table.execute("PRAGMA synchronous = OFF")
    table.execute("PRAGMA journal_mode = MEMORY")
    table.execute(FORM)
    return table


class Seen:
    def __init__(self, path: str, now=time.time):
        self.now, self.mutex = now, threading.Lock()
        try:
            self.table = opened(path)
        except (sqlite3.Error, OSError) as fault:
            set_aside(path, str(fault))
            self.table = opened(path)

    def times(self, room: str, sums: dict[str, str]) -> dict[str, int]:
        """Of versions by their paths. One that follows another is later than it, by a second at least."""
        with self.mutex:
            try:
                self.table.execute("BEGIN")
                found = {path: self._time(room, path, its) for path, its in sums.items()}
                self._bound()
                self.table.execute("COMMIT")
                return found
            except sqlite3.Error:  # (a full disk)
                with contextlib.suppress(sqlite3.Error):
                    self.table.execute("ROLLBACK")
                return dict.fromkeys(sums, int(self.now()))

    def has(self, room: str, path: str) -> bool:
        """Whether a version was seen there. (It may be gone.)"""
        with self.mutex, contextlib.suppress(sqlite3.Error):
            its = self.table.execute("SELECT 1 FROM seen WHERE room = ? AND path = ?", (room, path))
            return its.fetchone() is not None
        return False

    def _time(self, room: str, path: str, its: str) -> int:
        row = self.table.execute("SELECT sum, time FROM seen WHERE room = ? AND path = ?", (room, path)).fetchone()
        if row and row[0] == its:
            return row[1]
        when = max(int(self.now()), row[1] + 1 if row else 0)
        self.table.execute("INSERT OR REPLACE INTO seen VALUES (?, ?, ?, ?)", (room, path, its, when))
        return when

    def _bound(self) -> None:
        count, = self.table.execute("SELECT count(*) FROM seen").fetchone() if self._is_due() else (0,)
        if count > MOST:
            self.table.execute("DELETE FROM seen WHERE time < (SELECT time FROM seen ORDER BY time LIMIT 1 OFFSET ?)",
                               (count // 2,))

    calls = 0

    def _is_due(self) -> bool:
        self.calls += 1
        return self.calls % 1000 == 0
