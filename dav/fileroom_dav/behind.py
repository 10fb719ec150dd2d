"""What is done behind an answer: a save is done once its manifest is there, and what was before it is emptied here.

Few threads do it, which no request waits for, and of each login one thing at a time. Where too much waits already, a
request does its own before it is answered. A stop in order finishes what it can in a few seconds; what it leaves, the
next writer of that file empties.
"""
import threading
import traceback
from collections import deque
from collections.abc import Callable

MOST_AT_ONCE = 4
MOST_OF_ONE, MOST = 4, 100  # that wait, of a login and of all: what a save left to do has some 20 KB
SECONDS = 4.0  # that a stop waits, of five


class Behind:
    def __init__(self):
        self.changed = threading.Condition()
        self.waiting: dict[str, deque[Callable[[], None]]] = {}  # of each login, who waits longest first
        self.at_work: set[str] = set()
        self.threads, self.is_ended = 0, False

    def has_room(self, login: str) -> bool:
        with self.changed:
            return not self.is_ended and len(self.waiting.get(login, ())) < MOST_OF_ONE and (
                sum(map(len, self.waiting.values())) < MOST)

    def add(self, login: str, work: Callable[[], None]) -> None:
        with self.changed:
            self.waiting.setdefault(login, deque()).append(work)
            if self.threads < MOST_AT_ONCE:
                self.threads += 1
                threading.Thread(target=self._run, daemon=True).start()

    def _run(self) -> None:
        while taken := self._take():
            login, work = taken
            try:
                work()
            except Exception:
                traceback.print_exc()
            finally:
                self._end(login)

    def _take(self) -> tuple[str, Callable[[], None]] | None:
        """(Where all that wait are of logins at work, their threads go on with them.)"""
        with self.changed:
            login = next((it for it in self.waiting if it not in self.at_work), None)
            if login is None:
                self.threads -= 1
                return None
            its = self.waiting.pop(login)
            work = its.popleft()
            if its:
                self.waiting[login] = its  # (behind the others)
            self.at_work.add(login)
            return login, work

    def _end(self, login: str) -> None:
        with self.changed:
            self.at_work.discard(login)
            self.changed.notify_all()

    def is_idle(self) -> bool:
        return not self.waiting and not self.at_work

    def stop(self, seconds: float = SECONDS) -> None:
        """Takes nothing more, and waits for what it has."""
        with self.changed:
            self.is_ended = True
            self.changed.wait_for(self.is_idle, seconds)
