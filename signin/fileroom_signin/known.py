"""Which logins were right a moment ago, and of which names so many were wrong that the directory is not asked.

A directory locks an account after some wrong passwords, whoever sends them, and may forget them only once none came
for half an hour, as Active Directory does: slow guesses add up there. So they do here: after three wrong ones of a
name, from wherever they came, the directory is asked about the last right password alone, until half an hour after
the third. Strangers lock nobody out of it, and who was let in since this process began goes on. Once that password is
wrong, it is one as any other: a program that has the old one still would lock the account.
"""
import hmac
import secrets
import threading
import time
from collections.abc import Callable
from concurrent.futures import Future

KEEP = 60  # seconds for which a right login is not asked about again: so long a disabled account goes on
WRONG = 3  # wrong passwords of a name: fewer than a directory locks at
WRONG_FOR = 1800  # seconds after the last of them until all are forgotten: not sooner than a directory does
MOST = 4096  # right logins that are kept


class Known:
    def __init__(self, conf: dict):
        self.keep, self.wrong_for = conf.get("keep", KEEP), conf.get("wrong-for", WRONG_FOR)
        self.key, self.lock = secrets.token_bytes(32), threading.Lock()
        self.right, self.wrong, self.last, self.under_way = {}, {}, {}, {}

    def mark(self, user: str, word: str) -> bytes:
        """By it a login is known, and its password found by nobody who has not the key."""
        return hmac.digest(self.key, f"{user}\0{word}".encode(), "sha256")

    def is_right(self, mark: bytes) -> bool:
        with self.lock:
            return self.right.get(mark, 0) > time.monotonic()

    def once(self, mark: bytes, ask: Callable[[], bool]) -> bool:
        """What the question gives; who asks the same meanwhile has its answer. (A program begins with several requests
        at once, which must not count as so many wrong ones.)"""
        with self.lock:
            is_first, its = mark not in self.under_way, self.under_way.setdefault(mark, Future())
        if not is_first:
            return its.result()
        try:
            its.set_result(ask())
        except Exception as fault:
            its.set_exception(fault)
        finally:
            with self.lock:
                del self.under_way[mark]
        return its.result()

    def is_last(self, user: str, mark: bytes) -> bool:
        """Whether it is the last right one of that name."""
        with self.lock:
            return self.last.get(user) == mark

    def is_shut(self, user: str, mark: bytes) -> bool:
        """Whether nobody will be asked about it."""
        with self.lock:
            return mark not in self.under_way and self.is_beyond(user, mark, time.monotonic())

    def is_beyond(self, user: str, mark: bytes, now: float) -> bool:
        """(One that is asked about now, and right, goes out again: so one more is kept than counts.)"""
        its = self.wrong.get(user, [])
        its = self.wrong[user] = its[-WRONG - 1:] if its and its[-1] > now - self.wrong_for else []
        return len(its) >= WRONG and self.last.get(user) != mark

    def begin(self, user: str, mark: bytes) -> float | None:
        """Whether the directory may be asked. Who asks counts as wrong until it was right: many may ask at once."""
        with self.lock:
            now = time.monotonic()
            if self.is_beyond(user, mark, now):
                return None
            self.wrong[user].append(now)
            return now

    def forget(self, user: str, begun: float) -> None:
        with self.lock:
            if begun in self.wrong.get(user, ()):
                self.wrong[user].remove(begun)

    def lose(self, user: str, mark: bytes) -> None:
        """It was wrong."""
        with self.lock:
            if self.last.get(user) == mark:
                del self.last[user]

    def take(self, user: str, mark: bytes) -> None:
        """It was right."""
        with self.lock:
            now = time.monotonic()
            if len(self.right) >= MOST:
                self.right = {it: end for it, end in self.right.items() if end > now}
            if len(self.right) < MOST:
                self.right[mark] = now + self.keep
            self.last[user] = mark
