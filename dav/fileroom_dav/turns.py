"""Whose turn it is. Of each login, over all rooms, some requests are at work at once, and some more wait without a
thread; who comes beyond them is told so at once. So there are threads for others at any time.
"""
import contextlib
import threading
import time
from collections import Counter, deque

from waitress.task import ThreadedTaskDispatcher

from .asked import login_of
from .faults import LATER, REASONS, Answered, Busy

THREADS = 40
MOST_AT_WORK = 4  # of a login
MOST_WAITING = 12  # of a login: with those at work as many as a front lets through from an address
LONGEST = 0.001  # seconds that one computes while others wait, where it can pause
PATIENCE = 0.1  # seconds that one computes until others go on beside it
MOST_UNREAD = 8  # large answers to a login that it does not read, each of up to 16 MiB in a file
TOO_MANY = "too many of your requests are under way"


class Share:
    """So many at once of each login."""

    def __init__(self, most: int, why: str = TOO_MANY):
        self.most, self.why = most, why
        self.mutex, self.counts = threading.Lock(), Counter()

    def need(self, login: str) -> None:
        if self.counts[login] >= self.most:
            raise Busy(self.why)

    def take(self, login: str) -> None:
        with self.mutex:
            self.need(login)
            self.counts[login] += 1

    def add(self, login: str) -> None:
        """(What is done counts, also beyond.)"""
        with self.mutex:
            self.counts[login] += 1

    def leave(self, login: str) -> None:
        with self.mutex:
            self.counts[login] -= 1
            if not self.counts[login]:
                del self.counts[login]

    @contextlib.contextmanager
    def of(self, login: str):
        self.take(login)
        try:
            yield
        finally:
            self.leave(login)


class Floor:
    """Who computes: one thread at a time, and next is one of the login that computed least of late. (Python too lets
    one at a time compute. But it has a thread wait for all others after each short step, and who begins as many
    requests as they may is most of these.) It is no lock: nobody waits for one thread longer than PATIENCE."""

    def __init__(self, now=time.monotonic):
        self.now, self.mutex, self.mine = now, threading.Lock(), threading.local()
        self.login, self.since = None, 0.0  # who computes, and since when
        self.waiting: dict[str, deque[threading.Lock]] = {}
        self.spent, self.least = {}, 0.0  # seconds of each login, and those of who computes as that began

    @property
    def holder(self) -> str | None:
        """The login for which this thread computes."""
        return getattr(self.mine, "login", None)

    @contextlib.contextmanager
    def of(self, login: str):
        if self.holder is not None:
            yield
            return
        self._enter(login)
        try:
            yield
        finally:
            self._leave()

    @contextlib.contextmanager
    def away(self):
        """During a wait."""
        login = self.holder
        self._leave()
        try:
            yield
        finally:
            if login is not None:
                self._enter(login)

    def pause(self) -> None:
        """Between two parts of what takes long."""
        if self.waiting and self.now() - self.since > LONGEST:
            with self.away():
                pass

    def _enter(self, login: str) -> None:
        turn = threading.Lock()
        with self.mutex:
            if self.login is None:
                self._begin(login)
            else:
                turn.acquire()
                self._wait(login, turn)
        while not turn.acquire(timeout=PATIENCE):
            if self._goes_on_without(login, turn):
                return
        self.mine.login = login

    def _wait(self, login: str, turn: threading.Lock) -> None:
        if login not in self.waiting:  # (who computed nothing meanwhile is owed nothing)
            self.waiting[login], self.spent[login] = deque(), max(self.spent.get(login, 0.0), self.least)
        self.waiting[login].append(turn)

    def _goes_on_without(self, login: str, turn: threading.Lock) -> bool:
        """Where one thread is held up, and it is not this one's turn by now."""
        with self.mutex:
            does = self.now() - self.since > PATIENCE and turn in self.waiting.get(login, ())
            if does:
                self._take(login, turn)
            return does

    def _take(self, login: str, turn: threading.Lock) -> None:
        self.waiting[login].remove(turn)
        if not self.waiting[login]:
            del self.waiting[login]

    def _begin(self, login: str) -> None:
        self.login, self.since, self.least = login, self.now(), self.spent.get(login, 0.0)

    def _leave(self) -> None:
        if self.holder is None:
            return
        self.mine.login = None
        with self.mutex:
            self.spent[self.login] = self.spent.get(self.login, 0.0) + self.now() - self.since
            if not self.waiting:
                self.login = None
                self.spent.clear()
                return
            login = min(self.waiting, key=self.spent.__getitem__)
            turn = self.waiting[login][0]
            self._take(login, turn)
            self._begin(login)
            turn.release()


def name_of(channel) -> str:
    """The login of a connection's request. (The front let it in by that; others share one turn.)"""
    try:
        return login_of(channel.requests[0].headers.get("AUTHORIZATION", ""))[0]
    except Answered:
        return ""


class Beyond:
    """What waitress answers to who comes beyond: at once, and without a thread."""

    @staticmethod
    def to_response(*_) -> tuple[str, list[tuple[str, str]], bytes]:
        fields = [("Content-Type", "text/plain; charset=utf-8"), ("Retry-After", LATER)]
        return f"503 {REASONS[503]}", fields, f"{TOO_MANY}\n".encode()


class Turns:
    """What a thread takes next: in the place of waitress's own queue, and under its lock."""

    def __init__(self, dispatcher):
        self.dispatcher, self.ready = dispatcher, deque()
        self.counts, self.waiting = Counter(), {}  # of logins: how many are ready or at work, and which wait

    def __len__(self) -> int:
        return len(self.ready)

    def append(self, channel) -> None:
        login = name_of(channel)
        waiting = self.waiting.get(login, ())
        if len(waiting) >= MOST_WAITING:
            channel.requests[0].error = Beyond
            channel.server.trigger.pull_trigger(channel.service)  # (by the thread that reads and writes)
        elif self.counts[login] >= MOST_AT_WORK:
            self.waiting.setdefault(login, deque()).append(channel)
        else:
            self._begin(login, channel)

    def _begin(self, login: str, channel) -> None:
        self.counts[login] += 1
        self.ready.append((login, channel))

    def popleft(self) -> "Turn":
        return Turn(self.dispatcher, *self.ready.popleft())

    def ended(self, login: str) -> None:
        self.counts[login] -= 1
        if not self.counts[login]:
            del self.counts[login]
        if login in self.waiting:
            self._begin(login, self.waiting[login].popleft())
            if not self.waiting[login]:
                del self.waiting[login]


class Turn:
    """A connection whose request is at work."""

    def __init__(self, dispatcher, login: str, channel):
        self.dispatcher, self.login, self.channel = dispatcher, login, channel

    def service(self) -> None:
        try:
            self.channel.service()
        finally:
            self.dispatcher.ended(self.login)

    def cancel(self) -> None:
        self.channel.cancel()


class Dispatcher(ThreadedTaskDispatcher):
    """waitress's threads, which take turns by login."""

    def __init__(self, threads: int = THREADS):
        super().__init__()
        self.queue = Turns(self)
        self.set_thread_count(threads)

    def ended(self, login: str) -> None:
        with self.lock:
            self.queue.ended(login)
            if self.queue:
                self.queue_cv.notify()
